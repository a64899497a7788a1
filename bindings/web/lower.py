#!/usr/bin/env python3
"""Gives a WebAssembly module with a 64-bit memory a 32-bit memory instead, which every browser supports: lower.py FILE

Within the module the types of functions, variables and globals stay the same, so addresses stay 64-bit numbers there. The script
changes only these parts of the module:

- Before a load, `i32.wrap_i64` turns the address on the stack into a 32-bit number.
- For a store, `i32.wrap_i64` comes as soon as the address is on the stack, before the instructions that make the value. If it
  isn't known which instructions make the value, `i32.wrap_i64` comes after the value: a new variable of the function then
  holds the value while the address is changed.
- For memory.copy and memory.fill, the addresses and the length become 32-bit numbers, with the help of such variables.
- The memory itself gets 32-bit addresses, and so does each piece of data.
- Instead of an exported function, a new one is exported that takes 32-bit numbers where the old one takes 64-bit numbers, and
  calls it with them: to pass a 64-bit number, JavaScript makes a BigInt, which takes longer than to encode a short message. A
  function that returns a 64-bit number is exported as it is.

An address below 4 GiB is the same number in 32 bits. So an access within a memory of at most 4 GiB reads or writes the same
bytes as before. An access outside of the memory traps in a 64-bit memory, but may not trap in the 32-bit memory. So machine.js
passes no address beyond 4 GiB to the module: it throws an error instead. The script reports an error for an offset of 2 GiB
or more, for a memory with a maximum, and for an instruction that returns or changes the size of the memory."""
import sys
from pathlib import Path

from wasm import CALL, CODE, COPY, DATA, END, EXPORTS, FUNCTION, FUNCTIONS, I32_CONST, I64_CONST, LOADS, MEMORY, PREFIX, STORES, TYPES
from wasm import bodies, counted, exports, instructions, leb, module, number, sections, sized, variables

I32, I64 = 0x7F, 0x7E
HAS_64_BITS = 4  # the flag of a memory without a maximum whose addresses have 64 bits
WRAP = bytes([0xA7])  # i32.wrap_i64
EXTEND = bytes([0xAD])  # i64.extend_i32_u
TYPE_OF_FUNCTION = 0x60
I32_STORES, FLOAT_STORES = {0x36, 0x3A, 0x3B}, {0x38, 0x39}
FAR = 1 << 31

# How many values an instruction removes from the stack, and how many it puts on the stack. An instruction that isn't listed
# branches, calls, or ends a block.
STACK = dict.fromkeys([0x20, 0x23, I32_CONST, I64_CONST], (0, 1))  # local.get, global.get
STACK |= dict.fromkeys([0x1A, 0x21, 0x24], (1, 0))  # drop, local.set, global.set
STACK |= dict.fromkeys([0x22, *LOADS], (1, 1))  # local.tee
STACK |= dict.fromkeys(STORES, (2, 0))
STACK |= dict.fromkeys([0x45, 0x50, *range(0x67, 0x6A), *range(0x79, 0x7C), 0xA7, 0xAC, 0xAD, *range(0xC0, 0xC5)], (1, 1))
STACK |= dict.fromkeys([*range(0x46, 0x50), *range(0x51, 0x5B), *range(0x6A, 0x79), *range(0x7C, 0x8B)], (2, 1))
STACK |= {0x1B: (3, 1)}  # select


def put_by(variable):
    return b"\x21" + leb(variable)  # local.set


def taken_back(variable):
    return b"\x20" + leb(variable)  # local.get


class Narrowing:
    """The changed instructions of a function. For each of the topmost values of the stack, `starts` has the index in `code` at
    which the instructions that make the value begin."""

    def __init__(self, first):
        self.narrow, self.second, self.wide = first, first + 1, first + 2  # new variables, of 32, 32 and 64 bits
        self.needs_variables = False
        self.code = []
        self.starts = []

    def take(self, each):
        start = len(self.code)
        if each.code in LOADS:
            self.code.append(WRAP)
        elif each.code in STORES and self.starts:
            self.code.insert(self.starts[-1], WRAP)
        elif each.code in STORES:
            self.narrow_below(self.narrow if each.code in I32_STORES else self.wide)
        elif each.code == PREFIX:
            # the stack has the two addresses, or the address and a byte, and on top of them the length
            self.code += [WRAP, put_by(self.narrow)] + ([WRAP] if each.which == COPY else [])
            self.narrow_below(self.second)
            self.code.append(taken_back(self.narrow))
        self.code.append(each.written)
        self.follow(STACK.get(each.code), start)

    def narrow_below(self, variable):
        """Turns the value below the topmost value of the stack into a 32-bit number."""
        self.code += [put_by(variable), WRAP, taken_back(variable)]
        self.needs_variables = True

    def follow(self, counts, start):
        """Updates `starts` after an instruction whose code begins at `start`. `counts` are its counts in STACK."""
        if counts is None or counts[0] > len(self.starts):
            self.starts = []
            return
        pops, pushes = counts
        kept = len(self.starts) - pops
        first = (self.starts[kept:] + [start])[0]
        self.starts = self.starts[:kept] + [first] * pushes


def lowered(body, parameters):
    """Returns the body of a function, changed to use 32-bit addresses. The function has `parameters` parameters."""
    groups, at = variables(body)
    narrowing = Narrowing(parameters + sum(size for size, _ in groups))
    for each in instructions(body, at):
        if each.code in (*LOADS, *STORES) and (each.numbers[1] >= FAR or each.code in FLOAT_STORES):
            sys.exit(f"lower.py: there is an instruction {each.code:#x} with the offset {each.numbers[1]}")
        narrowing.take(each)
    if narrowing.needs_variables:
        groups += [(2, I32), (1, I64)]
    return counted([leb(size) + bytes([kind]) for size, kind in groups]) + b"".join(narrowing.code)


def types_of(section):
    """Returns the types of the parameters and of the results for each type of function."""
    found = []
    count, at = number(section, 0)
    for _ in range(count):
        at += 1  # TYPE_OF_FUNCTION
        of = []
        for _ in range(2):
            size, at = number(section, at)
            of.append(section[at : at + size])
            at += size
        found.append(tuple(of))
    return found


def kinds_of(section):
    """Returns the index of each function's type."""
    count, at = number(section, 0)
    kinds = []
    for _ in range(count):
        kind, at = number(section, at)
        kinds.append(kind)
    return kinds


def narrow(parameters):
    return parameters.replace(bytes([I64]), bytes([I32]))


def call_with(parameters, index):
    """Returns the body of a function that calls another one, with the same numbers in the types of these parameters."""
    numbers = b"".join(taken_back(i) + (EXTEND if kind == I64 else b"") for i, kind in enumerate(parameters))
    return b"\0" + numbers + bytes([CALL]) + leb(index) + bytes([END])


def export_narrow(found, types, kinds):
    """Adds the functions that take 32-bit numbers to the sections and to `types`, and returns their bodies."""
    added, bodies_added, written = [], [], []
    for name, kind, index, entry in exports(found[EXPORTS]):
        parameters, results = types[kinds[index]] if kind == FUNCTION else (b"", b"")
        if I64 in parameters and I64 not in results:
            if (narrow(parameters), results) not in types:
                types.append((narrow(parameters), results))
            bodies_added.append(call_with(parameters, index))
            entry = sized(name.encode()) + bytes([FUNCTION]) + leb(len(kinds) + len(added))
            added.append(types.index((narrow(parameters), results)))
        written.append(entry)
    found[TYPES] = counted([bytes([TYPE_OF_FUNCTION]) + sized(takes) + sized(gives) for takes, gives in types])
    found[FUNCTIONS] = counted([leb(kind) for kind in kinds + added])
    found[EXPORTS] = counted(written)
    return bodies_added


def memory_of(section):
    count, at = number(section, 0)
    if count != 1 or section[at] != HAS_64_BITS:
        sys.exit("lower.py: the module hasn't got one 64-bit memory without a maximum")
    return leb(1) + bytes([0]) + section[at + 1 :]


def data_of(section):
    """Returns the pieces of data with `i32.const`. In `section` each piece is `0, i64.const ADDRESS, end, LENGTH, BYTES`."""
    pieces = []
    count, at = number(section, 0)
    for _ in range(count):
        if section[at] != 0 or section[at + 1] != I64_CONST:
            sys.exit("lower.py: there is a piece of data without a constant address")
        address, end = number(section, at + 2)
        if address >= FAR:
            sys.exit(f"lower.py: there is data at {address}")
        size, start = number(section, end + 1)
        pieces.append(bytes([0, I32_CONST]) + section[at + 2 : start + size])
        at = start + size
    return counted(pieces)


def lower(data):
    found = sections(data)
    types, kinds = types_of(found[TYPES]), kinds_of(found[FUNCTIONS])
    found[MEMORY] = memory_of(found[MEMORY])
    found[DATA] = data_of(found[DATA])
    functions = zip(kinds, bodies(found[CODE]), strict=True)
    changed = [lowered(body, len(types[kind][0])) for kind, body in functions]
    found[CODE] = counted([sized(body) for body in changed + export_narrow(found, types, kinds)])
    return module(data, found)


if __name__ == "__main__":
    path = Path(sys.argv[1])
    path.write_bytes(lower(path.read_bytes()))
