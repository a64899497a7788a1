"""Reads and writes WebAssembly modules, as far as strip.py and lower.py need.

A section or an instruction that this file doesn't know, such as imports, tables, calls by pointer or vectors, is an error,
so that no other file has to think of them."""
import sys
from typing import NamedTuple

HEADER = 8  # the magic number and the version
CUSTOM, TYPES, FUNCTIONS, MEMORY, GLOBALS, EXPORTS, CODE, DATA = 0, 1, 3, 5, 6, 7, 10, 11
FUNCTION = 0  # the kind of an export
KNOWN = {TYPES, FUNCTIONS, MEMORY, GLOBALS, EXPORTS, CODE, DATA}

END, BR_TABLE, CALL, I32_CONST, I64_CONST, PREFIX = 0x0B, 0x0E, 0x10, 0x41, 0x42, 0xFC
LOADS, STORES = range(0x28, 0x36), range(0x36, 0x3F)
COPY, FILL = 10, 11  # memory.copy and memory.fill, after PREFIX
# How many numbers follow each instruction: after most of those for control and arithmetic none; after blocks,
# branches, calls, uses of variables and constants one; after loads and stores two, the alignment and the offset.
NUMBERS = dict.fromkeys([0x00, 0x01, 0x05, END, 0x0F, 0x1A, 0x1B, *range(0x45, 0xC5)], 0)
NUMBERS |= dict.fromkeys([0x02, 0x03, 0x04, 0x0C, 0x0D, CALL, *range(0x20, 0x25), I32_CONST, I64_CONST], 1)
NUMBERS |= dict.fromkeys([*LOADS, *STORES], 2)
NUMBERS_AFTER_PREFIX = {COPY: 2, FILL: 1}


class Instruction(NamedTuple):
    code: int
    which: int  # after PREFIX which one; else 0
    numbers: list  # unsigned, though a constant has a sign
    written: bytes


def number(data, at):
    """Returns the LEB128 number at a place, and the place after it."""
    value = shift = 0
    while True:
        byte = data[at]
        at += 1
        value |= (byte & 0x7F) << shift
        shift += 7
        if byte < 0x80:
            return value, at


def leb(value):
    """Returns a number in LEB128."""
    found = bytearray()
    while value >= 0x80:
        found.append(value & 0x7F | 0x80)
        value >>= 7
    return bytes([*found, value])


def sized(body):
    return leb(len(body)) + body


def counted(items):
    return leb(len(items)) + b"".join(items)


def sections(data):
    """Returns the body of each section that an engine needs, by its kind."""
    found = {}
    at = HEADER
    while at < len(data):
        kind = data[at]
        size, at = number(data, at + 1)
        if kind in KNOWN:
            found[kind] = data[at : at + size]
        elif kind != CUSTOM:
            sys.exit(f"wasm.py: there is a section of kind {kind}, which this file doesn't know")
        at += size
    return found


def module(data, found):
    """Returns the module with the header of `data` and these sections."""
    return data[:HEADER] + b"".join(bytes([kind]) + sized(body) for kind, body in found.items())


def exports(section):
    """Yields the name, kind, index and bytes of each export."""
    count, at = number(section, 0)
    for _ in range(count):
        start = at
        size, at = number(section, at)
        name, kind = section[at : at + size].decode(), section[at + size]
        index, at = number(section, at + size + 1)
        yield name, kind, index, section[start:at]


def bodies(section):
    """Yields the body of each function."""
    count, at = number(section, 0)
    for _ in range(count):
        size, at = number(section, at)
        yield section[at : at + size]
        at += size


def variables(body):
    """Returns the groups of a function's variables, each a count and a type, and the place of its first instruction."""
    groups = []
    count, at = number(body, 0)
    for _ in range(count):
        size, at = number(body, at)
        groups.append((size, body[at]))
        at += 1
    return groups, at


def instructions(body, at):
    """Yields each instruction from a place on."""
    while at < len(body):
        start, code, which = at, body[at], 0
        count, at = NUMBERS.get(code), at + 1
        if code == BR_TABLE:
            targets, at = number(body, at)
            count = targets + 1
        elif code == PREFIX:
            which, at = number(body, at)
            count = NUMBERS_AFTER_PREFIX.get(which)
        if count is None:
            sys.exit(f"wasm.py: there is an instruction {code:#x} {which}, which this file doesn't know")
        numbers = []
        for _ in range(count):
            value, at = number(body, at)
            numbers.append(value)
        yield Instruction(code, which, numbers, body[start:at])
