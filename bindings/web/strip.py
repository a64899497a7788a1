#!/usr/bin/env python3
"""Drops from a WebAssembly module what machine.js beside this file doesn't need: strip.py FILE

- The custom sections, which name the functions and the compiler.
- The exports whose names aren't in machine.js: the library for C has more calls than that file makes.
- The bodies of the functions that no export is left to reach. Each becomes the instruction `unreachable`, so that every
  function keeps its number.

All that can run stays as it is, byte for byte."""
import re
import sys
from pathlib import Path

from wasm import CALL, CODE, EXPORTS, FUNCTION, bodies, counted, exports, instructions, module, sections, sized, variables

EMPTY_BODY = bytes([0, 0x00, 0x0B])  # no variables; unreachable; end


def calls(body):
    """Returns the functions that this one calls."""
    return {each.numbers[0] for each in instructions(body, variables(body)[1]) if each.code == CALL}


def reached(functions, starts):
    """Returns the functions that can run once these are called."""
    found = set()
    left = list(starts)
    while left:
        function = left.pop()
        if function not in found:
            found.add(function)
            left += calls(functions[function])
    return found


def stripped(data, words):
    found = sections(data)
    kept = [export for export in exports(found[EXPORTS]) if export[0] in words]
    functions = list(bodies(found[CODE]))
    running = reached(functions, [index for _, kind, index, _ in kept if kind == FUNCTION])
    found[EXPORTS] = counted([written for *_, written in kept])
    found[CODE] = counted([sized(body if i in running else EMPTY_BODY) for i, body in enumerate(functions)])
    return module(data, found)


if __name__ == "__main__":
    path = Path(sys.argv[1])
    words = set(re.findall(r"\w+", Path(__file__).with_name("machine.js").read_text("utf-8")))
    path.write_bytes(stripped(path.read_bytes(), words))
