#!/usr/bin/env python3
"""Checks that jcobs.c does what the proved functions do: tests/translated.py [CRATES [FILE [CALLS]]]

This script runs the Rattle functions of the calls of jcobs.h itself, statement by statement, and compares each call with the same call of
the compiled jcobs.c: the result, the state and every byte of the buffers must be the same. It shares no code with translate.py. With
JCOBS_FAST the threshold SHORT has its value, and without JCOBS_FAST it is usize::MAX. The script also checks that no
number of Rattle overflows, and that the calls reach each block of statements of the functions that they call, except those of UNREACHED.

It prints the first difference. If there is one, the status is 1.
"""

import ctypes
import os
import random
import re
import subprocess
import sys
import tempfile
from pathlib import Path

C = Path(__file__).resolve().parent.parent
CRATES = Path(sys.argv[1] if len(sys.argv) > 1 else C / "../../crates").resolve()
SOURCE = Path(sys.argv[2] if len(sys.argv) > 2 else C / "source/jcobs.c")
CALLS = int(sys.argv[3]) if len(sys.argv) > 3 else 6000
BY_HAND = ("jcobs_strerror", "jcobs_version", "jcobs_abi_1")
# Blocks that no call reaches, by the function and the first words of the block.
UNREACHED = set()
TOKEN = re.compile(
    r"""(?P<gap>\s+|//[^\n]*)|(?P<label>'[a-z]\w*(?!'))|(?P<string>b?"(?:\\.|[^"\\])*")|(?P<number>0x[\da-fA-F_]+|\d[\d_]*)|(?P<word>\w+)"""
    r"""|(?P<sign>=>|->|::|\.\.|&&|\|\||[-+*/%^&|=!<>]=|\S)""",
    re.S,
)
LEVELS = [("||",), ("&&",), ("==", "!=", "<", ">", "<=", ">="), ("|",), ("^",), ("&",), ("+", "-"), ("*", "/", "%")]
LIMITS = {"u8": 255, "u32": 2**32 - 1, "usize": 2**64 - 1}


class Wrong(Exception):
    pass


class Left(Exception):
    """A return, break or continue."""

    def __init__(self, kind, value=None):
        self.kind, self.value = kind, value


class Record:
    """A struct. Members are numbers."""

    def __init__(self, of, members):
        self.of, self.members = of, members

    def copy(self):
        return Record(self.of, dict(self.members))

    def __eq__(self, other):
        return self.members == other.members


class Slice:
    def __init__(self, of, begin, length):
        self.of, self.begin, self.length = of, begin, length

    def at(self, index):
        if not 0 <= index < self.length:
            raise Wrong(f"index {index} of {self.length}")
        return self.begin + index

    def part(self, begin, end):
        end = self.length if end is None else end
        if not 0 <= begin <= end <= self.length:
            raise Wrong(f"{begin}..{end} of {self.length}")
        return Slice(self.of, self.begin + begin, end - begin)

    def bytes(self):
        return self.of[self.begin : self.begin + self.length]


class Parser:
    """Reads a body, or an expression, as nested tuples."""

    def __init__(self, words):
        self.words, self.i = [*words, ""], 0

    def next(self):
        self.i += 1
        return self.words[self.i - 1]

    def take(self, word):
        if self.words[self.i] == word:
            self.i += 1
            return True
        return False

    def want(self, word):
        if not self.take(word):
            raise Wrong(f"{word} is wanted, at {' '.join(self.words[self.i : self.i + 8])}")

    def block(self):
        self.want("{")
        begun, found, value = self.i, [], None
        while not self.take("}"):
            value = None
            kind, *rest = self.statement()
            if not self.take(";") and kind == "value" and self.words[self.i] == "}":
                value = rest[0]
            else:
                found.append((kind, *rest))
        return ("block", found, value, " ".join(self.words[begun : begun + 6]))

    def statement(self):
        if self.words[self.i][0] == "'" and self.words[self.i + 1] == ":":
            self.i += 2
        if self.take("let"):
            pattern = self.pattern()
            if self.take(":"):
                self.type()
            self.want("=")
            value, other = self.expression(), self.block() if self.take("else") else None
            self.want(";")
            return ("let", pattern, value, other)
        if self.take("while"):
            return ("while", self.expression(False), self.block())
        if self.take("loop"):
            return ("while", ("number", 1), self.block())
        if self.take("for"):
            is_value, name = self.take("&"), self.next()
            self.want("in")
            return ("for", name, self.expression(False), self.block(), is_value)
        if self.words[self.i] in ("if", "match"):
            return ("value", self.primary(True))
        value = self.expression()
        if self.words[self.i] in ("=", "+=", "-=", "^=", "*="):
            return ("assign", self.next(), value, self.expression())
        return ("value", value)

    def type(self):
        begun, depth = self.i, 0
        while depth or self.words[self.i] not in (",", "=", ";", ""):
            depth += (self.words[self.i] in ("<", "(", "[")) - (self.words[self.i] in (">", ")", "]"))
            self.i += 1
        return " ".join(self.words[begun : self.i])

    def pattern(self):
        found = self.one_pattern()
        while self.take("|"):
            found = ("or", found, self.one_pattern())
        return found

    def one_pattern(self):
        self.take("mut")
        if self.take("("):
            return ("tuple", self.several(")", self.pattern))
        word = self.next()
        while self.take("::"):
            word = self.next()
        if self.take("("):
            return ("variant", word, self.several(")", self.pattern))
        if self.words[self.i] == "{" and word[0].isupper():
            self.i += 1
            return ("fields", word, self.several("}", self.field_pattern))
        return ("variant", word, []) if word[0].isupper() else ("name", word)

    def field_pattern(self):
        name = self.next()
        return (name, self.pattern() if self.take(":") else ("name", name))

    def several(self, end, read):
        found = []
        while not self.take(end):
            found.append(read())
            self.take(",")
        return found

    def expression(self, struct=True):
        value = None if self.words[self.i] == ".." else self.binary(0, struct)
        if self.take(".."):
            return ("range", value, None if self.words[self.i] in ("]", "{", ")") else self.binary(0, struct))
        return value

    def binary(self, level, struct):
        if level == len(LEVELS):
            value = self.unary(struct)
            while self.take("as"):
                value = ("as", value, self.next())
            return value
        value = self.binary(level + 1, struct)
        while self.words[self.i] in LEVELS[level]:
            value = ("binary", self.next(), value, self.binary(level + 1, struct))
        return value

    def unary(self, struct):
        if self.take("!"):
            return ("not", self.unary(struct))
        if self.take("*"):
            return ("deref", self.unary(struct))
        if self.take("&"):
            self.take("mut")
            return ("borrow", self.unary(struct))
        value = self.primary(struct)
        while True:
            if self.take("."):
                name = self.next()
                value = ("method", name, value, self.several(")", self.expression)) if self.take("(") else ("field", name, value)
            elif self.take("["):
                value = ("index", value, self.expression())
                self.want("]")
            elif self.take("?"):
                value = ("try", value)
            else:
                return value

    def primary(self, struct):
        word = self.next()
        if word[0].isdigit():
            return ("number", int(word.replace("_", ""), 0))
        if word == "(":
            found = self.several(")", self.expression)
            return found[0] if len(found) == 1 else ("tuple", found)
        if word == "[":
            return ("array", self.several("]", self.expression))
        if word == "{":
            self.i -= 1
            return self.block()
        if word in ("return", "break", "continue"):
            return ("leave", word, None if self.words[self.i] in (";", "}", ",") else self.expression())
        if word == "if":
            return self.condition()
        if word == "match":
            value = self.expression(False)
            self.want("{")
            return ("match", value, self.several("}", self.arm))
        path = [word]
        while self.take("::"):
            path.append(self.next())
        if self.take("("):
            return ("call", path, self.several(")", self.expression))
        if struct and self.words[self.i] == "{" and path[-1][0].isupper():
            self.i += 1
            return ("struct", path, self.several("}", self.field))
        return ("path", path)

    def condition(self):
        pattern = None
        if self.take("let"):
            pattern = self.pattern()
            self.want("=")
        value, then = self.expression(False), self.block()
        other = None
        if self.take("else"):
            other = self.condition() if self.take("if") else self.block()
        return ("if", pattern, value, then, other)

    def arm(self):
        pattern = self.pattern()
        self.want("=>")
        value = self.expression()
        if self.words[self.i] == "=":
            value = ("block", [("assign", self.next(), value, self.expression())], None, "an arm")
        return (pattern, value)

    def field(self):
        if self.take(".."):
            return ("..", self.expression())
        name = self.next()
        return (name, self.expression() if self.take(":") else ("path", [name]))


def ending(words, at):
    """Returns the index after the group of brackets that begins at `at`."""
    depth = 0
    while True:
        depth += (words[at] in ("(", "{", "[")) - (words[at] in (")", "}", "]"))
        at += 1
        if depth == 0:
            return at


class Program:
    """The functions, constants and structs of the crates."""

    def __init__(self):
        self.functions, self.constants, self.members, self.reached, self.blocks = {}, {}, {}, set(), {}
        for crate in ("cobs_c", "cobs"):
            for path in sorted((CRATES / crate / "src").rglob("*.rt")):
                words = [it[0] for it in TOKEN.finditer(path.read_text()) if it.lastgroup != "gap"]
                self.read(path, words, 0, len(words), "")

    def read(self, path, words, at, end, owner):
        while at < end:
            word = words[at]
            if word == "impl":
                begin = words.index("{", at)
                stop = ending(words, begin)
                if begin == at + 2:
                    self.read(path, words, begin + 1, stop - 1, words[at + 1])
                at = stop
            elif word == "fn":
                at = self.function(path, words, at, owner)
            elif word == "const" and words[at + 2] == ":":
                stop = words.index(";", at)
                self.constants[words[at + 1]] = words[words.index("=", at) + 1 : stop]
                at = stop
            elif word == "struct" and words[at + 2] == "{":
                stop = ending(words, at + 2)
                self.members[words[at + 1]] = dict(re.findall(r"(\w+) : (\w+)", " ".join(words[at + 2 : stop])))
                at = stop
            elif word in ("trait", "macro_rules"):
                at = ending(words, words.index("{", at))
            else:
                at = ending(words, at) if word == "{" else at + 1

    def function(self, path, words, at, owner):
        name, at = words[at + 1], words.index("(", at)
        stop = ending(words, at)
        params, given = [], Parser(words[at + 1 : stop - 1])
        while given.words[given.i]:
            is_borrowed = given.take("&")
            given.take("mut")
            param = given.next()
            kind = given.type() if given.take(":") else f"{'& ' * is_borrowed}{owner}"
            params.append((param, kind))
            given.take(",")
        at = stop
        while words[at] not in ("{", "requires", "ensures", ";"):
            at += 1
        while words[at] in ("requires", "ensures"):
            at = ending(words, words.index("{", at))
        if words[at] == ";":
            return at + 1
        stop = ending(words, at)
        self.functions.setdefault(f"{owner}::{name}" if owner else name, []).append((path, params, words[at:stop]))
        return stop

    def found(self, name, path):
        """Returns the function with this name, in the form ("NAME", PARAMETERS, BODY). If there are several, that of this file counts."""
        them = self.functions[name]
        one = next((it for it in them if it[0] == path), them[0])
        if len(them) > 1 and one[0] != path:
            raise Wrong(f"{name} is in several files")
        key = (one[0], name)
        if key not in self.blocks:
            self.blocks[key] = (one[0], name, one[1], Parser(one[2]).block())
        return self.blocks[key]


class Machine:
    """Runs a function."""

    def __init__(self, program, short):
        self.program, self.short = program, short

    def call(self, name, path, args):
        path, name, params, body = self.program.found(name, path)
        env = {}
        for (param, kind), arg in zip(params, args, strict=True):
            env[param] = arg.copy() if isinstance(arg, Record) and kind[0] != "&" else arg
            if kind in LIMITS and not 0 <= arg <= LIMITS[kind]:
                raise Wrong(f"{name}: {param} is {arg}")
        try:
            return Frame(self, path, name, env).value(body)
        except Left as left:
            return left.value


class Frame:
    def __init__(self, machine, path, name, env):
        self.machine, self.path, self.name, self.env = machine, path, name, env

    def value(self, tree):
        return getattr(self, f"on_{tree[0]}")(*tree[1:])

    def number(self, value):
        if not 0 <= value < 2**64:
            raise Wrong(f"{self.name}: {value} overflows")
        return value

    def on_block(self, statements, value, words):
        self.machine.program.reached.add((self.path, self.name, words))
        before = dict(self.env)
        try:
            for statement in statements:
                self.run(statement)
            return () if value is None else self.value(value)
        finally:
            self.env = {name: self.env[name] if name not in self.fresh(statements) else it for name, it in before.items()}

    def fresh(self, statements):
        """Returns the names that these statements declare."""
        return set(re.findall(r"\('name', '(\w+)'\)", str([it[1] for it in statements if it[0] == "let"])))

    def run(self, statement):
        kind, *rest = statement
        if kind == "let":
            pattern, tree, other = rest
            value = self.value(tree)
            value = value.copy() if isinstance(value, Record) and tree[0] == "path" else value
            if not self.bind(pattern, value):
                self.value(other)
                raise Wrong(f"{self.name}: the else goes on")
        elif kind == "value":
            self.value(rest[0])
        elif kind == "while":
            while self.value(rest[0]):
                try:
                    self.value(rest[1])
                except Left as left:
                    if left.kind == "return":
                        raise
                    if left.kind == "break":
                        break
        elif kind == "for":
            self.each(*rest)
        else:
            self.assign(*rest)

    def each(self, name, over, body, is_value):
        over = self.value(over)
        if isinstance(over, Slice):
            over = over.bytes() if is_value else [("byte", over, i) for i in range(over.length)]
        for value in over:
            self.env[name] = value
            try:
                self.value(body)
            except Left as left:
                if left.kind == "return":
                    raise
                if left.kind == "break":
                    break
        self.env.pop(name, None)

    def assign(self, sign, to, tree):
        value = self.value(tree)
        if sign != "=":
            value = self.combined(sign[0], self.value(to), value)
        if to[0] == "path":
            self.env[to[1][0]] = value
        elif to[0] == "field":
            of = self.value(to[2])
            if value > LIMITS[self.machine.program.members[of.of][to[1]]]:
                raise Wrong(f"{self.name}: {to[1]} becomes {value}")
            of.members[to[1]] = value
        elif to[0] == "index":
            of = self.value(to[1])
            of.of[of.at(self.value(to[2]))] = value
        else:
            of = self.value(to[1])
            if isinstance(of, tuple):
                of[1].of[of[1].at(of[2])] = value
            else:
                of.members.update(value.members)

    def bind(self, pattern, value):
        """Gives the names of a pattern their values, and returns whether the pattern matches."""
        kind, *rest = pattern
        if kind == "name":
            if rest[0] != "_":
                self.env[rest[0]] = value
            return True
        if kind == "or":
            return any(self.bind(it, value) for it in rest)
        if kind == "tuple":
            return all(self.bind(it, each) for it, each in zip(rest[0], value, strict=True))
        if value[0] != rest[0]:
            return False
        if kind == "fields":
            return all(self.bind(it, value[1][name]) for name, it in rest[1])
        return all(self.bind(it, each) for it, each in zip(rest[1], value[1:], strict=True))

    def on_number(self, value):
        return value

    def on_path(self, path):
        if path[-1] in self.env and len(path) == 1:
            return self.env[path[0]]
        if path[-1] in ("true", "false"):
            return path[-1] == "true"
        if path[-1] == "SHORT":
            return self.machine.short
        if path == ["usize", "MAX"]:
            return 2**64 - 1
        if path[-1] in self.machine.program.constants and len(path) == 1:
            return Frame(self.machine, self.path, path[0], {}).value(Parser(self.machine.program.constants[path[0]]).expression())
        if not path[-1][0].isupper():
            raise Wrong(f"{self.name}: {path}")
        return (path[-1],)

    def on_tuple(self, parts):
        return tuple(map(self.value, parts))

    def on_array(self, parts):
        return Slice(bytearray(map(self.value, parts)), 0, len(parts))

    def on_struct(self, path, fields):
        found = {name: self.value(it) for name, it in fields}
        rest = found.pop("..", None)
        if path[-1] not in self.machine.program.members:
            return (path[-1], found)
        members = self.machine.program.members[path[-1]]
        values = {**(rest.members if rest else {}), **found}
        if set(values) != set(members) or any(values[it] > LIMITS[kind] for it, kind in members.items()):
            raise Wrong(f"{self.name}: the members {values}")
        return Record(path[-1], values)

    def on_field(self, name, of):
        return self.value(of).members[name]

    def on_index(self, of, index):
        of = self.value(of)
        if index[0] == "range":
            return of.part(self.value(index[1]) if index[1] else 0, self.value(index[2]) if index[2] else None)
        return of.of[of.at(self.value(index))]

    def on_range(self, begin, end):
        return range(self.value(begin), self.value(end))

    def on_borrow(self, of):
        return self.value(of)

    def on_deref(self, of):
        of = self.value(of)
        return of.copy() if isinstance(of, Record) else of[1].of[of[1].at(of[2])]

    def on_not(self, of):
        return not self.value(of)

    def on_as(self, of, kind):
        return int(self.value(of)) & LIMITS[kind]

    def on_binary(self, sign, left, right):
        if sign in ("&&", "||"):
            return bool(self.value(left)) and bool(self.value(right)) if sign == "&&" else bool(self.value(left)) or bool(self.value(right))
        return self.combined(sign, self.value(left), self.value(right))

    def combined(self, sign, a, b):
        if sign in LEVELS[2]:
            return {"==": a == b, "!=": a != b}[sign] if sign in ("==", "!=") else {"<": a < b, ">": a > b, "<=": a <= b, ">=": a >= b}[sign]
        return self.number({"+": lambda: a + b, "-": lambda: a - b, "*": lambda: a * b, "/": lambda: a // b, "%": lambda: a % b}[sign]() if sign in "+-*/%" else a ^ b)

    def on_leave(self, kind, value):
        raise Left(kind, () if value is None else self.value(value))

    def on_if(self, pattern, value, then, other):
        before = dict(self.env)
        of = self.value(value)
        if self.bind(pattern, of) if pattern else of:
            return self.inside(before, then)
        return () if other is None else self.value(other)

    def inside(self, before, tree):
        value = self.value(tree)
        self.env = {name: self.env.get(name, it) for name, it in before.items()}
        return value

    def on_match(self, value, arms):
        value, before = self.value(value), dict(self.env)
        for at, (pattern, body) in enumerate(arms):
            self.env = dict(before)
            if self.bind(pattern, value):
                self.machine.program.reached.add((self.path, self.name, f"arm {at} {pattern}"))
                return self.inside(before, body)
        raise Wrong(f"{self.name}: no arm for {value}")

    def on_try(self, tree):
        value = self.value(tree)
        if value[0] in ("None", "Err"):
            raise Left("return", value)
        return value[1]

    def on_call(self, path, args):
        name = path[-1]
        args = [self.value(it) for it in args]
        if name[0].isupper():
            return (name, *args)
        if re.fullmatch(r"law_\d+", name):
            return ()
        if name in ("memchr", "memrchr"):
            byte, of = args
            at = (of.bytes().find if name == "memchr" else of.bytes().rfind)(byte)
            return ("None",) if at < 0 else ("Some", at)
        owner = f"{path[-2]}::" if len(path) > 1 and path[-2][0].isupper() else ""
        return self.machine.call(owner + name, self.path, args)

    def on_method(self, name, of, args):
        of, args = self.value(of), [self.value(it) for it in args]
        if isinstance(of, Record):
            return self.machine.call(f"{of.of}::{name}", self.path, [of, *args])
        if isinstance(of, Slice):
            return self.of_slice(name, of, args)
        if isinstance(of, tuple):
            if name == "unwrap_or":
                return of[1] if of[0] in ("Some", "Ok") else args[0]
            return {"is_err": of[0] == "Err", "is_ok": of[0] == "Ok", "is_some": of[0] == "Some", "is_none": of[0] == "None"}[name]
        return self.of_number(name, of, *args)

    def of_number(self, name, a, b):
        if name == "checked_add":
            return ("Some", a + b) if a + b < 2**64 else ("None",)
        known = {"min": min, "max": max, "saturating_sub": lambda a, b: max(0, a - b), "div_ceil": lambda a, b: -(-a // b)}
        return known[name](a, b)

    def of_slice(self, name, of, args):
        if name in ("len", "is_empty"):
            return of.length if name == "len" else of.length == 0
        if name in ("iter", "iter_mut"):
            return of
        if name == "copy_from_slice":
            if args[0].length != of.length:
                raise Wrong(f"{self.name}: {args[0].length} bytes to {of.length}")
            of.of[of.begin : of.begin + of.length] = args[0].bytes()
            return ()
        if name == "copy_within":
            begin, end, to = args[0].start, args[0].stop, args[1]
            moved = of.part(begin, end).bytes()
            place = of.part(to, to + end - begin)
            of.of[place.begin : place.begin + place.length] = moved
            return ()
        raise Wrong(f"{self.name}: {name} of a slice")


class Answer(ctypes.Structure):
    _fields_ = [("status", ctypes.c_int), ("consumed", ctypes.c_size_t), ("length", ctypes.c_size_t)]


class Decoder(ctypes.Structure):
    _fields_ = [("written", ctypes.c_size_t), *((it, ctypes.c_ubyte) for it in ("missing", "joint", "too_long"))]


class Encoder(ctypes.Structure):
    _fields_ = [("index", ctypes.c_size_t), *((it, ctypes.c_ubyte) for it in ("taken", "full"))]


STATES = {"UnbufferedDecoder": Decoder, "UnbufferedEncoder": Encoder}


def anything(rng):
    """Returns a few bytes, or many: random, with few or many zeros, or small numbers."""
    length = rng.choice([rng.randrange(12), rng.randrange(40), rng.choice([15, 16, 17, 18, 33]), rng.randrange(248, 262), rng.randrange(600)])
    kind = rng.randrange(5)
    if rng.randrange(12) == 0:  # full blocks, and no other
        return bytearray(1 + rng.randrange(255) for _ in range(rng.choice([254, 508])))
    if kind == 0:
        return bytearray(rng.randrange(256) for _ in range(length))
    if kind == 1:
        return bytearray(1 + rng.randrange(255) for _ in range(length))
    if kind == 2:
        return bytearray(rng.choice([0, 0, 1, 2, 3, 255]) for _ in range(length))
    if kind == 3:
        return bytearray(rng.choice([1, 2, 3, 4, 5, 9, 17, 30, 0 if rng.randrange(4) == 0 else 6]) for _ in range(length))
    return bytearray(0 if rng.randrange(60) == 0 else 7 for _ in range(length))


def framed(rng, message):
    """Returns a frame of the message, or a part of one, and sometimes more bytes."""
    out = bytearray([0])
    code = 0
    for byte in message:
        if byte:
            out.append(byte)
        if byte == 0 or len(out) - code == 255:
            out[code] = len(out) - code
            code = len(out)
            out.append(0)
    out[code] = len(out) - code
    after = bytearray(rng.choice([b"", b"\0", b"\0\0\x02\x07\0", b"\x05"]))
    return bytearray(b"\0" * rng.choice([0, 0, 1, 20])) + (out[: rng.randrange(len(out) + 1)] if rng.randrange(3) == 0 else out) + after


def state_of(rng, of, room):
    if rng.randrange(3) == 0:
        return [0] * len(STATES[of]._fields_)
    number = rng.choice([0, 1, rng.randrange(room + 2), room, max(0, room - 1), 2**64 - 1])
    return [number, *(rng.choice([0, 0, 1, 2, 253, 254, 255, rng.randrange(256)]) for _ in STATES[of]._fields_[1:])]


class Case:
    """The arguments of one call, for Rattle and for C."""

    def __init__(self, rng, name, params):
        message = anything(rng)
        is_decoder = "decode" in name or name == "jcobs_frame_kind"
        self.bytes = framed(rng, message) if is_decoder and rng.randrange(4) else message
        sentinel = rng.choice([0, 1, 7, 255])
        if "sentinel" in name and is_decoder:
            self.bytes = bytearray(it ^ sentinel for it in self.bytes)
        room = rng.choice([rng.randrange(20), len(self.bytes), len(self.bytes) + rng.randrange(4), len(self.bytes) + 20, rng.randrange(len(self.bytes) + 1)])
        self.buffer = bytearray(rng.randrange(256) for _ in range(room))
        if "in_place" in name and is_decoder:
            self.buffer = bytearray(self.bytes)
        length = len(self.buffer)
        self.rattle, self.c, self.state, self.seen = [], [], None, []
        for param, kind in params:
            if kind in ("& mut [ u8 ]", "& [ u8 ]"):
                given = self.buffer if "mut" in kind else self.bytes
                kept = (ctypes.c_ubyte * (len(given) + 8)).from_buffer_copy(bytes(given) + b"\x5a" * 8)
                own = bytearray(given)
                self.seen.append((own, kept))
                self.rattle.append(Slice(own, 0, len(own)))
                self.c += [ctypes.cast(kept, ctypes.c_void_p), ctypes.c_size_t(len(given))]
            elif kind.startswith("& "):
                of = kind.split()[-1]
                values = state_of(rng, of, length)
                self.state = (Record(of, dict(zip([it for it, _ in STATES[of]._fields_], values))), STATES[of](*values))
                self.rattle.append(self.state[0])
                self.c.append(ctypes.byref(self.state[1]))
            elif kind == "u8":
                value = sentinel if param == "sentinel" else rng.choice([0, 1, 7, 255, rng.randrange(256)])
                self.rattle.append(value)
                self.c.append(ctypes.c_ubyte(value))
            else:
                value = rng.choice([length, length - length // 254 - 1 if length > 2 else 0, rng.randrange(length + 2), rng.randrange(600), 2**64 - 1 - rng.randrange(3), 2**64 * 254 // 255 - rng.randrange(3)])
                self.rattle.append(value)
                self.c.append(ctypes.c_size_t(value))

    def differs(self, result, answer):
        if isinstance(result, Record):
            if [result.members[it] for it, _ in Answer._fields_] != [getattr(answer, it) for it, _ in Answer._fields_]:
                return f"the result is {result.members}, and in C {[getattr(answer, it) for it, _ in Answer._fields_]}"
        elif result != () and result != answer:
            return f"the result is {result}, and in C {answer}"
        if self.state and any(self.state[0].members[it] != getattr(self.state[1], it) for it in self.state[0].members):
            return f"the state is {self.state[0].members}, and in C {[getattr(self.state[1], it) for it in self.state[0].members]}"
        if any(bytes(own) + b"\x5a" * 8 != bytes(kept) for own, kept in self.seen):
            return "the bytes"
        return None


def compiled(work, *flags):
    target = Path(work) / f"jcobs{len(flags)}.so"
    subprocess.run([os.environ.get("CC", "cc"), "-std=c99", "-O1", "-shared", "-fPIC", *flags, f"-I{C / 'include'}", "-o", target, SOURCE], check=True)
    return ctypes.CDLL(str(target))


def compared(program, library, short):
    """Makes random calls, and yields the differences."""
    rng, machine = random.Random(7), Machine(program, short)
    names = [it for it in program.functions if it.startswith("jcobs_") and it not in BY_HAND]
    for at in range(CALLS):
        name = names[at % len(names)]
        path, _, params, _ = program.found(name, None) if len(program.functions[name]) == 1 else (None,) * 4
        case = Case(rng, name, params)
        call = getattr(library, name)
        call.restype = {"jcobs_max_length": ctypes.c_size_t, "jcobs_frame_kind": ctypes.c_uint, "jcobs_decoder_is_idle": ctypes.c_uint}.get(name, None if name.endswith("_reset") else Answer)
        try:
            result = machine.call(name, path, case.rattle)
        except Wrong as what:
            yield f"{name}, call {at}: {what}"
            return
        if found := case.differs(result, call(*case.c)):
            yield f"{name}, call {at}, {'with' if short < 2**32 else 'without'} JCOBS_FAST: {found}"
            return


def blocks_of(tree):
    """Yields the first words of each block, and each arm of a match."""
    if isinstance(tree, (tuple, list)):
        if len(tree) == 4 and tree[0] == "block":
            yield tree[3]
        if len(tree) == 3 and tree[0] == "match":
            yield from (f"arm {at} {pattern}" for at, (pattern, _) in enumerate(tree[2]))
        for it in tree:
            yield from blocks_of(it)


def main():
    program, found = Program(), []
    short = int(program.constants["SHORT"][0])
    with tempfile.TemporaryDirectory() as work:
        found += compared(program, compiled(work), LIMITS["usize"])
        found += compared(program, compiled(work, "-DJCOBS_FAST"), short)
    if not found:
        for path, name, _, body in program.blocks.values():
            missing = {it for it in blocks_of(body) if (path, name, it) not in program.reached and (name, it) not in UNREACHED}
            found += [f"{path.name}, {name}: no call reaches {it}" for it in sorted(missing)]
    for line in found:
        print(line)
    sys.exit(1 if found else 0)


if __name__ == "__main__":
    main()
