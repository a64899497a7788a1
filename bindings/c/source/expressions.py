"""Translates the expressions of Rattle to expressions of C."""

import re

import names
from kinds import BOOL, BYTE, END, FRAME, LENGTH, NUMBERS, PIECE, SCALARS, USIZE, Kinds, Slice, Value
from rattle import Unknown

# The names of these constants in jcobs.h.
CONSTANTS = {it: f"JCOBS_{it}" for it in "OK MORE TOO_SMALL BROKEN EMPTY NOT_A_FRAME CANONICAL LONGER".split()}
COMPARED = ("==", "!=", "<", ">", "<=", ">=")
MIRRORED = {"<": ">", ">": "<", "<=": ">=", ">=": "<="}  # to put the constant on the right
# The precedence of C's operators. Unary operators and casts have 15, and an expression without an operator has 20.
LEVELS = {"||": 1, "&&": 2, "|": 3, "^": 4, "&": 5, "==": 6, "!=": 6, "<": 7, ">": 7, "<=": 7, ">=": 7, "+": 9, "-": 9}
LEVELS |= {"*": 10, "/": 10, "%": 10}
SIMPLE = ("path", "number", "bool", "field", "index", "binary", "as")


class Expressions(Kinds):
    """Translates the expressions of a function. env has the meaning of each name."""

    def value(self, tree, expected=None):
        method = getattr(self, f"on_{tree[0]}", None)
        if not method:
            raise Unknown(f"{self.name}: {tree[0]}")
        return method(tree, expected)

    def on_number(self, tree, expected):
        if tree[1] in names.NUMBERS:
            return self.on_path(("path", names.NUMBERS[tree[1]]), expected)
        if int(tree[1], 0) > 32767:
            raise Unknown(f"{self.name}: {tree[1]} may not fit an int")
        return Value(tree[1], expected or USIZE, literal=True)

    def on_bool(self, tree, expected):
        return Value("1" if tree[1] == "true" else "0", BOOL, literal=True)

    def on_path(self, tree, expected):
        name = tree[1]
        if name in self.env:
            return self.env[name]
        if name == "None":
            return self.ended("None", [], expected)
        if item := self.variant(name):
            return self.constructed(name, [], item)
        crate, path, item = self.find(name)
        if item[0] != "const":
            raise Unknown(f"{self.name}: {name}")
        there = self.other(crate, path, name)
        if item[3][0] == "as" and item[3][1][0] == "path":  # the same constant, as a number of another type
            return Value(there.on_path(item[3][1], expected).text, item[2], literal=True)
        text = CONSTANTS.get(name) or self.out.constant(name, there.number(item[3]), item[4])
        return Value(text, item[2], literal=True)

    def number(self, tree):
        """Returns the value of a constant expression."""
        if tree[0] == "number":
            return int(tree[1])
        if tree[0] == "as":
            return self.number(tree[1])
        if tree[0] == "path":
            crate, path, item = self.find(tree[1])
            return self.other(crate, path, tree[1]).number(item[3])
        if tree[0] == "binary" and tree[1] in "+-*":
            a, b = self.number(tree[2]), self.number(tree[3])
            return {"+": a + b, "-": a - b, "*": a * b}[tree[1]]
        raise Unknown(f"{self.name}: constant {tree}")

    def ended(self, variant, words, expected=END):
        """Returns the end of a piece or a frame, with its numbers. A number that the end doesn't have is 0."""
        words = [self.end_kind(variant), *words, *["0"] * (2 - len(words))]
        return Value(f"jcobs_make_end({', '.join(words)})", PIECE if expected == PIECE else END)

    def end_kind(self, variant):
        """Returns the kind of end that a variant stands for."""
        kinds = [kind for kind, variants in names.ENDS.items() if variant.rsplit("::", 1)[-1] in variants]
        if len(kinds) != 1:
            raise Unknown(f"{self.name}: {variant} is no end")
        return kinds[0]

    def constructed(self, name, values, item):
        """Translates a variant of an enum."""
        kind = name.rsplit("::", 1)[1]
        if not any(fields for _, fields in item[2]):
            return Value(self.out.variant(item, kind), ("path", item[1], []))
        return self.ended(kind, [it.text for it in values])

    def on_struct(self, tree, expected):
        if item := self.variant(tree[1]):
            return self.constructed(tree[1], [self.value(it) for _, it in tree[2]], item)
        item = self.find(tree[1])[2]
        fields = dict(tree[2])
        words = [self.value(fields[name], kind).text for name, kind in item[2]]
        return Value(f"{self.out.constructor(item, self)}({', '.join(words)})", ("path", item[1], []))

    def on_field(self, tree, expected):
        of = self.value(tree[2])
        sign = "->" if of.kind[0] == "ref" else "."
        return Value(f"{of.at(20)}{sign}{tree[1]}", dict(self.item(of.kind)[2])[tree[1]])

    def on_index(self, tree, expected):
        of = self.value(tree[1])
        if not isinstance(of, Slice):
            raise Unknown(f"{self.name}: index of {of.text}")
        if tree[2][0] == "range":
            return self.part(of, tree[2])
        return Value(f"{of.pointer}[{self.value(tree[2], USIZE).text}]", BYTE)

    def part(self, of, tree):
        begin = self.value(tree[1], USIZE) if tree[1] else None
        end = self.value(tree[2], USIZE) if tree[2] else None
        if not begin:
            return Slice(of.pointer, end.text if end else of.length, of.mutable)
        if end and end.text.startswith(f"{begin.text} + "):
            length = end.text.removeprefix(f"{begin.text} + ")
        else:
            length = f"{end.at(9) if end else of.length} - {begin.at(10)}"
        return Slice(f"{of.pointer} + {begin.at(10)}", length, of.mutable)

    def on_borrow(self, tree, expected):
        if tree[2][0] == "array" and len(tree[2][1]) == 1:  # one byte, by its address
            return Slice(f"&{self.value(tree[2][1][0]).at(15)}", "1", False)
        if tree[2] == ("array", []):
            return Slice("NULL", "0", False)
        of = self.value(tree[2], expected)
        return of if isinstance(of, Slice) else Value(f"&{of.at(15)}", ("ref", tree[1], of.kind), 15)

    def on_deref(self, tree, expected):
        of = self.value(tree[1])
        if of.text.startswith("&"):
            return Value(of.text[1:], of.kind[2])
        return Value(f"*{of.at(15)}", of.kind[2], 15)

    def on_not(self, tree, expected):
        of = self.value(tree[1])
        if found := re.fullmatch(r"([\w.>-]+) (==|!=|<=|>=|<|>) (\w+)", of.text):
            signs = ["==", "<", ">", "<=", ">=", "!="]
            return Value(f"{found[1]} {signs[-1 - signs.index(found[2])]} {found[3]}", BOOL, 6)
        return Value(of.text[1:] if of.text.startswith("!") and of.level == 15 else f"!{of.at(15)}", BOOL, 15)

    def on_as(self, tree, expected):
        of = self.value(tree[1])
        if of.literal or self.c_type(of.kind) == self.c_type(tree[2]):
            return Value(of.text, tree[2], of.level, of.literal)
        made = Value(f"({self.c_type(tree[2])}){of.at(15)}", tree[2], 15)
        made.widened = of if (of.kind, tree[2]) == (BYTE, USIZE) else None
        return made

    def on_binary(self, tree, expected):
        _, sign, left, right = tree
        logical = sign in ("&&", "||")
        wanted = None if logical or sign in COMPARED else expected
        a, b = self.value(left, wanted), self.value(right, wanted)
        if sign in MIRRORED and a.literal and not b.literal:
            a, b, sign = b, a, MIRRORED[sign]
        a, b = self.without_casts(a, b, sign)
        if a.literal != b.literal:
            a.kind = b.kind = b.kind if a.literal else a.kind
        level = LEVELS[sign]
        # Compilers warn about && in || without brackets.
        text = f"{a.at(2 if logical and a.level > 2 else level + (a.level == 2 and sign == '||') * 9)} {sign} "
        text += b.at(level + (not logical) + (b.level == 2 and sign == "||") * 9)
        if logical or sign in COMPARED:
            return Value(text, BOOL, level)
        if a.kind == BYTE and not (a.literal and b.literal):
            return Value(f"(unsigned char)({text})", BYTE, 15)
        return Value(text, a.kind, level)

    def without_casts(self, a, b, sign):
        """Drops a cast of a byte to a size_t if C converts the byte by itself.

        C does so if the other operand is a size_t, or a constant in a comparison.
        """
        if (a.kind, b.kind) == (USIZE, USIZE):
            if b.widened and (not a.literal or sign in COMPARED) and not a.widened:
                b = b.widened
            elif a.widened and (not b.literal or sign in COMPARED) and not b.widened:
                a = a.widened
        return a, b

    def is_simple(self, tree):
        """Returns whether an if can be an expression in C."""
        _, condition, then, other = tree
        if condition[0] == "let" or not other:
            return False
        parts = [it[0][1] for it in (then, other) if len(it) == 1 and it[0][0] == "value"]
        return len(parts) == 2 and all(it[0] in SIMPLE or it[:2] == ("method", "min") for it in parts)

    def on_if(self, tree, expected):
        if not self.is_simple(tree):
            raise Unknown(f"{self.name}: if as a value")
        a, b = (self.value(it[0][1], expected) for it in tree[2:])
        if (a.text, b.text) == ("1", "0") and a.kind[1] in ("bool", "u32"):  # the value of a comparison in C is 1 or 0
            return self.value(tree[1])
        return Value(f"{self.value(tree[1]).at(1)} ? {a.at(1)} : {b.at(0)}", b.kind if a.literal else a.kind, 0)

    def on_tuple(self, tree, expected):
        if not tree[1]:
            return Value("", None)
        if not expected or expected[0] != "several":
            raise Unknown(f"{self.name}: a tuple")
        words = [self.value(it).text for it in tree[1]]
        return Value(f"{self.out.several(expected[1], self)}({', '.join(words)})", expected)

    def on_call(self, tree, expected):
        _, name, args = tree
        if name in ("Some", "Ok", "Err"):
            return self.wrapped(name, args[0], expected)
        if item := self.variant(name):
            return self.constructed(name, [self.value(it) for it in args], item)
        if re.fullmatch(r"(\w+::)*law_\d+", name):
            return Value("", None)
        return self.called(self.find(name), args)

    def found(self, tree):
        """Translates `memchr(byte, bytes).unwrap_or(bytes.len())`: the index of the first such byte, or the number of bytes."""
        _, _, (_, _, (byte, bytes)), (other,) = tree
        if other != ("method", "len", bytes, []):
            raise Unknown(f"{self.name}: memchr or {other}")
        of = self.value(bytes)
        call = f"(const unsigned char *)memchr({of.pointer}, {self.value(byte, BYTE).text}, {of.length})"
        self.put(f"const unsigned char *found = {call};")
        return Value(f"found != NULL ? (size_t)(found - {of.pointer}) : {of.length}", USIZE, 0)

    def copied(self, name, to, args):
        """Translates a copy of a slice."""
        if name == "copy_from_slice":
            of = self.value(args[0])
            return Value(f"memcpy({to.pointer}, {of.pointer}, {of.length})", None)
        of, at = self.part(to, args[0]), self.value(args[1], USIZE)
        return Value(f"memmove({to.pointer} + {at.at(10)}, {of.pointer}, {of.length})", None)

    def wrapped(self, name, tree, expected):
        if expected == BOOL:  # a Result without a value
            return Value("1" if name == "Ok" else "0", BOOL, literal=True)
        if expected == LENGTH:
            return self.value(tree) if name == "Ok" else Value("0", LENGTH, literal=True)
        if expected == FRAME:
            return Value(f"jcobs_make_frame_length({f'1, {self.value(tree).text}' if name == 'Ok' else '0, 0'})", FRAME)
        if name == "Some" and tree[0] == "tuple":
            end, count = (self.value(it) for it in tree[1])
            if end.text.startswith("jcobs_make_end("):
                return Value(f"{end.text.removesuffix('0)')}{count.text})", PIECE)
            self.want_simple(end)
            return Value(f"jcobs_make_end({end.at(20)}.kind, {end.at(20)}.count, {count.text})", PIECE)
        of = self.value(tree)
        return of if of.kind in (END, PIECE) else self.ended(name, [of.text])

    def want_simple(self, *values):
        """Checks that these expressions, which are written twice, contain no call."""
        for value in values:
            if re.search(r"\w\(", value.text):
                raise Unknown(f"{self.name}: {value.text} twice")

    def called(self, found, args, receiver=None):
        if found[2][1] in names.SAME:
            found = self.find(names.SAME[found[2][1]])
        found, constants = self.out.behind(found)
        args = [*args, *constants]
        crate, path, item = found
        there = self.other(crate, path, item[1])
        if there.is_same(item):
            return self.value(args[0])
        if item[1] in names.WRITTEN_OUT:
            there.env = {name: receiver if name == "self" else self.value(args[i - bool(receiver)], there.kind_of(kind)) for i, (name, kind) in enumerate(item[2])}
            return there.value(item[4][0][1], there.result_of(item))
        if start := there.resets(item):
            return Value(f"{start}_init({receiver.text})", None)
        name = self.out.function(found, self)
        words = []
        for i, (param, kind) in enumerate(item[2]):
            given = receiver if receiver and i == 0 else self.value(args[i - bool(receiver)], there.kind_of(kind))
            if isinstance(given, Slice):
                words += [given.pointer] + [given.length] * ((path, item[1], param) not in self.out.unused)
            else:
                words.append(given.text)
        return Value(f"{name}({', '.join(words)})", there.result_of(item))

    def is_same(self, item):
        """Returns whether a function returns its argument unchanged, because both are the same jcobs_end in C."""
        body = item[4]
        if not (isinstance(body, list) and len(body) == 1 and body[0][0] == "value" and body[0][1][0] == "match"):
            return False
        if len(item[2]) != 1 or body[0][1][1] != ("path", item[2][0][0]) or self.kind_of(item[3]) != END:
            return False
        for pattern, arm in body[0][1][2]:
            patterns = [self.innermost(it) for it in (pattern[1] if pattern[0] == "or" else [pattern])]
            for each in patterns:
                fields = [it if each[0] == "variant" else it[1] for it in each[2]]
                self.env = {it[1]: Value(it[1], USIZE) for it in fields if it[0] == "name"}
                taken = self.ended(each[1], [*self.env])
                if len(arm) != 1 or self.value(arm[0][1], END).text != taken.text:
                    return False
        return True

    def start(self, tree):
        """If an expression is the initial state of a struct of jcobs.h, with each member 0, returns the name of the struct."""
        while tree[0] in ("call", "path"):
            is_other = tree[1] == "None" or tree[1] in self.env if tree[0] == "path" else tree[2]
            if is_other or self.variant(tree[1]):
                return None
            crate, path, item = self.find(tree[1])
            self = self.other(crate, path, item[1])
            body = [item[3]] if item[0] == "const" else [it[1] for it in item[4]] if item[0] == "fn" else []
            if len(body) != 1:
                return None
            tree = body[0]
        if tree[0] != "struct" or tree[3] or self.variant(tree[1]) or {it for _, it in tree[2]} != {("number", "0")}:
            return None
        return self.out.started(self.find(tree[1])[2], self)

    def resets(self, item):
        """If a method only resets a struct to its initial state, returns the name of the struct."""
        if not isinstance(item[4], list) or len(item[4]) != 1 or item[4][0][:3] != ("assign", "=", ("deref", ("path", "self"))):
            return None
        return self.start(item[4][0][3])

    def on_method(self, tree, expected):
        _, name, of, args = tree
        if name == "unwrap_or" and of[0] == "method" and of[1] == "checked_add":
            if args[0] != ("number", "0"):
                raise Unknown(f"{self.name}: a sum or {args[0]}")
            return Value(f"jcobs_sum_or_zero({self.value(of[2]).text}, {self.value(of[3][0]).text})", USIZE)
        if name == "unwrap_or" and of[:2] == ("call", "memchr"):
            return self.found(tree)
        value = self.receiver(of)
        if isinstance(value, Slice):
            if name == "len":
                return Value(value.length, USIZE, 20 if re.fullmatch(r"\w+", value.length) else 9)
            if name == "is_empty":
                return Value(f"{value.length} == 0", BOOL, 6)
            if name in ("copy_from_slice", "copy_within"):
                return self.copied(name, value, args)
            raise Unknown(f"{self.name}: {name} of a slice")
        if value.kind == PIECE and name in names.ACCESSORS:
            return Value(f"{value.at(20)}.{names.ACCESSORS[name]}", USIZE)
        if name in ("is_err", "is_ok"):
            text = value.text if value.kind == BOOL else f"{value.at(20)}.fits"
            return Value(text, BOOL) if name == "is_ok" else Value(f"!{text}", BOOL, 15)
        kind = value.kind[2] if value.kind[0] == "ref" else value.kind
        if kind[0] == "path" and kind[1] in NUMBERS:
            return self.of_number(name, value, kind, args)
        receiver = value if value.kind[0] == "ref" else Value(f"&{value.at(15)}", ("ref", True, kind), 15)
        return self.called(self.find(f"{kind[1]}::{name}"), args, receiver)

    def receiver(self, tree):
        """Returns the value whose method is called. A new struct is put into a variable."""
        start = self.start(tree)
        if not start:
            return self.value(tree)
        name = start.rsplit("_", 1)[-1]
        self.put(f"{start} {name} = {start.upper()}_INIT;")
        return Value(name, ("path", tree[1].rpartition("::")[0], []))

    def of_number(self, name, value, kind, args):
        other = self.value(args[0], kind)
        if name in names.METHODS and kind == USIZE:
            return Value(f"jcobs_{name}({value.text}, {other.text})", kind)
        self.want_simple(value, other)
        if name == "div_ceil":
            by = other.at(11)
            return Value(f"{value.at(10)} / {by} + ({value.at(10)} % {by} != 0 ? 1 : 0)", kind, 9)
        raise Unknown(f"{self.name}: {name} of a number")
