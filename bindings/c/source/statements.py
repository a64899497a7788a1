"""Translates the statements of Rattle to statements of C."""

import re
import textwrap

import names
from expressions import Expressions
from kinds import BOOL, BYTE, END, FRAME, LENGTH, PIECE, USIZE, Slice, Value
from rattle import Unknown

INDENT = "    "


class Statements(Expressions):
    """Translates the statements of a function, and adds them to `lines`.

    The value of a block is returned or dropped.
    """

    def put(self, text):
        self.lines.append(INDENT * self.depth + text)

    def block(self, statements, returns=False):
        for at, statement in enumerate(statements):
            if statement[0] in ("do", "value") and statement[1][0] == "if" and (above := self.above(statement[1][1])):
                return self.threshold(above, statement[1], statements[at + 1 :], returns)
            if (returns or statements[-1][0] == "return") and (value := self.of_end(statements[at:])):
                return self.put(f"return {value.text};")
            if statement[0] == "value":
                self.tail(statement[1], returns)
            else:
                getattr(self, f"do_{statement[0]}")(statement)

    def inside(self, statements, returns=False):
        """Translates a block in brackets. Its names have no meaning outside the brackets."""
        saved = dict(self.env)
        self.depth += 1
        self.block(statements, returns)
        self.depth -= 1
        self.env = saved

    def tail(self, tree, returns):
        if tree[0] == "match":
            return self.matched(tree, returns)
        if tree[0] == "block" and any(it[0] == "let" for it in tree[1]):
            self.put("{")
            self.inside(tree[1], returns)
            self.put("}")
            return None
        if tree[0] == "block":
            return self.block(tree[1], returns)
        if tree[0] == "if" and not (returns and self.is_simple(tree)):
            return self.branches(tree, returns)
        if returns and tree[0] == "struct" and tree[3] and tree[2]:  # a struct with some other members
            rest = self.value(tree[3])
            for field, each in tree[2]:
                self.put(f"{rest.at(20)}.{field} = {self.value(each, USIZE).text};")
            return self.put(f"return {rest.text};")
        if returns and tree[:2] == ("call", "Ok") and tree[2][0][:2] == ("method", "frame_size") and tree[2][0][2][0] == "try":
            tree = tree[2][0][2][1]  # the same end without the number of consumed bytes
        value = self.value(tree, self.result_of(self.own) if returns else None)
        if returns:
            self.put(f"return {value.text};")
        elif value.text:
            self.put(f"{value.text};")
        return None

    def of_end(self, statements):
        """If the statements are `let end = TREE?`, and `end` with the number of consumed bytes, returns the end with this number.

        If there is no end, or no message, the number has no meaning. So the end needs no test.
        """
        if len(statements) != 2 or statements[0][0] != "let" or statements[0][3][0] != "try" or statements[1][0] not in ("value", "return"):
            return None
        name, tree = ("path", statements[0][1][1]), statements[1][1]
        some = tree[0] == "call" and tree[2][0]
        if tree[:2] == ("call", "Some") and some[0] == "tuple" and some[1][0] == name:
            count = some[1][1]
        elif tree[:2] == ("call", "Ok") and some[:2] == ("struct", "DecodeReport") and dict(some[2])["frame_size"] == name:
            count = dict(some[2])["parsed_size"]
        else:
            return None
        text = self.in_variable(self.value(statements[0][3][1]))
        return Value(f"jcobs_make_end({text}.kind, {text}.count, {self.value(count).text})", PIECE)

    def above(self, condition):
        """Returns whether this condition compares a number with the threshold: "then" or "else", the part above it. Otherwise None.

        If the condition is that the threshold is usize::MAX, the other part of the `if` is the one above it: "always".
        """
        if self.is_above or condition[0] != "binary":
            return None
        _, sign, left, right = condition
        threshold = ("path", names.THRESHOLD)
        if condition[1:] == ("==", threshold, ("path", "usize::MAX")):
            return "always"
        if sign == "&&" or sign == "||":
            found = self.above(left)
            return found if found == ("then" if sign == "&&" else "else") else None
        if threshold in (left, right) and sign not in ("<", "<=", ">", ">="):
            raise Unknown(f"{self.name}: {condition}")
        if right == threshold:
            return "else" if sign == "<=" else "then" if sign == ">" else None
        if left == threshold:
            return "then" if sign == "<" else "else" if sign == ">=" else None
        return None

    def threshold(self, above, tree, after, returns):
        """Translates an `if` one of whose parts is only for more bytes than the threshold. This part is compiled only with JCOBS_FAST."""
        _, condition, then, other = tree
        if above == "always":
            return self.with_or_without(then, other or after, returns)
        text = self.condition(condition if above == "then" else ("not", condition))
        many, few = (then, other) if above == "then" else (other, then)
        ends = [it and it[-1][0] == "return" or returns and not after for it in (then, other)]
        if ends[0] and not other:  # what follows the `if` is its other part
            many, few, after = (then, after, []) if above == "then" else (after, then, [])
        self.lines.append("#ifdef JCOBS_FAST")
        self.put(f"if ({text}) {{")
        self.is_above = True
        self.inside(many, returns)
        self.is_above = False
        if few and not self.lines[-1].strip().startswith("return"):
            self.put("} else")
            self.lines.append("#endif")
            self.put("{")
            self.inside(few, returns)
            self.put("}")
            few = []
        else:
            self.put("}")
            self.lines.append("#endif")
        self.block([*(few or []), *after], returns)

    def with_or_without(self, few, many, returns):
        """Translates what is compiled without JCOBS_FAST, and what is compiled with it."""
        self.lines.append("#ifdef JCOBS_FAST")
        self.is_above = True
        self.block(many, returns)
        self.is_above = False
        self.lines.append("#else")
        self.is_below = True
        self.block(few[:-1] if few[-1] == ("return", None) else few, returns)
        self.is_below = False
        self.lines.append("#endif")

    def do_comment(self, statement):
        width = 116 - len(INDENT) * self.depth
        lines = textwrap.wrap(self.in_c(" ".join(statement[1])), width - 6)
        if not lines:
            return
        self.put("/* " + f"\n{INDENT * self.depth} * ".join(lines) + " */")

    def do_do(self, statement):
        self.tail(statement[1], False)

    def tried(self, tree):
        """Translates `tree?`: returns if the value is None or an error. Returns the value otherwise."""
        value = self.value(tree)
        text = self.in_variable(value)
        if value.kind == LENGTH:
            test, good = f"{text} == 0", Value(text, USIZE)
        elif tree[0] == "call" and self.is_option(tree):
            test, good = f"{text}.kind == JCOBS_END_NONE", Value(text, value.kind)
        elif value.kind in (END, PIECE):
            test, good = f"{text}.kind != JCOBS_END_MESSAGE", Value(text if value.kind == PIECE else f"{text}.count", value.kind if value.kind == PIECE else USIZE)
        else:
            raise Unknown(f"{self.name}: ? of {value.kind}")
        self.put(f"if ({test}) {{")
        self.put(f"{INDENT}return {text};")
        self.put("}")
        return good

    def is_option(self, tree):
        """Returns whether a call returns an Option."""
        return self.find(tree[1])[2][3][1] == "Option"

    def do_return(self, statement):
        if statement[1] is None:
            self.put("return;")
        else:
            self.tail(statement[1], True)

    def do_assign(self, statement):
        _, sign, left, right = statement
        to = self.value(left)
        if start := self.start(right):
            self.put(f"{start}_init({to.text[1:] if to.text.startswith('*') else f'&{to.text}'});")
            return None
        value = self.value(right, to.kind)
        if sign in ("+=", "-=") and value.text == "1":
            self.put(f"{to.text}{'++' if sign == '+=' else '--'};")
        elif sign == "=" or to.kind != BYTE:
            self.put(f"{to.text} {sign} {value.text};")
        else:
            self.put(f"{to.text} = (unsigned char)({to.text} {sign[0]} {value.at(10)});")

    def do_break(self, _):
        self.put("break;")

    def do_while(self, statement):
        self.put(f"while ({self.value(statement[1]).text}) {{")
        self.inside(statement[2])
        self.put("}")

    def do_for(self, statement):
        _, name, over, body, is_value = statement
        if over[:2] == ("method", "iter_mut"):
            return self.each_changed(name, over[2], body)
        if over[0] != "range":
            return self.each(name, over, body, is_value)
        begin, end = self.value(over[1], USIZE), self.value(over[2], USIZE)
        self.put(f"for (size_t {name} = {begin.text}; {name} < {end.at(8)}; {name}++) {{")
        saved = self.env.get(name)
        self.env[name] = Value(name, USIZE)
        self.inside(body)
        self.env[name] = saved
        self.put("}")

    def each(self, name, over, body, is_value):
        """Translates a loop over the bytes of a slice, or of a part of it."""
        tree = over[2] if over[0] == "borrow" else over
        is_part = tree[0] == "index" and tree[2][0] == "range"
        of = self.value(tree[1] if is_part else tree)
        begin, end = (self.value(it, USIZE).text if it else None for it in tree[2][1:]) if is_part else (None, None)
        self.put(f"for (size_t i = {begin or 0}; i < {end or of.length}; i++) {{")
        saved = self.env.get(name)
        self.depth += 1
        self.put(f"{self.declare(name, BYTE)} = {of.pointer}[i];")
        self.depth -= 1
        self.env[name] = self.env[name] if is_value else Value(f"&{self.env[name].text}", ("ref", False, BYTE), 15)
        self.inside(body)
        self.env[name] = saved
        self.put("}")

    def each_changed(self, name, tree, body):
        """Translates a loop over `iter_mut`."""
        of = self.value(tree)
        self.put(f"for (size_t i = 0; i < {of.length}; i++) {{")
        saved = self.env.get(name)
        self.env[name] = Value(f"&{of.pointer}[i]", ("ref", True, BYTE), 15)
        self.inside(body)
        self.env[name] = saved
        self.put("}")

    def declare(self, name, kind):
        """Returns the declaration of a new variable."""
        c_name = self.c_name(name)
        if self.declared_names.get(c_name) == 0:  # a variable with the name of a parameter
            c_name = self.c_name(f"{name}'")
        self.env[name] = Value(c_name, kind)
        if c_name in self.declared_names and self.declared_names[c_name] < self.depth:
            raise Unknown(f"{self.name}: {c_name} shadows another")
        self.declared_names[c_name] = self.depth
        return self.declared(kind, c_name)

    def do_let(self, statement):
        _, pattern, kind, tree, other = statement
        if other is not None:
            raise Unknown(f"{self.name}: let {pattern} else")
        if tree[0] == "try":
            self.env[pattern[1]] = self.tried(tree[1])
            return None
        if pattern[0] == "name":
            return self.let_name(pattern[1], kind, tree, pattern[2])
        if pattern[0] == "tuple" and tree[0] == "call":
            value = self.value(tree)
            struct, fields = names.SEVERAL[value.kind[1]]
            self.put(f"{self.declare(struct, value.kind)} = {value.text};")
            for each, field in zip(pattern[1], fields):
                self.env[each[1]] = Value(f"{struct}.{field}", self.find(tree[1])[2][3][1][fields.index(field)])
            return None
        raise Unknown(f"{self.name}: let {pattern}")

    def let_name(self, name, kind, tree, is_mutable=False):
        if tree == ("path", "None"):  # the end of a piece that is assigned later
            self.put(f"{self.declare(name, PIECE)} = {{JCOBS_END_NONE, 0, 0}};")
            return None
        if start := self.start(tree):
            of = self.find(tree[1])[2][2] if tree[0] == "path" else ("path", tree[1].rpartition("::")[0], [])
            self.put(f"{self.declare(name, of)} = {start.upper()}_INIT;")
            return None
        if tree[0] == "struct" and tree[2] and tree[3]:  # a struct with some other members
            rest = self.value(tree[3])
            self.put(f"{self.declare(name, ('path', tree[1], []))} = {rest.text};")
            for field, each in tree[2]:
                self.put(f"{self.env[name].text}.{field} = {self.value(each).text};")
            return None
        value = self.value(tree, kind)
        if tree[0] == "method" and tree[1] == "len" and tree[2][0] == "path" and not is_mutable:
            self.env[name] = value  # a slice keeps its length
            return None
        if not isinstance(value, Slice) and value.text == name and self.depth > 1:
            raise Unknown(f"{self.name}: {name} is copied in a block")
        if isinstance(value, Slice) or value.text == name:
            self.env[name] = value  # a part of a slice, or a copy of a parameter, which isn't used again
            return None
        kind, value = value.kind, value.widened or value  # C converts a byte to a size_t by itself
        self.put(f"{self.declare(name, kind)} = {value.text};")
        return None

    def in_variable(self, value):
        """Puts the end of a piece or a frame into a variable, and returns the name of the variable."""
        if re.fullmatch(r"\w+", value.text):
            return value.text
        name = {FRAME: "result", LENGTH: "length"}.get(value.kind, "end")
        if name in self.declared_names:
            name = f"{name}_of_frame"
        self.declared_names[name] = self.depth
        self.put(f"{self.declared(value.kind, name)} = {value.text};")
        return name

    def condition(self, tree):
        """Returns the text of a condition. The names of an `if let` are declared before it."""
        if tree[0] != "let":
            return self.value(tree).text
        _, pattern, found = tree
        if pattern[0] != "variant" or pattern[1] != "Some" or pattern[2][0][0] != "name":
            raise Unknown(f"{self.name}: if let {pattern}")
        value = self.value(found)
        if value.kind != END:
            raise Unknown(f"{self.name}: if let of {value.text}")
        text = self.in_variable(value)
        self.env[pattern[2][0][1]] = Value(text, END)
        return f"{text}.kind != {self.end_kind('None')}"

    def branches(self, tree, returns):
        _, condition, then, other = tree
        text = self.condition(condition)
        if not other and len(then) == 1 and then[0][0] in ("do", "value") and then[0][1][0] == "if" and not then[0][1][3] and then[0][1][1][0] != "let":
            mark, inner = len(self.lines), then[0][1]
            both = f"{text} && {self.condition(inner[1])}"
            if len(self.lines) > mark or "||" in both:
                raise Unknown(f"{self.name}: {both}")
            text, then = both, inner[2]
        self.put(f"if ({text}) {{")
        self.inside(then, returns)
        is_chain = other and len(other) == 1 and other[0][0] in ("do", "value") and other[0][1][0] == "if"
        if is_chain and other[0][1][1][0] != "let":
            mark = len(self.lines)
            self.branches(other[0][1], returns)
            self.lines[mark] = f"{INDENT * self.depth}}} else {self.lines[mark].strip()}"
            return
        if other and returns and self.lines[-1].strip().startswith("return"):
            self.put("}")
            self.block(other, returns)
            return
        if other:
            self.put("} else {")
            self.inside(other, returns)
        self.put("}")

    def matched(self, tree, returns):
        _, of, arms = tree
        value = self.value(of)
        if value.kind in (FRAME, LENGTH):
            return self.either(arms, Value(self.in_variable(value), value.kind), returns)
        text, found = self.in_variable(value), []
        if all(pattern[0] == "variant" and (not pattern[2] or pattern[2][0][0] in ("name", "tuple")) for pattern, _ in arms):
            return self.one_or_other(arms, text, value.kind, returns)
        self.put(f"switch ({text}.kind) {{")
        for at, (pattern, body) in enumerate(arms):
            patterns = [self.innermost(it) for it in (pattern[1] if pattern[0] == "or" else [pattern])]
            found += [self.end_kind(each[1]) for each in patterns]
            for each in patterns:
                self.put(f"case {self.end_kind(each[1])}:")
            if at == len(arms) - 1:
                self.put("default:")
            if returns and at == len(arms) - 1:  # this arm comes after the switch, where a compiler may ask for a result
                self.put(f"{INDENT}break;")
                continue
            self.arm(patterns[0], body, text, returns)
            if not self.lines[-1].strip().startswith("return"):
                self.put(f"{INDENT}break;")
        self.put("}")
        if sorted(found) != sorted(names.ENDS):
            raise Unknown(f"{self.name}: the match of {text} has {found}")
        if returns:
            self.depth -= 1
            self.arm(patterns[0], body, text, returns)
            self.depth += 1
        return None

    def one_or_other(self, arms, text, kind, returns):
        """Translates a match with the arms Some and None, or Ok and Err, to an if."""
        (first, then), (second, other) = arms
        if (first[1], second[1]) == ("Some", "None"):
            condition = f"{text}.kind != {self.end_kind('None')}"
        elif (first[1], second[1]) == ("Ok", "Err"):
            condition = f"{text}.kind == {self.end_kind('Ok')}"
        else:
            raise Unknown(f"{self.name}: match of {first[1]} and {second[1]}")
        saved = dict(self.env)
        for pattern in (first, second):
            for inner in pattern[2]:
                named = inner[1] if inner[0] == "tuple" else [inner]
                self.env[named[0][1]] = Value(text, kind) if kind == PIECE or pattern is second else Value(f"{text}.count", USIZE)
                if len(named) == 2:
                    self.env[named[1][1]] = Value(f"{text}.consumed", USIZE)
        self.put(f"if ({condition}) {{")
        self.inside(then, returns)
        self.put("}" if returns else "} else {")
        if returns:
            self.block(other, returns)
        else:
            self.inside(other, returns)
            self.put("}")
        self.env = saved

    def innermost(self, pattern):
        wrappers = ("Some", "Ok", "Err")
        while pattern[0] == "variant" and pattern[1] in wrappers and pattern[2][0][0] in ("variant", "struct"):
            pattern = pattern[2][0]
        return pattern

    def arm(self, pattern, body, text, returns, number="count"):
        saved = dict(self.env)
        if pattern[0] in ("variant", "struct"):
            for field in pattern[2] if pattern[0] == "variant" else [it[1] for it in pattern[2]]:
                if field[0] == "name":
                    self.env[field[1]] = Value(f"{text}.{number}" if number else text, USIZE)
        self.inside(body, returns)
        self.env = saved

    def either(self, arms, value, returns):
        """Translates a match of a result, which is the length of a frame or an error, to an if."""
        (first, then), (second, other) = arms
        text = value.text
        if first[1] != "Ok" or second[1] != "Err":
            raise Unknown(f"{self.name}: match of {text}")
        self.put(f"if ({text} != 0) {{" if value.kind == LENGTH else f"if ({text}.fits) {{")
        self.arm(first, then, text, returns, "length" if value.kind == FRAME else None)
        if self.lines[-1].strip().startswith("return"):
            self.put("}")
            self.depth -= 1
            self.arm(second, other, text, returns)
            self.depth += 1
            return
        self.put("} else {")
        self.arm(second, other, text, returns)
        self.put("}")
