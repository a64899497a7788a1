"""Reads statements, patterns and expressions as tuples. Only the forms of Rattle that the coder for devices uses are known."""

import re

from tokens import Tokens

BINARY = [["||"], ["&&"], ["==", "!=", "<", ">", "<=", ">="], ["|"], ["^"], ["&"], ["+", "-"], ["*", "/", "%"]]
ASSIGN = ["=", "+=", "-=", "*=", "^="]


class Syntax(Tokens):
    # Statements and patterns

    def block(self):
        self.want("{")
        found = []
        while not self.take("}"):
            comments = self.tokens[self.at][2]
            found += [("comment", comments)] if comments else []
            found.append(self.statement())
        return found

    def statement(self):
        label = self.next() if self.kind() == "label" else None
        if label:
            self.want(":")
        if self.take("let"):
            return self.let()
        if self.take("while"):
            condition = self.expression(False)
            return ("while", condition, self.block())
        if self.take("for"):
            is_value = self.take("&")  # `for &byte in bytes`, and not `for byte in bytes`
            name = self.next()
            self.want("in")
            over = self.expression(False)
            return ("for", name, over, self.block(), is_value)
        if self.take("return"):
            value = None if self.peek() in (";", "}", ",") else self.expression()
            self.take(";")
            return ("return", value)
        if self.peek() in ("break", "continue"):
            word = self.next()
            self.take(";")
            return (word,)
        if self.peek() in ("if", "match", "{"):
            value = self.primary(True)  # such an expression ends the statement
            self.take(";")
            return ("value" if self.peek() in ("}", ",") else "do", value)
        value = self.expression()
        if self.peek() in ASSIGN:
            sign = self.next()
            other = self.expression()
            self.take(";")
            return ("assign", sign, value, other)
        if self.take(";") or (value[0] in ("if", "match", "block") and self.peek() != "}"):
            return ("do", value)
        if self.peek() not in ("}", ","):
            self.fail("the statement goes on")
        return ("value", value)

    def let(self):
        pattern = self.pattern()
        kind = self.type() if self.take(":") else None
        self.want("=")
        value = self.expression()
        other = self.block() if self.take("else") else None
        self.want(";")
        return ("let", pattern, kind, value, other)

    def pattern(self):
        if self.take("&"):
            return self.pattern()
        if self.take("_"):
            return ("any",)
        if self.take("("):
            parts = []
            while not self.take(")"):
                parts.append(self.pattern())
                self.take(",")
            return ("tuple", parts)
        mutable = self.take("mut")
        if self.kind() == "number":
            return ("number", self.next())
        name = self.next()
        while self.take("::"):
            name += "::" + self.next()
        if self.take("("):
            parts = []
            while not self.take(")"):
                parts.append(self.pattern())
                self.take(",")
            return ("variant", name, parts)
        if self.peek() == "{" and name[0].isupper():
            self.want("{")
            fields = []
            while not self.take("}"):
                if self.take(".."):
                    continue
                field = self.next()
                fields.append((field, self.pattern() if self.take(":") else ("name", field, False)))
                self.take(",")
            return ("struct", name, fields)
        if name[0].isupper():
            return ("variant", name, [])
        return ("name", name, mutable)

    # Expressions

    def expression(self, struct=True, level=0):
        if level == 0 and self.peek() == "..":
            self.next()
            return ("range", None, self.binary(0, struct))
        value = self.binary(0, struct)
        if self.peek() == "..":
            self.next()
            end = None if self.peek() in ("]", "{", ")") else self.binary(0, struct)
            return ("range", value, end)
        return value

    def binary(self, level, struct):
        if level == len(BINARY):
            return self.cast(struct)
        left = self.binary(level + 1, struct)
        while self.peek() in BINARY[level]:
            sign = self.next()
            left = ("binary", sign, left, self.binary(level + 1, struct))
        return left

    def cast(self, struct):
        value = self.unary(struct)
        while self.take("as"):
            value = ("as", value, self.type())
        return value

    def unary(self, struct):
        if self.take("!"):
            return ("not", self.unary(struct))
        if self.take("*"):
            return ("deref", self.unary(struct))
        if self.take("&"):
            mutable = self.take("mut")
            return ("borrow", mutable, self.unary(struct))
        return self.postfix(self.primary(struct))

    def postfix(self, value):
        while True:
            if self.take("."):
                name = self.next()
                if self.take("("):
                    value = ("method", name, value, self.arguments())
                else:
                    value = ("field", name, value)
            elif self.take("["):
                index = self.expression()
                self.want("]")
                value = ("index", value, index)
            elif self.take("?"):
                value = ("try", value)
            else:
                return value

    def arguments(self):
        found = []
        while not self.take(")"):
            found.append(self.expression())
            self.take(",")
        return found

    def primary(self, struct):
        if self.kind() == "number":
            return ("number", re.sub(r"_|usize|u8|u32", "", self.next()))
        if self.take("("):
            parts = self.arguments()
            return parts[0] if len(parts) == 1 and self.tokens[self.at - 2][1] != "," else ("tuple", parts)
        if self.take("["):
            parts = []
            while not self.take("]"):
                parts.append(self.expression())
                self.take(",")
            return ("array", parts)
        if self.take("if"):
            return self.condition()
        if self.take("match"):
            return self.match()
        if self.peek() == "{":
            return ("block", self.block())
        if self.take("return"):
            value = None if self.peek() in (";", "}", ",") else self.expression()
            return ("block", [("return", value)])
        if self.kind() != "name":
            self.fail("an expression is wanted")
        return self.named(struct)

    def named(self, struct):
        """Reads an expression that begins with a name: a path, a call, or a struct if a struct is permitted here."""
        name = self.next()
        if name in ("true", "false"):
            return ("bool", name)
        while self.take("::"):
            if self.peek() == "<":
                self.fail("generics")
            name += "::" + self.next()
        if self.take("("):
            return ("call", name, self.arguments())
        if struct and self.peek() == "{" and name.split("::")[-1][0].isupper():
            self.want("{")
            fields, rest = [], None
            while not self.take("}"):
                if self.take(".."):
                    rest = self.expression()
                    continue
                field = self.next()
                fields.append((field, self.expression() if self.take(":") else ("path", field)))
                self.take(",")
            return ("struct", name, fields, rest)
        return ("path", name)

    def condition(self):
        if self.take("let"):
            pattern = self.pattern()
            self.want("=")
            value = self.binary(2, False)
            found = ("let", pattern, value)
        else:
            found = self.expression(False)
        then = self.block()
        other = None
        if self.take("else"):
            other = [("do", self.condition())] if self.take("if") else self.block()
            if len(other) == 1 and other[0][0] == "do" and then and then[-1][0] == "value":
                other = [("value", other[0][1])]
        return ("if", found, then, other)

    def match(self):
        value = self.expression(False)
        self.want("{")
        arms = []
        while not self.take("}"):
            comments = self.tokens[self.at][2]
            patterns = [self.pattern()]
            while self.take("|"):
                patterns.append(self.pattern())
            self.want("=>")
            body = self.block() if self.peek() == "{" else [self.statement()]
            arms.append(
                (
                    ("or", patterns) if len(patterns) > 1 else patterns[0],
                    ([("comment", comments)] if comments else []) + body,
                )
            )
            self.take(",")
        return ("match", value, arms)
