"""Reads the items of a file as tuples. Only the forms of Rattle that the coder for devices uses are known.

The parts for the prover (clauses, ghost imports, laws) are dropped. An unknown form is an error, which names the file and the line.
"""

from syntax import Syntax
from tokens import Unknown

__all__ = ["Unknown", "read"]


class Reader(Syntax):
    def items(self):
        found = []
        while self.kind() != "end":
            found += self.item()
        return found

    def before_item(self):
        """Reads an item's docs and attributes, and ignores whether the item is public."""
        docs, attributes = [], []
        while True:
            if self.kind() == "doc":
                docs.append(self.next())
            elif self.take("#"):
                self.take("!")
                begun = self.at
                self.skip_brackets()
                attributes.append("".join(it[1] for it in self.tokens[begun + 1 : self.at - 1]))
            else:
                break
        if self.take("pub") and self.peek() == "(":
            self.skip_brackets()
        return docs, attributes

    def item(self, owner=None):
        docs, attributes = self.before_item()
        word = self.next()
        if word in ("use", "mod", "ghost"):
            words = []
            while self.peek() != ";":
                words.append(self.next())
            self.next()
            return [("use", "".join(words))] if word == "use" else []
        if word == "extern":
            self.next()
            word = self.next()
        if word == "const" and self.peek() == "fn":
            word = self.next()
        if word == "const":
            name = self.next()
            self.want(":")
            kind = self.type()
            self.want("=")
            value = self.expression()
            self.want(";")
            return [("const", name, kind, value, docs)]
        if word == "fn":
            return [self.function(owner, docs, attributes)]
        if word == "impl":
            return self.implementation()
        if word in ("struct", "enum"):
            name = self.next()
            return [(word, name, self.members(word), docs)]
        if word in ("trait", "macro_rules", "unsafe", "static", "type"):
            while self.peek() not in ("{", ";"):
                self.next()
            self.skip_brackets() if self.peek() == "{" else self.next()
            return []
        self.at -= 1
        self.fail("no such item is known")

    def members(self, word):
        if self.take(";"):
            return []
        if self.peek() != "{":
            while self.next() != "{":
                pass
            self.at -= 1
        self.want("{")
        found = []
        while not self.take("}"):
            while self.kind() == "doc" or self.peek() == "#":
                if self.kind() == "doc":
                    self.next()
                else:
                    self.next()
                    self.skip_brackets()
            if self.take("pub") and self.peek() == "(":
                self.skip_brackets()
            name = self.next()
            if word == "struct":
                self.want(":")
                found.append((name, self.type()))
            elif self.peek() == "{":
                found.append((name, self.members("struct")))
            elif self.take("("):
                fields = []
                while not self.take(")"):
                    fields.append((None, self.type()))
                    self.take(",")
                found.append((name, fields))
            else:
                found.append((name, []))
            self.take(",")
        return found

    def implementation(self):
        if self.peek() == "<":
            while self.next() != "{":
                pass
            self.at -= 1
            self.skip_brackets()
            return []
        owner = self.type()[1]
        if self.peek() != "{":
            while self.peek() != "{":
                self.next()
            self.skip_brackets()
            return []
        self.want("{")
        found = []
        while not self.take("}"):
            found += self.item(owner)
        return found

    def function(self, owner, docs, attributes):
        name = self.next()
        if self.peek() == "<":
            while self.next() != ">":
                pass
        self.want("(")
        params = []
        while not self.take(")"):
            if self.take("&"):
                mutable = self.take("mut")
                self.want("self")
                params.append(("self", ("ref", mutable, ("path", owner, []))))
            elif self.take("self"):
                params.append(("self", ("path", owner, [])))
            else:
                self.take("mut")
                param = self.next()
                self.want(":")
                params.append((param, self.type()))
            self.take(",")
        result = self.type() if self.take("->") else None
        while self.peek() in ("requires", "ensures"):
            self.next()
            if self.peek() != "{":
                self.next()
            self.skip_brackets()
        begun = self.at
        try:
            body = self.block()
        except Unknown as why:  # this error matters only if the function is reached
            self.at, body = begun, why
            self.skip_brackets()
        if result == ("path", "Self", []):
            result = ("path", owner, [])
        return ("fn", f"{owner}::{name}" if owner else name, params, result, body, docs, attributes)

    def type(self):
        if self.take("&"):
            if self.kind() == "label":
                self.next()
            mutable = self.take("mut")
            return ("ref", mutable, self.type())
        if self.take("["):
            inner = self.type()
            if self.take(";"):
                size = self.next()
                self.want("]")
                return ("array", inner, size)
            self.want("]")
            return ("slice", inner)
        if self.take("("):
            parts = []
            while not self.take(")"):
                parts.append(self.type())
                self.take(",")
            return ("tuple", parts)
        if self.take("impl"):
            pass
        name = self.next()
        while self.take("::"):
            name = self.next()
        parts = []
        if self.take("<"):
            while not self.take(">"):
                if self.kind() == "label":
                    self.next()
                else:
                    parts.append(self.type())
                self.take(",")
        return ("path", name, parts)


def read(path):
    return Reader(path.read_text(), str(path)).items()
