"""The tokens of Rattle."""

import re

TOKEN = re.compile(
    r"""(?P<space>\s+)|(?P<doc>//[/!][^\n]*)|(?P<comment>//[^\n]*)|(?P<label>'[a-z_]\w*(?!'))|(?P<string>b?"(?:\\.|[^"\\])*")"""
    r"""|(?P<number>0x[\da-f_]+|\d[\d_]*(?:usize|u64|u32|u8)?)|(?P<name>[A-Za-z_]\w*)|(?P<sign>=>|->|::|\.\.|&&|\|\||==|!=|<=|>=|[-+*/%^&|]=|.)""",
    re.S | re.X,
)


class Unknown(Exception):
    """Raised for a form that isn't known."""


class Tokens:
    """The tokens of a file, each with the comments before it."""

    def __init__(self, text, name):
        self.name, self.at, self.tokens, before = name, 0, [], []
        for found in TOKEN.finditer(text):
            kind, word = found.lastgroup, found[0]
            if kind == "comment":
                # A comment after a token, on the same line, names the law that is called. It is dropped, because C has no laws.
                if not text[text.rfind("\n", 0, found.start()) + 1 : found.start()].strip():
                    before.append(word[2:].strip())
            elif kind == "doc" and word.startswith("//!"):
                continue  # the doc comment of the file
            elif kind == "doc":
                self.tokens.append(("doc", word[3:].strip(), [], text.count("\n", 0, found.start()) + 1))
            elif kind != "space":
                self.tokens.append((kind, word, before, text.count("\n", 0, found.start()) + 1))
                before = []
        self.tokens.append(("end", "", before, 0))

    def fail(self, why):
        kind, word, _, line = self.tokens[self.at]
        raise Unknown(f"{self.name}:{line}: {why}, at {word or kind}")

    def peek(self, ahead=0):
        return self.tokens[min(self.at + ahead, len(self.tokens) - 1)][1]

    def kind(self):
        return self.tokens[self.at][0]

    def next(self):
        self.at += 1
        return self.tokens[self.at - 1][1]

    def take(self, word):
        if self.peek() == word:
            self.at += 1
            return True
        return False

    def want(self, word):
        if not self.take(word):
            self.fail(f"{word} is wanted")

    def skip_brackets(self):
        depth = 0
        while True:
            word = self.next()
            depth += (word in ("{", "(", "[")) - (word in ("}", ")", "]"))
            if depth == 0:
                return
