"""Builds a file of cases, line by line. README.md has the format."""

import model


def word(value):
    if isinstance(value, bytes):
        return value.hex() or model.NONE
    return str(value)


class Group:
    """A file of cases. Each line has a different name."""

    def __init__(self, name, *about, word=word):
        self.name, self.lines, self.seen, self.count = name, [f"# {line}" for line in about], set(), {}
        self.word = word

    def line(self, label, level, call, arguments, results):
        said = " ".join(map(self.word, [level, call, *arguments, "->", *results]))
        if said in self.seen:
            return
        self.seen.add(said)
        self.count[label] = self.count.get(label, 0) + 1
        self.lines.append(f"{self.name}-{label}-{self.count[label]} {said}")

    def has(self, call, arguments, results):
        """Returns whether there is such a case, of either level."""
        said = " ".join(map(self.word, [call, *arguments, "->", *results]))
        return f"owed {said}" in self.seen or f"choice {said}" in self.seen

    def choice(self, label, call, *arguments):
        self.line(label, "choice", call, arguments, getattr(model, call)(*arguments))

    def owed(self, label, call, *arguments):
        self.line(label, "owed", call, arguments, getattr(model, call)(*arguments))

    def owed_decoding(self, label, call, *arguments):
        """Adds a case of a decoding call. Every library must return an error, but may name it and count the bytes as it likes."""
        status, length, after = getattr(model, call)(*arguments)
        results = [status, length, after] if status == "ok" else ["refused", "?", "?"]
        self.line(label, "owed", call, arguments, results)
