"""Finds the items of the crates from which jcobs.c is made, and the meaning of each name in a file."""

import re

import rattle
from rattle import Unknown

CRATES = ["cobs_c", "cobs_abi", "cobs"]


class Program:
    """All items of the crates. Each item has its crate, its file and the tuple that rattle.py returned for it."""

    def __init__(self, crates):
        self.files, self.named = {}, {}
        for crate in CRATES:
            for path in sorted((crates / crate / "src").rglob("*.rt")):
                if "laws" not in (*path.parts, path.stem):
                    self.add(crate, path)

    def add(self, crate, path):
        try:
            items = rattle.read(path)
        except Unknown:
            if crate != "cobs":
                raise
            items = []  # if the coder for devices uses an item of this file, `find` fails
        for item in items:
            if item[0] != "use":
                self.named.setdefault((crate, item[1]), []).append((crate, path, item))
        uses = [it[1] for it in items if it[0] == "use"]
        self.files[path] = ({it[1]: (crate, path, it) for it in items if it[0] != "use"}, uses)

    def find(self, name, path, crate):
        """Returns the item that a name means in this file of this crate."""
        names, uses = self.files[path]
        if name.partition("::")[0] in CRATES and "::" in name:
            name = name.split("::", 1)[1]
        if name in names:
            return names[name]
        first = name.split("::")[0]
        for use in uses:
            if re.search(rf"(?<!\w){first}(?!\w)", use):
                words = re.findall(r"\w+", use)
                found = self.named.get((crate if words[0] == "crate" else words[0], name), [])
                if found:
                    return self.nearest(name, found, words[1:])
        for other in CRATES:
            if found := self.named.get((other, name), []):
                return self.nearest(name, found, [])
        raise Unknown(f"{path.name}: {name} isn't found")

    def nearest(self, name, found, words):
        """Returns the item whose path contains the most words of the import."""
        near = [sum(word in (*path.parts, path.stem) for word in words) for _, path, _ in found]
        if near.count(max(near)) > 1:
            raise Unknown(f"{name} is more than one item")
        return found[near.index(max(near))]
