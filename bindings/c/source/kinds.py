"""Translates the types of Rattle to types of C.

A struct becomes a struct of C. A slice becomes a pointer and a length. An enum without fields becomes the enum of jcobs.h that has the
same variants. The end of a piece or a frame (an enum with fields, an Option or a Result) becomes a jcobs_end, with the number of consumed
bytes if there is one. A Result with a length, whose error has no value, becomes a jcobs_frame_length, or a length that is 0 for the error.
A Result without a value becomes an int that says whether it is Ok. A tuple becomes a struct of names.py.
"""

import re

import names
from rattle import Unknown

SCALARS = {"usize": "size_t", "u8": "unsigned char", "u32": "unsigned int", "bool": "int"}
NUMBERS = ("usize", "u8", "u32")
USIZE, BYTE, BOOL = (("path", it, []) for it in ("usize", "u8", "bool"))
END, PIECE, FRAME, LENGTH = ("end",), ("piece",), ("frame_length",), ("length",)


def snake(name):
    name = name.replace("::", "_")
    return re.sub(r"(?<=[a-z0-9])(?=[A-Z])|(?<=[A-Z])(?=[A-Z][a-z])", "_", name).lower()


class Value:
    """An expression of C: its text, its type, how strongly it binds, and whether it is a constant."""

    def __init__(self, text, kind, level=20, literal=False):
        self.text, self.kind, self.level, self.literal = text, kind, level, literal
        self.widened = None  # if the expression is a cast of a byte to a size_t, the byte

    def at(self, level):
        return self.text if self.level >= level else f"({self.text})"


class Slice:
    """A slice: its pointer and its length."""

    def __init__(self, pointer, length, mutable):
        self.pointer, self.length, self.mutable = pointer, length, mutable


class Kinds:
    """The types that a function knows."""

    def find(self, name):
        return self.out.program.find(name, self.path, self.crate)

    def result_of(self, item):
        """Returns the type of a function's result. The type of a tuple is that of the struct in names.py."""
        _, name, _, result = item[:4]
        if name in names.NEVER_EMPTY:
            return LENGTH
        return ("several", name) if result and result[0] == "tuple" and result[1] else self.kind_of(result)

    def item(self, kind):
        """Returns the struct or the enum of a type, or of the type to which a reference refers."""
        kind = kind[2] if kind[0] == "ref" else kind
        return self.find(kind[1])[2] if kind[0] == "path" else None

    def kind_of(self, kind):
        """Returns the type of a value. For an enum with fields, an Option or a Result, this is the type in C."""
        if kind is None or kind[0] != "path" or kind[1] in SCALARS:
            return kind
        if kind[1] == "Result" and kind[2][0] == ("path", "DecodeReport", []):
            return PIECE
        if kind[1] == "Result" and kind[2][0] == ("tuple", []):
            return BOOL
        if kind[1] == "Option" and kind[2][0][0] == "tuple":
            return PIECE
        if kind[1] == "Result" and self.item(kind[2][1])[0] == "struct":
            return FRAME
        if kind[1] in ("Option", "Result"):
            return END
        item = self.find(kind[1])[2]
        return END if item[0] == "enum" and any(fields for _, fields in item[2]) else kind

    def c_type(self, kind, name=""):
        kind = self.kind_of(kind)
        if kind is None:
            return "void"
        if kind == LENGTH:
            return "size_t"
        if kind == PIECE:
            kind = END
        if kind in (END, FRAME):
            return f"jcobs_{kind[0]}"
        if kind[0] == "ref":
            return f"{'' if kind[1] else 'const '}{self.c_type(kind[2])} *"
        if kind[0] == "several":
            return f"jcobs_{names.SEVERAL[kind[1]][0]}"
        if kind[0] != "path":
            raise Unknown(f"{self.name}: type {kind}")
        if kind[1] == "u32" and name == "status":
            return "JCOBS_STATUS"
        if kind[1] in SCALARS:
            return SCALARS[kind[1]]
        if self.item(kind)[0] == "enum":
            return f"enum {self.out.enum(self.item(kind))}"
        return self.out.struct(self.item(kind), self)

    def declared(self, kind, name):
        text = self.c_type(kind, name)
        return f"{text}{'' if text.endswith('*') else ' '}{name}"

    def variant(self, name):
        """Returns the enum whose variant a path names."""
        if "::" not in name:
            return None
        owner, _, last = name.rpartition("::")
        try:
            item = self.find(owner)[2]
        except Unknown:
            return None
        return item if item[0] == "enum" and last in dict(item[2]) else None
