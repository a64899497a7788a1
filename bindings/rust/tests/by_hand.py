#!/usr/bin/env python3
"""Checks that no call of the crate encodes or decodes by hand: the results are those of proved functions.

The files of src/ outside of proved/ must not contain loops or arithmetic: positions and lengths come from proved functions,
`memchr`, iterators and methods of slices. PERMITTED names each exception and its reason. An exception that no line needs is an
error too.

It prints the lines that aren't permitted. If there is such a line, the status is 1.
"""

import re
import sys
from pathlib import Path

SRC = Path(__file__).resolve().parent.parent / "src"
LOOP = re.compile(r"\b(for\s+[^<>]+\s+in|while|loop)\b")
# rustfmt writes a space on each side of an operator with two operands.
ARITHMETIC = re.compile(r"(?<=[\w)\]}?]) ([-+*/%]|<<|>>)=? |\.(checked|wrapping|overflowing|saturating|unchecked|carrying)_\w+\(|\.pow\(|\.\.=")
# A file, some words of the line, and the reason.
PERMITTED = {
    ("access.rs", "for at in 0..source.len()"): "copies the bytes of a slice, which no call of `core` does without a panic",
    ("access.rs", "while let Some(bytes) = rest.part(back..)"): "moves the bytes of a slice, likewise",
    ("access.rs", "start.wrapping_sub(to)"): "how far bytes move",
    ("access.rs", "part.len().wrapping_sub(back)"): "how many bytes move",
    ("access.rs", "None => loop {}"): "never reached",
    ("read.rs", "loop {"): "reads until a proved function says that a frame has ended: a port has any number of reads",
    ("write.rs", "while let Some(rest @ [_, ..])"): "writes until the port has taken the frame: it may take any number of bytes",
    ("write.rs", "self.written += len"): "counts the bytes that a port has taken",
    ("lib.rs", "source_len.checked_add"): "the precondition of the proved function",
    ("enc.rs", "+ more"): "the length of a buffer to make, which has the sentinels too",
    ("frames.rs", "max_encoding_length(message.len()) + 1"): "the length of a buffer to make, which has the zero too",
    ("frames.rs", "encode(message, zeros) + 1"): "the zero after the frame",
    ("frames.rs", "stream.len() / 2"): "a bound for the number of frames, which isn't a position",
    ("frames.rs", "room.checked_add"): "the length of a buffer to make, for all messages",
    ("codec.rs", "max_encoding_length(message.len()) + 1"): "the length of a buffer to make, which has the zero too",
    ("memory.rs", "begun +"): "a vector that grows",
    ("array_vec.rs", "N - self.len"): "the rest of a vector",
    ("array_vec.rs", "self.len += 1"): "a vector that grows",
}


def code_of(text):
    """Yields the lines of a file without comments, strings and tests."""
    for number, line in enumerate(text.split("#[cfg(test)]")[0].splitlines(), 1):
        line = re.sub(r'b?"(\\.|[^"\\])*"|b?\'(\\.|[^\'\\])\'', '""', line.strip())
        yield number, line.split("//")[0].rstrip()


def main():
    used, found = set(), []
    for path in sorted(SRC.rglob("*.rs")):
        name = path.relative_to(SRC).as_posix()
        if name.startswith("proved/"):
            continue
        for number, line in code_of(path.read_text()):
            for sign in (LOOP, ARITHMETIC):
                if sign.search(line) and not line.startswith(("use ", "pub use ")):
                    permitted = [(place, words) for place, words in PERMITTED if place == name and words in line]
                    used.update(permitted)
                    if not permitted:
                        found.append(f"src/{name}:{number}: {line}")
    found += [f"src/{place}: nothing needs the exception '{words}'" for place, words in PERMITTED if (place, words) not in used]
    print(*found, sep="\n", end="\n" if found else "")
    sys.exit(1 if found else 0)


if __name__ == "__main__":
    main()
