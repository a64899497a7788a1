#!/usr/bin/env python3
"""Writes a copy of jcobs.c with the contracts of the files *.acsl in it, as comments.

usage: check/frama-c/annotate.py SOURCE COPY

These files have parts for functions of jcobs.c. A part begins with a heading and ends at the next one:

    # FUNCTION                 before this function: its contract
    ## loop N                  before the Nth loop of the function
    ## before TEXT             before the one line of the function that begins with this text
    ## after TEXT              after that line
    # TITLE, before FUNCTION   before this function and its contract: words that contracts use, or a proof for several functions

Lines that begin with '//' are left out, and lines of a function between #ifdef JCOBS_FAST and the next #else or #endif aren't read. It fails if a heading names no function, loop or line, if a loop of a function that
has a part has none, if a loop needn't end, if a part has a word for what Frama-C believes without a proof, or if the copy without its
comments differs from the source without its comments, token by token.
"""
import re
import sys
from pathlib import Path

HERE = Path(__file__).resolve().parent
BELIEVED = re.compile(r"\b(axiom|axiomatic|admit|assume|assumed|extern|lemma|terminates|exits)\b|\*/")
DEFINED = re.compile(r"(?!typedef|enum)[a-z][\w ]*?[ *](jcobs_\w+)\(")
LOOP = re.compile(r"\s*(while|for|do)\b")
COMMENT_OR_TOKEN = re.compile(
    r"(?P<comment>/\*.*?\*/|//[^\n]*)|\"(?:\\.|[^\"\\])*\"|'(?:\\.|[^'\\])*'|\w+"
    r"|<<=|>>=|<<|>>|->|\+\+|--|&&|\|\||[-+*/%&|^=!<>]=|\S",
    re.S,
)


def tokens(text):
    """The tokens of a text in C, without its comments."""
    return [match[0] for match in COMMENT_OR_TOKEN.finditer(text) if not match["comment"]]


def table():
    """The notes of the files *.acsl: for each name those of its part, by the headings in it, '' for the first."""
    parts = {}
    for path in sorted(HERE.glob("*.acsl")):
        kinds = kind = None
        for number, line in enumerate(path.read_text().splitlines(), 1):
            if line.startswith("# "):
                name, kind, kinds = line[2:].strip(), "", {"": []}
                if parts.setdefault(name, kinds) is not kinds:
                    sys.exit(f"{path.name}:{number}: a second part for {name}")
            elif line.startswith("## "):
                kind = line[3:].strip()
                kinds[kind] = []
            elif not line.startswith("//") and (kinds or line.strip()):
                kinds[kind].append(line)
    notes = {name: {kind: "\n".join(lines).strip() for kind, lines in kinds.items()} for name, kinds in parts.items()}
    for name, kinds in notes.items():
        for kind, said in kinds.items():
            if not said or BELIEVED.search(said):
                sys.exit(f"{name}, {kind or 'contract'}: it is empty, or has a word or sign that it must not have")
            if kind.startswith("loop") and "loop variant" not in said:
                sys.exit(f"{name}, {kind}: no variant")
    return notes


def comments(said, indent=""):
    """Comments that Frama-C reads: one for each assertion, for code that only Frama-C sees, and for other notes together."""
    written = []
    for note in re.split(r"^(?=assert\b|ghost\b)", said, flags=re.M):
        lines = [f"{indent}    {line}".rstrip() for line in note.strip().splitlines()]
        written += [f"{indent}/*@", *lines, f"{indent}*/"] if lines else []
    return written


def functions_of(source):
    """The functions that a source defines: the numbers of the first and the last line of each."""
    lines = source.splitlines()
    found = {}
    for at, line in enumerate(lines):
        match = DEFINED.match(line)
        if match:
            end = at
            while lines[end] != "{" and not lines[end].endswith(";"):
                end += 1
            if lines[end] == "{":
                found[match[1]] = (at, lines.index("}", end))
    return found


def read_of(lines, first, last):
    """The numbers of those lines of a function that are read without JCOBS_FAST."""
    fast, found = False, []
    for at in range(first, last + 1):
        if lines[at].startswith("#"):
            fast = lines[at] == "#ifdef JCOBS_FAST"
        elif not fast:
            found.append(at)
    return found


def place(name, kind, lines, first, last):
    """The number of the line before which a note of a function belongs."""
    if kind and not re.match("(loop|before|after) ", kind):
        sys.exit(f"{name}: a part '{kind}'")
    inside = read_of(lines, first, last)
    if kind == "":
        found = [first]
    elif kind.startswith("loop "):
        found = [at for at in inside if LOOP.match(lines[at])][int(kind[5:]) - 1 :][:1]
    else:
        found = [at for at in inside if lines[at].strip().startswith(kind.partition(" ")[2])]
    if len(found) != 1:
        sys.exit(f"{name} has {len(found)} places for '{kind}'")
    return found[0] + kind.startswith("after ")


def annotated(source, notes):
    """The source with these notes."""
    lines = source.splitlines()
    functions = functions_of(source)
    inserted = {}
    for name, (first, last) in functions.items():
        if name not in notes:
            continue
        loops = sum(bool(LOOP.match(lines[at])) for at in read_of(lines, first, last))
        missing = [kind for kind in ["", *(f"loop {n + 1}" for n in range(loops))] if kind not in notes[name]]
        if missing:
            sys.exit(f"{name} has no part for '{missing[0]}'")
        # A loop's note comes directly before it.
        for kind, said in sorted(notes[name].items(), key=lambda note: note[0].startswith("loop")):
            at = place(name, kind, lines, first, last)
            indent = re.match(" *", lines[at])[0]
            inserted.setdefault(at, []).extend(comments(said, indent))
    # Each goes in front of those before it. They are sorted so that the copy is the same in each run.
    for title in sorted(notes.keys() - functions.keys(), reverse=True):
        name = title.partition(", before ")[2]
        if name not in functions:
            sys.exit(f"there is no function for the part '{title}'")
        inserted.setdefault(functions[name][0], [])[:0] = comments(notes[title][""])
    out = []
    for at, line in enumerate(lines):
        out += [*inserted.get(at, []), line]
    copy = "\n".join(out) + "\n"
    if tokens(copy) != tokens(source):
        sys.exit("the copy has other tokens than the source")
    return copy


def main():
    Path(sys.argv[2]).write_text(annotated(Path(sys.argv[1]).read_text(), table()))


if __name__ == "__main__":
    main()
