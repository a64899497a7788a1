#!/usr/bin/env python3
"""Writes jcobs.c from the proved functions in Rattle: translate.py [--check] [CRATES]

Each exported function of crates/cobs_c, and each function that it reaches, is translated to a C function with the same
statements, names and comments, except for the names and comments that names.py replaces. The arguments of an exported function have
the same names as in jcobs.h, and the comment of the function summarizes its contract. A function that only passes its parameters on
to another function isn't written. What is only for more bytes than the threshold (SHORT in crates/cobs/src/slices.rt) is written between
#ifdef JCOBS_FAST and #endif: the parts of an `if` that compares with the threshold, and the functions that only these parts call.
kinds.py describes how types are translated. A form that the script doesn't know is an error, which names the function. The text
before the functions is in top.c, and the text after them is in rest.c. With --check the script compares jcobs.c, and doesn't write it.
"""

import re
import sys
from pathlib import Path

import header
import names
from function import Function, wrapped
from kinds import FRAME, snake
from program import Program
from rattle import Unknown

HERE = Path(__file__).resolve().parent


class Output:
    """The functions in the order that C requires, and the types and constants that they use."""

    def __init__(self, crates, include):
        self.program, self.calls = Program(crates), header.calls(include)
        self.contracts = header.contracts(sorted((crates / "cobs_c/src").glob("*.rt")))
        self.names, self.texts, self.numbers = {}, [], {}
        self.starts, self.unused, self.made = {}, set(), {}
        self.renamed = set()  # the names of VARIABLES that occur
        self.mentioned = set()  # functions that comments name
        self.callers = {}  # for each function, the functions that call it, and whether they do so only above the threshold
        self.reached, self.replaced = set(), set()  # functions, and the texts that were replaced in their comments
        self.enums = header.enums(include)
        # The structs of jcobs.h, by the names of their members.
        self.given = {tuple(name for _, name in it.values()): of for of, it in header.structs(include).items()}

    def function(self, found, caller=None):
        """Returns the name of a function in C. At the first call for a function, the function is written."""
        crate, path, item = found
        key = (path, item[1])
        self.callers.setdefault(key, []).append((caller.key, caller.is_above, caller.is_below) if caller else None)
        if key not in self.names:
            made = Function(self, crate, path, item)
            if made.is_exported and (inner := self.only_passes_on(found)) and len(inner[1]) == len(item[2]):
                made.take_body(*inner[0], inner[1])
                self.reached.add(made.name_here)
            self.reached |= {item[1], made.name_here}
            name = self.name_of(made)
            if not made.is_exported and (name in self.calls or name in self.names.values()):
                raise Unknown(f"{item[1]}: there is a {name} already")
            self.names[key] = name
            try:
                self.texts.append((key, made.written()))
            except (AttributeError, IndexError, KeyError, TypeError, ValueError) as what:
                raise Unknown(f"{path.name}, {item[1]}: {what!r}") from what
        return self.names[key]

    def name_of(self, made):
        """Returns the C name of a function."""
        owner, _, method = made.name.rpartition("::")
        of = self.owner(made.find(owner)[2], made) if owner else "jcobs"
        return made.name if made.is_exported else names.FUNCTIONS.get(made.name) or f"{of}_{snake(method)}"

    def only_passes_on(self, found):
        """If this function only calls another with its own parameters, in their order, and constants, returns that one and the arguments."""
        crate, path, item = found
        body = item[4]
        body = [it for it in body if not is_of_law(it)] if isinstance(body, list) else []
        if len(body) != 1 or body[0][0] != "value":
            return None
        tree = body[0][1]
        if tree[0] == "match" and all(is_same_constant(*arm) for arm in tree[2]):
            tree = tree[1]
        return self.passed_on(tree, item[2], path, crate)

    def passed_on(self, tree, params, path, crate):
        """If this is a call with these parameters, in their order, and constants, returns the called function and the arguments."""
        if tree[0] not in ("call", "method"):
            return None
        kind, name, *rest = tree
        args = rest[0] if kind == "call" else [rest[0], *rest[1]]
        own = [("path", it) for it, _ in params]
        if args[: len(own)] != own or any(it[0] != "number" for it in args[len(own) :]):
            return None
        if kind == "method":
            of = params[0][1]
            if of[0] != "ref" or of[2][0] != "path":
                return None
            name = f"{of[2][1]}::{name}"
        try:
            return self.program.find(name, path, crate), args
        except Unknown:
            return None

    def behind(self, found):
        """Returns the function to which this one only passes its parameters on, and the constants that it passes after them.

        If there is none, returns this function.
        """
        inner = None if any("no_mangle" in it for it in found[2][6]) else self.only_passes_on(found)
        if not inner:
            return found, []
        behind, constants = self.behind(inner[0])
        return behind, [*inner[1][len(found[2][2]) :], *constants]

    def constant(self, name, value, docs):
        """Returns the C name of a constant. Its comment in C is that of names.py, or its comment in Rattle up to the first comma."""
        says = names.CONSTANTS.get(name) or re.match(r"(.*?)(?:,|\.$|$)", " ".join(docs))[1]
        says = says[:1].lower() + says[1:]
        if self.numbers.setdefault(name, (value, says))[0] != value or value > 255:
            raise Unknown(f"{name} has two values, or may not fit a size_t")
        return f"JCOBS_{name}"

    def enum(self, item):
        """Returns the name of the enum of jcobs.h that has the same variants."""
        wanted = [snake(it).upper() for it, _ in item[2]]
        for name, words in self.enums.items():
            if words == wanted:
                return name
        raise Unknown(f"{item[1]}: jcobs.h has no such enum")

    def variant(self, item, name):
        self.enum(item)
        return f"JCOBS_{snake(name).upper()}"

    def started(self, item, function):
        """Returns the C name of a struct, and records that this struct has an initial state, in which each member is 0."""
        name = self.struct(item, function)
        self.starts.setdefault(name, [it for it, _ in item[2]])
        return name

    def struct(self, item, function):
        """Returns the name of the struct of jcobs.h that has the same members."""
        name = self.given.get(tuple(field for field, _ in item[2]))
        if not name:
            raise Unknown(f"{item[1]}: jcobs.h has no struct with these members")
        return name

    def owner(self, item, function):
        """Returns the word with which the name of a method begins."""
        return self.struct(item, function) if item[0] == "struct" else f"jcobs_{snake(item[1])}"

    def constructor(self, item, function):
        """Returns the name of the function that makes a struct from its members."""
        name = self.struct(item, function)
        if name != "jcobs_answer":
            self.made[name] = [function.declared(kind, of) for of, kind in item[2]]
        return f"jcobs_make_{name.rsplit('_', 1)[-1]}"

    def several(self, name, function):
        """Returns the constructor of the struct for the results of a function that returns several values."""
        of, fields = names.SEVERAL[name]
        _, _, item = function.find(name)
        self.made[f"jcobs_{of}"] = [function.declared(kind, it) for it, kind in zip(fields, item[3][1])]
        return f"jcobs_make_{of}"

    def constants(self):
        """Returns the enum of the constants."""
        lines = [(f"JCOBS_{name} = {value}", says) for name, (value, says) in sorted(self.numbers.items())]
        texts = [f"{text}," for text, _ in lines[:-1]] + [text for text, _ in lines[-1:]]
        width = max(map(len, texts), default=0)
        words = [f"    {text:{width}} /* {says} */\n" for text, (_, says) in zip(texts, lines)]
        return "enum {\n" + "".join(words) + "};"

    def is_above(self, key):
        """Returns whether a function is only called above the threshold."""
        return key is not None and all(it and (it[1] or self.is_above(it[0])) for it in self.callers[key] if not it or it[0] != key)

    def compiled_only(self, key):
        """Returns the line before a function that is called only with JCOBS_FAST, or only without it."""
        if self.is_above(key):
            return "#ifdef JCOBS_FAST"
        return "#ifndef JCOBS_FAST" if key is not None and all(it and it[2] for it in self.callers[key]) else ""

    def functions(self):
        """Returns the functions. Those that are called only with JCOBS_FAST, or only without it, are compiled only then."""
        before = ""
        found = []
        for key, text in self.texts:
            below = re.sub(r"#ifdef JCOBS_FAST\n.*?#(else|endif)", "", text, flags=re.S)
            if not self.is_above(key) and re.search(r"\bmem\w+\(", below):
                raise Unknown(f"{key}: a function of the C library without JCOBS_FAST")
            only = self.compiled_only(key)
            if only == "#ifdef JCOBS_FAST":  # then its parts needn't say so
                text = re.sub(r"#ifdef JCOBS_FAST\n(.*?)(?:#else\n.*?)?#endif\n", r"\1", text, flags=re.S)
            if only != before:
                found[-1] += "\n#endif" if before else ""
                text, before = f"{only}\n{text}" if only else text, only
            found.append(text)
        return found

    def text(self, below=False):
        """Returns the text of all functions, or of what is compiled without JCOBS_FAST."""
        text = "\n".join(self.functions())
        return re.sub(r"#ifdef JCOBS_FAST\n.*?#(?:else|endif)", "", text, flags=re.S) if below else text

    def where_used(self, name, text):
        """Returns the text of a small function, which is compiled only with JCOBS_FAST if it is used only then."""
        return text if f"{name}(" in self.text(below=True) else f"#ifdef JCOBS_FAST\n{text}\n#endif"

    def methods(self):
        """Yields the functions for the methods of numbers."""
        return [self.where_used(f"jcobs_{name}", it) for name, it in names.METHODS.items() if f"jcobs_{name}(" in self.text()]

    def types(self):
        """Yields the functions that set a state to its initial value."""
        for name, words in self.made.items():
            of = name.removeprefix("jcobs_")
            body = "".join(f"    {of}.{it.split()[-1]} = {it.split()[-1]};\n" for it in words)
            if name not in self.given.values():
                members = "".join(f"    {it};\n" for it in words)
                yield f"typedef struct {name} {{\n{members}}} {name};"
            yield self.where_used(f"jcobs_make_{of}", f"static JCOBS_INLINE {name} jcobs_make_{of}({', '.join(words)})\n{{\n    {name} {of};\n\n{body}    return {of};\n}}")
        for name, fields in self.starts.items():
            of = name.rsplit("_", 1)[-1]
            body = "".join(f"    {of}->{it} = 0;\n" for it in fields)
            yield f"/* Sets the {of} to {name.upper()}_INIT. */\nstatic JCOBS_INLINE void {name}_init({name} *{of})\n{{\n{body}}}"


def is_same_constant(pattern, body):
    """Returns whether an arm of a match returns the constant of jcobs.h for a variant of an enum. In C this is the variant itself."""
    return pattern[0] == "variant" and body == [("value", ("path", snake(pattern[1].rpartition("::")[2]).upper()))]


def is_of_law(statement):
    """Returns whether a statement is a comment, or the call of a law."""
    return statement[0] == "comment" or statement[0] == "do" and statement[1][0] == "call" and statement[1][1].startswith("law_")


def translated(crates):
    out = Output(crates, (HERE.parent / "include/jcobs.h").read_text())
    places = [(path, found) for path, (items, _) in out.program.files.items() for found in items.values() if "cobs_c" in path.parts]
    exported = {found[2][1]: found for _, found in places if found[2][0] == "fn" and any("no_mangle" in it for it in found[2][6])}
    for name, found in exported.items():  # a call of jcobs.h stands for the function to which it passes its parameters on
        if name not in names.BY_HAND and (inner := out.only_passes_on(found)) and len(inner[1]) == len(found[2][2]):
            out.names[inner[0][1], inner[0][2][1]] = name
    for name in out.calls:  # in the order of jcobs.h
        if name in names.SECTIONS:
            out.texts.append((None, f"/* ---- {names.SECTIONS[name]} ---- */"))
        if name in exported and name not in names.BY_HAND:
            out.function(exported[name])
    if missing := set(out.contracts) - set(out.names.values()) - set(names.BY_HAND):
        raise Unknown(f"not written: {missing}")
    top, after = (HERE / "top.c").read_text().rstrip().split("/* the constants */\n")
    parts = [f"{top}{out.constants()}\n{after}", *out.types(), *out.methods(), *out.functions(), (HERE / "rest.c").read_text().rstrip()]
    return "\n\n".join(parts) + "\n", out


def want_used(out):
    """Checks that each name and each comment of names.py occurs in these crates."""
    if unused := {(of, old) for of, pairs in names.COMMENTS.items() if of for old, _ in pairs} - out.replaced:
        raise Unknown(f"names.py has comments that no function has: {unused}")
    if unknown := {name for path, name in out.mentioned if (path, name) not in out.names and f"jcobs_{name}" not in out.calls}:
        raise Unknown(f"comments name functions that nothing calls: {unknown}")
    if unused := {(of, name) for of, them in names.VARIABLES.items() for name in them} - out.renamed:
        raise Unknown(f"names.py has variables that no function has: {unused}")
    if unused := {*names.FUNCTIONS} - out.reached:
        raise Unknown(f"names.py names functions that nothing calls: {unused}")


def main():
    words = [it for it in sys.argv[1:] if it != "--check"]
    crates = Path(words[0]).resolve() if words else HERE.parents[2] / "crates"
    if len(words) > 1 or not (crates / "cobs_c/src").is_dir():
        sys.exit(__doc__)
    made, out = translated(crates)
    if not words:
        want_used(out)
    target = HERE / "jcobs.c"
    if "--check" not in sys.argv:
        target.write_text(made)
    elif target.read_text() != made:
        sys.exit(f"{target} isn't what translate.py makes of the crates: run translate.py")


if __name__ == "__main__":
    try:
        main()
    except Unknown as what:
        sys.exit(f"translate.py: unknown: {what}")
