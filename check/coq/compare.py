#!/usr/bin/env python3
"""Compares the definitions of Definitions.v with those of crates/*/specs, from which they are.

Each definition of Definitions.v below a heading "of FILE" is written in the notation of that file: the two languages
differ in signs (`::` and `∷`), in how cases are written (`match` and one equation a case), and in how properties with
named parts are written (`Inductive` and `record`). It must then be that file's definition of this name, sign by sign.
The files in WHOLE must have no definition that Definitions.v hasn't.

It prints what differs, and the status is then 1.
"""
import difflib
import re
import sys
from pathlib import Path

HERE = Path(__file__).resolve().parent
TOP = HERE.parent.parent
WHOLE = {"crates/cobs/specs/Grammar.antt", "crates/cobs/specs/Length.antt"}
# Definitions of these files that no theorem here is about.
LEFT_OUT = {"open_len"}
SIGNS = [
    (r"@length nat\b", "length"), (r"\bnat\b", "ℕ"), (r"\blist\b", "List"), (r"\bbool\b", "Bool"), (r"\bFalse\b", "⊥"),
    (r"\bForall\b", "All"), (r"\bfirstn\b", "take"), (r"::", "∷"), (r"=\?", "=="), (r"<>", "≢"), (r"/\\", "×"), (r"\\/", "⊎"),
    (r"->", "→"), (r"\bmod\b", "%"), (r"(?<![=:<>])=(?![=>])", "≡"),
]  # fmt: skip


def translated(text):
    """A type or a term of Coq, in the other notation."""
    text = re.sub(r"\bexists (\w+) : ([^,]*),", r"(\1 : \2) /\\ ", text)
    text = re.sub(r"\bforall ((?:\([^()]*(?:\([^()]*\))?[^()]*\) ?)+),", lambda m: f"{m[1]} -> ", text)
    text = re.sub(r"\bfun (\w+) =>", r"λ \1.", text)
    for sign, other in SIGNS:
        text = re.sub(sign, other, text)
    return text


def tokens(text):
    """The words and signs of a text; a pair of parentheses around one word says nothing."""
    found = re.findall(r"[\w']+|[^\w\s]+?(?=[\w\s()\[\]]|$)|[()\[\]]", text)
    joined = " ".join(found)
    return re.sub(r"\( (\w+) \)", r"\1", joined).split()


def groups(text):
    """The parenthesized groups at the front of a text, and what follows them."""
    parts, rest = [], text.strip()
    while rest.startswith("("):
        depth = 0
        for at, sign in enumerate(rest):
            depth += (sign == "(") - (sign == ")")
            if depth == 0:
                break
        parts.append(rest[1:at])
        rest = rest[at + 1 :].strip()
    return parts, rest


def pattern(text):
    """The pattern of a case, as the arguments of an equation, and what a name in it stands for."""
    names = {}

    def whole(match):
        names[match[2]] = f"({match[1]})"
        return match[1]

    text = re.sub(r"\(\((.*?)\) as (\w+)\)", whole, text)
    arguments = []
    for part in text.split(","):
        part = part.strip()
        part = {"0": "zero"}.get(part, re.sub(r"\bS (\w+)", r"suc \1", part))
        arguments.append(f"({part})" if " " in part else part)
    return " ".join(arguments), names


def of_function(name, head, body):
    """The lines of `Definition NAME HEAD := BODY.`: its type, and an equation for each case."""
    arguments, result = groups(head)
    result = result.removeprefix(":").strip()
    typed = [part.split(":", 1) for part in arguments]
    names = [each for group, _ in typed for each in group.split()]
    types = [kind.strip() for group, kind in typed for _ in group.split()]
    result = "Type 0" if result == "Prop" else result
    lines = [f"{name} : {translated(' -> '.join([*types, result]))}"]
    match = re.fullmatch(r"match .*? with (.*) end", body)
    if not match:
        return lines + [f"{' '.join([name, *names])} ≝ {translated(body)}"]
    for case in re.split(r"(?:^|(?<=\s))\| ", match[1]):
        if case.strip():
            left, right = case.split("=>", 1)
            left, stands = pattern(left.strip())
            for short, long in stands.items():
                right = re.sub(rf"\b{short}\b", lambda _, long=long: long, right)
            lines.append(f"{name} {translated(left)} ≝ {translated(right)}")
    return lines


def of_coq(text):
    """The definitions below each heading, by file and name."""
    found, file = {}, None
    for match in re.finditer(
        r"\(\* of (\S+) \*\)|\(\*.*?\*\)|((?:Definition|Fixpoint|Inductive) .*?\.)(?=\s*\n\s*\n|\s*$)", text, re.S
    ):
        if match[1]:
            file = match[1]
        if not match[2] or not file:
            continue
        sentence = " ".join(match[2].removesuffix(".").split())
        kind, name, rest = sentence.split(" ", 2)
        head, body = rest.split(":=", 1)
        head, body = head.strip(), body.strip()
        if kind != "Inductive":
            lines = of_function(name, head, body)
        elif head.endswith("Prop"):
            parts, _ = groups(head)
            fields, rest = groups(body.split(" ", 1)[1])
            assert not rest, f"{name}: {rest}"
            lines = [f"{name} {' '.join(f'({translated(part)})' for part in parts)} : Type 0 where"]
            lines += [translated(field) for field in fields]
        else:
            lines = [f"{name} : Type 0 where"]
            for case in body.split("|"):
                if case.strip():
                    variant, *more = case.split(" ", 2)[1:] if case.startswith(" ") else case.split(" ", 1)
                    fields, _ = groups(more[0] if more else "")
                    lines.append(f"{variant} : {' -> '.join([f'({field})' for field in fields] + [name])}")
            lines = [translated(line) for line in lines]
        found.setdefault(file, {})[name] = lines
    return found


def of_specs(text):
    """The definitions of a file of specs/, by name."""
    found, name = {}, None
    for line in text.splitlines():
        if not line.strip() or line.startswith(("--", "use ", "pub use ")):
            continue
        begins = re.match(r"(?:abbrev|unfoldable) pub (\w+) |pub (?:record|data) (\w+)\b", line)
        if begins:
            name = begins[1] or begins[2]
            found[name] = [re.sub(r"^(?:abbrev |unfoldable )?pub (?:record |data )?", "", line)]
        elif re.match(rf"{name}\b.* =(?: |$)", line):
            found[name].append(re.sub(r" =( |$)", r" ≝\1", line, count=1))
        elif re.match(r"  (?:pub )?\w+ : ", line):
            found[name].append(line.strip().removeprefix("pub "))
        else:
            found[name][-1] += " " + line.strip()
    return found


def main():
    faults = []
    ours = of_coq((HERE / "Definitions.v").read_text())
    for file, definitions in ours.items():
        theirs = of_specs((TOP / file).read_text())
        for name, lines in definitions.items():
            if name not in theirs:
                faults.append(f"{file} has no {name}")
                continue
            left, right = [" ".join(tokens(line)) for line in lines], [" ".join(tokens(line)) for line in theirs[name]]
            if left != right:
                faults.append(f"{name} isn't that of {file}:")
                faults += [
                    "    " + line for line in difflib.unified_diff(right, left, "specs", "coq", lineterm="", n=0)
                ]
        if file in WHOLE:
            faults += [
                f"{file}: {name} isn't in Definitions.v"
                for name in theirs
                if name not in definitions and name not in LEFT_OUT
            ]
    faults += [f"Definitions.v has nothing of {file}" for file in WHOLE - ours.keys()]
    print("\n".join(faults) or f"= {sum(map(len, ours.values()))} definitions of {len(ours)} files")
    return 1 if faults else 0


if __name__ == "__main__":
    sys.exit(main())
