"""The files of the repository, and the contracts in them, for the other scripts of this folder."""
import re
import subprocess
from functools import cache
from pathlib import Path

TOP = Path(__file__).resolve().parent.parent
BLOCK = re.compile(r"(?:pub )?(?:impl|trait)\b(?:<[^{]*?>)? *(?:[\w:]+(?:<.*>)? for )?(\w+).*\{$")
FUNCTION = re.compile(r' *(?:pub(?:\(crate\))? )?(?:extern "C" )?fn (\w+)')


@cache
def files():
    """The files that git tracks, as paths from the top."""
    listed = subprocess.run(["git", "-C", str(TOP), "ls-files"], capture_output=True, text=True, check=True).stdout
    return [name for name in listed.splitlines() if (TOP / name).is_file()]


def tracked(pattern):
    return sorted(TOP / name for name in files() if re.fullmatch(pattern, name))


def documents():
    return [name for name in files() if name.endswith(".md")]


def blank(pattern, text, flags=0):
    """`text` with what matches blanked, so that lines keep their numbers."""
    return re.sub(pattern, lambda found: "\n" * found[0].count("\n"), text, flags=flags)


def contracts(path):
    """Each function of a source: its type or None, its name, and the names of its clauses."""
    found, owner = [], None
    text = re.sub(r"^(impl\b[^{\n]*)\n +(for [^{\n]*\{)$", r"\1 \2", path.read_text(), flags=re.M)
    for line in text.splitlines():
        clause = re.match(r" *ensures\*? (\w+) \{", line)
        if block := BLOCK.match(line):
            owner = block[1]
        elif line == "}":
            owner = None
        elif function := FUNCTION.match(line):
            found.append((owner, function[1], []))
        elif clause and found:
            found[-1][2].append(clause[1])
    return found


@cache
def functions_of(crate):
    """The functions of a crate, as (type or None, name)."""
    return {(owner, name) for path in tracked(rf"crates/{crate}/src/.*\.rt") for owner, name, _ in contracts(path)}


def clauses():
    """The clauses of each function, the laws of each trait and the fields of each record, by name."""
    known = {}
    for path in tracked(r"crates/\w+/src/.*\.rt"):
        for owner, name, ensured in contracts(path):
            for key in (name, f"{owner}::{name}"):
                known.setdefault(key, set()).update(ensured)
        for trait, body in re.findall(r"^pub trait (\w+).*?\{$(.*?)^\}", path.read_text(), re.S | re.M):
            known.setdefault(trait, set()).update(re.findall(r"^    ghost (\w+):", body, re.M))
    for path in tracked(r"crates/\w+/specs/.*\.antt"):
        for record, body in re.findall(r"^(?:pub )?record (\w+)(.*?)(?=^\S|\Z)", path.read_text(), re.S | re.M):
            known.setdefault(record, set()).update(re.findall(r"^  (?:pub )?(\w+) :", body, re.M))
    return known
