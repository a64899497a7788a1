#!/usr/bin/env python3
"""Puts wrong definitions and wrong bodies into copies of the crates, one at a time, and checks that the prover rejects each of them.

usage: tests/wrong_code.py [--jobs N] [WORD..]

Each block of tests/wrong_code.txt changes a line or two: a definition in a crate's specs/, or a body in its src/. A block
begins with a line '== NAME' and ends at an empty line. 'only: CRATE::FUNCTION' names the function that must be rejected.
Then come the lines 'file:', 'old:' and 'new:' of a must-fail edit, in which the path of a file begins with its crate. If that
crate is below the crate of the function, the crates between them are built with the change. With words, only those blocks are
tried whose names or functions contain one of the words.

First the unchanged functions are checked in the crates' own folders, with the results that an earlier `rt check` kept there. Each
block is then tried with the results of this check: only its function is checked again, with the functions that it calls and the
lemmas that their proofs cite. N blocks are tried at once (by default one for each processor). Each needs one to two gigabytes.

For each block the script prints a line, in the order of the file: its name, the function that was rejected, and the clauses
that have no proof. If a loop invariant has no proof, the line has the name of the loop after the word 'loop'. The status is 0 if
each block was rejected.
"""
import argparse
import os
import re
import shutil
import signal
import subprocess
import sys
import tempfile
from concurrent.futures import ThreadPoolExecutor
from pathlib import Path

sys.dont_write_bytecode = True
import tree

TOP = Path(__file__).resolve().parent.parent
RT = Path(shutil.which("rt") or "/opt/rattle/bin/rt").resolve()
# What `rt check` runs once it has chosen the kept work of another copy of the repository to begin with, which a copy with a
# wrong line in it must neither take nor offer.
RT_ALONE = RT.with_name("rtlib.py")
SOURCES = ("src", "specs", "proofs")
# The lines of crates.txt, and the crates that each names.
ROWS = {row.split(":")[0].split()[0]: row for row in (TOP / "crates.txt").read_text().splitlines() if row[:1].isalpha()}
USES = {name: row.partition(":")[2].split() for name, row in ROWS.items()}
# A check names the goals that have no proof; or else those that it left since they rest on a lemma that has none.
OPEN = re.compile(
    r"Answers\.antt:[\d:]* error: `([^`]+)`:|not proved .*\(`([^`]+)`\)|Answers\.antt.*was not checked: (.*)"
)
LEFT = re.compile(r"Answers\.antt.*were not checked: (.*?)(?: and \d+ more)?$")
RUNNING = set()


def with_below(crate):
    """The crate, and before it those of the repository that it is built on."""
    below = [name for use in USES[crate] if use in ROWS for name in with_below(use)]
    return list(dict.fromkeys([*below, crate]))


class Block:
    """A wrong definition or body: its name, the function that must be rejected, and the changes."""

    def __init__(self, text):
        name, only, *changes = text.splitlines()
        self.name, self.only = name.removeprefix("== "), only.removeprefix("only: ")
        self.crate, _, self.function = self.only.partition("::")
        self.changes = [(kind, said.removeprefix(" ")) for kind, _, said in (line.partition(":") for line in changes)]

    def crates(self):
        """The crates to check or build with the change, and those below them that stay as they are."""
        changed = {said.split("/")[0] for kind, said in self.changes if kind == "file"}
        crates = with_below(self.crate)
        anew = [name for name in crates if name == self.crate or changed & set(with_below(name))]
        return anew, [name for name in crates if name not in anew]

    def texts(self, crates):
        """The files that it changes, with the changes, by their paths below the folder of crates."""
        texts = {}
        for kind, said in self.changes:
            if kind == "file":
                path = said
                texts.setdefault(path, (crates / path).read_text())
            elif kind == "old":
                old = said
                if texts[path].count(old) != 1:
                    raise ValueError(f"the old text is {texts[path].count(old)} times in {path}")
            elif kind == "new":
                texts[path] = texts[path].replace(old, said)
            else:
                raise ValueError(f"no line of a block begins with '{kind}'")
        return texts


def texts_of_blocks():
    return (TOP / "tests/wrong_code.txt").read_text().strip("\n").split("\n\n")


def all_blocks():
    return [Block(text) for text in texts_of_blocks()]


def link(one, other):
    """Gives a second name to a file that rt replaces and never writes into; copies any other."""
    if one.endswith(".oantt") or "/rlib/" in one:
        try:
            return os.link(one, other)
        except OSError:
            pass
    return shutil.copy2(one, other)


def copy(crates, to, names, *parts):
    """Copies these parts of the folders of these crates."""
    for part in [Path(name, part) for name in names for part in parts]:
        if (crates / part).is_dir():
            shutil.copytree(crates / part, to / part, copy_function=link)


def check(rt, crate, *words):
    """The status of `rt check` in the folder of a crate, and what it printed."""
    command, how = [rt, "check", *words], {"stdout": subprocess.PIPE, "stderr": subprocess.STDOUT, "text": True}
    with subprocess.Popen(command, cwd=crate, **how) as ran:
        RUNNING.add(ran)
        said = ran.communicate()[0]
        RUNNING.discard(ran)
    return ran.returncode, said


def clauses(crate, function):
    """The names of the clauses of a function of the crate in this folder."""
    *place, name = function.split("::")
    for at in range(len(place), -1, -1):
        path = crate / "src" / f"{'/'.join(place[:at]) or 'lib'}.rt"
        if path.is_file():
            # In a method's path the name of its trait, if it is of one, follows that of its type.
            owner = "".join(place[at:])
            found = [named for its, fn, named in tree.contracts(path) if fn == name and owner.startswith(its or "")]
            return found[0] if found else []
    return []


def open_goals(said):
    """The names of the goals that a check left without a proof."""
    lines = [line for line in said.splitlines() if re.match(r"(note: )?(\./)?(src|proofs)/", line)]
    found = [next(filter(None, match.groups())) for match in map(OPEN.search, lines) if match]
    if not found:
        lines = [re.sub(r" \(via [^)]*\)", "", line) for line in lines]
        found = [match[1] for match in map(LEFT.search, lines) if match]
    return sorted({goal.strip(" `") for names in found for goal in names.split(",")})


def left_open(goals, named):
    """Which of the clauses named have no proof; or which loops, with the clauses, that rest on them; or which goals."""
    found, loops = set(), set()
    for goal in goals:
        clause = re.match(r"returns.*clause-(\w+)", goal)
        loop = re.match(r"(.*?)-(init|preserved|smaller)(-.*)?$", goal)
        if clause or goal.startswith("returns") and len(named) == 1:
            found.add(clause[1] if clause else named[0])
        elif loop:
            loops.add(loop[1])
    if loops and not found:
        return f"loop {', '.join(sorted(loops))}" + (f" ({', '.join(sorted(named))})" if named else "")
    return ", ".join(sorted(found) or goals)


def verdict(block, crate, status, said):
    """Whether a check rejected the block, and what to print."""
    unread = re.search(r"^(\./)?(specs|src)/\S*: error.*", said, re.M)
    if unread:
        return False, f"CANNOT BE READ: {unread[0]}"
    rejected = re.findall(rf"^fn ({block.crate}::\S+): (?:not proved|no proof)(?!.*it calls)", said, re.M)
    if status != 1 or not rejected:
        last = said.strip().rpartition("\n")[2]
        return False, f"NOT REJECTED (rt check ended with {status}): {last}"
    rejected = sorted(set(rejected))
    left = left_open(open_goals(said), clauses(crate, rejected[0].partition("::")[2]))
    return True, ", ".join(rejected) + (f": {left}" if left else "")


def attempt(block, kept, work):
    """Whether the prover rejects a block, and what to print."""
    try:
        texts = block.texts(kept)
    except (OSError, ValueError) as why:
        return False, f"CANNOT BE APPLIED: {why}"
    anew, as_they_are = block.crates()
    with tempfile.TemporaryDirectory(dir=work) as folder:
        crates = Path(folder, "crates")
        copy(kept, crates, anew, *SOURCES, "out/incremental")
        copy(kept, crates, as_they_are, *SOURCES, "out/rlib")
        Path(folder, "crates.txt").write_text("".join(f"{ROWS[name]}\n" for name in [*as_they_are, *anew]))
        for path, text in texts.items():
            (crates / path).write_text(text)
        crate = crates / block.crate
        return verdict(block, crate, *check(RT_ALONE, crate, "--jobs=1", f"--only={block.function}"))


def keep(blocks, kept):
    """Checks the blocks' functions as they are, and copies their crates with what that kept."""
    crates = [name for name in ROWS if any(name in with_below(block.crate) for block in blocks)]
    for name in crates:
        only = sorted({f"--only={block.function}" for block in blocks if block.crate == name})
        status, said = check(RT, TOP / "crates" / name, *only) if only else (0, "")
        if status:
            sys.exit(f"{said}crates/{name}: a function has no proof as it is")
    copy(TOP / "crates", kept, crates, *SOURCES, "out/incremental", "out/rlib")


def main():
    parser = argparse.ArgumentParser(usage="tests/wrong_code.py [--jobs N] [WORD..]")
    parser.add_argument("--jobs", type=int, default=len(os.sched_getaffinity(0)))
    parser.add_argument("words", nargs="*")
    given = parser.parse_args()
    signal.signal(signal.SIGTERM, lambda *_: sys.exit(2))
    blocks = [it for it in all_blocks() if any(word in f"{it.name} {it.only}" for word in given.words or [""])]
    are_rejected = bool(blocks)
    with tempfile.TemporaryDirectory() as work, ThreadPoolExecutor(given.jobs) as pool:
        kept = Path(work, "kept")
        try:
            keep(blocks, kept)
            for block, (is_rejected, line) in zip(blocks, pool.map(lambda it: attempt(it, kept, work), blocks)):
                print(f"{block.name}: {line}", flush=True)
                are_rejected = are_rejected and is_rejected
        except BaseException:
            pool.shutdown(wait=False, cancel_futures=True)
            for ran in list(RUNNING):
                ran.kill()
            raise
    sys.exit(not are_rejected)


if __name__ == "__main__":
    main()
