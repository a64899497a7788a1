#!/usr/bin/env python3
"""Checks that the built libraries, programs and the module are made from the sources as they are, without building them.

usage: tests/prebuilt.py [--write NAME..]

prebuilt.sums has, for each of BUILDS, the toolchain that built it, and the sums of its crates (their .rt and .antt files,
and their lines of crates.txt, for the crate and all below it), of the files that build it, and of what was built. The
sources of Rattle are summed without their comments: no comment gets into what is built, so who mends one needs
no toolchain. --write is for the commands that build, which call it at their end. Here the sums are compared, which takes
a second: it prints what differs and the command that builds it again, and the status is then 1. tests/release.sh builds
all again and compares the bytes.
"""
import re
import subprocess
import sys
from hashlib import sha256
from pathlib import Path

TOP = Path(__file__).resolve().parent.parent
SUMS = TOP / "tests/prebuilt.sums"
# For each build: its crates, the command, the files that build it, and what is built.
BUILDS = {
    "c": (
        "cobs_c",
        "make -C bindings/c prebuilt",
        ["bindings/c/prebuilt.sh", "bindings/c/hardened.sh", "bindings/c/kit.sh"],
        ["bindings/c/prebuilt/*-linux/libjcobs.a"],
    ),
    "web": (
        "cobs_c",
        "bindings/web/build.sh",
        ["bindings/web/build.sh", "bindings/web/*.py"],
        ["bindings/web/cobs.wasm"],
    ),
    "programs": (
        "cobs_tool cobs_watch",
        "bindings/programs/build.sh",
        ["bindings/programs/build.sh"],
        ["bindings/programs/x86_64-linux/cobs_*"],
    ),
}


def crate_lines():
    """The lines of crates.txt by the names of their crates."""
    lines = (TOP / "crates.txt").read_text().splitlines()
    return {re.match(r"\w+", line)[0]: line for line in lines if re.match(r"\w", line)}


def with_those_below(crates, lines):
    """The crates and those of this repository that they depend on, the lowest first."""
    found = {}
    for crate in crates:
        below = [name for name in lines[crate].partition(":")[2].split() if name in lines]
        found |= dict.fromkeys([*with_those_below(below, lines), crate])
    return list(found)


# A literal, which is kept, or a comment. A lifetime ('a) is no literal, and has no second quote a character later. No string
# of an .antt file has two hyphens between spaces.
RT_COMMENT = re.compile(r"""("(?:\\.|[^"\\])*"|'(?:\\.|[^'\\])')|//.*?(?=\n|\Z)""", re.DOTALL)
ANTT_COMMENT = re.compile(r"()(?:^|(?<=\s))--(?=\s|$).*$", re.MULTILINE)
COMMENTS = {".rt": RT_COMMENT, ".antt": ANTT_COMMENT}


def without_comments(path):
    """The text of a source without its comments, empty lines, and spaces at the ends of lines."""
    text = COMMENTS[path.suffix].sub(lambda found: found[1] or "", path.read_text())
    return "\n".join(line.rstrip() for line in text.splitlines() if line.strip())


def sum_of_crate(crate, line):
    folder, found = TOP / "crates" / crate, sha256(line.encode())
    parts = [path for path in folder.iterdir() if path.is_dir() and path.name not in ("out", "must-fail")]
    for path in sorted(path for part in parts for path in part.rglob("*") if path.suffix in (".rt", ".antt")):
        found.update(f"\n{path.relative_to(folder)} {sha256(without_comments(path).encode()).hexdigest()}".encode())
    return found.hexdigest()


def sums_of_files(patterns):
    """The sums of files."""
    paths = sorted(path for pattern in patterns for path in TOP.glob(pattern))
    return {str(path.relative_to(TOP)): sha256(path.read_bytes()).hexdigest() for path in paths}


def sums(name, toolchain):
    """What is recorded of a build: a value for each thing by its name."""
    of, _, scripts, built = BUILDS[name]
    lines = crate_lines()
    crates = {f"crates/{each}": sum_of_crate(each, lines[each]) for each in with_those_below(of.split(), lines)}
    return {"toolchain": toolchain, **crates, **sums_of_files(scripts), **sums_of_files(built)}


def read():
    found = {name: {} for name in BUILDS}
    for line in SUMS.read_text().splitlines() if SUMS.exists() else []:
        build, thing, value = line.split(" ", 2)
        found[build][thing] = value
    return found


def write(names):
    toolchain = subprocess.run(["rt", "version"], capture_output=True, text=True, check=True).stdout.strip()
    found = read() | {name: sums(name, toolchain) for name in names}
    SUMS.write_text("".join(f"{name} {thing} {value}\n" for name in BUILDS for thing, value in found[name].items()))


def complaints(name, recorded, toolchain):
    """A line for each thing that isn't as it was when this was built; none of what was never built here."""
    if not recorded and not sums_of_files(BUILDS[name][3]):
        return
    found = sums(name, toolchain)
    for thing in {**recorded, **found}:
        if thing not in recorded:
            yield f"{thing}: it wasn't there"
        elif thing not in found:
            yield f"{thing}: it isn't there any more"
        elif thing == "toolchain" and recorded[thing] != toolchain:
            yield f"{thing}: it was {recorded[thing]}, and README.md names {toolchain}"
        elif recorded[thing] != found[thing]:
            yield f"{thing}: it has changed"


def toolchain():
    return re.search(r"rattle-kit-\S+ logic \w+", (TOP / "README.md").read_text())[0]


def stale():
    """For each of BUILDS the lines that say what isn't as it was when this was built."""
    return {name: [*complaints(name, recorded, toolchain())] for name, recorded in read().items()}


def main():
    if sys.argv[1:2] == ["--write"]:
        return write(sys.argv[2:])
    said = stale()
    for name, lines in said.items():
        if lines:
            print(f"since `{BUILDS[name][1]}`:", *lines, "    Run it again, and commit what it wrote.", sep="\n")
    if not any(said.values()):
        print(f"the libraries, the programs and the module are built from these sources, by {toolchain()}")
    return any(said.values())


if __name__ == "__main__":
    sys.exit(main())
