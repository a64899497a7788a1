#!/usr/bin/env python3
"""Prints the commands that a change needs, in order, and with --run also runs them: tests/after.py [--run] [REVISION]

The change is what differs from REVISION, with files that aren't committed yet. By default this is origin/main, or HEAD if there
is no such branch. With --run, the first command that fails is the last. A command that needs the toolchain is marked '# rt'.
"""
import re
import subprocess
import sys

sys.dont_write_bytecode = True

import prebuilt
import wrong_code
from tree import TOP

# What a changed file is called, the command, and whether it needs the toolchain. These commands write or prove sources..
SOURCES = [
    (r"crates/(\w+)/(?:src|specs|proofs)/", "(cd crates/{} && rt fmt && rt check)", True),
    (r"crates/(\w+)/must-fail/(.*)\.edit", "(cd crates/{} && rt must-fail {})", True),
    (r"crates/cobs/(?:src/|CALLING\.md)", "tests/docs.py --write", True),
    (r"crates/cobs/src/|bindings/rust/translate\.py", "bindings/rust/translate.py", False),
    (r"crates/cobs(?:_c)?/src/|bindings/c/source/(?!jcobs\.c)", "bindings/c/source/translate.py", False),
    (r"conformance/.*\.py", "conformance/generate.py", False),
]
# .. and these test them. .ci/run runs all tests but bindings/rust/tests/{device,targets}.sh.
TESTS = [
    (r".*\.md|tests/.*\.py", "tests/docs.py", False),
    (r"bindings/web/(?!test/|dist/)", "node bindings/web/pack.mjs bindings/web/dist", False),
    (r"crates/|bindings/|conformance/|tests/quick\.sh", "tests/quick.sh", False),
    (r"conformance/", "tests/conformance.sh", False),
    (r"crates/cobs(?:_c)?/(?:src|specs)/|bindings/c/source/|check/", "check/run.sh", False),
    (r"crates/cobs/src/|bindings/c/prebuilt/|tests/search\.", "tests/search.sh", False),
    (r"crates/(?:cobs|cobs_tool)/src/", "tests/fail-alloc.sh --rounds 4", True),
    (r"crates/cobs/src/|bindings/(?:c|rust|programs)/", "tests/bindings.sh", False),
    (r"crates/cobs/src/|bindings/rust/src/", "bindings/rust/tests/device.sh && bindings/rust/tests/targets.sh", False),
    (r"crates/cobs(?:_c)?/src/|bindings/c/(?:device|source|include)/", "tests/device.sh", False),
    (r"bindings/python/", "tests/python.sh", False),
    (r"bindings/web/", "tests/web.sh", False),
    (r"crates/cobs_(?:lines|live|watch)/|bindings/programs/|tests/watch", "tests/watch.sh", True),
    (r"VERSION|library\.json|tests/release\.sh", "tests/release.sh --as-built", False),
]


def git(*words):
    ran = subprocess.run(["git", "-C", str(TOP), *words], capture_output=True, text=True)
    return ran.stdout if ran.returncode == 0 else ""


def changed(base):
    """The files that differ from a revision, those of a crate after those of the crates below it."""
    crates = list(prebuilt.crate_lines())
    names = [*git("diff", "--name-only", base).split(), *git("ls-files", "--others", "--exclude-standard").split()]
    gone = [name for name in names if name.startswith("crates/") and name.split("/")[1] not in crates]
    place = {f"crates/{crate}": at for at, crate in enumerate(crates)}
    return sorted({*names} - {*gone}, key=lambda name: (place.get("/".join(name.split("/")[:2]), len(place)), name))


def of_files(steps, names):
    for pattern, command, needs_rt in steps:
        found = [match for name in names if (match := re.match(pattern, name))]
        for line in dict.fromkeys(command.format(*match.groups()) for match in found):
            yield line, needs_rt


def commands(base):
    """Each command, and whether it needs the toolchain. What has to be built again is found when it comes to that."""
    names = changed(base)
    yield from of_files(SOURCES, names)
    before = git("show", f"{base}:tests/wrong_code.txt").strip("\n").split("\n\n")
    blocks = [text for text in wrong_code.texts_of_blocks() if text not in before]
    if blocks:
        yield " ".join(["tests/wrong_code.py", *(wrong_code.Block(text).name for text in blocks)]), True
    for _, command, _, built in (prebuilt.BUILDS[name] for name, lines in prebuilt.stale().items() if lines):
        yield command, True
        names += built
    yield from of_files(TESTS, names)


def main():
    words = [word for word in sys.argv[1:] if word != "--run"]
    base = words[0] if words else "origin/main" if git("rev-parse", "--verify", "origin/main") else "HEAD"
    if not git("rev-parse", "--verify", base):
        sys.exit(f"there is no {base}")
    for line, needs_rt in commands(base):
        print(line + ("  # rt" if needs_rt else ""), flush=True)
        if "--run" in sys.argv and subprocess.run(line, shell=True, cwd=TOP).returncode:
            sys.exit(f"failed: {line}")


main()
