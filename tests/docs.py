#!/usr/bin/env python3
"""Checks that the documents agree with the sources: tests/docs.py [--write]

Links, paths, commands, clauses and calls that a document names exist; each public item of crates/cobs has an example, and
cobs_vectors runs it; the contracts in CALLING.md are those of src; versions, copies, counts and what is translated are
right; each block of wrong_code.txt can be applied. --write writes the examples and the contracts.
"""
import os
import re
import subprocess
import sys

sys.dont_write_bytecode = True

import examples
import wrong_code
from tree import BLOCK, TOP, blank, clauses, contracts, documents, files, functions_of, tracked

CALLING = TOP / "crates/cobs/CALLING.md"
QUOTED = """encode try_encode encode_vec CobsEncoder::push CobsEncoder::finalize EncoderState::default EncoderState::clone
    decode CobsDecoder::push encode_frames FrameReader::next_frame""".split()
RT = set("all check ci doc expand fmt lemma lib must-fail new plant run selftest test tidy try verdict version".split())
NAMING = ("docs/ARCHITECTURE.md", "docs/PROMISES.md", "docs/FORMAT.md", "SECURITY.md", "crates/cobs/CALLING.md")
COPIES = [(name, f"bindings/{folder}/{name}") for name in ("LICENSE-MIT", "LICENSE-APACHE") for folder in ("rust", "web")]
VERSIONS = [
    ("bindings/c/Makefile", r"^VERSION = (.*)$"),
    ("bindings/c/CMakeLists.txt", r"^project\(jcobs VERSION ([\d.]+)"),
    ("bindings/c/CMakeLists.txt", r"POSITION_INDEPENDENT_CODE ON VERSION ([\d.]+)"),
    ("bindings/c/cmake/jcobs-config-version.cmake", r"PACKAGE_VERSION ([\d.]+)"),
    ("bindings/c/device/idf_component.yml", r'^version: "([^"]*)"'),
    ("bindings/c/device/library.json", r'"version": "([^"]*)"'),
    ("bindings/c/device/library.properties", r"^version=(.*)$"),
    ("bindings/c/man/jcobs.3", r'^\.TH .*"jcobs ([\d.]+)"'),
    ("bindings/python/src/jcobs/__init__.py", r'^__version__ = "([^"]*)"'),
    ("bindings/rust/Cargo.toml", r'^version = "([^"]*)"'),
    ("bindings/web/dist/jcobs.cjs", r"^// jcobs ([\d.]+),"),
    ("bindings/web/dist/jcobs.js", r"^// jcobs ([\d.]+),"),
    ("bindings/web/package.json", r'"version": "([^"]*)"'),
    ("crates/cobs_tool/cobs_tool.1", r'^\.TH .*"jcobs ([\d.]+)"'),
    ("crates/cobs_watch/cobs_watch.1", r'^\.TH .*"jcobs ([\d.]+)"'),
    ("crates/cobs_watch/src/options.rt", r'^const VERSION: &str = "([^"]*)"'),
    ("library.json", r'"version": "([^"]*)"'),
]


def read(name):
    return (TOP / name).read_text()


def lines_of(name, without_blocks=True):
    text = read(name)
    text = blank(r"^```.*?^```$", text, re.S | re.M) if without_blocks else text
    return enumerate(text.splitlines(), 1)


def anchors(text):
    headings = re.findall(r"^#+ (.*)$", blank(r"^```.*?^```$", text, re.S | re.M), re.M)
    return {re.sub(r"[^\w\- ]", "", heading.lower()).replace(" ", "-") for heading in headings}


def dead_links():
    for name in documents():
        for number, line in lines_of(name):
            for target in re.findall(r"\]\(([^)\s]+)\)", line):
                file, _, anchor = target.partition("#")
                there = ((TOP / name).parent / file).resolve() if file else TOP / name
                if re.match(r"https?:|mailto:", target):
                    continue
                if not there.exists():
                    yield f"{name}:{number}: there is no {file}"
                elif anchor and anchor not in anchors(there.read_text()):
                    yield f"{name}:{number}: {file} has no heading {anchor}"


def dead_commands():
    tops = {name.split("/")[0] for name in files() if "/" in name}
    place = re.compile(rf"(?<![\w/.*-])((?:{'|'.join(map(re.escape, sorted(tops)))})/[\w./*-]*[\w*])")
    ends = set()
    for parts in (name.split("/") for name in files()):
        ends |= {"/".join(parts[a:b]) for a in range(len(parts)) for b in range(a + 1, len(parts) + 1)}
    for name in [*documents(), ".ci/run", "tests/after.py"]:
        for number, line in lines_of(name, without_blocks=False):
            line = re.sub(r'\(r".*?",', "    ", line)  # what a changed file is called, in after.py
            code = line if line.startswith("    ") or name == ".ci/run" else " | ".join(re.findall(r"`([^`]+)`", line))
            for found in place.findall(code):
                if found not in ends and not re.search(r"(^|/)(out|build)(/|$)", found) and not ("*" in found and any(TOP.glob(found))):
                    yield f"{name}:{number}: there is no {found}"
            for command in re.findall(r"(?:^|[(;`&|]) *rt ([a-z][a-z-]*)", code):
                if command not in RT:
                    yield f"{name}:{number}: rt has no command {command}"


def scripts_that_do_not_run():
    for name in files():
        with (TOP / name).open("rb") as script:
            if script.read(2) == b"#!" and not os.access(TOP / name, os.X_OK):
                yield f"{name}: it isn't executable"


def unknown_names():
    known = clauses()
    named = tracked(r"crates/\w+/(src|specs)/.*|bindings/c/include/jcobs\.h")
    words = {word for path in named for word in re.findall(r"\w+", path.read_text())}
    words |= {part for path in tracked(r"crates/\w+/proofs/.*") for part in path.with_suffix("").parts}
    for name in NAMING:
        for number, line in lines_of(name):
            lists = re.findall(r"`([\w:]+): ([a-z_0-9]+(?:, [a-z_0-9]+)*)`", line)
            lists += re.findall(r"`([A-Z]\w+)`\]?: `(\w+(?:`, `\w+)*)`", line)
            for call, of_call in lists:
                missing = set(re.findall(r"\w+", of_call)) - known.get(call, set())
                if missing and f"{call}: {of_call}" != "call: clause":
                    yield f"{name}:{number}: no contract of {call} has {', '.join(sorted(missing))}"
            for word in re.findall(r"`([A-Za-z]\w+)`", line):
                if ("_" in word or re.search("[a-z][A-Z]", word)) and word not in words:
                    yield f"{name}:{number}: no crate has {word}"


def other_versions():
    version = read("VERSION").strip()
    header = read("bindings/c/include/jcobs.h")
    parts = [re.search(rf"#define JCOBS_VERSION_{part} (\d+)", header)[1] for part in ("MAJOR", "MINOR", "PATCH")]
    found = [("bindings/c/include/jcobs.h", ".".join(parts))]
    found += [(name, (re.search(pattern, read(name), re.M) or [None, "missing"])[1]) for name, pattern in VERSIONS]
    yield from (f"{name}: its version is {said}, that of VERSION {version}" for name, said in found if said != version)
    number = sum(int(part) * weight for part, weight in zip(parts, (10000, 100, 1)))
    if f"pub const VERSION: u32 = {number};" not in read("crates/cobs_c/src/text.rt"):
        yield f"crates/cobs_c/src/text.rt: VERSION isn't {number}"


def other_copies():
    for original, copy in COPIES:
        if (TOP / original).read_bytes() != (TOP / copy).read_bytes():
            yield f"{copy}: it isn't {original}: run cp {original} {copy}"
    ran = subprocess.run([sys.executable, "-B", TOP / "bindings/c/source/translate.py", "--check"], capture_output=True, text=True)
    yield from (ran.stderr.strip().splitlines() if ran.returncode else [])


def other_counts():
    cases = sum(line.strip() != "" and not line.startswith("#") for path in (TOP / "conformance").glob("*.txt") for line in path.open())
    for name in documents():
        for said in re.findall(r"(\d[\d,]*) (?:conformance )?cases\b", " ".join(read(name).split())):
            if "," in said and int(said.replace(",", "")) != cases:
                yield f"{name}: it says {said} cases, and there are {cases:,}"


def items_without_example():
    for path in tracked(r"crates/cobs/src/.*\.rt"):
        comment = []
        for number, line in enumerate(path.read_text().splitlines(), 1):
            item = re.match(r"(?:    )?pub (?:fn|struct|enum|trait|type) (\w+)", line)
            if re.match(r"\s*(///|//|#\[)", line):
                comment.append(line)
                continue
            if item and not any("```" in said for said in comment):
                yield f"{path.relative_to(TOP)}:{number}: {item[1]} has no example"
            comment = []


def contract(call):
    """The signature and the clauses of a public call, one a line."""
    of_type, _, name = call.rpartition("::")
    for path in tracked(r"crates/cobs/src/.*\.rt"):
        owner, lines = "", path.read_text().splitlines()
        for at, line in enumerate(lines):
            block = BLOCK.match(line)
            owner = block[1] if block else "" if line == "}" else owner
            indent = re.match(rf"( *)(?:pub )?fn {name}\b", line)
            if indent and owner == of_type:
                end = lines.index(indent[1] + "{", at)
                text = " ".join(line.strip() for line in lines[at:end] if not line.strip().startswith("//"))
                parts = re.split(r" (?=(?:requires|ensures\*?) )", text)
                head = parts[0].replace("( ", "(").replace(", )", ")").removeprefix("pub ").removeprefix("fn ")
                rest = [re.match(r"(requires|ensures\*?) (\w+ )?\{ (.*) \}$", part).groups() for part in parts[1:]]
                head = f"{of_type}::{head}" if of_type else f"fn {head}"
                return [head] + [f"  {kind}{' ' + name.strip() if name else ''}: {fact}" for kind, name, fact in rest]
    raise SystemExit(f"tests/docs.py: QUOTED names {call}, which isn't in src")


def with_contracts():
    head, heading, tail = CALLING.read_text().partition("## Contracts\n")
    quoted = "\n".join(line for call in QUOTED for line in contract(call))
    return f"{head}{heading}{tail.partition('```text')[0]}```text\n{quoted}\n```\n"


def is_function(path):
    """Whether a crate has a function of this path. A method may be in another file than its type."""
    crate, *place, name = path.split("::")
    if place and place[-1][0].isupper():
        return any(function == name and place[-1].startswith(owner or " ") for owner, function in functions_of(crate))
    files_of = [TOP / f"crates/{crate}/src/{'/'.join(place) or file}.rt" for file in ("lib", "main")]
    return (None, name) in [(owner, function) for file in files_of if file.is_file() for owner, function, _ in contracts(file)]


def wrong_code_amiss():
    for block in wrong_code.all_blocks():
        if not is_function(block.only):
            yield f"tests/wrong_code.txt: {block.name}: there is no {block.only}"
        try:
            block.texts(TOP / "crates")
        except (OSError, ValueError) as why:
            yield f"tests/wrong_code.txt: {block.name}: {why}"


def private_names():
    for path in tracked(r"crates/(?!cobs/)\w+/(src|specs|proofs)/.*\.(rt|antt)"):
        # The callers show that the public clauses are enough. The library for C may use the lemmas of cobs.
        own = r"Rattle\.cobs\.specs\.declared\.[a-z]" + ("" if "/cobs_c/" in str(path) else r"|Rattle\.cobs\.proofs")
        for number, line in enumerate(path.read_text().splitlines(), 1):
            if re.search(own, line):
                yield f"{path.relative_to(TOP)}:{number}: names a proof or a private module of cobs"


CHECKS = (dead_links, dead_commands, scripts_that_do_not_run, unknown_names, other_versions, other_copies, other_counts)
CHECKS += (items_without_example, examples.complaints, wrong_code_amiss, private_names)


def main():
    if "--write" in sys.argv[1:]:
        examples.write()
        CALLING.write_text(with_contracts())
    said = [line for check in CHECKS for line in check()]
    if CALLING.read_text() != with_contracts():
        said.append("crates/cobs/CALLING.md: its contracts aren't those of src; tests/docs.py --write writes them")
    print("\n".join(said) or "the documents name and quote what is there")
    return bool(said)


sys.exit(main())
