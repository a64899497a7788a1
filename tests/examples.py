"""Writes the examples of the documents and of the doc comments of crates/cobs as tests, and compares them with the tests, for
tests/docs.py.

An example in a doc comment is a function, or statements that use `rt` and `alloc`. The examples of a file or folder of
crates/cobs/src are one file of crates/cobs_vectors/src, below its imports: each function as it is, and each list of
statements as a test. The examples of README.md and CALLING.md are in the crates of callers, or are tests.
"""
import re
import shutil
import subprocess
from itertools import takewhile

from tree import BLOCK, TOP, tracked

SRC = TOP / "crates/cobs/src"
TESTS = TOP / "crates/cobs_vectors/src"
# Each file of tests, and what its examples are from.
SOURCES = {
    "doc_encoders": ["lib.rt", "enc.rt", "enc/*.rt"],
    "doc_decoding": ["error.rt", "slices.rt", "dec/forms.rt", "dec/in_place.rt", "dec/kind.rt", "dec/state.rt", "dec/whole.rt"],
    "doc_decoders": ["dec/buffered.rt", "dec/frame_decoder.rt", "dec/heapless.rt", "dec/unbuffered.rt"],
    "doc_streams": ["stream.rt", "framed.rt"],
    "doc_laws": ["laws.rt", "laws/*.rt"],
}
CALLERS = [TOP / f"crates/cobs_vectors/src/{name}.rt" for name in ("callers", "clients", "worked_callers")]
PAGES = [TOP / "README.md", TOP / "crates/cobs/CALLING.md"]
MODULES = {"lib.rt": "crate"}
ITEM = re.compile(r" *(?:pub )?(?:fn|struct|enum|trait|type|const) (\w+)")


def blocks(path, kind):
    """The blocks in the doc comments of a file that begin with ``` and this word: the line of each, the item that it is
    about, and its own lines."""
    found, inside, owner, unnamed = [], None, "", 0
    for number, line in enumerate(path.read_text().splitlines(), 1):
        comment = re.match(r"\s*//([/!]) ?(.*)", line)
        if comment and comment[2].startswith("```"):
            inside = comment[2][3:] if inside is None else None
            if inside == kind:
                found.append([number, MODULES.get(path.name, path.stem) if comment[1] == "!" else None, []])
        elif comment and inside == kind:
            found[-1][2].append(comment[2])
        elif not comment and (item := ITEM.match(line)):
            for example in found[unnamed:]:
                example[1] = example[1] or (f"{owner}::{item[1]}" if owner and line[0] == " " else item[1])
            unnamed = len(found)
        if type_of := BLOCK.match(line):
            owner = type_of[1]
        elif line == "}":
            owner = ""
    return found


def snake_case(path):
    return re.sub(r"(?<=[a-z])(?=[A-Z])|::", "_", path).lower()


def titles():
    """The title of each law: the first line of its doc comment, without the period."""
    files = [SRC / "laws.rt", *sorted((SRC / "laws").glob("*.rt"))]
    text = "".join(path.read_text() for path in files)
    return {law: title for title, law in re.findall(r"^/// (.*)\.\n(?:///.*\n)*pub fn (law_\d+)", text, re.M)}


def as_tests(name):
    """The text below the imports of a file of tests. Its layout doesn't matter. Each call of a law has the law's title
    beside it, as in the other crates."""
    text, names, title_of = "", {}, titles()
    for path in [path for pattern in SOURCES[name] for path in sorted(SRC.glob(pattern))]:
        for _, item, lines in blocks(path, ""):
            lines = [line for line in lines if not line.startswith("use ")]
            if lines[0].startswith("fn "):
                lines = [re.sub(r"^( *(law_\d+)\(\);)$", lambda call: f"{call[1]} // {title_of[call[2]]}", line) for line in lines]
                text += f"/// The example of `{item}`.\npub " + "\n".join(lines) + "\n\n"
                continue
            test = snake_case(item) + "_example"
            names[test] = names.get(test, 0) + 1
            test += f"_{names[test]}" if names[test] > 1 else ""
            body = "\n".join(lines).strip("\n").split("\n")
            fails = any(")?" in line for line in body)
            if any(re.search(r"\balloc\b", line) for line in body):
                body.insert(0, "let alloc = rt.alloc();")
            body += ["Ok(())"] if fails else []
            head = f"fn {test}(rt: HostRuntime)" + (" -> Result<(), Fail>" if fails else "") + " {"
            text += "\n".join(["#[test]", head, *(f"    {line}".rstrip() for line in body), "}"]) + "\n\n"
    return text


def head_and_tests(path):
    """The comment and the imports of a file of tests, and what is below them."""
    lines = path.read_text().splitlines(keepends=True)
    head = "".join(takewhile(lambda line: not line.startswith(("#[", "/// ", "fn ", "pub ")), lines))
    return head, path.read_text().removeprefix(head)


def without_layout(text):
    return re.sub(r",(?=[)\]}])", "", re.sub(r"\s+", "", text))


def each_test(text):
    """The tests and functions of a text without imports, one by one."""
    return re.split(r"\n(?=#\[test\]|/// )", text.strip())


def write():
    """Writes the tests of the examples below their imports. A test of which only the layout would change stays as it is;
    `rt fmt` lays out the others, where it is there."""
    for name in SOURCES:
        path = TESTS / f"{name}.rt"
        head, tests = head_and_tests(path)
        there = {without_layout(test): test.strip() for test in each_test(tests)}
        wanted = [there.get(without_layout(test), test.strip()) for test in each_test(as_tests(name))]
        path.write_text(head + "\n\n".join(wanted) + "\n")
    if shutil.which("rt"):
        subprocess.run(["rt", "fmt"], cwd=TESTS.parent, check=True)


def stale_tests():
    """A line for each file of tests that isn't what its doc comments say, with the first difference, and for each file of
    src with examples that is in no file of tests."""
    covered = {path for patterns in SOURCES.values() for pattern in patterns for path in SRC.glob(pattern)}
    for path in sorted({*tracked(r"crates/cobs/src/.*\.rt")} - covered):
        if blocks(path, ""):
            yield f"{path.relative_to(TOP)}: SOURCES in tests/examples.py doesn't name it"
    for name in SOURCES:
        path = TESTS / f"{name}.rt"
        found = each_test(head_and_tests(path)[1])
        wanted = each_test(as_tests(name))
        if [*map(without_layout, found)] != [*map(without_layout, wanted)]:
            differ = [one for one in wanted if without_layout(one) not in map(without_layout, found)]
            about = re.search(r"fn (\w+)", (differ or found)[0])
            yield f"{path.relative_to(TOP)}: {about[1]} isn't what its doc comment says; tests/docs.py --write writes it"


def unprinted_answers():
    """A line for each example of a law whose proof in the tests isn't printed with it, and each printed one that isn't there."""
    files = sorted((TESTS.parent / "proofs/doc_laws").glob("*/Answers.antt"))
    # The law's doc comment says what the head comment of the proof says, so the head isn't printed.
    left_out = re.compile(r"-- .*|.* as goal|")
    answers = {
        path.parent.name: [
            text.strip() for text in path.read_text().splitlines() if not left_out.fullmatch(text)
        ]
        for path in files
    }
    for path in [SRC / "laws.rt", *sorted((SRC / "laws").glob("*.rt"))]:
        printed = [(number, [line.strip() for line in lines if line]) for number, _, lines in blocks(path, "antt")]
        for number, lines in printed:
            if lines not in answers.values():
                yield f"{path.relative_to(TOP)}:{number}: cobs_vectors has no such answer"
        for number, _, lines in blocks(path, ""):
            name = re.match(r"fn (\w+)", lines[0])
            if name and name[1] in answers and answers[name[1]] not in [answer for _, answer in printed]:
                yield f"{path.relative_to(TOP)}:{number}: the proof of {name[1]} isn't printed"


def shown(path):
    """The functions in the blocks of Rust of a page: the line of each block, and its lines."""
    found, inside = [], False
    for number, line in enumerate(path.read_text().splitlines(), 1):
        text = re.sub(r"\s+// .*", "", line).strip()
        if text.startswith("```"):
            inside = text == "```rust"
            if inside:
                found.append((number, []))
        elif inside and text and not re.match(r"(ghost )?use |//|#!?\[", text):
            found[-1][1].append(text)
    # of a test the statements, without its name and its last line
    return [(number, lines[1:-2] if "rt: HostRuntime" in lines[0] else lines) for number, lines in found]


def unrun_examples():
    """A line for each function or test of a page that isn't in the tests."""
    run = without_layout("".join(path.read_text() for path in [*sorted(TESTS.glob("*.rt")), *CALLERS]))
    for path in PAGES:
        for number, lines in shown(path):
            if without_layout("".join(lines)) not in run:
                yield f"{path.relative_to(TOP)}:{number}: the tests don't have this example"


def complaints():
    return [*stale_tests(), *unprinted_answers(), *unrun_examples()]
