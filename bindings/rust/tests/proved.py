#!/usr/bin/env python3
"""Checks that the functions of src/proved/ are the proved ones.

usage: tests/proved.py [CRATES [PROVED]]

1. translate.py writes the folder again, and everything but the layout is compared, comments and attributes too. rustfmt isn't
   needed: `cargo fmt --check` compares the layout.
2. Code that shares nothing with translate.py cuts each source without its contracts, and each file of src/proved/, into tokens,
   and compares the tokens one by one. PERMITTED, ATTRIBUTES, CONST and PATHS contain all differences that are permitted.

It prints the differences. If there is one, the status is 1.
"""
import re
import sys
import tempfile
from pathlib import Path

RUST = Path(__file__).resolve().parent.parent
sys.path.insert(0, str(RUST))
sys.dont_write_bytecode = True
import translate  # noqa: E402

CRATES = Path(sys.argv[1] if len(sys.argv) > 1 else RUST / "../../crates").resolve()
PROVED = Path(sys.argv[2] if len(sys.argv) > 2 else RUST / "src/proved").resolve()

TOKEN = re.compile(r"""//[^\n]*|/\*.*?\*/|(b?"(?:\\.|[^"\\])*"|b?'(?:\\.|[^'\\])'|'\w+|\w+|::|=>|->|[^\s])""", re.S)
# Files that src/proved/ doesn't have: the laws, which only proofs cite, and the items that the other files of src/ define
# instead.
LEFT_OUT = re.compile(r"cobs/src/(laws|dec/(buffered|heapless)|enc/(encoder|vector))\b")
# The items of other files that src/proved/ doesn't have, and whether each was found.
ITEMS_LEFT_OUT = dict.fromkeys(
    "encode_with_sentinel encode_including_sentinels decode_vec decode_vec_with_sentinel DecodeVecError DecodingResult"
    " WriteBuffer encode_frames encode_frames_room write_frames".split()
)
# Tokens of a source, and the tokens that replace them here: no allocator is passed, and without the feature `fast` no length is
# above the threshold.
PERMITTED = [
    (r" law_\d+ \( \) ;", ""),
    (r" alloc : Global ,?", ""),
    (r" Vec :: from_slice \( alloc ,", " crate :: memory :: copied ("),
    (r" \( alloc ([,)])", lambda found: " ( )" if found[1] == ")" else " ("),
    (r" const SHORT : usize = (\d+) ;", r' const SHORT : usize = if cfg ! ( feature = "fast" ) { \1 } else { usize :: MAX } ;'),
]
# A loop here has a label only if its body names it. In a source every loop may have a label for the proofs.
# A vector that a function makes, to which it adds items.
VECTOR = r" let mut (\w+) = Vec :: new \( \) ;"
# Functions that are `const` here.
CONST = "decoder frame_size is_idle max_encoding_length max_encoding_overhead new new new new parsed_size".split()
# The attributes that src/proved/ may have. Those of the sources are about proofs, derives and texts of errors.
ATTRIBUTES = re.compile(
    r'# \[ (cold|inline( \( (always|never) \))?|must_use|repr \( C \)|derive \( [\w ,]+ \)|cfg \( feature = "(alloc|std)" \)'
    r'|cfg_attr \( feature = "(serde|defmt)" , derive \( [\w :,]+ \) \)) \]'
)
# Paths of the sources, and the paths that replace them here.
PATHS = [
    ("std::alloc::AllocError", "crate::memory::AllocError"),
    ("std::mem", "core::mem"),
    ("memchr", "crate::search"),
    ("cobs", "crate::proved"),
]
# Imports that only proofs and derives use. Other imports are dropped if the file doesn't use them.
NOT_IMPORTED = re.compile(r"std::alloc::Global|std::marker::Model|serde::|thiserror::|cobs::laws::|(text|source)::")


def tokens(path):
    return [found[1] for found in TOKEN.finditer(path.read_text()) if found[1]]


def past(words, at, opened="{", closed="}"):
    """Returns the index after the first group at or after `at`."""
    depth = 0
    while True:
        depth += (words[at] == opened) - (words[at] == closed)
        at += 1
        if depth == 0 and words[at - 1] == closed:
            return at


def leaves(words, front=""):
    """Returns the paths of a `use`."""
    text = "".join(word + " " if word == "as" else word for word in words)
    group = re.match(r"(.*?)\{(.*)\}$", text)
    return [front + group[1] + name for name in group[2].split(",") if name] if group else [text]


def cut(path, is_source):
    """Returns a file's tokens without contracts, attributes and imports; its imports; its modules; and its attributes."""
    words, kept, imports, modules, attributes, at = tokens(path), [], [], [], [], 0
    while at < len(words):
        word = words[at]
        if is_source and word == "ghost" and words[at + 1] == "use" or word == "use":
            end = words.index(";", at)
            if word == "use":
                while kept and kept[-1] != ";" and kept[-1] != "}":
                    kept.pop()
                imports += leaves(words[at + 1 : end])
            at = end + 1
        elif is_source and word in ("ghost", "requires", "ensures"):
            at = past(words, at)
            if word == "ghost" and words[at] in ";,":
                at += 1
        elif word == "#":
            end = past(words, at, "[", "]")
            attributes.append(" ".join(words[at:end]))
            at = end
        elif word == "mod" and words[at + 2] == ";":
            while kept and kept[-1] not in (";", "}"):
                kept.pop()
            modules.append(words[at + 1])
            at += 3
        elif word == "impl" and re.match(PROOFS if is_source else TEXTS, " ".join(words[at : words.index("{", at)])):
            at = past(words, at)
        else:
            kept.append(word)
            at += 1
    return kept, imports, modules, attributes


def here_only(kept):
    """Returns the tokens of a source without the items that are left out."""
    out, begun, depth = [], 0, 0
    for at, word in enumerate(kept):
        depth += (word in "{([") - (word in "})]")
        if depth == 0 and word in ";}":
            item, begun = kept[begun : at + 1], at + 1
            named = re.match(r"(?:pub (?:\( crate \) )?)?(?:(?:fn|struct|enum|trait|type)|impl(?: < .* >)?(?: .* for)?) (\w+)", " ".join(item))
            if named and named[1] in ITEMS_LEFT_OUT:
                ITEMS_LEFT_OUT[named[1]] = True
            else:
                out += item
    return out + kept[begun:]


PROOFS = r"impl (< .* > )?(Model|Clone) for "
TEXTS = r"impl core :: (fmt :: Display|error :: Error) for "


def canonical(kept, is_source):
    """Returns the tokens in one form: the permitted replacements are made, and commas before closing brackets are dropped."""
    text = f" {' '.join(kept)} "
    if is_source:
        for pattern, instead in PERMITTED:
            text = re.sub(pattern, instead, text)
        text = f" {' '.join(without_labels(text.split()))} "
        for name in re.findall(VECTOR, text):
            text = re.sub(rf" {name} \. push \( (.*?) \) \? ;", rf" crate :: memory :: push ( & mut {name} , \1 ) ? ;", text)
    text = text.replace(" const fn ", " fn ") if not is_source else text
    words = re.sub(r" ,(?= [)\]}])", "", f" {' '.join(unwrapped(text.split()))} ").split()
    return words if is_source else indexed(words)


def without_labels(words):
    """Returns the tokens without the labels of loops that no `break` or `continue` names."""
    out, at = [], 0
    while at < len(words):
        word = words[at]
        if word.startswith("'") and words[at + 1] == ":" and words[at + 2] in ("for", "while", "loop"):
            begun = words.index("{", at)
            if word not in words[begun : past(words, begun)]:
                at += 2
                continue
        out.append(word)
        at += 1
    return out


def unwrapped(words):
    """Returns the tokens without the braces around an arm that is one expression, because rustfmt drops them."""
    out, at = [], 0
    while at < len(words):
        out.append(words[at])
        at += 1
        if out[-1] == "=>" and words[at] == "{" and ";" not in words[at : past(words, at)]:
            end = past(words, at)
            out += [*unwrapped(words[at + 1 : end - 1]), ","]
            at = end + (words[end] == ",")
    return out


def indexed(words):
    """Returns the tokens with an index in place of each access of src/access.rs."""
    out, at = [], 0
    while at < len(words):
        out.append(words[at])
        at += 1
        if out[-1] not in ACCESSES or out[-2:-1] != ["."] or words[at] != "(":
            continue
        access, end = out.pop(), past(words, at, "(", ")")
        inside, at = indexed(words[at + 1 : end - 1]), end
        if access in ("copy_from", "copy_inside"):
            out += [ACCESSES[access], "(", *inside, ")"]
            continue
        out.pop()
        begun = len(out) - 1
        while out[begun - 1] == ".":
            begun -= 2
        is_target = words[at : at + 2] == [".", "copy_from"]
        out[begun:begun] = [] if is_target else ACCESSES[access].split()
        comma = top_comma(inside) if access == "put" else len(inside)
        out += ["[", *inside[:comma], "]", *(["="] if access == "put" else []), *inside[comma + 1 :]]
    return out


# The accesses of src/access.rs, and what the source has before the slice, or as the name of the call.
ACCESSES = {"byte": "", "put": "", "part": "&", "part_mut": "& mut", "copy_from": "copy_from_slice", "copy_inside": "copy_within"}


# The files that keep indices, because a trait's implementation, which isn't proved, may return a wrong number.
KEPT = ("framed.rs", "stream.rs")


def top_comma(words):
    """Returns the index of the first comma that is in no brackets."""
    depth = 0
    for at, word in enumerate(words):
        depth += (word in "([{") - (word in ")]}")
        if word == "," and depth == 0:
            return at
    return len(words)


def indices(words):
    """Yields what stands before each index."""
    for before, word in zip(words, words[1:]):
        if word == "[" and re.fullmatch(r"[\w)\]]+", before) and before not in ("mut", "in", "return", "else"):
            yield before


def here(path, crate):
    """Returns the path here for a path of a source."""
    own = "crate::proved" + ("" if crate == "cobs" else f"::{crate}")
    if path.startswith("crate::"):
        return own + path.removeprefix("crate")
    for known, mapped in PATHS:
        if path == known or path.startswith(known + "::"):
            return mapped + path.removeprefix(known)
    return path


def differences(source, crate, made):
    name = made.relative_to(PROVED)
    if not made.exists():
        yield f"{name} is missing"
        return
    kept, imports, modules, _ = cut(source, True)
    kept = here_only(kept)
    found, imported, of_made, attributes = cut(made, False)
    wanted, got = canonical(kept, True), canonical(found, False)
    for at, pair in enumerate(zip([*wanted, "the end"], [*got, "the end"])):
        if pair[0] != pair[1]:
            near = " ".join(wanted[max(0, at - 12) : at])
            yield f"{name}: after '{near}' the source has '{' '.join(wanted[at : at + 6])}', and here is '{' '.join(got[at : at + 6])}'"
            break
    yield from (f"{name}: {text} isn't permitted" for text in attributes if not ATTRIBUTES.fullmatch(text))
    yield from (f"{name}: an index of {before}, which could panic" for before in indices(found) if name.as_posix() not in KEPT)
    mapped = {here(path, crate) for path in imports if not NOT_IMPORTED.match(path)}
    yield from (f"{name}: it imports {path}" for path in set(imported) - mapped - {"alloc::vec::Vec", "crate::access::Access"})
    missing = {path for path in mapped - set(imported) if path.split("::")[-1] in found}
    yield from (f"{name}: it doesn't import {path}" for path in missing)
    folder = source.parent if source.stem == "lib" else source.with_suffix("")
    expected = {word for word in modules if not LEFT_OUT.search(f"{folder}/{word}.rt")}
    if expected != {word for word in of_made if not word.startswith("cobs_")}:
        yield f"{name}: its modules are {of_made}"


def compared():
    """Yields the differences between the tokens of the sources and of the folder."""
    made, const = set(), []
    for crate in ("cobs",):
        for source in sorted((CRATES / crate / "src").rglob("*.rt")):
            place = source.relative_to(CRATES / crate / "src").with_suffix(".rs")
            place = place.with_name("mod.rs") if str(place) == "lib.rs" else place
            if not LEFT_OUT.search(source.as_posix()):
                made.add(PROVED / ("" if crate == "cobs" else crate) / place)
                yield from differences(source, crate, PROVED / ("" if crate == "cobs" else crate) / place)
    yield from (f"no source has {name}" for name, is_found in ITEMS_LEFT_OUT.items() if not is_found)
    for path in sorted(PROVED.rglob("*.rs")):
        const += re.findall(r"const fn (\w+)", path.read_text())
        if path not in made:
            yield f"{path.relative_to(PROVED)} has no source"
    if sorted(const) != CONST:
        yield f"const are {sorted(const)}, and not {CONST}"


def texts(path):
    """Returns what a file has whatever its layout is, with comments; and its imports and modules, which rustfmt sorts."""
    words = unwrapped([found[0] for found in TOKEN.finditer(path.read_text()) if found[0].strip()])
    words = [word for word, after in zip(words, [*words[1:], ""]) if word != "," or after not in (")", "]", "}")]
    kept, are_sorted = [], []
    for statement in statements(words):
        comments = [word for word in statement if word.startswith("//")]
        code = " ".join(word for word in statement if not word.startswith("//"))
        if re.search(r"(^|[)\]] |pub )(use|mod) [^{]*({.*} )?;$", code):
            are_sorted.append(code)
            kept += comments
        else:
            kept += statement
    return [word.strip() for word in kept], sorted(are_sorted)


def statements(words):
    """Yields the words up to each end of an item, with what stands before the item."""
    begun, depth = 0, 0
    for at, word in enumerate(words):
        depth += (word in ("{", "(", "[")) - (word in ("}", ")", "]"))
        if depth == 0 and word in (";", "}"):
            yield words[begun : at + 1]
            begun = at + 1
    yield words[begun:]


def again():
    """Yields the differences from a new translation."""
    with tempfile.TemporaryDirectory() as folder:
        try:
            translate.write(Path(folder), CRATES)
        except SystemExit as failed:
            yield str(failed)
            return
        names = {path.relative_to(root) for root in (Path(folder), PROVED) for path in root.rglob("*.rs")}
        for name in sorted(names):
            files = [root / name for root in (Path(folder), PROVED)]
            if not all(path.exists() for path in files) or texts(files[0]) != texts(files[1]):
                yield f"{name}: translate.py writes it otherwise"


def main():
    found = [*compared(), *again()]
    for line in found:
        print(line)
    sys.exit(1 if found else 0)


if __name__ == "__main__":
    main()
