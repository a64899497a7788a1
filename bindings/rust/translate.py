#!/usr/bin/env python3
"""Writes the proved source as Rust: src/proved/, from the .rt files of the crates in SOURCES.

usage: translate.py [TO [CRATES]]

Drops the parts for the prover, such as contracts, ghost fields and laws. Replaces names of Rattle by those of Rust: names of
modules, of vectors and of memory, because no allocator is passed in Rust. Replaces an index by an access that doesn't panic
(src/access.rs). Otherwise the bodies of functions don't change, and the docs don't change, except for REWORDED. A form that the
script doesn't know is an error, with its file and line. At the end rustfmt formats the files.

tests/proved.py names the differences that are permitted.
"""
import re
import subprocess
import sys
from pathlib import Path

HERE = Path(__file__).resolve().parent
# The crates, their modules here, and the files of each crate that are left out: proofs for callers, and items whose signatures
# in the crate `cobs` differ. The files outside of src/proved define these items over the proved functions.
SOURCES = {
    "cobs": ("crate::proved", ("laws.rt", "laws/", "dec/buffered.rt", "dec/heapless.rt", "enc/encoder.rt", "enc/vector.rt")),
}
# The items of other files that are left out for the same reason. For example, `encode_frames` in src/frames.rs takes any
# iterator of messages; the proved function takes a slice of vectors.
LEFT_OUT = set(
    "encode_with_sentinel encode_including_sentinels decode_vec decode_vec_with_sentinel DecodeVecError DecodingResult"
    " WriteBuffer encode_frames encode_frames_room write_frames".split()
)
PATHS = {
    "std::alloc::AllocError": "crate::memory::AllocError",
    "std::mem": "core::mem",
    "std::io::Read": "std::io::Read",
    "memchr": "crate::search",
}
# Imports that Rust doesn't need.
DROPPED = ("std::alloc::Global", "std::marker::Model", "serde::", "thiserror::", "cobs::laws")
DERIVES = ("Debug", "Clone", "Copy", "PartialEq", "Eq", "Hash")
NOT_DERIVED = ("Drop", "Error", "Serialize", "Deserialize")
# The derives that Rust programs expect of a type, besides those of its source.
MORE_DERIVES = {
    "DecodeError": DERIVES,
    "DestBufTooSmallError": DERIVES,
    "PushError": DERIVES,
    "DecodeReport": DERIVES,
    "FrameKind": DERIVES,
    "PieceEnd": DERIVES,
    "Next": DERIVES,
    "ReadFault": DERIVES,
    "FrameOutcome": ("Clone", "Hash"),
    "PushResult": DERIVES,
    "DecodeResult": DERIVES,
    "DecoderState": ("Clone", "PartialEq", "Eq", "Hash"),
    "UnbufferedDecoder": DERIVES,
    "EncoderState": ("Clone", "PartialEq", "Eq", "Hash"),
    "UnbufferedEncoder": DERIVES,
    "Recorded": ("Debug", "Clone"),
    "FrameReader": ("Debug", "Clone"),
}
# Results and errors, which programs may store and log: with the features `serde` and `defmt` they derive the traits of these
# crates.
STORED = set("DecodeError DestBufTooSmallError DecodeReport PushError FrameKind PieceEnd Next ReadFault FrameOutcome".split())
# Texts of the docs that are replaced here, because the decoders have the signatures of the crate `cobs`, and the reader sees no
# contract.
REWORDED = {
    "This decoder returns the same results as [`CobsDecoder`](crate::CobsDecoder).": "The `feed` of this decoder returns the same"
    " results as that of [`CobsDecoder`](crate::CobsDecoder).",
    "The results and errors are those of [`CobsDecoder::push`](crate::CobsDecoder::push).": "The error says how many bytes were consumed.",
    "CobsDecoder::new(&mut buffer); let rejected = PushError": "UnbufferedDecoder::new();\nlet rejected = PushError",
    "decoder.push(&[3, 7, 0, 2, 9, 0]), Err(rejected)": "decoder.push(&mut buffer, &[3, 7, 0, 2, 9, 0]), Err(rejected)",
    "Contracts describe a source by the relation `step`. `step before result after` holds if a read of a source in the state"
    " `before` may have the result `result` and leave the source in the state `after`. The result of a read is either a failure or"
    " the bytes that the read returned.": "[`FrameReader::next_frame`] panics"
    " if a read returns a number above 64.",
    " Contracts describe a reader by its decoder, and by the bytes that the reader has read but not yet fed to the decoder.": "",
    "Contracts describe a decoder by the bytes of its buffer and by its phase, that is, the facts that the decoder keeps about the"
    " piece so far. ": "",
    " The Rust crate `cobs` has no such call.": "",
    " The Rust crate `cobs` doesn't guarantee this.": "",
    " The Rust crate `cobs` has no such type.": "",
    "The Rust crate `cobs` has no such trait.": "",
    "Precondition: the decoder is idle. A decoder is idle when it is new, after each reset, and after each zero.": "The decoder should"
    " be idle. A decoder is idle when it is new, after each reset, and after each zero. If the decoder\nisn't idle, the first outcome"
    " is that of the piece that the decoder has begun.",
    "Precondition: [`can_push`](EncoderState::can_push) returns true. Indices count bytes from the start of the output.": "Indices count"
    " bytes from the start of the output.\n\n# Panics\n\nWith overflow checks, if [`can_push`](EncoderState::can_push) returns false.",
}
# Functions that keep their indices: the implementation of a trait, which isn't proved, may return a number that is too great.
# Then these functions should panic.
KEPT = {"FrameReader::next_frame", "frame_outcome", "decode_stream"}
# The traits whose methods an example calls. `UnbufferedDecoder` has `feed_piece` itself.
TRAITS = {"FrameDecoder": "feed_byte|feed_piece|buffer", "FrameSource": "read_some"}
# Calls that are `const fn` in the crate `cobs`, or that such a call calls; and calls that make or copy plain values, so that
# these values can be in a constant or a static.
CONST = set(
    "max_encoding_overhead max_encoding_length UnbufferedDecoder::new UnbufferedDecoder::is_idle"
    " UnbufferedEncoder::new DecodeReport::parsed_size DecodeReport::frame_size FrameReader::new FrameReader::decoder Recorded::new".split()
)
# Calls for one byte or a short frame, which rustc should inline into the caller's loop.
INLINE = set(
    "decode_with_sentinel UnbufferedDecoder::feed_piece DecoderState::feed EncoderState::push".split()
)
# A function that isn't inlined in the proved source, for compilers that can't see that two slices don't overlap; rustc can see
# it.
INTO_CALLER = {"copy_slice"}
# The constant that is greater than every length without the feature `fast`, so that no slice is searched or copied. The proofs
# don't depend on its value.
THRESHOLD = "SHORT"
# Calls that have no effect except their result: a lint warns if the result isn't used.
MUST_USE = set(
    "PieceEnd::reported DecodeReport::parsed_size DecodeReport::frame_size EncoderState::can_push EncoderState::finalize"
    " UnbufferedDecoder::new UnbufferedDecoder::is_idle UnbufferedEncoder::new".split()
)
# The feature that an item needs, if its code has this word.
FEATURES = {"alloc": r"(?<!\w)(Vec\b|vec!)", "std": r"(?<!\w)std::|(?<![\w:])Read\b"}
FUNCTION = r'(?:pub(?:\(crate\))? )?(?:const )?fn (\w+)'
ITEM = rf"(?:pub(?:\(crate\))? )?(?:const|static|type|mod|struct|enum|trait|macro_rules!|fn) (\w+)"
NAMED = r"(?:fn|struct|enum|trait|type) (\w+)"


class Source:
    """The lines of a file, and the index of the next line to translate."""

    def __init__(self, path, name, crate):
        self.name, self.crate, self.at, self.owner, self.function = name, crate, 0, "", ""
        self.lines = path.read_text().splitlines()
        self.prefix = SOURCES[crate][0]

    def fail(self, why, at=None):
        line = self.at if at is None else at
        text = self.lines[line].strip() if line < len(self.lines) else ""
        raise SystemExit(f"translate.py: {self.name}:{line + 1}: {why}: {text}")

    def skip(self):
        """Goes past what begins here and ends where its brackets do; returns the last character, which ends it."""
        begun, depth, opened = self.at, 0, False
        while self.at < len(self.lines):
            text = bare(self.lines[self.at])
            self.at += 1
            for sign in text:
                opened |= sign in "{(["
                depth += (sign in "{([") - (sign in "})]")
            if depth == 0 and (opened or text.endswith((";", ","))):
                return text[-1]
        self.fail("it has no end", begun)


def bare(line):
    """Returns a line of code without its strings, characters and comment."""
    line = re.sub(r'b?"(\\.|[^"\\])*"', '""', line)
    line = re.sub(r"b?'(\\.|[^'\\])'", "''", line)
    return line.split("//")[0].rstrip()


def doc(source, lines):
    """A doc comment. Its examples are tests of the Rust crate; those of what the crate doesn't export are left out."""
    indent, sign = re.match(r"(\s*)(//[/!])", lines[0]).groups()
    text = "\n".join(line.strip()[len(sign) :].removeprefix(" ") for line in lines)
    for words, others in REWORDED.items():
        pattern = re.escape(words).replace("\\ ", r"\s+")
        text, count = re.subn(pattern, others.replace("\\", "\\\\"), text)
        reworded.update([words] * count)
    if sign == "//!" and source.name.endswith("/lib.rt"):
        # The rest of the first page is about calls that aren't here.
        text = text.split("\n\n")[0]
    out, example, shown = [], None, is_shown(source, sign)
    for line in text.split("\n"):
        if line == "```" and example is None:
            example = []
            if not shown and out[-2:] and out[-2].endswith(":"):
                # The paragraph that speaks of it.
                while out and (not out[-1] or out[-2:][0]):
                    out.pop()
        elif line == "```":
            out += ["```", *doctest(example), "```"] if shown else []
            example = None
        elif example is not None:
            example.append(line)
        else:
            out.append(line)
    # A link to what another file has, and a link to what the crate doesn't export.
    text = re.sub(r"\[`(\w+)`\](?![(\[])", lambda found: linked(source, found[1]), "\n".join(out))
    text = re.sub(r"\[(`\w+`)\]\(crate::(\w+)\)", lambda found: found[0] if found[2] in exported()[0] else found[1], text)
    text = re.sub(r"\n{3,}", "\n\n", text)
    # A paragraph, or an item of a list, about what isn't here.
    parts = re.split(r"\n(?=\n|- )", text.rstrip("\n"))
    out = "\n".join(part for part in parts if "rt.alloc()" not in part and "[`laws`]" not in part).split("\n")
    return [f"{indent}{sign} {line}".rstrip() for line in out]


def linked(source, name):
    """Returns a link to a name, with its path if this file doesn't have the name. A name that the crate doesn't have gets no link."""
    if name in source.words - left_out:
        return f"[`{name}`]"
    return f"[`{name}`](crate::{name})" if name in exported()[0] else f"`{name}`"


def exported():
    """Returns the names that the crate exports, and those of them that are translated."""
    text = "".join((HERE / "src" / name).read_text() for name in ("lib.rs", "dec.rs", "enc.rs"))
    of_proved = " ".join(re.findall(r"^pub use crate::proved::(.*?);", text, re.M | re.S))
    others = " ".join(re.findall(r"^pub use (?:crate::)?(?!proved)\w+::([^*;]*);", text, re.M | re.S))
    functions = re.findall(r"^pub (?:const )?fn (\w+)", text, re.M)
    translated = set(re.findall(r"\w+", of_proved))
    return translated | set(re.findall(r"\w+", others)) | set(functions), translated


def is_shown(source, sign):
    """Returns whether the comment that ends before this line belongs to a translated item that the crate exports."""
    head = next((line for line in source.lines[source.at :] if line.strip() and not line.strip().startswith(("//", "#"))), "")
    named = re.match(rf"{ITEM}|pub (?:struct|enum|trait|type) (\w+)", head)
    name = (named[1] or named[2]) if named else source.owner
    return sign == "///" and name in exported()[1]


def doctest(example):
    """Returns an example of a public item. It imports the crate's names that it uses. The lines around it are hidden in the docs."""
    text = "\n".join(example)
    text = re.sub(r"(assert(?:_eq|_ne)?!\()rt; ?", r"\1", text)
    text = re.sub(r"\.(to_vec|to_string)\(alloc\)\?", r".\1()", text)
    text = re.sub(r"\.clone\(\)\?", ".clone()", text)
    text = re.sub(r"^use cobs::.*;\n+", "", without_allocator(text), flags=re.M)
    code = "\n".join(bare(line) for line in text.split("\n"))
    names = {name for name in exported()[0] if re.search(rf"(?<![\w.]){name}\b(?!:[^:])", code)}
    own = "UnbufferedDecoder" in code
    names |= {trait for trait, method in TRAITS.items() if re.search(rf"\.({method})\(", code) and not (own and trait == "FrameDecoder")}
    names = sorted(names)
    text = f"use jcobs::{{{', '.join(names)}}};\n\n{text}" if len(names) > 1 else f"use jcobs::{names[0]};\n\n{text}"
    feature = next((f for f in ("std", "alloc") if any(re.search(rf"\b{name}\b", text) for name in needing[f])), None)
    lines = [f'# #[cfg(feature = "{feature}")] {{', *text.split("\n"), "# }"] if feature else text.split("\n")
    if re.search(r"\)\?|\w\?", text):
        lines.append("# Ok::<(), Box<dyn std::error::Error>>(())")
    return lines


def without_allocator(text):
    """Returns a text in which no allocator is passed."""
    text = re.sub(r"\balloc: Global,?[ \n]*", "", text)
    text = text.replace("Vec::from_slice(alloc, ", "crate::memory::copied(")
    return re.sub(r"\(alloc(?:, |(?=\)))", "(", text)


def paths(source, statement):
    """Returns a `use` with the paths of Rust, or nothing if Rust doesn't need it."""
    flat = re.sub(r"\s+", " ", statement).strip()
    head, path = re.match(r"((?:pub(?:\(crate\))? )?use )(.*);$", flat).groups()
    if path.startswith(DROPPED):
        return []
    path = path.replace("std::alloc::{AllocError, Global}", "std::alloc::AllocError")
    root = path.split("::")[0].rstrip(";")
    if root == "crate":
        path = source.prefix + path.removeprefix("crate")
    elif root in SOURCES:
        path = SOURCES[root][0] + path.removeprefix(root)
    elif known := next((known for known in PATHS if path == known or path.startswith(known + "::")), None):
        path = PATHS[known] + path.removeprefix(known)
    elif root not in source.modules and root not in ("self", "super"):
        source.fail("no path of Rust is known for it", source.begun)
    return [f"{head}{path};"]


def derives(source, line, name):
    """Returns the derives of a type: those of Rust, of serde and of defmt; other derives are dropped."""
    listed = [word.strip() for word in re.match(r"#\[derive\((.*)\)\]$", line).group(1).split(",")] if line else []
    if unknown := [word for word in listed if word not in DERIVES + NOT_DERIVED]:
        source.fail(f"it derives {unknown[0]}")
    more = MORE_DERIVES.get(name, ()) + (("Clone",) if name in source.cloned else ())
    source.seen.add(name)
    rust = ", ".join(word for word in DERIVES if word in listed or word in more)
    out = [f"#[derive({rust})]"] if rust else []
    if name in STORED:
        out.append('#[cfg_attr(feature = "serde", derive(serde::Serialize, serde::Deserialize))]')
        out.append('#[cfg_attr(feature = "defmt", derive(defmt::Format))]')
    return out, "Error" in listed


def display(source, name, item):
    """Returns the text of an error, from its `error` attributes, which are dropped."""
    arms, kept, text = [], [], None
    for line in item:
        if found := re.match(r'\s*#\[error\((".*")\)\]$', line):
            text = found[1]
            continue
        kept.append(line)
        variant = re.match(r"\s*(?:pub )?(?:struct )?(\w+)( \{|\(|,|;)", line)
        if text and variant:
            fields = re.findall(r"\{(\w+)\}", text)
            case = "Self" if variant[1] == name else f"Self::{variant[1]}"
            if variant[2] == "(":
                text = text.replace("{0}", "{field}")
                case += "(field)" if fields else "(..)"
            elif fields:
                case += " { " + ", ".join(fields) + ", .. }"
            write = f"write!(f, {text})" if fields else f"f.write_str({text})"
            arms.append(f"            {case} => {write},")
            text = None
    if not arms:
        source.fail(f"the error {name} has no text")
    head = "fn fmt(&self, f: &mut core::fmt::Formatter<'_>) -> core::fmt::Result {"
    formatted = [f"impl core::fmt::Display for {name} {{", head, "match self {", *arms, "} } }", ""]
    return kept, [*formatted, f"impl core::error::Error for {name} {{}}"]


def signature(source):
    """Returns the lines of a function's head without its contract, up to the brace or the semicolon."""
    head = []
    while not head or sum(bare(line).count("(") - bare(line).count(")") for line in head):
        head.append(source.lines[source.at])
        source.at += 1
    while not head[-1].endswith(("{", ";")):
        line = source.lines[source.at].strip()
        if line == "{":
            head[-1] += " {"
            source.at += 1
        elif line == "" or line.startswith("//"):
            source.at += 1
        elif re.match(r"(requires|ensures\*?|ghost)\b", line):
            if source.skip() == ";":
                head[-1] += ";"
        else:
            source.fail("neither a clause nor a body")
    indent, name = re.match(rf"(\s*){FUNCTION}", head[0]).groups()
    call = f"{source.owner}::{name}" if indent else name
    call = call if source.crate == "cobs" else f"{source.crate}::{call}"
    if call in CONST:
        head[0] = head[0].replace("fn ", "const fn ", 1)
    source.seen.add(call)
    source.function = call
    marks = [indent + "#[inline]"] * (call in INLINE | INTO_CALLER) + [indent + "#[must_use]"] * (call in MUST_USE)
    return marks + without_allocator("\n".join(head)).split("\n")


def code(source, line):
    """A line of a body."""
    if unknown := re.search(r"\.\w+\(alloc\b|\bVec::(?!new\(alloc\)|from_slice\(alloc, )\w+", bare(line)):
        source.fail(f"{unknown[0]} isn't known", source.at - 1)
    line = without_allocator(line)
    line = without_label(source, line if source.function in KEPT else without_index(source, line))
    if found := re.match(rf"(.*\bconst {THRESHOLD}: usize =) (\d+);$", line):
        source.seen.add(THRESHOLD)
        line = f'{found[1]} if cfg!(feature = "fast") {{ {found[2]} }} else {{ usize::MAX }};'
    if found := re.match(r"\s*let mut (\w+) = Vec::new\(\);", line):
        source.vectors.add(found[1])
    if (found := re.match(r"(\s*)(\w+)\.push\((.*)\)\?;$", line)) and found[2] in source.vectors:
        line = f"{found[1]}crate::memory::push(&mut {found[2]}, {found[3]})?;"
    if found := re.search(r"[^\x00-\x7f]|\b(ghost|requires|ensures|decreases|invariant|tactic|alloc|rt|law_\d+|std|cobs)\b", bare(line)):
        source.fail(f"{found[0]} isn't Rust", source.at - 1)
    return line


def without_index(source, line):
    """Returns a line with the calls of src/access.rs, which can't panic, in place of indices."""
    line = line.replace(".copy_from_slice(", ".copy_from(").replace(".copy_within(", ".copy_inside(")
    while found := list(re.finditer(r"((?:\w+\.)*\w+)\[", line.split("//")[0])):
        front, slice_of, at = line[: found[-1].start()], found[-1][1], found[-1].end()
        if "]" not in line[at:]:
            source.fail("an index that doesn't end on its line", source.at - 1)
        index, after = line[at:].split("]", 1)
        stored = re.match(r" = (.*);$", after)
        if ".." in index and front.endswith("&mut "):
            line = f"{front[:-5]}{slice_of}.part_mut({index}){after}"
        elif ".." in index and front.endswith("&"):
            line = f"{front[:-1]}{slice_of}.part({index}){after}"
        elif ".." in index and after.startswith(".copy_from("):
            line = f"{front}{slice_of}.part_mut({index}){after}"
        elif stored and not front.strip():
            line = f"{front}{slice_of}.put({index}, {stored[1]});"
        elif ".." in index or front.endswith(("&", "&mut ")) or re.match(r" (=|[-+*/%^&|]=|<<=|>>=) ", after):
            source.fail("this index isn't known", source.at - 1)
        else:
            line = f"{front}{slice_of}.byte({index}){after}"
    return line


def without_label(source, line):
    """Returns the head of a loop. A label that only a proof names is dropped."""
    if found := re.match(r"(\s*)('\w+): (?=(for|while|loop)\b)", line):
        end = source.lines.index(found[1] + "}", source.at)
        if not any(re.search(rf"{found[2]}\b", bare(inner)) for inner in source.lines[source.at : end]):
            return found[1] + line[found.end() :]
    return line


def attribute(source, out, text):
    """Translates an attribute. Attributes about proofs are dropped, and a derive is kept until its type follows."""
    if text.startswith(("#[tactic", "#![tactic")):
        source.skip()
    elif text.startswith("#[derive("):
        source.at, source.derive = source.at + 1, (text, len(out))
    elif re.match(r"#\[(error\(|inline|cold\]|repr\(C\))", text):
        out.append(source.lines[source.at])
        source.at += 1
    else:
        source.fail("an attribute that isn't known")


def step(source, out):
    """Translates what begins on this line."""
    line = source.lines[source.at]
    text = line.strip()
    if text.startswith(("///", "//!")):
        begun = source.at
        while source.at < len(source.lines) and source.lines[source.at].strip().startswith(text[:3]):
            source.at += 1
        out += doc(source, source.lines[begun : source.at])
    elif text.startswith("//") or not text:
        source.at += 1
        out.append(line)
    elif text.startswith("ghost "):
        without_comment(out)
        source.skip()
    elif text == line and name_of(line) in left_out:
        without_comment(out)
        source.seen.add(name_of(line))
        source.derive = None
        if not text.endswith(";"):
            source.at = source.lines.index("}", source.at)
        source.at += 1
    elif text.startswith("#"):
        attribute(source, out, text)
    elif re.match(r"(pub(\(crate\))? )?use ", text):
        source.begun = source.at
        source.skip()
        out += paths(source, " ".join(source.lines[source.begun : source.at]))
    elif re.match(r"impl(<.*>)? (Model|Clone) for ", text):
        source.skip()
    elif module := re.match(r"(pub )?mod (\w+);$", text):
        source.at += 1
        if f"{source.folder}{module[2]}.rt" not in SOURCES[source.crate][1]:
            out.append(f"pub(crate) mod {module[2]};")
    elif re.match(FUNCTION, text):
        head = signature(source)
        if source.function in INTO_CALLER and "inline(never)" not in out.pop():
            source.fail("a function that isn't marked")
        out += head
    elif re.match(r"law_\d+\(\);$", text):
        source.at += 1
    else:
        if block := re.match(r"(?:pub )?(?:impl|trait)\b(?:<[^{]*?>)? *(?:[\w:]+(?:<.*>)? for )?(\w+)", line):
            source.owner = block[1]
        source.at += 1
        out.append(code(source, line))
        if kind := re.match(r"(?:pub(?:\(crate\))? )?(?:struct|enum) (\w+)", line):
            typed(source, out, kind[1])


def without_comment(out):
    """Drops the comment of an item that is dropped."""
    while out and re.match(r"\s*//(?!!)", out[-1]):
        out.pop()


def typed(source, out, name):
    """Translates the rest of a type whose head is the last line of `out`."""
    (derive, place), source.derive = source.derive or ("", len(out) - 1), None
    while source.lines[source.at - 1] != "}" and not out[-1].endswith(";"):
        step(source, out)
    marks, is_error = derives(source, derive, name)
    if is_error:
        item, formatted = display(source, name, out[place:])
        out[place:] = [*marks, *item, "", *formatted]
    else:
        out[place:place] = marks


def items(lines):
    """Yields the items of a file, each with the comments and attributes before it."""
    begun, depth = 0, 0
    for at, line in enumerate(lines):
        text = bare(line)
        depth += sum((sign in "{([") - (sign in "})]") for sign in text)
        if depth == 0 and text.endswith(("}", ";")) or line.startswith("//!"):
            yield lines[begun : at + 1]
            begun = at + 1
    yield lines[begun:]


def head_of(item):
    """Returns the first line of code of an item."""
    return next((line for line in item if line and not re.match(r"\s*(//|#)", line)), "")


def feature_of(item):
    """Returns the feature that an item needs."""
    text = "\n".join(bare(line) for line in item if not line.strip().startswith("//"))
    for feature in ("std", "alloc"):
        words = "|".join([FEATURES[feature], *(rf"\b{name}\b" for name in needing[feature])])
        if re.search(words, text):
            return feature
    return None


def find_needing(files):
    """Fills `needing` with the names of the items that need a feature, because they, or items that they name, use it."""
    count = -1
    while count != (count := sum(map(len, needing.values()))):
        for lines in files:
            for item in items(lines):
                named = re.match(rf"{ITEM}|impl(?:<.*?>)? (\w+)(?!.* for )", head_of(item))
                if named and (feature := feature_of(item)):
                    needing[feature].add(named[1] or named[2])


def guarded(item, code):
    """Returns an item under the feature that it needs. Of a `use`, the names that need a feature are separate, and only names in `code` stay."""
    head = head_of(item)
    if re.match(r"(pub(\(crate\))? )?use ", head):
        at = item.index(head)
        front, names = re.match(r"(.*?)(?:::\{(.*)\})?;$", head).groups()
        names = [name.strip() for name in names.split(",")] if names else [front.split("::")[-1]]
        names = [name for name in names if name not in left_out]
        front = front if "{" in head else front.rsplit("::", 1)[0]
        if head.startswith("use "):
            names = [name for name in names if name == "*" or len(re.findall(rf"\b{name}\b", code)) > 1]
        groups = {}
        for name in names:
            groups.setdefault(feature_of([name]) or ("std" if "std::" in front else None), []).append(name)
        out = item[:at]
        for feature, group in groups.items():
            out += [f'#[cfg(feature = "{feature}")]'] if feature else []
            out.append(f"{front}::{{{', '.join(group)}}};" if len(group) > 1 else f"{front}::{group[0]};" if "::" in head else head)
        return out
    feature = feature_of(item) if head and not re.match(r"pub\(crate\) mod ", head) else None
    if not feature:
        return item
    at = item.index(head)
    while at > 0 and re.match(r"\s*#\[", item[at - 1]):
        at -= 1
    return item[:at] + [f'#[cfg(feature = "{feature}")]'] + item[at:]


def header(source, text):
    """Returns the lines at the top of a file."""
    made = f"// Made by bindings/rust/translate.py from `{source.name}`: change that file, and run it again.\n"
    if source.name.endswith("cobs/src/lib.rt"):
        children = [crate for crate in SOURCES if crate != "cobs"]
        children = "".join(f"pub(crate) mod {crate};\n" for crate in children)
        text = re.sub(r"^(?=pub\(crate\) mod )", children, text, count=1, flags=re.M)
    code, use = re.sub(r"^\s*//.*$", "", text, flags=re.M), ""
    if re.search(r"\.(byte|put|part|part_mut|copy_from|copy_inside)\(", code):
        use += "use crate::access::Access;\n"
    if re.search(r"(?<!Array)\bVec[<:]", code):
        use += '#[cfg(feature = "alloc")]\nuse alloc::vec::Vec;\n'
    # Before the other imports, or before the first item.
    imports = re.search(r"^(#\[cfg.*\n)?(pub(\(crate\))? )?(use|mod) ", text, re.M)
    place = imports.start() if imports else text.index("\n\n") + 2
    text = text[:place] + use + "\n" * bool(use and not imports) + text[place:]
    return made + text


def prepared(crates):
    """A source for each file."""
    exports = re.findall(r"^pub use (?:\w+::)+(?:\{([^}]*)\}|(\w+));", (crates / "cobs/src/lib.rt").read_text(), re.M)
    exported = set(re.findall(r"\w+", " ".join(names + name for names, name in exports)))
    for crate, (_, left_out) in SOURCES.items():
        folder = crates / crate / "src"
        for path in sorted(folder.rglob("*.rt")):
            within = path.relative_to(folder).as_posix()
            if left_out and within.startswith(left_out):
                continue
            source = Source(path, f"crates/{crate}/src/{within}", crate)
            source.folder = "" if within == "lib.rt" else within.removesuffix(".rt") + "/"
            source.modules = re.findall(r"^(?:pub )?mod (\w+);", "\n".join(source.lines), re.M)
            source.cloned = set(re.findall(r"^impl Clone for (\w+)", "\n".join(source.lines), re.M))
            source.vectors, source.seen, source.derive = set(), set(), None
            source.exported = exported
            source.words = set(re.findall(r"\w+", "\n".join(bare(line) for line in source.lines if not line.startswith("ghost "))))
            within = "mod.rs" if within == "lib.rt" else within.replace(".rt", ".rs")
            yield source, within if crate == "cobs" else f"{crate}/{within}"


needing = {"alloc": set(), "std": set()}
reworded, left_out = set(), set()


def translated(source):
    source.at, out = 0, []
    while source.at < len(source.lines):
        step(source, out)
    return out


def find_left_out(crates):
    """Fills `left_out` with the names of LEFT_OUT, and those of the files that are left out."""
    for crate, (_, files) in SOURCES.items():
        for file in files:
            if file.endswith(".rt") and file != "laws.rt":
                left_out.update(re.findall(rf"^pub {NAMED}", (crates / crate / "src" / file).read_text(), re.M))
    left_out.update(LEFT_OUT)


def name_of(head):
    """Returns the name of the item whose first line this is, or of the type for which the item implements something."""
    named = re.match(rf"(?:pub(?:\(crate\))? )?{NAMED}|impl(?:<.*?>)? (?:[\w:]+(?:<.*>)? for )?(\w+)", head)
    return named and (named[1] or named[2])


def write(to, crates):
    """Writes the files, without a layout, and returns their paths."""
    find_left_out(crates)
    sources, written, seen = list(prepared(crates)), [], set()
    find_needing([translated(source) for source, _ in sources])
    for source, place in sources:
        out = translated(source)
        code = "\n".join(line for line in out if not line.strip().startswith("//"))
        out = [line for item in items(out) for line in guarded(item, code)]
        text = header(source, re.sub(r"\n{3,}", "\n\n", "\n".join(out)).strip() + "\n")
        seen |= source.seen
        (to / place).parent.mkdir(parents=True, exist_ok=True)
        (to / place).write_text(text)
        written.append(to / place)
    used = set(MORE_DERIVES) | STORED | CONST | INLINE | INTO_CALLER | MUST_USE | LEFT_OUT | KEPT | set(REWORDED) | {THRESHOLD}
    if missing := used - seen - reworded:
        raise SystemExit(f"translate.py: no source has {sorted(missing)[0]}")
    return written


def main():
    words = sys.argv[1:]
    if len(words) > 2 or any(word.startswith("-") for word in words):
        sys.exit(__doc__)
    to, crates = map(Path, [*words, *[HERE / "src/proved", HERE / "../../crates"][len(words) :]])
    written = write(to, crates)
    for path in set(to.rglob("*.rs")) - set(written):
        path.unlink()
    layout = ["rustfmt", "--edition", "2021", "--config", "style_edition=2024,skip_children=true"]
    if subprocess.run([*layout, *map(str, written)]).returncode:
        raise SystemExit("translate.py: rustfmt can't lay out what it wrote")


if __name__ == "__main__":
    main()
