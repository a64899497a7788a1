"""Reads the declarations of jcobs.h, and the contracts of the calls in crates/cobs_c."""

import re
from dataclasses import dataclass

import names
from rattle import Unknown

SIZES = {"size_t": 8, "unsigned char": 1, "JCOBS_STATUS": 4}
# For the first words of a clause, a sentence that says the same to readers of jcobs.c.
SAYS = {
    "Decodes ": """the result and the written bytes are those that the definition of COBS gives for the source and
        message_size, and all other bytes of the buffer are as they were. A buffer as long as the source is never too small.""",
    "DecodesFor sentinel ": """the result and the written bytes are those that the definition of COBS gives for the source, the
        sentinel and message_size, and all other bytes of the buffer are as they were. A buffer as long as the source is never
        too small.""",
    "DecodesInPlaceFor sentinel ": """the result and every byte of the buffer are those that the definition of COBS gives for the
        sentinel and the bytes that were in the buffer before the call.""",
    "DecodesInPlace ": """the result and every byte of the buffer are those that the definition of COBS gives for the bytes that
        were in the buffer before the call.""",
    "DecodesNext ": """the result, the state and the buffer are those that the definition of the stream gives after these
        bytes, however the stream is divided among calls. In every state consumed is at most the number of bytes passed,
        and length is at most buffer_size.""",
    "Encodes ": """if the frame of the message fits, the buffer begins with it, and the bytes after it are as they were.
        Otherwise the status is TOO_SMALL, and the buffer is as it was.""",
    "EncodesFor sentinel ": """if the frame of the message fits, the buffer begins with it, each byte XORed with the sentinel, and
        the bytes after it are as they were. Otherwise the status is TOO_SMALL, and the buffer is as it was.""",
    "EncodesInPlace ": """if the longest frame fits, the buffer begins with the frame of the message, and the bytes after this
        frame are as they were. Otherwise the status is TOO_SMALL, and the buffer is as it was.""",
    "EncodesNext ": """the status is OK if and only if the frame of the message so far, including these bytes, fits. If the
        status isn't OK, the state and the buffer are as they were. In every state consumed is at most the number of bytes
        passed, and length is at most buffer_size.""",
    "EncodesTerminated 0 ": """if the frame of the message and the zero fit, the buffer begins with them, and the bytes after
        them are as they were. Otherwise the status is TOO_SMALL, and the buffer is as it was.""",
    "EncodesTerminated sentinel ": """if the frame of the message and the sentinel fit, the buffer begins with them, and the bytes
        after them are as they were. Otherwise the status is TOO_SMALL, and the buffer is as it was.""",
    "Finishes 0 IsFrameOnWire ": """if the frame of all bytes that were taken fits, the buffer begins with it, and the encoder is in its
        initial state. Otherwise the status is TOO_SMALL, and the state and the buffer are as they were. In every state
        consumed is 0, and length is at most buffer_size.""",
    "Finishes 0 (IsFrameOnWireFor sentinel) ": """if the frame of all bytes that were taken fits, the buffer begins with it, each
        byte XORed with the sentinel, and the encoder is in its initial state. Otherwise the status is TOO_SMALL, and the state
        and the buffer are as they were. In every state consumed is 0, and length is at most buffer_size.""",
    "Finishes 1 (IsTerminatedFrame sentinel) ": """if the frame of all bytes that were taken and the sentinel fit, the buffer begins
        with them, and the encoder is in its initial state. Otherwise the status is TOO_SMALL, and the state and the buffer are
        as they were. In every state consumed is 0, and length is at most buffer_size.""",
    "Finishes 1 (IsTerminatedFrame 0) ": """if the frame of all bytes that were taken and the zero fit, the buffer begins with them, and the encoder is
        in its initial state. Otherwise the status is TOO_SMALL, and the state and the buffer are as they were. In every
        state consumed is 0, and length is at most buffer_size.""",
    "IsFreshDecoder ": "after the call the decoder has taken no byte, whatever its state was.",
    "IsFreshEncoder ": "after the call the encoder has taken no byte, whatever its state was.",
    "IsKindOf ": """the result is NOT_A_FRAME if and only if the bytes aren't a frame, and CANONICAL if and only if they are a
        frame that encoders write.""",
    "ReportsIdle ": "the result is 1 if and only if no piece is open.",
    "max_encoded_len message_len < 2 ^ 64 →": "the result is this length if it is below 2 to the 64th,",
    "2 ^ 64 ≤ max_encoded_len message_len →": "and 0 otherwise.",
}


@dataclass
class Call:
    name: str
    type: str
    params: list  # of (type, name)
    text: str


def structs(header):
    """Returns the type and the name of each member of each struct, by the member's offset in a build for 64 bits."""
    found = {}
    for name, body in re.findall(r"^typedef struct (\w+) \{\n(.*?)^\}", header, re.S | re.M):
        at, members = 0, {}
        for kind, member in re.findall(r"^    ([\w ]+?) (\w+);", body, re.M):
            at += -at % SIZES[kind]
            members[at] = (kind, member)
            at += SIZES[kind]
        found[name] = members
    return found


def enums(header):
    """Returns the names of the values of each enum, without JCOBS_."""
    return {name: re.findall(r"^    JCOBS_(\w+) =", body, re.M) for name, body in re.findall(r"^enum (\w+) \{\n(.*?)^\}", header, re.S | re.M)}


def calls(header):
    """Returns the calls that the header declares, in the order of the header."""
    found = {}
    for kind, name, params in re.findall(r"^JCOBS_API ([a-z][\w ]*?)\b(jcobs_\w+)\(([^)]*)\)[^;{]*;", header, re.M):
        pairs = []
        for param in params.split(","):
            if match := re.fullmatch(r"\s*(.*?[ *])(\w+)\s*", param):
                pairs.append((match[1].strip(), match[2]))
        text = f"{kind.strip()} {name}({' '.join(params.split())})"
        found[name] = Call(name, kind.strip(), pairs if params != "void" else [], text)
    return found


def contracts(sources):
    """Returns for each call of these .rt files its doc comment, its clauses in words, and the name of its file."""
    found = {}
    pattern = r'((?:^///[^\n]*\n)+)^#\[unsafe\(no_mangle\)\]\n^pub extern "C" fn (\w+)(.*?)^\{'
    for path in sources:
        for doc, name, rest in re.findall(pattern, path.read_text(), re.S | re.M):
            if name in names.BY_HAND:
                continue
            text = " ".join(re.findall(r"^/// ?(.*)", doc, re.M))
            clauses = re.findall(r"^    ensures \w+ \{\s*(.*?)\s*\}$", rest, re.S | re.M)
            if len(clauses) != rest.count("ensures"):
                raise Unknown(f"contract of {name}")
            found[name] = (text.replace("`", ""), " ".join(map(in_words, clauses)), path.name)
    return found


def in_words(clause):
    """Returns the sentence of SAYS for a clause. A clause without a sentence is an error."""
    text = " ".join(clause.split()) + " "
    said = [" ".join(words.split()) for start, words in SAYS.items() if text.startswith(start)]
    if len(said) != 1:
        raise Unknown(f"clause {text}")
    return said[0]
