"""The cases of conformance/ for which the package has calls. conformance/README.md describes the lines.

These cases are left out: those of calls that the package doesn't have (decoding in place, the state machines), those in
which the caller's buffer is too short, and those of a call with a sentinel whose source begins with the sentinel,
because `jcobs.decode` skips leading sentinels.
"""

import itertools
from collections import Counter
from pathlib import Path

import pytest

import jcobs

FOLDER = Path(__file__).resolve().parents[3] / "conformance"
LEFT_OUT = {
    *("decode_in_place", "decode_in_place_report", "decode_in_place_with_sentinel"),
    *("decoder_state", "encoder_state"),
}

pytestmark = pytest.mark.skipif(not FOLDER.is_dir(), reason="conformance/ of the repository is not there")


def written_out(word):
    """Expands a word in parts: repeats the digits of each part as often as the number after the star says."""
    parts = (part.partition("*") for part in word.split("+"))
    return "".join(digits * int(count or 1) for digits, _, count in parts)


def of_word(word):
    return b"" if word == "-" else bytes.fromhex(word)


def word_of(data):
    return data.hex() or "-"


def max_encoding_length(length):
    return [jcobs.max_frame_length(int(length))]


def max_encoding_overhead(length):
    return [jcobs.max_frame_length(int(length)) - int(length)]


def encode_vec(word):
    message = of_word(word)
    return [word_of(jcobs.encode(message))]


def encode_vec_including_sentinels(message):
    return [word_of(b"\0" + jcobs.encode(of_word(message), terminated=True))]


def encode_vec_with_sentinel(sentinel, message):
    return [word_of(jcobs.encode(of_word(message), sentinel=int(sentinel, 16)))]


def written(frame, room):
    """What a call returns that writes the frame to a buffer; None if there is no room."""
    buffer = of_word(room)
    return [len(frame), word_of(frame + buffer[len(frame) :])] if len(frame) <= len(buffer) else None


def encode(message, room):
    return written(jcobs.encode(of_word(message)), room)


def encode_including_sentinels(message, room):
    return written(b"\0" + jcobs.encode(of_word(message), terminated=True), room)


def encode_with_sentinel(sentinel, message, room):
    return written(jcobs.encode(of_word(message), sentinel=int(sentinel, 16)), room)


def trying(call):
    def tried(*arguments):
        returned = call(*arguments)
        return returned and ["ok", *returned]

    return tried


def encode_frames(*messages):
    return [word_of(b"".join(jcobs.encode(of_word(message), terminated=True) for message in messages))]


def encoder(room, *pieces):
    message = b"".join(map(of_word, pieces))
    returned = written(jcobs.encode(message), room)
    if returned is None:
        return None
    piecewise = jcobs.Encoder(len(message))
    for piece in pieces:
        piecewise.feed(of_word(piece))
    assert piecewise.finish() == jcobs.encode(message)
    return [*returned, *["ok"] * len(pieces)]


def decoded(source, sentinel=0):
    """The status, and the message or what was decoded. Sentinels alone are `invalid` in the words of the cases."""
    try:
        return "ok", jcobs.decode(source, sentinel=sentinel)
    except jcobs.DecodeError as error:
        return "empty" if error.kind == "empty" and not source else "invalid", error.data


def decode_vec(source):
    status, data = decoded(of_word(source))
    return [status, "-" if status == "empty" else len(data), word_of(data) if status == "ok" else "-"]


def decode_vec_with_sentinel(sentinel, source):
    if source.startswith(sentinel):
        return None
    status, data = decoded(of_word(source), int(sentinel, 16))
    # the crate counts whole blocks here, and the package all that was decoded, as for 0
    length = {"ok": len(data), "empty": "-", "invalid": "?"}[status]
    return [status, length, word_of(data) if status == "ok" else "-"]


def decode(source, room):
    status, data = decoded(of_word(source))
    if status == "empty" or len(data) > len(of_word(room)):
        return None
    return [status, "?", len(data), word_of(data + of_word(room)[len(data) :])]


def decode_with_sentinel(sentinel, source, room):
    if source.startswith(sentinel):
        return None
    status, data = decoded(of_word(source), int(sentinel, 16))
    if status != "ok" or len(data) > len(of_word(room)):
        return None
    return [status, len(data), word_of(data + of_word(room)[len(data) :])]


def decode_stream(room, *pieces):
    stream = jcobs.Decoder(int(room))
    found = list(itertools.chain.from_iterable(stream.feed(of_word(piece)) for piece in pieces))
    assert list(jcobs.Decoder(int(room)).feed(b"".join(map(of_word, pieces)))) == found
    return list(itertools.chain.from_iterable(map(stream_words, found)))


def stream_words(outcome):
    if isinstance(outcome, jcobs.Message):
        return "message", word_of(outcome.data)
    return ("broken", len(outcome.data)) if isinstance(outcome, jcobs.Broken) else ("too_long", "-")


def decoder(room, *pieces):
    """The crate repeats `too_small` for each byte through the zero, and doesn't say what is in the buffer here."""
    stream = jcobs.Decoder(len(of_word(room)))
    names = {jcobs.Message: "message", jcobs.Broken: "broken", jcobs.TooLong: "too_small"}
    taken, words = 0, ["?"]
    for piece in pieces:
        if piece == "reset":
            stream.reset()
            continue
        for byte in of_word(piece):
            taken += 1
            for outcome in stream.feed(bytes([byte])):
                words += [taken, names[type(outcome)], word_of(outcome.data)]
    return words


class Reads:
    """A file that gives these reads."""

    def __init__(self, words):
        self.words = list(words)
        self.count = 0

    def read(self, size):
        self.count += 1
        word = self.words.pop(0) if self.words else "-"
        if word == "fail":
            raise OSError
        assert len(of_word(word)) <= size
        return of_word(word)


def next_frame(room, *reads):
    file = Reads(reads)
    reader = jcobs.FrameReader(file, int(room))
    words = []
    while True:
        before = file.count
        try:
            outcome = next(iter(reader), None)
        except OSError:
            returned = "failed", "-"
        else:
            ended = "unfinished" if reader.unfinished else "end"
            returned = stream_words(outcome) if outcome else (ended, "-")
        words += [file.count - before, *returned]
        if returned[0] in ("end", "unfinished") and not file.words:
            return words


def frame_kind(frame):
    return [jcobs.frame_kind(of_word(frame))]


CALLS = {
    call.__name__: call
    for call in (
        *(max_encoding_length, max_encoding_overhead, encode_vec, encode_vec_including_sentinels, encode_frames),
        *(encode_vec_with_sentinel, encode, encode_including_sentinels, encode_with_sentinel, encoder, decode_vec),
        *(decode_vec_with_sentinel, decode, decode_with_sentinel, decode_stream, decoder, next_frame, frame_kind),
    )
}
CALLS.update({f"try_{name}": trying(CALLS[name]) for name in CALLS if name.startswith("encode") and "_vec" not in name})


def repeats_dropped(arguments, wanted):
    """The results of a streaming decoder without a `too_small` at a byte that isn't a zero."""
    stream = b"".join(of_word(piece) for piece in arguments[1:] if piece != "reset")
    triples = [wanted[at : at + 3] for at in range(1, len(wanted), 3)]
    kept = [triple for triple in triples if triple[1] != "too_small" or stream[int(triple[0]) - 1] == 0]
    return [wanted[0], *itertools.chain.from_iterable(kept)]


def differs(returned, wanted):
    returned = list(map(str, returned))
    return len(returned) != len(wanted) or any(
        mine not in (its, "?") and its != "?" and not (its == "refused" and mine in ("invalid", "empty", "broken"))
        for mine, its in zip(returned, wanted)
    )


FILES = sorted(FOLDER.glob("*.txt"))


@pytest.mark.parametrize("path", FILES, ids=[path.stem for path in FILES])
def test_cases(path):
    wrong, ran = [], Counter()
    for line in path.read_text().splitlines():
        if line.startswith("#"):
            continue
        words = list(map(written_out, line.split(" ")))
        arrow = words.index("->")
        name, call, arguments, wanted = words[0], words[2], words[3:arrow], words[arrow + 1 :]
        if call in LEFT_OUT or (call == "encoder" and "too_small" in wanted):
            continue
        returned = CALLS[call](*arguments)
        if returned is None:
            continue
        if call == "decoder":
            wanted = repeats_dropped(arguments, wanted)
        ran[call] += 1
        if differs(returned, wanted):
            wrong.append(f"{name}: {returned}, not {wanted}")
    assert not wrong
    if path.stem not in ("in_place", "state"):
        assert sum(ran.values()) >= 25
