"""Decoder, Encoder and the outcomes."""

import array
import contextlib
import copy
import io
import pickle
import random

import plain
import pytest
from hypothesis import given
from hypothesis import strategies as st

import jcobs

PIECES = st.one_of(
    st.binary(max_size=8),
    st.binary(max_size=40).map(jcobs.encode),
    st.integers(250, 510).map(lambda ones: jcobs.encode(b"\1" * ones)),
)
STREAMS = st.lists(PIECES, max_size=6).map(b"\0".join)


def cut(stream, places):
    ends = sorted(min(place, len(stream)) for place in places)
    return [stream[start:end] for start, end in zip([0, *ends], [*ends, len(stream)])]


@given(STREAMS, st.lists(st.integers(0, 600), max_size=5), st.integers(0, 600), st.integers(0, 255))
def test_decoder_gives_the_outcome_of_each_piece(stream, places, max_length, sentinel):
    stream = bytes(byte ^ sentinel for byte in stream)
    decoder = jcobs.Decoder(max_length, sentinel)
    found = [outcome for chunk in cut(stream, places) for outcome in decoder.feed(chunk)]
    assert [(type(outcome).__name__, outcome.data) for outcome in found] == list(
        plain.outcomes(stream, max_length, sentinel)
    )
    assert decoder.unfinished == (len(stream) > 0 and stream[-1] != sentinel)
    decoder.reset()
    assert not decoder.unfinished
    assert decoder.feed(jcobs.encode(b"", sentinel=sentinel, terminated=True)) == [jcobs.Message(b"")]


@given(
    st.lists(st.one_of(st.binary(max_size=40), st.integers(1, 300).map(bytes), st.integers(1, 300).map(b"\1".__mul__))),
    st.integers(0, 255),
    st.booleans(),
)
def test_encoder_gives_the_frame_of_the_pieces(pieces, sentinel, terminated):
    message = b"".join(pieces)
    encoder = jcobs.Encoder(len(message), sentinel)
    for _ in range(2):
        for piece in pieces:
            encoder.feed(piece)
        with pytest.raises(ValueError, match=f"longer than max_length={len(message)}"):
            encoder.feed(b"!")
        assert encoder.finish(terminated=terminated) == jcobs.encode(message, sentinel=sentinel, terminated=terminated)


def test_encoder_reset():
    encoder = jcobs.Encoder(5)
    encoder.feed(b"hello")
    encoder.reset()
    encoder.feed(b"world")
    assert encoder.finish() == b"\x06world"
    assert encoder.finish() == b"\x01"


def test_a_refused_piece_takes_no_room():
    encoder = jcobs.Encoder(10)
    encoder.feed(b"abc")
    with pytest.raises(ValueError, match="longer than max_length=10"):
        encoder.feed(b"12345678")
    encoder.feed(b"defghij")
    assert encoder.finish() == jcobs.encode(b"abcdefghij")


@pytest.mark.parametrize("run", [252, 253, 254, 255, 508])
@pytest.mark.parametrize("sentinel", [0, 1])
def test_each_cut_of_long_blocks(run, sentinel):
    """A chunk may end with a block, or with the code of one."""
    messages = [b"\x01" * run + b"\0" + b"\x02" * 5, b"\x03" * run, b"\0\0" + b"\x03" * run + b"\0"]
    stream = b"".join(jcobs.encode(message, sentinel=sentinel, terminated=True) for message in messages)
    outcomes = [jcobs.Message(message) for message in messages]
    for size in range(1, len(stream)):
        decoder = jcobs.Decoder(1000, sentinel)
        assert decoder.feed(stream[:size]) + decoder.feed(stream[size:]) == outcomes
    for size in range(240, 270):
        found = [one for at in range(0, len(stream), size) for one in decoder.feed(stream[at : at + size])]
        assert found == outcomes


def test_long_messages():
    message = random.Random(1).randbytes(3_000_000)
    for sentinel in (0, 7):
        decoder = jcobs.Decoder(len(message), sentinel)
        stream = jcobs.encode(message, sentinel=sentinel, terminated=True)
        assert decoder.feed(stream[:1_000_000]) == []
        assert decoder.feed(stream[1_000_000:] + stream) == [jcobs.Message(message)] * 2
        encoder = jcobs.Encoder(len(message), sentinel)
        encoder.feed(message[:1_000_000])
        encoder.feed(bytearray(message[1_000_000:]))
        assert encoder.finish(terminated=True) == stream


def test_many_messages_in_a_long_chunk():
    messages = [b"%d" % number for number in range(50_000)]
    stream = b"".join(jcobs.encode(message, terminated=True) for message in messages)
    assert [outcome.data for outcome in jcobs.Decoder(16).feed(stream)] == messages


def test_lengths_of_0():
    assert jcobs.Decoder(0).feed(b"\x01\0\x02a\0") == [jcobs.Message(b""), jcobs.TooLong(b"")]
    assert jcobs.Encoder(0).finish(terminated=True) == b"\x01\0"


@pytest.mark.parametrize("kind", [jcobs.Message, jcobs.Broken, jcobs.TooLong])
def test_outcomes(kind):
    outcome = kind(b"hi")
    assert repr(outcome) == f"{kind.__name__}(b'hi')"
    assert outcome == kind(data=b"hi") and outcome != kind(b"ho") and hash(outcome) == hash(kind(b"hi"))
    assert all(outcome != other(b"hi") for other in {jcobs.Message, jcobs.Broken, jcobs.TooLong} - {kind})
    assert outcome != b"hi" and kind.__match_args__ == ("data",)
    assert outcome == copy.copy(outcome) == copy.deepcopy(outcome)
    for protocol in range(pickle.HIGHEST_PROTOCOL + 1):
        assert pickle.loads(pickle.dumps(outcome, protocol)) == outcome
    assert b"cjcobs\n" + kind.__name__.encode() in pickle.dumps(outcome, 2)  # not a module of its inside
    with pytest.raises(AttributeError):
        outcome.data = b""
    with pytest.raises(AttributeError):
        outcome.more = 1
    for arguments in ((), (b"", b""), ("hi",), (bytearray(b"hi"),)):
        with pytest.raises(TypeError):
            kind(*arguments)
    with pytest.raises(TypeError):
        outcome < outcome


def test_a_message_is_bytes():
    assert (bytes(jcobs.Message(b"hi")), len(jcobs.Message(b"hi"))) == (b"hi", 2)
    assert jcobs.Message(b"") and len(jcobs.Message(b"")) == 0  # a message without bytes is one
    for damaged in (jcobs.Broken(b"hi"), jcobs.TooLong(b"hi")):
        assert damaged
        for call in (bytes, len):
            with pytest.raises(TypeError):
                call(damaged)


SOURCES = {
    "bytes": lambda data, path: data,
    "a memoryview": lambda data, path: memoryview(bytearray(data)),
    "wider items": lambda data, path: array.array("H", data),
    "a file": lambda data, path: path.open("rb"),
    "a file in memory": lambda data, path: io.BytesIO(data),
}


@pytest.mark.parametrize("kind", SOURCES)
def test_frames(kind, tmp_path):
    messages = [b"%d" % number * (number % 300) for number in range(3000)]
    data = b"".join(jcobs.encode(message, sentinel=5, terminated=True) for message in messages) + b"\x06a"
    path = tmp_path / "log"
    path.write_bytes(data + b"b" * (len(data) % 2))
    with contextlib.ExitStack() as stack:
        source = SOURCES[kind](path.read_bytes(), path)
        if hasattr(source, "__exit__"):
            stack.enter_context(source)
        found = jcobs.frames(source, sentinel=5)
        assert next(iter(found)) == jcobs.Message(messages[0])
        assert [one.data for one in found] == messages[1:] and found.unfinished
    found = jcobs.frames(b"\x05a\0\x03hi\0\x03ho\0", max_length=2)
    assert list(found.messages()) == [b"hi", b"ho"]
    assert [name for name in dir(found) if not name.startswith("_")] == ["messages", "unfinished"]


def test_frames_of_a_long_log_are_decoded_as_they_are_asked_for():
    file = io.BytesIO(b"\x02a\0" * 1_000_000)
    assert next(iter(jcobs.frames(file))) == jcobs.Message(b"a")
    assert file.tell() == 65536


def test_what_has_no_frames():
    for source in ("text", 5, None, memoryview(b"abcd")[::2]):
        with pytest.raises(TypeError, match="source must be a contiguous bytes-like object or a binary file"):
            jcobs.frames(source)


@pytest.mark.parametrize("make", [jcobs.Decoder, jcobs.Encoder, lambda: jcobs.FrameReader(io.BytesIO())])
def test_what_cannot_be_copied(make):
    for copied in (copy.copy, copy.deepcopy, pickle.dumps):
        with pytest.raises(TypeError, match="objects cannot be copied or pickled"):
            copied(make())


class Named(jcobs.Message):
    """A class of a user, whose objects have more to them."""


def test_a_class_of_a_user_is_copied_whole():
    named = Named(b"hi")
    named.name = "greeting"
    for again in (copy.copy(named), *(pickle.loads(pickle.dumps(named, protocol)) for protocol in range(3))):
        assert (type(again), again.data, again.name) == (Named, b"hi", "greeting")
