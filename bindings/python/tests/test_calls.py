"""encode, decode, max_frame_length, frame_kind: what they return, and which arguments they take."""

import array
import ctypes
import mmap
import pickle
import random

import plain
import pytest
from hypothesis import given
from hypothesis import strategies as st

import jcobs

MESSAGES = st.one_of(
    st.binary(max_size=100),
    # long runs without zeros, as full blocks need them
    st.lists(st.tuples(st.integers(0, 600), st.integers(0, 3)), max_size=4).map(
        lambda runs: b"".join(b"\x01" * ones + b"\0" * zeros for ones, zeros in runs)
    ),
)
SENTINELS = st.integers(0, 255)


def xored(data, sentinel):
    return bytes(byte ^ sentinel for byte in data)


@given(MESSAGES, SENTINELS, st.booleans())
def test_encode_gives_the_plain_frame(message, sentinel, terminated):
    frame = jcobs.encode(message, sentinel=sentinel, terminated=terminated)
    assert frame == xored(plain.encode(message), sentinel) + bytes([sentinel] * terminated)
    assert len(frame) - terminated <= jcobs.max_frame_length(len(message))
    assert jcobs.decode(frame, sentinel=sentinel) == message


@given(MESSAGES, SENTINELS)
def test_decode_reads_any_bytes_as_plain_code_does(source, sentinel):
    piece = next(filter(None, xored(source, sentinel).split(b"\0")), b"")
    data, whole = plain.output(piece)
    if piece and whole:
        assert jcobs.decode(source, sentinel=sentinel) == data
        return
    with pytest.raises(jcobs.DecodeError) as raised:
        jcobs.decode(source, sentinel=sentinel)
    assert raised.value.kind == ("broken" if piece else "empty")
    assert raised.value.data == data


@given(MESSAGES, SENTINELS)
def test_frame_kind_is_what_plain_code_finds(data, sentinel):
    message = plain.decode(data)
    wanted = "not_a_frame" if message is None else "canonical" if plain.encode(message) == data else "longer"
    assert jcobs.frame_kind(xored(data, sentinel), sentinel=sentinel) == wanted
    assert jcobs.frame_kind(xored(plain.encode(data), sentinel), sentinel=sentinel) == "canonical"


def test_longer_frame():
    assert jcobs.frame_kind(b"\xff" + b"\x07" * 254 + b"\x01") == "longer"


@pytest.mark.parametrize("length", [32767, 32768, 65536, 1 << 20, 5_000_001])
@pytest.mark.parametrize("sentinel", [0, 85])
def test_long_messages(length, sentinel):
    message = random.Random(length).randbytes(length)
    frame = jcobs.encode(message, sentinel=sentinel)
    assert frame == jcobs.encode(bytearray(message), sentinel=sentinel)
    assert sentinel not in frame and length < len(frame) <= jcobs.max_frame_length(length)
    assert jcobs.decode(frame, sentinel=sentinel) == message
    assert jcobs.decode(memoryview(frame), sentinel=sentinel) == message
    assert jcobs.frame_kind(frame, sentinel=sentinel) == "canonical"


@pytest.mark.parametrize("make", [bytes, bytearray, memoryview, lambda data: array.array("B", data)])
def test_any_bytes_like_object(make):
    assert jcobs.encode(make(b"hello")) == b"\x06hello"
    assert jcobs.decode(make(b"\x06hello")) == b"hello"
    assert jcobs.frame_kind(make(b"\x06hello")) == "canonical"
    assert jcobs.Decoder().feed(make(b"\x06hello\0")) == [jcobs.Message(b"hello")]
    encoder = jcobs.Encoder()
    encoder.feed(make(b"hello"))
    assert encoder.finish() == b"\x06hello"


def test_wider_items_and_mapped_memory():
    numbers = array.array("I", [1, 2**31])
    assert jcobs.encode(numbers) == jcobs.encode(numbers.tobytes())
    with mmap.mmap(-1, 4096) as mapped:
        mapped[:5] = b"hello"
        assert jcobs.encode(mapped) == jcobs.encode(b"hello" + bytes(4091))
    grid = memoryview(bytes(range(12))).cast("B", (3, 4))
    assert jcobs.encode(grid) == jcobs.encode(bytes(range(12)))


def test_an_array_of_fortran_is_not_contiguous():
    buffers = pytest.importorskip("_testbuffer", reason="CPython's own test module makes such arrays")
    grid = buffers.ndarray(list(range(6)), shape=[2, 3], flags=buffers.ND_FORTRAN)
    assert memoryview(grid).contiguous
    for call in (jcobs.encode, jcobs.decode, jcobs.frame_kind, jcobs.Decoder().feed, jcobs.Encoder().feed):
        with pytest.raises(BufferError, match="not contiguous"):
            call(grid)


@pytest.mark.parametrize("size", [0, 5, 100_000])
def test_a_buffer_can_be_resized_after_a_call(size):
    data = bytearray(b"a" * size)
    frame = jcobs.encode(data)
    data.extend(b"\0b")
    assert jcobs.decode(frame) == b"a" * size
    assert jcobs.decode(jcobs.encode(data)) == data
    stream = bytearray(frame + b"\0")
    decoder = jcobs.Decoder(max_length=size)
    assert decoder.feed(stream) == [jcobs.Message(b"a" * size)]
    del stream[len(stream) // 2 :]
    broken = bytearray(b"\x05a")
    with pytest.raises(jcobs.DecodeError):
        jcobs.decode(broken)
    broken.clear()
    assert decoder.feed(stream) == [] and broken == b""


def test_a_buffer_is_free_after_the_call():
    data = bytearray(b"hello")
    view = memoryview(data)
    jcobs.encode(data), jcobs.decode(b"\x01"), jcobs.encode(view)
    view.release()
    data.extend(b"!")  # raises BufferError while something holds the buffer


NOT_CONTIGUOUS = [memoryview(b"abcdef")[::2], memoryview(b"abcdef")[::-1]]
CALLS = [jcobs.encode, jcobs.decode, jcobs.frame_kind, jcobs.Decoder().feed, jcobs.Encoder().feed]


@pytest.mark.parametrize("call", CALLS)
def test_wrong_objects(call):
    for data in NOT_CONTIGUOUS:
        with pytest.raises(BufferError, match="not contiguous"):
            call(data)
    for data in ("hello", 5, None, [1, 2]):
        with pytest.raises(TypeError, match="bytes-like object|buffer interface"):
            call(data)


@pytest.mark.parametrize(
    "call",
    [
        lambda sentinel: jcobs.encode(b"", sentinel=sentinel),
        lambda sentinel: jcobs.decode(b"\x01", sentinel=sentinel),
        lambda sentinel: jcobs.frame_kind(b"\x01", sentinel=sentinel),
        lambda sentinel: jcobs.Decoder(sentinel=sentinel),
        lambda sentinel: jcobs.Encoder(sentinel=sentinel),
    ],
)
def test_wrong_sentinels(call):
    for sentinel in (-1, 256, 2**70, -(2**70)):
        with pytest.raises(ValueError, match="sentinel must be in range"):
            call(sentinel)
    for sentinel in (b"\n", "0", None, 1.0):
        with pytest.raises(TypeError):
            call(sentinel)


@pytest.mark.parametrize("call", [jcobs.max_frame_length, jcobs.Decoder, jcobs.Encoder])
def test_wrong_lengths(call):
    with pytest.raises(ValueError, match="negative"):
        call(-1)
    with pytest.raises(OverflowError):
        call(2**63)
    with pytest.raises(TypeError):
        call(1.5)


def test_max_frame_length():
    assert [jcobs.max_frame_length(n) for n in (0, 1, 254, 255, 508, 509)] == [1, 2, 255, 257, 510, 512]


def test_options_are_keywords():
    for call in (jcobs.encode, jcobs.decode, jcobs.frame_kind):
        with pytest.raises(TypeError, match="positional argument"):
            call(bytearray(b"\x01"), 0)


def test_decode_error():
    with pytest.raises(ValueError) as raised:
        jcobs.decode(b"\x02a\x05bc")
    error = raised.value
    assert type(error) is jcobs.DecodeError
    assert (error.kind, error.data) == ("broken", b"a\0bc")
    assert str(error) == "the frame breaks off inside a block, after 4 decoded bytes"
    again = pickle.loads(pickle.dumps(error))
    assert (again.kind, again.data) == (error.kind, error.data)
    assert b"cjcobs\nDecodeError\n" in pickle.dumps(error, 0)  # not a module of its inside
    with pytest.raises(jcobs.DecodeError, match="there is no frame"):
        jcobs.decode(b"\0\0")


def test_compat():
    from jcobs import compat as cobs

    assert cobs.decode(b"") == b""
    assert cobs.decode(cobs.encode(b"")) == b""
    for frame in (b"\x02\x05\x00", b"\x00", b"\x05ab\x00de"):
        with pytest.raises(cobs.DecodeError, match="zero byte found in input"):
            cobs.decode(frame)
    with pytest.raises(cobs.DecodeError, match="not enough input bytes for length code"):
        cobs.decode(b"\x05abc")
    for at in range(300):
        frame = bytearray(b"\xff" + b"a" * 254 + b"\x2db" + b"c" * 43)
        frame[at] = 0
        for data in (bytes(frame), frame, memoryview(frame)):
            with pytest.raises(cobs.DecodeError, match="zero byte found in input"):
                cobs.decode(data)
        with pytest.raises(cobs.DecodeError, match="not enough input bytes for length code"):
            cobs.decode(b"\xff" + b"a" * at if at < 254 else b"\xff" + b"a" * 254 + b"\xf0" + b"b" * at)
    with pytest.raises(TypeError):
        cobs.encode("text")
    with pytest.raises(TypeError):
        cobs.decode("text")


@given(MESSAGES)
def test_compat_agrees_with_plain_code(data):
    from jcobs import compat as cobs

    assert cobs.encode(data) == plain.encode(data)
    wanted = plain.decode(data) if data else b""
    if wanted is not None:
        assert cobs.decode(data) == wanted
    else:
        with pytest.raises(cobs.DecodeError):
            cobs.decode(data)
