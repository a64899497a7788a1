"""Tests for any CPython from 3.9 on, without pytest: python smoke.py"""

import concurrent.futures
import socket
import sys
import threading
import time
from array import array

import plain

import jcobs

FAILED = []  # the exceptions that threads raised
threading.excepthook = FAILED.append
MESSAGES = [b"\x01" * ones + bytes(zeros) + b"\x02" * 3 for ones in (0, 1, 253, 254, 255, 600) for zeros in range(3)]


def check(sentinel):
    decoder, encoder = jcobs.Decoder(1000, sentinel), jcobs.Encoder(1000, sentinel)
    for message in MESSAGES:
        frame = jcobs.encode(message, sentinel=sentinel, terminated=True)
        assert frame == bytes(byte ^ sentinel for byte in plain.encode(message) + b"\0")
        assert jcobs.decode(memoryview(frame), sentinel=sentinel) == message
        encoder.feed(array("B", message))
        assert encoder.finish(terminated=True) == frame
        assert decoder.feed(bytearray(frame)) == [jcobs.Message(message)]
    try:
        jcobs.decode(b"\x05a")
    except jcobs.DecodeError as error:
        assert (error.kind, error.data) == ("broken", b"a")
    try:
        jcobs.encode(memoryview(b"abcd")[::2])
    except BufferError:
        pass
    else:
        raise AssertionError("it took an object that isn't contiguous")


def check_readers():
    here, there = socket.socketpair()
    with jcobs.FrameReader(here) as reader, jcobs.FrameReader(there, sync=True) as device:
        try:
            reader.request(b"first", timeout=0.01)
        except TimeoutError:
            pass
        else:
            raise AssertionError("nobody replied")
        assert device.read(60) == jcobs.Message(b"first")
        device.write(b"late")
        replies = threading.Thread(target=lambda: device.write(device.read(60).data.upper()))
        replies.start()
        assert reader.request(b"ask", timeout=60) == b"ASK"
        replies.join()
    assert bytes(jcobs.Message(b"hi")) == b"hi" and jcobs.Message(b"")
    assert [one.data for one in jcobs.frames(b"\x03hi\0" * 3)] == [b"hi"] * 3


def check_threads_in_one_decoder():
    """Two threads feed whole frames to one decoder: each gets its own message, or is refused."""
    decoder, wrong, refused = jcobs.Decoder(5000), [], []
    interval = sys.getswitchinterval()
    sys.setswitchinterval(1e-6)
    end = time.monotonic() + 2

    def work(letter):
        message = letter * 3000 + b"\0" + letter * 9
        frame = jcobs.encode(message, terminated=True)
        while time.monotonic() < end:
            try:
                found = decoder.feed(frame)
            except RuntimeError:
                refused.append(letter)
            else:
                if found != [jcobs.Message(message)]:
                    wrong.append(found)

    pair = [threading.Thread(target=work, args=(letter,)) for letter in (b"A", b"B")]
    for thread in pair:
        thread.start()
    for thread in pair:
        thread.join()
    sys.setswitchinterval(interval)
    assert not wrong, (len(wrong), wrong[0])


def check_encoder_by_two_threads():
    """Pieces that two threads feed are whole in the message, and none is counted that isn't there."""
    interval = sys.getswitchinterval()
    sys.setswitchinterval(1e-6)
    end = time.monotonic() + 1
    while time.monotonic() < end:
        encoder, taken = jcobs.Encoder(100_000), []

        def work(letter):
            for _ in range(20):
                try:
                    encoder.feed(letter * 50)
                    taken.append(letter)
                except RuntimeError:
                    pass

        pair = [threading.Thread(target=work, args=(letter,)) for letter in (b"A", b"B")]
        for thread in pair:
            thread.start()
        for thread in pair:
            thread.join()
        message = jcobs.decode(encoder.finish())
        pieces = [message[at : at + 50] for at in range(0, len(message), 50)]
        assert sorted(pieces) == sorted(letter * 50 for letter in taken)
    sys.setswitchinterval(interval)


class Own:
    """From Python 3.12 on a class may have a method that gives its buffer; an error of its own isn't replaced."""

    def __buffer__(self, flags):
        raise TypeError("by the object")


def check_errors_of_a_buffer():
    wanted = (
        "by the object" if sys.version_info >= (3, 12) else "memoryview: a bytes-like object is required, not 'Own'"
    )
    try:
        jcobs.encode(Own())
    except TypeError as error:
        assert str(error) == wanted, error
    else:
        raise AssertionError("it took an object without a buffer")


INTERPRETER = """if True:
    import jcobs
    assert jcobs.Decoder().feed(b"\\x03hi\\0") == [jcobs.Message(b"hi")]
"""
# Each call counts references to objects that all interpreters share: bytes of length 1, and None.
AT_ONCE = """if True:
    import jcobs
    decoder = jcobs.Decoder(10)
    for _ in range(300_000):
        jcobs.encode(b"a")
        decoder.reset()
"""


def run_interpreter(program):
    try:
        import _interpreters as interpreters
    except ImportError:
        import _xxsubinterpreters as interpreters
    interpreter = interpreters.create()
    failed = interpreters.run_string(interpreter, program)
    interpreters.destroy(interpreter)
    if failed is not None:
        raise AssertionError(failed)


def check_subinterpreters():
    for _ in range(3):
        run_interpreter(INTERPRETER)


def check_counts_of_immortal_objects():
    """From 3.12 on bytes of length 1 are shared by all interpreters, so a call leaves their count as it is."""
    decoder = jcobs._backend.core.Decoder(9, 0, jcobs._streams.CLASSES)
    counts = [sys.getrefcount(b"\0")]
    decoder.push(b"\0")  # which refers to it until it is decoded
    counts.append(sys.getrefcount(b"\0"))
    assert sys.version_info < (3, 12) or counts[0] == counts[1], counts


def check_interpreters_at_once():
    """From 3.12 on each interpreter has a GIL of its own: if they shared a count, this would end by a signal."""
    with concurrent.futures.ThreadPoolExecutor(2) as pool:
        list(pool.map(run_interpreter, [AT_ONCE] * 2))


threads = [threading.Thread(target=check, args=(sentinel,)) for sentinel in range(4)]
for thread in threads:
    thread.start()
for thread in threads:
    thread.join()
check(0)
check_readers()
check_threads_in_one_decoder()
check_encoder_by_two_threads()
check_errors_of_a_buffer()
check_subinterpreters()
check_counts_of_immortal_objects()
check_interpreters_at_once()
assert not FAILED, FAILED
