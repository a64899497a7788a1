"""Allocations that fail, and memory that is freed."""

import gc
import sys

import pytest

import jcobs
import jcobs.compat
from jcobs._backend import core

only_extension = pytest.mark.skipif(jcobs.backend == "python", reason="it is about the extension's own memory")


def coders():
    decoder, encoder = jcobs.Decoder(100), jcobs.Encoder(100)
    encoder.feed(b"hello")
    return [decoder, encoder, decoder.feed(b"\x03hi\0\x06hel\0\x03ho\0"), encoder.finish()]


def broken():
    try:
        jcobs.decode(b"\x05a")
    except jcobs.DecodeError as error:
        return error.data


CALLS = {
    "encode": lambda: jcobs.encode(b"a" * 5000),
    "encode a bytearray": lambda: jcobs.encode(bytearray(b"a" * 500)),
    "encode a memoryview": lambda: jcobs.encode(memoryview(b"a" * 500), sentinel=5),
    "decode": lambda: jcobs.decode(b"\x06hello\0" + b"a" * 5000),
    "decode for a sentinel": lambda: jcobs.decode(b"\x07idmmn", sentinel=1),
    "decode a broken frame": broken,
    "frame_kind": lambda: jcobs.frame_kind(b"\x07idmmn" * 20, sentinel=1),
    "max_frame_length": lambda: jcobs.max_frame_length(1 << 50),
    "coders": coders,
    "outcomes": lambda: (repr(jcobs.Message(b"hi")), hash(jcobs.Broken(b"hi")), jcobs.TooLong(b"hi") == 5),
}


@only_extension
@pytest.mark.parametrize("name", CALLS)
def test_each_allocation_fails(name):
    """Lets the first allocation of the call fail, then the second, and so on, until none is left."""
    testcapi = pytest.importorskip("_testcapi", reason="CPython's own test module makes allocations fail")
    call = CALLS[name]
    call()
    gc.collect()
    gc.disable()
    failed = 0
    try:
        for start in range(400):
            done = False
            testcapi.set_nomemory(start, start + 1)
            try:
                call()
                done = True
            except MemoryError:
                failed += 1
            finally:
                testcapi.remove_mem_hooks()
            if done and start > 40:
                break
        else:
            pytest.fail("the call never got through")
    finally:
        gc.enable()
    assert failed > 0 or name == "frame_kind"
    call()


@only_extension
def test_decoder_after_failed_allocation():
    testcapi = pytest.importorskip("_testcapi", reason="CPython's own test module makes allocations fail")
    decoder = jcobs.Decoder(100)
    stream = b"\x03hi\0\x06hel\0\x03ho\0\x03h"
    failed = 0
    for start in range(60):
        decoder.reset()
        testcapi.set_nomemory(start, start + 1)
        try:
            decoder.feed(stream)
        except MemoryError:
            testcapi.remove_mem_hooks()
            failed += 1
            assert not decoder.unfinished
        finally:
            testcapi.remove_mem_hooks()
        decoder.reset()
        assert len(decoder.feed(stream)) == 3 and decoder.unfinished
    assert failed > 5


@only_extension
def test_a_decoder_is_reset_if_there_is_no_memory_for_a_copy_of_the_chunk():
    testcapi = pytest.importorskip("_testcapi", reason="CPython's own test module makes allocations fail")
    decoder = jcobs.Decoder(100)
    decoder.feed(b"\x06hel")
    chunk, failed = bytearray(b"hh"), False
    testcapi.set_nomemory(0, 1)
    try:
        decoder.feed(chunk)
    except MemoryError:
        failed = True
    finally:
        testcapi.remove_mem_hooks()
    assert failed and not decoder.unfinished
    assert decoder.feed(b"\x03hi\0") == [jcobs.Message(b"hi")]


@only_extension
def test_a_message_is_gone_after_a_finish_without_memory():
    testcapi = pytest.importorskip("_testcapi", reason="CPython's own test module makes allocations fail")
    encoder = jcobs.Encoder(1000)
    failed = 0
    for start in range(20):
        encoder.feed(b"a" * 1000)
        testcapi.set_nomemory(start, start + 1)
        try:
            encoder.finish()
        except MemoryError:
            testcapi.remove_mem_hooks()
            failed += 1
        finally:
            testcapi.remove_mem_hooks()
        encoder.feed(b"next")
        assert encoder.finish() == b"\x05next"
    assert failed > 0


def test_no_room_for_a_buffer():
    for make in (jcobs.Decoder, jcobs.Encoder)[jcobs.backend == "python" :]:  # a plain decoder has no buffer
        with pytest.raises(MemoryError):
            make(sys.maxsize - 1)


@only_extension
def test_results_have_the_memory_they_need():
    import tracemalloc

    tracemalloc.start()
    try:
        for frame in (jcobs.encode(bytes(600_000)), b"\x01" * 600_001 + b"\0" + b"\x01" * 500_000):
            before = tracemalloc.get_traced_memory()[0]
            message = jcobs.decode(frame)
            held = tracemalloc.get_traced_memory()[0] - before
            assert len(message) == 600_000 and held < 600_000 * 255 / 254 + 1000
    finally:
        tracemalloc.stop()


def resident():
    with open("/proc/self/statm") as file:
        return int(file.read().split()[1]) * 4096


@pytest.mark.skipif(not sys.platform.startswith("linux"), reason="/proc says how much memory there is")
def test_a_million_calls_without_growth():
    def some(count):
        view, frame, wrong = memoryview(bytearray(b"hello" * 20)), jcobs.encode(b"hello" * 20), b"\x05a"
        decoder, encoder = jcobs.Decoder(100), jcobs.Encoder(100)
        for _ in range(count):
            jcobs.encode(view)
            jcobs.decode(frame)
            jcobs.frame_kind(frame, sentinel=3)
            decoder.feed(b"\x03hi\0\x05a\0")
            encoder.feed(b"hi")
            encoder.finish()
            jcobs.Decoder(50), jcobs.Encoder(50)
            for call in (jcobs.decode, jcobs.compat.decode):
                try:
                    call(wrong)
                except Exception:
                    pass
            for words in ({"size": 1}, {"sentinel": -1}):
                try:
                    jcobs.encode(view, **words)
                except (TypeError, ValueError):
                    pass
            try:
                jcobs.encode("text")
            except TypeError:
                pass
            hash(jcobs.Message(b"hi")), repr(jcobs.Broken(b"hi"))

    some(5_000)
    before = resident()
    some(8_000 if jcobs.backend == "python" else 80_000)  # fifteen calls each
    assert resident() - before < 1_000_000


@pytest.mark.skipif(not hasattr(sys, "getrefcount"), reason="there are no counts")
def test_objects_give_their_class_back():
    class Named(jcobs.Message):
        pass

    def cycles(count):
        for _ in range(count):
            named = Named(b"hi")
            named.itself = named
        del named
        decoder = jcobs.Decoder(10)
        for _ in range(count):
            decoder.feed(b"\x03hi\0\x05a\0")
            jcobs.Encoder(10)
        gc.collect()

    cycles(10)
    classes = [Named, jcobs.Message, jcobs.Broken, core.Decoder, core.Encoder]
    before = [sys.getrefcount(one) for one in classes]
    cycles(500)
    assert [sys.getrefcount(one) for one in classes] == before
