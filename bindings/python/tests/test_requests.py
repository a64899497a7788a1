"""Requests, and replies that come late, damaged or never; `discard`, `with`, `close` and `repr`."""

import asyncio
import contextlib
import io
import os
import socket
import threading
import time

import pytest

import jcobs


@contextlib.contextmanager
def link(max_length=65536):
    """A reader over a socket, and one for the device at its other end."""
    here, there = socket.socketpair()
    with jcobs.FrameReader(here, max_length) as reader, jcobs.FrameReader(there) as device:
        yield reader, device


def raw(device, data):
    device._file.sendall(data)


def in_background(*steps):
    """Starts a thread that runs the steps one after another."""
    thread = threading.Thread(target=lambda: [step() for step in steps])
    thread.start()
    return thread


def test_request():
    with link() as (reader, device):
        for number in range(50):
            replies = in_background(lambda: device.write(device.read(60).data.upper()))
            assert reader.request(b"state %d" % number, 60) == b"STATE %d" % number
            replies.join()


def echo(device, messages):
    """A thread that replies to each of so many messages with the message in capitals."""
    return in_background(*[lambda: device.write(device.read(60).data.upper())] * messages)


def test_threads_that_request_at_once_get_their_own_replies():
    found = []
    with link() as (reader, device):

        def work(letter):
            for number in range(100):
                found.append((letter + b"%d" % number, reader.request(letter + b"%d" % number, 60)))

        replies = echo(device, 400)
        workers = [threading.Thread(target=work, args=(letter,)) for letter in (b"a", b"b", b"c", b"d")]
        for worker in workers:
            worker.start()
        for worker in [*workers, replies]:
            worker.join()
        assert reader.read(timeout=0) is None
    assert len(found) == 400 and all(reply == message.upper() for message, reply in found)


def test_a_request_that_is_refused_has_sent_nothing():
    """Another thread reads, or a signal handler calls in the middle of a request."""
    with link() as (reader, device):
        waits = threading.Event()
        own = reader._read
        reader._read = lambda *words: waits.set() or own(*words)
        listener = in_background(lambda: reader.read(60))
        assert waits.wait(60)
        for discard in (False, True):
            with pytest.raises(RuntimeError, match="^the reader is in use by another call$"):
                reader.request(b"launch", 60, discard=discard)
        device.write(b"hi")
        listener.join()
        refused = []

        def within(*words):
            reader._read = own
            with pytest.raises(RuntimeError, match="in use by another call"):
                reader.request(b"launch", 60)
            refused.append(True)
            return own(*words)

        reader._read = within
        replies = echo(device, 1)
        assert reader.request(b"ask", 60) == b"ASK" and refused
        replies.join()
        assert device.read(timeout=0.05) is None


def test_no_other_call_takes_the_reply_to_a_request():
    with link() as (reader, device):
        own, refused = reader._read, []

        def after(*words):
            count = own(*words)
            for call in (lambda: reader.read(timeout=0), lambda: next(iter(reader))):
                with pytest.raises(RuntimeError, match="^the reader is in use by another call$"):
                    call()
                refused.append(count)
            return count

        reader._read = after
        replies = echo(device, 1)
        assert reader.request(b"ask", 60) == b"ASK" and refused
        replies.join()


@pytest.mark.usefixtures("patient")
def test_a_late_reply_is_not_taken_for_the_next():
    with link() as (reader, device):
        with pytest.raises(TimeoutError, match="no reply came in time"):
            reader.request(b"first", timeout=0.01)
        assert device.read(60) == jcobs.Message(b"first")
        device.write(b"late")
        replies = in_background(lambda: device.read(60), lambda: device.write(b"second"))
        assert reader.request(b"ask", timeout=60) == b"second"
        replies.join()
        # without `discard` it is, which is why there is one
        device.write(b"late again")
        assert reader.request(b"ask", timeout=60, discard=False) == b"late again"


@pytest.mark.parametrize("cut", range(1, 11))
def test_a_late_reply_that_pauses_is_not_taken_for_the_next(cut):
    """Its rest comes after the request was sent, and would be a message: it begins with a block."""
    with link() as (reader, device):
        late = jcobs.encode(b"temp=\0\0\0\0no", terminated=True)
        raw(device, late[:cut])

        def reply():
            assert device.read(60) == jcobs.Message(b"ask")
            raw(device, late[cut:])
            device.write(b"second")

        replies = in_background(reply)
        assert reader.request(b"ask", timeout=60) == b"second"
        replies.join()
        raw(device, b"\x05stop")
        with pytest.raises(TimeoutError):
            reader.request(b"ask", timeout=0.05)  # the frame that has begun doesn't end
        raw(device, b"\0")
        replies = in_background(lambda: device.read(60), lambda: device.read(60), lambda: device.write(b"second"))
        assert reader.request(b"ask", timeout=60) == b"second"
        replies.join()


@pytest.mark.usefixtures("patient")
def test_a_late_reply_over_a_serial_port(pair):
    port, end = pair
    reader, device = jcobs.FrameReader(port), jcobs.FrameReader(end)
    with pytest.raises(TimeoutError):
        reader.request(b"first", timeout=0.01)
    device.write(b"late")
    end.write(b"\x05ha")
    assert device.read(60) == jcobs.Message(b"first")
    while port.in_waiting < 9:  # until the terminal has passed them on
        time.sleep(0.001)
    replies = in_background(lambda: device.read(60), lambda: end.write(b"ha\0"), lambda: device.write(b"second"))
    assert reader.request(b"second", timeout=60) == b"second"
    replies.join()


def test_what_a_request_raises():
    with link(max_length=5) as (reader, device):
        for frame, kind, data, text in (
            (b"\x05ab\0", "broken", b"ab", "breaks off inside a block"),
            (b"\x07abcdef\0", "too_long", b"abcde", "the message is longer than max_length=5"),
        ):
            raw(device, frame)
            with pytest.raises(jcobs.DecodeError, match=text) as raised:
                reader.request(b"ask", 60, discard=False)
            assert (raised.value.kind, raised.value.data) == (kind, data)
            assert device.read(60) == jcobs.Message(b"ask")
        for timeout, error in ((-1, ValueError), ("1", TypeError), (b"1", TypeError), ([], TypeError)):
            with pytest.raises(error, match="timeout must"):
                reader.request(b"ask", timeout)
        with pytest.raises(TypeError, match="bytes-like object|buffer interface"):
            reader.request("ask", 1)
        assert device.read(timeout=0.05) is None  # nothing was sent
        device.close()
        with pytest.raises((EOFError, OSError)):
            for _ in range(3):
                reader.request(b"ask", 60)


@pytest.mark.usefixtures("patient")
def test_discard_drops_what_has_come():
    with link() as (reader, device):
        raw(device, b"\x03hi\0\x03ho\0\x05a")
        assert reader.read(60) == jcobs.Message(b"hi")
        reader.discard()
        assert reader.unfinished and reader.read(timeout=0) is None
        raw(device, b"b\0")
        assert reader.read(timeout=0.01) is None and not reader.unfinished
        device.write(b"next")
        assert reader.read(60) == jcobs.Message(b"next")


class Restless:
    """A line that has always bytes, the frames of numbers, which come in parts of 1,000 bytes."""

    def __init__(self, readable):
        self.readable, self.number, self.left = readable, 0, b""

    def fileno(self):
        return self.readable

    def recv(self, size):
        while len(self.left) < 1000:
            self.left += jcobs.encode(b"%d\0" % self.number * 3, terminated=True)
            self.number += 1
        chunk, self.left = self.left[:1000], self.left[1000:]
        return chunk


def test_discard_ends_on_a_line_that_never_rests():
    readable, sink = os.pipe()
    os.write(sink, b"!")
    try:
        reader = jcobs.FrameReader(Restless(readable))
        begun = time.monotonic()
        reader.discard()
        assert time.monotonic() - begun < 60
        first = int(reader.read(60).data.split(b"\0")[0])
        assert first > 100
        for number in range(first + 1, first + 1000):
            assert reader.read(60) == jcobs.Message(b"%d\0" % number * 3)
    finally:
        os.close(readable)
        os.close(sink)


def test_discard_at_the_end_of_a_stream():
    with link() as (reader, device):
        raw(device, b"\x03hi\0\x05a")
        device.close()
        reader.discard()
        with pytest.raises(EOFError, match="the stream ended inside a frame$"):
            reader.read()


def test_close(tmp_path):
    path = tmp_path / "frames"
    with jcobs.FrameReader(path.open("w+b")) as file:
        file.write(b"hello")
        assert repr(file) == f"<FrameReader of {str(path)!r}>"
    assert path.read_bytes() == b"\x06hello\0"
    with pytest.raises(ValueError, match="closed file"):
        file.read()
    with pytest.raises(RuntimeError, match="by the user"):
        with jcobs.FrameReader(path.open("rb")) as file:
            raise RuntimeError("by the user")
    with pytest.raises(ValueError, match="closed file"):
        file.read()


def test_repr(pair):
    port, end = pair
    assert repr(jcobs.FrameReader(port)) == f"<FrameReader of {port.name!r}>" and "/dev/" in port.name
    with link() as (reader, device):
        assert repr(reader) == f"<FrameReader of {reader._file!r}>"
    assert repr(jcobs.FrameReader(io.BytesIO())).startswith("<FrameReader of <_io.BytesIO object")


@contextlib.asynccontextmanager
async def connection():
    """A reader over asyncio, and one for the device at its other end."""
    made = asyncio.get_running_loop().create_future()
    server = await asyncio.start_server(lambda *ends: made.set_result(ends), "127.0.0.1", 0)
    reader, writer = await asyncio.open_connection(*server.sockets[0].getsockname()[:2])
    there = await made
    async with jcobs.AsyncFrameReader(reader, 100, writer=writer) as here:
        async with jcobs.AsyncFrameReader(there[0], writer=there[1]) as device:
            yield here, device
    server.close()


@pytest.mark.usefixtures("patient")
def test_requests_over_asyncio():
    async def run():
        async with connection() as (reader, device):
            assert repr(reader).startswith("<AsyncFrameReader of <StreamReader")

            async def reply(*messages):
                assert isinstance(await device.read(), jcobs.Message)
                for message in messages:
                    await device.write(message)

            _, data = await asyncio.gather(reply(b"yes"), reader.request(b"ask", 60))
            assert data == b"yes"
            with pytest.raises(TimeoutError, match="no reply came in time"):
                await reader.request(b"ask", 0.01)
            await reply(b"late")
            device._writer.write(b"\x05a\0\x06a")
            await asyncio.sleep(0.1)

            async def rest():
                assert isinstance(await device.read(), jcobs.Message)
                device._writer.write(b"\x03no\0")
                await device.write(b"second")
                await device.write(b"1" * 101)

            _, data = await asyncio.gather(rest(), reader.request(b"ask", 60))
            assert data == b"second"
            with pytest.raises(jcobs.DecodeError, match="longer than max_length=100"):
                await reader.request(b"ask", 60, discard=False)
            await reply()
            with pytest.raises(TypeError, match="timeout must"):
                await reader.request(b"ask", "1")
            assert await device.read(timeout=0.05) is None
        with pytest.raises(EOFError):
            await reader.read()

    asyncio.run(run())


def test_requests_at_once_over_asyncio():
    async def run():
        async with connection() as (reader, device):

            async def echo():
                async for message in device.messages():
                    await device.write(message.upper())

            task = asyncio.ensure_future(echo())
            asked = [b"a%d" % number for number in range(30)]
            assert await asyncio.gather(*(reader.request(one, 60) for one in asked)) == [one.upper() for one in asked]
            late = asyncio.ensure_future(reader.request(b"cancelled", 60))
            waiting = asyncio.ensure_future(reader.request(b"after it", 60))
            await asyncio.sleep(0)
            late.cancel()
            assert await waiting in (b"AFTER IT", b"CANCELLED")
            task.cancel()

    asyncio.run(run())


def test_a_request_over_asyncio_that_is_refused_has_sent_nothing():
    async def run():
        async with connection() as (reader, device):
            listener = asyncio.ensure_future(reader.read())
            await asyncio.sleep(0)
            for discard in (False, True):
                with pytest.raises(RuntimeError, match="^the reader is in use by another call$"):
                    await reader.request(b"launch", 60, discard=discard)
            for call in (reader.read, reader.__anext__, reader.discard):
                with pytest.raises(RuntimeError, match="^the reader is in use by another call$"):
                    await call()
            await device.write(b"hi")
            assert await listener == jcobs.Message(b"hi")
            assert await device.read(timeout=0.05) is None

    asyncio.run(run())


@pytest.mark.usefixtures("patient")
def test_discard_over_asyncio_drops_the_rest_of_a_frame_that_is_on_its_way():
    async def run():
        stream = asyncio.StreamReader()
        reader = jcobs.AsyncFrameReader(stream)
        frame = jcobs.encode(b"set\0speed\0to\x0099", terminated=True)
        stream.feed_data(b"\x03hi\0" * 3 + frame[:4])
        assert await reader.read() == jcobs.Message(b"hi")
        await reader.discard()
        assert reader.unfinished
        for at in range(4, len(frame)):
            stream.feed_data(frame[at : at + 1])
            assert await reader.read(timeout=0) is None
        stream.feed_data(b"\x03ho\0\x05a")
        assert await reader.read(timeout=60) == jcobs.Message(b"ho")
        assert await reader.read(timeout=0) is None
        await reader.close()  # which has nothing to close

    asyncio.run(run())


@pytest.mark.skipif(os.name != "posix", reason="it needs a pipe")
@pytest.mark.usefixtures("patient")
def test_a_pipe_is_drained():
    source, sink = os.pipe()
    with jcobs.FrameReader(os.fdopen(source, "rb")) as reader, os.fdopen(sink, "wb", 0) as end:
        end.write(b"\x02a\0" * 20_000)
        assert reader.read() == jcobs.Message(b"a")
        reader.discard()
        assert reader.read(timeout=0) is None
        end.write(b"\x02b\0")
        assert reader.read() == jcobs.Message(b"b")
