"""AsyncFrameReader over the streams of trio and anyio: timeouts, cancellation, and messages that are cut."""

import os
import random
import socket

import pytest

import jcobs

trio = pytest.importorskip("trio")
anyio = pytest.importorskip("anyio")

MESSAGES = [b"%d" % number * (number % 4) for number in range(60)]
STREAM = b"".join(jcobs.encode(message, terminated=True) for message in MESSAGES)


async def trio_socket():
    here, there = trio.socket.socketpair()
    return trio.SocketStream(here), trio.SocketStream(there)


async def trio_terminal():
    import tty

    here, there = os.openpty()
    for descriptor in (here, there):
        tty.setraw(descriptor)
    return trio.lowlevel.FdStream(here), trio.lowlevel.FdStream(there)


async def anyio_socket():
    """Two connected streams: anyio makes none of a pair of sockets."""
    listener = await anyio.create_tcp_listener(local_host="127.0.0.1", local_port=0)
    accepted, done = [], anyio.Event()

    async with anyio.create_task_group() as group:

        async def handle(stream):
            accepted.append(stream)
            done.set()

        group.start_soon(listener.serve, handle)
        port = listener.extra(anyio.abc.SocketAttribute.local_port)
        here = await anyio.connect_tcp("127.0.0.1", port)
        await done.wait()
        group.cancel_scope.cancel()
    await listener.aclose()
    return here, accepted[0]


WAYS = [(trio_socket, "trio"), (trio_terminal, "trio"), (anyio_socket, "trio"), (anyio_socket, "asyncio")]


@pytest.fixture(params=WAYS, ids=lambda way: f"{way[0].__name__} over {way[1]}")
def over(request):
    """Runs a test with a reader at one end of a connection, and a stream at the other."""
    make, backend = request.param

    def run(test):
        async def main():
            with anyio.fail_after(250):
                streams = await make()
                async with jcobs.AsyncFrameReader(streams[0]) as reader, jcobs.AsyncFrameReader(streams[1]) as device:
                    await test(reader, device)

        anyio.run(main, backend=backend)

    return run


def send_to(device):
    """The call that sends bytes to the other end."""
    return getattr(device._stream, "send_all" if hasattr(device._stream, "send_all") else "send")


def test_frames_and_the_end(over):
    async def test(reader, device):
        assert repr(reader).startswith("<AsyncFrameReader of <")
        await send_to(device)(b"\x03hi\0\x05a\0\x02b\0\x03h")
        assert [await reader.read(), await reader.read(timeout=60)] == [jcobs.Message(b"hi"), jcobs.Broken(b"a")]
        assert await reader.messages().__anext__() == b"b"
        assert await reader.read(timeout=0) is await reader.read(timeout=0.05) is None
        assert reader.unfinished
        await send_to(device)(b"o\0")
        assert await reader.__anext__() == jcobs.Message(b"ho")
        await device.write(b"last")
        if type(device._stream).__name__ != "FdStream":  # a terminal that hangs up is an error
            await device.close()
            assert [one async for one in reader] == [jcobs.Message(b"last")]
            with pytest.raises(EOFError, match="the stream ended$"):
                await reader.read(timeout=60)

    over(test)


@pytest.mark.usefixtures("patient")
def test_requests(over):
    async def test(reader, device):
        async def reply(message):
            assert await device.read() == jcobs.Message(b"ask")
            await device.write(message)

        async with anyio.create_task_group() as group:
            group.start_soon(reply, b"yes")
            assert await reader.request(b"ask", timeout=60) == b"yes"
        with pytest.raises(TimeoutError, match="no reply came in time"):
            await reader.request(b"ask", timeout=0.02)
        await reply(b"late")
        async with anyio.create_task_group() as group:
            group.start_soon(reply, b"second")
            await anyio.sleep(0.5)  # a terminal passes it on
            assert await reader.request(b"ask", timeout=60) == b"second"

    over(test)


def test_a_timeout_of_0_takes_what_has_arrived(over):
    async def test(reader, device):
        await device.write(b"hi")
        await device.write(b"late")
        while (one := await reader.read(timeout=0)) is None:  # until the limit of time is over
            pass
        assert one == jcobs.Message(b"hi")

    over(test)


def test_requests_at_once(over):
    async def test(reader, device):
        found = {}

        async def echo():
            async for message in device.messages():
                await device.write(message.upper())

        async def ask(message):
            found[message] = await reader.request(message, timeout=60)

        async with anyio.create_task_group() as group:
            group.start_soon(echo)
            async with anyio.create_task_group() as requests:
                for number in range(20):
                    requests.start_soon(ask, b"a%d" % number)
            group.cancel_scope.cancel()
        assert len(found) == 20 and all(reply == message.upper() for message, reply in found.items())

    over(test)


def test_a_request_that_is_refused_has_sent_nothing(over):
    async def test(reader, device):
        async with anyio.create_task_group() as group:
            group.start_soon(reader.read)
            await anyio.sleep(0.01)
            with pytest.raises(RuntimeError, match="^the reader is in use by another call$"):
                await reader.request(b"launch", timeout=60)
            group.cancel_scope.cancel()
        assert await device.read(timeout=0.05) is None

    over(test)


def test_reads_that_are_cancelled_lose_nothing(over):
    source = random.Random(5)

    async def test(reader, device):
        found = []

        async def send():
            for at in range(0, len(STREAM), 5):
                await send_to(device)(STREAM[at : at + 5])
                await anyio.sleep(source.random() * 0.002)

        async with anyio.create_task_group() as group:
            group.start_soon(send)
            while len(found) < len(MESSAGES):
                if source.random() < 0.5:
                    one = await reader.read(timeout=source.random() * 0.004)
                    found += [one] if one is not None else []
                else:
                    with anyio.move_on_after(source.random() * 0.004):
                        found.append(await reader.read())
        assert [one.data for one in found] == MESSAGES

    over(test)


def test_a_timeout_is_for_the_whole_frame(over):
    async def test(reader, device):
        async def trickle():
            while True:
                await send_to(device)(b"\x01")
                await anyio.sleep(0.005)

        async with anyio.create_task_group() as group:
            group.start_soon(trickle)
            assert await reader.read(timeout=0.1) is None
            group.cancel_scope.cancel()

    over(test)


def test_a_write_that_is_cancelled_makes_no_other_message(over):
    """The stream takes some of the frame. What is sent next is received, and nothing else."""

    async def test(reader, device):
        with anyio.move_on_after(0.05):
            await reader.write((b"\x01" * 99 + b"\0") * 600_000)
            pytest.fail("it took all of the frame")

        async def send():
            await reader.write(b"stop motor")
            await reader.write(b"next")

        async with anyio.create_task_group() as group:
            group.start_soon(send)
            found = [await device.read()]
            while found[-1] != jcobs.Message(b"next"):
                found.append(await device.read())
        assert found[-2:] == [jcobs.Message(b"stop motor"), jcobs.Message(b"next")]
        assert not any(isinstance(one, jcobs.Message) for one in found[:-2])

    over(test)


def test_a_second_write_is_refused(over):
    async def test(reader, device):
        async with anyio.create_task_group() as group:
            group.start_soon(reader.write, b"\x01" * 40_000_000)  # more than the buffers of both ends
            for _ in range(3):  # so that it has begun
                await anyio.sleep(0)
            with pytest.raises(RuntimeError, match="^the writer is in use by another call$"):
                await reader.write(b"small")
            group.cancel_scope.cancel()

    over(test)


def test_streams_that_are_none():
    for stream in (5, "COM1", None):
        with pytest.raises(TypeError, match="stream must be one of asyncio, trio or anyio, not"):
            jcobs.AsyncFrameReader(stream)


def test_a_stream_that_only_receives():
    """With a `writer` messages go there."""

    async def main():
        here, there = socket.socketpair()
        sink, source = trio.SocketStream(trio.socket.from_stdlib_socket(here)), None
        source = trio.SocketStream(trio.socket.from_stdlib_socket(there))
        loop = trio.testing.memory_stream_one_way_pair()
        async with jcobs.AsyncFrameReader(loop[1], writer=sink) as reader:
            await loop[0].send_all(b"\x03hi\0")
            assert await reader.read() == jcobs.Message(b"hi")
            await reader.write(b"ho")
            assert await source.receive_some() == b"\x03ho\0"
        await source.aclose()

    import trio.testing

    trio.run(main)
