"""AsyncFrameReader: timeouts, and cancellation at every await."""

import asyncio
import functools

import pytest
from hypothesis import given, settings
from hypothesis import strategies as st

import jcobs

STREAM = b"\x03hi\0\x06hel\0\x07hello!\0\x02"
OUTCOMES = [jcobs.Message(b"hi"), jcobs.Broken(b"hel"), jcobs.TooLong(b"hello")]


def test_asyncio():
    async def run():
        stream = asyncio.StreamReader()
        reader = jcobs.AsyncFrameReader(stream, max_length=5)
        found = []

        async def collect():
            async for outcome in reader:
                found.append(outcome)

        task = asyncio.ensure_future(collect())
        for at in range(len(STREAM)):
            stream.feed_data(STREAM[at : at + 1])
            await asyncio.sleep(0)
            await asyncio.sleep(0)
            if at == 3:
                assert found == OUTCOMES[:1]
        stream.feed_eof()
        await task
        return found, reader.unfinished

    assert asyncio.run(run()) == (OUTCOMES, True)


def test_asyncio_cancelled():
    async def run():
        stream = asyncio.StreamReader()
        reader = jcobs.AsyncFrameReader(stream)
        outcomes = reader.__aiter__()
        stream.feed_data(b"\x03h")
        with pytest.raises(asyncio.TimeoutError):
            await asyncio.wait_for(outcomes.__anext__(), 0.05)
        stream.feed_data(b"i\0\x03ho\0")
        stream.feed_eof()
        return [await outcomes.__anext__(), [outcome async for outcome in outcomes]]

    assert asyncio.run(run()) == [jcobs.Message(b"hi"), [jcobs.Message(b"ho")]]


WAYS = {
    "read": lambda reader, messages: reader.read(),
    "read with a timeout": lambda reader, messages: reader.read(timeout=100),
    "anext": lambda reader, messages: reader.__anext__(),
    "messages": lambda reader, messages: messages.__anext__(),
    "wait_for": lambda reader, messages: asyncio.wait_for(reader.read(), 100),
}


@given(
    st.sampled_from(sorted(WAYS)),
    st.lists(st.tuples(st.integers(0, 4), st.integers(0, 12), st.integers(0, 4)), max_size=12),
)
def test_a_read_that_is_cancelled_loses_nothing(way, schedule):
    """Each read is cancelled after some steps of the loop before and after some bytes come; at last all is read."""
    messages = [b"%d" % number * (number % 3) for number in range(20)]

    async def run():
        rest = b"".join(jcobs.encode(message, terminated=True) for message in messages)
        stream, found = asyncio.StreamReader(), []
        reader = jcobs.AsyncFrameReader(stream)
        read = functools.partial(WAYS[way], reader, reader.messages())
        for before, count, after in schedule:
            task = asyncio.ensure_future(read())
            for step in range(before + after + 1):
                if step == before:
                    stream.feed_data(rest[:count])
                    rest = rest[count:]
                await asyncio.sleep(0)
            task.cancel()
            try:
                found.append(await task)
            except asyncio.CancelledError:
                pass
        stream.feed_data(rest)
        stream.feed_eof()
        with pytest.raises((EOFError, StopAsyncIteration)):
            while True:
                found.append(await read())
        return [getattr(one, "data", one) for one in found]

    assert asyncio.run(run()) == messages


@settings(max_examples=100)
@given(st.lists(st.tuples(st.integers(0, 12), st.sampled_from([0, 0.0001, 0.001]))))
def test_a_timeout_of_an_asyncio_stream_is_not_the_end(schedule):
    messages = [b"%d" % number * (number % 3) for number in range(20)]

    async def run():
        rest = b"".join(jcobs.encode(message, terminated=True) for message in messages)
        stream, found = asyncio.StreamReader(), []
        reader = jcobs.AsyncFrameReader(stream)
        for count, timeout in schedule:
            stream.feed_data(rest[:count])
            rest = rest[count:]
            found.append(await reader.read(timeout))
        stream.feed_data(rest)
        stream.feed_eof()
        with pytest.raises(EOFError):
            while True:
                found.append(await reader.read(timeout=0))
        return [one.data for one in found if one]

    assert asyncio.run(run()) == messages


def test_asyncio_read_takes_what_is_there():
    async def run():
        stream = asyncio.StreamReader()
        reader = jcobs.AsyncFrameReader(stream)
        assert await reader.read(timeout=0) is None
        stream.feed_data(STREAM[:5])
        assert await reader.read(timeout=0) == jcobs.Message(b"hi")
        stream.set_exception(ConnectionResetError())
        with pytest.raises(ConnectionResetError):
            await reader.read(timeout=1)
        with pytest.raises(ValueError, match="timeout must not be negative"):
            await reader.read(timeout=-1)
        with pytest.raises(TypeError, match="pass the stream's writer"):
            await reader.write(b"hi")

    asyncio.run(run())


def test_a_timeout_of_an_asyncio_stream_is_for_the_whole_frame():
    async def run():
        stream = asyncio.StreamReader()
        reader = jcobs.AsyncFrameReader(stream)

        async def trickle():
            while True:
                stream.feed_data(b"\x01")
                await asyncio.sleep(0)

        task = asyncio.ensure_future(trickle())
        assert await asyncio.wait_for(reader.read(timeout=0.5), 250) is None
        task.cancel()

    asyncio.run(run())


def test_asyncio_over_a_socket():
    async def run():
        async def serve(reader, writer):
            client = jcobs.AsyncFrameReader(reader, writer=writer)
            async for message in client.messages():
                await client.write(message.upper())
            writer.close()

        server = await asyncio.start_server(serve, "127.0.0.1", 0)
        reader, writer = await asyncio.open_connection(*server.sockets[0].getsockname()[:2])
        for message in (b"one", b"two"):
            writer.write(jcobs.encode(message, terminated=True))
        writer.write_eof()
        found = [outcome.data async for outcome in jcobs.AsyncFrameReader(reader)]
        writer.close()
        server.close()
        return found

    assert asyncio.run(run()) == [b"ONE", b"TWO"]
