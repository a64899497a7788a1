"""Reads that time out or are cancelled while another process sends, and writes that are torn. See test_interruptions."""

import asyncio
import contextlib
import io
import random
import socket
import subprocess
import sys

import pytest

import jcobs
from test_interruptions import MESSAGES, OUTCOMES, SEND, STREAM
from test_readers import KINDS, ends

LAST = jcobs.Message(b"last")


@contextlib.contextmanager
def sending(end):
    """A process that sends the stream to a descriptor, and then LAST again and again."""
    words = [sys.executable, "-c", SEND, str(end.fileno())]
    with subprocess.Popen(words, stdin=subprocess.PIPE, pass_fds=[end.fileno()]) as sender:
        sender.stdin.write(STREAM)
        sender.stdin.close()
        yield
        sender.kill()


def all_but_last(found):
    return [outcome.data for outcome in found if outcome not in (None, LAST)]


def drive(reader, end):
    source, found = random.Random(1), []
    with sending(end):
        while not found or found[-1] != LAST:
            found.append(reader.read(timeout=source.choice([0, 0.0001, 0.002, None])))
    assert all_but_last(found) == MESSAGES


@pytest.mark.parametrize("kind", KINDS)
def test_timeouts(kind):
    with ends(kind) as (here, end):
        drive(jcobs.FrameReader(here), end)


def test_timeouts_over_a_terminal(pair):
    port, end = pair
    drive(jcobs.FrameReader(port), end)


async def read_by_pieces(reader, read, source):
    """Reads until LAST comes. `read` waits for a coroutine, and may cancel it."""
    found = []
    while not found or found[-1] != LAST:
        if source.random() < 0.5:
            found.append(await reader.read(timeout=source.choice([0, 0.0001, 0.002])))
        else:
            await read(reader.read, found)
    assert all_but_last(found) == MESSAGES


def test_asyncio():
    source = random.Random(2)

    async def read(call, found):
        task = asyncio.ensure_future(call())
        for _ in range(source.randrange(4)):
            await asyncio.sleep(source.choice([0, 0, 0, 0.001]))
        task.cancel()
        with contextlib.suppress(asyncio.CancelledError):
            found.append(await task)

    async def run():
        here, there = socket.socketpair()
        stream, writer = await asyncio.open_connection(sock=here)
        with there, sending(there):
            await read_by_pieces(jcobs.AsyncFrameReader(stream), read, source)
        writer.close()

    asyncio.run(run())


def test_trio():
    trio = pytest.importorskip("trio")
    source = random.Random(3)

    async def read(call, found):
        with trio.move_on_after(source.choice([0, 0.0001, 0.001])):
            found.append(await call())

    async def run():
        here, there = socket.socketpair()
        async with trio.SocketStream(trio.socket.from_stdlib_socket(here)) as stream:
            with there, sending(there):
                await read_by_pieces(jcobs.AsyncFrameReader(stream), read, source)

    trio.run(run)


class Torn(io.RawIOBase):
    """A raw file that takes some bytes at a time, and sometimes raises an error."""

    def __init__(self, source):
        self.source, self.written, self.torn = source, bytearray(), 0

    def writable(self):
        return True

    def write(self, data):
        if self.source.random() < 0.08:
            self.torn += 1
            raise OSError("torn")
        count = self.source.randrange(1, len(data) + 1)
        self.written += bytes(data[:count])
        return count


def test_torn_writes():
    """No message is made up or lost, and there are no more broken frames than there were errors."""
    source = random.Random(4)
    for sentinel in (0, 9, 255):
        line = Torn(source)
        writer, sent, tried = jcobs.FrameReader(line, sentinel=sentinel), set(), set()
        for number in range(OUTCOMES // 3):
            message = b"%d" % number + b"\0" * (number % 3) + b"\x02" * source.choice([0, 1, 252, 253, 254, 300])
            tried.add(message)
            with contextlib.suppress(OSError):
                writer.write(message)
                sent.add(message)
        found = jcobs.Decoder(sentinel=sentinel).feed(bytes(line.written))
        messages = [one.data for one in found if isinstance(one, jcobs.Message)]
        assert sent <= set(messages) <= tried and len(messages) == len(set(messages))
        assert line.torn > 0 and len(found) - len(messages) <= line.torn
