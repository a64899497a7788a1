"""Messages that aren't written whole, and the outcomes that the receiver reports for them."""

import asyncio
import io
import itertools
import socket
import threading
import time

import pytest

import jcobs

MESSAGES = [
    b"",
    b"a",
    b"set speed\0" + b"99999",
    bytes(20),
    b"\x09\x00\x09\x09\x00",
    b"\x01" * 253 + b"\0" + b"\x02" * 254 + b"\0",
    b"\xff" * 600,
]


class Cut(Exception):
    pass


class Line(io.RawIOBase):
    """A raw file that takes as many bytes as it has room for, and then raises an exception."""

    def __init__(self, room=10**9):
        self.room, self.written = room, b""

    def writable(self):
        return True

    def write(self, data):
        count = min(7, self.room, len(data))
        self.room -= count
        self.written += bytes(data[:count])
        if count == 0:
            raise Cut
        return count


def received(written, sentinel):
    decoder = jcobs.Decoder(sentinel=sentinel)
    return decoder.feed(written)


@pytest.mark.parametrize("sentinel", [0, 9, 255])
@pytest.mark.parametrize("message", MESSAGES, ids=len)
def test_no_cut_makes_another_message(message, sentinel):
    """The frame is cut after each of its bytes; the next message is received, and no other one."""
    frame = jcobs.encode(message, sentinel=sentinel, terminated=True)
    for room in range(len(frame)):
        line = Line(room)
        writer = jcobs.FrameReader(line, sentinel=sentinel)
        with pytest.raises(Cut):
            writer.write(message)
        assert line.written == frame[:room]
        line.room = 10**9
        for _ in range(2):
            writer.write(b"stop")
        found = received(line.written, sentinel)
        assert found[-2:] == [jcobs.Message(b"stop")] * 2, room
        assert len(found) <= 3 and not any(isinstance(one, jcobs.Message) for one in found[:-2]), (room, found)


@pytest.mark.parametrize("sync", [False, True])
@pytest.mark.parametrize("size", [2, *range(236, 252)])
def test_no_two_cuts_make_another_message(sync, size):
    """The second cut may be in the bytes that end the first one, whose last block is then a full one."""
    first, second = b"\x05\0\0\x03ab", b"\x02" * size
    for rooms in itertools.product(range(9), range(16)):
        line = Line()
        writer = jcobs.FrameReader(line, sync=sync)
        line.room = rooms[0]
        for message, room in ((first, rooms[1]), (second, 10**9)):
            try:
                writer.write(message)
            except Cut:
                pass
            line.room = room
        writer.write(b"stop")
        found = received(line.written, 0)
        assert found[-1] == jcobs.Message(b"stop")
        made_up = {one.data for one in found if isinstance(one, jcobs.Message)} - {first, second, b"stop"}
        assert not made_up, (rooms, found)


def test_nothing_more_is_sent_after_messages_that_were_sent():
    line = io.BytesIO()
    writer = jcobs.FrameReader(line)
    for message in MESSAGES:
        writer.write(message)
    with pytest.raises(TypeError):
        writer.write("text")  # which isn't sent at all
    writer.write(b"stop")
    assert line.getvalue() == b"".join(jcobs.encode(message, terminated=True) for message in [*MESSAGES, b"stop"])


@pytest.mark.parametrize("sentinel", [0, 9])
@pytest.mark.parametrize("message", [*MESSAGES, b"erase\0all\0logs"], ids=len)
def test_sync(message, sentinel):
    """What another program has left on the line, wherever its frame was cut, is no message."""
    line = io.BytesIO()
    writer = jcobs.FrameReader(line, sentinel=sentinel, sync=True)
    writer.write(b"one")
    writer.write(b"two")
    frames = [jcobs.encode(message, sentinel=sentinel, terminated=True) for message in (b"one", b"two")]
    assert line.getvalue().endswith(b"".join(frames)) and len(line.getvalue()) < 300
    frame = jcobs.encode(message, sentinel=sentinel)
    for cut in range(len(frame)):
        found = received(frame[:cut] + line.getvalue(), sentinel)
        assert found[1:] == [jcobs.Message(b"one"), jcobs.Message(b"two")] and isinstance(found[0], jcobs.Broken)


def test_an_object_that_takes_a_part_at_a_time():
    class Other:
        room, written = 100, b""

        def write(self, data):
            count = min(3, self.room, len(data))
            self.room -= count
            self.written += data[:count]
            return count

    other = Other()
    writer = jcobs.FrameReader(other)
    writer.write(b"hello")
    assert other.written == b"\x06hello\0"
    other.room = 4
    with pytest.raises(BlockingIOError, match="took no more, with 3 bytes of the frame left"):
        writer.write(b"hello")


def drained(receive, count):
    """Reads until there are so many messages, and returns all outcomes."""
    decoder, found = jcobs.Decoder(), []
    while sum(isinstance(one, jcobs.Message) for one in found) < count:
        found += decoder.feed(receive())
    return found


def test_a_socket_whose_send_times_out():
    here, there = socket.socketpair()
    with here, there:
        here.settimeout(0.05)
        writer = jcobs.FrameReader(here)
        for _ in range(2):
            with pytest.raises(socket.timeout):
                writer.write(b"\x01\0" * 200_000)
        found = []
        reader = threading.Thread(target=lambda: found.extend(drained(lambda: there.recv(65536), 2)))
        reader.start()
        here.settimeout(60)
        writer.write(b"stop motor")
        writer.write(b"next")
        reader.join()
    assert found[-2:] == [jcobs.Message(b"stop motor"), jcobs.Message(b"next")]
    assert not any(isinstance(one, jcobs.Message) for one in found[:-2])


def test_a_port_whose_write_times_out(pair):
    port, end = pair
    port.write_timeout = 0.05
    writer = jcobs.FrameReader(port)
    with pytest.raises(OSError):
        writer.write(b"\x01\0" * 50_000)
    found = []
    reader = threading.Thread(target=lambda: found.extend(drained(lambda: end.read(65536), 2)))
    reader.start()
    port.write_timeout = None
    writer.write(b"stop motor")
    writer.write(b"next")
    reader.join()
    assert found[-2:] == [jcobs.Message(b"stop motor"), jcobs.Message(b"next")]
    assert not any(isinstance(one, jcobs.Message) for one in found[:-2])


def test_a_port_that_does_not_wait(pair):
    """As a raw file that doesn't wait: what the port takes at once is sent, then there is an error."""
    port, end = pair
    port.write_timeout = 0
    writer = jcobs.FrameReader(port)
    writer.write(b"small")
    assert jcobs.FrameReader(end).read(timeout=60) == jcobs.Message(b"small")
    begun = time.process_time()
    for _ in range(2):
        with pytest.raises(BlockingIOError, match="took no more, with .* bytes of the frame left"):
            writer.write(b"\x01\0" * 50_000)
    assert time.process_time() - begun < 2


def test_a_write_to_a_port_that_is_cancelled(pair):
    port, end = pair
    writer = jcobs.FrameReader(port)
    timer = threading.Timer(0.2, port.cancel_write)
    timer.start()
    with pytest.raises(OSError, match="the write was cancelled, with .* bytes of the frame left"):
        writer.write(b"\x01\0" * 50_000)
    timer.join()
    found = []
    reader = threading.Thread(target=lambda: found.extend(drained(lambda: end.read(65536), 1)))
    reader.start()
    writer.write(b"stop motor")
    reader.join()
    assert found[-1] == jcobs.Message(b"stop motor") and len(found) <= 2


def test_a_write_to_a_port_does_not_wait_for_the_wire(pair, monkeypatch):
    """pyserial's flush waits until the bytes are sent, whatever the timeouts are: for ever if the device holds them up."""
    port, end = pair
    monkeypatch.setattr(type(port), "flush", lambda self: pytest.fail("it waits for the wire"))
    jcobs.FrameReader(port).write(b"hello")
    assert jcobs.FrameReader(end).read(timeout=60) == jcobs.Message(b"hello")


def test_an_asyncio_write_that_is_cancelled_sends_all():
    async def run():
        found, done = [], asyncio.get_running_loop().create_future()
        go_on = asyncio.Event()

        async def serve(reader, writer):
            await go_on.wait()
            async for outcome in jcobs.AsyncFrameReader(reader, max_length=20_000_000):
                found.append(outcome)
            writer.close()
            done.set_result(None)

        server = await asyncio.start_server(serve, "127.0.0.1", 0)
        reader, writer = await asyncio.open_connection(*server.sockets[0].getsockname()[:2])
        device = jcobs.AsyncFrameReader(reader, writer=writer, sync=True)
        message = bytes(range(256)) * 60_000
        with pytest.raises(asyncio.TimeoutError):  # it waits for the receiver, which doesn't read yet
            await asyncio.wait_for(device.write(message), 0.2)
        go_on.set()
        await device.write(b"next")
        await device.close()
        await asyncio.wait_for(done, 120)
        server.close()
        return isinstance(found[0], jcobs.Broken) and found[1:] == [jcobs.Message(message), jcobs.Message(b"next")]

    assert asyncio.run(run())
