"""The examples, over pseudo-terminals."""

import asyncio
import os
import sys
import threading
from pathlib import Path

import pytest

import jcobs

sys.path.append(str(Path(__file__).resolve().parent.parent / "examples"))
STREAM = b"\x03hi\0\x05a\0\x06hello\0"
OUTCOMES = [jcobs.Message(b"hi"), jcobs.Broken(b"a"), jcobs.Message(b"hello")]


def test_asyncio_protocol(terminals):
    from protocol import Frames

    device, end = terminals

    async def run():
        found, done = [], asyncio.get_running_loop().create_future()

        def received(outcome):
            found.append(outcome)
            if len(found) == len(OUTCOMES):
                done.set_result(found)

        with os.fdopen(os.dup(device), "rb", buffering=0) as file:
            transport, _ = await asyncio.get_running_loop().connect_read_pipe(lambda: Frames(received), file)
            for at in range(len(STREAM)):
                end.write(STREAM[at : at + 1])
                await asyncio.sleep(0)
            assert await asyncio.wait_for(done, 60) == OUTCOMES
            transport.close()

    asyncio.run(run())


def test_serial_threaded(pair):
    from threaded import Frames, serial

    port, end = pair
    found, done = [], threading.Event()

    def received(outcome):
        found.append(outcome)
        if len(found) == len(OUTCOMES):
            done.set()

    reader = serial.threaded.ReaderThread(port, lambda: Frames(received))
    reader.start()
    try:
        _, frames = reader.connect()
        frames.send(b"status?")
        assert jcobs.FrameReader(end).read(timeout=60) == jcobs.Message(b"status?")
        end.write(STREAM)
        assert done.wait(60) and found == OUTCOMES
    finally:
        reader.stop()


def test_trio(terminals):
    """The call is cancelled again and again, and made once more: it goes on in the middle of a frame."""
    trio = pytest.importorskip("trio")
    from with_trio import receive

    device, end = terminals
    found = []

    async def run():
        with trio.fail_after(1200):
            async with jcobs.AsyncFrameReader(trio.lowlevel.FdStream(os.dup(device))) as reader:
                for at in range(len(STREAM)):
                    end.write(STREAM[at : at + 1])
                    with trio.move_on_after(0.02):
                        await receive(reader, found.append)
                while len(found) < len(OUTCOMES):
                    with trio.move_on_after(0.02):
                        await receive(reader, found.append)

    trio.run(run)
    assert found == OUTCOMES
