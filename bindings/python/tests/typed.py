"""Uses of the package whose types mypy checks."""

import asyncio
import io
import pathlib
import socket
import subprocess
from array import array
from typing import List, Optional, Union

import jcobs
from jcobs import compat

Outcome = Union[jcobs.Message, jcobs.Broken, jcobs.TooLong]


def sizes(outcomes: List[Outcome]) -> int:
    total = 0
    for outcome in outcomes:
        if isinstance(outcome, jcobs.Message):
            total += len(outcome.data)
        elif isinstance(outcome, jcobs.Broken):
            total -= len(outcome.data)
        else:
            only: jcobs.TooLong = outcome
            total += len(only.data)
    return total


def whole(data: Union[bytes, bytearray, memoryview]) -> bytes:
    frame: bytes = jcobs.encode(data, sentinel=1, terminated=True)
    try:
        return jcobs.decode(array("B", frame), sentinel=1)
    except jcobs.DecodeError as error:
        kind: str = error.kind
        return error.data + kind.encode()


def coders() -> int:
    encoder = jcobs.Encoder(max_length=100)
    encoder.feed(b"a")
    decoder = jcobs.Decoder(100, sentinel=0)
    found = decoder.feed(encoder.finish(terminated=True))
    decoder.reset()
    unfinished: bool = decoder.unfinished
    return sizes(found) + unfinished + jcobs.max_frame_length(5) + len(compat.decode(compat.encode(b"")))


def readers() -> List[bytes]:
    reader = jcobs.FrameReader(io.BytesIO(b"\x03hi\0"))
    one: Optional[Outcome] = reader.read(timeout=0.5)
    reader.write(next(iter(reader)).data if one is None else one.data)
    return [*(outcome.data for outcome in reader), *reader.messages()]


def requests(sock: socket.socket) -> bytes:
    with jcobs.FrameReader(sock, sync=True) as device:
        try:
            reply: bytes = device.request(b"ask", timeout=0.5, discard=False)
        except jcobs.DecodeError as error:
            return error.data if error.kind == "too_long" else b""
        device.discard()
        for message in jcobs.frames(reply, max_length=5).messages():
            reply += message
        outcome = next(iter(jcobs.frames(io.BytesIO(reply))))
        return bytes(outcome) * len(outcome) if isinstance(outcome, jcobs.Message) else outcome.data


def ends(sock: socket.socket, path: pathlib.Path) -> List[jcobs.FrameReader]:
    pipe = subprocess.Popen(["true"], stdout=subprocess.PIPE).stdout
    assert pipe is not None
    return [jcobs.FrameReader(sock), jcobs.FrameReader(path.open("rb")), jcobs.FrameReader(pipe)]


async def stream_reader(stream: asyncio.StreamReader, writer: asyncio.StreamWriter) -> List[bytes]:
    reader = jcobs.AsyncFrameReader(stream, writer=writer)
    await reader.write(b"hi")
    await reader.discard()
    reply: bytes = await reader.request(b"ask", timeout=None)
    await reader.write(reply)
    one: Optional[Outcome] = await reader.read(timeout=0.5)
    found = [outcome.data async for outcome in reader] + [message async for message in reader.messages()]
    return found if one is None else [one.data, *found]


if jcobs.frame_kind(b"") == "no such kind":  # type: ignore[comparison-overlap]
    raise AssertionError
backend: str = jcobs.backend
