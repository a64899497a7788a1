"""Receives frames from a stream of trio: a socket, a pipe, or a port with trio.lowlevel.FdStream.

The reader keeps the bytes of a frame that has begun, so make one reader for each stream. If `receive` is cancelled,
nothing is lost:

    reader = jcobs.AsyncFrameReader(stream)
    with trio.move_on_after(5):
        await receive(reader, received)
    await reader.write(b"hello")
    await receive(reader, received)
"""

from typing import Callable, Union

import jcobs

Outcome = Union[jcobs.Message, jcobs.Broken, jcobs.TooLong]


async def receive(reader: jcobs.AsyncFrameReader, received: Callable[[Outcome], None]) -> None:
    """Passes the outcome of each frame to `received`, until the stream ends."""
    async for outcome in reader:
        received(outcome)
