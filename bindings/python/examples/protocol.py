"""Receives frames with an asyncio.Protocol, over a socket, a pipe, or a serial port with pyserial-asyncio.

To send, call `transport.write(jcobs.encode(message, terminated=True))`.
"""

import asyncio
from typing import Callable, Union

import jcobs

Outcome = Union[jcobs.Message, jcobs.Broken, jcobs.TooLong]


class Frames(asyncio.Protocol):
    """Passes the outcome of each frame to `received`."""

    def __init__(self, received: Callable[[Outcome], None]) -> None:
        self._decoder = jcobs.Decoder()
        self._received = received

    def data_received(self, data: bytes) -> None:
        for outcome in self._decoder.feed(data):
            self._received(outcome)
