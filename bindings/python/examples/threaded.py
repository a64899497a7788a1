"""Receives frames in a thread of pyserial, which serial.threaded.ReaderThread(port, lambda: Frames(received)) makes."""

from typing import Callable, Union

import serial.threaded

import jcobs

Outcome = Union[jcobs.Message, jcobs.Broken, jcobs.TooLong]


class Frames(serial.threaded.Protocol):
    """Passes the outcome of each frame to `received`, in the thread that reads. `send` sends a message."""

    def __init__(self, received: Callable[[Outcome], None]) -> None:
        self._decoder = jcobs.Decoder()
        self._received = received

    def connection_made(self, transport: serial.threaded.ReaderThread) -> None:
        self._transport = transport

    def data_received(self, data: bytes) -> None:
        for outcome in self._decoder.feed(data):
            self._received(outcome)

    def send(self, message: bytes) -> None:
        self._transport.write(jcobs.encode(message, terminated=True))
