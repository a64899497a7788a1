"""Reads frames from serial ports, sockets, pipes and files, and sends messages to them."""

from __future__ import annotations

import io
import itertools
import operator
import threading
import time
from typing import TYPE_CHECKING, Any, Iterator, Optional, Union

from jcobs._backend import core
from jcobs._files import Readable, Receivable, read_of, write_of
from jcobs._streams import CLASSES, Broken, Coder, DecodeError, Message, Outcome, encode

if TYPE_CHECKING:
    from types import TracebackType
    from typing import Type

    from _typeshed import ReadableBuffer

# The longest wait in seconds that is passed to the system. Every system accepts a wait of this length.
LONGEST = 2_000_000.0
# After this many seconds `discard` stops, even if bytes are still arriving.
LONGEST_DISCARD = 1.0


def closing(sentinel: int) -> bytes:
    """Returns bytes that end a frame that was cut off, so that every decoder reports this frame as damaged.

    A single sentinel isn't enough: if a frame was cut off between two of its blocks, the blocks that were sent are the
    frame of a shorter message. At most 254 bytes of a block can be missing. The first of the returned bytes complete
    that block. The next byte is the code 255. Fewer than 254 bytes follow it, so the frame is broken. If no byte of a
    block is missing, the first byte is a block that has only its code, and the next one is the code 255.
    """
    return bytes([1 ^ sentinel]) + bytes([255 ^ sentinel]) * 254 + bytes([sentinel])


def reply_of(outcome: Optional[Outcome]) -> bytes:
    """Returns the message of a reply. Raises an error if there is no reply, or if the reply is broken or too long."""
    if outcome is None:
        raise TimeoutError("no reply came in time")
    if not isinstance(outcome, Message):
        raise DecodeError("broken" if isinstance(outcome, Broken) else "too_long", outcome.data)
    return outcome.data


def until(timeout: float) -> Iterator[float]:
    """Yields how many seconds each wait may take, as long as any are left. The time begins with the first wait."""
    end = time.monotonic() + timeout
    yield timeout if timeout < LONGEST else LONGEST
    while (left := end - time.monotonic()) > 0:
        yield left if left < LONGEST else LONGEST


def waits(timeout: Optional[float]) -> Iterator[Optional[float]]:
    """Returns an iterator over how many seconds each wait of a call may take. None means the file's own timeout."""
    if timeout is None:
        return itertools.repeat(None)
    if not hasattr(timeout, "__float__"):
        raise TypeError(f"timeout must be a number of seconds or None, not {type(timeout).__name__}")
    if not timeout >= 0:
        raise ValueError("timeout must not be negative")
    return until(float(timeout))


class Stream(Coder):
    """The state of both directions of a stream: a decoder, and what goes before the next frame."""

    def __init__(self, max_length: int, sentinel: int, sync: bool) -> None:
        self._decoder = core.Decoder(max_length, sentinel, CLASSES)
        self._sentinel = operator.index(sentinel)
        self._closing = closing(self._sentinel)
        # What goes before the next frame. While a frame is sent, this is `_closing`: it may be cut.
        self._lead = self._closing if sync else b""

    @property
    def unfinished(self) -> bool:
        """Whether a frame has begun but not ended.

        At the end of a file, the value says whether the last frame was cut off. Raises RuntimeError in a thread that
        doesn't read, while another one reads.
        """
        return self._decoder.unfinished

    def _nothing(self, count: Optional[int]) -> None:
        """Raises EOFError if a read has returned 0 bytes. If it has returned None, its timeout has passed."""
        if count == 0:
            raise EOFError("the stream ended inside a frame" if self.unfinished else "the stream ended")


class Frames(Stream):
    """The outcomes of the frames in a file, in their order. Each loop goes on where the one before has stopped."""

    def __init__(self, file: Union[Readable, Receivable], max_length: int, sentinel: int, sync: bool = False) -> None:
        self._read = read_of(file)
        self._file: Any = file
        super().__init__(max_length, sentinel, sync)

    def __repr__(self) -> str:
        name = getattr(self._file, "name", None)
        return f"<{type(self).__name__} of {self._file if name is None else name!r}>"

    def _take(self, lefts: Iterator[Optional[float]]) -> Optional[int]:
        """Reads once, unless there are bytes that aren't decoded yet.

        Returns the number of bytes that were read, 0 at the end of the stream, or None at a timeout.
        """
        if self._decoder.pending:
            return 1
        for left in lefts:
            return self._read(self._file, left, self._decoder.receive)
        return None

    def __iter__(self) -> Iterator[Outcome]:
        while True:
            yield from self._decoder
            if not self._decoder.alone("reader", self._take, waits(None)):
                return

    def messages(self) -> Iterator[bytes]:
        """Yields the bytes of each message, and skips frames that are broken or too long.

        >>> import io
        >>> list(jcobs.FrameReader(io.BytesIO(b"\\x03hi\\x00\\x05a\\x00\\x06hello\\x00")).messages())
        [b'hi', b'hello']
        """
        for outcome in self:
            if outcome.__class__ is Message:
                yield outcome.data


class FrameReader(Frames):
    """Reads frames from a serial port, a socket, a pipe or a file, and sends messages to it.

    `read` returns the outcome of one frame: a `Message`, `Broken` or `TooLong`. `max_length` is the length in bytes of
    the longest message that can be read. Iterating over the reader yields each outcome as soon as its frame ends, until
    the stream ends, a timeout of the port or socket passes, or a non-blocking file or socket has no bytes. In the last
    two cases, reading can continue. No byte is lost if the file's own read raises an OSError.

    Raises TypeError for a text file, and for an object that has none of `in_waiting`, `recv`, `read` and `write`.

    A signal handler may raise an exception during a call, as the handler for Ctrl-C does. With the extension on CPython
    3.11 or later, nothing of a socket, a pipe or a file is lost. If the object's `read` or `recv` is written in Python,
    as in pyserial, in an SSL socket and in a gzip file, bytes may be lost. Then the reader returns one `Broken` with
    empty `data` instead of the frames that are damaged by the loss. The exception must not be an OSError for that, as
    an OSError of the read itself loses nothing. In plain Python and on an older CPython, the reader
    may lose outcomes, or refuse each later call, but it makes up no message, and returns none twice.

    If `sync` is true, the bytes that end a cut frame are sent before the first frame, as after a `write` that failed. So
    what an earlier sender left on the line, or noise, is neither taken for a message nor joined to the first frame. The
    receiver reports one `Broken`.

    One thread may read while another thread writes. While a call that reads is running, other calls that read raise
    RuntimeError. While a call that writes is running, other calls that write raise RuntimeError too. Calls of `request`
    wait for each other. A call that raises this error has read and sent nothing.

    >>> import io
    >>> reader = jcobs.FrameReader(io.BytesIO(b"\\x03hi\\x00\\x06hello\\x00\\x05by"))
    >>> reader.read(timeout=0.5)
    Message(b'hi')
    >>> [outcome.data for outcome in reader]
    [b'hello']
    >>> reader.unfinished
    True

    A reader never waits for further bytes if some have arrived. An object with `in_waiting` is a serial port: the
    reader calls `read` for `in_waiting` bytes, or for 1 byte if none are waiting. Empty bytes from a port mean that its
    timeout has passed, and a port must not return None. For a socket the reader calls `recv`, for a buffered file
    `read1`, and for any other object `read`, each with 65536 as the size. Each of these three methods must return the
    bytes that have arrived, or None if no bytes have arrived, or empty bytes at the end of the input.
    """

    def __init__(
        self,
        file: Union[Readable, Receivable],
        max_length: int = 65536,
        sentinel: int = 0,
        *,
        sync: bool = False,
    ) -> None:
        super().__init__(file, max_length, sentinel, sync)
        self._write_all = write_of(file)
        self._requests = threading.RLock()

    def __enter__(self) -> FrameReader:
        return self

    def __exit__(
        self, kind: Optional[Type[BaseException]], error: Optional[BaseException], trace: Optional[TracebackType]
    ) -> None:
        self.close()

    def close(self) -> None:
        """Closes the port, the socket or the file. A `with` statement calls this method at its end."""
        self._file.close()

    def read(self, timeout: Optional[float] = None) -> Optional[Outcome]:
        """Returns the outcome of the next frame, or None if this frame hasn't ended after `timeout` seconds.

        If the call returns None, the next call continues where this call stopped. If `timeout` is 0, the call reads at
        most once, so it takes at most 65536 bytes.

        Raises EOFError at the end of the stream, ValueError if `timeout` is negative, and TypeError if `timeout` isn't
        a number. With `timeout`, an object that isn't a serial port must have the method `fileno`. Otherwise the call
        raises TypeError.

        Without `timeout`, the call waits as long as the port, socket or file itself waits in a read. In this case the
        call returns None if the timeout of the port or socket has passed, or if a non-blocking file or socket has no
        bytes.

        With `timeout`, the call doesn't notice bytes that are in the buffer of a buffered file, for example after a
        `readline`. Open such a file with `buffering=0`, or pass these bytes to a `Decoder`. If a socket has a timeout,
        make the reader from the socket itself, not from the file that its `makefile` returns. At a timeout this file
        raises TimeoutError, and after that it can't be read any more.

        On Windows, `timeout` works only for serial ports and sockets.

        >>> import io
        >>> reader = jcobs.FrameReader(io.BytesIO(b""))
        >>> reader.read()
        Traceback (most recent call last):
            ...
        EOFError: the stream ended
        """
        lefts = waits(timeout)
        while True:
            for outcome in self._decoder:
                return outcome
            count = self._decoder.alone("reader", self._take, lefts)
            if not count:
                self._nothing(count)
                return None

    def discard(self) -> None:
        """Drops the outcomes that haven't been read, and all bytes that have arrived.

        This call doesn't wait for bytes. If the bytes end inside a frame, the rest of this frame is dropped too, as far
        as the next sentinel, whenever it arrives. If bytes are still arriving after one second, this call stops.

        All bytes of a file in memory or on a disk count as bytes that have arrived. Like `read` with `timeout`, this
        call raises TypeError if the object isn't a serial port and has no `fileno`.

        >>> import io
        >>> reader = jcobs.FrameReader(io.BytesIO(b"\\x03hi\\x00\\x06hello\\x00\\x05by"))
        >>> reader.discard()
        >>> reader.read()
        Traceback (most recent call last):
            ...
        EOFError: the stream ended inside a frame
        """
        self._decoder.alone("reader", self._discard)

    def _discard(self) -> None:
        end = time.monotonic() + LONGEST_DISCARD
        while self._take(waits(0)) and time.monotonic() < end:
            self._decoder.discard()
        self._decoder.discard()

    def write(self, message: ReadableBuffer) -> None:
        """Sends a message as a frame, and the sentinel after the frame.

        If this call raises an exception, or a signal handler raises one during this call, a part of the frame may have
        been sent. In this case the next write first sends bytes that end the cut frame. For the cut frame, the receiver
        reports at most one `Broken` or `TooLong`. A port may still be sending when this call returns: the port's own
        `flush` waits until everything is sent.

        >>> import io
        >>> file = io.BytesIO()
        >>> jcobs.FrameReader(file).write(b"hello")
        >>> file.getvalue()
        b'\\x06hello\\x00'
        """
        frame = encode(message, sentinel=self._sentinel, terminated=True)
        self._decoder.alone("writer", self._write, frame)

    def _write(self, frame: bytes) -> None:
        lead, self._lead = self._lead, self._closing
        self._write_all(lead + frame)
        self._lead = b""

    def request(self, message: ReadableBuffer, timeout: Optional[float], *, discard: bool = True) -> bytes:
        """Sends a message, and returns the reply, which is the next message that is read.

        This call first calls `discard()`, unless `discard` is false. So what has arrived before, such as a late reply
        to an earlier request, isn't mistaken for the reply. If only a part of a late reply has arrived, its rest isn't
        mistaken for the reply either. If the late reply begins after this message is sent, it is mistaken for the
        reply, because a frame doesn't say which request it replies to. If that can happen, number the requests.

        Raises TimeoutError if no reply has ended `timeout` seconds after the message was sent, `DecodeError` if the
        reply is broken or too long, and EOFError at the end of the stream. `timeout` may be None, as for `read`. This
        call also raises the errors of `read` and `write`.

        If several threads call `request`, each one waits until the requests before it have ended. The time of this
        wait isn't part of `timeout`.
        """
        lefts = waits(timeout)
        with self._requests:
            return self._decoder.alone("reader", self._request, message, lefts, discard)

    def _request(self, message: ReadableBuffer, lefts: Iterator[Optional[float]], discard: bool) -> bytes:
        if discard:
            self._discard()
        self.write(message)
        while (reply := self._decoder.take()) is None:
            count = self._take(lefts)
            if not count:
                self._nothing(count)
                break
        return reply_of(reply)


def frames(source: Union[Readable, Receivable, ReadableBuffer], max_length: int = 65536, sentinel: int = 0) -> Frames:
    """Returns an iterable over the outcomes of the frames in a bytes-like object, or in a binary file such as a log.

    The bytes are read and decoded in chunks of up to 65536 bytes, as the outcomes are needed. The iterator is a
    `FrameReader`. Its `messages` method skips frames that are broken or too long. At the end of the iteration, its
    `unfinished` property says whether the last frame was cut off. An mmap is read as a file, from its position on.

    Raises TypeError if `source` is neither a contiguous bytes-like object nor an object that a `FrameReader` can read.

    >>> for outcome in jcobs.frames(b"\\x03hi\\x00\\x05a\\x00\\x06hello\\x00"):
    ...     print(outcome)
    Message(b'hi')
    Broken(b'a')
    Message(b'hello')
    """
    if not hasattr(source, "read") and not hasattr(source, "recv"):
        try:
            source = io.BytesIO(source if isinstance(source, bytes) else memoryview(source).cast("B"))
        except TypeError:
            kind = type(source).__name__
            raise TypeError(f"source must be a contiguous bytes-like object or a binary file, not {kind}") from None
    return Frames(source, max_length, sentinel)
