"""Reads frames from the streams of asyncio, trio and anyio, and sends messages to them."""

from __future__ import annotations

import importlib
import time
from typing import TYPE_CHECKING, Any, AsyncIterator, Iterator, Optional, Protocol, Union

from jcobs._files import CHUNK
from jcobs._readers import LONGEST_DISCARD, Stream, reply_of, waits
from jcobs._streams import Message, Outcome, encode

if TYPE_CHECKING:
    from asyncio import StreamReader, StreamWriter
    from types import TracebackType
    from typing import Type

    from _typeshed import ReadableBuffer

# The shortest time in seconds to wait for bytes of a stream of trio or anyio. These libraries check for a cancellation
# before they check for bytes, so with a wait of 0 they would return no bytes.
SHORTEST = 0.01


class ReceivesSome(Protocol):
    """A stream of trio."""

    async def receive_some(self, max_bytes: Any = None) -> Any:
        """Returns at most `max_bytes` bytes, or no bytes at the end of the stream."""


class Receives(Protocol):
    """A stream of anyio."""

    async def receive(self, max_bytes: int = CHUNK) -> bytes:
        """Returns at most `max_bytes` bytes, or raises `anyio.EndOfStream`."""


class Use:
    """A lock for the calls of one thread's tasks. A call never waits for it: if another call has it, an error is raised."""

    def __init__(self, what: str) -> None:
        self._what = what
        self._taken = False

    def __enter__(self) -> None:
        if self._taken:
            raise RuntimeError(f"the {self._what} is in use by another call")
        self._taken = True

    def __exit__(self, *error: object) -> None:
        self._taken = False


class AsyncFrameReader(Stream):
    """Reads frames from a stream of asyncio, trio or anyio, and sends messages.

    `read` returns the outcome of one frame: a `Message`, `Broken` or `TooLong`. `max_length` is the length in bytes of
    the longest message that can be read. `async for` yields each outcome as soon as its frame ends, until the stream
    ends. If a read is cancelled, for example by a timeout, no byte is lost, and the next call continues where the
    cancelled read stopped.

    The stream may be an `asyncio.StreamReader`, or an object with the method `receive_some` (such as a stream of trio),
    or an object with the method `receive` (such as a stream of anyio). For asyncio, `writer` is the `StreamWriter`. For
    trio and anyio, messages are sent with the method `send_all` or `send` of `writer`, or of the stream if no `writer`
    is passed.

    If `sync` is true, the bytes that end a cut frame are sent before the first frame, as after a `write` that failed. So
    what an earlier sender left on the line, or noise, is neither taken for a message nor joined to the first frame. The
    receiver reports one `Broken`.

    A reader is for the tasks of one thread. Calls of `request` wait for each other. If two other calls read at the same
    time, or a request and another call, the second one raises RuntimeError. If two tasks write at the same time, an
    asyncio writer sends both frames whole. A stream of trio or anyio sends the first frame, and the second call raises
    RuntimeError. A call that raises this error has read and sent nothing.

    If a signal handler raises an exception during a read, bytes may be lost. The reader doesn't notice this loss, and
    may return a wrong message. After such an exception, open the stream again, and make a new reader.

    Raises TypeError if `stream` has none of the methods `receive_some`, `receive` and `read`.

    >>> import asyncio
    >>> async def show() -> None:
    ...     stream = asyncio.StreamReader()
    ...     stream.feed_data(b"\\x03hi\\x00\\x06hello\\x00")
    ...     stream.feed_eof()
    ...     reader = jcobs.AsyncFrameReader(stream)
    ...     print(await reader.read(timeout=0.5))
    ...     async for outcome in reader:
    ...         print(outcome)
    >>> asyncio.run(show())
    Message(b'hi')
    Message(b'hello')
    """

    def __init__(
        self,
        stream: Union[StreamReader, ReceivesSome, Receives],
        max_length: int = 65536,
        sentinel: int = 0,
        *,
        writer: Union[StreamWriter, Any, None] = None,
        sync: bool = False,
    ) -> None:
        names = [name for name in ("receive_some", "receive", "read") if hasattr(stream, name)]
        if not names:
            raise TypeError(f"stream must be one of asyncio, trio or anyio, not {type(stream).__name__}")
        super().__init__(max_length, sentinel, sync)
        self._stream: Any = stream
        self._name = names[0]
        self._writer: Any = stream if writer is None and self._name != "read" else writer
        self._reading, self._sending = Use("reader"), Use("writer")
        self._requests: Any = None  # the lock of the library, which the first request makes

    def __repr__(self) -> str:
        return f"<{type(self).__name__} of {self._stream!r}>"

    async def __aenter__(self) -> AsyncFrameReader:
        return self

    async def __aexit__(
        self, kind: Optional[Type[BaseException]], error: Optional[BaseException], trace: Optional[TracebackType]
    ) -> None:
        await self.close()

    async def close(self) -> None:
        """Closes the writer, if there is one, and the stream, if it has `aclose`.

        An `async with` statement calls this method at its end.
        """
        if hasattr(self._writer, "aclose"):
            await self._writer.aclose()
        elif self._writer is not None:
            self._writer.close()
            await self._writer.wait_closed()
        if self._stream is not self._writer and hasattr(self._stream, "aclose"):
            await self._stream.aclose()

    async def _receive(self) -> bytes:
        """Returns the bytes that have arrived. If no bytes have arrived, waits until some arrive."""
        if self._name != "receive":
            chunk: bytes = await getattr(self._stream, self._name)(CHUNK)
            return chunk
        try:
            received: bytes = await self._stream.receive(CHUNK)
            return received
        except self._library().EndOfStream:
            return b""

    def _library(self) -> Any:
        """Returns the module of the library that the stream belongs to."""
        return importlib.import_module({"read": "asyncio", "receive_some": "trio", "receive": "anyio"}[self._name])

    async def _take(self) -> int:
        """Reads once, and returns the number of bytes, which is 0 at the end of the stream.

        Nothing is awaited between the read and the decoder.
        """
        return self._decoder.push(await self._receive())

    async def _take_within(self, lefts: Iterator[Optional[float]]) -> Optional[int]:
        """Reads once, like `_take`, but returns None if no bytes arrive in time."""
        for left in lefts:
            if left is None:
                return await self._take()
            if self._name == "read":
                return await self._take_by_a_task(left)
            with self._library().move_on_after(max(left, SHORTEST)):
                return await self._take()
            break
        return None

    async def _take_by_a_task(self, timeout: float) -> Optional[int]:
        """Implements `_take_within` for asyncio.

        `asyncio.wait_for` isn't used, because in Python 3.11 and older versions it can swallow a cancellation.
        """
        import asyncio

        taking = asyncio.ensure_future(self._take())
        try:
            await asyncio.wait({taking}, timeout=timeout)
        finally:
            if not taking.done():
                taking.cancel()
                await asyncio.wait({taking})
        return None if taking.cancelled() else taking.result()

    async def read(self, timeout: Optional[float] = None) -> Optional[Outcome]:
        """Returns the outcome of the next frame, or None if this frame hasn't ended after `timeout` seconds.

        Raises EOFError at the end of the stream, ValueError if `timeout` is negative, and TypeError if `timeout` isn't
        a number.
        """
        lefts = waits(timeout)
        with self._reading:
            return await self._next(lefts)

    async def _next(self, lefts: Iterator[Optional[float]]) -> Optional[Outcome]:
        while (outcome := self._decoder.take()) is None:
            count = await self._take_within(lefts)
            if not count:
                self._nothing(count)
                return None
        return outcome

    def __aiter__(self) -> AsyncFrameReader:
        return self

    async def __anext__(self) -> Outcome:
        with self._reading:
            while (outcome := self._decoder.take()) is None:
                if not await self._take():
                    raise StopAsyncIteration
            return outcome

    def messages(self) -> AsyncIterator[bytes]:
        """Yields the bytes of each message, and skips frames that are broken or too long."""
        return AsyncMessages(self)

    async def discard(self) -> None:
        """Drops the outcomes that haven't been read, and all bytes that have arrived.

        If the bytes end inside a frame, the rest of this frame is dropped too, as far as the next sentinel, whenever it
        arrives. If bytes are still arriving after one second, this call stops.
        """
        with self._reading:
            await self._discard()

    async def _discard(self) -> None:
        self._decoder.discard()
        end = time.monotonic() + LONGEST_DISCARD
        while await self._take_within(waits(0)) and time.monotonic() < end:
            self._decoder.discard()
        self._decoder.discard()

    async def write(self, message: ReadableBuffer) -> None:
        """Sends a message as a frame, and the sentinel after the frame.

        For asyncio, raises TypeError if there is no `writer`. For a stream of trio or anyio that can only receive,
        raises AttributeError if there is no `writer`.

        If this call is cancelled or fails, a stream of trio or anyio may have sent a part of the frame. In this case
        the next write first sends bytes that end the cut frame. For the cut frame, the receiver reports at most one
        `Broken` or `TooLong`.
        """
        if self._writer is None:
            raise TypeError("to write, pass the stream's writer: AsyncFrameReader(stream, writer=writer)")
        frame = encode(message, sentinel=self._sentinel, terminated=True)
        if not hasattr(self._writer, "drain"):
            send = getattr(self._writer, "send_all" if hasattr(self._writer, "send_all") else "send")
            with self._sending:
                lead, self._lead = self._lead, self._closing
                await send(lead + frame)
                self._lead = b""
            return
        lead, self._lead = self._lead, self._closing
        self._writer.write(lead + frame)
        self._lead = b""  # the writer has the whole frame, and sends it even if this call is cancelled
        await self._writer.drain()

    async def request(self, message: ReadableBuffer, timeout: Optional[float], *, discard: bool = True) -> bytes:
        """Sends a message, and returns the reply, which is the next message that is read.

        This call first calls `discard()`, unless `discard` is false. So what has arrived before, such as a late reply
        to an earlier request, isn't mistaken for the reply. If only a part of a late reply has arrived, its rest isn't
        mistaken for the reply either.

        Raises TimeoutError if no reply has ended `timeout` seconds after the message was sent, `DecodeError` if the
        reply is broken or too long, and EOFError at the end of the stream. `timeout` may be None; then the call waits
        without a limit. This call also raises the errors of `read` and `write`.

        If several tasks call `request`, each one waits until the requests before it have ended, in their order. The
        time of this wait isn't part of `timeout`.
        """
        lefts = waits(timeout)
        if self._requests is None:
            self._requests = self._library().Lock()
        async with self._requests:
            with self._reading:
                if discard:
                    await self._discard()
                await self.write(message)
                return reply_of(await self._next(lefts))


class AsyncMessages:
    """An iterator over the messages of a reader. Unlike a generator, it can be used again after a cancellation."""

    def __init__(self, reader: AsyncFrameReader) -> None:
        self._reader = reader

    def __aiter__(self) -> AsyncMessages:
        return self

    async def __anext__(self) -> bytes:
        while True:
            outcome = await self._reader.__anext__()
            if isinstance(outcome, Message):
                return outcome.data
