"""The calls of the extension `_core`, written in Python, for use without the extension.

If the sentinel isn't 0, each byte of a frame is XORed with the sentinel. So the loops handle only the sentinel 0.
"""

from __future__ import annotations

import functools
import operator
import sys
import threading
from collections import deque
from typing import TYPE_CHECKING, Any, Callable, Deque, List, Optional, Tuple, Type, TypeVar

from jcobs import __version__ as version

if TYPE_CHECKING:
    from _typeshed import ReadableBuffer

    from jcobs._streams import FrameKind

_T = TypeVar("_T")

__all__ = ["Decoder", "Encoder", "Outcome", "backend", "decode", "encode", "frame_kind", "max_frame_length", "version"]
backend = "python"
FULL = 254


def bytes_of(data: ReadableBuffer, name: str) -> bytes:
    """Returns an argument as a bytes object. If the argument is of another type, its bytes are copied."""
    if isinstance(data, bytes):
        return data
    if isinstance(data, bytearray):
        return bytes(data)
    with memoryview(data) as view:
        if not view.c_contiguous:
            raise BufferError(f"{name} is not contiguous; pass a copy, bytes({name})")
        return view.tobytes()


def sentinel_of(number: Any) -> int:
    sentinel = operator.index(number)
    if not 0 <= sentinel <= 255:
        raise ValueError("sentinel must be in range(0, 256)")
    return sentinel


def length_of(number: Any, name: str) -> int:
    length = operator.index(number)
    if length < 0:
        raise ValueError(f"{name} must not be negative")
    if length > sys.maxsize:
        raise OverflowError(f"{name} must not be more than {sys.maxsize}")
    return length


@functools.lru_cache(256)
def table(sentinel: int) -> bytes:
    return bytes(byte ^ sentinel for byte in range(256))


def xored(data: bytes, sentinel: int) -> bytes:
    return data.translate(table(sentinel)) if sentinel else data


def frame_of(message: bytes) -> bytes:
    """Returns the frame of a message for the sentinel 0."""
    frame, run, full = bytearray(), b"", 0
    for run in message.split(b"\0"):
        full = len(run) - len(run) % FULL
        for at in range(0, full, FULL):
            frame.append(255)
            frame += run[at : at + FULL]
        frame.append(len(run) - full + 1)
        frame += run[full:]
    if run and full == len(run):
        del frame[-1]  # if the message ends in a full block, no block follows it
    return bytes(frame)


def output(piece: bytes) -> Tuple[bool, bytes]:
    """Returns whether a piece breaks off inside a block, and the bytes that the piece decodes to."""
    data, at, size = bytearray(), 0, len(piece)
    while at < size:
        code = piece[at]
        data += piece[at + 1 : at + code]
        at += code
        if code <= FULL and at < size:
            data.append(0)
    return at > size, bytes(data)


def encode(data: ReadableBuffer, *, sentinel: int = 0, terminated: bool = False) -> bytes:
    """Encodes a message, and returns its frame. If `terminated` is true, a sentinel follows the frame.

    >>> jcobs.encode(b"hello")
    b'\\x06hello'
    >>> jcobs.encode(b"hello", sentinel=10, terminated=True)
    b'\\x0cboffe\\n'
    """
    sentinel = sentinel_of(sentinel)
    return xored(frame_of(bytes_of(data, "data")) + b"\0" * bool(terminated), sentinel)


def decode(frame: ReadableBuffer, *, sentinel: int = 0) -> bytes:
    """Decodes a frame, and returns its message.

    Leading sentinels are skipped, and the frame ends at the next sentinel or at the last byte. The bytes after the
    sentinel that ends the frame are ignored: to decode more than one frame, use a `Decoder`.

    Raises `DecodeError` if the frame breaks off inside a block, or if there is no frame.

    >>> jcobs.decode(b"\\x06hello")
    b'hello'
    >>> jcobs.decode(b"\\x06hello\\x00")
    b'hello'
    """
    sentinel = sentinel_of(sentinel)
    piece = xored(bytes_of(frame, "frame"), sentinel)
    if 0 in piece:
        piece = piece.lstrip(b"\0").partition(b"\0")[0]
    broken, data = output(piece)
    if broken or not piece:
        from jcobs import DecodeError

        raise DecodeError("broken" if piece else "empty", data)
    return data


def frame_kind(frame: ReadableBuffer, *, sentinel: int = 0) -> FrameKind:
    """Returns whether bytes are a frame, and if so, whether `encode` returns this frame.

    Pass the bytes without the sentinels before and after them. The result is "canonical" if `encode` returns this
    frame for some message. It is "longer" if the frame has one needless block at its end; decoders accept such a
    frame. It is "not_a_frame" if the bytes aren't a frame.

    >>> jcobs.frame_kind(b"\\x06hello")
    'canonical'
    >>> jcobs.frame_kind(b"\\x06hel")
    'not_a_frame'
    """
    sentinel = sentinel_of(sentinel)
    piece = xored(bytes_of(frame, "frame"), sentinel)
    if not piece or 0 in piece:
        return "not_a_frame"
    broken, message = output(piece)
    return "not_a_frame" if broken else "canonical" if frame_of(message) == piece else "longer"


def max_frame_length(length: int) -> int:
    """Returns the length of the longest frame that a message of `length` bytes can have, not counting a sentinel.

    >>> jcobs.max_frame_length(254), jcobs.max_frame_length(255)
    (255, 257)
    """
    length = length_of(length, "length")
    return length + max(1, -(-length // FULL))


AnOutcome = TypeVar("AnOutcome", bound="Outcome")


class Outcome:
    __slots__ = ("_data",)

    _data: bytes

    def __new__(cls: Type[AnOutcome], data: bytes) -> AnOutcome:
        if not isinstance(data, bytes):
            raise TypeError(f"{cls.__name__}() argument 'data' must be bytes, not {type(data).__name__}")
        outcome = super().__new__(cls)
        outcome._data = data
        return outcome

    @property
    def data(self) -> bytes:
        """The bytes that the piece decodes to."""
        return self._data

    def __repr__(self) -> str:
        return f"{type(self).__name__}({self._data!r})"

    def __hash__(self) -> int:
        return hash(self._data)

    def __eq__(self, other: object) -> bool:
        if not isinstance(other, Outcome) or type(self) is not type(other):
            return NotImplemented
        return self._data == other._data

    def __reduce__(self) -> Tuple[Any, ...]:
        return type(self), (self._data,), getattr(self, "__dict__", None)


class Alone:
    """Locks: if another call has the lock, RuntimeError is raised.

    If another thread takes the lock in the moment before `with`, this call waits for it.
    """

    def __init__(self, *uses: str) -> None:
        self._locks = {use: threading.Lock() for use in uses}

    def __call__(self, use: str, function: Callable[..., _T], *arguments: Any) -> _T:
        if self._locks[use].locked():
            raise RuntimeError(f"the {use} is in use by another call")
        with self._locks[use]:
            return function(*arguments)

    def is_running(self, use: str) -> bool:
        return self._locks[use].locked()


class Decoder:
    """A streaming decoder, and the pieces that it has to decode next.

    An exception of a signal handler may end each step of a call. So before bytes are read, `_sure` says that they may
    be lost, until they are in `_pieces` and `_rest`.
    """

    def __init__(self, max_length: int, sentinel: int, classes: Tuple[Callable[[bytes], Any], ...]) -> None:
        self._room = length_of(max_length, "max_length")
        self._sentinel = sentinel_of(sentinel)
        self._classes = classes
        self.alone = Alone("reader", "writer", "decoder")
        self._clear()

    def _clear(self) -> None:
        self._pieces: Deque[bytes] = deque()  # those that have ended
        self._rest = b""  # the bytes of the piece that has begun
        self._instead: Optional[List[bytes]] = None  # if the rest of that piece is dropped, what is decoded for it
        self._sure = True

    def _skip(self, instead: List[bytes]) -> None:
        self._instead = instead
        self._rest = b""
        self._sure = True

    def push(self, chunk: ReadableBuffer) -> int:
        data = bytes_of(chunk, "chunk")
        first, *others = data.split(bytes([self._sentinel]))
        if self._instead is None:
            # A piece with more bytes than this decodes to more than max_length bytes, whatever the others are.
            others.insert(0, (self._rest + first)[: self._room + self._room // FULL + 5])
        elif others:
            others[:0] = self._instead
            self._instead = None
        self._rest = others.pop() if others else b""
        self._pieces.extend(filter(None, others))
        return len(data)

    def receive(self, read: Callable[[int], Optional[ReadableBuffer]], size: int) -> Optional[int]:
        if not self._sure:
            self._skip([xored(b"\x02", self._sentinel)])  # a broken piece, without output
        self._sure = False
        try:
            chunk = read(size)
        except OSError:
            self._sure = True
            raise
        count = None if chunk is None else self.push(chunk)
        self._sure = True
        return count

    def take(self) -> Any:
        try:
            piece = self._pieces.popleft()
        except IndexError:
            return None
        broken, data = output(xored(piece, self._sentinel))
        return self._classes[2 if len(data) > self._room else 1 if broken else 0](data[: self._room])

    def __iter__(self) -> Decoder:
        return self

    def __next__(self) -> Any:
        if self.alone.is_running("reader"):
            raise RuntimeError("the reader is in use by another call")
        outcome = self.take()
        if outcome is None:
            raise StopIteration
        return outcome

    @property
    def pending(self) -> bool:
        return bool(self._pieces)

    @property
    def unfinished(self) -> bool:
        return self.alone("decoder", self._is_unfinished)

    def _is_unfinished(self) -> bool:
        lost = not self._sure and not self.alone.is_running("reader")
        return bool(self._rest) or self._instead is not None or lost

    def discard(self) -> None:
        begun = self._is_unfinished()
        self._pieces.clear()
        if begun:
            self._skip([])

    def feed(self, chunk: ReadableBuffer) -> List[Any]:
        return self.alone("decoder", self._feed, chunk)

    def _feed(self, chunk: ReadableBuffer) -> List[Any]:
        data = bytes_of(chunk, "chunk")
        try:
            self.push(data)
            return list(iter(self.take, None))
        except BaseException:
            self._clear()
            raise

    def reset(self) -> None:
        self.alone("decoder", self._clear)


class Encoder:
    """A message that comes in chunks."""

    def __init__(self, max_length: int, sentinel: int) -> None:
        self._message = bytearray(length_of(max_length, "max_length"))
        self._sentinel = sentinel_of(sentinel)
        self._alone = Alone("encoder")
        self._taken = 0

    def feed(self, data: ReadableBuffer) -> None:
        self._alone("encoder", self._feed, bytes_of(data, "data"))

    def _feed(self, piece: bytes) -> None:
        if len(piece) > len(self._message) - self._taken:
            raise ValueError(f"the message is longer than max_length={len(self._message)}")
        self._message[self._taken : self._taken + len(piece)] = piece
        self._taken += len(piece)

    def finish(self, terminated: bool) -> bytes:
        return self._alone("encoder", self._finish, terminated)

    def _finish(self, terminated: bool) -> bytes:
        try:
            return encode(self._message[: self._taken], sentinel=self._sentinel, terminated=terminated)
        finally:
            self._taken = 0

    def reset(self) -> None:
        self._alone("encoder", self._reset)

    def _reset(self) -> None:
        self._taken = 0
