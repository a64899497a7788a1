"""Encodes and decodes whole messages, streams of frames, and messages that come in chunks."""

from __future__ import annotations

from typing import TYPE_CHECKING, Any, List, Literal, Tuple, Union

from jcobs._backend import core

if TYPE_CHECKING:
    from _typeshed import ReadableBuffer

ErrorKind = Literal["broken", "empty", "too_long"]
FrameKind = Literal["not_a_frame", "canonical", "longer"]


class DecodeError(ValueError):
    """Raised by `decode` if the frame is broken or there is no frame, and by a reader's `request` if the reply is
    broken or too long.

    `kind` is "broken" if the frame breaks off inside a block, and "empty" if there are no bytes, or only sentinels. If
    a reader raises the error, `kind` may also be "too_long", which means that the reply is longer than the reader's
    `max_length`. `data` is the bytes that the frame decodes to before it breaks off. If a reader raises the error,
    `data` has at most `max_length` bytes.

    >>> try:
    ...     jcobs.decode(b"\\x06hel")
    ... except jcobs.DecodeError as error:
    ...     print(error.kind, error.data)
    broken b'hel'
    """

    kind: ErrorKind
    data: bytes

    def __init__(self, kind: ErrorKind, data: bytes) -> None:
        super().__init__(kind, data)
        self.kind = kind
        self.data = data

    def __str__(self) -> str:
        if self.kind == "empty":
            return "there is no frame"
        if self.kind == "too_long":
            return f"the message is longer than max_length={len(self.data)}"
        return f"the frame breaks off inside a block, after {len(self.data)} decoded bytes"


encode = core.encode
decode = core.decode
frame_kind = core.frame_kind
max_frame_length = core.max_frame_length


class Message(core.Outcome):
    """A decoded message. `data` is the message's bytes. A `Message` is true even if it has no bytes.

    >>> message = jcobs.Message(b"hi")
    >>> message.data, bytes(message), len(message)
    (b'hi', b'hi', 2)
    """

    __slots__ = ()
    __match_args__ = ("data",)

    def __bytes__(self) -> bytes:
        return self.data

    def __len__(self) -> int:
        return len(self.data)

    def __bool__(self) -> bool:
        return True


class Broken(core.Outcome):
    """A frame that breaks off inside a block. `data` is the bytes that the frame decodes to before it breaks off."""

    __slots__ = ()
    __match_args__ = ("data",)


class TooLong(core.Outcome):
    """A frame that decodes to more than `max_length` bytes. `data` is the first `max_length` of these bytes."""

    __slots__ = ()
    __match_args__ = ("data",)


CLASSES = (Message, Broken, TooLong)
Outcome = Union[Message, Broken, TooLong]


class Coder:
    """An object that can't be copied, because it has a state."""

    __slots__ = ()

    def __reduce__(self) -> Tuple[Any, ...]:
        raise TypeError(f"{type(self).__name__} objects cannot be copied or pickled")


class Decoder(Coder):
    """Decodes a stream of frames that comes in chunks of any size.

    `max_length` is the length in bytes of the longest message. The decoder allocates `max_length` bytes when it is
    created, but not in plain Python. A frame that is broken or too long never affects the next frame.

    Only one thread at a time may use a decoder. While a call is running, each method raises RuntimeError in other
    threads and in signal handlers.
    """

    __slots__ = ("_core",)

    def __init__(self, max_length: int = 65536, sentinel: int = 0) -> None:
        self._core = core.Decoder(max_length, sentinel, CLASSES)

    def feed(self, chunk: ReadableBuffer) -> List[Outcome]:
        """Decodes the next bytes of the stream, and returns the outcomes of the frames that end in these bytes.

        If this call raises TypeError or BufferError, the decoder stays as it was. If there isn't enough memory for the
        outcomes, the call raises MemoryError. In this case the outcomes of this call are lost, and the decoder is
        reset. Then drop the bytes that follow the chunk, up to the first sentinel: they may be the rest of a frame.

        >>> decoder = jcobs.Decoder(max_length=5)
        >>> for outcome in decoder.feed(b"\\x03hi\\x00\\x06hel\\x00\\x07hello!\\x00"):
        ...     print(outcome)
        Message(b'hi')
        Broken(b'hel')
        TooLong(b'hello')
        """
        return self._core.feed(chunk)

    @property
    def unfinished(self) -> bool:
        """Whether a frame has begun but not ended.

        At the end of a stream, the value says whether the last frame was cut off.

        >>> decoder = jcobs.Decoder()
        >>> decoder.feed(b"\\x06hel")
        []
        >>> decoder.unfinished
        True
        """
        return self._core.unfinished

    def reset(self) -> None:
        """Discards the frame that has begun. The next byte begins another frame.

        >>> decoder = jcobs.Decoder()
        >>> decoder.feed(b"\\x06hel")
        []
        >>> decoder.reset()
        >>> decoder.feed(b"\\x03hi\\x00")
        [Message(b'hi')]
        """
        self._core.reset()


class Encoder(Coder):
    """Encodes messages that come in chunks.

    `max_length` is the length in bytes of the longest message. When the encoder is created, it allocates memory for the
    frame of a message of this length. In plain Python it allocates memory for the message instead of the frame. Like a
    `Decoder`, an encoder may be used by only one thread at a time.

    >>> encoder = jcobs.Encoder()
    >>> encoder.feed(b"hel")
    >>> encoder.feed(b"lo")
    >>> encoder.finish(terminated=True)
    b'\\x06hello\\x00'
    """

    __slots__ = ("_core",)

    def __init__(self, max_length: int = 65536, sentinel: int = 0) -> None:
        self._core = core.Encoder(max_length, sentinel)

    def feed(self, data: ReadableBuffer) -> None:
        """Adds bytes to the message.

        Raises ValueError if the message would become longer than `max_length`. In this case, and if this call raises
        TypeError or BufferError, no byte is added. If a signal handler raises an exception during this call, the bytes
        may have been added. In this case call `reset`, and pass the whole message again.
        """
        self._core.feed(data)

    def finish(self, *, terminated: bool = False) -> bytes:
        """Ends the message, and returns its frame. If `terminated` is true, a sentinel follows the frame.

        The next `feed` begins another message, even if this call raises MemoryError.
        """
        return self._core.finish(terminated)

    def reset(self) -> None:
        """Discards the message that has begun."""
        self._core.reset()
