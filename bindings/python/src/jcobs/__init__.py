"""Consistent Overhead Byte Stuffing (COBS). If `jcobs.backend` is "prebuilt", proved code encodes and decodes.

`encode` turns a message into a frame that never contains a certain byte value: the sentinel, which is 0 unless you pass
another value. So the sentinel can mark the end of each frame on a serial line, in a stream or in a file:

>>> import jcobs
>>> jcobs.encode(b"hello\\0world", terminated=True)
b'\\x06hello\\x06world\\x00'
>>> decoder = jcobs.Decoder()
>>> decoder.feed(b"\\x06hello\\x06wor")
[]
>>> decoder.feed(b"ld\\x00\\x03hi\\x00")
[Message(b'hello\\x00world'), Message(b'hi')]

The arguments `data`, `frame`, `chunk` and `message` are bytes, or any other contiguous bytes-like object, such as a
bytearray, a memoryview, an array.array or an mmap. Each function and method raises TypeError for an object that isn't
bytes-like, and BufferError for an object whose bytes aren't contiguous. But `frames` raises TypeError in both cases,
and `Message`, `Broken` and `TooLong` raise TypeError for every object except bytes.

`sentinel` is an integer from 0 to 255; any other integer raises ValueError. `max_length` is the length of the longest
message in bytes, and `length` that of a message: a negative number raises ValueError, and a number above `sys.maxsize`
raises OverflowError. An object that isn't an integer raises TypeError. If there isn't enough memory, a call raises
MemoryError.
"""

__version__ = "1.0.0"  # the modules below compare this version with the version of the extension

from jcobs._async import AsyncFrameReader
from jcobs._backend import backend
from jcobs._readers import FrameReader, frames
from jcobs._streams import (
    Broken,
    DecodeError,
    Decoder,
    Encoder,
    Message,
    TooLong,
    decode,
    encode,
    frame_kind,
    max_frame_length,
)

__all__ = [
    "AsyncFrameReader",
    "Broken",
    "DecodeError",
    "Decoder",
    "Encoder",
    "FrameReader",
    "Message",
    "TooLong",
    "backend",
    "decode",
    "encode",
    "frame_kind",
    "frames",
    "max_frame_length",
]

for _name in __all__:
    if _name != "backend":
        globals()[_name].__module__ = "jcobs"  # for pickles and tracebacks
