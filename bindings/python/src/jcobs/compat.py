"""Offers `encode`, `decode` and `DecodeError` of the module `cobs.cobs` of the package `cobs`. A script that uses only
these has to change only its import line:

>>> from jcobs import compat as cobs    # was: from cobs import cobs
>>> cobs.decode(cobs.encode(b"hello"))
b'hello'

As in the package `cobs`, the argument of `decode` is a frame without a sentinel after it. If the argument is empty, the
result is empty too. If the argument contains a zero or breaks off inside a block, `decode` raises a `DecodeError` of
this module, with the text that `cobs` uses. Both functions raise TypeError for a str. This package doesn't implement
COBS/R. If a script imports `cobs.cobsr`, which implements COBS/R, keep the package `cobs`.
"""

from __future__ import annotations

from typing import TYPE_CHECKING

import jcobs

if TYPE_CHECKING:
    from _typeshed import ReadableBuffer

__all__ = ["DecodeError", "decode", "encode"]


class DecodeError(Exception):
    """Raised by `decode` if the bytes contain a zero or break off inside a block."""


def encode(in_bytes: ReadableBuffer) -> bytes:
    """Encodes a message, and returns its frame.

    >>> cobs.encode(b"hello")
    b'\\x06hello'
    """
    return jcobs.encode(in_bytes)


def decode(in_bytes: ReadableBuffer) -> bytes:
    """Decodes a frame, and returns its message.

    >>> cobs.decode(b"\\x06hello")
    b'hello'
    >>> cobs.decode(b"\\x06hello\\x00")
    Traceback (most recent call last):
        ...
    jcobs.compat.DecodeError: zero byte found in input
    """
    if jcobs.frame_kind(in_bytes) != "not_a_frame":
        return jcobs.decode(in_bytes)
    frame = bytes(in_bytes)
    if not frame:
        return b""
    raise DecodeError("zero byte found in input" if 0 in frame else "not enough input bytes for length code")
