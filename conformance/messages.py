"""The messages that several groups of generate.py use: short, named and long ones, runs that end with a block, and rows of zeros."""

import itertools

MESSAGE = bytes([10, 11, 0, 12])
LENGTHS = [*range(252, 257), *range(507, 511), *range(761, 765)]


def filled(length, byte=0xAA):
    return bytes([byte]) * length


def counting(length, first=1):
    return bytes((first + at - 1) % 255 + 1 for at in range(length))


def with_zero(length, *places):
    return bytes(0 if at in places else 1 for at in range(length))


def lists(alphabet, longest):
    for length in range(longest + 1):
        yield from map(bytes, itertools.product(alphabet, repeat=length))


SHORT_MESSAGES = list(lists([0, 1, 255], 3))

NAMED_MESSAGES = [
    MESSAGE,
    b"\xff\0",
    b"\0\0\1\0",
    b"\1\2\3",
    b"\0\x11\0\x22",
    b"hello",
    b"hello world",
    bytes(range(1, 255)),
    bytes(range(255)),
    bytes(range(1, 256)),
    bytes([*range(2, 256), 0]),
    bytes([*range(3, 256), 0, 1]),
]


def long_messages():
    for length in LENGTHS:
        yield filled(length, 1)
        yield counting(length)
        if length in (254, 255, 508):
            yield bytes(length)
        for place in [253, 254, 255, 507, 508, 509, 762, length - 1]:
            if place < length:
                yield with_zero(length, place)
    yield with_zero(509, 254)
    yield with_zero(764, 254, 509)
    yield with_zero(764, 253, 508)
    yield filled(1016, 255)


def at_block_ends():
    """Yields a few long messages that end just before, at and just after the end of a block."""
    for length in [253, 254, 255, 508, 509]:
        yield filled(length, 1)
        yield with_zero(length, length - 1)
    yield with_zero(509, 254)
    yield bytes(300)


def round_words():
    """Yields runs and rows of zeros whose lengths are near those of machine words and vectors, with a few bytes after them."""
    for length in [7, 8, 9, 15, 16, 17, 31, 32, 33, 63, 64, 65, 127, 128, 129]:
        yield counting(length) + b"\0\1\2"
        yield bytes(length) + b"\1"
        yield b"\1\0" * (length // 2) + b"\2"


def at_edges():
    """Yields runs that end at the end of a block, or one byte before or after it, with and without bytes before and after them. If
    the buffer has exactly the length of the frame, the cases notice each code that is counted wrongly."""
    for length in [253, 254, 255, 507, 508, 509]:
        for front in [b"", b"\0", b"\1\0"]:
            yield front + filled(length, 7)
            yield front + filled(length, 7) + b"\0" + filled(5, 7)


def dense_messages():
    """Yields messages with a first block and short blocks after it, so that the codes are at many different distances."""
    for first in [0, 1, 6, 14, 15, 16, 40]:
        for period in [1, 2, 3, 4]:
            yield counting(first) + b"\0" + (counting(period - 1) + b"\0") * (72 // period) + b"\1"
        yield counting(first) + b"\0" + b"\0".join(counting(length % 5, 7) for length in range(0, 90, 3))
        yield counting(first) + b"\0" + b"\0".join(counting(length * length % 11) for length in range(24))
