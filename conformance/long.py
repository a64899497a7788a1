"""Long cases: messages of 5,000 to 70,000 bytes, written in parts. Their lengths are on both sides of those at which faster code of
a library may begin, and at which a 16-bit count overflows.
"""

import model
from definition import encoded_frame, masked, parts

LONGEST_PART = 1100
LENGTHS = [5079, 5080, 5081, 8191, 8192, 8193, 8446, 16384, 65535, 65536, 65537, 70000]
ZERO_EVERY = [2, 3, 8, 31, 32, 33, 63, 64, 65, 128, 254, 255, 256, 509, 1025]
CYCLE = bytes(range(1, 128))
INTEGERS = b"".join(number.to_bytes(4, "little") for number in range(230, 281))


def repeated(value, at):
    """Returns the bytes that are repeated from index `at` on, and how often; or the byte at `at`, and 1, if none are repeated."""
    for needle in [1024, 512, 8]:
        size = value.find(value[at : at + needle], at + 1, at + LONGEST_PART + needle) - at
        unit, count = value[at : at + size], 1
        if size > 0 and value.startswith(unit, at + size):
            for step in [256, 1]:
                while value.startswith(unit * step, at + size * count):
                    count += step
            return unit, count
    return value[at : at + 1], 1


def in_parts(value):
    """Returns a value as a word in parts: repeated bytes are written once, with their count."""
    if not isinstance(value, bytes):
        return str(value)
    text, at = "", 0
    while at < len(value):
        unit, count = repeated(value, at)
        text += unit.hex() if count == 1 else f"+{unit.hex()}*{count}+"
        at += len(unit) * count
    return text.replace("++", "+").strip("+") or model.NONE


def rows(unit, length):
    """Returns `unit`, repeated up to this length."""
    return (unit * (length // len(unit) + 1))[:length]


def ones_but(length, *places):
    """Returns bytes 01, with a zero at each of these indices."""
    message = bytearray(b"\1" * length)
    for place in places:
        message[place] = 0
    return bytes(message)


ONES, ZEROS, MIXED = rows(b"\1", 70_000), bytes(70_000), rows(INTEGERS, 70_000)


def messages():
    """Yields messages without zeros, of only zeros, with zeros at regular distances, with rows of zeros, and with zeros near a length."""
    for length in LENGTHS:
        yield "no-zero", rows(b"\1", length)
    for length in [5080, 8193, 65537]:
        yield "cycle", rows(CYCLE, length)
        yield "zeros", bytes(length)
        yield "integers", rows(INTEGERS, length)
    for every in ZERO_EVERY:
        yield f"zero-every-{every}", rows(b"\1" * (every - 1) + b"\0", 8500)
    for row in [32, 100, 1000]:
        yield "rows", rows(bytes(row) + b"\2" * row, 8500)
    for place in [8190, 8191, 8192, 8445, 8499]:
        yield "one-zero", ones_but(8500, place)
    for place in [65535, 65536]:
        yield "one-zero", ones_but(65537, place)
    yield "runs", bytes(6000) + rows(b"\1", 6000) + b"\0" + rows(CYCLE, 9000) + bytes(300)


def whole_messages(group):
    for label, message in messages():
        group.owed(label, "encode_vec", message)
        group.owed_decoding(label, "decode_vec", encoded_frame(message))
    group.owed("frames", "encode_frames", ZEROS[:5000], ONES[:8193], b"", MIXED[:6000])
    group.choice("wrapped", "encode_vec_including_sentinels", MIXED[:8193])


def encoding_rooms(group):
    """Adds cases with a buffer that is one byte too short, exactly long enough, and one byte longer."""
    for message in [ONES[:5080], ONES[:8193], ZEROS[:8193], MIXED[:8500]]:
        frame = encoded_frame(message)
        for room in [len(frame) - 1, len(frame), len(frame) + 1]:
            group.choice("room", "try_encode", message, b"\xaa" * room)
    group.choice("room", "try_encode", ONES, b"\xaa" * 70_275)
    group.choice("room", "try_encode", ONES, b"\xaa" * 70_276)
    group.choice("room", "try_encode", ZEROS, b"\xaa" * 70_000)
    group.choice("room", "try_encode_including_sentinels", ONES[:8192], b"\xaa" * 8226)
    group.choice("room", "try_encode_including_sentinels", ONES[:8192], b"\xaa" * 8227)
    group.choice("into", "encode", MIXED[:8193], b"\xaa" * 9000)
    group.choice("into", "encode_including_sentinels", ONES[:8193], b"\xaa" * 8300)


def sentinels(group):
    for sentinel in [b"\1", b"\xff"]:
        for message in [ONES[:8193], MIXED[:8500]]:
            frame = masked(encoded_frame(message), sentinel[0])
            group.owed("sentinel", "encode_vec_with_sentinel", sentinel, message)
            group.owed_decoding("sentinel", "decode_vec_with_sentinel", sentinel, frame)
            group.choice("sentinel", "try_encode_with_sentinel", sentinel, message, b"\xaa" * (len(frame) - 1))
            group.choice("sentinel", "encode_with_sentinel", sentinel, message, b"\xaa" * len(frame))
            group.choice("sentinel", "decode_with_sentinel", sentinel, frame, b"\xaa" * (len(message) - 1))
            group.choice("sentinel", "decode_with_sentinel", sentinel, frame + sentinel, b"\xaa" * (len(message) + 1))
            group.choice("sentinel", "decode_in_place_with_sentinel", sentinel, frame + sentinel + b"\x33" * 9)


def damaged(frame):
    """Yields a frame without its last byte, with a zero near its end, and with a last code that is too great by one."""
    last = len(frame) - len(parts(frame)[-1])
    yield frame[:-1]
    yield frame[:-3] + b"\0" + frame[-2:]
    yield frame[:last] + bytes([frame[last] + 1]) + frame[last + 1 :]


def decoding(group):
    for message in [ONES[:5080], ONES[:8193], ZEROS[:8193], MIXED[:8500], ONES]:
        frame = encoded_frame(message)
        group.choice("decode", "decode", frame + b"\0\2\5", b"\xaa" * len(message))
        group.choice("decode", "decode", frame, b"\xaa" * (len(message) - 1))
        group.choice("in-place", "decode_in_place_report", frame + b"\0" + b"\x33" * 9)
    for message in [ONES[:8193], ZEROS[:8193], MIXED]:
        for frame in damaged(encoded_frame(message)):
            group.choice("damage", "decode", frame, b"\xaa" * (len(message) + 1))
            group.choice("damage", "decode_in_place", frame)
    for frame in [
        encoded_frame(ONES[:8192]),
        encoded_frame(ONES[:8382]),
        encoded_frame(ONES[:8382]) + b"\1",
        encoded_frame(ONES)[:-1],
    ]:
        group.choice("kind", "frame_kind", frame)


def cut(given, *sizes):
    """Returns pieces of these sizes, and a piece with the remaining bytes."""
    pieces, at = [], 0
    for size in sizes:
        pieces, at = [*pieces, given[at : at + size]], at + size
    return [*pieces, given[at:]]


def encoders(group):
    for message in [ONES[:9000], ZEROS[:9000], MIXED[:9000], ones_but(9000, 8190)]:
        frame = encoded_frame(message)
        for sizes in [[], [8192], [100, 8091], [5000, 3446, 1]]:
            group.choice("encoder", "encoder", b"\xaa" * (len(frame) + 1), *cut(message, *sizes))
        group.choice("encoder", "encoder", b"\xaa" * (len(frame) - 1), *cut(message, 8990))
    group.choice("encoder", "encoder", b"\xaa" * 70_276, *cut(ONES, 65_535, 1))


def decoders(group):
    """Adds cases of streaming decoders: streams at once and in pieces, a buffer that is too short, a frame that breaks off at its end."""
    for message in [ONES[:8193], ZEROS[:8193], MIXED[:8500], ones_but(8500, 8191)]:
        frame = encoded_frame(message)
        stream = frame + b"\0\2\5\0"
        for sizes in [[], [1, 8192], [2040] * 4]:
            group.choice("decoder", "decoder", b"\xaa" * (len(message) + 1), *cut(stream, *sizes))
        group.choice("short-room", "decoder", b"\xaa" * (len(message) - 1), *cut(stream, 5000))
        group.choice("broken", "decoder", b"\xaa" * len(message), *cut(frame[:-1] + b"\0" + stream, 5000, 6000))
        for sizes in [[], [5000, 64, 8192]]:
            group.choice("stream", "decode_stream", len(message), *cut(frame[:-1] + b"\0" + stream, *sizes))
        group.choice("stream", "decode_stream", len(message) - 1, frame[:-1] + b"\0" + stream)
    group.choice("decoder", "decoder", b"\xaa" * 70_000, encoded_frame(ONES) + b"\0")
    group.choice("decoder", "decoder", b"\xaa" * 65_536, *cut(encoded_frame(ONES[:65_537]) + b"\0", 60_000))
    group.choice("decoder", "decoder", b"\xaa" * 65_535, *cut(encoded_frame(ZEROS[:65_536])[:-1] + b"\0", 65_535))
    stream = encoded_frame(ONES[:6000]) + b"\0" + encoded_frame(ZEROS[:5000]) + b"\0\2\5\0"
    for size in [63, 64]:
        group.choice("reads", "next_frame", 6000, *cut(stream, *[size] * (len(stream) // size)))


def of_lengths(group):
    for add in [whole_messages, encoding_rooms, sentinels, decoding, encoders, decoders]:
        add(group)
    return group
