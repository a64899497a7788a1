#!/usr/bin/env python3
"""Writes the files of cases, one for each group of calls, next to this script. README.md has the format. With --check nothing
is written, and the status is 1 if a file differs from the text that would be written.
"""

import itertools
import os
import sys

import by_hand
import long
import model
from definition import encoded_frame, is_whole, masked, output, parts
from group import Group
from messages import (
    LENGTHS,
    MESSAGE,
    NAMED_MESSAGES,
    SHORT_MESSAGES,
    at_block_ends,
    at_edges,
    counting,
    dense_messages,
    filled,
    lists,
    long_messages,
    round_words,
    with_zero,
)

HERE = os.path.dirname(os.path.abspath(__file__))

ANY = "?"
FRAME = encoded_frame(MESSAGE)
STREAM = bytes([0, 3, 7, 8, 0, 5, 1, 0, 6, 1, 2, 3, 4, 5, 0, 2, 9, 0])
STREAM_OF_OVERFLOW = bytes([4, 7, 8, 9, 0, 2, 5, 0, 3, 1, 0, 0, 1, 0])
HELLO = b"\x0chello world"


def short_sources():
    """Returns frames, broken frames and zeros in every order, up to four bytes."""
    return lists([0, 1, 2, 3], 4)


def long_frames():
    """Yields frames with full blocks, also longer frames, and parts of these frames that are cut near the end of a block."""
    ones = filled(254, 1)
    full, nearly = b"\xff" + ones, b"\xfe" + ones[1:]
    yield from [full, nearly, full + b"\1", full + b"\1\1", full + b"\2\5", full + b"\3\5", full + full]
    yield from [full + full + b"\1", b"\1" + full + b"\1", nearly + b"\1", nearly + full, full + nearly]
    yield from [full[:-1], full[:-1] + b"\0", full + b"\xff", full + full[:-1], full + nearly[:-1], nearly[:-1]]


# The groups


def lengths():
    group = Group("lengths", "The greatest overhead and the greatest length of the frame, for the length of a message.")
    few = [*range(6), *LENGTHS, 1000, 1016, 1017, 65024, 65025, 65535, 1 << 20, (1 << 31) - 1 - (1 << 23)]
    for length in few:
        group.choice("overhead", "max_encoding_overhead", length)
        group.choice("length", "max_encoding_length", length)
    return group


def encoding():
    group = Group("encode", "Encoding whole messages: frames that are returned, and frames that are written into a buffer.")
    for label, messages in [
        ("short", SHORT_MESSAGES),
        ("named", NAMED_MESSAGES),
        ("words", round_words()),
        ("long", long_messages()),
        ("edge", at_edges()),
    ]:
        for message in messages:
            group.owed(label, "encode_vec", message)
    for message in [*SHORT_MESSAGES, *NAMED_MESSAGES, *at_block_ends()]:
        frame = encoded_frame(message)
        group.choice("wrapped", "encode_vec_including_sentinels", message)
        group.choice("into", "encode", message, filled(len(frame)))
        group.choice("into", "encode", message, filled(len(frame) + 2))
        group.choice("wrapped-into", "encode_including_sentinels", message, filled(len(frame) + 2))
        group.choice("wrapped-into", "encode_including_sentinels", message, filled(len(frame) + 3))
    group.choice("nothing", "encode", b"", filled(16, 255))
    group.choice("wrapped", "encode_vec_including_sentinels", bytes(509))
    return group


def rooms():
    group = Group("room", "Encoding into buffers of every length, from 0 to one byte more than the frame.")
    for message in [*lists([0, 1], 3), *NAMED_MESSAGES[:7]]:
        for room in range(len(encoded_frame(message)) + 2):
            group.choice("try", "try_encode", message, filled(room))
    for message in [*lists([0, 1], 2), *NAMED_MESSAGES[:4]]:
        for room in range(len(encoded_frame(message)) + 4):
            group.choice("try-wrapped", "try_encode_including_sentinels", message, filled(room))
    for message in [*NAMED_MESSAGES[7:], *at_block_ends()]:
        enough = len(encoded_frame(message))
        for room in range(enough - 1, enough + 2):
            group.choice("try-long", "try_encode", message, filled(room))
        for room in [enough + 1, enough + 2]:
            group.choice("try-wrapped-long", "try_encode_including_sentinels", message, filled(room))
    for message in at_edges():
        enough = len(encoded_frame(message))
        group.choice("edge", "try_encode", message, filled(enough - 1))
        group.choice("edge", "try_encode", message, filled(enough))
    return group


def sentinels():
    group = Group("sentinel", "Calls with a sentinel: every sentinel, and for some sentinels more cases.")
    for sentinel in map(lambda it: bytes([it]), range(256)):
        frame = masked(FRAME, sentinel[0])
        group.owed("encode", "encode_vec_with_sentinel", sentinel, MESSAGE)
        group.owed_decoding("decode", "decode_vec_with_sentinel", sentinel, frame)
        if sentinel[0] % 4 == 3:
            group.choice("encode-into", "encode_with_sentinel", sentinel, MESSAGE, filled(6, 9))
            group.choice("decode-into", "decode_with_sentinel", sentinel, frame, filled(5, 9))
        group.choice("decode-in-place", "decode_in_place_with_sentinel", sentinel, frame + sentinel + b"\7")
    for sentinel in [b"\0", b"\x0a", b"\xff"]:
        for message in [b"", b"\0", *NAMED_MESSAGES[:5], bytes(range(1, 255)), with_zero(300, 254)]:
            frame = masked(encoded_frame(message), sentinel[0])
            group.owed("encode", "encode_vec_with_sentinel", sentinel, message)
            group.owed_decoding("decode", "decode_vec_with_sentinel", sentinel, frame)
            group.choice("encode-into", "encode_with_sentinel", sentinel, message, filled(len(frame) + 1))
        for source in lists([0, 1, 2, 3], 2):
            source = masked(source, sentinel[0])
            for room in range(2):
                group.choice("short-into", "decode_with_sentinel", sentinel, source, filled(room, 2))
            group.choice("short-in-place", "decode_in_place_with_sentinel", sentinel, source)
            group.choice("short", "decode_vec_with_sentinel", sentinel, source)
        for message in [b"", b"\0", b"\1\2", MESSAGE]:
            for room in range(len(encoded_frame(message)) + 2):
                group.choice("try", "try_encode_with_sentinel", sentinel, message, filled(room, 9))
        for room in range(7):
            given = masked(FRAME + b"\0\x63", sentinel[0])
            group.choice("room", "decode_with_sentinel", sentinel, given, filled(room, 255))
            cut = masked(FRAME[:4], sentinel[0])
            group.choice("cut-into", "decode_with_sentinel", sentinel, cut, filled(room, 7))
    for message in dense_messages():
        group.choice("dense", "decode_with_sentinel", b"\x55", masked(encoded_frame(message), 0x55), filled(len(message), 7))
    for frame in long_frames():
        group.choice("long", "decode_with_sentinel", b"\x55", masked(frame, 0x55), filled(len(output(frame[:509])), 7))
    return group


def decoding():
    group = Group("decode", "Decoding whole frames: messages that are returned, and messages that are written into a buffer.")
    for label, messages in [
        ("short", SHORT_MESSAGES),
        ("named", NAMED_MESSAGES),
        ("words", round_words()),
        ("long", long_messages()),
    ]:
        for message in messages:
            group.owed_decoding(label, "decode_vec", encoded_frame(message))
    for frame in map(encoded_frame, [MESSAGE, b"\0\0\1\0", b"hello world", with_zero(8, 3, 5)]):
        for length in range(1, len(frame) + 1):
            group.owed_decoding("cut", "decode_vec", frame[:length])
            group.choice("cut-into", "decode", frame[:length], filled(8))
    full = encoded_frame(counting(300))
    for length in [1, 2, 127, 253, 254, 255, 256, 257, 258, 300, len(full) - 1]:
        group.owed_decoding("cut-long", "decode_vec", full[:length])
    for source in short_sources():
        group.choice("any", "decode", source, filled(3))
    for source in lists([0, 1, 2, 3], 3):
        group.choice("any-out", "decode_vec", source)
    for source in [FRAME, FRAME + b"\0\7", FRAME[:4], b"\2\5\3\1", b"\0\0\2\5\0\x09", b"\1\1\1", b"\4\7\x08"]:
        for room in range(len(source) + 2):
            group.choice("room", "decode", source, filled(room, 9))
    for frame in long_frames():
        needed = len(output(frame.rstrip(b"\0")))
        group.choice("long-out", "decode_vec", frame)
        for room in range(needed - 1, needed + 2):
            group.choice("long-into", "decode", frame, filled(room))
    for message in dense_messages():
        frame = encoded_frame(message)
        group.choice("dense", "decode", frame, filled(len(message) + 1))
        group.choice("dense-cut", "decode", frame[:-1], filled(len(message)))
        group.choice("dense-room", "decode", frame, filled(len(message) // 2))
    group.choice("padded", "decode", b"DEADBEEF" + bytes(24), filled(32, 0))
    group.choice("padded", "decode", bytes([68, 69, 65, 68, 66, 69, 69, 70]) + bytes(24), filled(32, 0))
    group.choice("padded", "decode", encoded_frame(filled(254, 1)) + b"\0", filled(254, 0))
    return group


def damage():
    group = Group("damage", "The frame 030a0b020c, which has two blocks, with each byte changed to each other value.")
    for place, byte in itertools.product(range(len(FRAME)), range(256)):
        damaged = FRAME[:place] + bytes([byte]) + FRAME[place + 1 :]
        if byte == 0:
            group.choice("zero", "decode_vec", damaged)
        elif damaged != FRAME:
            group.owed_decoding("byte", "decode_vec", damaged)
        if place in (0, 3) and byte < 8 or byte in (0, 255):
            group.choice("into", "decode", damaged, filled(5))
            group.choice("in-place", "decode_in_place_report", damaged + b"\0\7")
    return group


def in_place():
    group = Group("in-place", "Decoding in place, with every byte of the buffer after the message.")
    for source in short_sources():
        group.choice("any-report", "decode_in_place_report", source)
    for source in lists([0, 1, 2, 3], 2):
        group.choice("any", "decode_in_place", source)
    for message in [*SHORT_MESSAGES, *NAMED_MESSAGES, *at_block_ends()]:
        group.choice("frame", "decode_in_place", encoded_frame(message))
        group.choice("frame-report", "decode_in_place_report", encoded_frame(message) + b"\0\x07")
    for message in round_words():
        group.choice("words", "decode_in_place", encoded_frame(message))
    for frame in long_frames():
        group.choice("long-report", "decode_in_place_report", frame)
        group.choice("long-report", "decode_in_place_report", frame + b"\0\x07")
    for message in dense_messages():
        group.choice("dense", "decode_in_place", encoded_frame(message) + b"\0\7")
        group.choice("dense-cut", "decode_in_place_report", encoded_frame(message)[:-1])
    for length in range(1, len(FRAME) + 1):
        group.choice("cut", "decode_in_place", FRAME[:length])
        group.choice("cut", "decode_in_place", FRAME[:length] + b"\0\x63")
    return group


def encoder():
    group = Group("encoder", "A streaming encoder with a buffer, for a message in pieces.")
    for message in [*lists([0, 1], 2), b"\1\0\1", MESSAGE, b"hello"]:
        frame = encoded_frame(message)
        for room in range(1, len(frame) + 2):
            for cut in range(len(message) + 1):
                group.choice("room", "encoder", filled(room), message[:cut], message[cut:])
            group.choice("bytes", "encoder", filled(room), *[message[at : at + 1] for at in range(len(message))])
    ones, more = filled(254, 1), filled(508, 1)
    for pieces in [[ones, b""], [ones, b"\0"], [ones, b"", b"\0"], [ones, b"", b"\1"], [ones, b"\1", b"\0", b""]]:
        for room in range(254, 259):
            group.choice("full", "encoder", filled(room), *pieces)
    for message in at_edges():
        enough, cut = len(encoded_frame(message)), len(message) // 2
        group.choice("edge", "encoder", filled(enough), message[:cut], message[cut:])
        group.choice("edge", "encoder", filled(enough - 1), message[:cut], message[cut:])
    for cut in [0, 1, 127, 253, 254, 255, 256, 507, 508, 509]:
        given = more + b"\0"
        group.choice("two-full", "encoder", filled(513), given[:cut], b"", given[cut:], b"")
    for size in [7, 253, 254, 255]:
        given = filled(300, 2) + b"\0" + filled(20, 3)
        cut = [given[at : at + size] for at in range(0, len(given), size)]
        group.choice("pieces", "encoder", filled(len(encoded_frame(given)) + 1), *cut)
        group.choice("pieces", "encoder", filled(len(encoded_frame(given)) - 1), *cut)
    group.choice("refused", "encoder", filled(3, 9), b"\1\2", b"\3", b"")
    group.choice("refused", "encoder", filled(1, 9), b"\0", b"")
    group.choice("refused", "encoder", filled(255, 9), ones, b"\1", b"\0", b"")
    return group


def in_pieces(stream, size):
    return [stream[at : at + size] for at in range(0, len(stream), size)]


def cut_twice(stream):
    for first, second in itertools.combinations_with_replacement(range(len(stream) + 1), 2):
        yield [stream[:first], stream[first:second], stream[second:]]


def decoder():
    group = Group("decoder", "A streaming decoder with a buffer, for a stream in pieces: each result, with the number of bytes consumed so far.")
    for cut in range(len(STREAM) + 1):
        group.choice("cut", "decoder", filled(4), STREAM[:cut], STREAM[cut:])
    for cut in range(len(STREAM_OF_OVERFLOW) + 1):
        group.choice("cut-overflow", "decoder", filled(2, 0), STREAM_OF_OVERFLOW[:cut], STREAM_OF_OVERFLOW[cut:])
    for room in range(8):
        for size in [1, 2, 64]:
            group.choice("room", "decoder", filled(room), *in_pieces(STREAM, size))
            group.choice("room", "decoder", filled(room, 0), *in_pieces(FRAME + b"\0" + FRAME, size))
    for source in lists([0, 1, 2, 3], 3):
        for room in [1, 2]:
            group.choice("any", "decoder", filled(room), source + b"\0\2\5\0")
    for stream in [b"\0" + HELLO + b"\0", b"\0\x0chel\0" + HELLO + b"\0", b"\0" + HELLO + b"\0\0\7second\0"]:
        for size in [1, 3, 64]:
            group.choice("hello", "decoder", filled(32, 0), *in_pieces(stream, size))
    group.choice("reset", "decoder", filled(4, 0), b"\3\7", "reset", b"\2\5\0")
    group.choice("reset", "decoder", filled(2, 0), b"\4\7\x08\x09", "reset", b"\2\5\0")
    group.choice("reset", "decoder", filled(4, 0), b"\xff\7", "reset", b"\0\1\0", "reset", "reset", b"\2")
    group.choice("reset", "decoder", filled(0, 0), b"\2\5", "reset", b"\1\0")
    for frame in long_frames():
        room = len(output(frame.rstrip(b"\0")))
        group.choice("long", "decoder", filled(room), *in_pieces(frame.rstrip(b"\0") + b"\0\2\5\0", 100))
    for message in dense_messages():
        frame = encoded_frame(message)
        group.choice("dense", "decoder", filled(200), frame + b"\0" + FRAME + b"\0")
        group.choice("dense", "decoder", filled(128), frame[:5], frame[5:70], frame[70:] + b"\0")
    frame = encoded_frame(with_zero(300, 254))
    group.choice("long", "decoder", filled(299), frame[:255], frame[255:256], frame[256:-1], frame[-1:], b"\0")
    return group


def streams():
    group = Group("stream", "Decoding whole streams: the outcome of each frame. Encoding messages as a stream.")
    good = b"\0".join([b"", FRAME, b"\1", b"", b"\2\5", encoded_frame(b"\0\0"), HELLO, b""])
    for cut in range(len(good) + 1):
        group.owed("messages", "decode_stream", 16, good[:cut], good[cut:])
    for size in [1, 2, 3, 5, 7, 64]:
        group.owed("messages", "decode_stream", 16, *in_pieces(good, size))
    for broken in [b"\2", b"\5\1", b"\3\7", b"\xff\1\2", b"\1\1\4\1", b"\x0chel"]:
        for size in [1, 2, 3, 64]:
            arguments = [16, *in_pieces(FRAME + b"\0" + broken + b"\0" + HELLO + b"\0\2\5\0", size)]
            kinds = ["message", MESSAGE, "refused", ANY, "message", HELLO[1:], "message", b"\5"]
            group.line("behind-broken", "owed", "decode_stream", arguments, kinds)
            group.choice("broken", "decode_stream", *arguments)
    for pieces in cut_twice(STREAM):
        group.choice("cut", "decode_stream", 4, *pieces)
    for pieces in cut_twice(STREAM_OF_OVERFLOW):
        group.choice("cut-overflow", "decode_stream", 2, *pieces)
    for end in range(len(STREAM) + 1):
        group.choice("front", "decode_stream", 4, STREAM[:end])
    for room in range(8):
        group.choice("room", "decode_stream", room, STREAM + STREAM_OF_OVERFLOW)
    for frame in long_frames():
        for room in [253, 254, 255, 508, 600]:
            group.choice("long", "decode_stream", room, *in_pieces(b"\2\7\0" + frame + b"\0\2\5\0", 300))
    for messages in [[], [b""], [b"", b"\0", b"\1\2"], [MESSAGE, b"hello", MESSAGE], [filled(254, 1), b"\1", b""]]:
        group.owed("frames", "encode_frames", *messages)
    return group


def reader():
    group = Group("reader", "A reader of frames, with a source that returns these bytes in its reads.")
    for size in [1, 2, 5, 7, 64]:
        group.choice("reads", "next_frame", 4, *in_pieces(STREAM, size))
        group.choice("reads", "next_frame", 4, *in_pieces(STREAM[:-1], size))
        group.choice("reads", "next_frame", 11, *in_pieces(b"\0" + HELLO + b"\0\0\7second\0" + HELLO, size))
    group.choice("kept", "next_frame", 4, b"\1\0\1\0\2\5\0")
    group.choice("kept", "next_frame", 4, b"\1\0\0\0\2", b"\5\0\0")
    group.choice("kept", "next_frame", 0, b"\1\0\2\5\0\1\0\3")
    group.choice("kept", "next_frame", 64, b"\1\0" * 32, b"\1\0" * 32)
    group.choice("end", "next_frame", 4, b"\2", b"", b"\5\0")
    group.choice("end", "next_frame", 4, b"", b"\2\5\0", b"", b"", b"\3\1", b"", b"\0\2\6\0")
    group.choice("end", "next_frame", 4, b"\0\0", b"", b"\0")
    group.choice("end", "next_frame", 4)
    group.choice("failed", "next_frame", 4, b"\2", "fail", b"\5", b"\0")
    group.choice("failed", "next_frame", 4, "fail", "fail", b"\2\5\0\3\1", "fail", b"\2\0")
    group.choice("unfinished", "next_frame", 4, b"\2\5\0\3\1")
    group.choice("unfinished", "next_frame", 4, b"\4\7\x08\x09\1\1", b"", b"\7\0\7\0")
    return group


def kinds():
    group = Group("kind", "Whether bytes are a frame; if a message has two frames, whether they are the shorter one.")
    for given in [*lists([0, 1, 2, 3], 3), *long_frames(), b"\5", b"\xff", FRAME, FRAME[:4], b"\1\xff" + filled(254, 1) + b"\1"]:
        group.choice("any", "frame_kind", given)
    group.choice("any", "frame_kind", b"\xff" + filled(253, 1))
    return group


def states():
    group = Group("state", "The two state machines: the result for a byte in a state, and the state that follows.")
    for message in [*lists([0, 1], 3), filled(252, 1), filled(253, 1), filled(254, 1), filled(255, 1), b"\0" + filled(253, 9)]:
        for byte in [b"\0", b"\1", b"\xff"]:
            group.choice("encoder", "encoder_state", message, byte)
    for byte in map(lambda it: bytes([it]), [0, 1, 2, 7, 128, 254, 255]):
        group.choice("decoder", "decoder_state", "idle", model.NONE, byte)
        for state, left in itertools.product(["grab", "grab_chain"], [0, 1, 2, 127, 253, 254, 255]):
            group.choice("decoder", "decoder_state", state, left, byte)
    return group


GROUPS = [lengths, encoding, rooms, sentinels, decoding, damage, in_place, encoder, decoder, streams, reader, kinds, states]


def main(words):
    texts = {}
    groups = [make() for make in GROUPS]
    groups.append(long.of_lengths(Group("long", "Calls with 5,000 to 70,000 bytes, written in parts.", word=long.in_parts)))
    groups.append(by_hand.of_tests(Group("original", "The tests of the crate cobs 0.5.1. Each case has the name of its test.")))
    groups.append(by_hand.of_own(Group("by-hand", "Other cases whose results were worked out by hand."), groups))
    for group in groups:
        texts[f"{HERE}/{group.name.replace('-', '_')}.txt"] = "\n".join(group.lines) + "\n"
    joined = "".join(texts.values())
    lines = [line for line in joined.splitlines() if not line.startswith("#")]
    stale = []
    for path, text in texts.items():
        if words == ["--check"]:
            if not os.path.isfile(path) or open(path, encoding="ascii").read() != text:
                stale.append(os.path.relpath(path, f"{HERE}/.."))
        else:
            with open(path, "w", encoding="ascii") as file:
                file.write(text)
    for path in stale:
        print(f"{path} is not what conformance/generate.py writes")
    owed = sum(line.split(" ")[1] == "owed" for line in lines)
    print(f"{len(lines)} cases, {owed} of them owed, {len(joined)} bytes")
    return 1 if stale else 0


if __name__ == "__main__":
    sys.exit(main(sys.argv[1:]))
