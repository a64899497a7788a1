"""Cases whose results were worked out by hand. Some are the tests of the crate `cobs` 0.5.1, each named after its test; the others
are named after their subject. A case is a call, its arguments and its results, and the model must return the same results.
"""

import model
from definition import masked

NONE = model.NONE

ONES = b"\1" * 254
FROM_3 = bytes(range(3, 255))
MESSAGE, FRAME = b"\x0a\x0b\0\x0c", b"\3\x0a\x0b\2\x0c"

HELLO = b"hello world"
HELLO_FRAME = b"\x0chello world"
ENDED, DELIMITED = HELLO_FRAME + b"\0", b"\0" + HELLO_FRAME + b"\0"
# A message, a broken piece, one that is too long for four bytes, and a message.
DAMAGED = b"\0\3\7\x08\0\5\1\0\6\1\2\3\4\5\0\2\x09\0"

# Messages with their frames. Most are those of a test, whose name comes first; "one zero" is in no test.
EXAMPLES = [
    ("test_encode_empty", b"", b"\1"),
    ("one zero", b"\0", b"\1\1"),
    ("test_encode_4", b"\1", b"\2\1"),
    ("test_encode_3", b"\xff\0", b"\2\xff\1"),
    ("example", b"\1\2\3", b"\4\1\2\3"),
    ("test_encode_1", MESSAGE, FRAME),
    ("test_encode_2", b"\0\0\1\0", b"\1\1\2\1\1"),
    ("wikipedia_ex_6", b"\1\2" + FROM_3, b"\xff\1\2" + FROM_3),
    ("wikipedia_ex_7", b"\0\1\2" + FROM_3, b"\1\xff\1\2" + FROM_3),
    ("wikipedia_ex_8", b"\1\2" + FROM_3 + b"\xff", b"\xff\1\2" + FROM_3 + b"\2\xff"),
    ("wikipedia_ex_9", b"\2" + FROM_3 + b"\xff\0", b"\xff\2" + FROM_3 + b"\xff\1\1"),
    ("wikipedia_ex_10", FROM_3 + b"\xff\0\1", b"\xfe" + FROM_3 + b"\xff\2\1"),
    ("example", ONES + ONES, b"\xff" + ONES + b"\xff" + ONES),
]


def example_as_tested(message, frame):
    """Yields the calls that the crate's tests make with an example: encode into a buffer of bytes 0x80, decode, decode in place."""
    in_place = message + frame[len(message) :]
    yield "encode", [message, b"\x80" * len(frame)], [len(frame), frame]
    yield "decode", [frame + b"\0", b"\x80" * len(message)], ["ok", len(frame) + 1, len(message), message]
    yield "decode_in_place_report", [frame], ["ok", len(frame), len(message), in_place]
    yield "decode_in_place", [frame], ["ok", len(message), in_place]


def example_by_other_calls(message, frame):
    """Yields an example with a buffer that is one byte too short, exactly long enough, and one byte longer; and with other calls."""
    for call, written in [("try_encode", frame), ("try_encode_including_sentinels", b"\0" + frame + b"\0")]:
        room = b"\xaa" * len(written)
        yield call, [message, room[1:]], ["too_small", NONE, room[1:]]
        yield call, [message, room], ["ok", len(written), written]
        yield call, [message, room + b"\xaa"], ["ok", len(written), written + b"\xaa"]
    yield "encode_vec", [message], [frame]
    yield "decode_vec", [frame + b"\0"], ["ok", len(message), message]
    yield "frame_kind", [frame], ["canonical"]
    if len(message) < 100:
        pieces = [message[at : at + 1] for at in range(len(message))]
        yield "encoder", [b"\xaa" * len(frame), *pieces], [len(frame), frame, *["ok"] * len(pieces)]


def encoding_tests():
    yield "test_encode_0", "encode", [b"", b"\xff" * 16], [1, b"\1" + b"\xff" * 15]
    yield "issue_19_test_254_block_all_ones", "encode", [ONES, bytes(256)], [255, b"\xff" + ONES + b"\0"]
    yield "issue_19_test_254_block_all_ones", "decode", [b"\xff" + ONES + b"\0", bytes(254)], ["ok", 256, 254, ONES]
    for room in range(5):
        yield "encode_target_buf_too_small", "try_encode", [MESSAGE, bytes(room)], ["too_small", NONE, bytes(room)]
    for call, source, results in [
        ("encode_with_sentinel", b"\0\x11\0\x22", [5, b"\1\2\x11\2\x22" + bytes(123)]),
        ("decode_with_sentinel", b"\1\2\x11\2\x22", ["ok", 4, b"\0\x11\0\x22" + bytes(124)]),
    ]:
        yield "issue_15", call, [b"\0", source, bytes(128)], results
    delimited = b"\0" + FRAME + b"\0"
    yield "try_encode_with_sentinels", "try_encode_including_sentinels", [MESSAGE, bytes(7)], ["ok", 7, delimited]
    yield "try_encode_with_sentinels", "decode_vec", [delimited], ["ok", 4, MESSAGE]
    yield "test_encoding_including_sentinels", "encode_vec_including_sentinels", [b"\1\2\3"], [b"\0\4\1\2\3\0"]
    for frame in [b"\0\4\1\2\3\0", b"\4\1\2\3\0", b"\4\1\2\3"]:
        yield "test_encoding_including_sentinels", "decode_vec", [frame], ["ok", 3, b"\1\2\3"]
    for name, length, overhead in [
        ("test_overhead_empty", 0, 1),
        ("test_overhead_one", 1, 1),
        ("test_overhead_larger", 253, 1),
        ("test_overhead_larger", 254, 1),
        ("test_overhead_two", 255, 2),
    ]:
        yield name, "max_encoding_overhead", [length], [overhead]
    for length, longest in [(253, 254), (254, 255), (255, 257), (508, 510), (509, 512)]:
        yield "test_max_encoding_length", "max_encoding_length", [length], [longest]
    yield "test_buf_len", "max_encoding_length", [5], [6]


def decoding_tests():
    yield "decode_empty", "decode", [b"", bytes(256)], ["empty", NONE, NONE, bytes(256)]
    yield "decode_empty", "decode_in_place", [b""], ["empty", NONE, b""]
    yield "decode_empty", "decode_vec", [b""], ["empty", NONE, b""]
    padded, decoded = b"DEADBEEF" + bytes(24), b"EADBEEF" + bytes(25)
    yield "decode_malformed", "decode", [padded, bytes(32)], ["invalid", NONE, 7, decoded]
    for after in [b"", b"\x0a", b"\x0a\x0b"]:
        results = ["too_small", NONE, NONE, after]
        yield "decode_target_buf_too_small", "decode", [FRAME, bytes(len(after))], results


def roundtrip_tests():
    yield "test_roundtrip_1", "encode_vec", [b"\1\2\3"], [b"\4\1\2\3"]
    yield "test_roundtrip_1", "decode_vec", [b"\4\1\2\3\0"], ["ok", 3, b"\1\2\3"]
    for length in range(252, 257):
        message = bytes(range(length))
        frame = b"\1\xff" + message[1:255] + b"\2\xff" if length == 256 else b"\1" + bytes([length]) + message[1:]
        yield "test_roundtrip_2", "encode_vec", [message], [frame]
        yield "test_roundtrip_2", "decode_vec", [frame + b"\0"], ["ok", length, message]
    yield "test_encode_decode", "encode", [MESSAGE, bytes(5)], [5, FRAME]
    yield "test_encode_decode", "decode", [FRAME, bytes(4)], ["ok", 5, 4, MESSAGE]
    for sentinel in range(256):
        given, frame = bytes([sentinel]), masked(FRAME, sentinel)
        assert given not in frame
        name = "test_encode_decode_with_sentinel"
        yield name, "encode_with_sentinel", [given, MESSAGE, bytes(5)], [5, frame]
        yield name, "decode_with_sentinel", [given, frame, bytes(4)], ["ok", 4, MESSAGE]
        # The frame has one byte more than its message. In place, its last byte stays after the message.
        yield name, "decode_in_place_with_sentinel", [given, frame], ["ok", 4, MESSAGE + b"\x0c"]
    for first, frame in [
        (1, b"\2\1"),
        (17, b"\x12" + bytes(range(17, 34))),
        (128, b"\x81" + bytes(range(128, 256))),
        (129, b"\x80" + bytes(range(129, 256)) + b"\2\1"),
        (255, b"\2\xff\xfe" + bytes(range(1, 254))),
    ]:
        # bytes from `first` on, as many, encoded by 17 and decoded by 11
        message = bytes(at % 256 for at in range(first, 2 * first))
        pieces = in_pieces(message, 17)
        yield "stream_roundtrip", "encoder", [bytes(len(frame)), *pieces], [len(frame), frame, *["ok"] * len(pieces)]
        pieces = [*in_pieces(frame, 11), b"\0"]
        yield "stream_roundtrip", "decoder", [b"\x80" * first, *pieces], [message, len(frame) + 1, "message", message]


def in_pieces(given, size):
    return [given[at : at + size] for at in range(0, len(given), size)]


def decoder_tests():
    for name, room, frame in [
        ("stream_continuously", 16, ENDED),
        ("stream_continuously_owned", 32, ENDED),
        ("stream_continuously_heapless", 32, ENDED),
        ("stream_continuously_2", 16, DELIMITED),
        ("stream_continuously_2_owned", 32, DELIMITED),
    ]:
        events = [word for times in range(1, 11) for word in [times * len(frame), "message", HELLO]]
        yield name, "decoder", [bytes(room), *[frame] * 10], [HELLO + bytes(room - 11), *events]
    after = HELLO + bytes(21)
    for of in ["decoder", "owned_decoder", "decoder_heapless"]:
        yield f"test_{of}_push_function", "decoder", [bytes(32), DELIMITED], [after, 14, "message", HELLO]
    events = [14, "message", HELLO, 23, "message", b"second"]
    chunk = DELIMITED + b"\0\7second\0"
    yield "stream_chunk_with_2_frames", "decoder", [bytes(32), chunk], [b"secondworld" + bytes(21), *events]
    events = [6, "broken", b"hel", 19, "message", HELLO]
    yield "decoding_broken_packet", "decoder", [bytes(32), *in_pieces(b"\0\x0chel\0" + ENDED, 1)], [after, *events]


def original():
    """Yields the cases of the tests of the crate."""
    yield from encoding_tests()
    yield from decoding_tests()
    for name, message, frame in EXAMPLES:
        if name not in ("example", "one zero"):
            for case in example_as_tested(message, frame):
                yield name, *case
    yield from roundtrip_tests()
    yield from decoder_tests()


def examples():
    for name, message, frame in EXAMPLES:
        if name in ("example", "test_encode_2"):
            for case in example_as_tested(message, frame):
                yield "example", *case
        for case in example_by_other_calls(message, frame):
            yield "example", *case
        if message:
            # the state machine writes the frame that doesn't end in a full block
            opened = frame + b"\1" if frame[-255:-254] == b"\xff" and 0 not in message[-254:] else frame
            case = [message[:-1], message[-1:]]
            yield "example", "encoder_state", case, [*model.encoder_state(*case)[:-1], opened]
    for some in [EXAMPLES[:8], EXAMPLES[8:11], EXAMPLES[11:]]:
        stream = b"".join(frame + b"\0" for _, _, frame in some)
        messages = [message for _, message, _ in some]
        yield "example", "encode_frames", messages, [stream]
        outcomes = [word for message in messages for word in ["message", message]]
        yield "example", "decode_stream", [2001, stream], outcomes


def encoders():
    yield "nothing", "encode", [b"", b"\xff" * 16], [1, b"\1" + b"\xff" * 15]
    for room, after in [(255, b""), (256, b"\xaa")]:
        yield "full", "encode", [ONES, b"\xaa" * room], [255, b"\xff" + ONES + after]
        yield "full", "try_encode", [ONES, b"\xaa" * room], ["ok", 255, b"\xff" + ONES + after]
    for message, buffer in [(ONES + b"\0", b"\xaa" * 256), (b"\0", b"\x09"), (b"", b"")]:
        yield "no-room", "try_encode", [message, buffer], ["too_small", NONE, buffer]
    yield "sentinel", "encode_with_sentinel", [b"\xff", MESSAGE, b"\x09" * 7], [5, b"\xfc\xf5\xf4\xfd\xf3\x09\x09"]
    yield "sentinel", "encode_with_sentinel", [b"\x0a", MESSAGE, b"\x09" * 5], [5, b"\x09\0\1\x08\6"]
    between, full = b"\0" + FRAME + b"\0\x09", b"\0\xff" + ONES + b"\0\xaa"
    yield "between", "encode_including_sentinels", [MESSAGE, b"\x09" * 8], [7, between]
    yield "between", "encode_including_sentinels", [ONES, b"\xaa" * 258], [257, full]
    for message, buffer, results in [
        (ONES, b"\xaa" * 258, ["ok", 257, full]),
        (b"", b"\x09" * 2, ["too_small", NONE, b"\x09" * 2]),
        (b"", b"\x09" * 3, ["ok", 3, b"\0\1\0"]),
        (b"\1", b"\x09" * 3, ["too_small", NONE, b"\x09" * 3]),
        (b"\1", b"\x09" * 4, ["ok", 4, b"\0\2\1\0"]),
    ]:
        yield "between", "try_encode_including_sentinels", [message, buffer], results
    for length, overhead, longest in [(0, 1, 1), (1, 1, 2), (5, 1, 6), (254, 1, 255), (255, 2, 257), (509, 3, 512)]:
        yield "lengths", "max_encoding_overhead", [length], [overhead]
        yield "lengths", "max_encoding_length", [length], [longest]
    for room, pieces, results in [
        (3, [], [1, b"\1\xaa\xaa"]),
        (3, [b"\1\2", b"\3"], [3, b"\3\1\2", "ok", "too_small"]),
        (257, [ONES, b""], [255, b"\xff" + ONES + b"\xaa\xaa", "ok", "ok"]),
        (257, [ONES, b"\0"], [257, b"\xff" + ONES + b"\1\1", "ok", "ok"]),
        (256, [ONES, b"\0"], [255, b"\xff" + ONES + b"\xaa", "ok", "too_small"]),
        (255, [ONES, b"\1", b"\0", b""], [255, b"\xff" + ONES, "ok", "too_small", "too_small", "ok"]),
        (1, [ONES + b"\0" + ONES, b""], [1, b"\1", "too_small", "ok"]),
    ]:
        yield "pieces", "encoder", [b"\xaa" * room, *pieces], results
    for message, byte, results in [
        (b"", b"\x0a", ["add_single", NONE, NONE, b"\x0a", 0, 2, b"\2\x0a"]),
        (b"\x0a", b"\0", ["modify_and_skip", 0, 2, NONE, 2, 1, b"\2\x0a\1"]),
        (b"\x0a\0", b"\x0c", ["add_single", NONE, NONE, b"\x0c", 2, 2, b"\2\x0a\2\x0c"]),
        # the 254th byte closes the block, and the placeholder is after it
        (ONES[:-1], b"\1", ["modify_push_and_skip", 0, 255, b"\1", 255, 1, b"\xff" + ONES + b"\1"]),
        (ONES, b"\0", ["modify_and_skip", 255, 1, NONE, 256, 1, b"\xff" + ONES + b"\1\1"]),
    ]:
        yield "state", "encoder_state", [message, byte], results
    for call, arguments, result in [
        ("encode_vec", [b"\0\0\1\0"], b"\1\1\2\1\1"),
        ("encode_vec_with_sentinel", [b"\x0a", MESSAGE], b"\x09\0\1\x08\6"),
        ("encode_vec_including_sentinels", [MESSAGE], b"\0" + FRAME + b"\0"),
        ("encode_vec_including_sentinels", [b""], b"\0\1\0"),
        # as many zeros as two full blocks have bytes, and one: a code for each, and one more
        ("encode_vec_including_sentinels", [bytes(509)], b"\0" + b"\1" * 510 + b"\0"),
    ]:
        yield "vector", call, arguments, [result]


def decoders():
    ended, nines = b"\xff" + ONES, b"\x09" * 254
    for source, buffer, results in [
        (b"\0\2\5", b"\x09" * 3, ["ok", 3, 1, b"\5\x09\x09"]),
        (b"\2\5\0\2\6", b"\x09" * 4, ["ok", 3, 1, b"\5\x09\x09\x09"]),
        (b"\0\0\2\5\0\x09", b"\x09", ["ok", 5, 1, b"\5"]),
        (FRAME, bytes(4), ["ok", 5, 4, MESSAGE]),
        # the front of this frame up to the end of a block
        (FRAME[:3], b"\x09" * 4, ["ok", 3, 2, b"\x0a\x0b\x09\x09"]),
        # the longer one of two frames, and the encoded one with its sentinel
        (ended + b"\1", nines, ["ok", 256, 254, ONES]),
        (ended + b"\0", nines, ["ok", 256, 254, ONES]),
        (ended, nines[1:], ["too_small", NONE, NONE, ONES[1:]]),
        (b"", b"\5\x09\x09", ["empty", NONE, NONE, b"\5\x09\x09"]),
        (b"\0\0", b"\x09" * 3, ["invalid", NONE, 0, b"\x09" * 3]),
        (b"\0\0", b"\5\x09\x09", ["invalid", NONE, 0, b"\5\x09\x09"]),
        (b"\2\5\3\1", bytes(4), ["invalid", NONE, 3, b"\5\0\1\0"]),
        (b"\3\1\0", b"\x09" * 4, ["invalid", NONE, 1, b"\1\x09\x09\x09"]),
        (FRAME, b"\x09", ["too_small", NONE, NONE, b"\x0a"]),
        (FRAME, b"\x0a\x09", ["too_small", NONE, NONE, b"\x0a\x0b"]),
        (FRAME, b"\x09" * 3, ["too_small", NONE, NONE, b"\x0a\x0b\0"]),
        (FRAME, b"\x0a\x0b\x09", ["too_small", NONE, NONE, b"\x0a\x0b\0"]),
    ]:
        yield "decode", "decode", [source, buffer], results
    for call, buffer, results in [
        ("decode_in_place_report", FRAME + b"\0\7", ["ok", 5, 4, MESSAGE + b"\x0c\0\7"]),
        ("decode_in_place", b"\2\5\0\x08", ["ok", 1, b"\5\5\0\x08"]),
        ("decode_in_place_report", ended + b"\1\0", ["ok", 256, 254, ONES + b"\1\1\0"]),
        # a leading zero is read as an empty message
        ("decode_in_place_report", b"\0", ["ok", 0, 0, b"\0"]),
        ("decode_in_place_report", b"\0\2\5", ["ok", 0, 0, b"\0\2\5"]),
        ("decode_in_place", b"\0\2\5", ["ok", 0, b"\0\2\5"]),
        ("decode_in_place_report", b"\2\5\3\1", ["invalid", NONE, 2, b"\5\0\3\1"]),
        ("decode_in_place", b"\2\5\3\1", ["invalid", 2, b"\5\0\3\1"]),
        ("decode_in_place_report", b"\1\1\x09\7", ["invalid", NONE, 2, b"\0\0\x09\7"]),
        ("decode_in_place_report", b"", ["empty", NONE, NONE, b""]),
        ("decode_in_place", b"", ["empty", NONE, b""]),
    ]:
        yield "in-place", call, [buffer], results
    # for another sentinel every byte changes, also after the sentinel
    results = ["ok", 4, MESSAGE + b"\x0c\0\x0d"]
    yield "in-place", "decode_in_place_with_sentinel", [b"\x0a", b"\x09\0\1\x08\6\x0a\7"], results
    yield "in-place", "decode_in_place_with_sentinel", [b"\x0a", b""], ["empty", NONE, b""]
    for sentinel, source, buffer, results in [
        (10, b"\x09\0\1\x08\6", b"\xff" * 8, ["ok", 4, MESSAGE + b"\xff" * 4]),
        (10, b"\x09\0\1\x08\6", b"\xff" * 3, ["too_small", NONE, b"\x0a\x0b\0"]),
        (10, b"\x09\0\1\x08\6", b"\x09" * 3, ["too_small", NONE, b"\x0a\x0b\0"]),
        (10, b"\x0a\x09", b"\xff" * 3, ["ok", 0, b"\xff" * 3]),
        (10, b"\x0a\x09", b"\x0a\x0b\0", ["ok", 0, b"\x0a\x0b\0"]),
        (0, b"\1", b"", ["ok", 0, b""]),
        (0, b"\2\5\3\1", b"\x09", ["too_small", NONE, b"\5"]),
        (0, b"\2\5\3\1", b"\x09" * 4, ["invalid", 2, b"\5\0\x09\x09"]),
        (0, b"", b"", ["empty", NONE, b""]),
    ]:
        yield "sentinel", "decode_with_sentinel", [bytes([sentinel]), source, buffer], results


def vectors_and_kinds():
    for source, message in [
        (b"\0" + FRAME + b"\0", MESSAGE),
        # joined frames join their messages, with a zero where the first doesn't end in a full block
        (b"\2\1\2\2", b"\1\0\2"),
        (b"\xff" + ONES + b"\2\2", ONES + b"\2"),
        (b"\0\1\0", b""),
        (b"\0" + b"\1" * 510 + b"\0", bytes(509)),
        (FRAME, MESSAGE),
    ]:
        yield "vector", "decode_vec", [source], ["ok", len(message), message]
    # a broken frame: the bytes of its last block count by the one call, and not by the other
    yield "vector", "decode_vec", [b"\2\5\3\1"], ["invalid", 3, b""]
    yield "vector", "decode_vec_with_sentinel", [b"\0", b"\2\5\3\1"], ["invalid", 2, b""]
    yield "vector", "decode_vec", [b"\0"], ["invalid", 0, b""]
    for sentinel, source, results in [
        (b"\x0a", b"\x09\0\1\x08\6", ["ok", 4, MESSAGE]),
        (b"\x0a", b"\x0a", ["ok", 0, b""]),
        (b"\x0a", b"", ["empty", NONE, b""]),
        (b"\0", FRAME, ["ok", 4, MESSAGE]),
    ]:
        yield "vector", "decode_vec_with_sentinel", [sentinel, source], results
    full = b"\xff" + ONES
    for kind, given in [
        ("not_a_frame", [b"", b"\0", b"\3\1", b"\2\0", FRAME[:4], full[:-1]]),
        ("canonical", [b"\1", FRAME[:3], full, full + b"\1\1", b"\1" + full]),
        ("longer", [full + b"\1", b"\1" + full + b"\1"]),
        ("canonical", [full * 3 + b"\xef" + ONES[:238] + full * 3 + b"\xef" + ONES[:238]]),
    ]:
        for source in given:
            yield "kind", "frame_kind", [source], [kind]


def streams():
    after = HELLO + bytes(21)
    for buffer, pieces, results in [
        # a frame that breaks off after three of its bytes, and then a whole one
        (bytes(32), [b"\0\x0chel\0", ENDED], [after, 6, "broken", b"hel", 19, "message", HELLO]),
        # a piece that is too long lasts through its sentinel
        (
            bytes(2),
            [b"\4\7\x08\x09", b"\0", b"\2\5\0"],
            [b"\5\x08", 4, "too_small", b"\7\x08", 5, "too_small", b"\7\x08", 8, "message", b"\5"],
        ),
        # the zero that joins two blocks needs room as soon as the code of the second comes
        (bytes(1), [b"\2\5\3", b"\0"], [b"\5", 3, "too_small", b"\5", 4, "too_small", b"\5"]),
        (bytes(2), [b"\2\5\3\0"], [b"\5\0", 4, "broken", b"\5\0"]),
        # the empty message in a buffer of no bytes, and then one that has no room
        (
            b"",
            [b"\1\0", b"\2\5", b"\0", b"\0", b"\1\0"],
            [b"", 2, "message", b"", 4, "too_small", b"", 5, "too_small", b"", 8, "message", b""],
        ),
        (bytes(4), [b"\3\7", "reset", b"\2\5\0"], [b"\5\0\0\0", 5, "message", b"\5"]),
        (bytes(4), [], [bytes(4)]),
        (b"", [], [b""]),
        (bytes(32), [DELIMITED + b"\0"], [after, 14, "message", HELLO]),
        # the bytes of a piece after a result are taken next
        (bytes(4), [b"\3\1\0\2\5\0"], [b"\5\0\0\0", 3, "broken", b"\1", 6, "message", b"\5"]),
        (
            bytes(4),
            [DAMAGED],
            [b"\x09\2\3\4", 5, "message", b"\7\x08", 8, "broken", b"\1", 14, "too_small", b"\1\2\3\4"]
            + [15, "too_small", b"\1\2\3\4", 18, "message", b"\x09"],
        ),
        # each byte of a piece that is too long has a result
        (
            bytes(1),
            [b"\4\7\x08\x09\0", b"\2\5\0"],
            [b"\5", 3, "too_small", b"\7", 4, "too_small", b"\7", 5, "too_small", b"\7", 8, "message", b"\5"],
        ),
        (
            bytes(1),
            [b"\4\7\x08\x09\0", b"\0\2\5\0\1"],
            [b"\5", 3, "too_small", b"\7", 4, "too_small", b"\7", 5, "too_small", b"\7", 9, "message", b"\5"],
        ),
        # the byte that doesn't fit is the last one consumed
        (
            bytes(2),
            [b"\4\7\x08\x09\0", b"\2\5\0"],
            [b"\5\x08", 4, "too_small", b"\7\x08", 5, "too_small", b"\7\x08", 8, "message", b"\5"],
        ),
        # 200 zeros: 201 codes of 1
        (b"\x09" * 200, [b"\1" * 90, b"\1" * 111, b"\0"], [bytes(200), 202, "message", bytes(200)]),
    ]:
        yield "decoder", "decoder", [buffer, *pieces], results


def readers():
    outcomes = ["message", b"\7\x08", "broken", 1, "too_long", NONE, "message", b"\x09", "end", NONE]
    # how many reads are needed for each of the five results, for reads of this size
    for size, reads in [(1, [5, 3, 7, 3, 1]), (2, [3, 1, 4, 1, 1]), (5, [1, 1, 1, 1, 1]), (64, [1, 0, 0, 0, 1])]:
        results = [word for at, made in enumerate(reads) for word in [made, *outcomes[2 * at : 2 * at + 2]]]
        yield "reader", "next_frame", [4, *in_pieces(DAMAGED, size)], results
    end = [1, "end", NONE]
    # an unfinished piece continues after the end of the source
    results = [1, "message", b"\5", 1, "unfinished", NONE, 1, "message", b"\1\7", *end]
    yield "reader", "next_frame", [4, b"\2\5\0\3\1", b"", b"\7\0"], results
    # three frames of one read: the second and the third are found without another
    results = [1, "message", b"", 0, "message", b"", 0, "message", b"\5", *end]
    yield "reader", "next_frame", [4, b"\1\0\1\0\2\5\0"], results
    # a failed read inside a frame loses nothing
    yield "reader", "next_frame", [4, b"\2", "fail", b"\5", b"\0"], [2, "failed", NONE, 2, "message", b"\5", *end]


def level(call, arguments, results):
    """Returns `owed` for the frame of a message and the message of a frame, and `choice` for other results."""
    is_frame = call == "decode_vec" and results[0] == "ok" and model.frame_kind(*arguments) == ["canonical"]
    return "owed" if is_frame or call in ("encode_vec", "encode_vec_with_sentinel", "encode_frames") else "choice"


def add(group, cases, others=()):
    """Compares the cases with the model, and adds them to a group, except those that another group has."""
    for name, call, arguments, results in cases:
        found = getattr(model, call)(*arguments)
        assert found == results, f"{name}: {call} {arguments}: by hand {results}, by the model {found}"
        if not any(other.has(call, arguments, results) for other in others):
            group.line(name, level(call, arguments, results), call, arguments, results)


def of_tests(group):
    """Adds the cases of the tests of the crate. Two tests may have the same case."""
    seen = set()
    for case in original():
        add(group, [case])
        # by_hand.txt has the cases of this test as examples already, and its lines don't change
        if case[0] != "test_encode_2":
            seen |= group.seen
        group.seen = set()
    group.seen = seen
    return group


def of_own(group, others):
    """Adds the other cases."""
    for cases in [examples, encoders, decoders, vectors_and_kinds, streams, readers]:
        add(group, cases(), others)
    return group
