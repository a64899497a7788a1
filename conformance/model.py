"""Computes the results of each call, and the contents of the buffer after the call, from the definition of blocks and pieces.

A function of this file takes the words of a line before '->' as values, and returns the values of the words after '->'. If COBS
itself doesn't determine a result, docs/PROMISES.md says what this library returns; the lines with such results are marked
`choice`.
"""

from definition import encoded_frame, is_longer, is_whole, kept_output, masked, output

NONE = "-"


def max_encoding_overhead(length):
    return [max(1, -(-length // 254))]


def max_encoding_length(length):
    return [length + max_encoding_overhead(length)[0]]


def laid_over(before, given):
    """Returns the buffer after `given` is written to its front."""
    return given + before[len(given) :]


# Encoding


def try_write(written, before):
    if len(written) > len(before):
        return ["too_small", NONE, before]
    return ["ok", len(written), laid_over(before, written)]


def encode_vec(message):
    return [encoded_frame(message)]


def encode_vec_including_sentinels(message):
    return [b"\0" + encoded_frame(message) + b"\0"]


def encode_vec_with_sentinel(sentinel, message):
    return [masked(encoded_frame(message), sentinel[0])]


def try_encode(message, before):
    return try_write(encoded_frame(message), before)


def try_encode_including_sentinels(message, before):
    return try_write(b"\0" + encoded_frame(message) + b"\0", before)


def encode(message, before):
    return try_encode(message, before)[1:]


def encode_including_sentinels(message, before):
    return try_encode_including_sentinels(message, before)[1:]


def try_encode_with_sentinel(sentinel, message, before):
    return try_write(encode_vec_with_sentinel(sentinel, message)[0], before)


def encode_with_sentinel(sentinel, message, before):
    return try_encode_with_sentinel(sentinel, message, before)[1:]


def encoder(before, *pieces):
    """Returns the results of a streaming encoder. A piece is rejected if the frame of all bytes so far and of this piece doesn't fit."""
    taken, results = b"", []
    for piece in pieces:
        fits = len(encoded_frame(taken + piece)) <= len(before)
        results.append("ok" if fits else "too_small")
        taken += piece if fits else b""
    return [len(encoded_frame(taken)), laid_over(before, encoded_frame(taken)), *results]


def encode_frames(*messages):
    return [b"".join(encoded_frame(message) + b"\0" for message in messages)]


# Decoding


def outcome(piece, room):
    """Returns the outcome of a nonempty piece with a buffer of `room` bytes."""
    if len(output(piece)) > room:
        return "too_long", NONE
    return ("message", output(piece)) if is_whole(piece) else ("broken", len(output(piece)))


def front(given):
    return given.split(b"\0")[0]


def decode(source, before):
    if not source:
        return ["empty", NONE, NONE, before]
    piece = front(source.lstrip(b"\0"))
    if not piece:
        return ["invalid", NONE, 0, before]
    consumed = len(source) - len(source.lstrip(b"\0")) + len(piece)
    kind, value = outcome(piece, len(before))
    if kind == "too_long":
        return ["too_small", NONE, NONE, output(piece)[: len(before)]]
    if kind == "broken":
        return ["invalid", NONE, value, laid_over(before, output(piece))]
    return ["ok", consumed + (consumed < len(source)), len(value), laid_over(before, value)]


def decode_vec(source):
    status, _, length, after = decode(source, bytes(len(source)))
    return [status, length, after[:length] if status == "ok" else b""]


def decode_in_place_report(before):
    if not before:
        return ["empty", NONE, NONE, before]
    piece = front(before)
    after = laid_over(before, kept_output(piece)) if piece else before
    if piece and not is_whole(piece):
        return ["invalid", NONE, len(kept_output(piece)), after]
    return ["ok", len(piece), len(kept_output(piece)) if piece else 0, after]


def decode_in_place(before):
    status, _, length, after = decode_in_place_report(before)
    return [status, length, after]


def decode_in_place_with_sentinel(sentinel, before):
    return decode_in_place(masked(before, sentinel[0]))


def decode_with_sentinel(sentinel, source, before):
    source = masked(source, sentinel[0])
    if not source:
        return ["empty", NONE, before]
    piece = front(source)
    kept = kept_output(piece) if piece else b""
    if len(kept) > len(before):
        return ["too_small", NONE, kept[: len(before)]]
    return ["ok" if not piece or is_whole(piece) else "invalid", len(kept), laid_over(before, kept)]


def decode_vec_with_sentinel(sentinel, source):
    status, length, after = decode_with_sentinel(sentinel, source, bytes(len(source)))
    return [status, length, after[:length] if status == "ok" else b""]


def frame_kind(given):
    if not is_whole(given):
        return ["not_a_frame"]
    return ["longer" if is_longer(given) else "canonical"]


# Streams


def bytes_that_fit(piece, room):
    """Returns how many bytes of a piece, from its first byte on, decode to an output that fits."""
    if len(output(piece)) <= room:
        return len(piece)
    fit, over = 0, len(piece)
    while fit + 1 < over:
        middle = (fit + over) // 2
        fit, over = (middle, over) if len(output(piece[:middle])) <= room else (fit, middle)
    return fit


def decoder(before, *pieces):
    """Returns every result of a streaming decoder except 'nothing yet': the bytes consumed, a kind, and the first bytes of the buffer."""
    room, buffer, piece, taken, events = len(before), before, b"", 0, []
    for given in pieces:
        if given == "reset":
            piece = b""
            continue
        runs = given.split(b"\0")
        for at, run in enumerate(runs):
            begun, piece = len(piece), piece + run
            buffer = laid_over(buffer, output(piece)[:room])
            for end in range(max(begun, bytes_that_fit(piece, room)) + 1, len(piece) + 1):
                events += [taken + end - begun, "too_small", buffer]
            taken += len(run)
            if at == len(runs) - 1:
                continue
            taken += 1
            if piece:
                kind = outcome(piece, room)[0]
                events += [taken, "too_small", buffer] if kind == "too_long" else [taken, kind, output(piece)]
            piece = b""
    return [buffer, *events]


def decode_stream(room, *pieces):
    """Returns the outcome of each frame or broken frame that a zero ends, for one decoder that gets the bytes in several calls."""
    ended = b"".join(pieces).split(b"\0")[:-1]
    return [word for piece in ended if piece for word in outcome(piece, room)]


def next_frame(room, *reads):
    """Returns the results of a reader of frames, until a call reports the end of the source after all reads were made. The source
    returns these reads, and then 0 bytes for each read."""
    left, bytes_left, results = list(reads), b"", []
    while True:
        made = 0
        while b"\0" not in bytes_left.lstrip(b"\0"):
            made += 1
            read = left.pop(0) if left else b""
            if read == "fail" or not read:
                break
            bytes_left += read
        piece, ended, behind = bytes_left.lstrip(b"\0").partition(b"\0")
        if ended:
            results += [made, *outcome(piece, room)]
            bytes_left = behind
        elif read == "fail":
            results += [made, "failed", NONE]
        else:
            results += [made, "unfinished" if piece else "end", NONE]
            if not left:
                return results


# State machines


def encoder_state(message, byte):
    """Returns the result of the state machine for one more byte after the bytes of `message`, its index and code after this byte, and
    the frame of its caller, who inserts each placeholder. The last block of this frame is never full."""

    def opened(given):
        frame = encoded_frame(given)
        last = len(encoded_frame(given[: given.rfind(b"\0") + 1])) - 1
        full = (len(frame) - last) // 255
        if last + 255 * full == len(frame):
            frame += b"\1"
        return last + 255 * full, frame[last + 255 * full], frame

    index, code, _ = opened(message)
    after_index, after_code, frame = opened(message + byte)
    if byte == b"\0":
        result = ["modify_and_skip", index, code, NONE]
    elif code < 254:
        result = ["add_single", NONE, NONE, byte]
    else:
        result = ["modify_push_and_skip", index, 255, byte]
    return [*result, after_index, after_code, frame]


def decoder_state(state, left, byte):
    """Returns the result of the decoding state machine for a byte in a state, and the state that follows, from its table."""
    byte = byte[0]
    begun = ("grab_chain", 254) if byte == 255 else ("grab", byte - 1)
    if state != "idle" and left > 0:
        return ["invalid", NONE, "idle", NONE] if byte == 0 else ["data_continue", byte, state, left - 1]
    if byte == 0:
        return ["no_data" if state == "idle" else "data_complete", NONE, "idle", NONE]
    result = {"idle": ["data_start", NONE], "grab": ["data_continue", 0], "grab_chain": ["no_data", NONE]}[state]
    return [*result, *begun]
