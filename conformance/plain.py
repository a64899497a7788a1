#!/usr/bin/env python3
"""A plain COBS library: an encoder with one loop, which patches a placeholder, and a decoder that takes single bytes. And the
program that runs the cases with this library:

    cat conformance/*.txt | python3 conformance/plain.py

The program prints each case that differs, and then the number of cases. wrong_bodies.py puts wrong function bodies into the
library.
"""

import sys


class Encoder:
    """Writes a frame into a buffer, from a message in pieces."""

    def __init__(self, buffer):
        self.buffer, self.index, self.code, self.full = buffer, 0, 1, False

    def end(self):
        return self.index if self.full else self.index + self.code

    def put(self, byte):
        if byte == 0:
            self.write(self.index, self.code)
            self.index, self.code = self.index + self.code, 1
            self.full = False
            return
        self.full = False
        self.write(self.index + self.code, byte)
        self.code += 1
        if self.code == 255:
            self.write(self.index, 255)
            self.index, self.code, self.full = self.index + 255, 1, True

    def write(self, at, byte):
        self.buffer[at] = byte

    def fits(self, piece):
        trial = Measure(self)
        for byte in piece:
            trial.put(byte)
        return trial.end() <= len(self.buffer)

    def push(self, piece):
        if not self.fits(piece):
            return False
        for byte in piece:
            self.put(byte)
        return True

    def finalize(self):
        if not self.full:
            self.buffer[self.index] = self.code
        return self.end()


class Measure(Encoder):
    """Counts like an encoder, but writes nothing."""

    def __init__(self, encoder):
        self.index, self.code, self.full = encoder.index, encoder.code, encoder.full

    def write(self, at, byte):
        pass


class Decoder:
    """Decodes a stream byte by byte. A result is None, or a kind and the number of bytes in the buffer."""

    def __init__(self, buffer):
        self.buffer = buffer
        self.reset()

    def reset(self):
        self.begun, self.left, self.full, self.count, self.over = False, 0, False, 0, False

    def put(self, byte):
        if self.count == len(self.buffer):
            self.over = True
        else:
            self.buffer[self.count] = byte
            self.count += 1

    def feed(self, byte):
        if byte == 0:
            result = self.ended()
            self.reset()
            return result
        if self.over:
            return "too_small", len(self.buffer)
        if self.left > 0:
            self.left -= 1
            self.put(byte)
        else:
            if self.begun and self.has_zero_behind():
                self.put(0)
            self.begun, self.left, self.full = True, byte - 1, byte == 255
        return ("too_small", len(self.buffer)) if self.over else None

    def has_zero_behind(self):
        return not self.full

    def ended(self):
        if self.over:
            return "too_small", len(self.buffer)
        if not self.begun:
            return None
        return ("message" if self.left == 0 else "broken"), self.count

    def push(self, piece):
        """Returns the first result that isn't None, and how many bytes were taken."""
        for at, byte in enumerate(piece):
            result = self.feed(byte)
            if result:
                return result, at + 1
        return None, len(piece)


class Source:
    """Returns the reads of a case, and 0 bytes after the last one."""

    def __init__(self, reads):
        self.reads, self.made = reads, 0

    def read(self):
        self.made += 1
        return self.reads[self.made - 1] if self.made <= len(self.reads) else b""


class Reader:
    """Reads frames from a source, and keeps the bytes that it has read after a frame."""

    def __init__(self, decoder):
        self.decoder, self.kept, self.unfinished = decoder, b"", False

    def next(self, source):
        while True:
            for at, byte in enumerate(self.kept):
                result = self.decoder.feed(byte)
                self.unfinished = byte != 0
                if result and byte == 0:
                    self.keep(at + 1)
                    return result
            self.kept = b""
            read = source.read()
            if read == "fail":
                return "failed", 0
            if not read:
                return self.at_end(source)
            self.kept = read

    def keep(self, taken):
        self.kept = self.kept[taken:]

    def at_end(self, source):
        return ("unfinished" if self.unfinished else "end"), 0


class Library:
    """The calls of the cases. The arguments and results are values; `-` and digits are converted below."""

    Encoder, Decoder, StreamDecoder, Reader = Encoder, Decoder, Decoder, Reader

    # Encoding

    def max_encoding_overhead(self, length):
        return [(length + 253) // 254 if length else 1]

    def max_encoding_length(self, length):
        return [length + self.max_encoding_overhead(length)[0]]

    def try_encode(self, message, buffer):
        buffer = bytearray(buffer)
        if not buffer:
            return ["too_small", None, buffer]
        encoder = self.Encoder(buffer)
        if not encoder.push(message):
            return ["too_small", None, buffer]
        return ["ok", encoder.finalize(), buffer]

    def encode(self, message, buffer):
        return self.try_encode(message, buffer)[1:]

    def encode_vec(self, message):
        length, buffer = self.encode(message, bytes(self.max_encoding_length(len(message))[0] + 1))
        return [buffer[:length]]

    def try_encode_including_sentinels(self, message, buffer):
        buffer = bytearray(buffer)
        status, length, inner = self.try_encode(message, buffer[1:-1]) if len(buffer) > 2 else ["too_small", None, b""]
        if status == "ok":
            buffer[1:-1] = inner
            buffer[0] = buffer[length + 1] = 0
            length += 2
        return [status, length, buffer]

    def encode_including_sentinels(self, message, buffer):
        return self.try_encode_including_sentinels(message, buffer)[1:]

    def encode_vec_including_sentinels(self, message):
        return [b"\0" + self.encode_vec(message)[0] + b"\0"]

    def try_encode_with_sentinel(self, sentinel, message, buffer):
        status, length, buffer = self.try_encode(message, buffer)
        if status == "ok":
            buffer[:length] = masked(buffer[:length], sentinel)
        return [status, length, buffer]

    def encode_with_sentinel(self, sentinel, message, buffer):
        return self.try_encode_with_sentinel(sentinel, message, buffer)[1:]

    def encode_vec_with_sentinel(self, sentinel, message):
        return [masked(self.encode_vec(message)[0], sentinel)]

    def encoder(self, buffer, *pieces):
        buffer = bytearray(buffer)
        encoder = self.Encoder(buffer)
        results = ["ok" if encoder.push(piece) else "too_small" for piece in pieces]
        return [encoder.finalize(), buffer, *results]

    def encode_frames(self, *messages):
        return [b"".join(self.encode_vec(message)[0] + b"\0" for message in messages)]

    # Decoding

    def decode(self, source, buffer):
        buffer = bytearray(buffer)
        if not source:
            return ["empty", None, None, buffer]
        decoder = self.Decoder(buffer)
        for at, byte in enumerate(source):
            result = decoder.feed(byte)
            if result:
                return self.decoded(decoder, result, at + 1)
        return self.decoded(decoder, decoder.ended() or ("broken", 0), len(source))

    def decoded(self, decoder, result, taken):
        kind, count = result
        if kind == "message":
            return ["ok", taken, count, decoder.buffer]
        return ["invalid" if kind == "broken" else kind, None, count if kind == "broken" else None, decoder.buffer]

    def decode_vec(self, source):
        status, _, length, buffer = self.decode(source, bytes(len(source)))
        return [status, length, buffer[:length] if status == "ok" else b""]

    def decode_in_place_report(self, buffer):
        buffer = bytearray(buffer)
        if not buffer:
            return ["empty", None, None, buffer]
        end = buffer.index(0) if 0 in buffer else len(buffer)
        read = written = 0
        while read < end:
            code = buffer[read]
            if end - read < code:
                return ["invalid", None, written, buffer]
            buffer[written : written + code - 1] = buffer[read + 1 : read + code]
            read, written = read + code, written + code - 1
            written = self.joined_in_place(buffer, code, written, read < end)
        return ["ok", end, written, buffer]

    def joined_in_place(self, buffer, code, written, goes_on):
        if code < 255 and goes_on:
            buffer[written] = 0
            return written + 1
        return written

    def decode_in_place(self, buffer):
        status, _, length, buffer = self.decode_in_place_report(buffer)
        return [status, length, buffer]

    def decode_in_place_with_sentinel(self, sentinel, buffer):
        return self.decode_in_place(masked(buffer, sentinel))

    def decode_with_sentinel(self, sentinel, source, buffer):
        status, length, decoded = self.decode_in_place(masked(source, sentinel))
        if status == "empty":
            return [status, length, buffer]
        if length > len(buffer):
            return ["too_small", None, decoded[: len(buffer)]]
        return [status, length, decoded[:length] + buffer[length:]]

    def decode_vec_with_sentinel(self, sentinel, source):
        status, length, buffer = self.decode_with_sentinel(sentinel, source, bytes(len(source)))
        return [status, length, buffer[:length] if status == "ok" else b""]

    def frame_kind(self, given):
        at, behind_full, lone = 0, False, False
        while at < len(given):
            code = given[at]
            if code == 0 or 0 in given[at : at + code] or len(given) - at < code:
                return ["not_a_frame"]
            at, lone, behind_full = at + code, behind_full and code == 1, code == 255
        return ["not_a_frame" if not given else "longer" if lone else "canonical"]

    # Streams

    def decoder(self, buffer, *pieces):
        decoder, taken, events = self.StreamDecoder(bytearray(buffer)), 0, []
        for piece in pieces:
            if piece == "reset":
                decoder.reset()
            while piece and piece != "reset":
                result, consumed = decoder.push(piece)
                taken, piece = taken + consumed, piece[consumed:]
                if result:
                    events += [taken, result[0], bytes(decoder.buffer[: result[1]])]
        return [decoder.buffer, *events]

    def outcome(self, decoder, result):
        kind, count = result
        if kind == "message":
            return [kind, bytes(decoder.buffer[:count])]
        return ["too_long", None] if kind == "too_small" else [kind, count if kind == "broken" else None]

    def decode_stream(self, room, *pieces):
        decoder, outcomes = self.StreamDecoder(bytearray(room)), []
        for piece in pieces:
            self.begin_call(decoder)
            for byte in piece:
                result = decoder.feed(byte)
                if result and byte == 0:
                    outcomes += self.outcome(decoder, result)
        return outcomes

    def begin_call(self, decoder):
        pass

    def next_frame(self, room, *reads):
        source, results = Source(reads), []
        reader = self.Reader(self.StreamDecoder(bytearray(room)))
        for _ in range(1000):
            before = source.made
            result = reader.next(source)
            results += [source.made - before, *self.outcome(reader.decoder, result)]
            if result[0] in ("end", "unfinished") and source.made >= len(reads):
                break
        return results

    # State machines

    def encoder_state(self, message, byte):
        frame, index, code = bytearray(1), 0, 1
        for at, one in enumerate(message + byte):
            if one == 0:
                result = ["modify_and_skip", index, code, None]
                frame[index] = code
                frame.append(0)
                index, code = index + code, 1
            elif code < 254:
                result = ["add_single", None, None, bytes([one])]
                frame.append(one)
                code += 1
            else:
                result = ["modify_push_and_skip", index, 255, bytes([one])]
                frame[index] = 255
                frame += bytes([one, 0])
                index, code = index + 255, 1
        frame[index] = code
        return [*result, index, code, frame]

    def decoder_state(self, state, left, byte):
        byte = byte[0]
        if state != "idle" and left > 0:
            return ["invalid", None, "idle", None] if byte == 0 else ["data_continue", byte, state, left - 1]
        if byte == 0:
            return ["no_data" if state == "idle" else "data_complete", None, "idle", None]
        begun = {"idle": ["data_start", None], "grab": ["data_continue", 0], "grab_chain": ["no_data", None]}[state]
        return [*begun, "grab_chain" if byte == 255 else "grab", byte - 1]


def masked(given, sentinel):
    return bytes(byte ^ sentinel[0] for byte in given)


# The runner

NUMBERS = {"max_encoding_overhead": [0], "max_encoding_length": [0], "decode_stream": [0], "next_frame": [0]}
NAMES = {"reset", "fail", "idle", "grab", "grab_chain"}
REFUSALS = {"empty", "invalid", "too_small", "broken", "too_long"}


def written_out(word):
    """Expands a word that is written in parts: repeats the digits of each part as often as the number after the star says."""
    parts = (part.partition("*") for part in word.split("+"))
    return "".join(digits * int(count or 1) for digits, _, count in parts)


def value_of(call, at, word):
    if at in NUMBERS.get(call, []) or (call == "decoder_state" and at == 1 and word != "-"):
        return int(word)
    if word in NAMES:
        return word
    return b"" if word == "-" else bytes.fromhex(word)


def word_of(value):
    if value is None:
        return "-"
    return (bytes(value).hex() or "-") if isinstance(value, (bytes, bytearray)) else str(value)


def agrees(wanted, came):
    return wanted in ("?", came) or (wanted == "refused" and came in REFUSALS)


def run(library, line):
    """Returns whether the library's results are those of a case, the name of the case, the expected results, and the library's results."""
    words = line.split(" ")
    name, _, call = words[:3]
    arrow = words.index("->")
    arguments = [value_of(call, at, word) for at, word in enumerate(words[3:arrow])]
    wanted = words[arrow + 1 :]
    try:
        came = [word_of(value) for value in getattr(library, call)(*arguments)]
    except (IndexError, TypeError, ValueError) as fault:
        came = [type(fault).__name__]
    same = len(came) == len(wanted) and all(map(agrees, wanted, came))
    return same, name, " ".join(wanted), " ".join(came)


def cases(file):
    lines = [line for line in file.read().splitlines() if line and not line.startswith("#")]
    return [" ".join(map(written_out, line.split(" "))) for line in lines]


def main():
    lines, differing = cases(sys.stdin), 0
    for same, name, wanted, came in (run(Library(), line) for line in lines):
        if not same:
            differing += 1
            print(f"{name}: wanted {wanted}, came {came}")
    print(f"{len(lines)} cases, {differing} differ")
    return 1 if differing else 0


if __name__ == "__main__":
    sys.exit(main())
