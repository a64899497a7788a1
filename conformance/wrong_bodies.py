#!/usr/bin/env python3
"""Puts wrong function bodies into the library of plain.py, one at a time, and shows a case that notices each of them.

For each wrong body the script prints how many cases notice it, how many of these cases hold for every COBS library (level
`owed`), and the first of these cases with the expected and the actual result. The status is 1 if no case notices a body, or if
the library itself fails a case.
"""

import glob
import itertools
import os
import sys

from plain import Decoder, Encoder, Library, Measure, Reader, cases, masked, run

HERE = os.path.dirname(os.path.abspath(__file__))


# Encoders


class ClosesFullBlock(Encoder):
    def finalize(self):
        if self.full:
            self.buffer[self.index] = 1
            return self.index + 1
        return super().finalize()

    def fits(self, piece):
        trial = Measure(self)
        for byte in piece:
            trial.put(byte)
        return trial.end() + trial.full <= len(self.buffer)


class WritesBehindFrame(Encoder):
    def finalize(self):
        if self.full and self.index < len(self.buffer):
            self.buffer[self.index] = 1
        return super().finalize()


class ClearsBuffer(Encoder):
    def __init__(self, buffer):
        super().__init__(buffer)
        buffer[:] = bytes(len(buffer))


class AddsByteForEmptyPush(Encoder):
    def push(self, piece):
        self.full = self.full and piece != b""
        return super().push(piece)

    def finalize(self):
        if self.end() <= len(self.buffer):
            return super().finalize()
        return self.end()


class RefusesForPlaceholder(Encoder):
    def fits(self, piece):
        trial = Measure(self)
        for byte in piece:
            trial.put(byte)
        return trial.index + trial.code <= len(self.buffer)


class WritesThenRefuses(Encoder):
    def push(self, piece):
        for byte in piece:
            if self.index + self.code + 1 > len(self.buffer):
                return False
            self.put(byte)
        return self.end() <= len(self.buffer)


class AnswersPastBuffer(Library):
    def try_encode(self, message, buffer):
        status, length, after = super().try_encode(message, bytes(buffer) + b"\0")
        if status == "ok" and length > len(buffer) and message[-1:] in (b"", b"\0"):
            return [status, length, after[:-1]]
        return super().try_encode(message, buffer)


class WrapsIndex(Encoder):
    def put(self, byte):
        super().put(byte)
        self.index %= 65536


class EncodesOneStretch(Library):
    def encode_vec(self, message):
        return super().encode_vec(message[:8192])


# Decoders


class AddsZeroAfterFullBlock(Decoder):
    def has_zero_behind(self):
        return True


class AddsZeroInPlace(Library):
    def joined_in_place(self, buffer, code, written, goes_on):
        return super().joined_in_place(buffer, 1 if code == 255 else code, written, goes_on)


class AcceptsShortLastBlock(Decoder):
    def ended(self):
        result = super().ended()
        return ("message", result[1]) if result and result[0] == "broken" else result


class RefusesLoneBlockAfterFull(Decoder):
    def reset(self):
        super().reset()
        self.lone = False

    def feed(self, byte):
        at_code, full = self.left == 0 and byte != 0, self.full
        result = super().feed(byte)
        if byte != 0:
            self.lone = at_code and full and byte == 1
        return result

    def ended(self):
        result = super().ended()
        return ("broken", result[1]) if result and result[0] == "message" and self.lone else result


class SkipsPieceAfterBroken(Decoder):
    skipping = False

    def feed(self, byte):
        if self.skipping:
            self.skipping = byte != 0
            return None
        result = super().feed(byte)
        self.skipping = bool(result) and result[0] == "broken"
        return result


class ReportsCutMessage(Decoder):
    def ended(self):
        return ("message", len(self.buffer)) if self.over else super().ended()


class WritesWrongBytes(Decoder):
    def put(self, byte):
        super().put(byte ^ 1 if self.count else byte)


class WritesWrongByteLate(Decoder):
    def put(self, byte):
        super().put(byte ^ 1 if self.count == 8192 else byte)


class PushesStretch(Decoder):
    def push(self, piece):
        result, taken = super().push(piece[:8192])
        return result, taken if result else len(piece)


class OmitsLastByte(Decoder):
    def push(self, piece):
        result, taken = super().push(piece)
        return result, taken - (bool(result) and result[0] != "message" and taken > 1)


class ReadsDestination(Library):
    def decode_with_sentinel(self, sentinel, source, buffer):
        copied = masked(source[: len(buffer)], sentinel)
        return self.decode_in_place(copied + buffer[len(copied) :])


class WritesZeroBehindMessage(Library):
    def joined_in_place(self, buffer, code, written, goes_on):
        if code < 255 and written < len(buffer):
            buffer[written] = 0
        return super().joined_in_place(buffer, code, written, goes_on)


class CountsKeptOutput(Library):
    def decode(self, source, buffer):
        status, taken, count, after = super().decode(source, buffer)
        piece = source.lstrip(b"\0").split(b"\0")[0]
        if status == "invalid" and piece:
            count = self.decode_in_place(piece)[1]
        return [status, taken, count, after]


class AlwaysCanonical(Library):
    def frame_kind(self, given):
        kind = super().frame_kind(given)[0]
        return ["canonical" if kind == "longer" else kind]


# Streams


class DropsBegunPiece(Library):
    def begin_call(self, decoder):
        decoder.reset()


class DropsKeptBytes(Reader):
    def keep(self, taken):
        self.kept = b""


class ReadsTooEarly(Reader):
    def next(self, source):
        if self.kept:
            read = source.read()
            self.kept += b"" if read == "fail" else read
        return super().next(source)


class ReadsAfterEnd(Reader):
    def at_end(self, source):
        read = source.read()
        if read and read != "fail":
            self.kept = read
            return self.next(source)
        return super().at_end(source)


def with_parts(**parts):
    return type("Library", (Library,), parts)


BODIES = {
    "encode_closes_full_block_with_01": with_parts(Encoder=ClosesFullBlock),
    "decode_adds_zero_after_full_block": with_parts(Decoder=AddsZeroAfterFullBlock),
    "decode_adds_zero_after_full_block-in_place": AddsZeroInPlace,
    "decode_adds_zero_after_full_block-push": with_parts(StreamDecoder=AddsZeroAfterFullBlock),
    "decode_accepts_short_last_block": with_parts(Decoder=AcceptsShortLastBlock),
    "decode_accepts_short_last_block-push": with_parts(StreamDecoder=AcceptsShortLastBlock),
    "decode_refuses_lone_block_after_full": with_parts(Decoder=RefusesLoneBlockAfterFull),
    "decode_refuses_lone_block_after_full-push": with_parts(StreamDecoder=RefusesLoneBlockAfterFull),
    "stream_skips_piece_after_broken": with_parts(StreamDecoder=SkipsPieceAfterBroken),
    "stream_reports_message_after_overflow": with_parts(StreamDecoder=ReportsCutMessage),
    "sentinel_decode_reads_destination": ReadsDestination,
    "try_encode_writes_then_refuses": with_parts(Encoder=WritesThenRefuses),
    "try_encode_answers_past_slice": AnswersPastBuffer,
    "empty_push_adds_byte": with_parts(Encoder=AddsByteForEmptyPush),
    "in_place_writes_zero_after_message": WritesZeroBehindMessage,
    "frame_kind_always_canonical": AlwaysCanonical,
    "finalize_writes_after_frame": with_parts(Encoder=WritesBehindFrame),
    "new_clears_slice": with_parts(Encoder=ClearsBuffer),
    "push_refuses_for_placeholder": with_parts(Encoder=RefusesForPlaceholder),
    "decode_counts_kept_output": CountsKeptOutput,
    "decode_stream_drops_begun_piece": DropsBegunPiece,
    "next_frame_drops_kept_bytes": with_parts(Reader=DropsKeptBytes),
    "next_frame_reads_too_early": with_parts(Reader=ReadsTooEarly),
    "push_error_omits_last_byte": with_parts(StreamDecoder=OmitsLastByte),
    "decode_right_sizes_wrong_bytes": with_parts(Decoder=WritesWrongBytes),
    "push_right_sizes_wrong_bytes": with_parts(StreamDecoder=WritesWrongBytes),
    "next_frame_reads_after_end": with_parts(Reader=ReadsAfterEnd),
}

# What the short cases don't notice: these run long.txt, up to the first case that differs.
LONG_BODIES = {
    "encode_wraps_index_at_65536": with_parts(Encoder=WrapsIndex),
    "encode_drops_bytes_after_8192": EncodesOneStretch,
    "decode_writes_wrong_byte_at_8192": with_parts(Decoder=WritesWrongByteLate),
    "push_drops_bytes_after_8192": with_parts(StreamDecoder=PushesStretch),
}


def noticed(library, lines):
    return (result for result in (run(library(), line) for line in lines) if not result[0])


def cases_of(path):
    return cases(open(path, encoding="ascii"))


def main():
    long_file = f"{HERE}/long.txt"
    lines = [line for path in sorted(glob.glob(f"{HERE}/*.txt")) if path != long_file for line in cases_of(path)]
    owed = {line.split(" ")[0] for line in lines if line.split(" ")[1] == "owed"}
    failed = len(list(noticed(Library, lines)))
    print(f"the plain library: {len(lines)} cases, {failed} differ")
    for name, library in BODIES.items():
        found = list(noticed(library, lines))
        count = f"{len(found)} cases, {sum(result[1] in owed for result in found)} of them owed"
        failed += not reported(name, count, found)
    for name, library in LONG_BODIES.items():
        failed += any(noticed(library, lines))
        failed += not reported(name, "long cases alone", list(itertools.islice(noticed(library, cases_of(long_file)), 1)))
    return 1 if failed else 0


def reported(name, count, found):
    """Prints the first case that notices a body, and returns whether there is one."""
    if not found:
        print(f"{name}: NOTICED BY NO CASE")
        return False
    _, case, wanted, came = found[0]
    print(f"{name}: {count}; {case}")
    print(f"    wants {shortened(wanted, came)}, gets {shortened(came, wanted)}")
    return True


def shortened(words, other):
    """Returns a part of a long result, which begins a little before the first difference from the other result."""
    first = next((at for at, pair in enumerate(zip(words, other)) if pair[0] != pair[1]), min(len(words), len(other)))
    start = max(0, first - 20)
    return ".." * (start > 0) + words[start : first + 20] + ".." * (first + 20 < len(words))


if __name__ == "__main__":
    sys.exit(main())
