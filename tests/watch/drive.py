#!/usr/bin/env python3
"""Runs cobs_watch over pseudo-terminals, pipes and files, and compares its output with the text that Python makes from the frames.

    drive.py WATCH        WATCH is the built program. The parts over pseudo-terminals need socat.
"""

import binascii
import datetime
import json
import os
import pty
import random
import re
import select
import shutil
import signal
import struct
import subprocess
import sys
import tempfile
import time
import tty
import unicodedata
import zlib
import zoneinfo
from pathlib import Path

WATCH = sys.argv[1]
LIMIT = 65536
failed = []


def encode(message):
    """The frame of a message, by the definition: blocks end at zeros and after 254 other bytes."""
    out = bytearray()
    runs = message.split(b"\0")
    for number, run in enumerate(runs):
        while len(run) >= 254:
            out += b"\xff" + run[:254]
            run = run[254:]
            if not run and number == len(runs) - 1:
                return bytes(out)
        out += bytes([len(run) + 1]) + run
    return bytes(out)


def decode(piece):
    """What a piece without zeros decodes to, and whether its last block is whole."""
    out = bytearray()
    at = 0
    due = False
    while at < len(piece):
        if due:
            out.append(0)
        code = piece[at]
        block = piece[at + 1 : at + code]
        out += block
        if len(block) < code - 1:
            return bytes(out), False
        due = code < 255
        at += code
    return bytes(out), True


def pieces_of(stream, limit=LIMIT):
    """The kind, the length and the bytes of each piece that a zero ends, and whether another one has begun."""
    parts = stream.split(b"\0")
    seen = []
    for part in parts[:-1]:
        if part:
            output, whole = decode(part)
            if len(output) > limit:
                seen.append(("too long", None, b""))
            else:
                seen.append(("message" if whole else "broken", len(output), output if whole else b""))
    return seen, bool(parts[-1])


def text_of(data):
    """The text of bytes that are UTF-8, or None."""
    try:
        return data.decode()
    except UnicodeDecodeError:
        return None


def is_hidden(c):
    """Whether a terminal acts on a character, or nobody sees it: controls, formats, line and paragraph separators."""
    return unicodedata.category(c) in ("Cc", "Cf", "Zl", "Zp")


def is_plain(data):
    text = text_of(data)
    return text is not None and not any(map(is_hidden, text))


def dump(data):
    """The lines of `hexdump -C`, without its last one."""
    lines = []
    for at in range(0, len(data), 16):
        row = data[at : at + 16]
        halves = [row[:8].hex(" "), row[8:].hex(" ")]
        text = "".join(chr(byte) if 32 <= byte < 127 else "." for byte in row)
        lines.append(f"{at:08x}  {halves[0]:23}  {halves[1]:23}  |{text}|\n")
    shown = "".join(lines)
    if shutil.which("hexdump"):
        true = subprocess.run(["hexdump", "-Cv"], input=data, stdout=subprocess.PIPE, check=True).stdout.decode()
        same(shown, "".join(line + "\n" for line in true.splitlines()[:-1]))
    return shown


COLORS = {"message": 32, "broken": 33, "too long": 35, "bad crc": 31}


def line(style, kind, length, data, color=False):
    title = kind if length is None else f"{kind} {length}"
    if color:
        title = f"\x1b[{COLORS[kind]}m{title}\x1b[0m"
    if style == "dump":
        return (title + "\n" + dump(data)).encode()
    if style == "raw":
        return data + b"\n" if kind == "message" else b""
    if style == "text" and is_plain(data):
        return (title + " " if data else title).encode() + data + b"\n"
    return (title + (" " + data.hex() if data else "") + "\n").encode()


def as_(style):
    """The words that ask for a style; None is the default."""
    return ["--as", style] if style else []


def run(words, stream, status=0, **more):
    """The output of a run over a stream that is a file."""
    done = subprocess.run(
        [WATCH, *words], input=stream, stdout=subprocess.PIPE, stderr=subprocess.PIPE, timeout=120, **more
    )
    assert done.returncode == status, f"status {done.returncode}, {done.stderr.decode()}"
    return done.stdout


def part(check):
    """Runs a check, and says how it ended."""
    name = check.__name__.replace("_", " ")
    try:
        check()
        print(f"ok: {name}")
    except Exception as error:  # pylint: disable=broad-except
        failed.append(name)
        print(f"FAILED: {name}: {error!r}")


def same(found, wanted):
    assert found == wanted, f"{found[:300]!r} in place of {wanted[:300]!r}"


def messages(count):
    """Messages of all sorts: empty, text, control characters, quotes, wrong UTF-8, zeros, long runs."""
    random.seed(count)
    some = [
        b"",
        b"hello",
        b"\0",
        b'a "quoted" \\ text',
        b"tab\there",
        b"\xff\xfe",
        "grüße €".encode(),
        "left \u202eright \u2028 line \x7f \x9b31m \U000e0001 \U0001f600".encode(),
        bytes(range(256)),
        b"x" * 254,
        b"y" * 255 + b"\0",
    ]
    while len(some) < count:
        kind = random.randrange(3)
        size = random.choice((1, 7, 15, 16, 17, 33, 300))
        some.append(bytes(random.choice((0, 65, 66, 255) if kind else range(32, 127)) for _ in range(size)))
    return some


def a_stream():
    """Frames, broken pieces, sentinels in a row, a piece that is too long, and the begin of a frame."""
    out = bytearray()
    for number, message in enumerate(messages(60)):
        out += encode(message) + b"\0" * (1 + number % 3)
        if number % 7 == 0:
            out += b"\x09ab\0"
    out += encode(b"z" * (LIMIT + 1)) + b"\0"
    return bytes(out) + encode(b"last") + b"\0" + b"\x05ab"


STREAM = a_stream()


def crc_32(message):
    """A message followed by its CRC-32."""
    return message + zlib.crc32(message).to_bytes(4, "little")


def checked_32(piece):
    """A piece, where messages end with their CRC-32."""
    kind, length, data = piece
    if kind != "message":
        return piece
    body = data[:-4]
    return ("message", len(body), body) if crc_32(body) == data else ("bad crc", length, data)


@part
def every_view():
    seen, _ = pieces_of(STREAM)
    for style in (None, "hex", "text", "raw", "dump"):
        wanted = b"".join(line(style, *piece) for piece in seen) + (b"" if style == "raw" else b"unfinished\n")
        same(run(as_(style), STREAM), wanted)
    same(run(["-"], STREAM), run([], STREAM))
    same(run(["show", "-"], STREAM), run([], STREAM))
    same(run(["--as=json"], STREAM), run(["--as", "json"], STREAM))
    same(run(["-n"], STREAM), run(["--number"], STREAM))
    numbered = b"".join(str(i + 1).encode() + b" " + line(None, *piece) for i, piece in enumerate(seen))
    same(run(["--number"], STREAM), numbered + b"unfinished\n")


def partial_pieces_of(stream, limit):
    """The same, with what was decoded of each piece, as far as it is within the limit."""
    seen = []
    for part in stream.split(b"\0")[:-1]:
        if part:
            output, whole = decode(part)
            kind = "too long" if len(output) > limit else "message" if whole else "broken"
            seen.append((kind, None if kind == "too long" else len(output), output[:limit]))
    return seen


def partial_line(style, kind, length, data):
    """A piece's line with --partial: the word is in front of bytes that are no message."""
    whole = line(style, kind, length, data)
    if kind == "message" or not data:
        return whole
    title = (kind if length is None else f"{kind} {length}").encode()
    assert whole.startswith(title)
    return title + b" partial" + whole[len(title) :]


@part
def partial():
    cut = b"".join(
        encode(message)[: -1 - number % 3] + b"\0" for number, message in enumerate(messages(60)) if len(message) > 3
    )
    for stream, limit in ((STREAM, LIMIT), (STREAM, 20), (STREAM, 0), (cut + STREAM, 7)):
        words = ["--partial", "--length", str(limit)]
        seen = partial_pieces_of(stream, limit)
        for style in (None, "text", "dump"):
            wanted = b"".join(partial_line(style, *piece) for piece in seen) + b"unfinished\n"
            same(run(words + as_(style), stream), wanted)
        found = [json.loads(text) for text in run([*words, "--as", "json"], stream).decode().splitlines()]
        for number, (item, (kind, length, data)) in enumerate(zip(found, seen, strict=False), 1):
            fields = {"frame": number, "kind": kind.replace(" ", "-")}
            if length is not None:
                fields["length"] = length
            if kind == "message" or data:
                fields["hex"] = data.hex()
            if kind == "message" and text_of(data) is not None:
                fields["text"] = text_of(data)
            same(item, fields)
        assert len(found) == len(seen) + 1


@part
def colors():
    whole = [crc_32(message) for message in (b"right", b"")] + [b"wrong"]
    stream = b"".join(encode(message) + b"\0" for message in whole) + STREAM
    for words in ([], ["--crc", "crc-32"]):
        seen, _ = pieces_of(stream)
        if words:
            seen = [checked_32(piece) for piece in seen]
            assert {piece[0] for piece in seen} == set(COLORS)
        for style in (None, "text", "dump"):
            wanted = b"".join(line(style, *piece, color=True) for piece in seen) + b"unfinished\n"
            same(run([*words, "--color", "always", *as_(style)], stream), wanted)
        for style in ("raw", "json"):
            same(run([*words, "--color", "always", *as_(style)], stream), run([*words, *as_(style)], stream))


def on_a_terminal(words, no_color, term="xterm"):
    """What is written to a terminal, with the variables NO_COLOR and TERM set to a text, or not set."""
    master, slave = pty.openpty()
    tty.setraw(slave)
    env = {name: value for name, value in os.environ.items() if name not in ("NO_COLOR", "TERM")}
    if no_color is not None:
        env["NO_COLOR"] = no_color
    if term is not None:
        env["TERM"] = term
    subprocess.run([WATCH, *words], input=b"\x02a\0\x05b\0", stdout=slave, check=True, timeout=120, env=env)
    os.close(slave)
    found = bytearray()
    try:
        while data := os.read(master, 4096):
            found += data
    except OSError:  # What reading a terminal without another end comes to on Linux.
        pass
    os.close(master)
    return bytes(found)


@part
def colors_on_a_terminal():
    plain, colored = (
        b"".join(line(None, *piece, color=color) for piece in (("message", 1, b"a"), ("broken", 1, b"")))
        for color in (False, True)
    )
    for when, no_color, wanted in (
        ([], None, colored),
        ([], "", colored),
        ([], "1", plain),
        (["--color", "auto"], None, colored),
        (["--color", "auto"], "\udcff", plain),
        (["--color", "never"], None, plain),
        (["--color", "always"], "1", colored),
    ):
        same(on_a_terminal(when, no_color), wanted)
    for term in ("dumb", None):
        same(on_a_terminal([], None, term), plain)
        same(on_a_terminal(["--color", "always"], None, term), colored)
    # Into a pipe there are no colours unless they are asked for.
    same(run([], b"\x02a\0\x05b\0"), plain)
    same(run(["--color", "auto"], b"\x02a\0\x05b\0"), plain)


# The greatest number of bytes that a capture has of a packet: Wireshark reads none with more.
SNAP_LEN = 262_144


@part
def captures():
    # Messages at the limit and above it, with others after them.
    long = b"".join(encode(bytes([65 + n % 9]) * (SNAP_LEN + n)) + b"\0" + encode(b"next") + b"\0" for n in (-1, 0, 1, 90_000))
    for words, stream in ([], STREAM), (["--length", "400000"], long):
        seen, _ = pieces_of(stream, 400_000 if words else LIMIT)
        whole = [data for kind, _, data in seen if kind == "message"]
        begin = time.time()
        shown = run([*words, "--as", "pcap"], stream)
        end = time.time()
        same(shown[:24], struct.pack("<IHHiIII", 0xA1B2C3D4, 2, 4, 0, 0, SNAP_LEN, 147))
        found, at = [], 24
        while at < len(shown):
            seconds, micros, captured, sent = struct.unpack_from("<IIII", shown, at)
            assert begin - 0.001 <= seconds + micros / 1e6 <= end + 0.001, (begin, seconds, micros, end)
            found.append((sent, shown[at + 16 : at + 16 + captured]))
            at += 16 + captured
        assert found == [(len(data), data[:SNAP_LEN]) for data in whole]
        if shutil.which("tshark"):
            with tempfile.NamedTemporaryFile(suffix=".pcap") as held:
                held.write(shown)
                held.flush()
                fields = ["-T", "fields", "-e", "frame.len", "-e", "frame.cap_len"]
                read = subprocess.run(["tshark", "-r", held.name, *fields], capture_output=True, check=True).stdout
            same([int(text) for text in read.split()], [n for data in whole for n in (len(data), min(len(data), SNAP_LEN))])
    same(run(["--as", "pcap"], b""), shown[:24])


@part
def json_lines():
    seen, _ = pieces_of(STREAM)
    shown = run(["--as", "json"], STREAM).decode()
    assert not any(is_hidden(c) for c in shown.replace("\n", "")), shown
    found = [json.loads(text) for text in shown.splitlines()]
    wanted = []
    for number, (kind, length, data) in enumerate(seen):
        item = {"frame": number + 1, "kind": kind.replace(" ", "-")}
        if length is not None:
            item["length"] = length
        if kind == "message":
            item["hex"] = data.hex()
            if text_of(data) is not None:
                item["text"] = text_of(data)
        wanted.append(item)
    assert found == wanted + [{"kind": "unfinished"}], (found, wanted)
    # The number is there already.
    same(run(["--as", "json", "--number"], STREAM).decode(), shown)


def timed(words, gaps, clock, **more):
    """The times in front of the lines of two frames that come after each gap, and the clock's: at the start, and as each pair is sent and shown."""
    start, found, sent, shown = clock(), [], [], []
    with subprocess.Popen([WATCH, *words], stdin=subprocess.PIPE, stdout=subprocess.PIPE, **more) as watch:
        for gap in gaps:
            time.sleep(gap)
            sent.append(clock())
            watch.stdin.write(b"\x02a\0\x05b\0")
            watch.stdin.flush()
            found += [watch.stdout.readline().decode().rstrip("\n").split(" ", 1) for _ in range(2)]
            shown.append(clock())
        assert watch.communicate()[0] == b""
    assert [text for _, text in found] == ["message 1 61", "broken 1"] * len(gaps), found
    return [text for text, _ in found], start, sent, shown


def lies_between(low, value, high, cut=0.001):
    """Whether a time with three digits lies between two that were measured; how busy the machine is has no part in it."""
    return low - cut <= value <= high + 0.001


@part
def times():
    gaps = (0.3, 0.5, 0.2)
    found, start, sent, shown = timed(["--time", "start"], gaps, time.monotonic)
    since = [float(text) for text in found]
    assert since == sorted(since), since
    for number, _ in enumerate(gaps):
        # The program starts after the test has, and before it shows the first frames.
        low, high = sent[number] - shown[0], shown[number] - start
        assert all(lies_between(max(0, low), value, high) for value in since[2 * number : 2 * number + 2]), since
    found, start, sent, shown = timed(["--time", "last"], gaps, time.monotonic)
    last = [float(text) for text in found]
    assert lies_between(0, last[0], shown[0] - start), last
    for number in range(1, len(gaps)):
        assert lies_between(sent[number] - shown[number - 1], last[2 * number], shown[number] - sent[number - 1]), last
    for number, _ in enumerate(gaps):
        assert lies_between(0, last[2 * number + 1], shown[number] - sent[number]), last
    start = time.monotonic()
    seen = [json.loads(text) for text in run(["--as", "json", "--time", "start"], STREAM).decode().splitlines()]
    passed = time.monotonic() - start
    plain = [json.loads(text) for text in run(["--as", "json"], STREAM).decode().splitlines()]
    assert all(lies_between(0, item.pop("time"), passed) for item in seen[:-1]) and seen == plain, seen


@part
def dates():
    # What TZ is, and how far it is ahead of UTC now: rules, a file, UTC, none that the system has, and zones by name.
    zones = [("XYZ3:30", -12600), ("ABC-5:45", 20700), ("UTC0", 0), ("", 0), ("No/Where", 0), (":/etc/localtime", None)]
    for name in ("Europe/Berlin", "America/St_Johns", "Asia/Kolkata"):
        if os.path.exists(f"/usr/share/zoneinfo/{name}"):
            zones.append((name, datetime.datetime.now(zoneinfo.ZoneInfo(name)).utcoffset().total_seconds()))
    for clock, zone, ahead in [("utc", "XYZ3:30", 0)] + [("local", *zone) for zone in zones]:
        found, _, sent, shown = timed(
            ["--time", clock], (0.05, 0.05), time.time, stderr=subprocess.DEVNULL, env={**os.environ, "TZ": zone}
        )
        for number, text in enumerate(found):
            date = datetime.datetime.fromisoformat(text)
            offset = date.utcoffset().total_seconds()
            assert ahead is None or offset == ahead, (zone, text)
            sign, minutes = "+-"[offset < 0], abs(offset) // 60
            mark = f"{sign}{minutes // 60:02.0f}:{minutes % 60:02.0f}" if offset else "Z"
            assert re.fullmatch(r"\d{4}-\d\d-\d\dT\d\d:\d\d:\d\d\.\d{3}" + re.escape(mark), text), text
            # Both parts of the sum, the clock at the start and the time since, are cut to milliseconds.
            assert lies_between(sent[number // 2], date.timestamp(), shown[number // 2], 0.002), (zone, text)
    begin = time.time()
    item = json.loads(run(["--as", "json", "--time", "local"], b"\x02a\0", env={**os.environ, "TZ": "XYZ3:30"}))
    date = datetime.datetime.fromisoformat(item["time"])
    assert item["time"].endswith("-03:30") and lies_between(begin, date.timestamp(), time.time(), 0.002), item
    # A zone that was asked for and can't be read is reported.
    unread = b"cobs_watch: the time zone in TZ can't be read: dates are in UTC\n"
    for zone, said in (("No/Where", unread), ("CET-1CEST", unread), ("/etc/passwd", unread), ("", b""), ("UTC0", b"")):
        done = subprocess.run([WATCH, "--time", "local"], input=b"\x02a\0", capture_output=True, env={**os.environ, "TZ": zone}, check=True)
        assert done.stdout.endswith(b"Z message 1 61\n") and done.stderr == said, (zone, done)


@part
def every_filter():
    seen, _ = pieces_of(STREAM)
    filters = [
        (["--only", "message"], lambda p: p[0] == "message"),
        (["--only", "broken"], lambda p: p[0] == "broken"),
        (["--only", "too-long"], lambda p: p[0] == "too long"),
        (["--only", "broken", "--only", "too-long"], lambda p: p[0] != "message"),
        (["-o", "broken,too-long"], lambda p: p[0] != "message"),
    ]
    for words, keeps in filters:
        wanted = b"".join(str(i + 1).encode() + b" " + line(None, *p) for i, p in enumerate(seen) if keeps(p))
        same(run(["--number", *words], STREAM), wanted)
    same(run(["--only", "unfinished"], STREAM), b"unfinished\n")
    same(run(["--as", "json", "--only", "unfinished,too-long"], STREAM).splitlines()[-1], b'{"kind":"unfinished"}')


def crc(data, width, poly, start, reflected, end):
    """A checksum without a table, by the catalogue of parametrised CRC algorithms."""
    turned = lambda value, bits: int(f"{value:0{bits}b}"[::-1], 2) if reflected else value
    register = start
    for byte in data:
        register ^= turned(byte, 8) << width - 8
        for _ in range(8):
            register = (register << 1) ^ (poly if register >> width - 1 else 0)
            register &= (1 << width) - 1
    return turned(register, width) ^ end


# By name: the bytes of a checksum, what makes it, and its order where none is asked for.
CHECKSUMS = {
    "crc-8": (1, lambda data: crc(data, 8, 0x07, 0, False, 0), "big"),
    "crc-16-ccitt-false": (2, lambda data: binascii.crc_hqx(data, 0xFFFF), "big"),
    "crc-16-modbus": (2, lambda data: crc(data, 16, 0x8005, 0xFFFF, True, 0), "little"),
    "crc-32": (4, zlib.crc32, "little"),
    "crc-16-xmodem": (2, lambda data: binascii.crc_hqx(data, 0), "big"),
    "crc-16-kermit": (2, lambda data: crc(data, 16, 0x1021, 0, True, 0), "little"),
    "crc-16-arc": (2, lambda data: crc(data, 16, 0x8005, 0, True, 0), "little"),
    "crc-32c": (4, lambda data: crc(data, 32, 0x1EDC6F41, 0xFFFFFFFF, True, 0xFFFFFFFF), "little"),
    "poly=4129,init=0x1d0f": (2, lambda data: crc(data, 16, 0x1021, 0x1D0F, False, 0), "big"),
    "reflected,width=8,poly=0x31": (1, lambda data: crc(data, 8, 0x31, 0, True, 0), "little"),
    "width=24,poly=0x864cfb,init=0xb704ce": (3, lambda data: crc(data, 24, 0x864CFB, 0xB704CE, False, 0), "big"),
    "width=32,poly=0x04c11db7,init=0xffffffff,xorout=0xffffffff,reflected": (4, zlib.crc32, "little"),
}


@part
def checksums():
    some = messages(60)
    for name, (size, made, usual) in CHECKSUMS.items():
        for order in (None, "big", "little"):
            stream, seen = b"\x09ab\0", [("broken", 2, b"")]
            for number, message in enumerate(some):
                whole = message + made(message).to_bytes(size, order or usual)
                kind = "bad crc" if number % 3 == 0 else "message"
                if kind == "bad crc":
                    whole = whole[:-1] + bytes([whole[-1] ^ 1]) if number % 2 else whole[len(whole) - size + 1 :]
                stream += encode(whole) + b"\0"
                data = whole if kind == "bad crc" else message
                seen.append((kind, len(data), data))
            words = ["--crc", name] + (["--crc-order", order] if order else [])
            for style in (None, "text", "dump", "raw"):
                wanted = b"".join(line(style, *piece) for piece in seen)
                same(run(words + as_(style), stream), wanted)
            bad = b"".join(line(None, *piece) for piece in seen if piece[0] == "bad crc")
            same(run([*words, "--only", "bad-crc"], stream), bad)
            kinds = [json.loads(text)["kind"] for text in run([*words, "--as", "json"], stream).decode().splitlines()]
            same(kinds, [piece[0].replace("bad crc", "bad-crc") for piece in seen])
            counted = subprocess.run([WATCH, *words, "--count"], input=stream, capture_output=True, check=True)
            same(
                counted.stderr.decode(),
                f"messages {kinds.count('message')}, broken 1, too long 0, bad crc {kinds.count('bad-crc')}, bytes {len(stream)}\n",
            )


@part
def sent_checksums():
    lines = [b"ping", b"", b"123456789", b"x" * 253, b"y" * 600, bytes(range(11, 256)), b"\0\0"]
    text = b"".join(line_ + b"\n" for line_ in lines)
    digits = b"".join(line_.hex().encode() + b"\n" for line_ in lines)
    for name, (size, made, usual) in CHECKSUMS.items():
        for order in (None, "big", "little"):
            words = ["--crc", name] + (["--crc-order", order] if order else [])
            sums = [made(line_).to_bytes(size, order or usual) for line_ in lines]
            frames = b"".join(encode(line_ + sum_) + b"\0" for line_, sum_ in zip(lines, sums))
            same(run(["send", *words], text), frames)
            same(run(["send", "--hex", *words], digits), frames)
            same(run([*words, "--as", "raw"], frames), text)
    for sentinel in (1, 10, 255):
        words = ["--sentinel", str(sentinel), "--crc", "crc-32"]
        frames = run(["send", *words], text)
        turned = bytes(byte ^ sentinel for byte in frames)
        seen, begun = pieces_of(turned)
        same([(kind, data) for kind, _, data in seen], [("message", crc_32(line_)) for line_ in lines])
        assert not begun and frames.count(bytes([sentinel])) == len(lines)
        same(run([*words, "--as", "raw"], frames), text)
    same(run(["send"], text), b"".join(encode(line_) + b"\0" for line_ in lines))


@part
def checksums_with_times_and_numbers():
    size, made, order = CHECKSUMS["crc-16-modbus"]
    stream, wanted = b"\x09ab\0", [("broken", 2, None)]
    for number, message in enumerate(messages(30)):
        whole = message + made(message).to_bytes(size, order)
        wrong = number % 4 == 0
        if wrong:
            whole = bytes([whole[0] ^ 1]) + whole[1:]
        stream += encode(whole) + b"\0"
        data = whole if wrong else message
        wanted.append(("bad-crc" if wrong else "message", len(data), data))
    words = ["--crc", "crc-16-modbus", "--time", "start"]
    start = time.monotonic()
    objects = [json.loads(text) for text in run([*words, "--as", "json"], stream).decode().splitlines()]
    lines = run([*words, "--number"], stream).decode().splitlines()
    passed = time.monotonic() - start
    assert len(objects) == len(lines) == len(wanted), (objects, lines)
    for number, (item, text, (kind, length, data)) in enumerate(zip(objects, lines, wanted), 1):
        assert lies_between(0, item.pop("time"), passed), item
        fields = {"frame": number, "kind": kind, "length": length}
        if data is not None:
            fields["hex"] = data.hex()
            if text_of(data) is not None:
                fields["text"] = text_of(data)
        same(item, fields)
        seconds, _, rest = text.partition(" ")
        assert len(seconds.partition(".")[2]) == 3 and lies_between(0, float(seconds), passed), text
        same(rest, f"{number} " + line(None, kind.replace("-", " "), length, data or b"").decode().rstrip("\n"))
    only = run([*words, "--as", "json", "--only", "bad-crc"], stream).decode().splitlines()
    same([json.loads(text)["frame"] for text in only], [i for i, piece in enumerate(wanted, 1) if piece[0] == "bad-crc"])


@part
def skip_first():
    for cut in range(0, 400):
        stream = STREAM[cut:]
        _, _, rest = stream.partition(b"\0")
        seen, _ = pieces_of(rest)
        if cut % 40 == 0:
            same(run(["--skip-first"], stream), b"".join(line(None, *piece) for piece in seen) + b"unfinished\n")
    same(run(["--skip-first"], b"\x05ab"), b"")
    same(run(["--skip-first"], b"\0\x02a\0"), b"message 1 61\n")


@part
def sentinels_and_lengths():
    lines = b"line\nlonger line\n\n"
    for sentinel in (0, 1, 10, 255):
        frames = run(["send", "--sentinel", str(sentinel)], lines)
        assert frames.count(bytes([sentinel])) == 3
        same(
            run(["--sentinel", str(sentinel), "--length", "4", "--as", "text"], frames),
            b"message 4 line\ntoo long\nmessage 0\n",
        )


@part
def wrong_words():
    for words in (
        ["--length", "many"],
        ["--only", "all"],
        ["--as", "bytes"],
        ["--as"],
        ["--text"],
        ["--only", "message,all"],
        ["--length", "16777217"],
        ["--sentinel", "256"],
        ["--number", "--as", "raw"],
        ["--time", "start", "--as", "raw"],
        ["--partial", "--as", "raw"],
        ["--as", "pcap", "--number"],
        ["--as", "pcap", "--time", "utc"],
        ["--as", "pcap", "--partial"],
        ["--time", "then"],
        ["--color", "sometimes"],
        ["--crc", "crc-7"],
        ["--crc-order", "big"],
        ["--crc", "poly=0x10000"],
        ["--crc", "poly=1,width=12"],
        ["--crc", "poly=1,init=0x10000"],
        ["--crc", "poly=1,last=2"],
        ["--crc", "poly"],
        ["--crc", "init=1"],
        ["--crc", "poly=1,poly=2"],
        ["--crc", "poly=1,reflected,reflected"],
        ["--baud", "9600"],
        ["send", "--baud", "9600"],
        ["send", "--crc", "crc-7"],
        ["send", "--crc-order", "big"],
    ):
        done = subprocess.run(
            [WATCH, *words], input=b"\x02a\0", stdout=subprocess.PIPE, stderr=subprocess.PIPE, timeout=120, check=False
        )
        assert (done.returncode, done.stdout) == (2, b"") and done.stderr, (words, done)
        # The error of a wrong value names those that it may be; another has the usage of what was asked for.
        usage = rb"Usage: cobs_watch send " if words[0] == "send" else rb"Usage: cobs_watch (?!send)"
        assert re.search(rb"\[possible values: |" + usage, done.stderr), (words, done)
    # The names of checksums are said.
    for name in ("crc-16", "CRC-32"):
        done = subprocess.run([WATCH, "--crc", name], input=b"", capture_output=True, timeout=120, check=False)
        assert done.returncode == 2 and all(known.encode() in done.stderr for known in CHECKSUMS if known.startswith("crc-")), done
    # What sets the rate is said.
    for words in (["--baud", "9600", "/dev/null"], ["show", "--baud=9600"], ["send", "--baud", "9600"]):
        done = subprocess.run([WATCH, *words], input=b"", capture_output=True, timeout=120, check=False)
        assert done.returncode == 2 and b"stty -F /dev/ttyUSB0 raw -echo 9600\n" in done.stderr, done
    for words in ([b"caf\xe9"], [b"--only", b"\xff"], [b"send", b"\xff"]):
        done = subprocess.run([WATCH, *words], input=b"\x02a\0", capture_output=True, timeout=120, check=False)
        said = b"error: an argument that isn't UTF-8 can't be used\n\nUsage: cobs_watch"
        assert (done.returncode, done.stdout) == (2, b"") and done.stderr.startswith(said), (words, done)
    done = subprocess.run(
        [WATCH, "send", "--hex"],
        input=b"00 ff\r\nzz\n0 0 0\n\n0x1\n",
        stdout=subprocess.PIPE,
        stderr=subprocess.PIPE,
        timeout=120,
        check=False,
    )
    same((done.returncode, done.stdout), (1, b"\x01\x02\xff\0\x01\0"))
    lines = [
        b"cobs_watch: line 2: not hexadecimal digits",
        b"cobs_watch: line 3: an odd number of hexadecimal digits",
        b"cobs_watch: line 5: not hexadecimal digits",
    ]
    same(done.stderr.splitlines(), lines)


TOPICS = {
    "Options": ["--help", "--version"],
    "Output": ["--as", "--only", "--number", "--time", "--partial", "--color"],
    "Checksums": ["--crc", "--crc-order"],
    "The stream": ["--length", "--sentinel", "--skip-first", "--count"],
}
SEND_TOPICS = {"Options": ["--hex", "--sentinel", "--help"], "Checksums": ["--crc", "--crc-order"]}


def topics_of(text):
    """The options that a help text has below each heading, and its examples."""
    parts = dict(re.findall(r"^(\w[\w ]*):\n((?: .*\n|\n(?= ))+)", text, re.MULTILINE))
    examples = [line_.strip() for line_ in parts.pop("Examples").splitlines() if line_.strip()]
    parts.pop("Commands", None)
    return {
        topic: re.findall(r"^ +(?:-\w, )?(--[\w-]+)", part_, re.MULTILINE) for topic, part_ in parts.items()
    }, examples


def run_example(example, lines, device):
    """Runs an example in a shell, with a file as the device, and returns what it wrote."""
    with tempfile.TemporaryDirectory() as room:
        Path(room, "lines.txt").write_bytes(lines)
        Path(room, "device").write_bytes(device)
        env = {**os.environ, "PATH": f"{Path(WATCH).resolve().parent}:{os.environ['PATH']}"}
        words = ["sh", "-euc", example.replace("/dev/ttyUSB0", "device")]
        done = subprocess.run(words, cwd=room, env=env, capture_output=True, timeout=120, check=True)
        assert done.stderr == b"", done
        log = Path(room, "log.json")
        return done.stdout, Path(room, "device").read_bytes(), log.read_bytes() if log.exists() else b""


@part
def help_by_topics():
    for words in ([], ["show"]):
        found, examples = topics_of(run([*words, "--help"], b"").decode())
        wanted = TOPICS if not words else {**TOPICS, "Options": ["--help"]}
        assert {topic: sorted(names) for topic, names in found.items()} == {
            topic: sorted(names) for topic, names in wanted.items()
        }, found
        assert len(examples) == 3, examples
        for example in examples:
            stream = encode(b"ping") + b"\0"
            shown, device, log = run_example(example, b"", stream)
            assert (b"ping" in shown or b"70696e67" in shown + log) and device == stream, (example, shown, log)
    found, examples = topics_of(run(["send", "--help"], b"").decode())
    assert found == SEND_TOPICS, found
    assert len(examples) == 3, examples
    for example in examples:
        shown, device, log = run_example(example, b"ping\n", b"")
        assert device and shown == b"" and log == b"", (example, device)


@part
def counts():
    seen, _ = pieces_of(STREAM)
    kinds = [piece[0] for piece in seen]
    done = subprocess.run(
        [WATCH, "--count", "--as", "raw"],
        input=STREAM,
        stdout=subprocess.PIPE,
        stderr=subprocess.PIPE,
        check=True,
        timeout=120,
    )
    wanted = f"messages {kinds.count('message')}, broken {kinds.count('broken')}, too long {kinds.count('too long')}, bytes {len(STREAM)}\n"
    same(done.stderr.decode(), wanted)


@part
def full_disk():
    with open("/dev/full", "wb") as full:
        for words, stream in ([["show"], STREAM], [["send"], b"line\n"]):
            done = subprocess.run(
                [WATCH, *words], input=stream, stdout=full, stderr=subprocess.PIPE, timeout=120, check=False
            )
            assert done.returncode == 1 and b"write failed" in done.stderr, done


@part
def closed_pipe():
    many = (encode(b"line") + b"\0") * 200_000
    with tempfile.TemporaryFile() as held:
        held.write(many)
        held.seek(0)
        with subprocess.Popen([WATCH], stdin=held, stdout=subprocess.PIPE, stderr=subprocess.PIPE) as watch:
            same(watch.stdout.readline(), b"message 4 6c696e65\n")
            watch.stdout.close()
            errors = watch.stderr.read()
            assert (watch.wait(timeout=120), errors) == (0, b""), errors


@part
def interrupt_within_a_frame():
    # A shell that runs this in the background may have it ignore SIGINT, and a child would too.
    as_usual = lambda: signal.signal(signal.SIGINT, signal.SIG_DFL)
    with subprocess.Popen(
        [WATCH, "--count"],
        stdin=subprocess.PIPE,
        stdout=subprocess.PIPE,
        stderr=subprocess.PIPE,
        preexec_fn=as_usual,
    ) as watch:
        watch.stdin.write(encode(b"one") + b"\0" + encode(b"two") + b"\0" + encode(b"three")[:3])
        watch.stdin.flush()
        # Both lines are there before the signal.
        same(watch.stdout.readline() + watch.stdout.readline(), b"message 3 6f6e65\nmessage 3 74776f\n")
        watch.send_signal(signal.SIGINT)
        out, errors = watch.communicate(timeout=120)
        # Neither the third frame, nor `unfinished`, nor the counts follow.
        same((watch.returncode, out, errors), (-signal.SIGINT, b"", b""))


@part
def slow_reader():
    some = [b"frame %d" % i for i in range(20_000)]
    with subprocess.Popen([WATCH, "--as", "raw"], stdin=subprocess.PIPE, stdout=subprocess.PIPE) as watch:
        if os.fork() == 0:
            watch.stdin.write(b"".join(encode(message) + b"\0" for message in some))
            watch.stdin.flush()
            os._exit(0)
        watch.stdin.close()
        found = bytearray()
        while data := os.read(watch.stdout.fileno(), 4096):
            found += data
            if len(found) < 40_000:
                time.sleep(0.02)
        same(bytes(found), b"".join(message + b"\n" for message in some))
    os.wait()


class Line:
    """Two ends of a line by socat, and cobs_watch at one of them."""

    def __init__(self, words):
        self.room = tempfile.TemporaryDirectory()
        ends = [Path(self.room.name, name) for name in ("device", "host")]
        self.socat = subprocess.Popen(["socat", *(f"pty,raw,echo=0,link={end}" for end in ends)])
        while not all(end.exists() for end in ends):
            time.sleep(0.01)
        self.device = os.open(ends[0], os.O_RDWR | os.O_NOCTTY)
        host = os.open(ends[1], os.O_RDWR | os.O_NOCTTY)
        self.watch = subprocess.Popen([WATCH, *words], stdin=host, stdout=subprocess.PIPE, stderr=subprocess.PIPE)
        os.close(host)

    def send(self, data):
        while data:
            data = data[os.write(self.device, data) :]

    def receive(self, size, seconds=120):
        """Reads this many bytes of the output."""
        found = bytearray()
        end = time.monotonic() + seconds
        while len(found) < size and select.select([self.watch.stdout], [], [], max(0, end - time.monotonic()))[0]:
            data = os.read(self.watch.stdout.fileno(), 65536)
            if not data:
                break
            found += data
        return bytes(found)

    def hang_up(self):
        self.socat.kill()
        self.socat.wait()
        os.close(self.device)
        out, errors = self.watch.communicate(timeout=120)
        self.room.cleanup()
        return out, errors, self.watch.returncode


def over_a_line(words, stream, size):
    """Sends a stream in pieces of a size, reads what is shown at once, and hangs up."""
    line_ = Line(words)
    seen, _ = pieces_of(stream)
    wanted = b"".join(line(None, *piece) for piece in seen)
    found = bytearray()
    for at in range(0, len(stream), size):
        line_.send(stream[at : at + size])
        if size > 1:
            time.sleep(0.01)
    found += line_.receive(len(wanted))
    same(bytes(found), wanted)
    return line_.hang_up()


SHORT = b"".join(encode(m) + b"\0" for m in messages(40)) + b"\x09ab\0"


def pseudo_terminals():
    @part
    def bursts():
        over_a_line([], SHORT, 700)

    @part
    def single_bytes():
        over_a_line([], SHORT, 1)

    @part
    def hang_up():
        out, errors, status = over_a_line([], b"\x02a\0", 3)
        # A line that hangs up is at its end, or its read fails; either ends the program with a clear status.
        failed_so = b"cobs_watch: read failed: Input/output error (os error 5)\n"
        assert (out, status) == (b"", 1 if errors else 0) and errors in (b"", failed_so), (out, errors, status)

    @part
    def each_line_before_the_next_frame():
        line_ = Line([])
        frame, shown = encode(b"ping") + b"\0", b"message 4 70696e67\n"
        times = []
        for _ in range(200):
            start = time.monotonic()
            line_.send(frame)
            same(line_.receive(len(shown)), shown)
            times.append(time.monotonic() - start)
        line_.hang_up()
        middle = sorted(times)[len(times) // 2]
        print(f"from a frame's zero to its line, with socat between: {middle * 1e6:.0f} us in the middle of 200")


if shutil.which("socat"):
    pseudo_terminals()
else:
    print("skipped: pseudo-terminals: no socat (Debian package socat)")

print(f"{len(failed)} failed")
sys.exit(bool(failed))
