#!/usr/bin/env python3
"""Counts the instructions of cobs_watch, and of a plain program in C, for a mebibyte of each stream, and measures the memory.

    speed.py WATCH PLAIN

PLAIN is the built plain.c, which has only some of the styles. The script prints the tables of crates/cobs_watch/README.md.
Valgrind counts the instructions; without it, only the output is compared, and the memory measured.
"""

import random
import re
import shutil
import subprocess
import sys
import tempfile

WATCH, PLAIN = sys.argv[1:3]
MIB = 32  # How much is read when the memory is measured.


def frame_of(message):
    """The frame of a message, and its sentinel."""
    out, runs = bytearray(), message.split(b"\0")
    for number, run in enumerate(runs):
        while len(run) >= 254:
            out += b"\xff" + run[:254]
            run = run[254:]
            if not run and number == len(runs) - 1:
                return bytes(out) + b"\0"
        out += bytes([len(run) + 1]) + run
    return bytes(out) + b"\0"


def telemetry():
    """A message of 20 to 64 bytes, of which a tenth are zeros: what bench/ calls telemetry."""
    return bytes(0 if random.random() < 0.1 else random.randrange(1, 256) for _ in range(random.randrange(20, 65)))


def dense():
    """A message of 20 to 59 bytes, of which two in five are zeros."""
    return bytes(random.choice((0, 0, 1, 255, random.randrange(256))) for _ in range(random.randrange(20, 60)))


def noise():
    """A message of 200 to 250 random bytes."""
    return random.randbytes(random.randrange(200, 251))


def text():
    """A message of text: an object of JSON of 40 to 80 letters and digits, with a newline."""
    return b'{"id":%d,"value":"%s"}\n' % (
        random.randrange(10**6),
        random.randbytes(random.randrange(12, 32)).hex().encode(),
    )


def brief():
    """Such a message of text that has at most 63 bytes, so that 64 bytes of the stream have its end."""
    while True:
        message = text()
        if len(message) <= 63:
            return message


def short():
    """A message of 1 to 7 characters of ASCII, with zeros and control characters."""
    return bytes(random.randrange(128) for _ in range(random.randrange(1, 8)))


def words():
    """A message of about 20 bytes of text, of which a third isn't ASCII."""
    return "".join(random.choice("abcdefghij éüßøñ") for _ in range(15)).encode()


def long():
    """A message of 8 KiB without zeros, in frames of many blocks."""
    return random.randbytes(8192).replace(b"\0", b"\1")


def stream_of(message):
    """A mebibyte and a little more of frames of such messages."""
    random.seed(7)
    out = bytearray()
    while len(out) < 1 << 20:
        out += frame_of(message())
    return bytes(out)


def memory_of(words, block):
    """The most memory in MiB that a run has had, once all of its input is in the pipe."""
    with subprocess.Popen(words, stdin=subprocess.PIPE, stdout=subprocess.DEVNULL) as program:
        for _ in range(MIB):
            program.stdin.write(block)
        program.stdin.flush()
        with open(f"/proc/{program.pid}/status", encoding="ascii") as status:
            most = next(line for line in status if line.startswith("VmHWM"))
        program.stdin.close()
        assert program.wait() == 0
    return int(most.split()[1]) / 1024


STYLES = (("hexadecimal", []), ("`--as raw`", ["--as", "raw"]), ("`--as json`", ["--as", "json"]))
# What plain.c doesn't have.
OTHERS = ("--as text", "--as dump", "--as pcap", "--crc crc-16-modbus", "--time utc --number")


def instructions(words, held):
    """How many instructions a run takes, by valgrind."""
    held.seek(0)
    counted = ["valgrind", "--tool=cachegrind", "--cache-sim=no", "--cachegrind-out-file=/dev/null", *words]
    said = subprocess.run(
        counted, stdin=held, stdout=subprocess.DEVNULL, stderr=subprocess.PIPE, check=True
    ).stderr.decode()
    return int(re.search(r"I\s+refs:\s+([\d,]+)", said).group(1).replace(",", ""))


def same_output(held, words):
    """Whether both programs write the same."""
    said = []
    for program in (WATCH, PLAIN):
        held.seek(0)
        said.append(subprocess.run([program, *words], stdin=held, stdout=subprocess.PIPE, check=True).stdout)
    return said[0] == said[1]


def counted(block):
    """The column of the table for a stream: the instructions per byte of both programs in each style, which write the same."""
    column = []
    with tempfile.TemporaryFile() as held:
        held.write(block)
        held.flush()
        for _, words in STYLES:
            assert same_output(held, words), words
            if shutil.which("valgrind"):
                counts = [instructions([program, *words], held) / len(block) for program in (WATCH, PLAIN)]
                column.append("{:.0f}, {:.0f}".format(*counts))
    return column


def print_counts(streams):
    """Prints the instructions per byte, by style and stream, and those of other options for the first stream."""
    columns = [counted(block) for block in streams.values()]
    if not shutil.which("valgrind"):
        print("skipped: the instructions: no valgrind (Debian package valgrind)")
        return
    print("| instructions per byte of `cobs_watch`, and of C |", " | ".join(streams), "|\n|---|" + "--:|" * len(streams))
    for (style, _), *row in zip(STYLES, *columns):
        print(f"| {style} |", " | ".join(row), "|")
    block = next(iter(streams.values()))
    with tempfile.TemporaryFile() as held:
        held.write(block)
        held.flush()
        for words in OTHERS:
            print(f"| `{words}` | {instructions([WATCH, *words.split()], held) / len(block):.0f} |")


def main():
    """Counts for streams of each kind, and measures the memory over the first one."""
    kinds = (telemetry, text, brief, dense, noise, long, short, words)
    streams = {kind.__name__: stream_of(kind) for kind in kinds}
    print_counts(streams)
    block = streams["telemetry"]
    memory = max(memory_of([WATCH, *words], block) for words in ([], ["--as", "dump"], ["--as", "json"]))
    print(f"{len(block) * MIB} bytes, at most {memory:.1f} MiB")
    assert memory <= 16


main()
