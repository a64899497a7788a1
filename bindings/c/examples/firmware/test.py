#!/usr/bin/env python3
"""Builds the firmware, runs it on QEMU's mps2-an386, and talks to it over the pseudo-terminal of its UART.

usage: test.py [WATCH]

The test sends commands as frames, whole and damaged, and compares the replies. WATCH is the path of a built cobs_watch,
which then shows the replies; without WATCH this program decodes them, and then sends more commands than the firmware can
reply to while nobody reads the replies, so that bytes of some commands are lost.
"""
import os
import re
import select
import signal
import subprocess
import sys
import tempfile
import tty
from pathlib import Path

HERE = Path(__file__).resolve().parent
LIBRARY = HERE.parent.parent
FLAGS = """-mcpu=cortex-m4 -mthumb -Os -std=c99 -ffreestanding -Wall -Wextra -Werror -ffunction-sections
    -Wl,--gc-sections -nostdlib""".split()


def frame(message):
    out, block = bytearray(), bytearray()
    for byte in message:
        if byte == 0:
            out += bytes([len(block) + 1]) + block
            block.clear()
        else:
            block.append(byte)
            if len(block) == 254:
                raise ValueError("longer than this test needs")
    return bytes(out + bytes([len(block) + 1]) + block + b"\0")


def message(piece):
    out = bytearray()
    at = 0
    while at < len(piece):
        code = piece[at]
        out += piece[at + 1 : at + code]
        at += code
        if at < len(piece):
            out.append(0)
    return bytes(out)


def lines_of(terminal, watch):
    """Yields the lines that cobs_watch shows, or would show, for the replies."""
    if watch:
        with subprocess.Popen([watch], stdin=terminal, stdout=subprocess.PIPE, text=True) as shown:
            try:
                while line := shown.stdout.readline():
                    yield line.rstrip("\n")
            finally:
                shown.kill()
        return
    held = b""
    while True:
        held += os.read(terminal, 4096)
        *pieces, held = held.split(b"\0")
        for piece in pieces:
            text = message(piece)
            yield f"message {len(text)}" + (f" {text.hex()}" if text else "")


def overrun(terminal):
    """Sends commands faster than the firmware can handle them, while it waits until replies are read. Yields a line for each fault."""
    sent = [b"e" + number.to_bytes(2, "big") * 30 for number in range(1, 1000)]
    os.write(terminal, b"".join(map(frame, sent)))
    held, counts = b"", []
    while not counts:
        while select.select([terminal], [], [], 1)[0]:
            held += os.read(terminal, 4096)
        replies = [message(piece) for piece in held.split(b"\0") if piece]
        counts = [reply[1:] for reply in replies if reply[:1] == b"s"]
        if not counts:
            os.write(terminal, b"\0" + frame(b"s"))  # again, because the command for the statistics may be lost too
    echoed = [reply for reply in replies if reply[:1] != b"s"]
    print(f"{len(sent)} commands, {len(echoed)} echoed, counts {counts[0].hex()}")
    if any(reply not in sent for reply in echoed) or sorted(echoed) != echoed:
        yield "what came back was never sent"
    if not 50 < len(echoed) < len(sent):
        yield "too few commands were lost, or too many"
    if counts[0][1:3] != b"\2\1":
        yield "a frame of which bytes were lost was decoded"
    if counts[0][3:] in (b"", b"\0"):
        yield "no overrun was counted"


def late(number, stack):
    sys.exit("no answer within five minutes")


def main():
    signal.signal(signal.SIGALRM, late)
    signal.alarm(300)
    watch = sys.argv[1] if len(sys.argv) > 1 else None
    good = [b"e", b"ehello", bytes([101, 0, 0, 255, 0]), b"a\1\2\3\4", b"a" + bytes([255] * 40)]
    cut = frame(b"ecut off in the middle")
    bursts = [  # each ends with a command that gets a reply, and fits the firmware's ring buffer
        frame(good[0]),
        b"\x09broken\0" + frame(good[1]),  # a code of 9, but only six bytes after it
        b"\0\0" + frame(good[2]),
        frame(b"e" + bytes([7] * 100)) + frame(good[3]),  # longer than a command may be
        cut[:9] + b"\0" + frame(good[4]),  # cut off by a zero
        frame(b"s"),
    ]
    sums = [b"a\0\x0a", b"a" + (255 * 40).to_bytes(2, "big")]
    wanted = [*good[:3], *sums, bytes([ord("s"), 6, 2, 1, 0])]
    faults = []
    with tempfile.TemporaryDirectory() as work:
        program = f"{work}/firmware"
        sources = [HERE / "firmware.c", HERE / "board.c", LIBRARY / "source/jcobs.c", "-lgcc"]
        build = ["arm-none-eabi-gcc", *FLAGS, f"-I{LIBRARY}/include", "-T", HERE / "mps2.ld", *sources]
        build += ["-o", program]
        subprocess.run(build, check=True)
        qemu = "qemu-system-arm -M mps2-an386 -display none -monitor none -serial pty -kernel".split() + [program]
        machine = subprocess.Popen(qemu, stdout=subprocess.PIPE, stderr=subprocess.STDOUT, text=True)
        try:
            said = machine.stdout.readline()
            path = re.search(r"/dev/\S+", said)
            if not path:
                sys.exit(f"QEMU: {said}")
            terminal = os.open(path[0], os.O_RDWR | os.O_NOCTTY)
            tty.setraw(terminal)
            shown = lines_of(terminal, watch)
            found = []
            for burst in bursts:
                os.write(terminal, burst)  # the terminal keeps the first burst until QEMU sees that the terminal is open
                found.append(next(shown))
            shown.close()
            if not watch:
                faults = [*overrun(terminal)]
        finally:
            machine.kill()
            machine.wait()
    lines = [f"message {len(it)} {it.hex()}" for it in wanted]
    for line in found:
        print(line)
    if found != lines:
        faults += ["wanted:", *lines]
    for fault in faults:
        print(fault)
    sys.exit(bool(faults))


main()
