"""Makes the messages that are measured, the same ones in each run."""

import random
import struct

LENGTHS = {"host": (1, 8, 16, 32, 64, 100, 200, 1500, 65536), "device": (8, 64, 200, 1500)}
SIZE = {"host": 8192, "device": 512}  # bytes of the messages of a row, if one isn't longer


def record(dice, number):
    """24 bytes as a device sends them: time, a flag, three axes, a temperature and spare bytes. A third of them is zero."""
    axes = (dice.randrange(-1000, 1001) for _ in range(3))
    spare = 2000 + dice.randrange(500), dice.randrange(2)
    return struct.pack("<IHiiiHI", 1_000_000 + 10 * number, dice.randrange(4) == 0, *axes, *spare)


def line(dice, number):
    """A line of a log, with a zero after it."""
    forms = "%d INFO sensor %d: %.2f degrees\n", '{"t":%d,"id":%d,"v":%.2f}\n', "$SENS,%d,%d,%.2f,OK,battery 3.30 V, link up*5A\r\n"
    return (dice.choice(forms) % (number, dice.randrange(8), dice.random() * 100)).encode() + b"\0"


KINDS = {
    "none": lambda dice, number: bytes([dice.randrange(1, 256)]),
    "random": lambda dice, number: dice.randbytes(1),
    "telemetry": record,
    "text": line,
    "30 % zeros": lambda dice, number: bytes([0 if dice.randrange(10) < 3 else dice.randrange(1, 256)]),
    "u16": lambda dice, number: struct.pack("<H", dice.randrange(1024)),
    "zeros": lambda dice, number: b"\0",
}


def count_of(length, which):
    """How many messages a row has."""
    return max(1, min(1024, SIZE[which] // length))


def frame_of(message):
    frame, at = bytearray(), 0
    while True:
        zero = message.find(0, at, at + 254)
        end = zero if zero >= 0 else min(at + 254, len(message))
        frame.append(end - at + 1)
        frame += message[at:end]
        if end == len(message):
            return bytes(frame)
        at = end + (zero >= 0)


def row(kind, length, count):
    """The bytes of a row: how many messages, their length, the lengths of their frames, the messages, the frames each with a zero
    after it, and these for the sentinel 0x7e."""
    dice = random.Random(f"{kind} {length}")
    made, number = bytearray(), 0
    while len(made) < count * length:
        made += KINDS[kind](dice, number)
        number += 1
    messages = [bytes(made[at : at + length]) for at in range(0, count * length, length)]
    frames = [frame_of(message) for message in messages]
    stream = b"".join(frame + b"\0" for frame in frames)
    head = struct.pack(f"<{count + 2}I", count, length, *map(len, frames))
    return head + b"".join(messages) + stream + bytes(byte ^ 0x7E for byte in stream)


def write(folder, which):
    """Writes all rows into a file, and into one in C."""
    made = b"".join(row(kind, length, count_of(length, which)) for kind in KINDS for length in LENGTHS[which])
    text = "".join(f"\\{byte:03o}" for byte in made)
    lines = "\n".join(f'"{text[at : at + 4000]}"' for at in range(0, len(text), 4000))
    (folder / f"{which}.bin").write_bytes(made)
    (folder / f"{which}.c").write_text(
        f"#include <stddef.h>\nconst unsigned char rows[] =\n{lines};\nconst size_t rows_len = sizeof rows - 1;\n"
    )
