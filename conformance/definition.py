"""COBS by its definition: blocks, frames and pieces, as in docs/FORMAT.md.

This file has no decoder or encoder of the usual kind. A message is cut at its zeros, and each run is cut into blocks. A piece
of a stream is cut at its codes. All functions except `masked` are for the sentinel 0.
"""

import functools


@functools.lru_cache(32)
def encoded_frame(message):
    """Returns the shorter frame of a message. A run is cut into blocks of 254 bytes and a block of the remaining bytes. The
    last run has no block of remaining bytes if this block would be empty, unless it is the run's only block."""
    frame, runs = [], message.split(b"\0")
    for place, run in enumerate(runs):
        blocks = [run[at : at + 254] for at in range(0, len(run) + 1, 254)]
        if place == len(runs) - 1 and run and not blocks[-1]:
            blocks.pop()
        frame += [bytes([len(block) + 1]) + block for block in blocks]
    return b"".join(frame)


@functools.lru_cache(32)
def parts(piece):
    """Returns the parts of a piece. Each is as long as its first byte says, except the last one, which may be shorter."""
    cut, at = [], 0
    while at < len(piece):
        cut.append(piece[at : at + piece[at]])
        at += piece[at]
    return cut


def is_whole(piece):
    """Returns whether no byte of the last part is missing: then the piece is a frame."""
    return piece != b"" and b"\0" not in piece and len(parts(piece)[-1]) == parts(piece)[-1][0]


@functools.lru_cache(32)
def output(piece):
    """Returns the bytes of the parts without their codes, with a zero between two parts unless the first is full."""
    cut = parts(piece)
    between = [b"" if part[0] == 255 else b"\0" for part in cut[:-1]] + [b""]
    return b"".join(part[1:] + zero for part, zero in zip(cut, between))


def kept_output(piece):
    """Returns the output without the bytes of the last part, if that part is cut off."""
    return output(piece) if is_whole(piece) else output(piece)[: len(output(piece)) - len(parts(piece)[-1]) + 1]


def is_longer(frame):
    """Returns whether a frame ends in a full block and the block 01: then its message has a shorter frame."""
    last = parts(frame)[-2:]
    return len(last) == 2 and last[0][0] == 255 and last[1] == b"\1"


def masked(given, sentinel):
    """Returns each byte XORed with the sentinel. This turns a frame for the sentinel 0 into a frame for `sentinel`, and back."""
    return bytes(byte ^ sentinel for byte in given)
