"""COBS as one writes it in plain Python, with a loop over the bytes. The tests compare the package with this module."""


def encode(message):
    frame = bytearray(b"\0")
    code_at = 0
    for at, byte in enumerate(message):
        if byte != 0:
            frame.append(byte)
            if len(frame) - code_at < 255 or at + 1 == len(message):
                continue
        frame[code_at] = len(frame) - code_at
        code_at = len(frame)
        frame.append(0)
    frame[code_at] = len(frame) - code_at
    return bytes(frame)


def decode(frame):
    """Returns the message, or None if the bytes aren't a frame."""
    message = bytearray()
    at = 0
    while at < len(frame):
        code = frame[at]
        block = frame[at + 1 : at + code]
        if code == 0 or len(block) < code - 1 or 0 in block:
            return None
        message += block
        at += code
        if code < 255 and at < len(frame):
            message.append(0)
    return bytes(message) if frame else None


def output(piece):
    """Returns what a piece decodes to, up to where it ends, and whether it ends with a block."""
    message = bytearray()
    at = 0
    while at < len(piece):
        code = piece[at]
        message += piece[at + 1 : at + code]
        at += code
        if code < 255 and at < len(piece):
            message.append(0)
    return bytes(message), at == len(piece)


def outcomes(stream, max_length, sentinel):
    """Returns the name and the bytes of each piece that the sentinel ends."""
    pieces = bytes(byte ^ sentinel for byte in stream).split(b"\0")[:-1]
    for piece in filter(None, pieces):
        message, whole = output(piece)
        if len(message) > max_length:
            yield "TooLong", message[:max_length]
        else:
            yield "Message" if whole else "Broken", message
