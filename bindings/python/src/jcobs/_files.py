"""Reads and writes the bytes of serial ports, sockets, pipes and files."""

from __future__ import annotations

import errno
import functools
import io
import os
import select
import socket
import sys
from typing import Any, Callable, Iterable, Optional, Protocol

CHUNK = 65536

# A function of a decoder that calls a `read` with a size, and takes the bytes. It returns the number of bytes, or None
# if `read` returned None. Even if a signal handler raises an exception, no byte that was read is lost, if `read` is
# written in C. If it is written in Python, bytes may be lost, and the decoder takes each exception but an OSError for a
# loss.
Receive = Callable[[Callable[[int], Optional[bytes]], int], Optional[int]]
# A function that has the bytes received that have arrived from a file. If no bytes have arrived, the function waits
# until some arrive. The second parameter is the timeout in seconds; None means the file's own timeout. The function
# returns the number of bytes, 0 at the end of the stream, or None if no bytes have arrived before the timeout.
Read = Callable[[Any, Optional[float], Receive], Optional[int]]
# A function that writes all of the data. If it raises an exception, a part of the data may have been written.
Write = Callable[[bytes], object]


class Readable(Protocol):
    """An object with `read`, such as a binary file or a `serial.Serial`."""

    def read(self, size: int, /) -> Optional[bytes]:
        """Returns at most `size` bytes, no bytes at the end of the file, or None if no bytes have arrived."""


class Receivable(Protocol):
    """An object with `recv`, such as a socket."""

    def recv(self, size: int, /) -> bytes:
        """Returns at most `size` bytes, or no bytes at the end of the stream."""


def descriptor_of(file: Any) -> Optional[int]:
    """Returns a file's descriptor, or None if the file has no descriptor."""
    try:
        return int(file.fileno())
    except (AttributeError, io.UnsupportedOperation):
        return None


def wait(descriptors: Iterable[int], timeout: Optional[float]) -> bool:
    """Waits until one of the descriptors has bytes or is at its end, and returns whether that happened in time."""
    if not hasattr(select, "poll"):
        return bool(select.select(list(descriptors), [], [], timeout)[0])
    poll = select.poll()
    for descriptor in descriptors:
        poll.register(descriptor, select.POLLIN)
    return bool(poll.poll(None if timeout is None else timeout * 1000))


def takes(port: Any) -> bool:
    """Returns whether a port takes a byte at once."""
    descriptor = descriptor_of(port)
    return descriptor is None or bool(select.select([], [descriptor], [], 0)[1])


def is_ready(file: Any, timeout: float) -> bool:
    """Waits until a file or socket has bytes or is at its end, and returns whether that happened in time."""
    descriptor = descriptor_of(file)
    if descriptor is None:
        if not hasattr(file, "fileno") or isinstance(file, io.BufferedRWPair):
            kind = type(file).__name__
            raise TypeError(f"a timeout needs a serial port, a socket or a file: {kind} has no fileno")
        return True  # the file is in memory
    if hasattr(file, "pending") and file.pending():
        return True  # a socket of pyOpenSSL has decrypted some bytes already
    return wait([descriptor], timeout)


def read_port(port: Any, timeout: Optional[float], receive: Receive) -> Optional[int]:
    """Reads the bytes that have arrived at a serial port. If no bytes have arrived, waits for the next byte.

    The function waits on the descriptor. It doesn't set the port's own timeout, because pyserial would then configure
    the port again while bytes are arriving.
    """
    waiting = port.in_waiting
    if not waiting:
        abort = getattr(port, "pipe_abort_read_r", None)  # this becomes readable when port.cancel_read() is called
        descriptors = [port.fileno()] if abort is None else [port.fileno(), abort]
        if not wait(descriptors, port.timeout if timeout is None else timeout):
            return None
        waiting = port.in_waiting
    return receive_some(port, waiting, receive)


def read_port_by_its_timeout(port: Any, timeout: Optional[float], receive: Receive) -> Optional[int]:
    """Does what `read_port` does, but for a port without a descriptor: a port on Windows, or a port of rfc2217://."""
    waiting = port.in_waiting
    if waiting or timeout is None:
        return receive_some(port, waiting, receive)
    own = port.timeout
    port.timeout = timeout
    try:
        return receive_some(port, 1, receive)
    finally:
        port.timeout = own


def read_port_at_a_socket(port: Any, timeout: Optional[float], receive: Receive) -> Optional[int]:
    """Does what `read_port` does, but for a port of socket://.

    The `in_waiting` of such a port is 1 if any bytes are waiting, however many there are. So this function doesn't use
    `in_waiting`.
    """
    own = port.timeout
    if not wait([port.fileno()], own if timeout is None else timeout):
        return None
    port.timeout = 0
    try:
        return receive_some(port, CHUNK, receive)
    finally:
        port.timeout = own


def receive_some(port: Any, waiting: int, receive: Receive) -> Optional[int]:
    """Reads `waiting` bytes of a port. If `waiting` is 0, waits for 1 byte.

    The bytes of a port have no end. So if no byte was read, the port's timeout has passed.
    """
    return receive(port.read, min(max(waiting, 1), CHUNK)) or None


def read_socket(sock: Any, timeout: Optional[float], receive: Receive) -> Optional[int]:
    """Reads the bytes that have arrived at a socket. If no bytes have arrived, waits until some arrive."""
    if timeout is not None and not is_ready(sock, timeout):
        return None
    try:
        return receive(sock.recv, CHUNK)
    except BlockingIOError:
        return None
    except socket.timeout as error:
        if error.errno == errno.ETIMEDOUT:
            raise  # the connection is lost
        return None


def read_ssl(sock: Any, timeout: Optional[float], receive: Receive) -> Optional[int]:
    """Reads the bytes that have arrived at an SSL socket. If no bytes have arrived, waits until some arrive.

    An SSL socket may be readable only because a record without data has arrived. So the function doesn't wait until the
    socket is readable. Instead, it sets the timeout of the socket itself.
    """
    from ssl import SSLWantReadError

    own = sock.gettimeout()
    try:
        if timeout is not None:
            sock.settimeout(timeout)
        return read_socket(sock, None, receive)
    except SSLWantReadError:
        return None
    finally:
        if timeout is not None:
            sock.settimeout(own)


def in_python(read: Callable[[int], Optional[bytes]]) -> Callable[[int], Optional[bytes]]:
    """Returns a function in Python that does the same."""
    return lambda size: read(size)


def waits(file: Any) -> bool:
    """Returns whether a read of this file waits until bytes arrive."""
    try:
        return os.get_blocking(file.fileno())
    except (AttributeError, io.UnsupportedOperation):
        return True  # no descriptor, or Windows


def read_file(file: Any, timeout: Optional[float], receive: Receive) -> Optional[int]:
    """Reads the bytes that have arrived from a file. If no bytes have arrived, waits until some arrive."""
    if timeout is not None and not is_ready(file, timeout):
        return None
    read = getattr(file, "read1", file.read)
    # The raw file may be written in Python, as that of a socket is.
    count = receive(read if type(getattr(file, "raw", file)).__module__ == "_io" else in_python(read), CHUNK)
    if not count and hasattr(file, "raw") and not waits(file):
        # If `read1` returns empty bytes, the file is at its end. Up to Python 3.13, empty bytes may also mean that no
        # bytes have arrived. In both cases the file's own buffer is empty, so the raw file can be read.
        return receive(file.raw.read, CHUNK)
    return count


def read_of(file: Any) -> Read:
    """Returns the function that reads this kind of file, or raises TypeError if the object can't be read."""
    if isinstance(file, io.TextIOBase):
        raise TypeError(f'file must be binary, as by open(path, "rb"), not {type(file).__name__}')
    if hasattr(file, "in_waiting"):
        if str(getattr(file, "name", "")).startswith("socket://"):
            return read_port_at_a_socket
        return read_port_by_its_timeout if descriptor_of(file) is None else read_port
    if hasattr(file, "recv"):
        ssl = sys.modules.get("ssl")
        return read_ssl if ssl and isinstance(file, ssl.SSLSocket) else read_socket
    if not hasattr(file, "read") and not hasattr(file, "write"):
        raise TypeError(f"file must be a serial port, a socket or a binary file, not {type(file).__name__}")
    return read_file


def write_raw(file: Any, data: bytes, ready: Optional[Callable[[Any], bool]] = None) -> None:
    """Writes all of the data to a raw file, part by part, as long as it takes any and is ready."""
    while data:
        count = file.write(data) if ready is None or ready(file) else None
        if not count:
            raise BlockingIOError(errno.EAGAIN, f"the file took no more, with {len(data)} bytes of the frame left")
        data = data[count:]


def write_port(port: Any, data: bytes) -> None:
    """Writes all of the data to a serial port.

    The port isn't flushed: it has no buffer of its own, and its flush waits until the bytes are on the wire, however
    long that takes.
    """
    if getattr(port, "write_timeout", None) == 0:
        # A write of pyserial without a wait tries again and again, as long as the port takes no byte.
        write_raw(port, data, takes)
        return
    count = port.write(data)
    if count is not None and count < len(data):
        raise OSError(errno.ECANCELED, f"the write was cancelled, with {len(data) - count} bytes of the frame left")


def write_file(file: Any, data: bytes) -> None:
    """Writes all of the data to a file that has a buffer, or to another object. If `write` returns None, it wrote all."""
    count = file.write(data)
    if count is not None and count < len(data):
        write_raw(file, data[count:])
    if hasattr(file, "flush"):
        file.flush()


def write_of(file: Any) -> Write:
    """Returns the function that writes to this kind of file."""
    if hasattr(file, "sendall"):
        send: Write = file.sendall
        return send
    if hasattr(file, "in_waiting"):
        return functools.partial(write_port, file)
    if isinstance(file, io.RawIOBase):
        return functools.partial(write_raw, file)
    return functools.partial(write_file, file)
