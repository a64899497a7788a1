"""FrameReader: files, pipes, sockets, serial ports."""

import contextlib
import errno
import io
import itertools
import math
import os
import shutil
import socket
import ssl
import stat
import subprocess
import threading
import time
import types
from fractions import Fraction

import pytest
from hypothesis import given, settings
from hypothesis import strategies as st

import jcobs
from jcobs import _readers

STREAM = b"\x03hi\0\x06hel\0\x07hello!\0\x02"
OUTCOMES = [jcobs.Message(b"hi"), jcobs.Broken(b"hel"), jcobs.TooLong(b"hello")]


def test_file(tmp_path):
    path = tmp_path / "frames"
    path.write_bytes(STREAM)
    for buffering in (-1, 0):
        with path.open("rb", buffering=buffering) as file:
            reader = jcobs.FrameReader(file, max_length=5)
            assert list(reader) == OUTCOMES
            assert reader.unfinished


def test_other_sentinel():
    stream = io.BytesIO(jcobs.encode(b"one\n", sentinel=10, terminated=True) * 2)
    assert list(jcobs.FrameReader(stream, sentinel=10)) == [jcobs.Message(b"one\n")] * 2


@pytest.mark.parametrize("buffering", [0, -1])
def test_pipe_is_read_as_it_comes(buffering):
    source, sink = os.pipe()
    with os.fdopen(source, "rb", buffering=buffering) as file, os.fdopen(sink, "wb", buffering=0) as end:
        outcomes = iter(jcobs.FrameReader(file))
        for message in (b"one", b"two"):
            end.write(jcobs.encode(message, terminated=True))
            assert next(outcomes) == jcobs.Message(message)  # hangs if it waits for more


def test_pipe_without_data_ends_the_iteration():
    source, sink = os.pipe()
    os.set_blocking(source, False)
    with os.fdopen(source, "rb", buffering=0) as file, os.fdopen(sink, "wb", buffering=0) as end:
        reader = jcobs.FrameReader(file)
        assert list(reader) == []
        end.write(b"\x03h")
        assert list(reader) == [] and reader.unfinished
        end.write(b"i\0")
        assert list(reader) == [jcobs.Message(b"hi")]


def test_nothing_is_lost_between_iterations():
    reader = jcobs.FrameReader(io.BytesIO(STREAM), max_length=5)
    assert [next(iter(reader)) for _ in OUTCOMES] == OUTCOMES
    assert list(reader) == []


def test_read_gives_one_outcome_and_the_end_is_no_timeout():
    reader = jcobs.FrameReader(io.BytesIO(STREAM), max_length=5)
    assert [reader.read(), next(iter(reader)), reader.read(timeout=1)] == OUTCOMES
    for timeout in (None, 0, 1):
        with pytest.raises(EOFError, match="the stream ended inside a frame"):
            reader.read(timeout)
    assert list(reader) == []
    with pytest.raises(EOFError, match="the stream ended$"):
        jcobs.FrameReader(io.BytesIO(b"")).read()


def test_messages_alone():
    reader = jcobs.FrameReader(io.BytesIO(STREAM[:4] + STREAM), max_length=5)
    assert list(reader.messages()) == [b"hi", b"hi"]


class Failing:
    def __init__(self):
        self.reads = [b"\x03h", OSError(), b"i\0", b""]

    def read(self, size):
        given = self.reads.pop(0)
        if isinstance(given, BaseException):
            raise given
        return given


def test_nothing_is_lost_by_a_read_that_fails():
    reader = jcobs.FrameReader(Failing())
    with pytest.raises(OSError):
        list(reader)
    assert list(reader) == [jcobs.Message(b"hi")]


@contextlib.contextmanager
def ends(kind):
    """What a reader reads from, and a raw file that writes to it."""
    if kind.startswith("socket"):
        here, there = socket.socketpair()
        with here, there, there.makefile("wb", buffering=0) as end:
            yield (here if kind == "socket" else here.makefile("rb", buffering=-1)), end
            return
    source, sink = os.pipe()
    with os.fdopen(source, "rb", buffering=-1 if "buffered" in kind else 0) as file, os.fdopen(sink, "wb", 0) as end:
        yield file, end


def hang_up(end):
    """Ends the stream that a raw file writes to."""
    if stat.S_ISSOCK(os.fstat(end.fileno()).st_mode):  # a pipe ends by `close`
        with socket.socket(fileno=os.dup(end.fileno())) as sock:
            sock.shutdown(socket.SHUT_WR)
    end.close()


KINDS = ["pipe", "buffered pipe", "socket", "socket as a file"]


@pytest.mark.parametrize("kind", KINDS)
def test_a_timeout_is_not_the_end(kind):
    with ends(kind) as (file, end):
        reader = jcobs.FrameReader(file)
        for _ in range(2):
            assert reader.read(timeout=0) is reader.read(timeout=0.01) is None
        end.write(b"\x03h")
        assert reader.read(timeout=0.01) is None and reader.unfinished
        end.write(b"i\0\x03ho\0")
        assert [reader.read(timeout=9), reader.read(timeout=0)] == [jcobs.Message(b"hi"), jcobs.Message(b"ho")]
        assert reader.read(timeout=0.01) is None
        end.write(jcobs.encode(b"last", terminated=True))
        end.close()
        if kind == "socket":
            file.shutdown(socket.SHUT_RDWR)
        assert reader.read() == jcobs.Message(b"last")
        if kind != "socket as a file":
            with pytest.raises(EOFError):
                reader.read(timeout=9)


@pytest.mark.parametrize("kind", ["pipe", "buffered pipe", "socket", "socket as a file"])
def test_a_reader_that_does_not_wait(kind):
    with ends(kind) as (file, end):
        (file.setblocking if kind == "socket" else lambda no: os.set_blocking(file.fileno(), no))(False)
        reader = jcobs.FrameReader(file)
        assert reader.read() is None and list(reader) == []
        end.write(b"\x03hi\0")
        assert reader.read() == jcobs.Message(b"hi") and reader.read() is None
        assert reader.read(timeout=0.01) is None
        end.write(b"\x03h")
        assert reader.read() is None and reader.unfinished
        end.write(b"i\0" + b"\x02a\0" * 20_000)
        assert [reader.read().data for _ in range(20_001)] == [b"hi"] + [b"a"] * 20_000
        assert reader.read() is None and list(reader) == []
        end.close()
        if kind == "socket":
            file.shutdown(socket.SHUT_RDWR)
        for timeout in (None, 0, 9) if kind != "socket as a file" else ():
            with pytest.raises(EOFError, match="the stream ended$"):
                reader.read(timeout)


def test_the_timeout_of_a_socket():
    with ends("socket") as (sock, end):
        sock.settimeout(0.02)
        reader = jcobs.FrameReader(sock)
        assert reader.read() is None and list(reader) == []
        end.write(b"\x03hi\0")
        assert list(reader) == [jcobs.Message(b"hi")]
        assert sock.gettimeout() == 0.02


@pytest.mark.skipif(shutil.which("openssl") is None, reason="needs openssl")
def test_the_timeout_over_tls(tmp_path):
    key, certificate = str(tmp_path / "key"), str(tmp_path / "certificate")
    words = ["openssl", "req", "-x509", "-nodes", "-newkey", "rsa:2048", "-subj", "/CN=localhost", "-keyout", key]
    subprocess.run([*words, "-out", certificate], check=True, capture_output=True)
    context = ssl.SSLContext(ssl.PROTOCOL_TLS_SERVER)
    context.load_cert_chain(certificate, key)
    left, right = socket.socketpair()
    go_on, done = threading.Event(), threading.Event()

    def serve():
        with context.wrap_socket(left, server_side=True) as server:  # it sends tickets, which are no data
            go_on.wait(250)
            server.sendall(b"\x03hi\x00")
            done.wait(250)

    thread = threading.Thread(target=serve)
    thread.start()
    client = ssl.create_default_context(cafile=certificate)
    with client.wrap_socket(right, server_hostname="localhost") as sock:
        reader = jcobs.FrameReader(sock)
        begun = time.monotonic()
        assert reader.read(timeout=0.2) is None and reader.read(timeout=0) is None
        assert time.monotonic() - begun < 120
        go_on.set()
        assert reader.read(timeout=math.inf) == jcobs.Message(b"hi")
        sock.setblocking(False)
        assert reader.read(timeout=0.2) is None and reader.read() is None and sock.gettimeout() == 0
    done.set()
    thread.join()


def test_a_connection_that_is_lost_is_no_timeout():
    class Lost:
        def recv(self, size):
            raise OSError(errno.ETIMEDOUT, "Connection timed out")

    with pytest.raises(TimeoutError):
        jcobs.FrameReader(Lost()).read()


@pytest.mark.parametrize("kind", ["pipe", "socket"])
def test_a_timeout_is_for_the_whole_frame(kind):
    stop = threading.Event()
    with ends(kind) as (file, end):

        def trickle():
            while not stop.wait(0.01):
                end.write(b"\x01")

        writer = threading.Thread(target=trickle)
        writer.start()
        try:
            begin = time.monotonic()
            assert jcobs.FrameReader(file).read(timeout=0.1) is None
            assert 0.09 < time.monotonic() - begin < 60
        finally:
            stop.set()
            writer.join()


@pytest.mark.parametrize("timeout, waits", [(5, [5, 2]), (0, [0]), (math.inf, [2e6] * 3), (None, [None] * 3)])
def test_each_wait_is_for_what_is_left(timeout, waits, monkeypatch):
    moments = iter([100.0, 103.0, 105.0])
    monkeypatch.setattr(_readers, "time", types.SimpleNamespace(monotonic=lambda: next(moments)))
    assert list(itertools.islice(_readers.waits(timeout), 3)) == waits


def test_wrong_timeouts():
    for timeout in (-1, float("nan")):
        with pytest.raises(ValueError, match="timeout must not be negative"):
            jcobs.FrameReader(io.BytesIO()).read(timeout)
    for timeout in ("1", b"1", [1], io.BytesIO()):
        with pytest.raises(
            TypeError, match=f"timeout must be a number of seconds or None, not {type(timeout).__name__}"
        ):
            jcobs.FrameReader(io.BytesIO()).read(timeout)
    assert jcobs.FrameReader(io.BytesIO(b"\x03hi\0")).read(Fraction(1, 3)) == jcobs.Message(b"hi")
    with pytest.raises(TypeError, match="Failing has no fileno"):
        jcobs.FrameReader(Failing()).read(timeout=1)
    with ends("socket") as (sock, end), sock.makefile("rwb") as file:  # which would wait for ever
        with pytest.raises(TypeError, match="BufferedRWPair has no fileno"):
            jcobs.FrameReader(file).read(timeout=1)


def test_wrong_files(tmp_path):
    for file in ("/dev/ttyUSB0", tmp_path, 5, None, b"\x03hi\0"):
        with pytest.raises(TypeError, match=f"file must be a serial port, a socket .*, not {type(file).__name__}"):
            jcobs.FrameReader(file)
    (tmp_path / "frames").write_bytes(b"\x03hi\0")
    with (tmp_path / "frames").open() as file:
        with pytest.raises(TypeError, match="file must be binary"):
            jcobs.FrameReader(file)
        assert file.read() == "\x03hi\0"  # nothing is gone


@settings(max_examples=200)
@given(
    st.sampled_from(["pipe", "buffered pipe", "socket", "memory"]),
    st.lists(st.tuples(st.integers(0, 14), st.sampled_from([0, 0.0001, None]), st.integers(0, 3))),
)
def test_reads_with_timeouts_lose_nothing(kind, schedule):
    """Some bytes come, and some reads are made, again and again; at last all messages were read, in order."""
    messages = [b"%d" % number * (number % 3) for number in range(40)]
    rest = b"".join(jcobs.encode(message, terminated=True) for message in messages)
    found = []
    with ends("pipe" if kind == "memory" else kind) as (file, end):
        reader = jcobs.FrameReader(io.BytesIO(rest) if kind == "memory" else file)
        with pytest.raises(EOFError, match="the stream ended$"):  # for bytes in memory perhaps within the schedule
            for count, timeout, reads in schedule:
                if kind != "memory":
                    end.write(rest[:count])
                rest = rest[count:]
                for _ in range(reads if timeout is not None else 0):
                    found.append(reader.read(timeout))
            if kind != "memory":
                end.write(rest)
                hang_up(end)
            while True:
                found.append(reader.read(timeout=60))
    assert [one.data for one in found if one is not None] == messages


@pytest.mark.parametrize("kind", KINDS)
def test_a_timeout_of_0_does_not_wait(kind):
    with ends(kind) as (file, end):
        reader = jcobs.FrameReader(file)
        begun = time.process_time(), time.monotonic()
        for _ in range(400):
            assert reader.read(timeout=0) is None
        # the time beyond that of the processor, which a busy machine makes longer, and each wait
        assert time.monotonic() - begun[1] < 10


def test_a_timeout_of_0_reads_once():
    """More bytes are there at once, and the frame ends in them."""

    class Sock:
        left = [b"\x03", b"h", b"i", b"\0"]

        def fileno(self):
            return readable

        def recv(self, size):
            return self.left.pop(0)

    readable, sink = os.pipe()
    os.write(sink, b"!")
    reader = jcobs.FrameReader(Sock())
    for left in (3, 2, 1):
        assert reader.read(timeout=0) is None and len(Sock.left) == left
    assert reader.read(timeout=0) == jcobs.Message(b"hi")
    os.close(readable)
    os.close(sink)


def test_bytes_that_pyopenssl_has_decrypted_are_asked_for():
    """Its sockets have `pending`; the descriptor has nothing more."""

    class Decrypted:
        def __init__(self, sock):
            self.sock, self.left = sock, [b"\x03hi\0", b"\x03ho\0"]

        def pending(self):
            return sum(map(len, self.left))

        def fileno(self):
            return self.sock.fileno()

        def recv(self, size):
            return self.left.pop(0)

    with ends("socket") as (sock, end):
        reader = jcobs.FrameReader(Decrypted(sock))
        assert [reader.read(timeout=5), reader.read(timeout=0)] == [jcobs.Message(b"hi"), jcobs.Message(b"ho")]
        assert reader.read(timeout=0.01) is None


def test_a_socket_in_full():
    messages = [os.urandom(length % 300) for length in range(0, 40_000, 7)]
    with ends("socket") as (sock, end):
        sender = jcobs.FrameReader(end, sentinel=9)

        def send():
            for message in messages:
                sender.write(message)
            end.close()

        writer = threading.Thread(target=send)
        writer.start()
        assert list(itertools.islice(jcobs.FrameReader(sock, sentinel=9).messages(), len(messages))) == messages
        writer.join()


def test_write(tmp_path):
    frame = b"\x06hello\0"
    for make in (io.BytesIO, lambda: io.BufferedRandom(io.FileIO(tmp_path / "frames", "w+"))):
        file = make()
        jcobs.FrameReader(file).write(bytearray(b"hello"))
        if isinstance(file, io.BufferedRandom):
            assert (tmp_path / "frames").read_bytes() == frame  # it is flushed
        else:
            assert file.getvalue() == frame
    with pytest.raises(io.UnsupportedOperation):
        jcobs.FrameReader((tmp_path / "frames").open("rb")).write(b"hello")


class Slow(io.RawIOBase):
    """A raw file that takes 3 bytes at a time, and no more than it has room for."""

    def __init__(self, room):
        self.room, self.written = room, b""

    def writable(self):
        return True

    def write(self, data):
        count = min(3, self.room - len(self.written))
        self.written += bytes(data[:count])
        return count or None


def test_write_to_a_file_that_takes_some_bytes():
    slow = Slow(100)
    jcobs.FrameReader(slow).write(b"hello")
    assert slow.written == b"\x06hello\0"
    with pytest.raises(BlockingIOError, match="with 2 bytes of the frame left"):
        jcobs.FrameReader(Slow(5)).write(b"hello")


def test_serial_port(pair):
    port, end = pair  # without a timeout, so that a read which waits for more bytes than there are has no end
    outcomes = iter(jcobs.FrameReader(port, max_length=5))
    end.write(STREAM[:5])
    assert next(outcomes) == OUTCOMES[0]
    end.write(STREAM[5:])
    assert [next(outcomes) for _ in OUTCOMES[1:]] == OUTCOMES[1:]
    end.write(b"\x01\0")
    assert next(outcomes) == jcobs.Message(b"\x01")
    port.write(jcobs.encode(b"back", terminated=True))
    assert next(iter(jcobs.FrameReader(end))) == jcobs.Message(b"back")


def test_request_and_reply_over_a_serial_port(pair):
    port, end = pair
    port.timeout = 30
    reader, device = jcobs.FrameReader(port), jcobs.FrameReader(end)
    assert reader.read(timeout=0) is reader.read(timeout=0.05) is None
    for number in range(50):
        reader.write(b"%d" % number)
        request = device.read(timeout=30)
        end.write(b"\x05a\0")
        device.write(request.data + b"\0")
        assert reader.read(timeout=30) == jcobs.Broken(b"a")
        assert reader.read(timeout=30) == jcobs.Message(b"%d\0" % number)
    assert port.timeout == 30


def test_a_read_never_configures_the_port_anew(pair, monkeypatch):
    """It would while bytes come in: at a rate of its own that is a new rate for the device each time."""
    port, end = pair
    reader = jcobs.FrameReader(port)
    monkeypatch.setattr(type(port), "_reconfigure_port", lambda *words, **named: pytest.fail("configured"))
    assert reader.read(timeout=0) is reader.read(timeout=0.01) is None
    for byte in b"\x06hello":
        end.write(bytes([byte]))
        assert reader.read(timeout=0.001) is None
    end.write(b"\0")
    assert reader.read(timeout=60) == jcobs.Message(b"hello")
    reader.discard()


def test_a_port_is_read_in_few_calls():
    class Port:
        name, timeout, calls = "a port", None, 0

        def __init__(self, data):
            self.left = data

        @property
        def in_waiting(self):
            return len(self.left)

        def read(self, size):
            self.calls += 1
            chunk, self.left = self.left[:size], self.left[size:]
            return chunk

    port = Port(jcobs.encode(b"\x01" * 30_000, terminated=True) * 2)
    reader = jcobs.FrameReader(port)
    for timeout in (60, None):
        assert reader.read(timeout) == jcobs.Message(b"\x01" * 30_000)
    assert port.calls <= 2
    assert reader.read(timeout=0) is None and port.timeout is None


def test_a_port_at_a_socket():
    serial = pytest.importorskip("serial")
    message = b"\x01" * 20_000
    with socket.create_server(("127.0.0.1", 0)) as server:
        port = serial.serial_for_url("socket://127.0.0.1:%d" % server.getsockname()[1], timeout=0.02)
        there, _ = server.accept()
        with there, jcobs.FrameReader(port) as reader, jcobs.FrameReader(there) as device:
            assert repr(reader).startswith("<FrameReader of 'socket://127.0.0.1:")
            calls, own = [], port.read
            port.read = lambda size: calls.append(size) or own(size)
            assert reader.read() is reader.read(timeout=0) is reader.read(timeout=0.01) is None
            device.write(message)
            assert reader.read(timeout=60) == jcobs.Message(message)
            assert len(calls) < 200 and port.timeout == 0.02
            device.write(b"hi")
            while (one := reader.read()) is None:
                pass
            assert one == jcobs.Message(b"hi")
            reader.write(b"back")
            assert device.read(60) == jcobs.Message(b"back")


def test_a_port_without_a_descriptor():
    serial = pytest.importorskip("serial")
    with jcobs.FrameReader(serial.serial_for_url("loop://", timeout=7)) as reader:
        assert reader.read(timeout=0) is reader.read(timeout=0.01) is None
        for message in (b"one", b"two\0"):
            reader.write(message)
            assert reader.read(timeout=60) == jcobs.Message(message)
        assert reader._file.timeout == 7


def test_a_read_of_a_port_that_is_cancelled(pair):
    port, end = pair
    reader = jcobs.FrameReader(port)
    for timeout in (60, None):
        timer = threading.Timer(0.1, port.cancel_read)
        timer.start()
        assert reader.read(timeout) is None or timeout
        timer.join()
    end.write(b"\x03hi\0")
    assert reader.read(timeout=60) == jcobs.Message(b"hi")


def test_the_timeout_of_a_serial_port_ends_the_iteration(pair):
    port, end = pair
    port.timeout = 0.05
    reader = jcobs.FrameReader(port)
    assert list(reader) == []
    end.write(b"\x03h")
    while not reader.unfinished:  # what was written may come after a timeout
        assert list(reader) == []
    end.write(b"i\0")
    while not (found := list(reader)):
        pass
    assert (found, reader.unfinished) == ([jcobs.Message(b"hi")], False)


def test_serial_port_in_full(pair):
    port, end = pair
    messages = [os.urandom(length % 300) for length in range(0, 6000, 7)]
    stream = b"".join(jcobs.encode(message, terminated=True) for message in messages)
    writer = threading.Thread(target=lambda: [end.write(stream[at : at + 512]) for at in range(0, len(stream), 512)])
    writer.start()
    outcomes = iter(jcobs.FrameReader(port))
    assert [next(outcomes).data for _ in messages] == messages
    writer.join()
