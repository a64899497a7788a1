"""Readers that threads share, and exceptions of signal handlers while a reader is at work.

JCOBS_OUTCOMES says how many outcomes each driver reads.
"""

import contextlib
import gc
import io
import os
import random
import shutil
import signal
import socket
import ssl
import subprocess
import sys
import threading

import pytest

import jcobs
from jcobs._files import read_ssl
from test_readers import KINDS, ends, hang_up

OUTCOMES = int(os.environ.get("JCOBS_OUTCOMES", "10000"))
MESSAGES = [b"%d\0" % number * (number % 7) + b"%d" % number for number in range(OUTCOMES)]
STREAM = b"".join(jcobs.encode(message, terminated=True) for message in MESSAGES)
# If it isn't exact, the package loses some outcomes if a signal handler raises an exception. It makes none up.
EXACT = jcobs.backend != "python" and sys.version_info >= (3, 11)


def sent(end):
    """A thread that sends the stream to a raw file."""

    def send():
        for at in range(0, len(STREAM), 100):
            left = STREAM[at : at + 100]
            while left:
                left = left[end.write(left) :]
        hang_up(end)

    sender = threading.Thread(target=send)
    sender.start()
    return sender


@pytest.mark.parametrize("timeout", [None, 0.2])
def test_threads_that_share_a_reader(timeout):
    """Each message is read once, or a read is refused: no bytes are swapped."""
    found, refused = [], []

    def work(reader):
        while True:
            try:
                outcome = reader.read(timeout)
            except RuntimeError as error:
                refused.append(str(error))
            except EOFError:
                return
            else:
                if outcome is not None:
                    found.append(outcome)

    with ends("socket") as (here, end):
        reader = jcobs.FrameReader(here)
        workers = [threading.Thread(target=work, args=(reader,)) for _ in range(3)]
        for worker in workers:
            worker.start()
        sent(end).join()
        for worker in workers:
            worker.join()
    assert sorted(outcome.data for outcome in found) == sorted(MESSAGES)
    assert all(type(outcome) is jcobs.Message for outcome in found)
    assert set(refused) <= {"the reader is in use by another call"}


def test_a_second_call_is_refused_while_one_waits():
    here, there = socket.socketpair()
    with jcobs.FrameReader(here) as reader, there:
        waits = threading.Event()
        own = reader._read
        reader._read = lambda *words: waits.set() or own(*words)
        found = []
        worker = threading.Thread(target=lambda: found.append(reader.read(60)))
        worker.start()
        assert waits.wait(60)
        for call in (reader.read, lambda: next(iter(reader)), reader.discard, lambda: reader.request(b"ask", 1)):
            with pytest.raises(RuntimeError, match="^the reader is in use by another call$"):
                call()
        reader.write(b"hello")  # one thread may read while another one writes
        assert b"\x06hello\0" in there.recv(100)
        there.sendall(b"\x03hi\0")
        worker.join()
        assert found == [jcobs.Message(b"hi")] and reader.read(timeout=0) is None


def test_a_second_write_is_refused_while_one_waits():
    here, there = socket.socketpair()
    with jcobs.FrameReader(here) as writer, there:
        worker = threading.Thread(target=writer.write, args=(b"\x01" * 5_000_000,))
        worker.start()
        with pytest.raises(RuntimeError, match="^the writer is in use by another call$"):
            while True:  # until the other thread is in its call, or the limit of time is over
                if there.recv(1, socket.MSG_PEEK):
                    writer.write(b"small")
        found = []
        reader = jcobs.FrameReader(there, 5_000_000)
        found.append(reader.read(60))
        worker.join()
        writer.write(b"next")
        assert [*found, reader.read(60)] == [jcobs.Message(b"\x01" * 5_000_000), jcobs.Message(b"next")]


class Interruption(Exception):
    pass


class Alarms:
    """Signals at random moments, whose handler raises an exception while it is armed."""

    def __init__(self):
        self.before = signal.signal(signal.SIGALRM, self.interrupt)
        self.armed, self.raised, self.source = False, 0, random.Random(7)

    def interrupt(self, number, frame):
        # again after 10 ms, if the signal comes right before a call that waits
        signal.setitimer(signal.ITIMER_REAL, self.source.random() * 0.0004 + 0.00002, 0.01)
        if self.armed:
            self.armed = False
            self.raised += 1
            raise Interruption

    def repeat(self, step):
        self.armed = True
        while step():
            pass

    def run(self, step):
        """Calls the step again and again, until it returns false, or raises an EOFError."""
        signal.setitimer(signal.ITIMER_REAL, 0.001, 0.01)
        going = True
        while going:
            try:
                try:
                    self.repeat(step)  # a call, as `try` misses what is raised at the jump of a loop on CPython 3.13
                except EOFError:
                    pass
                going = self.armed = False
            except Interruption:
                pass
        signal.setitimer(signal.ITIMER_REAL, 0)


@pytest.fixture
def alarms(limit):
    if not hasattr(signal, "setitimer"):
        pytest.skip("there is no setitimer")
    gc.collect()  # an exception in what garbage calls back would be dropped
    gc.disable()
    made = Alarms()
    yield made
    signal.signal(signal.SIGALRM, signal.SIG_IGN)  # its handler sets the timer again
    signal.setitimer(signal.ITIMER_REAL, 0)
    signal.signal(signal.SIGALRM, made.before)
    gc.enable()


def check(found, reader, exact):
    """None is made up, none is doubled; and where some are lost, the reader says so, if that is promised."""
    numbers = {message: number for number, message in enumerate(MESSAGES)}
    last, broken = -1, False
    for outcome in found:
        if isinstance(outcome, jcobs.Message):
            assert numbers[outcome.data] > last  # raises KeyError for a message that wasn't sent
            assert not EXACT or broken or numbers[outcome.data] == last + 1
            last, broken = numbers[outcome.data], False
        else:
            assert outcome == jcobs.Broken(b"") and not (EXACT and exact)
            broken = True
    assert not EXACT or broken or last == len(MESSAGES) - 1 or (reader.unfinished and not exact)


WAYS = {
    "read": lambda reader, found: lambda: found.append(reader.read()) or True,
    "read with a timeout": lambda reader, found: lambda: found.append(reader.read(timeout=60)) or True,
    "iteration": lambda reader, found: lambda: found.extend(reader),
    "for": lambda reader, found: lambda: [found.append(outcome) for outcome in reader] and False,
    "messages": lambda reader, found: lambda: found.extend(map(jcobs.Message, reader.messages())),
}


def drive(reader, way, alarms, exact):
    found = []
    refused = []

    def step():
        try:
            return WAYS[way](reader, found)()
        except RuntimeError as error:
            refused.append(error)
            return False

    alarms.run(step)
    if refused:  # as the README says
        assert not EXACT
    check(found, reader, exact)


@pytest.mark.parametrize("way", WAYS)
@pytest.mark.parametrize("kind", KINDS)
def test_exceptions_of_signal_handlers(kind, way, alarms):
    if way == "messages" and "as a file" in kind:
        return  # it skips each Broken
    with ends(kind) as (here, end):
        sender = sent(end)
        drive(jcobs.FrameReader(here), way, alarms, "as a file" not in kind)
        while (here.recv if kind == "socket" else here.read)(65536):
            pass
        sender.join()
    assert alarms.raised > 0


# Sends the stream of its standard input to a descriptor, in parts, and then the last frame again and again.
SEND = """
import os, random, sys, time
stream, source, at = sys.stdin.buffer.read(), random.Random(3), 0
while at < len(stream):
    at += os.write(int(sys.argv[1]), stream[at : at + source.randrange(1, 400)])
    time.sleep(0.0005 * (source.random() < 0.02))
while True:
    os.write(int(sys.argv[1]), b"\\x05last\\0")
    time.sleep(0.005)
"""


@pytest.mark.parametrize("way", ["read", "read with a timeout", "for"])
def test_exceptions_of_signal_handlers_over_a_terminal_with_another_process(way, alarms, pair):
    """pyserial's read is written in Python, so bytes are lost."""
    port, end = pair
    reader, found, refused, last = jcobs.FrameReader(port), [], [], jcobs.Message(b"last")
    words = [sys.executable, "-c", SEND, str(end.fileno())]
    with subprocess.Popen(words, stdin=subprocess.PIPE, pass_fds=[end.fileno()]) as sender:
        sender.stdin.write(STREAM)
        sender.stdin.close()

        def step():
            try:
                if way == "for":
                    for outcome in reader:
                        found.append(outcome)
                        if outcome == last:
                            return False
                found.append(reader.read(timeout=0.01 if "timeout" in way else None))
                return found[-1] != last
            except RuntimeError as error:
                refused.append(error)
                return False

        alarms.run(step)
        sender.kill()
    assert alarms.raised > 0 and not (refused and EXACT)
    check([one for one in found if one not in (None, last)], reader, exact=False)


@pytest.mark.skipif(shutil.which("openssl") is None, reason="needs openssl")
def test_exceptions_of_signal_handlers_over_tls(tmp_path, alarms):
    key, certificate = str(tmp_path / "key"), str(tmp_path / "certificate")
    words = ["openssl", "req", "-x509", "-nodes", "-newkey", "rsa:2048", "-subj", "/CN=localhost", "-keyout", key]
    subprocess.run([*words, "-out", certificate], check=True, capture_output=True)
    context = ssl.SSLContext(ssl.PROTOCOL_TLS_SERVER)
    context.load_cert_chain(certificate, key)
    left, right = socket.socketpair()

    def serve():
        with contextlib.suppress(OSError), context.wrap_socket(left, server_side=True) as server:
            for at in range(0, len(STREAM), 100):
                server.sendall(STREAM[at : at + 100])
            server.unwrap()

    server = threading.Thread(target=serve)
    server.start()
    client = ssl.create_default_context(cafile=certificate)
    with client.wrap_socket(right, server_hostname="localhost") as sock:
        drive(jcobs.FrameReader(sock), "read with a timeout", alarms, False)
    server.join()
    assert alarms.raised > 0


@pytest.mark.parametrize("kind", ["an SSL socket", "a file", "a port"])
def test_a_loss_in_a_read_that_is_written_in_python_is_noticed(kind):
    """Without the lost bytes, the first frame and the rest of the second one would be the frame of b"abc"."""

    class Source:
        parts = [b"\x04ab", Interruption(), b"c\0\x03hi\0", OSError("gone"), b"\x02a", b""]  # lost: b"d\0\x04x"
        timeout = None
        in_waiting = 9

        def gettimeout(self):
            return None

        def recv(self, size):
            part = self.parts.pop(0)
            if isinstance(part, Exception):
                raise part
            return part

        read = recv

    source = Source()
    source.parts = list(Source.parts)
    if kind == "an SSL socket":
        reader = jcobs.FrameReader(io.BytesIO())
        reader._read, reader._file = read_ssl, source
    elif kind == "a port":
        reader = jcobs.FrameReader(source)
    else:
        del Source.in_waiting, Source.recv
        reader = jcobs.FrameReader(source)
    with pytest.raises(Interruption):
        list(reader)
    assert reader.unfinished
    assert reader.read() == jcobs.Broken(b"") and reader.read() == jcobs.Message(b"hi")
    with pytest.raises(OSError, match="gone"):  # which loses nothing
        reader.read()
    assert not reader.unfinished
    assert list(reader) == [] and reader.unfinished


def test_a_reader_works_after_a_read_that_is_interrupted(alarms):
    here, there = socket.socketpair()
    with jcobs.FrameReader(here) as reader, there:
        alarms.run(lambda: alarms.raised < 20 and reader.read())
        there.sendall(b"\0\x03hi\0")
        found = reader.read(60)
        assert found == jcobs.Message(b"hi") or (not EXACT and reader.read(60) == jcobs.Message(b"hi"))


@pytest.mark.skipif(jcobs.backend == "python", reason="it is about the extension's own memory")
def test_an_outcome_without_memory_is_returned_by_the_next_call():
    testcapi = pytest.importorskip("_testcapi", reason="CPython's own test module makes allocations fail")
    stream = b"\x03hi\0\x06hel\0\0\x01\0\x02"
    for start in range(20):
        decoder, found, count, failed = jcobs.FrameReader(io.BytesIO())._decoder, [None] * 4, 0, False
        decoder.push(stream)
        testcapi.set_nomemory(start, start + 1)
        try:
            while (outcome := decoder.take()) is not None:
                found[count] = outcome
                count += 1
        except MemoryError:
            failed = True
        finally:
            testcapi.remove_mem_hooks()
        found[count:] = decoder
        assert found == [jcobs.Message(b"hi"), jcobs.Broken(b"hel"), jcobs.Message(b"")] and decoder.unfinished
        assert failed or start > 0
