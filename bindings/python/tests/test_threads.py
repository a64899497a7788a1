"""Threads, interruptions and subinterpreters."""

import subprocess
import sys
import textwrap
import threading

import pytest

import jcobs

PLAIN = jcobs.backend == "python"
LONG = b"\x01" * (400_000 if PLAIN else 40_000_000)
only_extension = pytest.mark.skipif(PLAIN, reason="Python code has the GIL, and lets others run")


def lets_others_run(call):
    """Whether another thread got the GIL during the call. It asks for none, so the call has to release it."""
    interval = sys.getswitchinterval()
    sys.setswitchinterval(60)
    try:
        done = threading.Event()
        worker = threading.Thread(target=lambda: (call(), done.set()))
        worker.start()
        released = not done.is_set()
        worker.join()
    finally:
        sys.setswitchinterval(interval)
    return released


@only_extension
@pytest.mark.parametrize("make", [bytes, bytearray])
@pytest.mark.parametrize(
    "call",
    [
        jcobs.encode,
        jcobs.decode,
        jcobs.frame_kind,
        lambda data: jcobs.Decoder(len(data)).feed(data),
        lambda data: jcobs.Decoder(len(data), 7).feed(data.replace(b"\x01", b"\0")),
        lambda data: jcobs.Encoder(len(data)).feed(data),
    ],
    ids=["encode", "decode", "frame_kind", "Decoder.feed", "Decoder.feed for another sentinel", "Encoder.feed"],
)
def test_long_calls_release_the_gil(call, make):
    data = make(LONG)
    # on a busy machine the other thread may come too late, so it has another try until the limit of time is over
    while not lets_others_run(lambda: call(data)):
        pass


def test_short_calls_keep_the_gil():
    assert not lets_others_run(lambda: [jcobs.encode(b"hello") for _ in range(1000)])


def use(coder):
    """Has the coder at work for long."""
    coder.feed(LONG)
    if PLAIN and isinstance(coder, jcobs.Encoder):
        coder.finish()
    coder.reset()


@pytest.mark.parametrize(
    "coder, calls",
    [
        (jcobs.Decoder(len(LONG)), ["feed", "reset", "unfinished"]),
        (jcobs.Encoder(2 * len(LONG)), ["feed", "finish", "reset"]),
    ],
    ids=["Decoder", "Encoder"],
)
def test_a_coder_in_use_raises(coder, calls):
    for call in calls:
        coder.reset()
        stop = threading.Event()

        def work():
            while not stop.is_set():
                try:
                    use(coder)
                except RuntimeError:  # the other thread was faster
                    pass

        worker = threading.Thread(target=work)
        worker.start()
        try:
            with pytest.raises(RuntimeError, match="in use by another call"):
                while True:  # until the limit of time is over
                    value = getattr(coder, call)
                    if call != "unfinished":
                        value(*[b""] * (call == "feed"))
        finally:
            stop.set()
            worker.join()
    coder.reset()


def test_threads_with_coders_of_their_own():
    messages = [bytes([number]) * number for number in range(256)] * 20
    wrong = []

    def work(sentinel):
        decoder, encoder = jcobs.Decoder(255, sentinel), jcobs.Encoder(255, sentinel)
        for message in messages:
            encoder.feed(message)
            if decoder.feed(encoder.finish(terminated=True)) != [jcobs.Message(message)]:
                wrong.append((sentinel, message))

    workers = [threading.Thread(target=work, args=(sentinel,)) for sentinel in range(8)]
    for worker in workers:
        worker.start()
    for worker in workers:
        worker.join()
    assert not wrong


def test_data_that_another_thread_changes():
    data = bytearray(b"\x01" * (30_000 if PLAIN else 3_000_000))
    stop = threading.Event()

    def change():
        at = 0
        while not stop.is_set():
            at = (at + 7919) % len(data)
            data[at] ^= 1

    worker = threading.Thread(target=change)
    worker.start()
    try:
        for _ in range(50):
            message = jcobs.decode(jcobs.encode(data))
            assert len(message) == len(data)
    finally:
        stop.set()
        worker.join()


@only_extension
def test_a_decoder_takes_three_classes_of_outcomes():
    core = jcobs._backend.core
    for classes in ((), (bytes,) * 3, (jcobs.Message,) * 2, (jcobs.Message,) * 4, [jcobs.Message] * 3, None):
        with pytest.raises(TypeError, match="three classes of outcomes"):
            core.Decoder(16, 0, classes)
    assert core.Decoder(16, 0, (jcobs.Message,) * 3).feed(b"\x05a\0") == [jcobs.Message(b"a")]


INTERPRETERS = """
    try:
        import _interpreters as interpreters  # CPython 3.13 and later
    except ImportError:
        import _xxsubinterpreters as interpreters
    import threading
    import jcobs

    CODE = '''if True:
        import jcobs
        decoder, encoder = jcobs.Decoder(1000), jcobs.Encoder(1000)
        for number in range(2000):
            message = bytes([number % 256]) * (number % 700)
            encoder.feed(message)
            assert decoder.feed(encoder.finish(terminated=True)) == [jcobs.Message(message)]
            try:
                jcobs.decode(b"\\\\x05a")
            except jcobs.DecodeError as error:
                assert error.kind == "broken" and error.data == b"a"
            else:
                raise AssertionError
        done = b"yes"
    '''

    def work():
        for _ in range(3):
            interpreter = interpreters.create()
            failed = interpreters.run_string(interpreter, CODE)
            assert failed is None, failed
            interpreters.destroy(interpreter)

    workers = [threading.Thread(target=work) for _ in range(4)]
    for worker in workers:
        worker.start()
    for worker in workers:
        worker.join()
    work()
    assert jcobs.Decoder().feed(b"\\x03hi\\0") == [jcobs.Message(b"hi")]
    print("done")
"""


def test_subinterpreters():
    pytest.importorskip("_interpreters" if sys.version_info >= (3, 13) else "_xxsubinterpreters")
    ran = subprocess.run(
        [sys.executable, "-W", "error", "-c", textwrap.dedent(INTERPRETERS)],
        capture_output=True,
        text=True,
        timeout=250,
    )
    assert (ran.returncode, ran.stdout, ran.stderr) == (0, "done\n", "")
