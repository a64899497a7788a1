"""Settings of Hypothesis for a machine that may be busy, without a database of examples; a time limit for each test."""

import os
import signal
import time

import pytest
from hypothesis import HealthCheck, settings

from jcobs import _async, _readers

settings.register_profile(
    "jcobs",
    deadline=None,
    database=None,
    max_examples=int(os.environ.get("JCOBS_EXAMPLES", "100")),
    suppress_health_check=[HealthCheck.too_slow],
)
settings.load_profile("jcobs")


@pytest.fixture(autouse=True)
def limit():
    """Ends a test that hangs: one that computes for five minutes, or that waits so long and does nothing.

    A test that a busy machine keeps from its processors does neither.
    """
    begun = last = time.process_time()

    def late(number, frame):
        nonlocal last
        used, last = time.process_time() - last, time.process_time()
        if used > 1 and last - begun < 300:
            signal.alarm(300)
            return
        signal.signal(signal.SIGALRM, too_late)
        signal.alarm(60)
        raise TimeoutError("the test took more than five minutes")

    def too_late(number, frame):
        os.write(2, b"the test took more than five minutes, and dropped the exception that said so\n")
        os._exit(3)

    before = signal.signal(signal.SIGALRM, late)
    signal.alarm(300)
    yield
    signal.alarm(0)
    signal.signal(signal.SIGALRM, before)


@pytest.fixture
def patient(monkeypatch):
    """Waits of `discard` that a busy machine doesn't outlast."""
    for module in (_readers, _async):
        monkeypatch.setattr(module, "LONGEST_DISCARD", 250.0)
    monkeypatch.setattr(_async, "SHORTEST", 0.5)


@pytest.fixture
def terminals():
    """The descriptor of a pseudo-terminal, and a file to write to its other end."""
    tty = pytest.importorskip("tty")
    other, device = os.openpty()
    tty.setraw(other)
    tty.setraw(device)
    with os.fdopen(other, "r+b", buffering=0) as end:
        yield device, end
    os.close(device)


@pytest.fixture
def pair(terminals):
    """A serial port, and a file to write to its other end."""
    serial = pytest.importorskip("serial")
    device, end = terminals
    with serial.Serial(os.ttyname(device)) as port:
        yield port, end
