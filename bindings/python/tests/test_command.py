"""python -m jcobs, as users run it."""

import json
import os
import signal
import subprocess
import sys
import time
from pathlib import Path

import pytest

import jcobs

STREAM = b"\x06hello\x00\x01\x00\x03\xff\x07\x00\x03\x07\x00\x04abc\x00\x02"


def run(*words, data=b"", status=0):
    ran = subprocess.run([sys.executable, "-m", "jcobs", *words], input=data, capture_output=True, timeout=250)
    assert ran.returncode == status, ran.stderr
    return ran.stdout if status == 0 else ran.stderr.decode()


def test_version_and_backend():
    assert run("--version") == f"jcobs {jcobs.__version__}, backend {jcobs.backend}\n".encode()


def test_a_user_at_a_terminal_is_told_what_it_waits_for(terminals):
    device, end = terminals
    with subprocess.Popen([sys.executable, "-m", "jcobs"], stdin=device, stderr=subprocess.PIPE) as waiting:
        try:
            said = waiting.stderr.readline().decode()
        finally:
            waiting.kill()
    assert said == f"jcobs {jcobs.__version__}, backend {jcobs.backend}: waits for frames from the terminal\n"


def test_show():
    lines = b"message 5 68656c6c6f\nmessage 0\nmessage 2 ff07\nbroken 1\nmessage 3 616263\nunfinished\n"
    assert run(data=STREAM) == run("show", "--as", "hex", data=STREAM) == lines
    assert run("--length", "3", data=STREAM).startswith(b"too long\nmessage 0\n")
    assert run("--sentinel", "7", data=bytes(byte ^ 7 for byte in STREAM)) == lines
    text = b"message 5 hello\nmessage 0\nmessage 2 ff07\nbroken 1\nmessage 3 abc\nunfinished\n"
    assert run("--as", "text", data=STREAM) == text


def test_each_line_is_shown_at_once():
    buffered = {name: value for name, value in os.environ.items() if name != "PYTHONUNBUFFERED"}
    words = [sys.executable, "-m", "jcobs"]
    with subprocess.Popen(words, stdin=subprocess.PIPE, stdout=subprocess.PIPE, env=buffered) as shown:
        for message in (b"one", b"two"):
            shown.stdin.write(jcobs.encode(message, terminated=True))
            shown.stdin.flush()
            assert (
                shown.stdout.readline() == b"message 3 %s\n" % message.hex().encode()
            )  # it waits, if the line is in a buffer
        shown.stdin.close()
        assert shown.wait(250) == 0


def test_show_json():
    lines = [
        b'{"frame":1,"kind":"message","length":5,"hex":"68656c6c6f","text":"hello"}',
        b'{"frame":2,"kind":"message","length":0,"hex":"","text":""}',
        b'{"frame":3,"kind":"message","length":2,"hex":"ff07"}',
        b'{"frame":4,"kind":"broken","length":1}',
        b'{"frame":5,"kind":"message","length":3,"hex":"616263","text":"abc"}',
        b'{"kind":"unfinished"}',
    ]
    assert run("--as", "json", data=STREAM).splitlines() == lines
    too_long = b'{"frame":1,"kind":"too-long"}'
    assert run("--as", "json", "--length", "3", data=STREAM).splitlines() == [too_long, *lines[1:]]


@pytest.mark.parametrize("text", ["\x1b[2J", "a\x7f", "\u202egnp", "\u2028", "\ufeff"])
def test_hidden_characters_are_not_shown(text):
    stream = jcobs.encode(text.encode(), terminated=True)
    assert run("--as", "text", data=stream).split()[2] == text.encode().hex().encode()
    line = run("--as", "json", data=stream).decode()
    assert text not in line and json.loads(line)["text"] == text


WATCH = Path(__file__).parents[2] / "programs/x86_64-linux/cobs_watch"


def watched(*words, data):
    try:
        return subprocess.run([WATCH, *words], input=data, stdout=subprocess.PIPE, check=True, timeout=250).stdout
    except OSError:
        pytest.skip(f"{WATCH} is not there, or doesn't run here")


@pytest.mark.parametrize("words", ["", "--as hex", "--as text", "--as json", "--length 3", "--as json --length 3"])
def test_the_program_cobs_watch_shows_the_same(words):
    texts = [
        "hello",
        "caf\xe9 \U0001f600 \xa0\ue000",
        'a "quoted" \\',
        "tab\tline\n",
        "\x7f\x85\u202e\u2029\ufeff",
        "1" * 600,
    ]
    messages = [*map(str.encode, texts), b"\xff\0", b"\xed\xa0\x80", b""]
    stream = STREAM[:-1] + b"".join(jcobs.encode(message, terminated=True) for message in messages) + STREAM[-1:]
    shown, other = run(*words.split(), data=stream), watched(*words.split(), data=stream)
    if "json" in words:  # which may escape other characters
        shown, other = (
            [json.loads(line, object_pairs_hook=list) for line in one.splitlines()] for one in (shown, other)
        )
    assert shown == other


@pytest.mark.parametrize(
    "words, lines", [("", b"hello\n\nlast"), ("--hex", b"00 FF\n\n0a"), ("--sentinel 10", b"a\0b\n")]
)
def test_the_program_cobs_watch_sends_the_same(words, lines):
    assert run("send", *words.split(), data=lines) == watched("send", *words.split(), data=lines)


def test_send():
    assert run("send", data=b"hello\n\nlast") == b"\x06hello\x00\x01\x00\x05last\x00"
    assert run("send", "--hex", "--sentinel", "10", data=b"68 65\n00\n") == b"\x09bo\n\x0b\x0b\n"


@pytest.mark.parametrize("line", [b"0g", b"\xff", b"123"])
def test_lines_that_cannot_be_sent(line):
    assert run("send", "--hex", data=b"\n" + line, status=1) == "jcobs: line 2 is not hexadecimal digits\n"


def test_wrong_options():
    for words in (
        ["--sentinel", "256"],
        ["--length", "-1"],
        ["--hex"],
        ["send", "--as", "hex"],
        ["listen"],
        ["--baud", "fast"],
    ):
        assert "usage: python -m jcobs" in run(*words, status=2)


def test_what_cannot_be_shown_or_held():
    os.environ["PYTHONIOENCODING"] = "ascii"
    try:
        assert run("--as", "text", data=jcobs.encode("é".encode(), terminated=True)) == b"message 2 \\xe9\n"
    finally:
        del os.environ["PYTHONIOENCODING"]
    for length in ("9" * 14, "9" * 20)[jcobs.backend == "python" :]:  # plain Python takes the memory that it needs
        said = run("--length", length, status=1)
        assert said.startswith("jcobs: ") and len(said) > len("jcobs: \n") and "Traceback" not in said


def test_no_port():
    pytest.importorskip("serial")
    assert "/dev/no-such-port" in run("--port", "/dev/no-such-port", status=1)


def test_no_pyserial(tmp_path):
    (tmp_path / "serial.py").write_text("raise ImportError\n")
    ran = subprocess.run(
        [sys.executable, "-m", "jcobs", "--port", "/dev/null"],
        capture_output=True,
        text=True,
        env={**os.environ, "PYTHONPATH": os.pathsep.join([str(tmp_path), os.environ.get("PYTHONPATH", "")])},
    )
    assert (ran.returncode, ran.stderr) == (1, "jcobs: --port needs pyserial: pip install pyserial\n")


def test_output_that_no_one_reads():
    command = f"'{sys.executable}' -m jcobs | head -n 1"
    stream = jcobs.encode(b"hello", terminated=True) * 100_000
    ran = subprocess.run(command, shell=True, input=stream, capture_output=True, timeout=250)
    assert (ran.stdout, ran.stderr) == (b"message 5 68656c6c6f\n", b"")


@pytest.fixture
def port(terminals):
    """The name of a pseudo-terminal, and its other end."""
    pytest.importorskip("serial")
    device, end = terminals
    return os.ttyname(device), end


def test_show_a_port(port):
    name, end = port
    words = [sys.executable, "-m", "jcobs", "--port", name, "--baud", "9600"]

    def hear():  # Ctrl-C, even if these tests were started by a program that ignores it
        signal.signal(signal.SIGINT, signal.SIG_DFL)

    with subprocess.Popen(words, stdout=subprocess.PIPE, stderr=subprocess.PIPE, preexec_fn=hear) as shown:
        try:
            # what comes before the port is open is dropped, so it is sent until a line comes
            os.set_blocking(shown.stdout.fileno(), False)
            lines = []
            while not lines and shown.poll() is None:
                end.write(b"\x00\x03hi\x00")
                time.sleep(0.1)
                lines = (shown.stdout.read() or b"").splitlines()
            assert set(lines) == {b"message 2 6869"}
            shown.send_signal(signal.SIGINT)
            assert (shown.wait(250), shown.stderr.read()) == (130, b"")
        finally:
            shown.kill()


def test_send_to_a_port(port):
    name, end = port
    run("send", "--port", name, data=b"hello\nworld\n")
    found = iter(jcobs.FrameReader(end))
    assert [next(found), next(found)] == [jcobs.Message(b"hello"), jcobs.Message(b"world")]
