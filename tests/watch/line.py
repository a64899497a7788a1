#!/usr/bin/env python3
"""Runs cobs_watch with a path that it opens itself: lines that hang up, that would block, and that are closed.

    line.py WATCH        WATCH is the built program.
"""

import fcntl
import os
import pty
import re
import resource
import select
import shutil
import signal
import subprocess
import sys
import tempfile
import termios
import time
import tty
from pathlib import Path

TOP = Path(__file__).resolve().parent.parent.parent
WATCH = sys.argv[1]
FRAME, SHOWN = b"\x05ping\0", b"message 4 70696e67\n"
COUNTED = "messages {}, broken 0, too long 0, bytes {}\n"
failed = []
started = []


def part(check):
    """Runs a check in a folder of its own, and says how it ended."""
    name = check.__name__.replace("_", " ")
    with tempfile.TemporaryDirectory() as room:
        signal.alarm(600)
        try:
            check(Path(room))
            print(f"ok: {name}", flush=True)
        except Exception as error:  # pylint: disable=broad-except
            failed.append(name)
            print(f"FAILED: {name}: {error!r}", flush=True)
        signal.alarm(0)
        started.clear()


def time_is_up(_number, _frame):
    """Ends the programs of a part that waits for what doesn't come."""
    for program in started:
        program.kill()
    raise TimeoutError("what was awaited didn't come")


signal.signal(signal.SIGALRM, time_is_up)


def same(found, wanted):
    assert found == wanted, f"{found[:300]!r} in place of {wanted[:300]!r}"


def start(words, **more):
    program = subprocess.Popen([WATCH, *map(str, words)], stdout=subprocess.PIPE, stderr=subprocess.PIPE, **more)
    started.append(program)
    return program


def ended(program):
    """What a program wrote, and its status."""
    out, errors = program.communicate(timeout=300)
    return out, errors.decode(), program.returncode


@part
def a_file_by_its_path(room):
    (room / "frames").write_bytes(FRAME * 2)
    for words in ([room / "frames"], ["show", room / "frames"]):
        same(ended(start(words)), (SHOWN * 2, "", 0))
    same(ended(start([room / "none"])), (b"", f"cobs_watch: {room}/none: No such file or directory (os error 2)\n", 1))
    same(ended(start([room]))[1], f"cobs_watch: {room}: read failed: Is a directory (os error 21)\n")


@part
def a_fifo(room):
    path = room / "line"
    os.mkfifo(path)
    with start(["--number", "--count", path]) as watch:
        path.write_bytes(FRAME + FRAME[:2])
        same(ended(watch), (b"1 " + SHOWN + b"unfinished\n", COUNTED.format(1, 8), 0))


UNFINISHED = b"unfinished\n"


@part
def a_fifo_whose_writers_come_and_go(room):
    """Opened for reading and writing, as the manual says, it has no end, and no message is lost."""
    path = room / "line"
    os.mkfifo(path)
    with start(["-n"], stdin=os.open(path, os.O_RDWR)) as watch:
        for number in (1, 2, 3):
            path.write_bytes(FRAME)
            same(watch.stdout.readline(), b"%d " % number + SHOWN)
        watch.kill()


def is_idle(watch):
    """Whether the program waits. It never does so while it has bytes to read or lines to write."""
    return Path(f"/proc/{watch.pid}/stat").read_text().rpartition(")")[2].split()[0] == "S"


@part
def a_frame_that_the_end_cuts(room):
    """At each of its bytes: no message is shown that wasn't sent whole."""
    path = room / "line"
    os.mkfifo(path)
    frame = b"\x03ab\x05cdef\0"
    for cut in range(1, len(frame)):
        with start([path]) as watch:
            path.write_bytes(frame[:cut])
            same(ended(watch), (UNFINISHED, "", 0))


def await_read(watch):
    """Returns once the program waits: having written, it does so only for its next read."""
    while not is_idle(watch):
        time.sleep(0.01)


def bytes_read(watch):
    """How many bytes the program has read so far, of all its files."""
    return int(re.search(r"^rchar: (\d+)$", Path(f"/proc/{watch.pid}/io").read_text(), re.MULTILINE)[1])


def plug(path):
    """A pseudo-terminal that has this path, with the settings that the system makes."""
    master, slave = pty.openpty()
    path.symlink_to(os.ttyname(slave))
    os.close(slave)
    return master


def unplug(path, master):
    path.unlink()
    os.close(master)


def received(master, seconds):
    """What the device's side receives until nothing has come for some time."""
    found = bytearray()
    while select.select([master], [], [], seconds)[0]:
        found += os.read(master, 4096)
    return bytes(found)


def documented_loop():
    """The loop of the documents over a serial line, which is the same in each."""
    found = set()
    for name in ("docs/PROGRAMS.md", "crates/cobs_watch/cobs_watch.1"):
        text = (TOP / name).read_text(encoding="utf-8").replace("\\-", "-")
        found.update(line.strip() for line in text.splitlines() if line.strip().startswith("while "))
    assert len(found) == 1, found
    return found.pop()


def is_set(path):
    """Whether a terminal neither echoes nor waits for lines, as the loop sets it."""
    ours = os.open(path, os.O_RDWR | os.O_NOCTTY)
    try:
        return not termios.tcgetattr(ours)[3] & (termios.ECHO | termios.ICANON)
    finally:
        os.close(ours)


@part
def a_device_that_goes_and_comes_back(room):
    """The loop of the documents, in each shell: it sets each terminal, nothing goes back to the device, and nothing is made up."""
    (room / "bin").mkdir()
    (room / "bin" / "cobs_watch").symlink_to(Path(WATCH).resolve())
    env = {**os.environ, "PATH": f"{room}/bin:{os.environ['PATH']}"}
    loop = documented_loop().replace("/dev/ttyUSB0", f"{room}/line")
    for shell in (["bash", "--norc"], ["zsh", "-f"]):
        if not shutil.which(shell[0]):
            print(f"skipped: the loop in {shell[0]}, which isn't there")
            continue
        log = room / "log.txt"
        log.unlink(missing_ok=True)
        running = subprocess.Popen([*shell, "-c", loop], cwd=room, env=env, stdout=subprocess.DEVNULL, stderr=subprocess.DEVNULL, start_new_session=True)
        try:
            for tail in (b"\x03ng\0", b"g\0", b"ing\0"):
                master = plug(room / "line")
                before = log.read_bytes().count(SHOWN) if log.exists() else 0
                end = time.monotonic() + 60
                while not log.exists() or log.read_bytes().count(SHOWN) == before:
                    assert time.monotonic() < end, "nothing is shown"
                    if is_set(room / "line"):
                        # The end of a frame that began before the device was plugged in, which may be one itself; then frames.
                        os.write(master, tail + FRAME)
                        tail = b""
                    time.sleep(0.3)
                os.write(master, FRAME[:3])
                same(received(master, 0.3), b"")
                unplug(room / "line", master)
                time.sleep(1.5)
                # A frame that was cut off is no message.
                lines = log.read_bytes().splitlines(keepends=True)
                same([line for line in lines if line not in (SHOWN, UNFINISHED)], [])
        finally:
            os.killpg(running.pid, 9)
            running.wait()


CUT = b"\x03ab\x05cdef\0"


def on_terminal(path, words):
    """The program over a new terminal that the printed stty sets, once it has shown a frame of it; and the device's side."""
    master = plug(path)
    command = f'stty -F {path} raw -echo 115200 && exec "$@" {path}'
    watch = subprocess.Popen(["sh", "-c", command, "sh", WATCH, *words], stdout=subprocess.PIPE, stderr=subprocess.PIPE)
    started.append(watch)
    while not is_set(path):
        time.sleep(0.01)
    # What comes before the first sentinel is skipped, if the words ask for it.
    os.write(master, b"\0" + FRAME)
    return watch, master, watch.stdout.readline()


def cut_off(watch, path, master, front):
    """Sends the front of a frame, and unplugs the device once the program has read it."""
    before = bytes_read(watch)
    os.write(master, front)
    while bytes_read(watch) < before + len(front):
        time.sleep(0.01)
    await_read(watch)
    unplug(path, master)


CUT_STYLES = (([], UNFINISHED), (["--as", "json"], b'{"kind":"unfinished"}\n'), (["--as", "raw"], b""))


@part
def a_frame_that_an_unplugged_device_cuts(room):
    """At each of its bytes: what had begun is unfinished, and no message is shown."""
    path = room / "line"
    for words, unfinished in CUT_STYLES:
        for cut in range(len(CUT)):
            watch, master, shown = on_terminal(path, words)
            assert shown, words
            cut_off(watch, path, master, CUT[:cut])
            said = f"cobs_watch: {path}: read failed: Input/output error (os error 5)\n"
            same(ended(watch), (unfinished if cut else b"", said, 1))


@part
def counts_and_a_reason_after_a_hang_up(_room):
    master, slave = pty.openpty()
    tty.setraw(slave)
    with start(["--count"], stdin=slave) as watch:
        os.close(slave)
        os.write(master, FRAME)
        same(watch.stdout.readline(), SHOWN)
        # A read that waits fails at the hang-up; one that begins after it is at the end of the input.
        await_read(watch)
        os.close(master)
        out, errors, status = ended(watch)
    same((out, errors, status), (b"", COUNTED.format(1, 6) + "cobs_watch: read failed: Input/output error (os error 5)\n", 1))


@part
def counts_and_a_reason_after_a_failed_write(_room):
    with open("/dev/full", "wb") as full:
        done = subprocess.run([WATCH, "--count"], input=FRAME, stdout=full, stderr=subprocess.PIPE, check=False)
    same(done.stderr.decode(), COUNTED.format(1, 6) + "cobs_watch: write failed: No space left on device (os error 28)\n")
    same(done.returncode, 1)


@part
def counts_after_a_closed_output(_room):
    with start(["--count"], stdin=subprocess.PIPE) as watch:
        watch.stdout.close()
        watch.stdin.write(FRAME)
        watch.stdin.close()
        same((watch.stderr.read().decode(), watch.wait(60)), (COUNTED.format(1, 6), 0))


@part
def help_into_a_closed_pipe(_room):
    for words in (["--help"], ["--version"], ["send", "--help"]):
        with start(words, stdin=subprocess.DEVNULL) as watch:
            watch.stdout.close()
            same((watch.stderr.read(), watch.wait(60)), (b"", 0))
    with open("/dev/full", "wb") as full:
        done = subprocess.run([WATCH, "--help"], stdout=full, stderr=subprocess.PIPE, check=False)
    same((done.stderr, done.returncode), (b"cobs_watch: write failed: No space left on device (os error 28)\n", 1))


@part
def help_fits_80_columns(_room):
    for words in (["--help"], ["show", "--help"], ["send", "--help"]):
        out = subprocess.run([WATCH, *words], stdout=subprocess.PIPE, check=True).stdout.decode()
        same([line for line in out.splitlines() if len(line) > 80], [])


@part
def a_line_that_memory_runs_out_for(_room):
    limit = lambda: resource.setrlimit(resource.RLIMIT_AS, (20_000 << 10, 20_000 << 10))
    with start(["send"], stdin=subprocess.PIPE, preexec_fn=limit) as watch:
        out, errors = watch.communicate(b"ping\n" + b"a" * 30_000_000 + b"\n", timeout=60)
        same((out, errors, watch.returncode), (FRAME, b"cobs_watch: out of memory\n", 1))


def without_waiting(fd):
    fcntl.fcntl(fd, fcntl.F_SETFL, fcntl.fcntl(fd, fcntl.F_GETFL) | os.O_NONBLOCK)


@part
def an_input_that_would_block(_room):
    for words, sent, wanted in (([], FRAME, SHOWN), (["send"], b"ping\n", FRAME)):
        ours, theirs = os.pipe()
        without_waiting(ours)
        with start(words, stdin=ours) as watch:
            os.close(ours)
            for _ in range(2):
                time.sleep(0.1)
                os.write(theirs, sent)
                same(os.read(watch.stdout.fileno(), len(wanted)), wanted)
            os.close(theirs)
            same(ended(watch), (b"", "", 0))


@part
def an_output_that_would_block(room):
    (room / "frames").write_bytes(FRAME * 20_000)
    ours, theirs = os.pipe()
    without_waiting(theirs)
    with subprocess.Popen([WATCH, room / "frames"], stdout=theirs, stderr=subprocess.PIPE) as watch:
        os.close(theirs)
        found = bytearray()
        while data := os.read(ours, 65536):
            found += data
            time.sleep(0.001)
        same((bytes(found), watch.stderr.read(), watch.wait(60)), (SHOWN * 20_000, b"", 0))
    os.close(ours)


print(f"{len(failed)} failed")
sys.exit(bool(failed))
