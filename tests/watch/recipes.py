#!/usr/bin/env python3
"""Pastes the recipes of the documents into shells, with a pseudo-terminal in place of the serial port.

    recipes.py WATCH        WATCH is the built program. If a tool of a recipe is missing, the script names the recipe and skips it.

Each recipe is pasted into an interactive bash and an interactive zsh, both without settings. At first the pseudo-terminal has the
system's settings: it echoes, and waits for whole lines. If a recipe has no `stty`, the first `stty` of its document sets the
pseudo-terminal. If a recipe shows frames, the device sends a frame, and must receive nothing. If a recipe sends frames, the device
must receive these frames.
"""

import fcntl
import os
import pty
import re
import select
import shutil
import subprocess
import sys
import tempfile
import termios
import time
from pathlib import Path

TOP = Path(__file__).resolve().parent.parent.parent
PORT = "/dev/ttyUSB0"
TEXTS = ("README.md", "docs/PROGRAMS.md", "crates/cobs_watch/README.md", "crates/cobs_watch/cobs_watch.1")
FRAME = b"\x05ping\0"


def recipes_of(text):
    """The lines of a text that name the port and a program, and its first `stty`."""
    roff = text.startswith((".", "'"))
    found = []
    for line in text.splitlines():
        if roff:
            line = line.replace("\\-", "-").replace("\\e", "\\")
        elif not line.startswith("    "):
            continue
        if PORT in line and re.search(r"\b(stty|cobs_\w+) ", line) and not line.startswith("."):
            found.append(line.strip())
    setting = next((re.search(r"stty [^;&]*", line)[0].strip() for line in found if "stty " in line), None)
    return setting, [line for line in found if "cobs_" in line]


def received(master, seconds, size=0):
    """What the device's side receives until nothing has come for some time, and for a minute if it is shorter than this."""
    found = bytearray()
    while select.select([master], [], [], seconds if len(found) >= size else 60)[0]:
        found += os.read(master, 4096)
    return bytes(found)


class Shell:
    """An interactive shell on a terminal of its own, with the program in its PATH."""

    def __init__(self, words, room):
        self.master, slave = pty.openpty()
        env = {**os.environ, "PATH": f"{room}:{os.environ['PATH']}", "TERM": "dumb", "PS1": "$ "}
        take = lambda: fcntl.ioctl(0, termios.TIOCSCTTY, 0)
        self.running = subprocess.Popen(
            words, cwd=room, env=env, stdin=slave, stdout=slave, stderr=slave, start_new_session=True, preexec_fn=take
        )
        os.close(slave)
        self.said = b""

    def paste(self, command):
        os.write(self.master, command.encode() + b"\n")

    def hears(self, wanted, seconds, again=lambda: None):
        """Whether what is wanted is on the terminal within this time. Once a second something is done again."""
        end = time.monotonic() + seconds
        while time.monotonic() < end:
            again()
            if select.select([self.master], [], [], 1)[0]:
                self.said += os.read(self.master, 4096)
                if re.search(wanted, self.said):
                    return True
        return False

    def finish(self, seconds=60):
        """Waits until all that was pasted has ended."""
        self.paste("echo do''ne")
        assert self.hears(rb"done", seconds), self.said
        self.said = b""

    def close(self):
        os.write(self.master, b"\x03\x03\nexit\n")
        try:
            self.running.wait(5)
        except subprocess.TimeoutExpired:
            os.killpg(self.running.pid, 9)
            self.running.wait()
        os.close(self.master)


def run(setting, recipe, words):
    """Pastes a recipe into a shell, over a port of its own."""
    master, slave = pty.openpty()
    port = os.ttyname(slave)
    with tempfile.TemporaryDirectory() as room:
        Path(room, "cobs_watch").symlink_to(Path(WATCH).resolve())
        Path(room, "lines.txt").write_text("ping\n", encoding="ascii")
        shell = Shell(words, room)
        try:
            if "stty " not in recipe and setting:
                shell.paste(setting.replace(PORT, port))
            shell.finish()
            shell.paste(recipe.replace(PORT, port))
            if re.search(r"\bsend\b", recipe):
                shell.finish()
                back, wanted = received(master, 0.2, len(FRAME)), FRAME
            else:
                assert shell.hears(rb"\bping|70696e67", 60, lambda: is_set(slave) and os.write(master, FRAME)), f"shown: {shell.said!r}"
                back, wanted = received(master, 0.2), b""
        finally:
            shell.close()
    os.close(slave)
    os.close(master)
    assert back == wanted, f"the device receives {back!r}"


def is_set(port):
    """Whether a terminal neither echoes nor waits for lines: a device that sends before is another matter."""
    return not termios.tcgetattr(port)[3] & (termios.ECHO | termios.ICANON)


SHELLS = (["bash", "--norc", "--noprofile", "-i"], ["zsh", "-f", "-i"])


def main():
    """Runs all recipes, and counts."""
    failed = ran = 0
    for name in TEXTS:
        setting, recipes = recipes_of((TOP / name).read_text())
        for recipe in recipes:
            missing = [tool for tool in ("jq", "stty") if re.search(rf"\b{tool}\b", recipe) and not shutil.which(tool)]
            if missing:
                print(f"skipped: {name}: {recipe}: it needs {missing[0]}")
                continue
            for words in SHELLS:
                if not shutil.which(words[0]):
                    print(f"skipped: {name}: {recipe}: it needs {words[0]}")
                    continue
                ran += 1
                try:
                    run(setting, recipe, words)
                    print(f"ok: {name}, {words[0]}: {recipe}")
                except AssertionError as error:
                    failed += 1
                    print(f"FAILED: {name}, {words[0]}: {recipe}: {error}")
    print(f"{ran} recipes, {failed} failed")
    return failed > 0 or ran < 6


if __name__ == "__main__":
    WATCH = sys.argv[1]
    sys.exit(main())
