#!/usr/bin/env python3
"""Installs the programs into a folder, and tests the installed manual pages and the completions for bash and zsh.

    installed.py WATCH        WATCH is the built program, whose help the completions are compared with.

If a shell or `man` is missing, the script names it and skips its part.
"""

import fcntl
import os
import platform
import pty
import re
import select
import shutil
import subprocess
import sys
import tempfile
import termios
import time
from pathlib import Path

WATCH = sys.argv[1]
PROGRAMS = Path(__file__).resolve().parent.parent.parent / "bindings/programs"
failed = []


def part(check):
    """Runs a check, and says how it ended."""
    name = check.__name__.replace("_", " ")
    try:
        check()
        print(f"ok: {name}")
    except (AssertionError, OSError, subprocess.SubprocessError) as error:
        failed.append(name)
        print(f"FAILED: {name}: {error!r}")


def make(target, room, **variables):
    words = ["make", "-C", str(PROGRAMS), target, *(f"{name}={value}" for name, value in variables.items())]
    return subprocess.run(words, cwd=room, capture_output=True, text=True, check=False)


def help_options(words):
    """The options that help names."""
    said = subprocess.run([WATCH, *words, "--help"], capture_output=True, text=True, check=True).stdout
    return set(re.findall(r"^ +(?:-\w, )?(--[\w-]+)", said, re.MULTILINE))


@part
def all_files_are_installed_and_removed():
    with tempfile.TemporaryDirectory() as room:
        done = make("install", room, DESTDIR=room, PREFIX="/usr")
        assert done.returncode == 0, done.stderr
        found = {str(path.relative_to(room)) for path in Path(room).rglob("*") if path.is_file()}
        wanted = set()
        for program in ("cobs_tool", "cobs_watch"):
            wanted |= {f"usr/bin/{program}", f"usr/share/man/man1/{program}.1"}
            wanted |= {f"usr/share/bash-completion/completions/{program}", f"usr/share/zsh/site-functions/_{program}"}
        assert found == wanted, found ^ wanted
        frame = subprocess.run([f"{room}/usr/bin/cobs_tool"], input=b"hi", stdout=subprocess.PIPE, check=True).stdout
        assert frame == b"03 68 69 00\n", frame
        assert make("uninstall", room, DESTDIR=room, PREFIX="/usr").returncode == 0
        assert not [path for path in Path(room).rglob("*") if path.is_file()]


@part
def another_processor_is_named():
    with tempfile.TemporaryDirectory() as room:
        done = make("install", room, DESTDIR=room, BUILT="none-linux")
        assert done.returncode != 0 and "no program is built for none-linux" in done.stderr, done
        assert not list(Path(room).iterdir())


@part
def the_manuals_are_found():
    if not shutil.which("man"):
        print("skipped: man isn't there")
        return
    with tempfile.TemporaryDirectory() as room:
        make("install", room, PREFIX=room)
        for program in ("cobs_tool", "cobs_watch"):
            env = {**os.environ, "MANPATH": f"{room}/share/man", "MANPAGER": "cat", "LC_ALL": "C"}
            done = subprocess.run(["man", program], env=env, capture_output=True, text=True, check=False)
            assert done.returncode == 0 and program in done.stdout, done


TOP = PROGRAMS.parent.parent
BASH = (PROGRAMS / "completions/cobs_watch.bash").read_text(encoding="ascii")
ZSH = (PROGRAMS / "completions/_cobs_watch").read_text(encoding="ascii")
MANUAL = (TOP / "crates/cobs_watch/cobs_watch.1").read_text(encoding="ascii").replace("\\-", "-")
PAGE = (TOP / "docs/PROGRAMS.md").read_text(encoding="utf-8").partition("\n## cobs_watch\n")[2]
README = (TOP / "crates/cobs_watch/README.md").read_text(encoding="utf-8")


@part
def completions_have_the_options_of_the_help():
    for name, words in (("show", ["show"]), ("send", ["send"])):
        found = set(re.search(rf"local {name}='([^']*)'", BASH)[1].split())
        assert found == help_options(words), found ^ help_options(words)
    found = set(re.findall(r"(?<![\w-])(--[\w-]+)=?\[", ZSH)) | set(re.findall(r",(--[\w-]+)=?\}", ZSH))
    assert found == help_options([]) | help_options(["send"]), found ^ (help_options([]) | help_options(["send"]))


def named(text):
    """The options that a text names."""
    return set(re.findall(r"(?<![\w-])--[a-z][a-z-]*", text))


@part
def the_pages_have_the_options_of_the_help():
    options = help_options([]) | help_options(["send"])
    # Each option has an entry of its own in the manual, and a row in the page, which has --hex in its text.
    entries = named("\n".join(re.findall(r"^\.TP\n(.*)", MANUAL, re.MULTILINE)))
    rows = named("\n".join(re.findall(r"^\| ([^|]*)", PAGE, re.MULTILINE))) | ({"--hex"} & named(PAGE))
    for name, found in (("manual", entries), ("docs/PROGRAMS.md", rows)):
        assert found == options, (name, found ^ options)
    for name, text in (("manual", MANUAL), ("docs/PROGRAMS.md", PAGE), ("README.md", README)):
        assert named(text) <= options, (name, named(text) - options)


@part
def the_values_of_options_are_the_same_everywhere():
    for option in ("--as", "--only", "--time", "--color", "--crc-order"):
        words = ["--crc", "crc-8", option, "?"]
        said = subprocess.run([WATCH, *words], stdin=subprocess.DEVNULL, capture_output=True, text=True, check=False).stderr
        values = re.search(r"\[possible values: (.*)\]", said)[1].split(", ")
        completed_so = re.search(rf"{option}\) words='([^']*)'", BASH)[1].split()
        assert sorted(completed_so) == sorted(values), (option, completed_so)
        completed_so = re.search(rf"{option}=\W[^\n]*:(?:\(|_sequence compadd - )([\w -]*)", ZSH)[1].split()
        assert sorted(completed_so) == sorted(values), (option, completed_so)
        for text in (MANUAL, PAGE):
            assert all(re.search(rf"(?<![\w-]){value}(?![\w-])", text) for value in values), (option, values)


@part
def the_help_fits_a_screen():
    for words in (["--help"], ["show", "--help"], ["send", "--help"]):
        said = subprocess.run([WATCH, *words], capture_output=True, text=True, check=True).stdout
        assert len(said.splitlines()) <= 50, (words, said)


def shown(master, is_shown, seconds=60):
    """What is on a terminal once this holds of it, or at the end of this time."""
    said, end = b"", time.monotonic() + seconds
    while not is_shown(said) and time.monotonic() < end:
        if select.select([master], [], [], 1)[0]:
            said += os.read(master, 4096)
    return said


def completed(words, first, typed, rest):
    """Whether a shell completes what was typed with this rest after a tab, and what it shows."""
    master, slave = pty.openpty()
    take = lambda: fcntl.ioctl(0, termios.TIOCSCTTY, 0)
    env = {**os.environ, "TERM": "vt100", "PS1": "$ "}
    is_completed = lambda said: rest in said.replace(b"\x08", b"")
    with subprocess.Popen(words, env=env, stdin=slave, stdout=slave, stderr=slave, start_new_session=True, preexec_fn=take) as shell:
        os.close(slave)
        os.write(master, first.encode() + b"; echo rea''dy\n")
        shown(master, lambda said: b"ready" in said.replace(b"echo rea''dy", b""))
        os.write(master, typed.encode() + b"\t")
        said = shown(master, is_completed)
        os.killpg(shell.pid, 9)
    os.close(master)
    return is_completed(said), said


@part
def a_tab_completes_an_option():
    folder = PROGRAMS / "completions"
    shells = {
        "bash": (["bash", "--norc", "--noprofile", "-i"], f". {folder}/cobs_watch.bash"),
        "zsh": (["zsh", "-f", "-i"], f"fpath=({folder} $fpath); autoload -U compinit; compinit -u -D"),
    }
    for name, (words, first) in shells.items():
        if not shutil.which(name):
            print(f"skipped: {name} isn't there")
            continue
        for typed, rest in (
            ("cobs_watch --skip", b"-first"),
            ("cobs_watch --time sta", b"rt"),
            ("cobs_watch show --crc crc-16-mo", b"dbus"),
            ("cobs_watch send --se", b"ntinel"),
            ("cobs_watch -o too", b"-long"),
            ("cobs_watch -o message,too", b"-long"),
            ("cobs_watch --as=js", b"on"),
            ("cobs_watch show --time=sta", b"rt"),
            ("cobs_watch send --crc=crc-16-mo", b"dbus"),
        ):
            is_so, said = completed(words, first, typed, rest)
            assert is_so, (name, typed, said)


if not (PROGRAMS / f"{platform.machine()}-linux").is_dir():
    print(f"skipped: no program is built for {platform.machine()}")
print(f"{len(failed)} failed")
sys.exit(bool(failed))
