"""The examples of the docstrings and of README.md."""

import doctest
import importlib
import os
import re
import shutil
import subprocess
import sys
import threading
import time
from pathlib import Path

import pytest

import jcobs

README = Path(__file__).resolve().parent.parent / "README.md"


@pytest.mark.parametrize("name, least", [("jcobs", 40), ("jcobs.compat", 5)])
def test_docstrings(name, least):
    module = importlib.import_module(name)
    names = {"jcobs": jcobs, "cobs": module}
    runner = doctest.DocTestRunner()
    # `module=False`: the methods are those of the modules that the package takes its names from
    for examples in doctest.DocTestFinder().find(module, module=False, globs=names):
        runner.run(examples)
    assert runner.failures == 0 and runner.tries >= least


def test_each_public_name_has_a_docstring():
    for name in jcobs.__all__:
        value = getattr(jcobs, name)
        assert value.__doc__, name
        assert name == "backend" or value.__module__ == "jcobs"
        for method, member in vars(value).items() if isinstance(value, type) else ():
            assert method.startswith("_") or member.__doc__, f"{name}.{method}"


def readme_blocks(language):
    return re.findall(rf"```{language}\n(.*?)```", README.read_text(), re.S)


def test_readme_examples():
    block = readme_blocks("python")[1]
    runner = doctest.DocTestRunner()
    runner.run(doctest.DocTestParser().get_doctest(block, {}, "README.md", str(README), 0))
    assert runner.summarize(verbose=False) == (0, 5)


@pytest.mark.usefixtures("patient")
def test_readme_request_and_reply(terminals, monkeypatch, capsys):
    """The first block, with a device at a pseudo-terminal that is asked for its state and replies."""
    serial = pytest.importorskip("serial")
    descriptor, end = terminals
    port, got = serial.Serial(os.ttyname(descriptor)), []
    own = port.read
    monkeypatch.setattr(port, "read", lambda size: got.append(own(size)) or got[-1])
    monkeypatch.setattr(serial, "Serial", lambda name, baud: port)
    device = jcobs.FrameReader(end)
    block = readme_blocks("python")[0]
    assert "timeout=0.5)" in block
    late = threading.Event()

    def reply():
        end.write(b"\x05late\0\x06late")
        late.set()
        assert device.read(timeout=60) == jcobs.Message(b"status?")
        for part in (b"r\0", b"\x03o", b"k\0", b"\x05a\0"):
            end.write(part)
        while not b"".join(got).endswith(b"\x05a\0"):
            time.sleep(0.001)
        port.cancel_read()  # which ends the loop

    thread = threading.Thread(target=reply)
    thread.start()
    assert late.wait(60)
    while not port.in_waiting:
        pass
    exec(block.replace("0.5", "60"), {})
    thread.join()
    assert capsys.readouterr().out == "b'ok'\nBroken(b'a')\n"
    assert not port.is_open


@pytest.mark.parametrize("shell", ["sh", "bash", "zsh"])
def test_readme_commands(shell, tmp_path):
    """The commands are pasted as they stand: without a prompt, and without comments, which an interactive zsh refuses."""
    if not shutil.which(shell):
        pytest.skip(f"{shell} is not there")
    python = tmp_path / "python3"
    python.write_text(f'#!/bin/sh\nexec "{sys.executable}" "$@"\n')
    python.chmod(0o755)
    blocks = readme_blocks("sh")
    assert not re.search(r"^\$ |#", "".join(blocks), re.M) and len(blocks) == 1
    path = os.pathsep.join([str(tmp_path), os.environ["PATH"]])
    words = [shell, "-f"] if shell == "zsh" else [shell]
    result = subprocess.run(
        words, input=blocks[0], stdout=subprocess.PIPE, text=True, env={**os.environ, "PATH": path}, timeout=250
    )
    assert result.stdout == readme_blocks("text")[0]
