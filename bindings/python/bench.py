"""Counts the instructions of the package's calls, of its plain Python, and of a plain extension, with valgrind's callgrind.

usage: python bench.py [LENGTH ..]

The messages are like records: one byte in 16 is zero, at random places. A decoder is fed chunks of one frame, as from a
serial line, and chunks of 64 KiB, as from a log. A loop over the outcomes of such a log is counted over `Decoder.feed`
and over `frames`. The readers read and write in memory, and read from a socket with a timeout.

The plain extension is encode and decode as one writes them by hand in C, with loops over the bytes, and with CPython's
full interface. This script compiles it. A count includes the loop around the calls.
"""

import importlib.util
import io
import os
import random
import re
import socket
import subprocess
import sys
import sysconfig
import tempfile
from pathlib import Path

import jcobs
from jcobs import _plain

LENGTHS = [20, 1024]

EXTENSION = r"""
#define PY_SSIZE_T_CLEAN
#include <Python.h>

static PyObject *encode(PyObject *module, PyObject *data)
{
    Py_ssize_t code = 0, at = 1, i;
    PyObject *frame;
    Py_buffer view;

    if (PyObject_GetBuffer(data, &view, PyBUF_SIMPLE) < 0)
        return NULL;
    frame = PyBytes_FromStringAndSize(NULL, view.len + view.len / 254 + 1);
    if (frame != NULL) {
        const unsigned char *from = view.buf;
        unsigned char *to = (unsigned char *)PyBytes_AS_STRING(frame);
        for (i = 0; i < view.len; i++) {
            if (from[i] != 0) {
                to[at++] = from[i];
                if (at - code < 255 || i + 1 == view.len)
                    continue;
            }
            to[code] = (unsigned char)(at - code);
            code = at++;
        }
        to[code] = (unsigned char)(at - code);
        _PyBytes_Resize(&frame, at);
    }
    PyBuffer_Release(&view);
    return frame;
}

static PyObject *decode(PyObject *module, PyObject *data)
{
    Py_ssize_t at = 0, i = 0, end;
    PyObject *message;
    Py_buffer view;

    if (PyObject_GetBuffer(data, &view, PyBUF_SIMPLE) < 0)
        return NULL;
    message = PyBytes_FromStringAndSize(NULL, view.len);
    if (message != NULL) {
        const unsigned char *from = view.buf;
        unsigned char *to = (unsigned char *)PyBytes_AS_STRING(message), code;
        while (i < view.len && (code = from[i]) != 0 && i + code <= view.len) {
            for (end = i + code, i++; i < end && from[i] != 0; i++)
                to[at++] = from[i];
            if (code < 255 && i < view.len)
                to[at++] = 0;
        }
        if (i < view.len) {
            PyErr_SetString(PyExc_ValueError, "no frame");
            Py_CLEAR(message);
        } else {
            _PyBytes_Resize(&message, at);
        }
    }
    PyBuffer_Release(&view);
    return message;
}

/* callgrind counts from a call of this function .. */
static PyObject *count_from_here(PyObject *module, PyObject *none)
{
    Py_RETURN_NONE;
}

/* .. to a call of this one. */
static PyObject *count_to_here(PyObject *module, PyObject *none)
{
    Py_RETURN_NONE;
}

static PyMethodDef functions[] = {{"encode", encode, METH_O, NULL},
                                  {"decode", decode, METH_O, NULL},
                                  {"begin", count_from_here, METH_NOARGS, NULL},
                                  {"end", count_to_here, METH_NOARGS, NULL},
                                  {NULL}};
static PyModuleDef definition = {PyModuleDef_HEAD_INIT, "plain_extension", NULL, -1, functions};

PyMODINIT_FUNC PyInit_plain_extension(void)
{
    return PyModule_Create(&definition);
}
"""


def compiled(folder):
    """Compiles the plain extension, and returns its path."""
    source, built = folder / "plain_extension.c", folder / "plain_extension.so"
    source.write_text(EXTENSION)
    include = sysconfig.get_path("include")
    subprocess.run(["cc", "-O2", "-shared", "-fPIC", f"-I{include}", source, "-o", built], check=True)
    return built


def loaded(path):
    spec = importlib.util.spec_from_file_location("plain_extension", path)
    module = importlib.util.module_from_spec(spec)
    spec.loader.exec_module(module)
    return module


def made(length):
    """A message of this length."""
    source = random.Random(length)
    return bytes(source.randrange(1, 256) * (source.randrange(16) > 0) for _ in range(length))


def repeated(call, argument):
    return lambda count: [None for _ in range(count) if call(argument) and False]


def by_feed(decoder, log):
    """A loop over the outcomes of a log that `Decoder.feed` returns."""
    return lambda count: [None for at in range(0, len(log), 65536) for _ in decoder.feed(log[at : at + 65536])]


def socket_reads(length, chunk):
    here, there = socket.socketpair()
    reader = jcobs.FrameReader(here, length)
    return lambda count: [None for _ in range(count) if there.sendall(chunk) or not reader.read(timeout=1)]


def rows_of(length, plain_extension):
    """Yields a name, how many calls or frames are counted, and the functions of the package, the extension and Python."""
    message = made(length)
    frame = jcobs.encode(message)
    assert plain_extension.encode(message) == frame and plain_extension.decode(frame) == message
    count, chunk = max(4, 400_000 // (length + 1000)), frame + b"\0"
    in_log = 4 * 65536 // len(chunk)
    log = chunk * in_log
    decoder, plain = jcobs.Decoder(length), _plain.Decoder(length, 0, jcobs._streams.CLASSES)
    reader, writer = jcobs.FrameReader(io.BytesIO(chunk * count * 2), length), jcobs.FrameReader(io.BytesIO(), length)
    for name, argument in ("encode", message), ("decode", frame):
        yield name, count, *[repeated(getattr(one, name), argument) for one in (jcobs, plain_extension, _plain)]
    yield "`feed` of a frame", count, repeated(decoder.feed, chunk), None, repeated(plain.feed, chunk)
    yield "log by `feed`, a frame", in_log, by_feed(decoder, log), None, by_feed(plain, log)
    yield "log by `frames`, a frame", in_log, lambda count: [None for _ in jcobs.frames(log, length)], None, None
    yield "`read` in memory", count, lambda count: [None for _ in range(count) if not reader.read()], None, None
    yield "`write` in memory", count, repeated(writer.write, message), None, None
    yield "`sendall` and `read(timeout=1)`, socket", count, socket_reads(length, chunk), None, None


def count_all(path, length):
    """Runs each call under callgrind, which counts between `begin` and `end`."""
    plain_extension = loaded(path)
    for name, count, *calls in rows_of(length, plain_extension):
        for call in filter(None, calls):
            call(count)  # CPython adapts its code to what it runs
            plain_extension.begin()
            call(count)
            plain_extension.end()


def counted(path, length):
    """Returns the instructions between each `begin` and `end`, in the order of `rows_of`."""
    sums = path.parent / f"sums.{length}"
    words = ["valgrind", "--tool=callgrind", "--combine-dumps=yes", "--zero-before=count_from_here"]
    words += ["--dump-before=count_to_here", f"--callgrind-out-file={sums}"]
    words += [sys.executable, __file__, "--under-callgrind", path, str(length)]
    subprocess.run(words, check=True, stderr=subprocess.DEVNULL, env={**os.environ, "PYTHONHASHSEED": "0"})
    found = re.findall(r"Trigger: --dump-before=count_to_here\n.*?^summary: (\d+)", sums.read_text(), re.M | re.S)
    return map(int, found)


def main(words):
    if words[:1] == ["--under-callgrind"]:
        count_all(Path(words[1]), int(words[2]))
        return
    with tempfile.TemporaryDirectory() as folder:
        path = compiled(Path(folder))
        print("| bytes | call | jcobs | plain extension | plain Python |")
        print("|---:|---|---:|---:|---:|")
        for length in map(int, words or LENGTHS):
            counts = counted(path, length)
            for name, count, *calls in rows_of(length, loaded(path)):
                shown = [f"{next(counts) // count:,}" if call else "" for call in calls]
                print(f"| {length:,} | {name} |", " | ".join(shown), "|", flush=True)


if __name__ == "__main__":
    main(sys.argv[1:])
