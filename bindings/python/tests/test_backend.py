"""The extension and plain Python: which of them is used, and that their results are the same."""

import collections
import inspect
import os
import random
import subprocess
import sys

import pytest

import jcobs
from jcobs import _plain


def backend_of(program="", **environment):
    """The backend in an interpreter that runs the program first."""
    words = [sys.executable, "-c", program + "\nimport jcobs; print(jcobs.backend, jcobs.encode(b'hello'))"]
    ran = subprocess.run(words, capture_output=True, text=True, env={**os.environ, **environment})
    assert ran.stderr == "" and ran.stdout.endswith(" b'\\x06hello'\n"), ran.stderr
    return ran.stdout.split()[0]


def test_backend_is_the_code_that_works():
    module = "jcobs._plain" if jcobs.backend == "python" else "jcobs._core"
    assert type(jcobs.Decoder()._core).__module__ == type(jcobs.Encoder()._core).__module__ == module
    assert jcobs.Message.__base__.__module__ == module
    # tests/python.sh names the one that it installed
    assert jcobs.backend == os.environ.get("JCOBS_INSTALLED", jcobs.backend)


def test_without_the_extension_the_fallback_works():
    gone = "import sys; sys.modules['jcobs._core'] = None"
    assert backend_of(gone, JCOBS_BACKEND="") == "python"
    with pytest.raises(AssertionError, match="import of jcobs._core halted"):
        backend_of(gone, JCOBS_BACKEND="prebuilt")
    assert backend_of(JCOBS_BACKEND="python") == "python"
    with pytest.raises(AssertionError, match="must be prebuilt, compiled or python"):
        backend_of(JCOBS_BACKEND="Python")


OTHER = "import sys, types; other = sys.modules['jcobs._core'] = types.ModuleType('jcobs._core'); other.version = '0.9'"


def test_an_extension_of_another_version_is_not_used(recwarn):
    for program, version in ((OTHER, "0.9"), (OTHER.replace("other.version", "other.backend"), "an older version")):
        words = [sys.executable, "-c", program + "\nimport jcobs; print(jcobs.backend)"]
        ran = subprocess.run(words, capture_output=True, text=True, env={**os.environ, "JCOBS_BACKEND": ""})
        assert ran.stdout == "python\n", ran.stderr
        assert f"has an extension of {version}, and works in plain Python: install it again" in ran.stderr


@pytest.fixture
def core():
    return pytest.importorskip("jcobs._core", reason="the extension is not there")


NOT_CONTIGUOUS = memoryview(b"abcd")[::2]


class Index:
    def __index__(self):
        raise TypeError("by the object")


WRONG = [
    *(("encode", data) for data in ("text", 5, None, NOT_CONTIGUOUS)),
    *(("decode", data) for data in ("text", [1], NOT_CONTIGUOUS, b"\x05a", b"\0", b"")),
    *(("frame_kind", data) for data in ("text", NOT_CONTIGUOUS)),
    *(("encode", b"", sentinel) for sentinel in (-1, 256, 2**70, -(2**70), "0", None, 1.0, Index())),
    *((call, b"\x01", 300) for call in ("decode", "frame_kind")),
    *(("max_frame_length", length) for length in (-1, 2**63, -(2**70), 1.5, "1", Index())),
    *((coder, *words) for coder in ("Decoder", "Encoder") for words in ((-1, 0), (2**70, 0), ("1", 0), (1, "1"))),
]


@pytest.mark.parametrize("name, arguments", [(name, words) for name, *words in WRONG])
def test_errors_are_the_same(core, name, arguments):
    raised = []
    for module in (core, _plain):
        with pytest.raises((TypeError, ValueError, OverflowError, BufferError)) as error:
            if name in ("encode", "decode", "frame_kind"):
                getattr(module, name)(arguments[0], sentinel=arguments[1] if arguments[1:] else 0)
            else:
                getattr(module, name)(*arguments, *([jcobs._streams.CLASSES] if name == "Decoder" else []))
        raised.append((type(error.value), str(error.value), getattr(error.value, "data", None)))
    assert raised[0] == raised[1]


CALLS = ("encode", "decode", "frame_kind", "max_frame_length")


@pytest.mark.parametrize("call", CALLS)
def test_calls_have_the_same_documents_and_arguments(core, call):
    ours, plain = getattr(core, call), getattr(_plain, call)
    assert inspect.getdoc(ours) == inspect.getdoc(plain)
    kept = [(one.name, one.kind, one.default) for one in inspect.signature(ours).parameters.values()]
    assert kept == [(one.name, one.kind, one.default) for one in inspect.signature(plain).parameters.values()]


@pytest.mark.parametrize("call", CALLS)
def test_arguments_by_name(call):
    call = getattr(jcobs, call)
    names = list(inspect.signature(call).parameters)
    first = 5 if names[0] == "length" else b"\x06hello"
    assert call(**{names[0]: first}) == call(first)
    for words, named, wanted in (
        ((), {}, "missing 1 required positional argument"),
        ((first,), {names[0]: first}, "multiple values for argument"),
        ((first,), {"size": 1}, "unexpected keyword argument 'size'"),
        ((first, 0), {}, "1 positional argument"),
    ):
        with pytest.raises(TypeError, match=wanted):
            call(*words, **named)
    if "sentinel" in names:
        assert call(b"\x06", **{"".join(["sent", "inel"]): 7}) in (b"\x05\x01", b"", "canonical")
        with pytest.raises(TypeError, match="cannot be interpreted as an integer"):
            call(first, sentinel="7")


def test_signatures():
    assert list(inspect.signature(jcobs.Message).parameters) == ["data"]
    assert str(inspect.signature(jcobs.decode)).startswith("(frame")
    for kind in (jcobs.Message, jcobs.Broken, jcobs.TooLong):
        with pytest.raises(TypeError, match=rf"{kind.__name__}\(\) argument 'data' must be bytes, not str"):
            kind("text")


class Lost(Exception):
    pass


@pytest.mark.parametrize("sentinel", [0, 7])
def test_decoders_do_the_same(core, sentinel):
    """At random: bytes that are read, reads that fail, outcomes that are taken, bytes that are discarded."""
    source, classes = random.Random(sentinel), jcobs._streams.CLASSES
    if jcobs.backend == "python":
        pytest.skip("the extension takes the classes of its own outcomes")
    pair = [core.Decoder(3, sentinel, classes), _plain.Decoder(3, sentinel, classes)]
    seen = collections.Counter()
    for _ in range(20_000):
        chunk = bytes(source.choice([0, 0, 1, 1, 2, 3, 4, 5, 255]) ^ sentinel for _ in range(source.randrange(9)))
        step = source.choice(["receive"] * 5 + ["lose", "fail", "take", "discard", "reset"])
        got = []
        for decoder in pair:

            def read(size):
                if step != "receive":
                    raise (Lost if step == "lose" else OSError)
                return chunk

            if step in ("receive", "lose", "fail"):
                found = [*decoder]  # a read comes after all outcomes have been taken
                try:
                    found.append(decoder.receive(read, 9))
                except (Lost, OSError) as error:
                    found.append(type(error))
            elif step == "feed":
                found = [*decoder, decoder.feed(chunk)]
            else:
                found = [getattr(decoder, step)()]
            got.append([*found, decoder.unfinished])
        assert got[0] == got[1], (step, chunk)
        seen.update(type(one).__name__ for one in got[0])
    assert min(seen[name] for name in ("Message", "Broken", "TooLong", "type")) > 50
