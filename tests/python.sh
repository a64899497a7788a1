#!/bin/sh
# Tests the binding for Python (bindings/python), in separate environments and without a network:
#   - pip installs the package, with a C compiler and without one, and the first example of its README runs;
#   - its tests run with pytest: with the extension, with plain Python, on PyPy, with C compiled from source, and on an emulated
#     processor that the library doesn't support;
#   - mypy checks its types in strict mode; black and clang-format check the layout of its files;
#   - a wheel and a source distribution are built; the source distribution is then built and tested in another folder;
#   - the wheel runs on each other installed CPython from 3.9 on.
# Hypothesis makes 2,000 examples of each property, or as many as JCOBS_EXAMPLES says.
# PYTHON names the interpreter; without it the first interpreter that has the needed packages is used. If a tool is missing, the
# script skips the part that needs it, and names the tool. The last line counts the parts; the status is 0 only if nothing failed.
set -u
root=$(cd "$(dirname "$0")/.." && pwd)
# shellcheck source=SCRIPTDIR/count.sh
. "$root/tests/count.sh"

has_module() { # PYTHON MODULE
    "$1" -c "import $2" >/dev/null 2>&1
}

# Debian's packages that an interpreter needs and doesn't have: without the first ones nothing can be tested.
missing() { # PYTHON
    "$1" -c 'import sys; sys.exit(sys.version_info < (3, 9))' >/dev/null 2>&1 || { echo "python3"; return; }
    for module in setuptools:python3-setuptools wheel:python3-wheel pytest:python3-pytest \
        hypothesis:python3-hypothesis ensurepip:python3-venv; do
        has_module "$1" "${module%%:*}" || printf '%s ' "${module#*:}"
    done
    headers=$("$1" -c 'import sysconfig; print(sysconfig.get_path("include"))')
    [ -f "$headers/Python.h" ] || printf 'python3-dev '
}

python=
for candidate in ${PYTHON:-/usr/bin/python3 python3}; do
    [ -n "$(missing "$candidate")" ] || { python=$candidate; break; }
done
if [ -z "$python" ] || ! command -v cc >/dev/null; then
    lacking=$(missing "${PYTHON:-/usr/bin/python3}")
    command -v cc >/dev/null || lacking="${lacking}gcc"
    skip "bindings/python" "it needs Debian's $lacking"
    finish
fi

# A copy is built, as a build writes beside what it builds.
tree=$work/tree
mkdir -p "$tree/bindings"
cp -R "$root/bindings/python" "$tree/bindings"
(cd "$tree/bindings/python" && rm -rf build dist src/*.egg-info src/jcobs/*.so)
mkdir "$tree/bindings/c"
ln -s "$root/bindings/c/include" "$root/bindings/c/prebuilt" "$root/bindings/c/source" "$tree/bindings/c"
ln -s "$root/bindings/programs" "$tree/bindings"
ln -s "$root/conformance" "$root"/LICENSE-* "$tree"
package=$tree/bindings/python
export PYTHONDONTWRITEBYTECODE=1 PIP_DISABLE_PIP_VERSION_CHECK=1 PIP_NO_INDEX=1
export JCOBS_EXAMPLES="${JCOBS_EXAMPLES:-2000}"
unset PYTHONPATH PYTHONHOME JCOBS_BACKEND JCOBS_LIB_DIR

environment() { # FOLDER
    "$python" -m venv --system-site-packages "$1"
}
interpreter() { # MINOR: the CPython of that version, if the machine has one, in the PATH or by pyenv
    for candidate in "python3.$1" "${PYENV_ROOT:-$HOME/.pyenv}"/versions/"3.$1".*/bin/python3; do
        "$candidate" -c '' 2>/dev/null && command -v "$candidate" && return
    done
    return 1
}
in_work() { # COMMAND..
    (cd "$work" && "$@")
}
first_example() { # PYTHON
    in_work "$1" -c 'import jcobs
assert jcobs.encode(b"hello\0world", terminated=True) == b"\x06hello\x06world\x00"
decoder = jcobs.Decoder()
assert decoder.feed(b"\x06hello\x06wor") == []
assert repr(decoder.feed(b"ld\x00\x03hi\x00")) == repr([jcobs.Message(b"hello\x00world"), jcobs.Message(b"hi")])
print("=", jcobs.backend)'
}
installs() { # PYTHON ARTIFACT
    "$1" -m pip install -q --no-build-isolation "$2"
}
tests() { # BACKEND PYTHON FILE-OR-FOLDER..
    backend=$1
    interpreter=$2
    shift 2
    JCOBS_INSTALLED=$backend in_work timeout 14400 "$interpreter" -m pytest -q -rs "$@"
}
counts() { # FILE: the tests that were skipped, and how many passed
    { grep '^SKIPPED' "$1"; tail -n 1 "$1"; } | sed 's/^/    /'
}
strict() { # PYTHON FILES..
    interpreter=$1
    shift
    (cd "$package" && mypy --strict --cache-dir "$work/mypy" --python-executable "$interpreter" "$@")
}

echo "$("$python" --version), $python"
part "an empty environment" environment "$work/first"
here=$work/first/bin/python
part "pip install" installs "$here" "$package"
part "the first example" first_example "$here"
part "its licences" test -f "$(echo "$work"/first/lib/python3*/site-packages/jcobs-*.dist-info/LICENSE-MIT)"
first_is() { # BACKEND PYTHON
    first_example "$2" && [ "$(in_work "$2" -m jcobs --version)" = "jcobs $(cat "$root/VERSION"), backend $1" ]
}

# Nothing but Python is in the PATH, so there is no compiler. The extension that was built above is still in build/, and
# must not be installed again.
part "an environment without a compiler" environment "$work/second"
plain=$work/second/bin/python
part "pip install without a compiler" env "PATH=$work/second/bin" "$plain" -m pip install -q --no-build-isolation "$package"
part "the first example in plain Python" first_is python "$plain"
(tests python "$plain" "$package/tests" >"$work/plain" 2>&1; echo $? >"$work/plain.status") &
part "pytest with the extension" tests prebuilt "$here" "$package/tests"
counts "$work/said"
wait
of_plain() {
    cat "$work/plain"
    return "$(cat "$work/plain.status")"
}
part "pytest in plain Python" of_plain
counts "$work/plain"

pypy() {
    PYTHONPATH=$package/src:/usr/lib/python3/dist-packages JCOBS_EXAMPLES=50 tests python pypy3 "$package/tests"
}
if ! command -v pypy3 >/dev/null; then
    skip "pytest on PyPy" "pypy3 is not there: install Debian's pypy3"
elif PYTHONPATH=/usr/lib/python3/dist-packages pypy3 -c 'import pytest, hypothesis' >/dev/null 2>&1; then
    part "pytest on PyPy" pypy && counts "$work/said"
else
    skip "pytest on PyPy" "it has no pytest and hypothesis"
fi

if [ -f "$root/bindings/c/source/jcobs.c" ]; then
    part "an environment for C that is compiled" environment "$work/third"
    rm -rf "$package/build"
    part "pip install of the C source" env JCOBS_BACKEND=compiled "$work/third/bin/python" -m pip install -q --no-build-isolation "$package"
    JCOBS_EXAMPLES=100
    part "pytest over the C source" tests compiled "$work/third/bin/python" "$package/tests"
fi

backend_on() { # CPU BACKEND
    in_work qemu-x86_64 -cpu "$1" "$here" -c 'import sys, jcobs; sys.exit([jcobs.backend, jcobs.encode(b"hi" * 99)[:3]] != [sys.argv[1], b"\xc7hi"])' "$2"
}
if [ "$(uname -m)" != x86_64 ]; then
    skip "a processor without SSE4.2" "this machine is no x86-64"
elif command -v qemu-x86_64 >/dev/null; then
    part "a processor with SSE4.2" backend_on Nehalem prebuilt
    part "a processor without SSE4.2" backend_on core2duo python
else
    skip "a processor without SSE4.2" "qemu-x86_64 is not there: install Debian's qemu-user"
fi

if command -v black >/dev/null; then
    part "layout of the Python files" black -q --check "$package"
else
    skip "layout of the Python files" "black is not there: install Debian's black"
fi
if command -v clang-format >/dev/null; then
    part "layout of the C files" clang-format --dry-run -Werror "$root"/bindings/python/src/_core/*.[ch]
else
    skip "layout of the C files" "clang-format is not there: install Debian's clang-format"
fi
if command -v mypy >/dev/null; then
    part "mypy --strict, the package" strict "$here" src/jcobs
    part "mypy --strict, a user of the installed package" strict "$here" tests/typed.py examples/protocol.py examples/with_trio.py
    sed -n '/^```python$/,/^```$/{/^```$/q;/^```/!p}' "$package/README.md" >"$work/readme.py"
    part "mypy --strict, the first example of the README" strict "$here" "$work/readme.py"
else
    skip "types" "mypy is not there: install Debian's mypy"
fi

if has_module "$python" build; then
    part "python -m build" in_work "$here" -m build --no-isolation --outdir "$work/dist" "$package"
    wheel=$(echo "$work"/dist/jcobs-*-cp39-abi3-linux_*.whl)
    part "one wheel for CPython 3.9 and later" test -f "$wheel"
    part "an empty environment elsewhere" environment "$work/fourth"
    there=$work/fourth/bin/python
    mkdir "$work/elsewhere"
    archive=$(echo "$work"/dist/jcobs-*.tar.gz)
    part "the source distribution is unpacked" tar -xzf "$archive" -C "$work/elsewhere" --strip-components 1
    part "pip install of the source distribution" installs "$there" "$archive"
    part "the first example, elsewhere" first_example "$there"
    JCOBS_EXAMPLES=100
    part "pip install of the C source that it carries" \
        env JCOBS_BACKEND=compiled "$there" -m pip install -q --no-build-isolation --force-reinstall "$archive"
    part "pytest, elsewhere" tests compiled "$there" "$work/elsewhere/tests"
    counts "$work/said"

    mkdir "$work/wheel"
    part "the wheel is unpacked" "$python" -m zipfile -e "$wheel" "$work/wheel"
    others=0
    for minor in 9 10 11 12 13 14 15; do
        other=$(interpreter "$minor") || continue
        others=$((others + 1))
        for backend in prebuilt python; do
            part "the wheel on $("$other" --version), $backend" \
                env PYTHONPATH="$work/wheel" JCOBS_BACKEND=$backend "$other" "$package/tests/smoke.py"
        done
    done
    [ $others -gt 0 ] || skip "other versions" "there is no python3.9 to python3.15"
else
    skip "the wheel and the source distribution" "build is not there: install Debian's python3-build"
fi
finish
