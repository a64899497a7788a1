#!/bin/sh
# Tests the built parts in two minutes, without the Rattle toolchain: the library for C, the packages for Rust, Python and Node,
# and the documents.
#
# For each language the script builds and runs a first example, and runs all conformance cases. It needs Debian's gcc, cargo (Rust
# 1.83) with librust-memchr-dev and librust-serde-derive-dev, nodejs, and python3-dev, -setuptools, -pytest and -hypothesis. If one
# of these is missing, the script skips the part that needs it, and names it. Nothing is written into the repository.
#
# The functions are called by 'part'.
# shellcheck disable=SC2317
set -u
root=$(cd "$(dirname "$0")/.." && pwd)
# shellcheck source=SCRIPTDIR/count.sh
. "$root/tests/count.sh"
c=$root/bindings/c
web=$root/bindings/web
JCOBS_LIB_DIR=$c/prebuilt/$(uname -m)-linux
PATH=$PATH:$HOME/.cargo/bin
export JCOBS_LIB_DIR PATH CARGO_TARGET_DIR="$work/target" CARGO_NET_OFFLINE=true PYTHONDONTWRITEBYTECODE=1

compiled() { # SOURCE PROGRAM
    cc -std=c99 -O2 -Wall -Wextra -Werror -I"$c/include" "$c/$1" "$JCOBS_LIB_DIR/libjcobs.a" -o "$work/$2"
}

first_in_c() {
    compiled examples/send_lines.c send && prints ' 06 68 65 6c 6c 6f 00' sh -c "echo hello | '$work/send' | od -An -tx1"
}

first_by_program() { printf hello | prints '06 68 65 6c 6c 6f 00' "$root/bindings/programs/$(uname -m)-linux/cobs_tool"; }

cases_in_c() { compiled tests/vectors.c vectors && "$work/vectors" "$root"/conformance/*.txt; }

cases_of_source() {
    cc -std=c99 -O2 -Wall -Wextra -Werror -I"$c/include" "$c/tests/vectors.c" "$c/source/jcobs.c" -o "$work/source" &&
        "$work/source" "$root"/conformance/*.txt
}

# Each step of the library, compared with a table: of jcobs.c, or of the built library.
steps_in_c() { # SOURCE-OR-ARCHIVE
    cc -std=c99 -O2 -Wall -Wextra -Werror -DDEPTH=4 -I"$c/include" "$root/check/steps.c" "$1" -o "$work/steps" && "$work/steps"
}

first_in_rust() (
    mkdir -p "$work/app/src" && cd "$work/app" &&
        printf '[package]\nname = "app"\nedition = "2021"\n[dependencies]\ncobs = { package = "jcobs", path = "%s" }\n' \
            "$root/bindings/rust" >Cargo.toml &&
        echo 'fn main() { println!("{:?}", cobs::encode_vec(b"hello")); }' >src/main.rs &&
        prints '[6, 104, 101, 108, 108, 111]' cargo run -q
)

# A copy, as cargo and setup.py write beside what they build.
copy() {
    mkdir -p "$work/tree/bindings/c" && ln -s "$root/conformance" "$work/tree" && ln -s "$c/include" "$work/tree/bindings/c" &&
        cp -R "$root/bindings/rust" "$root/bindings/python" "$work/tree/bindings"
}

tests_in_rust() (
    cd "$work/tree/bindings/rust" && cargo test --lib --tests
)

extension() (
    cd "$work/tree/bindings/python" && "$python" setup.py -q build_ext --inplace
)

in_python() ( # ARGUMENT..
    cd "$work/tree/bindings/python" && PYTHONPATH=src "$python" "$@"
)

pytest_of() { # OPTION-OR-FILE..
    in_python -m pytest -q -p no:cacheprovider "$@"
}

first_in_node() {
    prints '2,1,2,2' "$node" --input-type=module -e \
        "import { encode, load } from '$web/jcobs.js'; await load(); console.log(String(encode(Uint8Array.of(1, 0, 2))))"
}

dist_is_packed() { "$node" "$web/pack.mjs" "$work/dist" && diff -r "$work/dist" "$web/dist"; }

copy || exit
if has cc gcc 'C'; then
    part 'C: the first frame' first_in_c
    part 'C: all cases' cases_in_c
    part 'C: all cases by jcobs.c' cases_of_source
    part 'C: each step' steps_in_c "$JCOBS_LIB_DIR/libjcobs.a"
    part 'C: each step of jcobs.c' steps_in_c "$c/source/jcobs.c"
fi
if [ -x "$root/bindings/programs/$(uname -m)-linux/cobs_tool" ]; then
    part 'programs: the first frame' first_by_program
else
    skip 'programs' "not built for $(uname -m)"
fi
if has cargo cargo 'Rust'; then
    if ! missing=$("$root/bindings/rust/tests/offline.sh" "$work"); then
        skip 'Rust' "$missing"
    elif [ "$(rustc --version 2>/dev/null | sed -n 's/^rustc 1\.\([0-9]*\)\..*/\1/p' | grep . || echo 0)" -ge 83 ]; then
        part 'Rust: the first frame' first_in_rust
        part 'Rust: the tests of the crate, with all cases' tests_in_rust
    else
        skip 'Rust' "it needs Rust 1.83: this is $(rustc --version 2>&1 | head -n 1)"
    fi
fi
python=${PYTHON:-/usr/bin/python3}
if has "$python" python3 'Python' && has cc gcc 'Python'; then
    if "$python" -c 'import os, setuptools, pytest, sysconfig; os.stat(sysconfig.get_path("include") + "/Python.h")' 2>/dev/null; then
        part 'Python: the extension' extension
        part 'Python: the first frame' prints "b'\\x06hello'" in_python -c 'import jcobs; print(jcobs.encode(b"hello"))'
        part 'Python: all cases' pytest_of --noconftest tests/test_conformance.py
        if "$python" -c 'import hypothesis' 2>/dev/null; then
            part 'Python: calls and streams' pytest_of tests/test_calls.py tests/test_streams.py
        else
            skip 'Python: calls and streams' "needs Debian's python3-hypothesis"
        fi
    else
        skip 'Python' "needs Debian's python3-dev, python3-setuptools or python3-pytest"
    fi
fi
node=${NODE:-node}
if has "$node" nodejs 'Node'; then
    part 'Node: the first frame' first_in_node
    part 'Node: the package has these files and this module' dist_is_packed
    part 'Node: all cases' "$node" "$web/test/vectors.mjs" "$web/cobs.wasm" "$root/conformance"
fi
if has python3 python3 'the documents'; then
    part 'C: jcobs.c is translated from the proved module' "$c/source/translate.py" --check
    part 'C: its functions are the proved ones' "$c/tests/translated.py"
    part 'Rust: its functions are the proved ones' "$root/bindings/rust/tests/proved.py"
    part 'Rust: no call codes by hand' "$root/bindings/rust/tests/by_hand.py"
    part 'what is built is of these sources' "$root/tests/prebuilt.py"
    part 'the documents' "$root/tests/docs.py"
fi
finish
