#!/bin/sh
# Runs the crate's tests as programs for other targets: targets.sh [TARGET..] [-- FLAG..]
#
# The script runs the package's tests and the cases of conformance/ for i686, and with qemu-user for aarch64, armv7 and s390x
# (big-endian). It runs random messages and streams for wasm32 in Node (wasm/). Each target is tested with the feature `fast` and
# without it. Each target needs a compiler that has the target's library: rustup's, Debian's /usr/bin/rustc, or the compiler that
# RUSTC names. debian-rustc.sh unpacks a compiler for the first four targets. For wasm32, Debian's lld and the `core` that
# bench/run.sh has built are enough. If a tool for a target is missing, the script prints the target's name and skips it. FLAG..
# choose tests, as for cargo test: targets.sh s390x -- --test model
#
# Prints a line for each part; the last line counts them. run.sh doesn't run this script, which takes about ten minutes for each
# target.
#
# The functions are called by 'part'. Lists of flags are meant to be split.
# shellcheck disable=SC2086,SC2317
set -u
rust=$(cd "$(dirname "$0")/.." && pwd)
root=$(cd "$rust/../.." && pwd)
PATH=$PATH:$HOME/.cargo/bin
export PATH
# shellcheck source=SCRIPTDIR/../../../tests/count.sh
. "$root/tests/count.sh"
# shellcheck source=SCRIPTDIR/linux.sh
. "$rust/tests/linux.sh"

# Each part sets RUSTC.
given=${RUSTC:-/usr/bin/rustc}
chosen=
while [ $# -gt 0 ]; do
    [ "$1" != -- ] || { shift && break; }
    chosen="$chosen $1"
    shift
done
chosen=${chosen:-aarch64 armv7 i686 s390x wasm32}
flags=${*:---lib --test vectors --test differences --test steps --test pushes --test model --test ports}
if ! missing=$("$rust/tests/offline.sh" "$work"); then
    skip 'other targets' "$missing"
    finish
fi
# The tests run in a copy, because cargo writes to the folder of the package.
mkdir -p "$work/tree/bindings" && cp -R "$rust" "$work/tree/bindings/rust" && rm -rf "$work/tree/bindings/rust/target" &&
    ln -s "$root/conformance" "$root/bench" "$work/tree" && cd "$work/tree/bindings/rust" || exit

# The tests are optimized a little, because qemu is ten times slower. They keep the checks of a debug build, and its smaller
# numbers of cases.
tests() { # NAME TARGET LINKER RUNNER
    in_cargo=$(echo "$2" | tr 'a-z-' 'A-Z_')
    export "CARGO_TARGET_${in_cargo}_LINKER=$3" "CARGO_TARGET_${in_cargo}_RUNNER=$4" "RUSTC=$compiler"
    export "CARGO_TARGET_DIR=$work/target" CARGO_PROFILE_TEST_OPT_LEVEL=1
    cargo test --target "$2" $flags && cargo test --target "$2" $flags --no-default-features --features std
}

# A compiler for which bench/run.sh has built `core`.
with_built_core() {
    command -v wasm-ld >/dev/null || return 1
    for maker in "$given" /usr/bin/rustc; do
        version=$("$maker" --version 2>/dev/null | cut -d ' ' -f 2)
        built=$root/bench/out/sysroot-$version/lib/rustlib/wasm32-unknown-unknown
        if [ -z "$version" ] || [ ! -d "$built" ]; then continue; fi
        mkdir -p "$work/sysroot/lib/rustlib" &&
            ln -s "$("$maker" --print sysroot)"/lib/rustlib/* "$built" "$work/sysroot/lib/rustlib" &&
            printf '#!/bin/sh\nexec %s --sysroot %s "$@"\n' "$maker" "$work/sysroot" >"$work/rustc" &&
            chmod +x "$work/rustc" && echo "$work/rustc"
        return
    done
    return 1
}

# Builds for WebAssembly, and compares the calls in Node with a loop over single bytes in JavaScript.
in_node() { # NAME FLAG..
    called=$1
    shift
    export "RUSTC=$compiler"
    [ "$compiler" != "$work/rustc" ] || export CARGO_TARGET_WASM32_UNKNOWN_UNKNOWN_LINKER=wasm-ld
    CARGO_TARGET_DIR=$work/$called cargo build --release --target wasm32-unknown-unknown \
        --manifest-path tests/wasm/Cargo.toml "$@" &&
        node tests/wasm/run.mjs "$work/$called/wasm32-unknown-unknown/release/jcobs_in_node.wasm" >"$work/in-node" &&
        sed 's/^/= /' "$work/in-node"
}

each_linux tests $chosen
case " $chosen " in *' wasm32 '*)
    if ! compiler=$(compiler_for wasm32-unknown-unknown) && ! compiler=$(with_built_core); then
        skip 'on wasm32' 'needs rustup target add wasm32-unknown-unknown, or the core that bench/run.sh wasm32 builds, and lld'
    elif has node nodejs 'on wasm32'; then
        part 'on wasm32' in_node fast --features fast
        part 'on wasm32, byte by byte' in_node stepped
    fi
    ;;
esac
finish
