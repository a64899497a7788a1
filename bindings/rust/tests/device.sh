#!/bin/sh
# Builds the crate for targets without an operating system, runs it on a Cortex-M4 in QEMU, and measures its flash.
#
# rustup's compiler has no library for these targets, so Debian's compiler builds `core` from Debian's source (packages
# rustc-web and rust-web-src; RUSTC names another compiler, and RUST_SRC another folder `library`). The Cortex-M4 runs the C
# tests of tests/device.sh of the repository with the crate, which exports the calls of `jcobs.h` (device/exports.rs).
#
# Prints a line for each part; the last line counts them.
#
# shellcheck disable=SC2317
set -u
rust=$(cd "$(dirname "$0")/.." && pwd)
root=$(cd "$rust/../.." && pwd)
here=$rust/tests/device
# shellcheck source=SCRIPTDIR/../../../tests/count.sh
. "$root/tests/count.sh"
compiler=${RUSTC:-/usr/bin/rustc}
version=$("$compiler" --version 2>/dev/null | sed -n 's/^rustc \([0-9.]*\).*/\1/p')
for library in "${RUST_SRC:-}" "/usr/src/rustc-$version/library" "/usr/src/rustc-web-$version/library"; do
    [ ! -f "$library/core/src/lib.rs" ] || break
done
memchr=$(find /usr/share/cargo/registry -maxdepth 1 -name 'memchr-2.*' 2>/dev/null | tail -1)
if [ ! -f "$library/core/src/lib.rs" ] || [ -z "$memchr" ]; then
    skip 'the crate on devices' "needs Debian's rustc-web with rust-web-src of its version, or librust-memchr-dev"
    finish
fi

crate() { # TARGET NAME SOURCE FLAG..: a library for this target
    target=$1 called=$2 source=$3
    shift 3
    "$compiler" --sysroot "$work/sysroot" --target "$target" --crate-name "$called" --crate-type rlib -C panic=abort \
        -C "opt-level=$level" -C embed-bitcode=yes --cap-lints allow --out-dir "$work/$target" "$@" "$source"
}

# Builds `core`, and an empty library for the functions that the compiler calls, because newlib and libgcc have them.
core() { # TARGET
    mkdir -p "$work/$1" "$work/sysroot/lib/rustlib/$1/lib"
    printf '#![no_std]\n#![feature(compiler_builtins, staged_api)]\n#![compiler_builtins]\n#![unstable(feature = "x", issue = "none")]\n' \
        >"$work/builtins.rs"
    # Only one target is run and measured, with a `core` like rustup's: optimized for speed, and for no processor.
    level=0
    [ "$1" != thumbv7em-none-eabi ] || level=3
    RUSTC_BOOTSTRAP=1 crate "$1" core "$library/core/src/lib.rs" --edition 2024 -Z force-unstable-if-unmarked &&
        RUSTC_BOOTSTRAP=1 crate "$1" compiler_builtins "$work/builtins.rs" --edition 2021 -Z force-unstable-if-unmarked \
            --extern "core=$work/$1/libcore.rlib" &&
        mv "$work/$1"/lib*.rlib "$work/sysroot/lib/rustlib/$1/lib"
}

builds() { # TARGET
    core "$1" || return 1
    for level in s 3; do
        crate "$1" "stepped_$level" "$rust/src/lib.rs" --edition 2021 &&
            crate "$1" "memchr_$level" "$memchr/src/lib.rs" --edition 2018 &&
            crate "$1" "fast_$level" "$rust/src/lib.rs" --edition 2021 --cfg 'feature="fast"' \
                --extern "memchr=$work/$1/libmemchr_$level.rlib" || return 1
    done
}

# The cases whose calls exports.rs has.
calls='encode_vec|encode|try_encode|encoder|encode_frames|decode_vec|decode|decode_in_place|decode_in_place_report|frame_kind|decoder|decode_stream|max_encoding_length|max_encoding_overhead'
awk -v calls="^($calls)\$" '$3 ~ calls' "$root"/conformance/*.txt >"$work/cases"
c=$root/bindings/c
tests=$c/device/tests

program() { # LIBRARY PROGRAM SOURCE..: a C program over the crate
    by=$1 made=$2
    shift 2
    "$compiler" --sysroot "$work/sysroot" --target thumbv7em-none-eabi --edition 2021 --crate-type staticlib --crate-name exports \
        -C panic=abort -C opt-level=s -C target-cpu=cortex-m4 --out-dir "$work" -L "$work/thumbv7em-none-eabi" \
        --extern "jcobs=$work/thumbv7em-none-eabi/lib$by.rlib" "$here/exports.rs" &&
        arm-none-eabi-gcc -mcpu=cortex-m4 -mthumb -Os -std=c99 -I"$c/include" -I"$tests" --specs=rdimon.specs \
            -T "$tests/mps2.ld" -Wl,--gc-sections "$tests/start_arm.c" "$@" "$work/libexports.a" -o "$work/$made"
}

on_arm() { # PROGRAM ARGUMENT..
    program=$1
    shift
    arguments=arg=program
    for it; do arguments=$arguments,arg=$it; done
    timeout 900 qemu-system-arm -M mps2-an386 -nographic -monitor none -serial null \
        -semihosting-config "enable=on,target=native,$arguments" -kernel "$program"
}

cases() { # LIBRARY
    program "$1" vectors "$c/tests/vectors.c" "$here/absent.c" "$here/pushed.c" &&
        on_arm "$work/vectors" "$work/cases" >"$work/ran"
    sed 's/^/= /' "$work/ran"
    grep -q "^$(wc -l <"$work/cases") cases run, 0 of .*, 0 failed" "$work/ran"
}

# Measures how many bytes of flash a call adds to a program for the Cortex-M4.
size() { # LIBRARY CALL LTO: the bytes of code and data of the program that makes it
    by=$1 called=$2
    "$compiler" --sysroot "$work/sysroot" --target thumbv7em-none-eabi --edition 2021 --crate-type staticlib --crate-name sizes \
        -C panic=abort -C "opt-level=${by#*_}" -C "lto=$3" -C codegen-units=1 --cfg "call=\"$called\"" --cap-lints allow \
        --out-dir "$work" -L "$work/thumbv7em-none-eabi" --extern "by=$work/thumbv7em-none-eabi/lib$by.rlib" \
        "$rust/tests/targets/sizes.rs" &&
        arm-none-eabi-gcc -mcpu=cortex-m4 -mthumb -nostartfiles -Wl,--gc-sections -Wl,-estart -Wl,-u,start \
            "$work/libsizes.a" -lc -o "$work/sized" 2>"$work/linked" &&
        arm-none-eabi-size "$work/sized" | awk 'NR == 2 { print $1 + $2 }'
}

# Says whether nothing of the linked program panics or formats a text: a user of the call gets no panic of `core` with it.
panics_not() {
    ! arm-none-eabi-nm -C "$work/sized" | grep 'core::\(panicking\|fmt\|slice\|str\)::'
}

# The documented panic of `encode` is found, so others would be found too.
seen() {
    size stepped_s encode off && ! panics_not
}

sizes() { # LIBRARY LTO MOST: no call takes more, and no call panics
    found='bytes of flash'
    none=$(size "$1" none "$2") || { cat "$work/linked"; return 1; }
    for call in $(sed -n 's/^#\[cfg(call = "\(.*\)")\]/\1/p' "$rust/tests/targets/sizes.rs" | grep -vx none | tr ' ' _); do
        call=$(echo "$call" | tr _ ' ')
        bytes=$(size "$1" "$call" "$2") || { cat "$work/linked"; return 1; }
        found="$found, $call $((bytes - none))"
        # The panics of `encode` and of `encode_in_place` are documented.
        case $call in encode | 'encode in place') ;; *) panics_not || { echo "$call can panic"; return 1; } ;; esac
        [ $((bytes - none)) -le "$3" ] || { echo "$call takes $((bytes - none)) bytes"; return 1; }
    done
    echo "= $found"
}

for target in thumbv7em-none-eabi thumbv6m-none-eabi riscv32imac-unknown-none-elf wasm32-unknown-unknown; do
    part "the crate for $target" builds "$target"
done
if has arm-none-eabi-gcc gcc-arm-none-eabi 'on a Cortex-M4' &&
    has /usr/lib/arm-none-eabi/include/stdio.h libnewlib-arm-none-eabi 'on a Cortex-M4'; then
    part 'a panic is seen' seen
    for lto in off fat; do
        part "at opt-level s, LTO $lto" sizes stepped_s "$lto" 600
        part "at opt-level 3, LTO $lto" sizes stepped_3 "$lto" 800
        part "at opt-level s, LTO $lto, with \`fast\`" sizes fast_s "$lto" 2000
        part "at opt-level 3, LTO $lto, with \`fast\`" sizes fast_3 "$lto" 2500
    done
    if has qemu-system-arm qemu-system-arm 'on a Cortex-M4'; then
        part 'the cases on a Cortex-M4' cases stepped_s
        part "the cases on a Cortex-M4, with \`fast\`" cases fast_s
    fi
fi
finish
