#!/bin/sh
# Proves crates/cobs_tool and crates/cobs_watch and builds both programs, static, for Linux on x86-64: build.sh [/FOLDER]
#
# It needs the toolchain's `rt` in the PATH, and gcc with the static libc (Debian's gcc and libc6-dev). Each program
# runs over its stored input before it is put into FOLDER, or into x86_64-linux/ here, with their sums and the versions of
# gcc and glibc, on which the bytes depend too.
set -eu
cd "$(dirname "$0")"
command -v rt >/dev/null || { echo "build.sh: it needs the toolchain's rt" >&2; exit 1; }
kit=$(dirname "$(dirname "$(readlink -f "$(command -v rt)")")")
folder=${1:-x86_64-linux}
room=$(mktemp -d)
trap 'rm -rf "$room"' EXIT

for program in cobs_tool cobs_watch; do
    crate=../../crates/$program
    (cd "$crate" && rt run <stdin >"$room/stdout")
    cmp "$room/stdout" "$crate/stdout"
    gcc -static -s -Wl,--build-id=none -o "$room/$program" "$crate/out/$program.o" "$kit/c/libos_c.a" "$kit/c/liblibc_c.a"
    "$room/$program" <"$crate/stdin" >"$room/stdout"
    cmp "$room/stdout" "$crate/stdout"
    install -D -m 755 "$room/$program" "$folder/$program"
done
echo "gcc $(gcc -dumpfullversion), glibc $(ldd --version | sed -n '1s/.* //p')" >"$folder/LINKED"
[ $# -eq 0 ] || exit 0
(cd "$folder" && sha256sum cobs_tool cobs_watch) >"$room/SHA256SUMS"
cp "$room/SHA256SUMS" "$folder/SHA256SUMS"
../../tests/prebuilt.py --write programs
