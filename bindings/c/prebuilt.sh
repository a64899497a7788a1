#!/bin/sh
# Proves crates/cobs_c and builds the library from it, for each processor: prebuilt.sh [/FOLDER]
#
# It needs the toolchain's `rt` in the PATH. The libraries are put into this folder, or into prebuilt/ with their
# sums.
set -eu
cd "$(dirname "$0")"
command -v rt >/dev/null || { echo "prebuilt.sh: it needs the toolchain's rt" >&2; exit 1; }
here=$PWD
crate=../../crates/cobs_c
folder=${1:-prebuilt}

./kit.sh build/flags/kit <<SCRIPT
exec "$here/hardened.sh" "\$CLANG" "\$@"
SCRIPT
for arch in x86_64 aarch64; do
    (cd "$crate" && "$here/build/flags/kit/bin/rt" lib --target "$arch-unknown-linux-gnu")
    install -D -m 644 "$crate/out/libcobs_c.a" "$folder/$arch-linux/libjcobs.a"
done
rm -rf build/flags
[ $# -eq 0 ] || exit 0
(cd prebuilt && sha256sum ./*-linux/libjcobs.a | sed 's|\./||') >prebuilt.new
mv prebuilt.new prebuilt/SHA256SUMS
../../tests/prebuilt.py --write c
