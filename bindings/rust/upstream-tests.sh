#!/bin/sh
# Runs the tests of the crate `cobs` 0.5.1 over this crate: upstream-tests.sh FOLDER
#
# If FOLDER has src/lib.rs, the script also compares each call with the call of the crate `cobs`
# (tests/beside_crate/compare.rs).
#
# FOLDER has the tests as the crate has them, in the test modules at the ends of src/*.rs, or in files in which a line
#
#     // ===== src/enc.rs (test module) =====
#
# precedes each module. The script writes the tests to a separate project, which depends on this crate under the name `cobs`,
# and on Debian's librust-quickcheck-dev, so nothing is downloaded. The names of the tests that don't pass must be the names in
# the section "The tests of the crate `cobs`" of README.md.
set -eu
if [ $# -ne 1 ] || [ ! -d "$1" ]; then
    echo "usage: $0 FOLDER" >&2
    exit 2
fi
tests=$(cd "$1" && pwd)
here=$(cd "$(dirname "$0")" && pwd)
for tool in cargo awk; do
    command -v "$tool" >/dev/null || { echo "skipped: needs $tool"; exit 0; }
done
if ! ls -d /usr/share/cargo/registry/quickcheck-1.* >/dev/null 2>&1; then
    echo "skipped: needs quickcheck (Debian package librust-quickcheck-dev)"
    exit 0
fi
work=$(mktemp -d)
trap 'rm -rf "$work"' EXIT
mkdir "$work/src"
"$here/tests/offline.sh" "$work" || exit 0

# Writes each module FILE of the crate: its names, and then its tests.
cut_modules() { # FILE..
    awk -v folder="$work/src" '
        FNR == 1 { name = FILENAME; sub(/.*\//, "", name); inside = 0 }
        /^\/\/ ===== src\/[a-z]+\.rs \(test module\) =====/ { name = $3; sub(/.*\//, "", name); inside = 0; next }
        /^#\[cfg\(test\)\]/ { inside = 1 }
        inside { print > (folder "/" name ".tests") }
    ' "$@"
}
cd "$tests"
marked=$(grep -l '^// ===== src/[a-z]*\.rs (test module) =====' -- * 2>/dev/null || true)
if [ -n "$marked" ]; then
    # Prints one name per line.
    # shellcheck disable=SC2086
    cut_modules $marked
elif [ -d src ]; then
    cut_modules src/*.rs
fi
for module in lib enc dec; do
    if [ ! -s "$work/src/$module.rs.tests" ]; then
        echo "no tests of $module.rs in $tests" >&2
        exit 2
    fi
    {
        echo '#![allow(unused)]'
        [ "$module" != lib ] || printf 'extern crate alloc;\nmod dec;\nmod enc;\n'
        echo 'pub use cobs::*;'
        cat "$work/src/$module.rs.tests"
    } >"$work/src/$module.rs"
done

cat >"$work/Cargo.toml" <<END
[package]
name = "upstream-tests"
version = "0.0.0"
edition = "2021"

[features]
default = ["alloc"]
alloc = []

[dependencies]
cobs = { package = "jcobs", path = "$here" }

[dev-dependencies]
quickcheck = { version = "1", default-features = false }
END
cd "$work"
cargo test --offline --lib --no-fail-fast >said 2>errors || true
if ! grep -q '^test result: ' said; then
    echo "FAILED: the tests don't compile" >&2
    cat errors said >&2
    exit 1
fi
sed -n 's/^test \([a-z0-9_:]*\).* \.\.\. FAILED$/\1/p' said | sort >found
# shellcheck disable=SC2016
sed -n '/^## The tests of the crate/,/^## /s/^| `\([a-z0-9_:]*\)` |.*/\1/p' "$here/README.md" | sort >listed
if ! diff listed found >differ; then
    echo "FAILED: the table (<) and the tests that don't pass (>) differ" >&2
    cat differ said >&2
    exit 1
fi
passed=$(grep -c '^test .* \.\.\. ok$' said || true)
echo "= $passed tests of the crate pass; $(wc -l <found) don't, as the table in README.md says"

# Compares every call with the crate's, if FOLDER has the crate's sources as cargo downloads them.
if [ ! -f "$tests/src/lib.rs" ]; then
    echo "not compared with the crate: $tests/src/lib.rs isn't there"
    exit 0
fi
mkdir -p "$work/beside/src" "$work/crate" "$work/thiserror"
cp -R "$tests/src" "$work/crate"
cp "$here/tests/beside_crate/compare.rs" "$work/beside/src/main.rs"
cat >"$work/thiserror/Cargo.toml" <<END
[package]
name = "thiserror"
version = "2.0.0"
edition = "2021"
[lib]
path = "$here/../../bench/stand_in/thiserror.rs"
proc-macro = true
END
cat >"$work/crate/Cargo.toml" <<END
[package]
name = "cobs"
version = "0.5.1"
edition = "2021"
[features]
default = ["alloc", "std"]
alloc = []
std = []
[dependencies]
thiserror = { path = "../thiserror" }
heapless = { path = "$here/tests/stand_in/heapless" }
END
cat >"$work/beside/Cargo.toml" <<END
[package]
name = "beside"
version = "0.0.0"
edition = "2024"
[dependencies]
cobs = { path = "../crate" }
jcobs = { path = "$here", default-features = false, features = ["std"] }
[features]
fast = ["jcobs/fast"]
[profile.dev]
opt-level = 2
debug = false
END
cd "$work/beside"
for feature in '' fast; do
    CARGO_TARGET_DIR=$work/target cargo run -q --features "$feature" -- "${ROUNDS:-5000}" 2>errors | sed "s/\$/${feature:+, with the feature $feature}/" >said || true
    grep '^= ' said || { echo "FAILED: compared with the crate" >&2; head -c 4000 errors >&2; exit 1; }
done
