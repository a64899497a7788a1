#!/bin/sh
# Builds the Rust crate and runs its tests.
#
# Prints a line for each part: 'ok', 'FAILED' with the output, or 'skipped' with the missing tools. The last line counts the
# parts; the status is 0 only if no part failed. No network is used: offline.sh replaces crates.io. COBS_TESTS may name a folder
# with the sources of the crate `cobs`.
#
# The functions are called by 'part'.
# shellcheck disable=SC2317
set -u
rust=$(cd "$(dirname "$0")/.." && pwd)
root=$(cd "$rust/../.." && pwd)
PATH=$PATH:$HOME/.cargo/bin
export PATH
# shellcheck source=SCRIPTDIR/../../../tests/count.sh
. "$root/tests/count.sh"

has python3 python3 'the functions are the proved ones' && part 'the functions are the proved ones' "$rust/tests/proved.py"
if ! command -v cargo >/dev/null; then
    skip 'bindings/rust' 'needs cargo (rustup, or Debian package cargo, from Rust 1.83 on)'
    finish
fi
version=$(rustc --version | sed -n 's/^rustc 1\.\([0-9]*\)\..*/\1/p')
if [ "${version:-0}" -lt 83 ]; then
    skip 'bindings/rust' "needs Rust 1.83: this is $(rustc --version)"
    finish
fi
if ! lacking=$("$rust/tests/offline.sh" "$work"); then
    skip 'bindings/rust' "$lacking"
    finish
fi

# The tests run in a copy, because cargo writes to the folder of the package.
mkdir -p "$work/tree/bindings" && cp -R "$rust" "$work/tree/bindings/rust" && rm -rf "$work/tree/bindings/rust/target" &&
    ln -s "$root/conformance" "$root/bench" "$work/tree" || exit
cd "$work/tree/bindings/rust" || exit
CARGO_TARGET_DIR=$work/target
export CARGO_TARGET_DIR

units() { # FEATURES..: the library and its tests, with overflow checks, and warnings rejected
    RUSTFLAGS='-D warnings' cargo test --lib --tests "$@"
}

documentation() { # FLAG..
    RUSTDOCFLAGS='-D warnings' cargo doc --no-deps "$@"
}

# Builds the documentation with the compiler's features that docs.rs enables.
as_docs_rs() {
    RUSTC_BOOTSTRAP=1 RUSTDOCFLAGS='-D warnings --cfg docsrs' CARGO_TARGET_DIR=$work/docs_rs cargo doc --no-deps --all-features &&
        grep -q 'crate feature <code>std</code>' "$work/docs_rs/doc/jcobs/struct.MessageReader.html"
}

# The optional features, in a program that uses each.
features() (
    mkdir -p "$work/features/src" && cd "$work/features" && cat >Cargo.toml <<'END' && cat >src/main.rs <<'END2' &&
[package]
name = "features"
edition = "2021"

[dependencies]
jcobs = { path = "../tree/bindings/rust", features = ["serde", "defmt", "heapless"] }
heapless = "0.9"
serde_json = "1"
END
fn main() {
    let broken = jcobs::DecodeError::InvalidFrame { decoded_bytes: 3 };
    println!("{}", serde_json::to_string(&(broken, jcobs::DestBufTooSmallError)).unwrap());
    let report = jcobs::decode(b"\x02a\0", &mut [0; 2]).unwrap();
    println!("{}", serde_json::to_string(&report).unwrap());
    assert_eq!(serde_json::from_str::<jcobs::DecodeError>("\"EmptyFrame\"").unwrap(), jcobs::DecodeError::EmptyFrame);
    let more = (jcobs::Next::End { unfinished: true }, jcobs::PieceEnd::Message(2), jcobs::FrameKind::Longer);
    println!("{}", serde_json::to_string(&more).unwrap());
    let outcome = jcobs::FrameOutcome::Message(vec![7]);
    let text = serde_json::to_string(&(&outcome, jcobs::ReadFault::Io, jcobs::AllocError)).unwrap();
    let same: (jcobs::FrameOutcome, jcobs::ReadFault, jcobs::AllocError) = serde_json::from_str(&text).unwrap();
    assert_eq!(same, (outcome, jcobs::ReadFault::Io, jcobs::AllocError));
    assert!(jcobs::DecodeError::HAS_FORMAT && jcobs::DestBufTooSmallError::HAS_FORMAT && jcobs::DecodeReport::HAS_FORMAT);
    assert!(jcobs::PushError::HAS_FORMAT && jcobs::ReadFault::HAS_FORMAT && jcobs::AllocError::HAS_FORMAT);
    assert!(jcobs::Next::HAS_FORMAT && jcobs::PieceEnd::HAS_FORMAT && jcobs::FrameKind::HAS_FORMAT && jcobs::FrameOutcome::HAS_FORMAT);
    let vec = heapless::Vec::<u8, 4>::new();
    println!("{:?}", jcobs::CobsDecoderHeapless::new_with_vec(vec).dest());
}
END2
    prints '[{"InvalidFrame":{"decoded_bytes":3}},null]
{"parsed_size":3,"frame_size":1}
[{"End":{"unfinished":true}},{"Message":2},"Longer"]
[0, 0, 0, 0]' cargo run -q
)

# Runs an example that is a separate package, because it needs other crates.
example() { # FOLDER PRINTED FLAG..
    folder=$1 printed=$2
    shift 2
    prints "$printed" cargo run -q "$@" --manifest-path "examples/$folder/Cargo.toml"
}

# A program replaces `cobs` by this crate, and depends on a crate that depends on `cobs`.
dependents() (
    mkdir -p "$work/dependent/src" "$work/patched/src" && cd "$work/patched" &&
        printf '[package]\nname = "dependent"\nedition = "2021"\n[dependencies]\ncobs = { version = "0.5", default-features = false }\n' \
            >../dependent/Cargo.toml &&
        echo '#![no_std] pub fn send(message: &[u8], to: &mut [u8]) -> usize { cobs::encode(message, to) }' >../dependent/src/lib.rs &&
        printf '[package]\nname = "patched"\nedition = "2021"\n[dependencies]\ndependent = { path = "../dependent" }\n' >Cargo.toml &&
        printf '[patch.crates-io]\ncobs = { path = "../tree/bindings/rust/as-cobs" }\n' >>Cargo.toml &&
        echo 'fn main() { let mut to = [0; 4]; dependent::send(b"hi", &mut to); println!("{to:?}"); }' >src/main.rs &&
        prints '[3, 104, 105, 0]' cargo run -q && cargo tree | grep -q 'jcobs v'
)

# Compiles the README's declarations of the library for C in a program, and links the program with the library.
by_extern() {
    sed -n '/^```rust,no_run$/,/^```$/p' README.md | sed -n '/^#\[repr(C)\]$/,/^```$/p' | sed '/^```$/d' >"$work/extern.rs" &&
        grep -q 'jcobs_encode' "$work/extern.rs" &&
        rustc --edition 2021 -D warnings -o "$work/extern" -L "native=$root/bindings/c/prebuilt/$(uname -m)-linux" "$work/extern.rs" &&
        prints '[3, 104, 105]' "$work/extern"
}

# Compares every call of the library for C with the call of this crate.
beside_c() {
    RUSTFLAGS="-L native=$root/bindings/c/prebuilt/$(uname -m)-linux" CARGO_TARGET_DIR=$work/beside_c \
        cargo run -q --release --manifest-path tests/beside_c/Cargo.toml >"$work/compared" && sed 's/^/= /' "$work/compared"
}

# The package that cargo makes is complete: its tests run in a folder without the rest of the repository.
packaged() (
    cargo package --no-verify --allow-dirty --target-dir "$work/package" && mkdir "$work/alone" &&
        tar -xzf "$work"/package/package/jcobs-*.crate -C "$work/alone" --strip-components 1 && cd "$work/alone" &&
        [ -f LICENSE-MIT ] && [ -f LICENSE-APACHE ] && [ -f CHANGELOG.md ] && cargo test --lib --tests
)

# src/proved allows this lint with all others. If the lint is forced, it can only warn.
oldest() {
    touch src/lib.rs && cargo clippy --features serde -- --force-warn clippy::incompatible_msrv 2>"$work/lint" &&
        ! grep -A 4 'current MSRV' "$work/lint"
}

part 'units, signatures, differences and cases' units
part 'every step, and every string of six tokens' cargo test --release --test steps
part 'every run, room and cut' cargo test --release --test model
part 'without an allocator' units --no-default-features --features fast
# Without the feature `fast`.
part 'byte by byte' units --no-default-features --features std
part 'byte by byte, without an allocator' units --no-default-features
part 'byte by byte, every step, run, room and cut' cargo test --release --test steps --test model --no-default-features
part 'serde, defmt and heapless' features
part 'a crate that depends on cobs' dependents
part 'an example over embedded-io' example embedded-io '4 frames' \
    --config "patch.crates-io.embedded-io.path = '$PWD/tests/stand_in/embedded-io'"
if ls -d /usr/share/cargo/registry/tokio-util-0.7* >/dev/null 2>&1; then
    part 'the codec for tokio' cargo test --features tokio-util --test codec
    part 'an example for tokio' example tokio '4 frames'
    part 'documentation, as docs.rs makes it' as_docs_rs
    part 'examples of all features' cargo test --doc --all-features
else
    skip 'the codec for tokio' "needs Debian's librust-tokio-util-dev"
fi
part 'examples of the documentation' cargo test --doc
part 'those without a feature' cargo test --doc --no-default-features
part 'documentation' documentation --features std,serde,heapless
part 'documentation without a feature' documentation --no-default-features
if [ -f "$root/bindings/c/prebuilt/$(uname -m)-linux/libjcobs.a" ]; then
    part 'the library for C, by the declarations of the README' by_extern
    part 'the library for C beside the crate' beside_c
else
    skip 'the library for C' "it isn't prebuilt for $(uname -m)"
fi
part 'the package, tested alone' packaged
if cargo fmt --version >/dev/null 2>&1; then
    part 'layout' cargo fmt --check
else
    skip 'layout' 'needs rustfmt'
fi
if cargo clippy --version >/dev/null 2>&1; then
    part 'clippy' cargo clippy --all-targets -- -D warnings
    part 'clippy, byte by byte' cargo clippy --no-default-features --features std -- -D warnings
    part 'nothing is newer than Rust 1.83' oldest
else
    skip 'clippy' 'needs clippy'
fi
if [ -n "${COBS_TESTS:-}" ]; then
    part 'tests of the crate cobs' ./upstream-tests.sh "$COBS_TESTS"
else
    skip 'tests of the crate cobs' 'needs them: COBS_TESTS names no folder'
fi
finish
