#!/bin/sh
# Measures speed and size of what this repository ships, on each target, beside other code.
#
#     bench/run.sh [--crate FOLDER] [--old REVISION] [--write] [TARGET..]
#
# --crate FOLDER:   the sources of the crate `cobs` 0.5.1, as cargo downloads them. Without them the Rust crate has no rival.
# --old REVISION:   compares with another revision of this repository, not with other code.
# --write:          puts the tables of these targets into results/speed.md and results/size.md.
# TARGET..:         x86-64, x86-64-counted (instructions), Cortex-M4 .. as in measure.py. Without one, each whose tools are there.
#
# RUSTC names the compiler of Rust, and RUST_SRC its folder `library`, from which `core` is built where the compiler has none. What
# else is needed is named where it is missing.
#
# A table has a line for each call, and one for its messages without zeros: what the call takes for a message of so many bytes, or
# how many times as fast it is as other code. These are geometric means over the kinds of messages of messages.py; "least" is the
# worst single kind and length. Two minutes for a target on a machine with other load.
set -eu
exec python3 -B "$(dirname "$0")/measure.py" "$@"
