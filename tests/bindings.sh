#!/bin/sh
# Builds and tests the bindings. For each folder of bindings/ the script runs tests/run.sh, whose last line counts the parts that
# passed, failed, and were skipped because a tool is missing. Then it runs the commands of the READMEs (those of the bindings and
# the one at the top) in a copy of the repository, without the toolchain. The last line is the sum of all counts. The status is 0
# only if nothing failed.
set -u
root=$(cd "$(dirname "$0")/.." && pwd)
# shellcheck source=SCRIPTDIR/count.sh
. "$root/tests/count.sh"

counted() { # NAME COMMAND..
    name=$1
    shift
    echo "== $name"
    "$@" | tee "$work/said"
    counts=$(sed -n '$s/^\([0-9]*\) passed, \([0-9]*\) failed\(, \([0-9]*\) skipped\)*$/\1 \2 \4/p' "$work/said")
    if [ -z "$counts" ]; then
        echo "FAILED: $name ended with no count"
        failed=$((failed + 1))
        return
    fi
    # shellcheck disable=SC2086
    set -- $counts
    passed=$((passed + $1))
    failed=$((failed + $2))
    skipped=$((skipped + ${3:-0}))
}

for run in "$root"/bindings/*/tests/run.sh; do
    counted "bindings/$(basename "$(dirname "$(dirname "$run")")")" "$run"
done
counted 'the commands of the READMEs' "$root/tests/readme.sh" bindings/c/README.md bindings/c/examples/firmware/README.md bindings/rust/README.md \
    bindings/python/README.md bindings/web/README.md README.md docs/PROGRAMS.md
finish
