#!/bin/sh
# Makes memory allocations fail, one after another, and checks that each call then returns the error for missing memory, and
# otherwise returns its value.
#
# usage: tests/fail-alloc.sh [--rounds N] [FIRST]
#
# The script runs two files of tests again and again, without proofs: crates/cobs_vectors/src/memory.rt and
# crates/cobs_tool/src/memory_limits.rt. In round N, the Nth request for more memory that a test makes fails.
#
# In the first file each call has a separate test, which knows whether a request of the call failed. If a request failed and the
# call reported that, the test ends with the words "out of memory". If no request failed, the test passes. If the call returned
# something else, the test ends with other words. The rounds end when every test passes.
#
# In the second file all tests except the last must pass in each round. The last test runs every mode of the program and expects its
# output, so it fails as long as one of its requests fails. This test doesn't see a failed request that had no effect. So the
# rounds end when the test has passed in three rounds, and the test must not fail after a round in which it passed.
#
# With --rounds, each file gets at most N rounds, from the first request on or from request FIRST on. A round takes about a quarter
# of a minute. The gate runs four rounds of each file, which is enough for every test of the first file to pass.
set -u

PATH=/opt/rattle/bin:$PATH
rounds=
if [ "${1-}" = --rounds ]; then
    rounds=${2-}
    case $rounds in
        '' | *[!0-9]* | 0)
            echo 'usage: tests/fail-alloc.sh [--rounds N] [FIRST]' >&2
            exit 2
            ;;
    esac
    shift 2
fi
first=${1:-1}
last=$((first + ${rounds:-1000} - 1))
top=$(cd "$(dirname "$0")/.." && pwd)
work=$(mktemp -d)
trap 'rm -rf "$work"' EXIT
git init -q "$work"

# copy CRATE MODULES: the crate, of whose test modules only these are kept ('|' between them)
copy() {
    mkdir -p "$work/crates/$1"
    for kind in src specs proofs; do
        [ -d "$top/crates/$1/$kind" ] && cp -r "$top/crates/$1/$kind" "$work/crates/$1"
    done
    for root in lib main; do
        from=$top/crates/$1/src/$root.rt
        [ -f "$from" ] && awk -v kept="^mod ($2);\$" \
            '/^#\[cfg\(test\)\]$/ { getline item; if (item ~ kept) { print; print item } next } { print }' \
            "$from" > "$work/crates/$1/src/$root.rt"
    done
    # no module names these files and their proofs any more
    for file in "$work/crates/$1/src"/*.rt; do
        name=$(basename "$file" .rt)
        case $name in lib | main) continue ;; esac
        grep -q -E "^(pub )?mod $name;" "$work/crates/$1/src"/lib.rt "$work/crates/$1/src"/main.rt 2> /dev/null ||
            rm -rf "$file" "$work/crates/$1/proofs/$name"
    done
    grep -E "^$1( [a-z_]+=[^ :]+)*:" "$top/crates.txt" >> "$work/crates.txt"
}

# `fail_growths CRATE PASSES LAST`: round after round until no test failed in PASSES of them one after another, or until
# there were as many as were asked for. Only tests that are out of memory, and the one named LAST, may fail.
fail_growths() {
    cd "$work/crates/$1" || exit 2
    round=$first
    passes=0
    while [ "$round" -le "$last" ]; do
        rt try --test --seconds 900 --fail-alloc "$round" > "$work/log" 2>&1
        if ! grep -q '^test result: ' "$work/log"; then
            cat "$work/log"
            echo "$1, round $round: the tests did not run"
            exit 2
        fi
        if ! awk -v last="$3" '/^test .* \.\.\. FAILED$/ { name = $2; getline; if ($0 != "    out of memory" && name != last) other = 1 }
            END { exit other }' "$work/log"; then
            cat "$work/log"
            echo "$1, round $round: a call returned something else"
            exit 1
        fi
        failed=$(grep -c '^test .* \.\.\. FAILED$' "$work/log")
        if [ "$failed" -gt 0 ] && [ "$passes" -gt 0 ]; then
            cat "$work/log"
            echo "$1, round $((round - 1)): a growth failed, and nothing came of it"
            exit 1
        elif [ "$failed" -gt 0 ]; then
            echo "$1, round $round: a growth failed in $failed of the tests, and was reported as out of memory"
        else
            passes=$((passes + 1))
            echo "$1, round $round: no growth failed"
            [ "$passes" -ge "$2" ] && return
        fi
        round=$((round + 1))
    done
    [ -n "$rounds" ] && return
    echo "$1: a growth failed in every round"
    exit 1
}

copy cobs ''
copy cobs_lines ''
copy cobs_vectors 'bytes|memory|messages|reference|slices'
copy cobs_tool 'memory_limits'
failing='ONE_GROWTH_FAILS: bool ='
sed -i "s/^const $failing false;$/const $failing true;/" "$work/crates/cobs_vectors/src/memory.rt"
if ! grep -q "^const $failing true;$" "$work/crates/cobs_vectors/src/memory.rt"; then
    echo "crates/cobs_vectors/src/memory.rt has no line 'const $failing false;'"
    exit 2
fi
fail_growths cobs_vectors 1 ''
fail_growths cobs_tool 3 memory_limits::with_enough_memory_every_mode_writes_its_output
