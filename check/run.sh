#!/bin/sh
# Checks the library with public tools, without the Rattle toolchain. README.md says what each part shows.
#
# usage: check/run.sh [--short]
#
# With --short, Frama-C leaves out the functions that take many bytes, which need most of its time.
#
# Prints a line for each part: 'ok', 'FAILED' with what it said, or 'skipped' with what it needs. The last line counts them;
# the status is 0 only if nothing failed. Nothing is written into the repository.
#
# The functions are called by 'part'. Some words are meant to be split: flags, and the command that runs a program which was
# built for another processor.
# shellcheck disable=SC2086,SC2317
set -u
short=
if [ "${1:-}" = --short ]; then short=--short; fi
root=$(cd "$(dirname "$0")/.." && pwd)
# shellcheck source=SCRIPTDIR/../tests/count.sh
. "$root/tests/count.sh"
c=$root/bindings/c
machine=$(uname -m)
run=

# The calls of a library, compared with the format: its sources or archives come last.
steps() { # COMPILER WORD..
    "$@" -std=c99 -Wall -Wextra -Wpedantic -Wconversion -Wshadow -Werror -I"$c/include" -o "$work/steps" "$root/check/steps.c" \
        $library && $run "$work/steps"
}

# The same, built for another processor and run in QEMU.
steps_on() { # PROCESSOR PREFIX C-LIBRARY DEPTH
    name="steps of ${library##*/} on $1"
    if has "$2-gcc" "gcc-$2" "$name" && has "$("$2-gcc" -print-file-name=crti.o)" "$3" "$name" &&
        has "qemu-${1%% *}" qemu-user "$name"; then
        run="qemu-${1%% *} -L /usr/$2"
        part "$name" steps "$2-gcc" -O2 "-DDEPTH=$4"
        run=
    fi
}

# Each theorem in check/coq is one that Headline.v prints, and has no axiom below it.
theorems() (
    mkdir "$work/coq" && cp "$root"/check/coq/*.v "$work/coq" && cd "$work/coq" || exit 1
    for file in Definitions Frames Coders Buffers; do
        coqc -q -Q . Check $file.v || exit 1
    done
    coqc -q -Q . Check Headline.v >closed || exit 1
    sed -n 's/^Theorem \([a-z_]*\) .*/\1/p' ./*.v | sort >stated
    sed -n 's/^Print Assumptions \([a-z_]*\)\.$/\1/p' Headline.v | sort | diff stated - || exit 1
    grep -v '^Closed under the global context$' closed && exit 1
    [ "$(wc -l <closed)" -eq "$(wc -l <stated)" ] && echo "= $(wc -l <stated) theorems without an axiom"
)

# The functions of words.acsl are those of Buffers.v.
words() (
    cd "$work/coq" && "$root/check/frama-c/acsl.py" >Words.v && coqc -q -Q . Check Words.v
)

# The same functions, and those of steps.c that say what is right.
steps_by_words() {
    "$root/check/frama-c/acsl.py" --c >"$work/words.h" &&
        "$cc" -std=c99 -Wall -Wextra -Wpedantic -Wconversion -Wshadow -Werror -I"$work" -I"$c/include" -o "$work/words" \
            "$root/check/words.c" "$c/source/jcobs.c" && "$work/words"
}

cc=${CC:-cc}
library=$c/source/jcobs.c
if has "$cc" gcc 'steps.c'; then
    part 'steps of jcobs.c' steps "$cc" -O2
    part 'steps of jcobs.c with JCOBS_FAST' steps "$cc" -O2 -DJCOBS_FAST
    part 'steps of jcobs.c, with sanitizers' steps "$cc" -O1 -g -fsanitize=address,undefined -fno-sanitize-recover=all \
        -DMARGIN=0 -DDEPTH=3
    library=$c/prebuilt/$machine-linux/libjcobs.a
    if [ -f "$library" ]; then
        part "steps of libjcobs.a" steps "$cc" -O2
    else
        skip 'steps of libjcobs.a' "it isn't built for $machine"
    fi
fi
if has "$cc" gcc 'words.c' && has python3 python3 'words.c'; then
    part 'the steps in steps.c are those of words.acsl' steps_by_words
fi
if has python3 python3 'the definitions in Coq'; then
    part 'the definitions in Coq are those of specs/' "$root/check/coq/compare.py"
fi
if has coqc coq 'the theorems in Coq'; then
    part 'the theorems in Coq' theorems && has python3 python3 'the functions of words.acsl' &&
        part 'the functions of words.acsl are those in Coq' words
fi
name='the contracts of jcobs.c in Frama-C'
if has python3 python3 "$name" && has frama-c frama-c-base "$name" && has why3 why3 "$name" && has z3 z3 "$name" &&
    has cvc4 cvc4 "$name"; then
    part "$name" "$root/check/frama-c/prove.py" $short
fi
library=$c/source/jcobs.c
steps_on 's390x (64 bits, big-endian)' s390x-linux-gnu libc6-dev-s390x-cross 3
steps_on 'ppc (32 bits, big-endian)' powerpc-linux-gnu libc6-dev-powerpc-cross 3
if [ "$machine" != aarch64 ]; then
    library=$c/prebuilt/aarch64-linux/libjcobs.a
    steps_on aarch64 aarch64-linux-gnu libc6-dev-arm64-cross 3
fi
finish
