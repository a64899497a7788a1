#!/bin/sh
# Tests cobs_watch as people run it: over pseudo-terminals, pipes and files, with each option, and with much data.
# WATCH is the path of a built program to test.
set -eu
cd "$(dirname "$0")/.."
rt=$(command -v rt || echo /opt/rattle/bin/rt)
room=$(mktemp -d)
trap 'rm -rf "$room"' EXIT

# The program, proved and built; nothing is proved anew if nothing has changed.
watch=${WATCH:-}
if [ -z "$watch" ]; then
    (cd crates/cobs_watch && "$rt" run < stdin > "$room/first" 2> "$room/log") || { cat "$room/log"; exit 1; }
    cmp "$room/first" crates/cobs_watch/stdout
    watch=$PWD/crates/cobs_watch/out/cobs_watch
fi

# Over what is prebuilt too, if that is another program.
prebuilt=bindings/programs/$(uname -m)-linux/cobs_watch
for each in "$watch" "$prebuilt"; do
    if [ "$each" = "$prebuilt" ] && { [ ! -e "$prebuilt" ] || cmp -s "$watch" "$prebuilt"; }; then continue; fi
    python3 tests/watch/drive.py "$each"
    python3 tests/watch/line.py "$each"
    python3 tests/watch/recipes.py "$each"
done
python3 tests/watch/installed.py "$watch"

cc -O2 -Wall -Wextra -Werror -o "$room/plain" tests/watch/plain.c
python3 tests/watch/speed.py "$watch" "$room/plain"
