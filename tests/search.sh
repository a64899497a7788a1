#!/bin/sh
# Checks that the shipped library for C searches with memchr and copies slices: search.sh [ARCHIVE]
#
# The script needs a C compiler, gdb and nm, on x86-64. It prints a row for each call, message and length, with the number of
# searches and of copied slices. It fails if a call makes fewer of them than tests/search.c requires.
set -eu
cd "$(dirname "$0")/.."
archive=$(realpath "${1:-bindings/c/prebuilt/x86_64-linux/libjcobs.a}")
work=$(mktemp -d)
trap 'rm -rf "$work"' EXIT

cc -std=c11 -g -O1 -fno-builtin -no-pie -Wall -Wextra -Wl,--wrap=memcpy,--wrap=memmove -Ibindings/c/include \
    tests/search.c "$archive" -o "$work/search"
place=$(nm "$work/search" | sed -n 's/^\([0-9a-f]*\) t memchr::bytes::memchr$/0x\1/p')
[ -n "$place" ] || { echo "search.sh: the archive has no memchr" >&2; exit 1; }

cat >"$work/commands" <<COMMANDS
set pagination off
set confirm off
break *$place
commands
silent
set var searches = searches + 1
continue
end
run
quit \$_exitcode
COMMANDS
status=0
gdb -q -batch -nx -x "$work/commands" "$work/search" >"$work/said" 2>&1 || status=$?
grep -E '^(ok|FAILED)' "$work/said" || cat "$work/said"
passed=$(grep -c '^ok' "$work/said" || true)
failed=$(grep -c '^FAILED' "$work/said" || true)
echo "$passed passed, $failed failed"
[ "$status" -eq 0 ] && [ "$passed" -gt 0 ]
