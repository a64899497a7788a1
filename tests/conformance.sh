#!/bin/sh
# Checks that the files of cases are those that the definition gives, that the cases notice wrong function bodies, and that plain
# code in Python and in C passes the cases that it must pass.
#
# usage: tests/conformance.sh
#
# The script needs python3 and a C compiler (cc, or CC). It ends within two minutes.
set -eu

top=$(cd "$(dirname "$0")/.." && pwd)
here=$top/conformance
work=$(mktemp -d)
trap 'rm -rf "$work"' EXIT
export PYTHONDONTWRITEBYTECODE=1

python3 "$here/generate.py" --check
cat "$here"/*.txt | python3 "$here/plain.py"
python3 "$here/wrong_bodies.py"

${CC:-cc} -std=c99 -O2 -Wall -Wextra -Wpedantic -Werror -o "$work/adapter" "$here/c/adapter.c" "$here/c/plain.c"
cat "$here"/*.txt | "$work/adapter"
