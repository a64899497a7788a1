#!/bin/sh
# Compiles the examples of the documents, as C99 by cc and as C++17 by c++, with warnings as errors: examples.sh FILE..
#
# In a header, an example is the lines of a comment that are indented by four columns. In a README it is a block of ```c or ```cpp;
# a block of ```cpp is compiled only as C++. In a manual page it is the text between .nf and .fi after EXAMPLES. Each example is
# put into a function, together with definitions of the names that the example uses without defining them.
set -eu
c=$(cd "$(dirname "$0")/.." && pwd)
work=$(mktemp -d)
trap 'rm -rf "$work"' EXIT
flags='-O2 -Wall -Wextra -Wpedantic -Wconversion -Wshadow -Wno-unused-variable -Werror'
count=0

cut_out() { # FILE: writes the blocks as files in $work
    awk -v to="$work/block" '
        function begin(language) { file = to "." ++n "." language; printf "" >file }
        FILENAME ~ /\.(h|hpp)$/ {
            language = FILENAME ~ /hpp$/ ? "cpp" : "c"
            if (/^( \*|\/\/)$/) { if (inside) print "" >file; empty = 1; next }
            if ((inside || empty) && sub(/^( \*|\/\/)     /, "")) { if (!inside) begin(language); inside = 1; print >file }
            else inside = 0
            empty = 0
            next
        }
        FILENAME ~ /\.md$/ {
            if (/^```(c|cpp)$/) { begin(substr($0, 4)); inside = 1 }
            else if (/^```/) inside = 0
            else if (inside) print >file
            next
        }
        /^\.SH/ { examples = /EXAMPLES/; next }
        examples && /^\.nf/ { begin("c"); inside = 1; next }
        /^\.fi/ { inside = 0; next }
        inside { gsub(/\\-/, "-"); gsub(/\\e/, "\\"); print >file }
    ' "$1"
}

wrapped() { # BLOCK
    cat <<END
#define _POSIX_C_SOURCE 200809L
#include <jcobs.h>
#ifdef __cplusplus
#if __has_include(<jcobs.hpp>)
#include <jcobs.hpp>
#endif
#endif
#include <string.h>
#include <unistd.h>
int next_byte(void);
void handle(const void *bytes, size_t length);
void complain(unsigned int status);
void transmit(const void *bytes, size_t length);
void example(int fd, const char *text);
void example(int fd, const char *text)
{
    (void)fd;
    (void)text;
END
    cat "$1"
    echo '}'
}

for document; do
    rm -f "$work"/block.*
    cut_out "$document"
    for block in "$work"/block.*; do
        [ -e "$block" ] || { echo "no example in $document"; exit 1; }
        wrapped "$block" >"$work/example.${block##*.}"
        # shellcheck disable=SC2086 # the flags are words
        {
            [ "${block##*.}" = cpp ] || ${CC:-cc} -std=c99 $flags -I"$c/include" -c "$work/example.c" -o "$work/example.o"
            ${CXX:-c++} -std=c++17 $flags -I"$c/include" -x c++ -c "$work/example.${block##*.}" -o "$work/example.o"
        }
        count=$((count + 1))
    done
done
echo "$count examples compiled"
