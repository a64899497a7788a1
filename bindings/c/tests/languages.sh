# Compiles jcobs.h, jcobs.hpp and jcobs.c with several compilers, standards and options. run.sh sources this file.
#
# run.sh defines $work, $at, $flags and $machine.
# shellcheck shell=sh
# shellcheck disable=SC2086,SC2154

# With short enums a status still has the size of unsigned int: jcobs.c compiles, and a program may use a library that was built
# with long enums.
short_enums() {
    printf '#include <jcobs.h>\nchar is_short[sizeof(jcobs_status) == 1 ? 1 : -1];\nchar is_long[sizeof(jcobs_answer) == 3 * sizeof(size_t) ? 1 : -1];\n' \
        >"$work/short.c"
    for compiler in gcc clang; do
        command -v $compiler >/dev/null || continue
        for standard in c90 c99 c11; do
            $compiler -std=$standard -fshort-enums $flags -Iinclude -c "$work/short.c" -o "$work/short.o" || return 1
        done
        $compiler -std=c99 -fshort-enums $flags -Iinclude tests/calls.c "$at/libjcobs.a" -o "$work/short" && "$work/short" || return 1
        $compiler -std=c99 -fshort-enums $flags -Iinclude -c source/jcobs.c -o "$work/short.o" || return 1
    done
    for standard in c++98 c++11 c++17; do
        "${CXX:-c++}" "-std=$standard" -fshort-enums $flags -Iinclude -x c++ -c source/jcobs.c -o "$work/short.o" || return 1
    done
}

# On these targets enums are short by default, or by the options of common tools.
short_enums_on_devices() {
    command -v avr-gcc >/dev/null && { avr-gcc -mmcu=atmega328p -std=c99 -Os -fpack-struct -fshort-enums -ffreestanding $flags \
        -Iinclude -c source/jcobs.c -o "$work/short.o" || return 1; }
    command -v clang >/dev/null || return 0
    printf 'typedef __SIZE_TYPE__ size_t;\n#define NULL ((void *)0)\n' >"$work/stddef.h"
    clang --target=hexagon -std=c99 -Os -ffreestanding $flags -Iinclude -I"$work" -c source/jcobs.c -o "$work/short.o"
}

# Compiles jcobs.c in one translation unit with the program, with static calls: no call is exported, and the tests pass. If the
# calls are inline, the compiler doesn't warn of a call that isn't made.
one_unit() {
    printf '#define JCOBS_API %s\n#include "%s/source/jcobs.c"\n#include "%s/tests/calls.c"\n' "$1" "$PWD" "$PWD" >"$work/unit.c"
    shift
    "${CC:-cc}" -std=c99 -O2 $flags "$@" -Iinclude "$work/unit.c" -o "$work/unit" && "$work/unit" || return 1
    ! nm "$work/unit" | grep ' T jcobs_'
}

# A program that makes no call compiles without warnings.
no_calls() {
    printf '#define JCOBS_API static inline\n#include "%s/source/jcobs.c"\nint main(void) { return 0; }\n' "$PWD" >"$work/unit.c"
    for compiler in gcc clang; do
        command -v $compiler >/dev/null || continue
        for level in -O0 -O2; do
            $compiler -std=c99 $level $flags -Iinclude -c "$work/unit.c" -o "$work/unit.o" || return 1
        done
    done
}

# In a shared library JCOBS_API decides whether the calls are exported or hidden.
exported() { # JCOBS_API FLAG..: prints the calls that the library exports
    api=$1
    shift
    "${CC:-cc}" -std=c99 -O2 -fPIC -shared $flags "-DJCOBS_API=$api" "$@" -Iinclude source/jcobs.c -o "$work/exporting.so" || return 1
    nm -D --defined-only "$work/exporting.so" | sed 's/.* T //' | sort
}

exports() {
    exported '' >"$work/exported" && prints "$(calls | sort)" cat "$work/exported" || return 1
    exported '__attribute__((visibility("hidden")))' >"$work/exported" && ! test -s "$work/exported" || return 1
    exported '__attribute__((visibility("default")))' -fvisibility=hidden >"$work/exported" &&
        prints "$(calls | sort)" cat "$work/exported"
}

# Runs the test of jcobs.hpp with each compiler and standard that supports it.
cpp_standards() {
    for compiler in g++ clang++; do
        command -v $compiler >/dev/null || continue
        for standard in c++17 c++20 c++2b; do
            $compiler "-std=$standard" -fno-exceptions -O1 $flags -Wshadow -Iinclude tests/cpp.cpp "$at/libjcobs.a" -o "$work/cpp" &&
                "$work/cpp" || return 1
        done
    done
}

# Tests receivers that a vector moves, with sanitizers, which would find an access to a freed buffer.
moved() {
    "${CXX:-c++}" -std=c++17 -g $flags -fsanitize=address,undefined -fno-sanitize-recover=all -Iinclude tests/moved.cpp \
        "$at/libjcobs.a" -o "$work/moved" && "$work/moved"
}

compiles_cpp() { # COMPILER STATEMENTS FLAG..
    compiler=$1
    statements=$2
    shift 2
    {
        printf '#include <jcobs.hpp>\n#include <string>\n#include <vector>\n'
        printf 'std::vector<unsigned char> made();\nstd::string text();\nvoid use(std::vector<unsigned char> &kept);\n'
        printf 'void use(std::vector<unsigned char> &kept)\n{\n    (void)kept;\n    %s\n}\n' "$statements"
    } >"$work/statements.cpp"
    $compiler -std=c++17 "$@" -Iinclude -fsyntax-only "$work/statements.cpp" 2>"$work/said.compiler"
}

# Each wrong use is an error that names the deleted function, and the corresponding right use is no error.
refused() {
    for compiler in g++ clang++; do
        command -v $compiler >/dev/null || continue
        compiles_cpp $compiler 'jcobs::buffer b(kept); jcobs::receiver r(kept); jcobs::sender s(b); (void)jcobs::encode(text(), kept);' ||
            { cat "$work/said.compiler"; return 1; }
        while read -r statement; do
            if compiles_cpp $compiler "$statement" || ! grep -q 'deleted' "$work/said.compiler"; then
                echo "$compiler: $statement"
                cat "$work/said.compiler"
                return 1
            fi
        done <<'END'
jcobs::buffer b(made());
jcobs::buffer b = made();
jcobs::buffer b{std::array<unsigned char, 9>{}};
jcobs::receiver r(made());
jcobs::receiver r{jcobs::buffer(made())};
jcobs::receiver r(made(), 7);
jcobs::sender s(made());
jcobs::sender s(jcobs::buffer{made()});
(void)jcobs::encode(kept, made());
(void)jcobs::decode_in_place(made());
jcobs::receiver r(kept); jcobs::receiver copy(r);
jcobs::sender s(kept); jcobs::sender copy(s);
END
    done
    # Clang warns if a view outlives a temporary object.
    command -v clang++ >/dev/null || return 0
    compiles_cpp clang++ 'jcobs::view v(kept); (void)v; (void)jcobs::frame_kind(text());' -Wall -Wextra -Werror || return 1
    ! compiles_cpp clang++ 'jcobs::view v = text(); (void)v;' -Wall -Wextra -Werror && grep -q 'Wdangling' "$work/said.compiler"
}

# Runs translate.py on a crate with this body of jcobs_max_length. translate.py only reports, and writes no file.
translated() { # BODY
    mkdir -p "$work/crates/cobs_c/src"
    cat >"$work/crates/cobs_c/src/lib.rt" <<END
/// Returns a number.
#[unsafe(no_mangle)]
pub extern "C" fn jcobs_max_length(message_len: usize) -> usize
    ensures fits { max_encoded_len message_len < 2 ^ 64 → result ≡ max_encoded_len message_len }
{
    $1
}
END
    python3 source/translate.py --check "$work/crates" 2>&1
}

# A form that translate.py doesn't know, or that could have another meaning in C, is an error.
translator_refuses() {
    translated 'message_len / 250' | grep -q "isn't what" || { translated 'message_len / 250'; return 1; }
    while read -r body; do
        translated "$body" | grep -q '^translate.py: unknown: ' || { echo "$body"; translated "$body"; return 1; }
    done <<'END'
message_len / 32768
message_len.pow(2)
message_len.isqrt().min(7)
let next = |n| n + 1; next(message_len)
'outer: loop { loop { break 'outer; } } message_len
loop { let mut message_len = message_len; message_len += 1; return message_len; }
if message_len > 7 { let n = 1; { let n = 2; } } message_len
while let Some(n) = next(message_len) { return n; } 0
match message_len { 0 => 1, n if n > 7 => 2, _ => 3 }
let (a, b) = pair(message_len); a
message_len as f32
unsafe { message_len }
other(message_len)
message_len?
END
}
