#!/bin/sh
# Builds the library for C, its examples and its tests, and runs them.
#
# Prints a line for each part: 'ok', 'FAILED' with the output, or 'skipped' with the missing Debian packages. The last line
# counts the parts; the status is 0 only if no part failed.
#
# Some words are meant to be split: flags, and the command that runs programs for another processor. Some commands are for
# another shell. shellcheck disable=SC2016,SC2046,SC2086,SC2094
set -u
c=$(cd "$(dirname "$0")/.." && pwd)
cd "$c" || exit 1
# shellcheck source=SCRIPTDIR/../../../tests/count.sh
. ../../tests/count.sh
# shellcheck source=SCRIPTDIR/languages.sh
. tests/languages.sh
# shellcheck source=SCRIPTDIR/builds.sh
. tests/builds.sh
# shellcheck source=SCRIPTDIR/archive.sh
. tests/archive.sh
machine=$(uname -m)
here=build/$machine-unknown-linux-gnu
flags='-Wall -Wextra -Wpedantic -Wconversion -Werror'

# Checks whether a compiler has a C library to link with. A compiler can be installed without one.
links() { # COMPILER PACKAGE PART
    has "$("$1" -print-file-name=crti.o)" "$2" "$3"
}

header() { # COMPILER LANGUAGE STANDARD..: the header alone, and twice
    compiler=$1
    language=$2
    shift 2
    printf '#include <jcobs.h>\n#include <jcobs.h>\n' >"$work/header.$language"
    for standard; do
        # A compiler from before C23 knows this standard by its working name.
        if [ "$standard" = c23 ] && ! "$compiler" -std=c23 -E -x c /dev/null >/dev/null 2>&1; then
            standard=c2x
        fi
        "$compiler" "-std=$standard" $flags -Iinclude -c "$work/header.$language" -o "$work/header.o" || return 1
    done
}

# A stream with each kind of piece, and the output of a reader with room for 8 bytes.
stream() {
    printf '\006hello\000\000\001\000\005\001\000\014hello world\000\003hi\000\004x'
}
answers='message 5 68656c6c6f
message 0
broken 1
too long
message 2 6869
unfinished'

reads() { # CHUNK
    stream | prints "$answers" $run "$at/read_frames" "$1" 8
}

# The same stream from a writer that pauses inside frames.
reads_slowly() {
    { printf '\006hel'; sleep 0.2; printf 'lo\000\000\001\000\005\001\000\014hello wo'; sleep 0.2
      printf 'rld\000\003hi\000'; sleep 0.2; printf '\004x'; } | prints "$answers" $run "$at/read_frames" 4096 8
}

sends() {
    printf 'hello\n\nx' | $run "$at/send_lines" >"$work/sent" || return 1
    prints '06 68 65 6c 6c 6f 00 01 00 02 78 00' sh -c "od -An -v -tx1 '$work/sent' | tr -s ' \\n' ' ' | sed 's/^ //; s/ \$//'; echo"
}

# Lines of every length near the end of a block are sent and read.
sends_and_reads() {
    awk 'BEGIN { for (n = 0; n < 600; n += n > 240 && n < 260 || n > 500 && n < 515 ? 1 : 23) { s = ""; for (i = 0; i < n; i++) s = s "a"; print s } }' >"$work/lines"
    $run "$at/send_lines" <"$work/lines" | $run "$at/read_frames" 100 | sed 's/^message [0-9]* *//; s/61/a/g' | diff "$work/lines" -
}

messages() {
    prints 'message 5: 68 65 6c 6c 6f
message 0:
message 3: 61 00 62
error: the buffer is too small
first message: 5 bytes
of nothing: no message' $run "$at/messages"
}

# The functions that the header declares.
calls() {
    sed -n 's/^JCOBS_API .* \**\(jcobs_[a-z_0-9]*\)(.*/\1/p' include/jcobs.h
}

symbols() {
    prints "$(calls | sort)" \
        sh -c "nm -D --defined-only $at/libjcobs.so | sed 's/.* T //' | sort" || return 1
    # The library calls only these two functions.
    ! nm -u "$at/libjcobs.a" | sed -n 's/.* U //p' | sort -u | grep -v -x -e memcpy -e memmove
}

# The header, the Makefile, the manual and the Rust crate have the same version.
versions() {
    version=$(make -s --no-print-directory version)
    prints "$version" sh -c "sed -n 's/^#define JCOBS_VERSION_[MP][A-Z]* //p' include/jcobs.h | paste -sd." &&
        grep -q "^.TH .*\"jcobs $version\"" man/jcobs.3 &&
        grep -q "^version = \"$version\"" ../rust/Cargo.toml &&
        grep -q "^set(PACKAGE_VERSION $version)" cmake/jcobs-config-version.cmake
}

shared() {
    "${CC:-cc}" -std=c99 -Iinclude tests/calls.c -L"$at" -ljcobs -o "$work/calls" &&
        LD_LIBRARY_PATH=$at "$work/calls"
}

# On an x86-64 processor without SSE4.2 the loader reports that it doesn't load the shared library. On a processor with SSE4.2
# it loads the library.
old_processor() {
    shared || return 1
    if LD_LIBRARY_PATH=$at qemu-x86_64 -cpu core2duo "$work/calls" 2>"$work/loader"; then
        echo "it runs without SSE4.2"
        return 1
    fi
    cat "$work/loader"
    grep -q 'libjcobs.*CPU ISA level is lower than required' "$work/loader" &&
        LD_LIBRARY_PATH=$at qemu-x86_64 -cpu Nehalem "$work/calls"
}

# Links an example statically and dynamically with the library that pkg-config finds in a prefix, and runs it without other
# settings.
over() { # PREFIX
    PKG_CONFIG_LIBDIR=$1/lib/pkgconfig
    export PKG_CONFIG_LIBDIR
    cflags=$(pkg-config --cflags jcobs)
    source=$1/share/doc/jcobs/examples/send_lines.c
    "${CC:-cc}" "$source" $cflags $(pkg-config --variable=archive jcobs) -o "$work/static" &&
        "${CC:-cc}" "$source" $cflags $(pkg-config --libs jcobs) $(pkg-config --variable=runpath jcobs) -o "$work/shared" || return 1
    for program in static shared; do
        prints ' 03 68 69 00' sh -c "echo hi | env -u LD_LIBRARY_PATH '$work/$program' | od -An -tx1" || return 1
    done
    ! readelf -d "$work/static" | grep libjcobs && readelf -d "$work/shared" | grep -q 'NEEDED.*libjcobs.so.1'
}

private_prefix() (
    make install "PREFIX=$work/prefix" && over "$work/prefix"
)

# Installs to an empty /usr/local in a separate file system, so that nothing on this machine changes.
usr_local() (
    export work at
    unshare -rm sh -c 'mount -t tmpfs none /usr/local && make -o "$at/libjcobs.a" install &&
        cd "$work" && PKG_CONFIG_LIBDIR=/usr/local/lib/pkgconfig &&
        export PKG_CONFIG_LIBDIR && cc /usr/local/share/doc/jcobs/examples/send_lines.c \
        $(pkg-config --cflags --libs jcobs) $(pkg-config --variable=runpath jcobs) -o shared && echo hi | env -u LD_LIBRARY_PATH ./shared >sent' &&
        prints ' 03 68 69 00' od -An -tx1 "$work/sent"
)

# jcobs.hpp needs neither exceptions nor an allocator: the object of its test calls no function for them.
no_allocator() {
    "${CXX:-c++}" -std=c++17 -fno-exceptions -fno-rtti -O2 -Iinclude -c tests/cpp.cpp -o "$work/cpp.o" &&
        ! nm -uC "$work/cpp.o" | grep -E 'operator (new|delete)|malloc|throw|__cxa'
}

throws() {
    "${CXX:-c++}" -std=c++17 $flags -Iinclude tests/throws.cpp "$at/libjcobs.a" -o "$work/throws" && "$work/throws"
}

# A switch without one of the statuses causes a warning, and a switch with all statuses causes none.
switches() {
    cases='case JCOBS_OK: case JCOBS_MORE: case JCOBS_TOO_SMALL: case JCOBS_BROKEN:'
    for compiler in "${CC:-cc} -x c" "${CXX:-c++} -x c++"; do
        printf '#include <jcobs.h>\nint f(jcobs_answer a);\nint f(jcobs_answer a) { switch (a.status) { %s return 1; } return 0; }\n' \
            "$cases" >"$work/some"
        sed 's/case JCOBS_OK:/& case JCOBS_EMPTY:/' "$work/some" >"$work/all"
        $compiler $flags -Iinclude -c "$work/all" -o "$work/switch.o" || return 1
        ! $compiler $flags -Iinclude -c "$work/some" -o "$work/switch.o" 2>"$work/warned" && grep -q "JCOBS_EMPTY.*switch" "$work/warned" || return 1
    done
}

# In a package for /usr no file has a run path, and each link of the README leads to a file.
packed() (
    make install "DESTDIR=$work/root" PREFIX=/usr && ! grep '^Libs.*rpath' "$work/root/usr/lib/pkgconfig/jcobs.pc" || return 1
    cd "$work/root/usr/share/doc/jcobs" && sed -n 's/.*](\([^) ]*\)).*/\1/p' README.md >"$work/links" && test -s "$work/links" &&
        while read -r link; do test -e "$link" || { echo "$link"; return 1; }; done <"$work/links"
)

# Runs the commands of an installed README unchanged, in a folder that has a program.c.
commands_of() ( # README FOLDER
    mkdir -p "$2" && cp examples/send_lines.c "$2/program.c" && cd "$2" || return 1
    awk '/^```/ { inside = $0 == "```sh"; next } inside' "$1" >"$work/commands" && test -s "$work/commands" || return 1
    sh -eux "$work/commands" >"$work/printed" && cat "$work/printed" && grep -q '^message 5 68656c6c6f$' "$work/printed"
)

# Two builds of the tarball have the same bytes. If the tarball is unpacked elsewhere, its pkg-config file finds the other
# files.
unpacked() (
    tarball=$(make -s --no-print-directory dist) || return 1
    cp "$tarball" "$work/first.tar.gz" && touch include/jcobs.h README.md || return 1
    make -s --no-print-directory dist && cmp "$tarball" "$work/first.tar.gz" || return 1
    tar -C "$work" -xzf "$tarball" || return 1
    root=$(echo "$work"/jcobs-*-linux)
    test -f "$root/share/man/man3/jcobs.3" && over "$root"
)

over_musl() {
    musl-gcc -static -Iinclude examples/send_lines.c "prebuilt/$machine-linux/libjcobs.a" -o "$work/musl" &&
        prints ' 03 68 69 00' sh -c "echo hi | '$work/musl' | od -An -tx1"
}

sums() (
    cd prebuilt && sha256sum -c SHA256SUMS
)

# The manual page has no errors and names every call. The installed page of each call is this page.
manual() (
    man --warnings -E UTF-8 -l -Tutf8 man/jcobs.3 2>&1 >/dev/null | grep . && return 1
    make install "PREFIX=$work/manual" >/dev/null || return 1
    for call in $(calls); do
        MANPATH=$work/manual/share/man man -E UTF-8 -Tutf8 "$call" 2>&1 | sed "s/.$(printf '\b')//g" >"$work/page"
        grep -q "${call%_with_sentinel}" "$work/page" || { echo "no page for $call"; return 1; }
    done
)

# Compiles only jcobs.c, with each compiler and in each language that it supports.
source_compiles() { # FLAG..
    strict="-Wall -Wextra -Wpedantic -Wconversion -Wsign-conversion -Wshadow -Wcast-qual -Wswitch-enum $* -Wstrict-prototypes -Werror"
    for compiler in gcc clang; do
        command -v $compiler >/dev/null || continue
        for standard in c99 c11 c17 c2x gnu99; do
            $compiler -std=$standard -O2 $strict -Iinclude -c source/jcobs.c -o "$work/source.o" || return 1
        done
    done
    for compiler in g++ clang++; do
        command -v $compiler >/dev/null || continue
        for standard in c++98 c++11 c++17 c++20; do
            $compiler -std=$standard -O2 ${strict% -Wstrict-prototypes*} -Werror -Iinclude -x c++ -c source/jcobs.c -o "$work/source.o" || return 1
        done
    done
    # jcobs.c has no variables. Without JCOBS_FAST it calls no function of another file, even if it isn't optimized.
    gcc -std=c99 -O0 "$@" -Iinclude -c source/jcobs.c -o "$work/source.o" &&
        ! nm "$work/source.o" | grep -v ' [TtrR] ' | grep -v "${1:+ U mem\(chr\|cpy\|move\)$}"
}

# Runs cppcheck with the mandatory rules of MISRA C.
source_checked() {
    cppcheck --quiet --std=c99 --enable=warning,portability,performance --error-exitcode=1 -Iinclude --suppress=missingIncludeSystem source/jcobs.c &&
        cppcheck --quiet --std=c99 --addon=misra -Iinclude --suppress=missingIncludeSystem source/jcobs.c 2>&1 |
        grep -E 'misra-c2012-(9\.1|9\.7|12\.5|13\.6|17\.[3469]|18\.10|19\.1|21\.(13|17|18|19|20|22)|22\.[24567])\]' >"$work/misra"
    ! cat "$work/misra" | grep .
}

# Builds the tests with jcobs.c: the cases, the calls, random calls next to pages without access, and random calls compared with
# plain C.
source_builds() { # COMPILER FLAG..
    for test in tests/vectors.c tests/calls.c tests/guard.c 'device/tests/random.c device/tests/plain.c'; do
        built=${test##*tests/}
        "$@" -std=c99 $flags -Iinclude -Idevice/tests source/jcobs.c $test -o "$work/source.${built%.c}" || return 1
    done
}

# Builds and runs these tests, without and with JCOBS_FAST.
source_tests() { # PROCESSOR CALLS COMPILER FLAG..
    on=$1
    calls=$2
    shift 2
    for fast in '' -DJCOBS_FAST; do
        part "jcobs.c on $on $fast: build" source_builds "$@" $fast || continue
        part "jcobs.c on $on $fast: vectors" $run "$work/source.vectors" ../../conformance/*.txt
        part "jcobs.c on $on $fast: constants, texts, NULL, loops" $run "$work/source.calls"
        part "jcobs.c on $on $fast: $calls random calls between pages without access" $run "$work/source.guard" "$calls"
        part "jcobs.c on $on $fast: $calls random calls beside plain C" $run "$work/source.plain" "$calls"
    done
}

# Builds the library with make for a processor that has no library in prebuilt/, and links it statically and dynamically.
made_of_source() { # ARCH: its program is run by $run
    make TARGET="$1-unknown-linux-gnu" "build/$1-unknown-linux-gnu/send_lines" "build/$1-unknown-linux-gnu/libjcobs.so" &&
        prints ' 03 68 69 00' sh -c "echo hi | $run build/$1-unknown-linux-gnu/send_lines | od -An -tx1"
}

source_on() { # PROCESSOR PREFIX PACKAGE CALLS
    if has "$2-gcc" "gcc-$2" "jcobs.c on $1" && links "$2-gcc" "$3" "jcobs.c on $1" && has "qemu-${1%% *}" qemu-user "jcobs.c on $1"; then
        run="qemu-${1%% *} -L /usr/$2"
        source_tests "$1" "$4" "$2-gcc" -O2
        [ "${1%% *}" != s390x ] || part "make for $1, which has no built library" made_of_source s390x
        run=
    fi
}

run=
at=$here
if has make make 'the library'; then
    part 'build: the library, the tests and the examples' make all tests examples
fi
if has gcc gcc 'header by gcc'; then
    part 'header by gcc, C90 to C23' header gcc c c90 c99 c11 c17 c23
fi
if has g++ g++ 'header by g++'; then
    part 'header by g++, C++98 to C++20' header g++ cpp c++98 c++11 c++14 c++17 c++20
fi
if has clang clang 'header by clang'; then
    part 'header by clang, C90 to C23' header clang c c90 c99 c11 c17 c23
    part 'header by clang++, C++98 to C++20' header clang++ cpp c++98 c++11 c++14 c++17 c++20
fi
# On this processor enums are shorter.
if has arm-none-eabi-gcc gcc-arm-none-eabi 'header for ARM without a system'; then
    part 'header for ARM without a system' header arm-none-eabi-gcc c c90 c99
fi
part 'examples of the headers, the READMEs and the manual' tests/examples.sh \
    include/jcobs.h include/jcobs.hpp README.md ../../README.md device/README.md man/jcobs.3
part 'versions' versions
part 'symbols: those of the header alone' symbols
part 'vectors' "$at/vectors" ../../conformance/*.txt
part 'calls: constants, texts, NULL, loops' "$at/calls"
part 'calls by the shared library' shared
if [ "$(uname -m)" = x86_64 ] && has qemu-x86_64 qemu-user 'a processor without SSE4.2'; then
    part 'a processor without SSE4.2' old_processor
fi
if has gdb gdb 'a crash inside a call'; then
    part 'a crash inside a call: gdb names who made it' crash_names_caller
fi
[ "$machine" != x86_64 ] || part 'landing pads on x86-64: IBT and SHSTK' hardened_x86_64
if has aarch64-linux-gnu-gcc gcc-aarch64-linux-gnu 'landing pads on aarch64' &&
    links aarch64-linux-gnu-gcc libc6-dev-arm64-cross 'landing pads on aarch64'; then
    part 'landing pads on aarch64: BTI' hardened_aarch64
fi
part 'jcobs.hpp' "$at/cpp"
part 'jcobs.hpp, if a callback throws' throws
part 'jcobs.hpp without an allocator' no_allocator
part 'jcobs.hpp by g++ and clang++, C++17 to C++23' cpp_standards
part 'jcobs.hpp: receivers that are moved, with sanitizers' moved
part 'jcobs.hpp: what must not compile' refused
part 'a switch over the status' switches
part 'enums that are short' short_enums
part 'enums that are short, on AVR and Hexagon' short_enums_on_devices
part 'jcobs.c in one translation unit, static' one_unit static -Wno-unused-function
part 'jcobs.c in one translation unit, static inline' one_unit 'static inline'
part 'jcobs.c in one translation unit, static inline: no warning of calls that are not made' no_calls
part 'jcobs.c in a shared library: exported, or hidden' exports
part '1,000,000 random calls between pages without access' "$at/guard" 1000000
for chunk in 1 7 4096; do
    part "read_frames, $chunk bytes at a time" reads "$chunk"
done
part 'read_frames from a slow writer' reads_slowly
part 'send_lines' sends
part 'send_lines, and read_frames behind it' sends_and_reads
part 'messages in C++17' messages
if has pkg-config pkg-config 'install and dist'; then
    part 'install to a private prefix' private_prefix
    part 'uninstall' uninstalled
    part 'install for a package' packed
    part 'dist: the same bytes twice, unpacked elsewhere' unpacked
    if has cmake cmake 'the commands of the installed README'; then
        part 'the commands of the installed README' commands_of "$work/prefix/share/doc/jcobs/README.md" "$work/elsewhere"
        readme=$(echo "$work"/jcobs-*-linux/share/doc/jcobs/README.md)
        part 'the commands of the README in the tarball' commands_of "$readme" "${readme%/*}"
    fi
    if unshare -rm true 2>/dev/null; then
        part 'install to /usr/local' usr_local
    else
        skip 'install to /usr/local' 'needs a namespace of its own (unshare -rm)'
    fi
fi
if has cmake cmake 'find_package'; then
    part 'find_package in the repository' found_by_cmake "$c" jcobs::jcobs
    part 'find_package in a prefix' found_by_cmake "$work/prefix" jcobs::jcobs
    part 'find_package in a prefix, shared' found_by_cmake "$work/prefix" jcobs::shared
fi
if has cmake cmake FetchContent; then
    part 'FetchContent: the built library' fetched ''
    part 'FetchContent: jcobs.c' fetched '' -DJCOBS_FROM_SOURCE=ON
    part 'FetchContent of bindings/c: jcobs.c' fetched 'SOURCE_SUBDIR bindings/c' -DJCOBS_FROM_SOURCE=ON
    part 'add_subdirectory of the repository' added
    part 'CMake: a shared library of jcobs.c' shared_by_cmake
    part 'CMake: each call of jcobs.c is a section' sections_by_cmake
fi
if has meson meson Meson && has pkg-config pkg-config Meson; then
    part 'Meson: the built library' by_meson static libjcobs.a
    part 'Meson: jcobs.c' by_meson static libjcobs.a -Dfrom_source=true
    part 'Meson: jcobs.c, shared' by_meson shared libjcobs.so.1 -Dfrom_source=true
    part 'Meson: a subproject' meson_subproject
fi
if has musl-gcc musl-tools 'over musl'; then
    part 'over musl' over_musl
fi
part 'prebuilt: the sums' sums
if has man man-db 'manual page'; then
    part 'manual page' manual
fi
if has clang-format clang-format 'layout'; then
    part 'layout' clang-format --dry-run -Werror include/jcobs.h include/jcobs.hpp examples/*.c examples/*.cpp tests/*.c tests/*.cpp
fi
if has python3 python3 'jcobs.c is made of the crates'; then
    part 'jcobs.c is what translate.py makes of the crates' python3 -B source/translate.py --check
    part 'translate.py refuses what it does not know' translator_refuses
    part 'jcobs.c beside the Rattle functions, run statement by statement' python3 -B tests/translated.py
fi
part 'jcobs.c by gcc and clang, C99 to C23, C++98 to C++20' source_compiles
part 'jcobs.c with JCOBS_FAST by gcc and clang, C99 to C23, C++98 to C++20' source_compiles -DJCOBS_FAST
if has cppcheck cppcheck 'jcobs.c by cppcheck'; then
    part 'jcobs.c by cppcheck, with the mandatory rules of MISRA C' source_checked
fi
source_tests "$machine with sanitizers" 100000 "${CC:-cc}" -O1 -g -fsanitize=address,undefined -fno-sanitize-recover=all
source_on aarch64 aarch64-linux-gnu libc6-dev-arm64-cross 20000
source_on 's390x (big-endian)' s390x-linux-gnu libc6-dev-s390x-cross 20000
source_on 'ppc (32 bits, big-endian)' powerpc-linux-gnu libc6-dev-powerpc-cross 20000
if [ "$machine" != aarch64 ] && has aarch64-linux-gnu-gcc gcc-aarch64-linux-gnu aarch64 &&
    links aarch64-linux-gnu-gcc libc6-dev-arm64-cross aarch64 && has qemu-aarch64 qemu-user aarch64; then
    at=build/aarch64-unknown-linux-gnu
    run='qemu-aarch64 -L /usr/aarch64-linux-gnu'
    part 'build for aarch64' make TARGET=aarch64-unknown-linux-gnu all "$at/vectors" "$at/guard" "$at/calls" "$at/read_frames"
    part 'vectors on aarch64' $run "$at/vectors" ../../conformance/*.txt
    part 'calls on aarch64' $run "$at/calls"
    part '100,000 random calls on aarch64' $run "$at/guard" 100000
    part 'read_frames on aarch64' reads 7
    if has aarch64-linux-gnu-g++ g++-aarch64-linux-gnu 'jcobs.hpp on aarch64'; then
        part 'jcobs.hpp on aarch64' sh -c "make TARGET=aarch64-unknown-linux-gnu $at/cpp && $run $at/cpp"
    fi
fi
finish
