# Finds the targets that this machine can run with qemu-user. targets.sh sources this file, after count.sh.
# shellcheck shell=sh

compiler_for() { # TARGET: a compiler that has its library
    for compiler in "${RUSTC:-}" rustc /usr/bin/rustc; do
        if [ -n "$compiler" ] && command -v "$compiler" >/dev/null &&
            ls "$("$compiler" --print sysroot)/lib/rustlib/$1/lib"/libcore-*.rlib >/dev/null 2>&1; then
            echo "$compiler"
            return 0
        fi
    done
    return 1
}

on_linux() { # NAME TARGET LINKER RUNNER PACKAGES DEBIAN-ARCHITECTURE FUNCTION
    if ! compiler=$(compiler_for "$2"); then
        skip "$7 on $1" "needs rustup target add $2, or Debian's libstd-rust-web-dev:$6"
    elif ! command -v "$3" >/dev/null || ! command -v "${4%% *}" >/dev/null; then
        skip "$7 on $1" "needs Debian's $5"
    else
        part "$7 on $1" "$7" "$1" "$2" "$3" "$4"
    fi
}

# Calls FUNCTION for each of these targets that this machine can run, with the target's name and triple, a linker and a runner.
each_linux() { # FUNCTION [NAME..]
    function=$1
    shift
    [ $# -gt 0 ] || set -- aarch64 armv7 i686 s390x
    for machine; do
        case $machine in
        aarch64)
            on_linux aarch64 aarch64-unknown-linux-gnu aarch64-linux-gnu-gcc 'qemu-aarch64 -L /usr/aarch64-linux-gnu' \
                'gcc-aarch64-linux-gnu, libc6-dev-arm64-cross and qemu-user' arm64 "$function"
            ;;
        armv7)
            on_linux armv7 armv7-unknown-linux-gnueabihf arm-linux-gnueabihf-gcc 'qemu-arm -L /usr/arm-linux-gnueabihf' \
                'gcc-arm-linux-gnueabihf, libc6-dev-armhf-cross and qemu-user' armhf "$function"
            ;;
        i686)
            # On x86-64 no emulator is used: qemu-i386 7.2 doesn't reach the end of the first tests.
            runner='qemu-i386 -L /usr/i686-linux-gnu'
            loader=/usr/i686-linux-gnu/lib/ld-linux.so.2
            [ "$(uname -m)" != x86_64 ] || runner="$loader --library-path ${loader%/*}"
            on_linux i686 i686-unknown-linux-gnu i686-linux-gnu-gcc "$runner" \
                'gcc-i686-linux-gnu, libc6-dev-i386-cross and qemu-user' i386 "$function"
            ;;
        s390x)
            on_linux s390x s390x-unknown-linux-gnu s390x-linux-gnu-gcc 'qemu-s390x -L /usr/s390x-linux-gnu' \
                'gcc-s390x-linux-gnu, libc6-dev-s390x-cross and qemu-user' s390x "$function"
            ;;
        esac
    done
}
