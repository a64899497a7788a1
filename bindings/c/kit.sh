#!/bin/sh
# Makes a toolchain in which clang is a script, as rt has no flag for it and keeps no module: kit.sh FOLDER <SCRIPT
#
# FOLDER has links to the files of the toolchain whose rt is in the PATH, but for clang. Build with FOLDER/bin/rt. In the
# script, "$CLANG" is the toolchain's own clang.
set -eu
kit=$(dirname "$(dirname "$(readlink -f "$(command -v rt)")")")

links() { # FROM TO BUT..: a folder of links to what is in another, but for these names
    mkdir -p "$2"
    for it in "$1"/*; do
        name=${it##*/}
        case " $3 " in *" $name "*) ;; *) ln -sf "$it" "$2/$name" ;; esac
    done
}

rm -rf "$1"
links "$kit" "$1" 'bin toolchain'
links "$kit/bin" "$1/bin" 'rt rtlib.py'
cp "$kit/bin/rt" "$kit/bin/rtlib.py" "$1/bin/"
links "$kit/toolchain" "$1/toolchain" bin
links "$kit/toolchain/bin" "$1/toolchain/bin" clang
{
    printf '#!/bin/sh\nCLANG=%s\n' "$kit/toolchain/bin/clang"
    cat
} >"$1/toolchain/bin/clang"
chmod +x "$1/toolchain/bin/clang"
