#!/bin/sh
# Makes the artifacts of a release and checks each of them: tests/release.sh [--as-built] [FOLDER]
#
# The artifacts are written to FOLDER, or to a folder that is removed at the end. A second run writes the same bytes:
#   jcobs-VERSION-source.tar.gz            the repository
#   jcobs-VERSION-{x86_64,aarch64}-linux.tar.gz     the library for C, as `make dist` packs it
#   jcobs-VERSION-c-source.tar.gz          jcobs.c, for every other system
#   jcobs-VERSION-device.tar.gz            the library for microcontrollers
#   jcobs-VERSION-programs-x86_64-linux.tar.gz      cobs_tool and cobs_watch, with manual pages, completions and a README
#   jcobs-VERSION.tar.gz, jcobs-VERSION-*.whl       the package for Python: source distribution, wheel
#   jcobs-VERSION.tgz                      the package for Node and browsers, by npm
#   jcobs-VERSION.crate                    the crate for Rust
#   jcobs-VERSION-page.tar.gz              the page, as static files for any server
#   SHA256SUMS
# The artifacts contain the libraries of the folders prebuilt/, whose sums are compared first. Then the toolchain proves the crates
# and builds the libraries and the module again, which takes some minutes, and the bytes are compared; and Frama-C proves all
# contracts of check/frama-c. With --as-built these steps are left out. Each artifact is unpacked or installed in another folder,
# and an example runs with it. No network is used.
#
# REPOSITORY=https://.. makes the packages for registries: their metadata name this address, and their READMEs say how to
# install from the registry. Without REPOSITORY, the metadata name no address, and the READMEs say how to install the file.
#
# The script prints a line for each part: 'ok', 'FAILED' with the output, or 'skipped' with the missing Debian packages. The last
# line counts the parts; the status is 0 only if nothing failed.
#
# The functions are called by 'part'.
# shellcheck disable=SC2016,SC2317
set -u
root=$(cd "$(dirname "$0")/.." && pwd)
# shellcheck source=SCRIPTDIR/count.sh
. "$root/tests/count.sh"
again=yes
[ "${1:-}" != --as-built ] || { again=no && shift; }
folder=${1:-$work/release}
version=$(cat "$root/VERSION")
repository=${REPOSITORY:-}
SOURCE_DATE_EPOCH=1767225600
TZ=UTC
LC_ALL=C
PIP_NO_INDEX=1
PIP_DISABLE_PIP_VERSION_CHECK=1
PIP_NO_BUILD_ISOLATION=0 # a switch that is named for what it turns off: 0 turns it off
PYTHONDONTWRITEBYTECODE=1
CARGO_NET_OFFLINE=true
npm_config_cache=$work/npm
npm_config_update_notifier=false
npm_config_offline=true
npm_config_audit=false
npm_config_fund=false
PATH=$PATH:$HOME/.cargo/bin
export SOURCE_DATE_EPOCH TZ LC_ALL PIP_NO_INDEX PIP_DISABLE_PIP_VERSION_CHECK PIP_NO_BUILD_ISOLATION PYTHONDONTWRITEBYTECODE
export CARGO_NET_OFFLINE npm_config_cache npm_config_update_notifier npm_config_offline npm_config_audit npm_config_fund PATH
unset JCOBS_LIB_DIR PKG_CONFIG_PATH MAKEFLAGS MAKELEVEL PYTHONPATH PYTHONHOME
umask 022

packed() { # ARCHIVE FOLDER NAME: the folder's NAME, the same bytes each time
    tar --sort=name --owner=0 --group=0 --numeric-owner --mode=u+rw,go+r-w,a+X --mtime="@$SOURCE_DATE_EPOCH" --format=ustar \
        -C "$2" -cf "$work/packed.tar" "$3" && gzip -9nc "$work/packed.tar" >"$1"
}

unpacked() { # ARCHIVE FOLDER: its contents, without the one folder that they are in
    mkdir -p "$2" && tar -xzf "$1" -C "$2" --strip-components 1
}

writes() { # BYTES COMMAND..
    bytes=$1
    shift
    "$@" >"$work/printed" && printf '%b' "$bytes" | cmp - "$work/printed"
}

# What is built is built in a copy, as a build writes beside what it builds.
copy() {
    mkdir -p "$tree" && (cd "$root" && git ls-files -z -co --exclude-standard | tar -c --null --files-from=-) | tar -x -C "$tree"
}

sums() {
    (cd "$tree/bindings/c/prebuilt" && sha256sum -c SHA256SUMS)
}

source_archive() { packed "$folder/$name_of-source.tar.gz" "$work" "$name_of-source"; }

c_archive() { # ARCH
    make -C "$tree/bindings/c" dist TARGET="$1-unknown-linux-gnu" &&
        cp "$tree/bindings/c/build/$1-unknown-linux-gnu/$name_of-$1-linux.tar.gz" "$folder"
}

c_source_archive() {
    there=$work/c-source/$name_of-c-source
    mkdir -p "$there" && (cd "$tree/bindings/c" && cp -R source/jcobs.c include/jcobs.h include/jcobs.hpp man/jcobs.3 examples "$there") &&
        rm -rf "$there/examples/firmware" "$there/examples/CMakeLists.txt" && cp "$tree"/LICENSE-* "$there" &&
        cat >"$there/README" <<'END' &&
jcobs: Consistent Overhead Byte Stuffing for C and C++, as one file of C

    cc -I. examples/send_lines.c jcobs.c -o send_lines
    echo hello | ./send_lines

jcobs.c compiles with any C99 compiler. jcobs.h describes each call, and jcobs.3 is the manual page (man ./jcobs.3). jcobs.hpp is
for C++17: it has functions for whole messages, and the classes jcobs::receiver and jcobs::sender. Most of jcobs.c is translated from proved code. The comment at its top says what is proved, and how the file
is tested.
END
        packed "$folder/$name_of-c-source.tar.gz" "$work/c-source" "$name_of-c-source"
}

device_archive() {
    there=$work/device/$name_of-device
    mkdir -p "$there" &&
        (cd "$tree/bindings/c/device" && cp -R README.md src cmake examples zephyr library.json library.properties CMakeLists.txt idf_component.yml \
            "$there") &&
        names_repository "$there/library.properties" '^category=' "url=$repository" &&
        names_repository "$there/library.json" '^  "license": ' "  \"repository\": {\"type\": \"git\", \"url\": \"$repository\"}," &&
        names_repository "$there/idf_component.yml" '^description: ' "url: $repository" &&
        cp "$tree"/LICENSE-* "$there" && cp "$tree"/bindings/c/source/jcobs.c "$tree"/bindings/c/include/* "$there/src" &&
        sed -i 's,\.\./\(source\|include\)/jcobs\.,src/jcobs.,g; s,`\.\./,`bindings/c/,g; /^In the repository, /d' "$there/README.md" &&
        packed "$folder/$name_of-device.tar.gz" "$work/device" "$name_of-device"
}

# The README of a package, in the copy: its commands take the registry's package, or the file, and npm installs into the folder
# where it is called. A link to what is only in the repository is none.
package_readme() { # BINDING FILE
    what=./$2
    [ -z "$repository" ] || what=jcobs
    sed -i "/--no-index/s,\./bindings/$1,./$2,; s,\./bindings/$1,$what,; s,\[\([^]]*\)\](\.\./[^)]*),\1,g; s,npm install --prefix build ,npm install ," "$tree/bindings/$1/README.md"
    [ -z "$repository" ] || sed -i 's/^In the repository, in a virtual/In a virtual/; s/ The package isn.t in a package index such as PyPI\.//' "$tree/bindings/$1/README.md"
}

# Puts the address of the repository into the metadata of a package: after a line, one that has it.
names_repository() { # FILE LINE-BEFORE NEW-LINE
    [ -z "$repository" ] || { sed -i "/$2/a $3" "$1" && grep -F "$repository" "$1" >/dev/null; }
}

# Runs what the README of a package says of its install, beside the package's file, which stands for the registry's.
readme_installs() { # ARCHIVE README TOOL
    cp "$1" . && tar -xOzf "$1" "$2" | sed -n "s/^    $3 install/$3 install/p" >install && test -s install &&
        if [ -n "$repository" ]; then grep -q ' jcobs$' install && sed -i "s, jcobs$, ./$(basename "$1")," install; fi && sh -eux install
}

programs_archive() {
    there=$work/programs/$name_of-programs-x86_64-linux
    (cd "$tree/bindings/programs/x86_64-linux" && sha256sum -c SHA256SUMS) || return 1
    mkdir -p "$there" && cp "$tree"/LICENSE-* "$there" &&
        make -s -C "$tree/bindings/programs" install BUILT=x86_64-linux DESTDIR="$there" PREFIX= &&
        sed -e 's|make -C bindings/programs install PREFIX="$HOME/.local"|mkdir -p "$HOME/.local" \&\& cp -R bin share "$HOME/.local"|' \
            -e 's| Without `PREFIX`, the files go .* the proved crates\.||' -e 's|\[\(crates[^]]*\)\]([^)]*)|`\1` of the repository|' \
            "$tree/docs/PROGRAMS.md" >"$there/README.md" && ! grep -q 'bindings/\|](' "$there/README.md" &&
        packed "$folder/$name_of-programs-x86_64-linux.tar.gz" "$work/programs" "$name_of-programs-x86_64-linux"
}

# The wheel is built from the source distribution, for every Linux with glibc 2.17 or later.
python_packages() {
    there=$work/sdist/$name_of
    package_readme python "$name_of.tar.gz" &&
        names_repository "$tree/bindings/python/pyproject.toml" '^keywords = ' "urls = { Repository = \"$repository\" }" && (cd "$tree/bindings/python" && "$python" -m build --no-isolation --sdist --outdir "$work/python") &&
        mkdir -p "$work/sdist" && tar -xzf "$work/python/$name_of.tar.gz" -C "$work/sdist" &&
        packed "$folder/$name_of.tar.gz" "$work/sdist" "$name_of" &&
        CFLAGS="-g0 -ffile-prefix-map=$there=." "$python" -m build --no-isolation --wheel --outdir "$folder" \
            "--config-setting=--build-option=--plat-name=manylinux2014_$(uname -m)" "$there"
}

page_archive() {
    there=$work/page/$name_of-page
    "$tree/bindings/web/build.sh" site "$there" && cp "$tree"/LICENSE-* "$there" &&
        packed "$folder/$name_of-page.tar.gz" "$work/page" "$name_of-page"
}

node_package() {
    package_readme web "$name_of.tgz" &&
        names_repository "$tree/bindings/web/package.json" '^  "license": ' "  \"repository\": \"$repository\"," &&
        (cd "$tree/bindings/web" && npm pack --offline --pack-destination "$folder")
}

rust_crate() {
    names_repository "$tree/bindings/rust/Cargo.toml" '^license = ' "repository = \"$repository\"" || return 1
    [ -z "$repository" ] || sed -i "s,path = \"\.\./jirompeka/bindings/rust\",version = \"${version%.*}\"," "$tree/bindings/rust/README.md" "$tree/bindings/rust/src/lib.rs"
    (cd "$tree/bindings/rust" && cargo package --offline --no-verify --allow-dirty --target-dir "$work/cargo") &&
        cp "$work/cargo/package/$name_of.crate" "$folder" &&
        ! tar -xOzf "$folder/$name_of.crate" "$name_of/Cargo.toml" | grep '^publish'
}

# The crate from its own file, as CONTRIBUTING.md publishes it.
crate_again() {
    unpacked "$folder/$name_of.crate" "$work/crate-again" && (cd "$work/crate-again" && mv Cargo.toml.orig Cargo.toml &&
        cargo package --offline --no-verify --allow-dirty --list | sort >"$work/again" &&
        tar -tzf "$folder/$name_of.crate" | sed "s,^$name_of/,,; /^\.cargo_vcs_info/d" | sort | diff - "$work/again")
}

write_sums() { (cd "$folder" && sha256sum -- jcobs-* >SHA256SUMS.new && mv SHA256SUMS.new SHA256SUMS); }

# The checks.

# Each archive is unpacked to one folder, of its own name.
folders() {
    for archive in "$folder"/*.tar.gz; do
        prints "$(basename "$archive" .tar.gz)" sh -c "tar -tzf '$archive' | cut -d/ -f1 | sort -u" || return 1
    done
}

libraries_again() {
    "$root/bindings/c/prebuilt.sh" "$work/again" && for arch in x86_64 aarch64; do
        cmp "$work/again/$arch-linux/libjcobs.a" "$root/bindings/c/prebuilt/$arch-linux/libjcobs.a" || return 1
    done
}

module_again() { "$root/bindings/web/build.sh" to "$work/cobs.wasm" && cmp "$work/cobs.wasm" "$root/bindings/web/cobs.wasm"; }

programs_again() { # the same bytes, where gcc and glibc are those that linked them
    there=$root/bindings/programs/x86_64-linux
    "$root/bindings/programs/build.sh" "$work/programs-again" || return 1
    cmp "$there/LINKED" "$work/programs-again/LINKED" || { echo '= not compared: other gcc or glibc' && return 0; }
    cmp "$there/cobs_tool" "$work/programs-again/cobs_tool" && cmp "$there/cobs_watch" "$work/programs-again/cobs_watch"
}

source_runs() { # the README's command for C, in what the archive has
    unpacked "$folder/$name_of-source.tar.gz" "$work/source" && (cd "$work/source" &&
        cp bindings/c/examples/send_lines.c program.c &&
        cc -Ibindings/c/include program.c "bindings/c/prebuilt/$(uname -m)-linux/libjcobs.a" -o program &&
        echo hello | writes '\006hello\000' ./program)
}

c_runs() { # ARCH COMPILER [RUNNER..]
    arch=$1
    compiler=$2
    shift 2
    there=$work/c-$arch
    unpacked "$folder/$name_of-$arch-linux.tar.gz" "$there" && (cd "$work" &&
        export PKG_CONFIG_PATH="$there/lib/pkgconfig" &&
        for example in send_lines read_frames; do
            # shellcheck disable=SC2046 # the flags are words
            "$compiler" "$there/share/doc/jcobs/examples/$example.c" $(pkg-config --cflags jcobs) \
                $(pkg-config --variable=archive jcobs) -o "$example-$arch" || exit 1
        done
        echo hello | "$@" "./send_lines-$arch" >frames &&
        writes 'message 5 68656c6c6f\n' "$@" "./read_frames-$arch" <frames)
}

c_source_runs() {
    there=$work/c-source-unpacked
    unpacked "$folder/$name_of-c-source.tar.gz" "$there" && for example in send_lines read_frames; do
        cc -std=c99 -O2 -Wall -Wextra -Werror -I"$there" "$there/examples/$example.c" "$there/jcobs.c" -o "$work/$example" || return 1
    done && echo hello | "$work/send_lines" >"$work/frames" && writes 'message 5 68656c6c6f\n' "$work/read_frames" <"$work/frames"
}

programs_run() {
    there=$work/programs-unpacked
    unpacked "$folder/$name_of-programs-x86_64-linux.tar.gz" "$there" &&
        (cd "$there" && HOME=$work/programs-home && export HOME &&
            sed -n '/^    mkdir/,/decode$/s/^    //p' README.md >"$work/programs-readme" && sh -eux "$work/programs-readme") &&
        test -x "$work/programs-home/.local/bin/cobs_watch" && printf hello | writes '06 68 65 6c 6c 6f 00\n' "$there/bin/cobs_tool" &&
        printf 'hello\n' | "$there/bin/cobs_watch" send >"$work/frames" &&
        writes 'message 5 68656c6c6f\n' "$there/bin/cobs_watch" <"$work/frames" &&
        for program in cobs_tool cobs_watch; do
            if ldd "$there/bin/$program"; then return 1; fi
            grep -q "^\.TH [A-Z_]* 1 [0-9-]* \"jcobs $version\"" "$there/share/man/man1/$program.1" || return 1
        done
}

device_runs() {
    there=$work/device-unpacked
    unpacked "$folder/$name_of-device.tar.gz" "$there" && cat >"$work/device.c" <<'PROGRAM' &&
#include <stdio.h>
#include <stdlib.h>
#include "jcobs.h"

int main(void)
{
    unsigned char frame[JCOBS_MAX_LENGTH(5) + 1], message[5];
    jcobs_decoder decoder = JCOBS_DECODER_INIT;
    jcobs_answer sent = jcobs_encode_terminated("hello", 5, frame, sizeof frame);
    jcobs_answer got = jcobs_decoder_push(&decoder, message, sizeof message, frame, sent.length);

    printf("%u %.*s\n", (unsigned)got.status, (int)got.length, (char *)message);
    fflush(stdout);
    exit(0);
}
PROGRAM
        arm-none-eabi-gcc -mcpu=cortex-m4 -mthumb -Os -std=c99 -I"$there/src" --specs=rdimon.specs \
            -T "$tree/bindings/c/device/tests/mps2.ld" "$tree/bindings/c/device/tests/start_arm.c" "$work/device.c" \
            "$there/src/jcobs.c" -o "$work/device.elf" &&
        writes '0 hello\n' timeout 900 qemu-system-arm -M mps2-an386 -nographic -monitor none -serial null \
            -semihosting-config enable=on,target=native,arg=program -kernel "$work/device.elf"
}

python_runs() { # COMMAND..: it installs
    rm -rf "$work/environment" && "$python" -m venv --system-site-packages "$work/environment" &&
        (cd "$work" && PATH=$work/environment/bin:$PATH && "$@" &&
            writes "0668656c6c6f $version\n" environment/bin/python -c 'import jcobs; print(jcobs.encode(b"hello").hex(), jcobs.__version__)')
}

# What the wheel's tag says: it calls the C library alone, and nothing that is newer than glibc 2.17.
wheel_is_portable() {
    "$python" -m zipfile -e "$folder/$name_of"-*.whl "$work/wheel" || return 1
    for built in "$work"/wheel/jcobs/*.so; do
        readelf -d "$built" | sed -n 's/.*NEEDED.*\[\(.*\)\]/\1/p' | grep -v -x -e libc.so.6 -e 'ld-linux.*' && return 1
        { readelf -V "$built" | grep -o 'GLIBC_[0-9.]*' && echo GLIBC_2.17; } | sort -V | tail -n 1 | grep -x GLIBC_2.17 || return 1
    done
}

node_runs() {
    mkdir -p "$work/node" && cp "$tree/bindings/web/examples/first.js" "$work/node" && (cd "$work/node" &&
        echo '{ "type": "module" }' >package.json && readme_installs "$folder/$name_of.tgz" package/README.md npm &&
        writes '3 10 11 2 12\n10 11 0 12\n3 10 11 2 12 0\n9 0 1 8 6\n' node first.js)
}

page_runs() { # served to a browser, which draws the frame of a message that is in the address
    unpacked "$folder/$name_of-page.tar.gz" "$work/page-unpacked" && cat >"$work/page.mjs" <<'SCRIPT' &&
import { execFile } from "node:child_process";
import { promisify } from "node:util";
const [, , module, page] = process.argv;
const { serve } = await import(module);
const { server, address } = await serve(0, { page });
const options = ["--headless", "--no-sandbox", "--disable-gpu", "--virtual-time-budget=10000", "--dump-dom"];
const shown = await promisify(execFile)("chromium", [...options, `${address}page/index.html#message&hex=0a0b000c&sentinel=00`]);
console.log(shown.stdout.match(/id="message-frame"[^>]*>([^<]*)</)[1]);
server.close();
SCRIPT
        writes '03 0a 0b 02 0c\n' timeout 300 env HOME="$work" node "$work/page.mjs" "$tree/bindings/web/serve.mjs" "$work/page-unpacked"
}

crate_runs() {
    unpacked "$folder/$name_of.crate" "$work/crate" && mkdir -p "$work/program/src" && (cd "$work/program" &&
        printf '[package]\nname = "program"\nversion = "0.1.0"\nedition = "2021"\n\n[dependencies]\ncobs = { package = "jcobs", path = "../crate" }\n' >Cargo.toml &&
        printf 'fn main() {\n    let frame = cobs::encode_vec(b"hello");\n    println!("{:?} {:?}", frame, cobs::decode_vec(&frame));\n}\n' >src/main.rs &&
        writes '[6, 104, 101, 108, 108, 111] Ok([104, 101, 108, 108, 111])\n' cargo run -q --offline)
}

name_of=jcobs-$version
tree=$work/$name_of-source
mkdir -p "$folder"
folder=$(cd "$folder" && pwd)
rm -f "$folder"/jcobs-* "$folder/SHA256SUMS"
part 'a copy of the repository' copy || finish
part 'the sums of the libraries' sums
part 'the libraries, the programs and the module are of these sources' "$root/tests/prebuilt.py"
if [ "$again" = no ]; then
    skip 'the libraries, the programs and the module, built again' '--as-built'
elif command -v rt >/dev/null || [ -x /opt/rattle/bin/rt ]; then
    part 'the libraries, built again' libraries_again
    part 'the module, built again' module_again
    [ ! -e "$tree/bindings/programs/x86_64-linux" ] || part 'the programs, built again' programs_again
else
    skip 'the libraries, the programs and the module, built again' "needs Rattle's toolchain"
fi

name='all contracts of jcobs.c in Frama-C'
if [ "$again" = no ]; then
    skip "$name" '--as-built'
elif has frama-c frama-c-base "$name" && has why3 why3 "$name" && has z3 z3 "$name" && has cvc4 cvc4 "$name"; then
    part "$name" "$root/check/frama-c/prove.py"
fi

part 'source archive' source_archive && has cc gcc 'the source archive runs' && part 'the source archive runs' source_runs
for arch in x86_64 aarch64; do
    compiler=$arch-linux-gnu-gcc
    [ "$arch" != "$(uname -m)" ] || compiler=gcc
    has make make "C archive, $arch" || continue
    has "$compiler" "gcc-$arch-linux-gnu" "C archive, $arch" || continue
    # A cross compiler can come without its C library.
    has "$("$compiler" -print-file-name=crti.o)" "libc6-dev for $arch" "C archive, $arch" || continue
    part "C archive, $arch" c_archive "$arch" || continue
    has pkg-config pkgconf "the C archive runs, $arch" || continue
    if [ "$compiler" = gcc ]; then
        part "the C archive runs, $arch" c_runs "$arch" gcc env
    elif has "qemu-$arch" qemu-user "the C archive runs, $arch"; then
        part "the C archive runs, $arch" c_runs "$arch" "$compiler" "qemu-$arch" -L "/usr/$arch-linux-gnu"
    fi
done
if [ ! -e "$tree/bindings/programs/x86_64-linux" ]; then
    skip 'archive of the programs' 'bindings/programs/build.sh builds them'
elif part 'archive of the programs' programs_archive; then
    if [ "$(uname -m)" = x86_64 ]; then
        part 'the archive of the programs runs' programs_run
    else
        skip 'the archive of the programs runs' 'they are for x86-64'
    fi
fi
part 'C source archive' c_source_archive && has cc gcc 'the C source archive runs' && part 'the C source archive runs' c_source_runs
part 'device archive' device_archive && has arm-none-eabi-gcc gcc-arm-none-eabi 'the device archive runs' &&
    has /usr/lib/arm-none-eabi/include/stdio.h libnewlib-arm-none-eabi 'the device archive runs' &&
    has qemu-system-arm qemu-system-arm 'the device archive runs' && part 'the device archive runs, Cortex-M4' device_runs

python=
for candidate in ${PYTHON:-/usr/bin/python3 python3}; do
    "$candidate" -c 'import build, setuptools, wheel, ensurepip' >/dev/null 2>&1 && python=$candidate && break
done
if [ -n "$python" ]; then
    part 'Python packages' python_packages && {
        part 'the wheel is for glibc 2.17 and later' wheel_is_portable
        part 'the wheel runs' python_runs pip install "$(echo "$folder/$name_of"-*.whl)"
        part 'the source distribution runs' python_runs readme_installs "$folder/$name_of.tar.gz" "$name_of/README.md" pip
    }
else
    skip 'Python packages' "needs Debian's python3-build, python3-setuptools, python3-wheel or python3-venv"
fi
has npm npm 'Node package' && part 'Node package' node_package && part 'the Node package runs' node_runs
part 'page' page_archive && has node nodejs 'the page runs' && has chromium chromium 'the page runs' && part 'the page runs' page_runs
if ! has cargo cargo 'crate'; then
    :
elif ! missing=$("$root/bindings/rust/tests/offline.sh" "$work"); then
    skip 'crate' "$missing"
elif part 'crate' rust_crate; then
    if [ "$(rustc --version | sed -n 's/^rustc 1\.\([0-9]*\)\..*/\1/p')" -ge 83 ]; then
        part 'the crate runs' crate_runs
        part 'the crate is packed again from its own file' crate_again
    else
        has 'rustc 1.83' rustc 'the crate runs'
    fi
fi

part 'each archive has a folder of its own' folders
part 'SHA256SUMS' write_sums
[ -z "${1:-}" ] || (cd "$folder" && cat SHA256SUMS)
finish
