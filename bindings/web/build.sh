#!/bin/sh
# The module and what is made from it:
#
#     build.sh                 cobs.wasm, from the proved crate, and dist/ (needs the toolchain's rt in the PATH)
#     build.sh to FILE         cobs.wasm alone, written to FILE
#     build.sh dist [FOLDER]   the files with the module inside, from cobs.wasm as it is (Node)
#     build.sh site FOLDER     the page as static files for any host; with REPOSITORY=URL, the address of this repository's files
#                              there, it links to the proofs of what it shows; with ADDRESS=URL, its own, links to it have a picture
#     build.sh pictures        the pictures of docs/FORMAT.md (Node)
#     build.sh screenshots     preview.png and the screenshots in docs/images/ (Node and Chromium)
#     build.sh serve [PORT [HOST]]    the page, at http://localhost:8000/ or another port (Node); with the host 0.0.0.0, other
#                              devices of the network see it too
#
# Everything is proved before it is built: on a clone with no checks kept, that takes some minutes.
set -eu
here=$(cd "$(dirname "$0")" && pwd)
root=$(cd "$here/../.." && pwd)
node=${NODE:-node}
crate=cobs_c
target=wasm64-unknown-unknown
stack=131072

need() { # COMMAND PACKAGE
    command -v "$1" >/dev/null || { echo "build.sh: $1 is not there: install Debian's $2" >&2; exit 2; }
}

build() { # FILE
    need python3 python3
    command -v rt >/dev/null || { echo "build.sh: it needs the toolchain's rt in the PATH" >&2; exit 2; }
    kit=$(dirname "$(dirname "$(readlink -f "$(command -v rt)")")")
    archive=$root/crates/$crate/out/lib$crate.a
    kept=$(mktemp)
    log=$(mktemp)
    had=no
    if [ -f "$archive" ]; then cp "$archive" "$kept"; had=yes; fi
    # the archive has one place for every target: what stood there comes back
    trap 'if [ $had = yes ]; then cp "$kept" "$archive"; else rm -f "$archive"; fi; rm -f "$kept" "$log"' EXIT
    (cd "$root/crates/$crate" && rt lib --target $target) >"$log" 2>&1 || { cat "$log" >&2; exit 1; }
    "$kit/bin/rattle-link" --target $target --toolchain "$kit/toolchain" --stack $stack -o "$1" "$archive" 2>"$log" \
        || { cat "$log" >&2; exit 1; }
    python3 -B "$here/strip.py" "$1"
    python3 -B "$here/lower.py" "$1"
}

# Writes an address into a line of the page, if there is one.
link() { # FILE NAME URL BEFORE AFTER: the line has BEFORE, and then the address and AFTER in its place
    case $3 in
        '') return ;;
        *[!A-Za-z0-9:/?=@%._~+-]*) echo "build.sh: $2 is no address: $3" >&2; exit 2 ;;
        http://* | https://*) ;;
        *) echo "build.sh: $2 begins with http:// or https://, not $3" >&2; exit 2 ;;
    esac
    sed "s|$4\"[^\"]*\"|$4\"$3$5\"|" "$1" >"$1.new"
    mv "$1.new" "$1"
}

case ${1:-} in
    '')
        need "$node" nodejs
        build "$here/cobs.wasm"
        "$node" "$here/pack.mjs" "$here/dist"
        "$root/tests/prebuilt.py" --write web
        ls -l "$here/cobs.wasm" "$here/dist"
        ;;
    to) build "$2" ;;
    dist) need "$node" nodejs; "$node" "$here/pack.mjs" "${2:-$here/dist}" ;;
    site)
        mkdir -p "$2/page"
        cp "$here/index.html" "$here/icon.svg" "$here/preview.png" "$here/draw.js" "$here/jcobs.js" "$here/machine.js" "$here/cobs.wasm" "$2"
        cp "$here"/page/*.js "$here"/page/*.css "$2/page"
        link "$2/index.html" REPOSITORY "${REPOSITORY:-}" '<meta name="repository" content=' ''
        link "$2/index.html" ADDRESS "${ADDRESS:-}" '<meta property="og:image" content=' /preview.png
        ;;
    pictures) need "$node" nodejs; "$node" "$here/figures.mjs" "$root/docs/images" ;;
    screenshots)
        need "$node" nodejs
        need "${CHROMIUM:-chromium}" chromium
        "$node" "$here/test/screenshots.mjs"
        ;;
    serve) need "$node" nodejs; exec "$node" "$here/serve.mjs" "${2:-8000}" "${3:-127.0.0.1}" ;;
    *) sed -n '2,14s/^# \{0,1\}//p' "$0" >&2; exit 2 ;;
esac
