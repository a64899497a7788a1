#!/bin/sh
# Tests the binding for browsers and Node (bindings/web):
#   - the conformance cases and the tests of jcobs.js, in Node;
#   - the package: installed, required, bundled by esbuild and rollup, and the examples of its README;
#   - the types in jcobs.d.ts, with the TypeScript compiler;
#   - the speed of decode, which for messages with zeros must be at least that of plain JavaScript;
#   - the conformance cases and the page in Chromium, with keys, clicks and pastes, and in a WebKit engine;
#   - the pictures of docs/FORMAT.md and the first drawing of the page, which are drawn again and compared.
# If a tool is missing, the script skips the part that needs it, and names the tool. The last line counts the parts; the status is
# 0 only if nothing failed.
set -u
root=$(cd "$(dirname "$0")/.." && pwd)
web=$root/bindings/web
node=${NODE:-node}
chromium=${CHROMIUM:-chromium}
# shellcheck source=SCRIPTDIR/count.sh
. "$root/tests/count.sh"
begun=

# Begins a file that prints how many of its checks passed and failed on its last line; they run beside each other. A file that loops
# for ever is ended after an hour.
begin() { # NAME COMMAND..
    name=$1
    shift
    begun="$begun $name"
    { timeout 3600 "$@" </dev/null >"$work/$name.said" 2>&1; echo $? >"$work/$name.status"; } &
}

# Waits for the files that were begun, prints what each said, and adds its checks up.
count_begun() {
    wait
    for name in $begun; do
        said=$work/$name.said
        status=$(cat "$work/$name.status")
        good=$(sed -n '$s/^.*: \([0-9]*\) passed, \([0-9]*\) failed$/\1/p' "$said")
        bad=$(sed -n '$s/^.*: \([0-9]*\) passed, \([0-9]*\) failed$/\2/p' "$said")
        if [ -z "$good" ] || { [ "$status" -ne 0 ] && [ "$bad" = 0 ]; }; then
            echo "FAILED: $name ended with status $status"
            failed=$((failed + 1))
        else
            passed=$((passed + good))
            failed=$((failed + bad))
        fi
        sed 's/^/    /' "$said"
    done
}

is_small() { # FILE BYTES
    size=$(wc -c <"$1")
    echo "$1 has $size bytes"
    [ "$size" -le "$2" ]
}

echo "The module"
part "cobs.wasm is at most 20,480 bytes" is_small "$web/cobs.wasm" 20480

if has "$node" nodejs "Node"; then
    if ! "$node" --input-type=module -e "import { isSupported } from '$web/jcobs.js'; process.exit(isSupported() ? 0 : 1)" 2>"$work/said"; then
        skip "Node" "$("$node" --version) is too old: version 20.16 or later is needed"
    else
        echo "Node $("$node" --version), without a flag"
        begin module "$node" --expose-gc "$web/test/module.mjs" "$web/cobs.wasm"
        begin package "$node" "$web/test/package.mjs"
        begin vectors "$node" "$web/test/vectors.mjs" "$web/cobs.wasm" "$root/conformance"
        if has "$chromium" chromium "the page"; then
            for files in first,message canvas,stream line,whole,pictures; do
                begin "page-$files" "$node" "$web/test/page.mjs" "$files"
            done
        fi
        webkit=${WEBKIT:-$(ls /usr/lib/*/webkit2gtk-4*/MiniBrowser 2>/dev/null | head -n 1)}
        if has "${webkit:-MiniBrowser}" webkit2gtk-driver "WebKit" && has WebKitWebDriver webkit2gtk-driver "WebKit" &&
            has xvfb-run xvfb "WebKit"; then
            begin webkit xvfb-run -a "$node" "$web/test/webkit.mjs" "$webkit" "$root/conformance"
        fi
        part "the files with the module inside are built" "$node" "$web/pack.mjs" "$work/dist"
        part "dist/ is what pack.mjs writes" diff -r "$work/dist" "$web/dist"
        part "what index.html shows without a script is drawn" "$node" "$web/first.mjs" "$work/first"
        part "index.html has that drawing" cmp "$work/first/index.html" "$web/index.html"
        part "page/picture.css is what first.mjs writes" cmp "$work/first/page/picture.css" "$web/page/picture.css"
        mkdir "$work/docs"
        part "the pictures are drawn" "$node" "$web/figures.mjs" "$work/docs"
        for picture in frame run-of-255 damaged-stream two-frames; do
            part "docs/images/$picture.svg is what figures.mjs draws" cmp "$work/docs/$picture.svg" "$root/docs/images/$picture.svg"
        done
        if has tsc node-typescript "the types"; then
            part "jcobs.d.ts serves its users" tsc --noEmit --strict --target es2022 --module es2022 --moduleResolution node --lib es2022,dom "$web/test/types.ts"
            part "jcobs.d.ts needs no other types" tsc --noEmit --strict --target es2022 --module es2022 --moduleResolution node --lib es2022 --typeRoots "$work/docs" "$web/test/types-plain.ts"
        fi
        count_begun
    fi
fi

finish
