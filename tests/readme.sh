#!/bin/sh
# Runs the commands of a README as they are written: tests/readme.sh README..
#
# The commands run in a copy of the repository that has nothing built, block by block, with a new home folder. A block that is
# fenced as sh runs in the README's folder, and an indented block runs at the top of the repository. If a README speaks of a file
# program.c, the folder has one. The Rattle toolchain isn't in the PATH, so a command that passes here also passes for users
# without the toolchain. pip and npm use no network, and pip installs into an empty environment. Lines for Cargo.toml and
# src/main.rs are made into a program, which is run.
#
# If a block fenced as text follows, the output must end with its lines.
#
# The script prints a line for each block: 'ok' with its seconds, or 'FAILED' with its output. It prints 'skipped' for each line
# that isn't run, with the reason. The last line counts the blocks; the status is 0 only if nothing failed.
set -u
root=$(cd "$(dirname "$0")/.." && pwd)
# shellcheck source=SCRIPTDIR/count.sh
. "$root/tests/count.sh"

# Cargo asks no network.
has_crates=
"$root/bindings/rust/tests/offline.sh" "$work" >/dev/null && has_crates=yes

# The PATH without the folders that have rt.
path=
IFS=:
for folder in $PATH; do
    [ -x "$folder/rt" ] || path=$path${path:+:}$folder
done
unset IFS
CARGO_HOME=${CARGO_HOME:-$HOME/.cargo}
RUSTUP_HOME=${RUSTUP_HOME:-$HOME/.rustup}
PATH=$path
HOME=$work/home
export PATH HOME CARGO_HOME RUSTUP_HOME
unset JCOBS_LIB_DIR PKG_CONFIG_PATH MAKEFLAGS MAKELEVEL

mkdir "$work/copy" "$work/home"
(cd "$root" && git ls-files -z -co --exclude-standard | tar -c --null --files-from=-) | tar -x -C "$work/copy" || exit 1
# An environment for Python in front of the PATH, if this machine has what pip needs to build.
environment() {
    [ ! -d "$work/python" ] || return 0
    /usr/bin/python3 -c 'import os, setuptools, sysconfig, venv, wheel; os.stat(sysconfig.get_path("include") + "/Python.h")' \
        2>/dev/null && /usr/bin/python3 -m venv --system-site-packages "$work/python" >/dev/null 2>&1 || return 1
    PATH=$work/python/bin:$PATH
    # A switch that is named for what it turns off: 0 turns it off.
    PIP_NO_BUILD_ISOLATION=0
    PIP_NO_INDEX=1
    PIP_DISABLE_PIP_VERSION_CHECK=1
    export PIP_NO_BUILD_ISOLATION PIP_NO_INDEX PIP_DISABLE_PIP_VERSION_CHECK
    unset PYTHONPATH PYTHONHOME
}

# npm asks no network.
npm_config_offline=true
npm_config_audit=false
npm_config_fund=false
export npm_config_offline npm_config_audit npm_config_fund

# Why a line of a README isn't run; nothing if it is.
why_not() { # LINE
    case $1 in
    'cobs: '* | 'app: '*) echo 'a line of crates.txt' ;;
    rt' '* | *'&& '*' rt '*) echo 'needs rt' ;;
    'bindings/web/build.sh '*'# cobs.wasm'*) echo 'needs rt' ;;
    tests/*.sh* | check/run.sh*) echo 'a test of its own' ;;
    *'build.sh serve'*) echo "a server, which doesn't end" ;;
    */dev/tty*) echo 'needs a serial port' ;;
    *'build.sh screenshots'*) echo 'takes more than a minute' ;;
    *build.sh*) command -v node >/dev/null || echo "needs Debian's nodejs" ;;
    'npm '* | 'node '*) command -v node >/dev/null && command -v npm >/dev/null || echo "needs Debian's nodejs and npm" ;;
    'pip '* | python*) environment || echo "needs Debian's python3-dev, python3-venv, python3-setuptools or python3-wheel" ;;
    ./test.py*)
        command -v arm-none-eabi-gcc >/dev/null && command -v qemu-system-arm >/dev/null ||
            echo "needs Debian's gcc-arm-none-eabi or qemu-system-arm"
        ;;
    cargo' '* | *'# in Cargo.toml'* | *'// in src/main.rs')
        command -v cargo >/dev/null && [ -n "$has_crates" ] || echo "needs cargo, or Debian's librust-memchr-dev or librust-serde-derive-dev"
        ;;
    esac
}

# Cuts the blocks of a README into files: block.1.own for those in fences, block.2.top for the indented ones. What a fence for
# text says after a block goes into says.1.
cut_blocks() { # README
    awk -v to="$work/block" -v says="$work/says" '
        /^```/ {
            in_fence = !in_fence
            file = in_fence && $0 == "```sh" ? to "." ++n ".own" : in_fence && $0 == "```text" && n ? says "." n : ""
            if (file) printf "" >file
            next
        }
        in_fence { if (file) print >file; next }
        /^    [^ ]/ { if (!indented) { indented = 1; file = to "." ++n ".top" }; print substr($0, 5) >file; next }
        { indented = 0 }' "$1"
}

# Whether a block's output ends with what the README shows after it. If a line was skipped, there is nothing to compare.
prints_what_it_says() { # SAYS
    [ -f "$1" ] && [ ! -s "$work/skips" ] || return 0
    tail -n "$(wc -l <"$1")" "$work/printed" | diff "$1" - >>"$work/said" 2>&1
}

# What is run of a block: its lines, without those that are skipped. Two lines for a Rust program become its files.
to_script() { # README BLOCK
    while IFS= read -r line; do
        why=$(why_not "$line")
        if [ -n "$why" ]; then
            echo "skipped: $1: $line: $why" >>"$work/skips"
            continue
        fi
        case $line in
        *'# in Cargo.toml'*)
            printf 'mkdir -p src\ncat >Cargo.toml <<"END"\n[package]\nname = "app"\nedition = "2021"\n[dependencies]\n%s\nEND\n' "$line"
            ;;
        # Debian's setuptools and wheel are in this environment too, since pip asks no network.
        'python3 -m venv '*) printf '%s --system-site-packages\n' "$line" ;;
        *'// in src/main.rs') printf 'cat >src/main.rs <<"END"\nfn main() {\n%s\n}\nEND\ncargo run --offline\n' "$line" ;;
        *) printf '%s\n' "$line" ;;
        esac
    done <"$2"
}

for readme; do
    own=$work/copy/$(dirname "$readme")
    cp "$root/bindings/c/examples/send_lines.c" "$own/program.c"
    rm -f "$work"/says.*
    cut_blocks "$root/$readme"
    grep -q '^ *pip ' "$root/$readme" && environment
    n=1
    while block=$(ls "$work/block.$n".* 2>/dev/null); do
        folder=$own
        [ "$block" = "${block%.top}" ] || folder=$work/copy
        : >"$work/skips"
        to_script "$readme" "$block" >"$work/script"
        cat "$work/skips"
        skipped=$((skipped + $(wc -l <"$work/skips")))
        rm "$block"
        n=$((n + 1))
        [ -s "$work/script" ] || continue
        begun=$(date +%s)
        if (cd "$folder" && sh -eux "$work/script") </dev/null >"$work/printed" 2>"$work/said" &&
            prints_what_it_says "$work/says.$((n - 1))"; then
            passed=$((passed + 1))
            echo "ok: $readme, block $((n - 1)), $(($(date +%s) - begun)) s: $(head -1 "$work/script")"
        else
            failed=$((failed + 1))
            echo "FAILED: $readme, block $((n - 1)), $(($(date +%s) - begun)) s"
            sed 's/^/    /' "$work/printed" "$work/said"
        fi
    done
    [ "$n" -gt 1 ] || { failed=$((failed + 1)); echo "FAILED: $readme has no commands"; }
done
finish
