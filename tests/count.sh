# Counts the parts that passed, failed and were skipped. The test scripts source this file.
#
# `part` runs a command, and prints 'ok' with the text of the output's line that begins with '= ', or 'FAILED' with the end of the
# output. `has` and `skip` print 'skipped' with the missing tool. `finish` ends the script with the line that counts the parts; the
# status is 0 only if nothing failed. $work is a folder that is removed at the end.
# shellcheck shell=sh
work=$(mktemp -d)
trap 'rm -rf "$work"' EXIT
passed=0
failed=0
skipped=0

part() { # NAME COMMAND..
    name=$1
    shift
    if "$@" </dev/null >"$work/said" 2>&1; then
        passed=$((passed + 1))
        echo "ok: $name$(sed -n '/^= /{s/^= /: /p;q}' "$work/said")"
    else
        failed=$((failed + 1))
        echo "FAILED: $name"
        tail -n 50 "$work/said" | sed 's/^/    /'
        return 1
    fi
}

skip() { # PART REASON
    skipped=$((skipped + 1))
    echo "skipped: $1: $2"
}

has() { # TOOL-OR-FILE PACKAGE PART
    if command -v "$1" >/dev/null || [ -f "$1" ]; then return 0; fi
    skip "$3" "needs Debian's $2"
    return 1
}

prints() { # EXPECTED COMMAND..: the command prints this line
    expected=$1
    shift
    "$@" >"$work/printed" && printf '%s\n' "$expected" | diff - "$work/printed"
}

finish() {
    echo "$passed passed, $failed failed, $skipped skipped"
    [ "$failed" -eq 0 ]
    exit
}
