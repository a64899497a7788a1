# Tests the built library with debuggers and linkers. run.sh sources this file.
#
# run.sh defines $work, $at, $flags and calls.
# shellcheck shell=sh
# shellcheck disable=SC2016,SC2086,SC2154

# Makes calls with an invalid pointer, each in a separate function.
crashing() {
    printf '#include <jcobs.h>\n#include <string.h>\nstatic unsigned char *const nowhere = (unsigned char *)64;\nstatic unsigned char buffer[1000];\n'
    printf 'static jcobs_decoder decoder;\nstatic jcobs_encoder encoder;\nstatic unsigned int sum;\n'
    while read -r crash call; do
        printf 'static void calls_%s(void)\n{\n    sum += (unsigned int)%s;\n    sum++;\n}\n' "$crash" "$call"
    done
    printf 'int main(int argc, char **argv)\n{\n    (void)argc;\n'
    for crash in $crashes; do
        printf '    if (strcmp(argv[1], "%s") == 0)\n        calls_%s();\n' "$crash" "$crash"
    done
    printf '    return sum == 0;\n}\n'
}

crashes='encode terminated in_place decode decode_in_place push feed encoder_push encoder_feed kind'

# A call crashes: the debugger names the call, and the function that made the call.
crash_names_caller() {
    crashing >"$work/crash.c" <<'END'
encode jcobs_encode(nowhere, 900, buffer, 1000).status
terminated jcobs_encode_terminated(nowhere, 900, buffer, 1000).status
in_place jcobs_encode_in_place(nowhere, 1000, 4, 900).status
decode jcobs_decode(nowhere, 900, buffer, 1000).status
decode_in_place jcobs_decode_in_place(nowhere, 900).status
push jcobs_decoder_push(&decoder, buffer, 1000, nowhere, 900).status
feed (jcobs_decoder_feed(&decoder, nowhere, 9, 3).status + jcobs_decoder_feed(&decoder, nowhere, 9, 3).status)
encoder_push jcobs_encoder_push(&encoder, buffer, 1000, nowhere, 900).status
encoder_feed jcobs_encoder_feed(&encoder, nowhere, 1000, 3).status
kind jcobs_frame_kind(nowhere, 900)
END
    "${CC:-cc}" -std=c99 -g -O0 -w -Iinclude "$work/crash.c" "$at/libjcobs.a" -o "$work/crash" || return 1
    for crash in $crashes; do
        gdb -nx -batch -ex 'set confirm off' -ex run -ex backtrace --args "$work/crash" "$crash" >"$work/backtrace" 2>&1
        if ! grep -q 'SIGSEGV' "$work/backtrace" || ! grep -q '^#[0-3] .*jcobs_' "$work/backtrace" ||
            ! grep -q "^#[1-4] .* calls_$crash ()" "$work/backtrace" || ! grep -q '^#[2-5] .* main (' "$work/backtrace"; then
            echo "$crash:"
            cat "$work/backtrace"
            return 1
        fi
    done
}

# Each call begins with a landing pad, and the object has the note that declares this.
landing_pads() { # ARCHIVE OBJDUMP PROPERTY PAD
    readelf -n "$1" | grep -q "$3" || { readelf -n "$1"; return 1; }
    "$2" -d --no-show-raw-insn "$1" | awk -v pad="$4" '/^[0-9a-f]+ <jcobs_[a-z_0-9]*>:$/ { name = $2; getline; print name, ($2 == pad ? "yes" : "no"), $0 }' >"$work/pads"
    ! grep -v ' yes ' "$work/pads" && [ "$(wc -l <"$work/pads")" = "$(calls | wc -l)" ]
}

# A hardened program is linked. The linker names each object without the notes, and names none of this library.
links_hardened() { # COMPILER ARCHIVE FLAG..
    compiler=$1
    archive=$2
    shift 2
    "$compiler" -std=c99 -Iinclude "$@" examples/send_lines.c "$archive" -o "$work/hardened" 2>"$work/named" || { cat "$work/named"; return 1; }
    ! grep 'cobs_c' "$work/named"
}

hardened_x86_64() {
    landing_pads "$at/libjcobs.a" objdump 'x86 feature: IBT, SHSTK' endbr64 &&
        links_hardened "${CC:-cc}" "$at/libjcobs.a" -fcf-protection=full -Wl,-z,cet-report=warning
}

hardened_aarch64() {
    archive=prebuilt/aarch64-linux/libjcobs.a
    landing_pads $archive aarch64-linux-gnu-objdump 'AArch64 feature: BTI' bti &&
        links_hardened aarch64-linux-gnu-gcc $archive -mbranch-protection=standard -Wl,-z,force-bti
}
