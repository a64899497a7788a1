#!/bin/sh
# Is clang for prebuilt.sh: hardened.sh CLANG ARGUMENT..
#
# The module is compiled as rattle says, and besides:
# - on x86-64 with call frame information (.debug_frame, which isn't loaded), so that a debugger names the caller of a call that
#   crashes; for aarch64, clang writes none;
# - with landing pads at the calls and the notes which say so: IBT and SHSTK on x86-64, BTI on aarch64. A program that is hardened
#   by these stays so only if all that it links has them;
# - for x86-64 with no jump that touches a multiple of 32 bytes. Intel's processors from Skylake to Cascade Lake decode such a
#   jump anew each time, and a loop may take a fifth longer, as it happens to lie.
set -eu
clang=$1
shift
module=
target=
for word; do
    case $word in
    *.bc) module=$word ;;
    --target=*) target=$word ;;
    esac
done
[ -n "$module" ] || exec "$clang" "$@"

# clang takes these from its options only if it compiles C, so they are written into the module.
"$clang" "$target" --no-default-config -Werror -S -emit-llvm -Xclang -disable-llvm-passes -x ir "$module" -o "$module.ll"
case $target in
--target=x86_64-*)
    set -- -mbranches-within-32B-boundaries "$@"
    cat >>"$module.ll" <<'END'
!llvm.module.flags = !{!1000000, !1000001}
!1000000 = !{i32 1, !"cf-protection-branch", i32 1}
!1000001 = !{i32 1, !"cf-protection-return", i32 1}
END
    ;;
--target=aarch64-*)
    sed -i 's/^attributes #[0-9]* = { /&"branch-target-enforcement" /' "$module.ll"
    cat >>"$module.ll" <<'END'
!llvm.module.flags = !{!1000000}
!1000000 = !{i32 1, !"branch-target-enforcement", i32 1}
END
    ;;
*) echo "hardened.sh: no notes are known for $target" >&2; exit 1 ;;
esac
for word; do
    shift
    [ "$word" != "$module" ] || word=$module.ll
    set -- "$@" "$word"
done
exec "$clang" -fforce-dwarf-frame "$@"
