#!/usr/bin/env python3
"""Makes wrong changes to jcobs.c, one at a time, and shows which part of this folder notices each.

usage: check/wrong.py [--markdown] [--seconds SECONDS] [--steps STEPS] [NUMBER..]

For each change it compiles steps.c with the changed file, with sanitizers, and runs it; and it gives Frama-C the clause of
the changed function that the change contradicts. The clause is rejected if a goal of it has no proof within SECONDS and
STEPS of a prover, by default 20 and 1500000; without the change, each is proved. Run it on a machine with little other work,
or give it more seconds and fewer steps, so that the outcome doesn't depend on the machine's speed.

It prints a line for each change; the status is 0 only if Frama-C notices each. Three changes are wrong only for one sentinel or
for long frames, and steps.c needn't notice them.
"""
import argparse
import os
import subprocess
import sys
import tempfile
from pathlib import Path

TOP = Path(__file__).resolve().parent.parent
sys.dont_write_bytecode = True
sys.path.insert(0, str(TOP / "check/frama-c"))
import annotate  # noqa: E402
import prove  # noqa: E402

FLAGS = ["-std=c99", "-O1", "-fsanitize=address,undefined", "-fno-sanitize-recover=all", "-DMARGIN=0", "-DDEPTH=3"]
# The function, the clause, what the text says, which of these places (0 is the first), and what it says then.
DECODER = [
    ("jcobs_joint_after", "", "code == JCOBS_FULL_CODE ? 0 : 1", 0, "code == JCOBS_FULL_CODE ? 1 : 0"),
    ("jcobs_decoder_take_byte", "@rte", "dest_size <= at", 0, "dest_size < at"),
    ("jcobs_decoder_take_byte", "stepped", "dest[at] = byte;", 0, "dest[at] = 0;"),
    ("jcobs_decoder_take_byte", "stepped", "decoder->missing--;", 0, ";"),
    ("jcobs_decoder_take_byte", "stepped", "decoder->joint != 0", 0, "decoder->joint == 0"),
    ("jcobs_decoder_take_byte", "stepped", "(byte - 1)", 0, "(byte)"),
    ("jcobs_decoder_init", "", "decoder->joint = 0;", 0, "decoder->joint = 1;"),
    ("jcobs_decoder_zeros_outside", "stop", "return len;", 0, "return 0;"),
    ("jcobs_decoder_take_steps", "no_sentinel", "byte == 0 || ", 0, "byte == 1 || "),
    ("jcobs_decoder_take_steps", "byte", "bytes[taken] ^ sentinel", 0, "bytes[taken] ^ (sentinel & 127)"),
    ("jcobs_decoder_take_steps", "steps", "decoder->joint = state.joint;", 0, ";"),
    ("jcobs_decoder_take_run", "@requires", "decoder->too_long != 0", 0, "decoder->too_long > 1"),
    ("jcobs_decoder_end_piece", "reported", "before.missing != 0", 0, "before.missing > 1"),
    ("jcobs_decoder_end_piece", "reported", "buffer_size < before.written", 0, "buffer_size <= before.written"),
    ("jcobs_decoder_end_piece", "reported", " && before.joint == 0", 0, ""),
    ("jcobs_decoder_take_bytes", "through_sentinel", "end.count, next)", 0, "end.count, taken)"),
    ("jcobs_decoder_take_bytes", "too_long", "decoder->too_long = 1;", 0, "decoder->too_long = 0;"),
    ("jcobs_decoder_take_bytes", "through_sentinel", "JCOBS_END_TOO_LONG, 0, end + 1", 0, "JCOBS_END_TOO_LONG, 0, end"),
    ("jcobs_decode_first", "piece", "end_of_frame.count, source_len", 0, "end_of_frame.count, source_len - 1"),
    ("jcobs_decoder_answer", "broken", "ended.length = jcobs_min(ended.length, buffer_size);", 0, ";"),
    ("jcobs_decoder_is_idle", "", "decoder->joint == 0 && ", 0, ""),
]  # fmt: skip
ENCODER = [
    ("jcobs_encoder_has_room", "", "/ 128 < spare", 0, "/ 128 <= spare"),
    ("jcobs_encoder_has_room", "", "next - next / 2", 0, "next / 2"),
    ("jcobs_encoder_has_room", "", "room <= next", 0, "room < next"),
    ("jcobs_encoder_has_room", "", "taken >= JCOBS_FULL_BLOCK_BYTES", 0, "taken > JCOBS_FULL_BLOCK_BYTES"),
    ("jcobs_fits", "", "code == JCOBS_FULL_CODE", 0, "code == JCOBS_FULL_CODE - 1"),
    ("jcobs_encoder_append_byte", "taken", "== JCOBS_FULL_BLOCK_BYTES", 0, "== JCOBS_FULL_BLOCK_BYTES - 1"),
    ("jcobs_encoder_append_byte", "full", "encoder->full = 1;", 0, "encoder->full = 0;"),
    ("jcobs_encoder_append_byte", "byte", "dest[next] = byte;", 0, "dest[index] = byte;"),
    ("jcobs_encoder_append_byte", "code", "(unsigned char)code;", 0, "1;"),
    ("jcobs_encoder_append_byte", "full_code", "dest[index] = JCOBS_FULL_CODE;", 0, "dest[index] = 254;"),
    ("jcobs_encoder_append_steps", "byte", "bytes[i]", 0, "bytes[0]"),
    ("jcobs_encoder_append_steps", "state", "*encoder = state;", 0, ";"),
    ("jcobs_encoder_close_block", "length", "encoder->index + code", 0, "encoder->index"),
    ("jcobs_encoder_try_finish", "ok", "jcobs_encoder_init(encoder);", 0, ";"),
    ("jcobs_terminated_answer", "ok", "frame.length + 1", 0, "frame.length"),
]  # fmt: skip
# In place, for a sentinel, and the texts.
OTHERS = [
    ("jcobs_write_in_place", "read", "buffer[start + taken]", 0, "buffer[taken]"),
    ("jcobs_encode_in_place", "status", "buffer_size - start < message_len", 0, "buffer_size - start <= message_len"),
    ("jcobs_kept_len", "kept", "len - at < code", 0, "len - at <= code"),
    ("jcobs_decode_in_place", "bounds", "jcobs_min(buffer_len, frame_len + 1)", 0, "frame_len + 1"),
    ("jcobs_frame_kind", "longer", "after_full && code == 1", 0, "code == 1"),
    # Three that only Frama-C notices: each is wrong for long frames, or for one sentinel.
    ("jcobs_try_write_frame_for", "encoded", "length, sentinel)", 0, "length, length > 2048 ? 0 : sentinel)"),
    ("jcobs_try_write_frame_for", "encoded", "length, sentinel)", 0, "length, sentinel == 128 ? 0 : sentinel)"),
    ("jcobs_read_in_place_for", "bytes", "buff_size, sentinel)", 0, "buff_size > 4096 ? buff_size - 1 : buff_size, sentinel)"),
    ("jcobs_strerror", "@rte", "length + 1 < text_size", 0, "length < text_size + 1"),
]  # fmt: skip
CHANGES = DECODER + ENCODER + OTHERS


def changed(source, name, before, which, after):
    """The source with this change in a function."""
    lines = source.splitlines(keepends=True)
    first, last = annotate.functions_of(source)[name]
    text = "".join(lines[first : last + 1])
    at = -1
    for _ in range(which + 1):
        at = text.find(before, at + 1)
        if at < 0:
            sys.exit(f"{name} has no '{before}' at the place {which}")
    return "".join([*lines[:first], text[:at] + after + text[at + len(before) :], *lines[last + 1 :]])


def compiled(folder, source, name):
    """Compiles a file of C with sanitizers."""
    command = [os.environ.get("CC", "cc"), *FLAGS, f"-I{TOP}/bindings/c/include", "-c", "-o", str(folder / name)]
    subprocess.run([*command, str(source)], check=True)


def steps_notice(folder, text):
    """Whether steps.c, which is compiled already, fails with this text of jcobs.c."""
    (folder / "changed.c").write_text(text)
    compiled(folder, folder / "changed.c", "changed.o")
    linked = [os.environ.get("CC", "cc"), *FLAGS, "-o", str(folder / "steps")]
    subprocess.run([*linked, str(folder / "steps.o"), str(folder / "changed.o")], check=True)
    try:
        return subprocess.run([folder / "steps"], capture_output=True, timeout=600).returncode != 0
    except subprocess.TimeoutExpired:
        return True


def frama_c_rejects(folder, environment, text, name, clause, limits):
    """Whether Frama-C has no proof of a clause of this function in this text."""
    copy = folder / "copy.c"
    copy.write_text(annotate.annotated(text, annotate.table()))
    (model,) = [model for model, functions in prove.models(text, [name]).items() if functions]
    asked = "-wp-prop=" + {"": "-@assigns", "@rte": "rte"}.get(clause, clause)
    command = ["frama-c", *prove.READ, str(copy), "-wp", "-wp-rte", "-wp-split", "-wp-prover", "z3,cvc4", *limits]
    said = subprocess.run(
        [*command, "-wp-model", model, "-wp-fct", name, asked], env=environment, capture_output=True, text=True
    ).stdout
    count = prove.COUNT.search(said)
    if not count or count[2] == "0":
        sys.exit(f"{name}: Frama-C has no goal for '{asked}'\n" + "\n".join(said.splitlines()[-5:]))
    return count[1] != count[2]


def row(folder, environment, number, limits):
    """The words of the table for a change, and whether Frama-C notices it."""
    name, clause, before, which, after = CHANGES[number - 1]
    text = changed(prove.SOURCE.read_text(), name, before, which, after)
    noticed = steps_notice(folder, text), frama_c_rejects(folder, environment, text, name, clause, limits)
    by = {"": "the result", "@rte": "each access", "@requires": "what a call requires"}.get(clause, f"`{clause}`")
    said = f"`{before.strip()}` is removed" if after in ("", ";") else f"`{before}` becomes `{after}`"
    words = ["noticed" if seen else "not noticed" for seen in noticed]
    return [str(number), f"`{name}`", said.replace("|", "\\|"), words[0], f"{words[1]}, by {by}"], noticed[1]


def main():
    parser = argparse.ArgumentParser()
    parser.add_argument("--markdown", action="store_true")
    parser.add_argument("--seconds", type=int, default=20)
    parser.add_argument("--steps", type=int, default=1500000)
    parser.add_argument("numbers", type=int, nargs="*")
    options = parser.parse_args()
    limits = ["-wp-steps", str(options.steps), "-wp-timeout", str(options.seconds), "-wp-par", "2"]
    missed = 0
    with tempfile.TemporaryDirectory() as made:
        folder = Path(made)
        environment = prove.configured(folder)
        compiled(folder, TOP / "check/steps.c", "steps.o")
        for number in options.numbers or range(1, len(CHANGES) + 1):
            words, rejected = row(folder, environment, number, limits)
            missed += not rejected
            print("| " + " | ".join(words) + " |" if options.markdown else "  ".join(words), flush=True)
    print(f"= {missed} changes aren't noticed by Frama-C", file=sys.stderr)
    sys.exit(1 if missed else 0)


if __name__ == "__main__":
    main()
