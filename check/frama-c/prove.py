#!/usr/bin/env python3
"""Proves the contracts of the files *.acsl for jcobs.c with Frama-C.

usage: check/frama-c/prove.py [--short] [--source FILE] [--cache FOLDER] [--jobs NUMBER] [FUNCTION..]

It needs Debian's frama-c-base, why3, z3 and cvc4. annotate.py writes a copy of jcobs.c, or of FILE, with the contracts in
it; then the plug-in WP makes the goals of each function, or only of the named ones, and gives them to the two provers. With
--short it leaves out the functions that take many bytes. The goals are those of the contract, and for each access, division,
shift and signed operation that C defines it. A prover stops after a number of its own steps, so that the outcome doesn't
depend on the machine's speed. With a cache, goals that were proved before aren't proved again. NUMBER provers run at a
time, 2 if it isn't given.

It prints each goal without a proof, and then the number of goals; the status is 0 only if all are proved.
"""
import argparse
import os
import re
import subprocess
import sys
import tempfile
from pathlib import Path

sys.dont_write_bytecode = True
import annotate

TOP = annotate.HERE.parent.parent
SOURCE = TOP / "bindings/c/source/jcobs.c"
# How the file is read: as for a processor with 64 bits. Without __GNUC__, the header's type of a status is unsigned int; what
# it says to GCC alone, Frama-C doesn't know.
READ = ["-machdep", "x86_64", "-simplify-cfg", f"-cpp-extra-args=-I{TOP}/bindings/c/include -U__GNUC__"]
# Steps of a prover, and seconds that are only for a prover that hangs.
PROVE = ["-wp", "-wp-rte", "-wp-split", "-wp-prover", "z3,cvc4", "-wp-steps", "1500000", "-wp-timeout", "600"]
# Seconds after which a run of Frama-C fails, which only one that hangs takes.
LIMIT = 4 * 3600
LOCAL = re.compile(r"&(?:state|encoder|decoder|byte)\b")
GOAL = re.compile(r"^\[wp\] .*Goal typed_(?:cast_)?(?:ref_)?(\w+)(?! : Valid)\b(?!.* : Valid)", re.M)
# The functions that take many bytes, whose goals need most of the time.
LONG = [
    "frame_grows", "frame_goes_on", "after_sentinels", "output_grows", "block_goes_on", "jcobs_fits", "jcobs_encoder_has_room",
    "jcobs_encoder_append", "jcobs_encoder_append_steps", "jcobs_write_frame", "jcobs_encoder_try_push", "jcobs_encode_terminated",
    "jcobs_decoder_take_steps", "jcobs_decoder_take_run", "jcobs_decoder_take_blocks", "jcobs_decoder_take_bytes",
    "jcobs_decode_first", "jcobs_decode_blocks", "jcobs_read_frame_for", "jcobs_frame_kind",
    "jcobs_write_in_place", "jcobs_encode_in_place", "jcobs_decoder_take_in_place", "jcobs_decode_blocks_in_place",
    "jcobs_read_in_place_for", "jcobs_decode_in_place", "jcobs_decode_in_place_with_sentinel", "jcobs_decode_with_sentinel",
    "jcobs_decoder_push", "jcobs_decoder_push_with_sentinel", "jcobs_encoder_push", "jcobs_try_write_frame_for",
    "jcobs_encode_with_sentinel", "jcobs_encode_terminated_with_sentinel", "jcobs_strerror",
]  # fmt: skip
COUNT = re.compile(r"\[wp\] Proved goals: +(\d+) / (\d+)")


def lemmas():
    """What is proved as a function that only Frama-C sees."""
    return [title.partition(",")[0] for title, said in annotate.table().items() if said[""].startswith("ghost")]


def models(source, names):
    """The functions that have a contract, by the model of memory that WP needs.

    A function that has a cast from void * needs one with casts. One that has a state as a local variable, and passes its
    address, is proved with references: for WP each state is then a variable of its own.
    """
    lines = source.splitlines()
    found = {}
    for name, (first, last) in annotate.functions_of(source).items():
        if name in annotate.table() and (not names or name in names):
            text = "\n".join(lines[first:last])
            model = "Typed" + "+cast" * ("void *" in text) + "+ref" * bool(LOCAL.search(text))
            found.setdefault(model, []).append(name)
    found.setdefault("Typed", []).extend(name for name in lemmas() if name in names or not names)
    return found


def configured(folder):
    """The environment in which Why3 knows the provers, without a file in the home folder."""
    environment = {**os.environ, "WHY3CONFIG": str(folder / "why3.conf")}
    if "WHY3CONFIG" in os.environ:
        return dict(os.environ)
    subprocess.run(["why3", "config", "detect"], env=environment, check=True, stdout=subprocess.DEVNULL, stderr=subprocess.DEVNULL)
    return environment


def proved(source, names, cache=None, jobs=2):
    """The number of goals, and the names of those without a proof; None if Frama-C doesn't take the file."""
    with tempfile.TemporaryDirectory() as made:
        folder = Path(made)
        copy = folder / "jcobs.c"
        copy.write_text(annotate.annotated(source, annotate.table()))
        environment = configured(folder)
        kept = ["-wp-cache", "update", "-wp-cache-dir", str(cache)] if cache else []
        goals, failed = 0, []
        for model, functions in models(source, names).items():
            if functions:
                command = ["frama-c", *READ, str(copy), *PROVE, *kept, "-wp-par", str(jobs), "-wp-model", model]
                command += ["-wp-fct", ",".join(functions)]
                said = subprocess.run(command, env=environment, capture_output=True, text=True, timeout=LIMIT).stdout
                count = COUNT.search(said)
                if not count:
                    print("\n".join(said.splitlines()[-20:]))
                    return None
                goals += int(count[2])
                open_goals = GOAL.findall(said)
                failed += open_goals
                if int(count[2]) - int(count[1]) > len(open_goals):
                    failed.append("some goal")
        return goals, failed


def main():
    parser = argparse.ArgumentParser()
    parser.add_argument("--source", type=Path, default=SOURCE)
    parser.add_argument("--cache", type=Path)
    parser.add_argument("--jobs", type=int, default=2)
    parser.add_argument("--short", action="store_true")
    parser.add_argument("functions", nargs="*")
    options = parser.parse_args()
    if options.short:
        options.functions = [name for name in annotate.table() if name not in LONG]
    found = proved(options.source.read_text(), options.functions, options.cache, options.jobs)
    if found is None:
        sys.exit(2)
    goals, failed = found
    for goal in failed:
        print(f"no proof of {goal}")
    print(f"= {goals - len(failed)} of {goals} goals are proved")
    sys.exit(1 if failed else 0)


if __name__ == "__main__":
    main()
