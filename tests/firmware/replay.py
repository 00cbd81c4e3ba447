"""The replay program on each processor: its module is kept and compiled as the archive's is, and what it prints of the oracle's fixed
list of answers is held against what it prints on x86-64."""

import sys

import make_archives
import module
from machines import ARCHIVES, ROOT, WORK, built, emulated

CRATE = "trial_replay"
FOLDER = ROOT / "crates" / CRATE


def hold(targets):
    """Runs the list on each target, where a processor has no doubles by those of its archive."""
    text = module.of_program(CRATE)
    expected = (FOLDER / "stdout").read_bytes()
    for target in targets:
        code = WORK / target / "replay" / "replay.o"
        code.parent.mkdir(parents=True, exist_ok=True)
        doubles = ARCHIVES / target / "libhullashlar.a"
        objects = [make_archives.compiled(text, target, "size", code), doubles]
        program = built(target, "replay", ["replay.c"], objects, [f'-DLIST="{FOLDER / "stdin"}"'])
        printed = emulated(target, program)
        last = printed.decode(errors="replace").rstrip().rsplit("\n", 1)[-1]
        print(f"{target}, the replay list: {last}", flush=True)
        if printed != expected:
            sys.exit(f"{target}: the replay program prints something else")
