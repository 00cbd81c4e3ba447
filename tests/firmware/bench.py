#!/usr/bin/env python3
"""Measures the archives of `make firmware` on every processor as the emulator has it, and prints the tables of docs/FIRMWARE.md: the
bytes of each call, with all that it calls in the archive; its stack at the deepest, painted and looked at in every call that the
comparison makes; its instructions on an input of a usual size, as the emulator counts them."""

import struct
import subprocess
import sys
from pathlib import Path

HERE = Path(__file__).resolve().parent
ROOT = HERE.parent.parent
sys.path[:0] = [str(HERE), str(ROOT / "firmware")]
from machines import ARCHIVES, MACHINES, WORK, built, emulated, want_tools  # noqa: E402
from make_archives import HELPERS  # noqa: E402
from run import RECORD, SOURCES, names  # noqa: E402

STACK_CALLS = 20000
COUNTED = ["-icount", "shift=0"]

OPERATIONS = ["ADD", "SUB", "MUL", "DIV", "LT"]

# How many nanoseconds a tick of a Cortex-M's timer takes on its board.
TICKS = {"cortex-m0plus": 40, "cortex-m4f": 40, "cortex-m33": 50, "cortex-m7": 40}


def code_bytes(target, archive, name):
    """The bytes of a call's code and of all that it calls in the archive."""
    machine, linked = MACHINES[target], WORK / target / "linked.o"
    entry = f"hullashlar_{name}"
    subprocess.run([machine.prefix + "gcc", *machine.words, "-nostdlib", "-r", "-Wl,--gc-sections", f"-Wl,-e,{entry}", f"-Wl,-u,{entry}",
                    str(archive), "-o", str(linked)], check=True)
    sizes = subprocess.run([machine.prefix + "size", str(linked)], check=True, stdout=subprocess.PIPE, text=True).stdout
    return int(sizes.splitlines()[1].split()[0])


def deepest(target, archive):
    """The deepest stack of each call."""
    program = built(target, "stacks", SOURCES, [archive], ["-DSTACKS", f"-DCALLS={STACK_CALLS}"])
    found = [0] * len(names())
    for call, _, depth in RECORD.iter_unpack(emulated(target, program)):
        found[call] = max(found[call], depth)
    return found


def counted(target, archive):
    """The instructions of each call on an input of a usual size."""
    program = built(target, "counts", ["counts.c", "inputs.c"], [archive], [f"-DTICK={TICKS.get(target, 1)}"])
    return [each for each, in struct.iter_unpack("<Q", emulated(target, program, COUNTED))]


def operations(target, archive, names):
    """The instructions of each operation on doubles, by the functions of these names."""
    words = [f"-D{operation}={name}" for operation, name in zip(OPERATIONS, names)]
    program = built(target, "operations", ["operations.c", "inputs.c"], [archive], [*words, f"-DTICK={TICKS.get(target, 1)}"])
    return [each for each, in struct.iter_unpack("<Q", emulated(target, program, COUNTED))]


def doubles_table(targets):
    """Our doubles beside the compiler's, where the processor has none: each operation, and two calls that are made of them."""
    print(f"\nDoubles in whole numbers:\n\n| Target | Doubles | {' | '.join(map(str.lower, OPERATIONS))} | quick_query | build |")
    print(f"|---|---|{'--:|' * (len(OPERATIONS) + 2)}")
    for target in targets:
        helpers = {ours: helper for helper, ours in HELPERS[target].items()}
        ours = [f"hullashlar_soft_{operation.lower()}" for operation in OPERATIONS]
        theirs = [helpers.get(name) or helpers["hullashlar_soft_ltdf2"] for name in ours]
        for whose, functions, folder in [("ours", ours, ""), ("libgcc's", theirs, "plain")]:
            archive = ARCHIVES / target / folder / "libhullashlar.a"
            calls = dict(zip(names(), counted(target, archive)))
            cells = [*operations(target, archive, functions), calls["quick_query"], calls["build"]]
            print(f"| {target} | {whose} | {' | '.join(f'{cell:,}' for cell in cells)} |")


def table(title, columns):
    """A table with a row for each call and a column for each target, of one number or of two."""
    print(f"\n{title}\n\n| Call | {' | '.join(f'`{target}`' for target in columns)} |\n|---|{'--:|' * len(columns)}")
    for number, name in enumerate(names()):
        cells = [" / ".join(f"{figure:,}" for figure in column[number]) for column in columns.values()]
        print(f"| `{name}` | {' | '.join(cells)} |")


def of_both(measure, targets, doubles=""):
    """What is measured of each call, by the archive for size and by that for speed; where a processor has no doubles, by those archives
    whose doubles are in a folder of this name."""
    archives = {target: [ARCHIVES / target / (doubles if target in HELPERS else "") / folder / "libhullashlar.a" for folder in ["size", ""]]
                for target in targets}
    return {target: list(zip(*[measure(target, archive) for archive in archives[target]])) for target in targets}


def all_code_bytes(target, archive):
    return [code_bytes(target, archive, name) for name in names()]


def main():
    targets = sys.argv[1:] or list(MACHINES)
    want_tools()
    for target in targets:
        (WORK / target).mkdir(parents=True, exist_ok=True)
    table("Bytes of code, for size / for speed:", of_both(all_code_bytes, targets))
    table("Bytes of stack, for size / for speed:", of_both(deepest, targets))
    table("Instructions, for size / for speed:", of_both(counted, targets))
    cortex_m = [target for target in targets if target in TICKS]
    table("Instructions with the compiler's doubles, for size / for speed:", of_both(counted, cortex_m, "plain"))
    doubles_table([target for target in targets if target in HELPERS])


if __name__ == "__main__":
    main()
