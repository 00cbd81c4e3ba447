#!/usr/bin/env python3
"""Measures the report on streams of sheets of 16×16: sheets a second of processor time, the memory that it holds, and the
instructions of a sheet, which valgrind counts. Fails where a stream of more sheets needs more memory."""

import re
import resource
import statistics
import subprocess
import sys
import tempfile
from pathlib import Path

ROOT = Path(__file__).resolve().parent.parent
sys.dont_write_bytecode = True
sys.path.insert(0, str(ROOT / "examples"))

from gain_sheet import SECOND_DERIVATIVE, packed  # noqa: E402

PROGRAM = ROOT / "target" / "bin" / "sheet_report"
STREAMS = [1_000, 10_000]
ROUNDS = 7

# The streams of which instructions are counted; the sheets between them are what is divided by.
COUNTED = [100, 600]

# Knots by steps that are not all alike, and samples that go up and down.
AXIS = ([knot + 0.125 * (knot % 3) for knot in range(16)], [SECOND_DERIVATIVE] * 2, [0.0, 0.0])
SHEET = packed([AXIS, AXIS], [7 * number % 11 / 2 for number in range(256)])

# By how many KiB of its own two runs on the same stream may differ: where the stack begins is the system's to say.
BETWEEN_RUNS = 16


def processor_seconds():
    """What all programs run so far have used, in the system too."""
    used = resource.getrusage(resource.RUSAGE_CHILDREN)
    return used.ru_utime + used.ru_stime


def run(sheets, *before):
    """Runs the report on a file of so many sheets, with these words before it, and answers what is said on standard error."""
    with tempfile.TemporaryFile() as stream:
        stream.write(SHEET * sheets)
        stream.seek(0)
        done = subprocess.run([*before, PROGRAM], stdin=stream, capture_output=True, check=True)
    if not done.stdout.endswith(b"\nend\n"):
        sys.exit(f"the stream was not read to its end:\n{done.stdout.decode()}")
    return done.stderr


def seconds(sheets):
    """The processor time of the report."""
    before = processor_seconds()
    run(sheets)
    return processor_seconds() - before


def instructions(sheets):
    """The instructions of the report."""
    said = run(sheets, "valgrind", "--tool=callgrind", "--callgrind-out-file=/dev/null")
    return int(re.search(rb"Collected : (\d+)", said).group(1))


def memory(sheets):
    """When all was taken but what a pipe holds: the most KiB that were resident, and those of the program's own, without what it
    shares with others."""
    with subprocess.Popen([PROGRAM], stdin=subprocess.PIPE, stdout=subprocess.DEVNULL) as run:
        run.stdin.write(SHEET * sheets)
        run.stdin.flush()
        lines = Path(f"/proc/{run.pid}/status").read_text().splitlines()
    status = dict(line.split(":", 1) for line in lines)
    return [int(status[name].split()[0]) for name in ("VmHWM", "RssAnon")]


def main():
    print("\n| Sheets of 16×16 in a stream | Bytes | Sheets a second | Most KiB resident | KiB of its own |")
    print("|--:|--:|--:|--:|--:|")
    held = []
    for sheets in STREAMS:
        median = statistics.median(seconds(sheets) for _ in range(ROUNDS))
        most, own = memory(sheets)
        held.append(own)
        print(f"| {sheets:,} | {sheets * len(SHEET):,} | {round(sheets / median):,} | {most:,} | {own:,} |")
    fewer, more = map(instructions, COUNTED)
    print(f"\n{(more - fewer) // (COUNTED[1] - COUNTED[0]):,} instructions a sheet")
    if held[-1] > held[0] + BETWEEN_RUNS:
        sys.exit("memory grows with the sheets")


if __name__ == "__main__":
    main()
