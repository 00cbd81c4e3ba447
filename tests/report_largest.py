#!/usr/bin/env python3
"""Runs the report on as many sheets as it takes and on a byte more, and holds what it prints against what the rules say and
against the oracle, which reads the same stream. The sheets are the shortest that are accepted, made as they are asked for."""

import subprocess
import sys
from pathlib import Path

ROOT = Path(__file__).resolve().parent.parent
sys.dont_write_bytecode = True
sys.path.insert(0, str(ROOT / "examples"))

from gain_sheet import PERIODIC, packed  # noqa: E402

PROGRAM = ROOT / "target" / "bin" / "sheet_report"
ORACLE = ROOT / "oracle" / "target" / "release" / "report"

MOST_SHEETS = 1_000_000
AT_ONCE = 10_000

# A periodic axis with one interval: its moments are zero, so that its tensor is 0 5, 5 5.
SHEET = packed([([0.0, 1.0], [PERIODIC, PERIODIC], [])], [0.0, 5.0])
FIVE = "4014000000000000"


def report(sheets, accepted, refused, last):
    """The lines of the report over so many accepted sheets."""
    lines = [f"sheets {sheets}", f"accepted {accepted}", *refused]
    lines.append(f"order 0 {2 * accepted} {accepted} {FIVE}")
    lines.append(f"order 1 {2 * accepted} {2 * accepted} {FIVE}")
    lines += [f"order {order} 0 0 {0:016X}" for order in (2, 3, 4)]
    return "".join(line + "\n" for line in [*lines, last])


# For each stream how many sheets it has, what stands behind them, and its report.
STREAMS = {
    "a million sheets": (MOST_SHEETS, b"", report(MOST_SHEETS, MOST_SHEETS, [], "end")),
    "a byte more": (MOST_SHEETS, b"\0", report(MOST_SHEETS, MOST_SHEETS, [], "stopped")),
    "a sheet more": (MOST_SHEETS, SHEET, report(MOST_SHEETS, MOST_SHEETS, [], "stopped")),
    "one fewer and a byte": (MOST_SHEETS - 1, b"\0", report(MOST_SHEETS, MOST_SHEETS - 1, ["refused 12 1"], "stopped")),
}


def printed(program, sheets, behind):
    """What a program prints of a stream."""
    with subprocess.Popen([program], stdin=subprocess.PIPE, stdout=subprocess.PIPE) as run:
        try:
            for begin in range(0, sheets, AT_ONCE):
                run.stdin.write(SHEET * min(AT_ONCE, sheets - begin))
            run.stdin.write(behind)
            run.stdin.close()
        except BrokenPipeError:
            pass
        return run.stdout.read().decode()


def main():
    faults = []
    for name, (sheets, behind, expected) in STREAMS.items():
        for side, program in (("the oracle", ORACLE), ("the report", PROGRAM)):
            found = printed(program, sheets, behind)
            print(f"{name}, {side}: {'as the rules say' if found == expected else found}", flush=True)
            if found != expected:
                faults.append(name)
    sys.exit(1 if faults else 0)


if __name__ == "__main__":
    main()
