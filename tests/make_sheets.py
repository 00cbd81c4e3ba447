#!/usr/bin/env python3
"""Makes the sheets that the programs of sheets are run on, each as the stdin of its crate:

sheet_tensor         the example sheet
sheet_largest        a sheet of as many bytes as an accepted one can have, in edition 2
sheet_one_byte_more  the same, and a zero byte
sheet_cases          a list of sheets, each after its length in two bytes, the higher first
sheet_report         the example sheet, a stream of one
report_ends_inside   the example and all but the last byte of another
report_of_refusals   refused sheets among accepted ones, the last of which stops the report, and a byte
report_in_memory     the same

The programs trial_sheet_empty and trial_report_empty are run on no bytes at all. What the programs must print is the oracle's to say (oracle/printed)."""

import math
import struct
import sys
from pathlib import Path

ROOT = Path(__file__).resolve().parent.parent
sys.dont_write_bytecode = True
sys.path.insert(0, str(ROOT / "examples"))

from gain_sheet import EXTEND, HOLD, REFUSE  # noqa: E402
from gain_sheet import FIRST_DERIVATIVE, NOT_A_KNOT, PERIODIC, SECOND_DERIVATIVE  # noqa: E402
from gain_sheet import axis_fields, field, floats, packed, whole_bytes  # noqa: E402

NATURAL = [SECOND_DERIVATIVE, SECOND_DERIVATIVE]
ZEROS = [0.0, 0.0]
INFINITY = math.inf
NAN = struct.unpack(">d", bytes.fromhex("7FF8000000000001"))[0]


def natural(knots):
    """An axis with second derivatives of zero."""
    return (knots, NATURAL, ZEROS)


def counted(points):
    """The knots 0, 1, 2 and so on."""
    return [float(knot) for knot in range(points)]


UNIT = natural([0.0, 1.0])
EXAMPLE = packed([UNIT], [0.0, 1.0])
EXAMPLE_IN_EDITION_2 = packed([UNIT], [0.0, 1.0], [EXTEND])

# The bits of a mode that there is not.
NO_MODE = 3


# The largest sheet.

MOST_POINTS = 256
LONGEST_TENSOR = 4096


def shapes(axes, samples):
    """The points of so many axes, in every way that makes at most so many samples."""
    if axes == 0:
        yield ()
        return
    for points in range(2, min(MOST_POINTS, samples) + 1):
        for further in shapes(axes - 1, samples // points):
            yield (points, *further)


def accepted_shapes():
    """Every shape whose tensor does not pass its limit."""
    for axes in range(1, 5):
        yield from shapes(axes, LONGEST_TENSOR >> axes)


def length(shape):
    """The bytes of a sheet of edition 2 with two values on each axis, which is the most."""
    numbers = sum(points + 2 for points in shape) + math.prod(shape)
    bits = 4 + 3 + len(shape) * (8 + 2 + 2 + 2) + 64 * numbers
    return -(-bits // 8)


def spread(number):
    """A number between -0.5 and 0.5, with all its digits, that looks like any other."""
    return number * 2654435761 % 2**32 / 2**32 - 0.5


def largest_sheet():
    """A sheet of the most bytes: the knots of each axis rise by steps that are not all alike."""
    shape = max(accepted_shapes(), key=length)
    kinds = [[FIRST_DERIVATIVE, SECOND_DERIVATIVE], [SECOND_DERIVATIVE, FIRST_DERIVATIVE]]
    values = [[0.75, -1.5], [0.1, -0.3]]
    knots = [[knot + spread(knot) / 2 for knot in range(points)] for points in shape]
    samples = [10 * spread(number) for number in range(math.prod(shape))]
    sheet = packed(list(zip(knots, kinds, values, strict=True)), samples, [HOLD, REFUSE])
    assert len(sheet) == max(map(length, accepted_shapes()))
    return sheet


# The list of sheets.


def example_with(edition=1, axes=1):
    """The example with another edition or another number of axes."""
    return whole_bytes(field(edition, 4) + field(axes, 3) + axis_fields(*UNIT) + floats([0.0, 1.0]))


def reader_faults():
    """Each fault that the reader finds."""
    return [
        example_with(edition=0),
        example_with(edition=3),
        example_with(axes=0),
        example_with(axes=5),
        example_with(axes=7),
        packed([natural([0.0])], [0.0]),
        packed([([0.0, 1.0], [PERIODIC, SECOND_DERIVATIVE], [0.0])], [0.0, 1.0]),
        packed([([0.0, 1.0], [NOT_A_KNOT, PERIODIC], [])], [0.0, 1.0]),
        packed([natural(counted(25)), natural(counted(41))], []),
        packed([natural(counted(32)), natural(counted(32))], []),
        EXAMPLE + b"\0",
        EXAMPLE[:-1] + bytes([EXAMPLE[-1] | 1]),
    ]


def build_faults():
    """Each fault that the reader hands on to the build."""
    infinite_end = [FIRST_DERIVATIVE, SECOND_DERIVATIVE]
    return [
        packed([natural([0.0, NAN])], [0.0, 1.0]),
        packed([([0.0, 1.0], infinite_end, [INFINITY, 0.0])], [0.0, 1.0]),
        packed([UNIT], [0.0, INFINITY]),
        packed([natural([0.0, 0.0])], [0.0, 1.0]),
        packed([natural([0.0, -0.0])], [0.0, 1.0]),
        packed([natural([-1e308, 1e308])], [0.0, 1.0]),
        packed([(counted(3), [NOT_A_KNOT, NOT_A_KNOT], [])], [1.0, 3.0, 5.0]),
        packed([(counted(2), [NOT_A_KNOT, SECOND_DERIVATIVE], [0.0])], [0.0, 1.0]),
        packed([UNIT], [-1e308, 1e308]),
    ]


def two_faults():
    """Sheets with two faults, of which the first in reading order counts."""
    return [
        whole_bytes(field(3, 4) + field(0, 3)),
        whole_bytes(field(1, 4) + field(5, 3)),
        packed([([0.0], [PERIODIC, SECOND_DERIVATIVE], [0.0])], [0.0]),
        whole_bytes(field(1, 4) + field(1, 3) + field(1, 8) + field(PERIODIC, 2) + field(NOT_A_KNOT, 2)),
        packed([UNIT], [0.0, NAN]) + b"\0",
        packed([natural([0.0] * 25), natural(counted(41))], []),
    ]


def accepted():
    """Sheets of one to four axes, with every kind of end."""
    mixed = [FIRST_DERIVATIVE, SECOND_DERIVATIVE]
    periodic = ([0.0, 0.5, 2.0], [PERIODIC, PERIODIC], [])
    half_open = ([-1.0, 0.0, 2.0], [NOT_A_KNOT, FIRST_DERIVATIVE], [0.25])
    return [
        packed([([0.0, 1.0], [PERIODIC, PERIODIC], [])], [0.0, 5.0]),
        packed([natural(counted(3))], [0.0, 1.0, 0.0]),
        packed([([0.0, 1.0], [FIRST_DERIVATIVE, FIRST_DERIVATIVE], ZEROS)], [0.0, 1.0]),
        packed([([0.0, 1.0, 3.0], mixed, [0.5, -1.5])], [2.0, -1.0, 4.0]),
        packed([(counted(4), [NOT_A_KNOT, NOT_A_KNOT], [])], [1.0, 3.0, 5.0, 7.0]),
        packed([UNIT, UNIT], [0.0, 0.0, 0.0, 1.0]),
        packed([periodic, ([1.0, 2.0], mixed, [1.0, 0.0])], [0.1, 0.2, 0.7, -0.3, 0.1, 0.2]),
        packed([UNIT, (counted(2), [PERIODIC, PERIODIC], []), half_open], [n * n % 7 / 3 for n in range(12)]),
        packed([UNIT, UNIT, UNIT, UNIT], [float(5 * n % 11) for n in range(16)]),
    ]


def edition_2_faults():
    """Modes that there are not, in each place and beside other faults; faults of the build, and bits that go on."""
    head = field(2, 4) + field(1, 3) + field(1, 8)
    return [
        packed([UNIT], [0.0, 1.0], [NO_MODE]),
        packed([UNIT, UNIT], [0.0, 0.0, 0.0, 1.0], [HOLD, NO_MODE]),
        packed([([0.0, 1.0], [PERIODIC, SECOND_DERIVATIVE], [0.0])], [0.0, 1.0], [NO_MODE]),
        packed([([0.0, 1.0], [NOT_A_KNOT, PERIODIC], [])], [0.0, 1.0], [REFUSE]),
        whole_bytes(head + field(SECOND_DERIVATIVE, 2) * 2 + field(NO_MODE, 2)),
        whole_bytes(head + field(PERIODIC, 2) + field(NOT_A_KNOT, 2) + field(NO_MODE, 2)),
        packed([natural([0.0])], [0.0], [NO_MODE]),
        packed([natural(counted(25)), natural(counted(41))], [], [HOLD, HOLD]),
        packed([(counted(2), [NOT_A_KNOT, SECOND_DERIVATIVE], [0.0])], [0.0, 1.0], [HOLD]),
        packed([UNIT], [0.0, NAN], [REFUSE]),
        EXAMPLE_IN_EDITION_2 + b"\0",
        EXAMPLE_IN_EDITION_2[:-1] + bytes([EXAMPLE_IN_EDITION_2[-1] | 1]),
        example_with(edition=2),
    ]


def accepted_in_edition_2():
    """Each mode, on axes with and without values at their ends."""
    periodic = ([0.0, 0.5, 2.0], [PERIODIC, PERIODIC], [])
    return [
        packed([UNIT], [0.0, 1.0], [HOLD]),
        packed([UNIT], [0.0, 1.0], [REFUSE]),
        packed([periodic, UNIT], [0.1, 0.2, 0.7, -0.3, 0.1, 0.2], [REFUSE, HOLD]),
        packed([UNIT, UNIT, UNIT, UNIT], [float(5 * n % 11) for n in range(16)], [HOLD, EXTEND, REFUSE, HOLD]),
    ]


def listed(sheets):
    return b"".join(len(sheet).to_bytes(2, "big") + sheet for sheet in sheets)


def cuts(sheet):
    """A sheet cut at every length, from no bytes to all."""
    return [sheet[:end] for end in range(len(sheet) + 1)]


def cases():
    """Every cut of the example, and the sheets above; then the same in edition 2."""
    edition_1 = cuts(EXAMPLE) + reader_faults() + build_faults() + two_faults() + accepted()
    edition_2 = cuts(EXAMPLE_IN_EDITION_2) + edition_2_faults() + accepted_in_edition_2()
    return listed(edition_1 + edition_2)


# The streams.


def refusals():
    """Accepted sheets of one to four axes, one of them with -0 and with a largest number below zero; every fault of the build, each
    with the example behind it; then a bit that goes on, which stops the report, and a byte."""
    below_zero = packed([UNIT, UNIT], [-0.0, -16.0, 0.0, 1.0])
    passed_over = b"".join(fault + EXAMPLE_IN_EDITION_2 for fault in build_faults())
    marked = EXAMPLE[:-1] + bytes([EXAMPLE[-1] | 1])
    return b"".join([EXAMPLE, below_zero, *accepted(), *accepted_in_edition_2()]) + passed_over + marked + b"\0"


def main():
    largest = largest_sheet()
    made = {
        "sheet_tensor": EXAMPLE,
        "trial_sheet_largest": largest,
        "trial_sheet_one_byte_more": largest + b"\0",
        "trial_sheet_cases": cases(),
        "sheet_report": EXAMPLE,
        "trial_report_ends_inside": EXAMPLE + EXAMPLE_IN_EDITION_2[:-1],
        "trial_report_of_refusals": refusals(),
        "trial_report_in_memory": refusals(),
    }
    for crate, sheet in made.items():
        (ROOT / "crates" / crate / "stdin").write_bytes(sheet)
        print(f"{crate}: {len(sheet)} bytes")


if __name__ == "__main__":
    main()
