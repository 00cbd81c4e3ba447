#!/usr/bin/env python3
"""Writes gain.sheet: a hearing aid's gain over frequency and input level, as a packed sheet; with `changed`, the sheet that
the example hosts write back once they have changed a sample."""

import struct
import sys

# Kinds of an end.
NOT_A_KNOT, FIRST_DERIVATIVE, SECOND_DERIVATIVE, PERIODIC = range(4)

# What becomes of a coordinate outside the knots; edition 1 has no place for it, and extends.
EXTEND, HOLD, REFUSE = range(3)

# Each axis: its knots, its two kinds, and a value for each kind that has one.
FREQUENCY = ([0.25, 0.5, 1.0, 2.0, 4.0], [NOT_A_KNOT, NOT_A_KNOT], [])
LEVEL = ([40.0, 55.0, 65.0, 80.0, 95.0], [SECOND_DERIVATIVE, SECOND_DERIVATIVE], [0.0, 0.0])
MODES = [HOLD, HOLD]

# A row for each frequency, a column for each level.
GAIN = [
    [10.0, 8.0, 6.0, 3.0, 0.0],
    [14.0, 11.0, 8.0, 4.0, 1.0],
    [20.0, 16.0, 12.0, 6.0, 2.0],
    [26.0, 21.0, 15.0, 8.0, 3.0],
    [30.0, 24.0, 17.0, 9.0, 3.0],
]

# The sample that the hosts change: its row, its column, the new gain.
CHANGE = (2, 2, 15.0)


def field(number, width):
    """A number as so many bits, most significant first."""
    return format(number, f"0{width}b")


def floats(numbers):
    """The patterns of floats, 64 bits each."""
    return "".join(field(struct.unpack(">Q", struct.pack(">d", number))[0], 64) for number in numbers)


def axis_fields(knots, kinds, values, mode=None):
    """Points minus 1, the two kinds, in edition 2 the mode, the end values, the knots."""
    small = kinds if mode is None else [*kinds, mode]
    return field(len(knots) - 1, 8) + "".join(field(number, 2) for number in small) + floats(values) + floats(knots)


def whole_bytes(bits):
    """The bits, and zero bits to the byte."""
    bits += "0" * (-len(bits) % 8)
    return int(bits, 2).to_bytes(len(bits) // 8, "big")


def packed(axes, samples, modes=None):
    """The axes and the samples; with modes in edition 2, and without any in edition 1."""
    bits = field(1 if modes is None else 2, 4) + field(len(axes), 3)
    modes = modes or [None] * len(axes)
    bits += "".join(axis_fields(*axis, mode) for axis, mode in zip(axes, modes, strict=True))
    return whole_bytes(bits + floats(samples))


if __name__ == "__main__":
    if sys.argv[1:] == ["changed"]:
        row, column, gain = CHANGE
        GAIN[row][column] = gain
    samples = [gain for row in GAIN for gain in row]
    sys.stdout.buffer.write(packed([FREQUENCY, LEVEL], samples, MODES))
