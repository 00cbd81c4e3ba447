#!/usr/bin/env python3
"""Packs the two-axis sheet of docs/RULES.md by hand: every field is written out below as that page's chapter Fields asks,
and nothing else of this repository is looked at. The sheet goes to standard output."""

import struct
import sys

bits = ""


def put(number, width):
    """Adds a field: a number in so many bits, the most significant first."""
    global bits
    bits += format(number, f"0{width}b")


def put_float(number):
    """Adds a float by its 64-bit pattern."""
    put(int.from_bytes(struct.pack(">d", number), "big"), 64)


put(1, 4)  # the edition
put(2, 3)  # the number of axes

# Axis 0: two points, a second derivative of 0 at both ends.
put(2 - 1, 8)
put(2, 2)
put(2, 2)
put_float(0.0)
put_float(0.0)
for knot in (0.0, 1.0):
    put_float(knot)

# Axis 1: three points, a first derivative of 1 at the lower end and a second derivative of 0 at the upper one.
put(3 - 1, 8)
put(1, 2)
put(2, 2)
put_float(1.0)
put_float(0.0)
for knot in (0.0, 1.0, 2.0):
    put_float(knot)

# The samples, those of axis 0's first point before those of its second.
for sample in (0.0, 1.0, 2.0, 0.0, 0.0, 3.0):
    put_float(sample)

while len(bits) % 8 != 0:
    put(0, 1)

sys.stdout.buffer.write(bytes(int(bits[i : i + 8], 2) for i in range(0, len(bits), 8)))
