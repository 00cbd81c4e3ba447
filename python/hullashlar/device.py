"""For aids without a float unit: a cell of a curve in whole numbers."""

from __future__ import annotations

import operator

import numpy as np

from . import _calls
from .refusals import accept

LEAST_WHOLE, MOST_WHOLE = -(2**31), 2**31 - 1


def whole(number: int) -> int:
    """A whole number in 32 bits; one that does not fit becomes the nearest that does, which the call refuses too."""
    return min(max(operator.index(number), LEAST_WHOLE), MOST_WHOLE)


def cell_value(p0: int, p1: int, d0: int, d1: int, k: int) -> int:
    """The value at position `k` of 256 of a cell with the values `p0`, `p1` and the width-scaled slopes `d0`, `d1` at its two ends, rounded
    to the nearest whole number, a half away from zero.

    >>> cell_value(0, 256, 0, 0, 128)
    128
    """
    value = np.zeros(1, np.int32)
    accept(_calls.cell_value(*map(whole, (p0, p1, d0, d1, k)), value))
    return int(value[0])
