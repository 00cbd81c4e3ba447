"""A smooth curve through samples on one axis."""

from __future__ import annotations

from typing import Any

import numpy as np
from numpy.typing import ArrayLike, NDArray

from . import _calls
from .asked import as_points, point_by_point, settled
from .axes import end_slots, floats, row_of
from .refusals import accept

Values = NDArray[np.float64]


class Curve:
    """The curve that :func:`curve` gives. `knots`, `samples`, `moments`, the second derivatives at the knots, and `slopes`, the first ones,
    are read only."""

    def __init__(self, knots: ArrayLike, samples: ArrayLike, ends: Any = "not-a-knot") -> None:
        self.knots, self.samples = row_of(knots, "knots").copy(), row_of(samples, "samples").copy()
        self.moments, self.slopes = np.zeros(self.knots.size), np.zeros(self.knots.size)
        lane = (self.knots.size, self.knots, self.samples)
        accept(_calls.moments(*lane, *end_slots(ends, 1, _calls.AXIS_ENDS), self.moments, np.zeros(_calls.SCRATCH)))
        accept(_calls.slopes(*lane, self.moments, self.slopes))
        for numbers in (self.knots, self.samples, self.moments, self.slopes):
            numbers.flags.writeable = False

    def __call__(self, points: ArrayLike, on_refusal: str = "raise") -> Any:
        """The curve's values at points, an array of any shape; beyond the knots the outermost cubics go on."""
        rows, shape = as_points(floats(points)[..., np.newaxis], 1)
        lane = (self.knots.size, self.knots, self.samples, self.moments)
        return settled(*point_by_point(_calls.curve_each, lane, rows), shape, on_refusal)


def curve(knots: ArrayLike, samples: ArrayLike, ends: Any = "not-a-knot") -> Curve:
    """The curve through samples on one axis, under `ends` as :class:`Surface` takes them.

    >>> hill = curve([0.0, 1.0, 2.0], [0.0, 1.0, 0.0], ends="natural")
    >>> hill([0.5, 1.0, 1.5])
    array([0.6875, 1.    , 0.6875])
    >>> hill.moments
    array([ 0., -3.,  0.])
    >>> hill.slopes
    array([ 1.5,  0. , -1.5])
    """
    return Curve(knots, samples, ends)
