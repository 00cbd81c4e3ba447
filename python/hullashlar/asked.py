"""Surfaces and steps asked at many points: values and refusals for each, or labels."""

from __future__ import annotations

from typing import Any

import numpy as np
from numpy.typing import ArrayLike, NDArray

from . import _calls
from .axes import Axes, floats
from ._calls import Call
from .refusals import Refused, accept

Values = NDArray[np.float64]
Refusals = NDArray[np.uint64]

# So many points go into one call, so that the labels that come with their values stay in the processor's cache.
PIECE = 4096


def as_points(points: ArrayLike, axes: int) -> tuple[Values, tuple[int, ...]]:
    """The points one after the other, and the shape in which they stood: the last axis is the coordinates."""
    array = floats(points)
    if array.ndim == 0 and axes == 1:
        array = array.reshape(1)
    if array.ndim == 0 or array.shape[-1] != axes:
        raise ValueError(f"points of shape {array.shape}: the last axis must have {axes} coordinates, one for each axis of the grid")
    return array.reshape(-1, axes), array.shape[:-1]


def by_pieces(call: Call, axes: Axes, numbers: Values, points: Values) -> tuple[Values, Refusals]:
    """Values and refusals by a call for many points."""
    values, refusals = np.empty(len(points)), np.empty(len(points), np.uint64)
    labels = np.empty((PIECE, _calls.AXES), np.uint64)
    for start in range(0, len(points), PIECE):
        piece = slice(start, start + PIECE)
        asked = points[piece]
        slots = values[piece], labels[: len(asked)].reshape(-1), refusals[piece]
        accept(call(*axes.asked, numbers, asked.reshape(-1), *slots))
    return values, refusals


def point_by_point(call: Call, surface: tuple[Any, ...], points: Values) -> tuple[Values, Refusals]:
    """Values and refusals by a loop over a call for one point."""
    values, refusals = np.empty(len(points)), np.empty(len(points), np.uint64)
    accept(call(*surface, points.reshape(-1), values, refusals))
    return values, refusals


def first_refused(refusals: Refusals, shape: tuple[int, ...]) -> Refused:
    """The exception for the first of the refused points."""
    refused = np.flatnonzero(refusals)
    number = int(refusals[refused[0]])
    if not shape:
        return Refused(number)
    place = tuple(int(index) for index in np.unravel_index(refused[0], shape))
    return Refused(number, f"at points[{', '.join(map(str, place))}], the first of {len(refused)} of {refusals.size}")


def settled(values: Values, refusals: Refusals, shape: tuple[int, ...], on_refusal: str) -> Any:
    """The values in the shape of their points; a refused point raises, or its value is NaN."""
    if on_refusal not in ("raise", "nan"):
        raise ValueError(f"on_refusal={on_refusal!r} is neither 'raise' nor 'nan'")
    if refusals.any():
        if on_refusal == "raise":
            raise first_refused(refusals, shape)
        values[refusals != 0] = np.nan
    return values.reshape(shape)[()]


def look_for_even(axes: Axes) -> None:
    """Refuses by 21 where the knots of an axis are not evenly spaced, and says where."""
    told = np.zeros(2, np.uint64)
    refusal = _calls.even_profile(axes.number, axes.points, axes.knots, told)
    accept(refusal, f"on axis {told[0]} behind knot {told[1]}" if refusal == 21 else "")


def direct(axes: Axes, tensor: Values, points: Values) -> tuple[Values, Refusals]:
    """Values and refusals on even axes, where one division finds the cell."""
    return by_pieces(_calls.direct_queries, axes, tensor, points)


def quick(axes: Axes, tensor: Values, points: Values) -> tuple[Values, Refusals]:
    """Values and refusals on knots that were looked at."""
    return by_pieces(_calls.quick_queries, axes, tensor, points)


def full(axes: Axes, tensor: Values, points: Values) -> tuple[Values, Refusals]:
    """Values and refusals by the query that looks at all knots each time."""
    return point_by_point(_calls.query_each, (*axes.asked, tensor), points)


HOW = {"quick": quick, "full": full, "direct": direct}


def values_at(how: str, axes: Axes, tensor: Values, points: ArrayLike, on_refusal: str) -> Any:
    """The surface's values at points, asked in one of these ways."""
    if how not in HOW:
        raise ValueError(f"how={how!r} is none of {', '.join(HOW)}")
    rows, shape = as_points(points, axes.number)
    values, refusals = HOW[how](axes, tensor, rows)
    return settled(values, refusals, shape, on_refusal)


def labels_at(axes: Axes, tensor: Values, points: ArrayLike) -> NDArray[np.int64]:
    """The cell of each point on each axis."""
    rows, shape = as_points(points, axes.number)
    values, refusals = np.empty(len(rows)), np.empty(len(rows), np.uint64)
    labels = np.empty((len(rows), _calls.AXES), np.uint64)
    accept(_calls.quick_queries(*axes.asked, tensor, rows.reshape(-1), values, labels.reshape(-1), refusals))
    if refusals.any():
        raise first_refused(refusals, shape)
    return labels[:, : axes.number].astype(np.int64).reshape(*shape, axes.number)
