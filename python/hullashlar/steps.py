"""Surfaces that jump: a point steps to a knot on each axis, and the sample there is the answer."""

from __future__ import annotations

from collections.abc import Sequence
from typing import Any

from numpy.typing import ArrayLike

from . import _calls
from .asked import as_points, by_pieces, settled
from .axes import DIRECTIONS, Axes, code_slots
from .surface import grid_shape, in_shape


def stepped(
    axes: Sequence[ArrayLike],
    samples: ArrayLike,
    points: ArrayLike,
    directions: Any = "lower",
    on_refusal: str = "raise",
) -> Any:
    """The samples that points step to, ``"lower"`` or ``"upper"`` on all axes, or one of these for each axis.

    >>> stepped([[0.0, 1.0, 2.0]], [10.0, 20.0, 30.0], [[0.5], [1.0], [1.5]])
    array([10., 20., 20.])
    >>> stepped([[0.0, 1.0, 2.0]], [10.0, 20.0, 30.0], [[0.5], [1.0], [1.5]], directions="upper")
    array([20., 20., 30.])
    """
    grid = Axes.of(axes)
    grid.modes = code_slots(directions, grid.number, DIRECTIONS, "directions")
    numbers = in_shape(samples, grid_shape(axes), "samples")
    rows, shape = as_points(points, grid.number)
    return settled(*by_pieces(_calls.stepped_many, grid, numbers, rows), shape, on_refusal)
