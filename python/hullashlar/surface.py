"""A smooth surface through samples on a grid."""

from __future__ import annotations

import operator
from collections.abc import Sequence
from typing import Any, NamedTuple

import numpy as np
from numpy.typing import ArrayLike, NDArray

from . import _calls, sheets
from .asked import labels_at, look_for_even, values_at
from .axes import Axes, AxisEnds, floats
from .refusals import Stale, accept

Values = NDArray[np.float64]


class Found(NamedTuple):
    """What a look at a tensor found: whether it is `whole`, and else the `place` and the `mask` of the first number that differs from a
    build of the tensor's own samples, and how `many` differ."""

    whole: bool
    place: tuple[int, ...]
    mask: int
    many: int

    def __bool__(self) -> bool:
        return self.whole

    def __str__(self) -> str:
        if self.whole:
            return "whole: every number has the bits of a fresh build"
        place = ", ".join(map(str, self.place))
        return f"stale: {self.many} numbers differ from a fresh build, the first at {place} with mask {self.mask}"


def fixed(array: NDArray[Any]) -> NDArray[Any]:
    """A view that cannot be written."""
    view = array.view()
    view.flags.writeable = False
    return view


def tensor_slots(axes: Axes) -> Values:
    """Room for the tensor; where it would not be accepted, as much as the largest has, since its length is then not looked at."""
    numbers = axes.masks
    for points in axes.shape:
        numbers = min(numbers * points, _calls.TENSOR)
    return np.zeros(min(numbers, _calls.TENSOR))


def scratch_for(tensor: Values) -> Values:
    """The scratch that a call needs beside a tensor."""
    return np.zeros(tensor.size + _calls.SCRATCH)


def grid_shape(axes: Sequence[ArrayLike]) -> tuple[int, ...]:
    """How many knots each axis has."""
    return tuple(np.size(axis) for axis in axes)


def in_shape(numbers: ArrayLike, shape: tuple[int, ...], what: str) -> Values:
    """The numbers one after the other, where they stand in this shape."""
    array = floats(numbers)
    if array.shape != shape:
        raise ValueError(f"{what} of shape {array.shape}, but the axes ask for {shape}")
    return array.reshape(-1)


class Surface:
    """A smooth surface through samples on a grid of one to four axes, by cubic splines.

    `axes` has the knots of each axis, `samples` one number for each place of their grid.

    `ends` says what holds at the two ends of an axis: ``"not-a-knot"``, ``"natural"``, ``"clamped"``, ``"periodic"``, or a lower and an
    upper end, each a word or the order of a derivative and its value, as ``((1, 0.5), (2, 0.0))``; for all axes, or one such for each.

    `outside` says what a point outside the knots gives: ``"extend"``, ``"hold"`` or ``"refuse"``; for all axes, or one for each.

    >>> surface = Surface([[0.0, 1.0], [0.0, 1.0, 2.0]], [[0.0, 1.0, 2.0], [0.0, 0.0, 3.0]],
    ...                   ends=["natural", ((1, 1.0), (2, 0.0))])
    >>> float(surface([0.5, 1.5]))
    1.3125
    >>> surface([[0.0, 0.0], [0.0, 2.0], [1.0, 2.0]])
    array([0., 2., 3.])
    """

    def __init__(self, axes: Sequence[ArrayLike], samples: ArrayLike, ends: Any = "not-a-knot", outside: Any = "extend") -> None:
        self._axes = Axes.of(axes, ends, outside)
        self._edition, self._even = 2, False
        self._tensor = tensor_slots(self._axes)
        numbers = in_shape(samples, grid_shape(axes), "samples")
        accept(_calls.build(*self._axes.grid, numbers, self._tensor, scratch_for(self._tensor)))

    @classmethod
    def _of(cls, axes: Axes, tensor: Values, edition: int) -> Surface:
        surface = cls.__new__(cls)
        surface._axes, surface._tensor = axes, tensor
        surface._edition, surface._even = edition, False
        return surface

    @classmethod
    def of_tensor(
        cls,
        axes: Sequence[ArrayLike],
        tensor: ArrayLike,
        ends: Any = "not-a-knot",
        outside: Any = "extend",
        stale: str = "refuse",
    ) -> Surface:
        """The surface of a tensor, whoever wrote it. It is verified: where it is not the tensor of its own samples this raises `Stale`, or
        with ``stale="keep"`` takes it as it is, so that one can look at it.

        The tensor has the shape of the grid and behind it one number for each mask, as `tensor` has.

        >>> whole = Surface([[0.0, 1.0, 2.0]], [0.0, 1.0, 0.0], ends="natural")
        >>> written_over = whole.tensor.copy()
        >>> written_over[1, 0] = 5.0
        >>> Surface.of_tensor([[0.0, 1.0, 2.0]], written_over, ends="natural")
        Traceback (most recent call last):
        hullashlar.refusals.Stale: stale: 2 numbers differ from a fresh build, the first at 0 with mask 1
        """
        if stale not in ("refuse", "keep"):
            raise ValueError(f"stale={stale!r} is neither 'refuse' nor 'keep'")
        given = Axes.of(axes, ends, outside)
        numbers = in_shape(tensor, (*grid_shape(axes), given.masks), "a tensor").copy()
        surface = cls._of(given, numbers, 2)
        found = surface.verify()
        if not found.whole and stale == "refuse":
            raise Stale(found)
        return surface

    @classmethod
    def read(cls, sheet: bytes) -> Surface:
        """The surface of a packed sheet of either edition.

        >>> written = Surface([[0.0, 1.0]], [0.0, 1.0], ends="natural").write(edition=1)
        >>> len(written)
        51
        >>> Surface.read(written).samples
        array([0., 1.])
        """
        parts, tensor = sheets.read_and_build(sheet)
        return cls._of(parts.axes, tensor, parts.edition)

    def write(self, edition: int = 2) -> bytes:
        """The packed sheet of the surface. Edition 1 has no place for an `outside` other than ``"extend"``."""
        return sheets.write(sheets.Parts(operator.index(edition), self._axes, np.ascontiguousarray(self.samples)))

    def __call__(self, points: ArrayLike, how: str = "quick", on_refusal: str = "raise") -> Any:
        """The surface's values at points: one point, or an array of any shape whose last axis is the coordinates. On one axis a point may
        be a number.

        `how` is ``"quick"``, ``"full"``, which looks at all knots each time and gives the same, or on evenly spaced axes ``"direct"``,
        which finds the cell by a division. Where a point is refused this raises, or with ``on_refusal="nan"`` its value is NaN.

        >>> surface = Surface([[0.0, 1.0, 2.0]], [0.0, 1.0, 0.0], ends="natural", outside="refuse")
        >>> surface([[1.0], [3.0]], on_refusal="nan")
        array([ 1., nan])
        >>> surface([[1.0], [3.0]])
        Traceback (most recent call last):
        hullashlar.refusals.Refused: refused 18 (outside) at points[1], the first of 1 of 2: Ask between ...
        """
        if how == "direct" and not self._even:
            look_for_even(self._axes)
            self._even = True
        return values_at(how, self._axes, self._tensor, points, on_refusal)

    def label(self, points: ArrayLike) -> NDArray[np.int64]:
        """The cell of each point: on each axis the number of its lower knot. On a knot between two cells it is the lower one.

        >>> Surface([[0.0, 1.0, 2.0]], [0.0, 1.0, 0.0], ends="natural").label([[0.5], [1.0], [1.5]])
        array([[0],
               [0],
               [1]])
        """
        return labels_at(self._axes, self._tensor, points)

    def change(self, place: Sequence[int], value: float) -> int:
        """Changes the sample at a place, renews every number that can differ, and answers how many lanes were solved. A refused change
        leaves the surface as it was.

        >>> surface = Surface([[0.0, 1.0], [0.0, 1.0, 2.0]], [[0.0, 1.0, 2.0], [0.0, 0.0, 3.0]],
        ...                   ends=["natural", ((1, 1.0), (2, 0.0))])
        >>> surface.change((1, 1), 7.0)
        4
        >>> surface.samples
        array([[0., 1., 2.],
               [0., 7., 3.]])
        """
        indices = [_calls.count(operator.index(index)) for index in place]
        if len(indices) != self._axes.number:
            raise ValueError(f"a place of {len(indices)} indices, but there are {self._axes.number} axes")
        slots, lanes = np.zeros(_calls.AXES, np.uint64), np.zeros(1, np.uint64)
        slots[: len(indices)] = indices
        scratch = scratch_for(self._tensor)
        accept(_calls.change(*self._axes.grid, self._tensor, scratch, slots, float(value), lanes))
        return int(lanes[0])

    def verify(self) -> Found:
        """Whether every number of the tensor has the bits that a build of its own samples gives, and else where not.

        >>> print(Surface([[0.0, 1.0]], [0.0, 1.0], ends="natural").verify())
        whole: every number has the bits of a fresh build
        """
        place, found = np.zeros(_calls.AXES, np.uint64), np.zeros(_calls.FOUND, np.uint64)
        accept(_calls.verify(*self._axes.grid, self._tensor, scratch_for(self._tensor), place, found))
        whole, mask, many = (int(number) for number in found)
        return Found(whole == 1, tuple(int(index) for index in place[: self._axes.number]), mask, many)

    def copy(self) -> Surface:
        """The same surface, which can be changed without changing this one."""
        return self._of(self._axes, self._tensor.copy(), self._edition)

    @property
    def tensor(self) -> Values:
        """A read-only view of the tensor: for each place the sample and then the derivatives, bit i of an index for one along axis i."""
        return fixed(self._tensor.reshape(*self._axes.shape, self._axes.masks))

    @property
    def samples(self) -> Values:
        """A read-only view of the samples as they stand now."""
        return self.tensor[..., 0]

    @property
    def axes(self) -> tuple[Values, ...]:
        """Read-only views of the knots of each axis."""
        return tuple(fixed(row) for row in self._axes.rows)

    @property
    def ends(self) -> tuple[AxisEnds, ...]:
        """The ends of each axis."""
        return self._axes.ends

    @property
    def outside(self) -> tuple[str, ...]:
        """What each axis does outside its knots."""
        return self._axes.outside

    @property
    def edition(self) -> int:
        """The edition of the sheet that the surface was read from, and else 2."""
        return self._edition

    def __repr__(self) -> str:
        return f"<Surface of {' × '.join(map(str, self._axes.shape))} points>"
