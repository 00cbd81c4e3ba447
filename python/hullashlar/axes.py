"""Axes in words, and as the numbers that calls take."""

from __future__ import annotations

from collections.abc import Sequence
from dataclasses import dataclass
from numbers import Real
from typing import Any, Union

import numpy as np
from numpy.typing import ArrayLike, NDArray

from . import _calls

End = Union[str, tuple[int, float]]
AxisEnds = Union[str, tuple[End, End]]

NOT_A_KNOT, FIRST_DERIVATIVE, SECOND_DERIVATIVE, PERIODIC = range(4)
MODES = ("extend", "hold", "refuse")
DIRECTIONS = ("lower", "upper")

# What a word for an end means: its kind and its number.
WORDS: dict[str, tuple[int, float]] = {
    "not-a-knot": (NOT_A_KNOT, 0.0),
    "natural": (SECOND_DERIVATIVE, 0.0),
    "clamped": (FIRST_DERIVATIVE, 0.0),
    "periodic": (PERIODIC, 0.0),
}


def floats(numbers: ArrayLike) -> NDArray[np.float64]:
    """The numbers as doubles that lie as calls take them; refuses what is no real number."""
    doubles = np.asarray(numbers).astype(np.float64, casting="same_kind", copy=False)
    return np.require(doubles, requirements=["C", "A"])


def row_of(numbers: ArrayLike, what: str) -> NDArray[np.float64]:
    """Numbers that stand in one row."""
    row = floats(numbers)
    if row.ndim != 1:
        raise ValueError(f"{what} stand in a row, and not in an array of {row.ndim} dimensions")
    return row


def is_pair(said: Any) -> bool:
    """Whether this is a sequence of two."""
    return isinstance(said, (Sequence, np.ndarray)) and not isinstance(said, str) and len(said) == 2


def is_number_pair(end: Any) -> bool:
    """Whether this is one end said by an order and a value, as (1, 0.5)."""
    return is_pair(end) and all(isinstance(part, Real) for part in end)


def end_numbers(end: End) -> tuple[int, float]:
    """The kind and the number of one end."""
    if isinstance(end, str):
        if end not in WORDS:
            raise ValueError(f"{end!r} is no end: choose one of {', '.join(WORDS)}, or an order and a value as (1, 0.5)")
        return WORDS[end]
    if not is_number_pair(end) or end[0] not in (FIRST_DERIVATIVE, SECOND_DERIVATIVE):
        raise ValueError(f"{end!r} is no end: an end is a word, or the order 1 or 2 of a derivative and its value")
    return int(end[0]), float(end[1])


def for_each_axis(said: Any, axes: int, what: str) -> list[Any]:
    """What is said once for all axes, or once for each of them."""
    if isinstance(said, str):
        return [said] * axes
    if not isinstance(said, (Sequence, np.ndarray)):
        raise ValueError(f"{what}={said!r}: say a word, or one for each axis")
    if len(said) != axes:
        raise ValueError(f"{what} for {len(said)} axes, but there are {axes}")
    return list(said)


def ends_of_axes(ends: Any, axes: int) -> list[AxisEnds]:
    """The ends of each axis: a word, or a lower and an upper end, for all axes or one such for each.

    Two ends of which one is an order and a value are the two ends of every axis, and so are any two ends where there is one axis; any other
    sequence has one for each axis.
    """
    if is_pair(ends) and (axes == 1 or any(is_number_pair(end) for end in ends)):
        return [(ends[0], ends[1])] * axes
    return for_each_axis(ends, axes, "ends")


def pair_of_ends(ends: AxisEnds) -> tuple[End, End]:
    """The lower and the upper end of one axis."""
    if isinstance(ends, str):
        return ends, ends
    if not is_pair(ends):
        raise ValueError(f"{ends!r} are no ends of an axis: name a lower end and an upper one")
    return ends[0], ends[1]


def end_slots(ends: Any, axes: int, slots: int) -> tuple[NDArray[np.uint8], NDArray[np.float64]]:
    """The kinds and the values of all ends, lower before upper; what does not fit the slots is left out."""
    kinds, values = np.zeros(slots, np.uint8), np.zeros(slots)
    pairs = [pair_of_ends(of_axis) for of_axis in ends_of_axes(ends, axes)]
    numbers = [end_numbers(end) for pair in pairs for end in pair]
    for slot, (kind, value) in enumerate(numbers[:slots]):
        kinds[slot], values[slot] = kind, value
    return kinds, values


def code_slots(said: Any, axes: int, words: Sequence[str], what: str) -> NDArray[np.uint8]:
    """The numbers of a word for each axis, in the slots of four axes."""
    slots = np.zeros(_calls.AXES, np.uint8)
    for axis, word in enumerate(for_each_axis(said, axes, what)):
        if word not in words:
            raise ValueError(f"{word!r} is none of {', '.join(words)}")
        slots[axis : axis + 1] = words.index(word)
    return slots


def end_word(kind: int, value: float) -> End:
    """One end as `Surface` takes it."""
    return (kind, value) if kind in (FIRST_DERIVATIVE, SECOND_DERIVATIVE) else ("not-a-knot", "periodic")[kind == PERIODIC]


def ends_word(kinds: Sequence[int], values: Sequence[float]) -> AxisEnds:
    """The ends of one axis as `Surface` takes them, by one word where that says both."""
    pair = list(zip(kinds, values, strict=True))
    for word, meaning in WORDS.items():
        if all(repr(end) == repr(meaning) for end in pair):
            return word
    return end_word(*pair[0]), end_word(*pair[1])


@dataclass
class Axes:
    """The axes of a grid as calls take them. `number` may be any; what is refused is for the calls to say."""

    number: int
    points: NDArray[np.uint64]
    kinds: NDArray[np.uint8]
    values: NDArray[np.float64]
    modes: NDArray[np.uint8]
    knots: NDArray[np.float64]

    @classmethod
    def of(cls, axes: Sequence[ArrayLike], ends: Any = "natural", outside: Any = "extend") -> Axes:
        """The axes that words say."""
        knots = [row_of(axis, "the knots of an axis") for axis in axes]
        points = np.zeros(_calls.AXES, np.uint64)
        points[: len(knots)] = [len(row) for row in knots[: _calls.AXES]]
        kinds, values = end_slots(ends, len(knots), _calls.ENDS)
        modes = code_slots(outside, len(knots), MODES, "outside")
        return cls(len(knots), points, kinds, values, modes, np.concatenate([np.empty(0), *knots]))

    @property
    def shape(self) -> tuple[int, ...]:
        """The points of the axes in use."""
        return tuple(int(points) for points in self.points[: self.number])

    @property
    def rows(self) -> tuple[NDArray[np.float64], ...]:
        """The knots of each axis."""
        return tuple(np.split(self.knots, np.cumsum(self.shape)[:-1]))

    @property
    def ends(self) -> tuple[AxisEnds, ...]:
        """The ends of each axis in words."""
        pairs = [slice(2 * axis, 2 * axis + 2) for axis in range(self.number)]
        return tuple(ends_word(self.kinds[pair].tolist(), self.values[pair].tolist()) for pair in pairs)

    @property
    def outside(self) -> tuple[str, ...]:
        """The mode of each axis in words."""
        return tuple(MODES[mode] for mode in self.modes[: self.number])

    @property
    def masks(self) -> int:
        """The numbers of a tensor at one place."""
        return 1 << self.number

    @property
    def grid(self) -> tuple[Any, ...]:
        """What a call takes first that solves."""
        return self.number, self.points, self.kinds, self.values, self.knots

    @property
    def asked(self) -> tuple[Any, ...]:
        """What a call takes first that is asked at a point."""
        return self.number, self.points, self.modes, self.knots
