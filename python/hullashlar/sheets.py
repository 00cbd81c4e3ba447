"""Packed sheets: read into axes and samples, built, and written."""

from __future__ import annotations

from typing import Any, NamedTuple

import numpy as np
from numpy.typing import ArrayLike, NDArray

from . import _calls
from .axes import Axes, floats
from .refusals import Refused, accept

Values = NDArray[np.float64]

# What the firmware's call returns where it refuses: this pattern and the number of the refusal.
REFUSED = 0x7FF8000000000000


class Parts(NamedTuple):
    """What a sheet says."""

    edition: int
    axes: Axes
    samples: Values


class Slots:
    """What a call that reads a sheet hands over."""

    def __init__(self) -> None:
        self.knots, self.samples = np.zeros(_calls.BUFFER), np.zeros(_calls.BUFFER)
        self.axes, self.edition = np.zeros(1, np.uint64), np.zeros(1, np.uint64)
        self.points = np.zeros(_calls.AXES, np.uint64)
        self.kinds, self.values = np.zeros(_calls.ENDS, np.uint8), np.zeros(_calls.ENDS)
        self.modes = np.zeros(_calls.AXES, np.uint8)

    @property
    def lent(self) -> tuple[Any, ...]:
        """The slots in the order in which the calls take them."""
        return self.knots, self.samples, self.axes, self.points, self.kinds, self.values, self.modes, self.edition

    def parts(self) -> Parts:
        """What was read."""
        number = int(self.axes[0])
        points = [int(count) for count in self.points[:number]]
        knots = self.knots[: sum(points)].copy()
        axes = Axes(number, self.points, self.kinds, self.values, self.modes, knots)
        samples = self.samples[: int(np.prod(points))].reshape(points).copy()
        return Parts(int(self.edition[0]), axes, samples)


def as_bytes(sheet: bytes) -> NDArray[np.uint8]:
    """Bytes as a call takes them."""
    return np.frombuffer(sheet, np.uint8)


def read(sheet: bytes) -> Parts:
    """The parts of a sheet of either edition; its numbers may be any."""
    slots = Slots()
    accept(_calls.read(as_bytes(sheet), *slots.lent))
    return slots.parts()


def read_and_build(sheet: bytes) -> tuple[Parts, Values]:
    """The parts of a sheet, and its tensor."""
    slots, length = Slots(), np.zeros(1, np.uint64)
    tensor, scratch = np.zeros(_calls.TENSOR), np.zeros(_calls.MOST_SCRATCH)
    accept(_calls.sheet_tensor(as_bytes(sheet), *slots.lent, tensor, scratch, length))
    return slots.parts(), tensor[: int(length[0])].copy()


def write(parts: Parts) -> bytes:
    """The sheet of these parts."""
    sheet, length = np.zeros(_calls.SHEET, np.uint8), np.zeros(1, np.uint64)
    axes = parts.axes
    ends = (axes.number, axes.points, axes.kinds, axes.values, axes.modes)
    accept(_calls.write(*ends, axes.knots, parts.samples.reshape(-1), _calls.count(parts.edition), sheet, length))
    return sheet[: int(length[0])].tobytes()


def sheet_value(sheet: bytes, point: ArrayLike) -> float:
    """The value at a point of the surface of a sheet, by the one call that firmware makes: it keeps the sheet and no tensor.

    >>> from hullashlar import Surface
    >>> sheet = Surface([[0.0, 1.0, 2.0]], [0.0, 1.0, 0.0], ends="natural").write()
    >>> sheet_value(sheet, [0.5])
    0.6875
    """
    coordinates = floats(point).reshape(-1)
    if coordinates.size > _calls.AXES:
        raise ValueError(f"{coordinates.size} coordinates, but a sheet has four axes at most")
    slots = np.zeros(_calls.AXES)
    slots[: coordinates.size] = coordinates
    answer = np.array([_calls.surface(as_bytes(sheet), *slots.view(np.uint64).tolist())], np.uint64)
    pattern = int(answer[0])
    if pattern & REFUSED == REFUSED:
        raise Refused(pattern ^ REFUSED)
    return float(answer.view(np.float64)[0])
