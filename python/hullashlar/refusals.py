"""Refusals as exceptions: the number and the name that include/hullashlar.h gives, and a sentence that says what to do."""

from __future__ import annotations

from typing import Any

# The name of the header without its prefix, in small letters, and what to do.
REFUSALS = {
    1: ("axes", "Give one to four axes."),
    2: ("points", "Give every axis 2 to 256 knots."),
    3: ("tensor", "Use fewer knots: the samples, doubled once for each axis, may be 4,096 numbers at most."),
    4: ("length", "Give one sample for each place of the grid, and one coordinate for each axis."),
    5: ("scratch", "Lend more scratch: 2,048 numbers beside the length of the tensor."),
    6: ("place", "Name a place of the grid: one index for each axis, from 0 up to its points less 1."),
    7: ("number", "Give finite numbers only: one of these is infinite or not a number."),
    8: ("knots", "Let the knots of every axis rise, by steps that a double can hold."),
    9: ("fewness", "Give a not-a-knot end more knots, 3 or with two such ends 4, or choose other ends."),
    10: ("outcome", "Use smaller numbers or wider steps between knots: what came out is too large for a double."),
    11: ("short", "Fetch the whole sheet: this one ends before its fields do."),
    12: ("edition", "Use a sheet of edition 1 or 2."),
    13: ("kinds", "Make both ends of an axis periodic, or neither."),
    14: ("tail", "Cut off what follows the sheet: it goes on behind its last sample."),
    15: ("buffer", "Lend a longer buffer: 10,309 bytes hold every sheet."),
    16: ("stack", "Use a grid of a tensor of at most 512 numbers, which is all that the firmware's call has room for."),
    17: ("unused", "Give the firmware's call one coordinate for each axis of the sheet, and no more."),
    18: ("outside", "Ask between the first and the last knot, or let the axis extend or hold."),
    19: ("range", "Keep values within -32,768 to 32,767 and slopes within -131,072 to 131,071."),
    20: ("position", "Keep the position within 0 to 256."),
    21: ("uneven", "Space the knots evenly, or ask with how=\"quick\"."),
    22: ("mode", "Choose extend, hold or refuse, and for a step lower or upper."),
    23: ("lost", "Write edition 2, or let every axis extend: edition 1 has no place for another mode."),
}


class Refused(ValueError):
    """A call was refused, and has changed nothing.

    >>> from hullashlar import Surface
    >>> try:
    ...     Surface([[0.0, 2.0, 1.0]], [1.0, 2.0, 3.0], ends="natural")
    ... except Refused as refusal:
    ...     print(refusal.number, refusal.name)
    ...     print(refusal.sentence)
    8 knots
    Let the knots of every axis rise, by steps that a double can hold.

    `where` says more where more is known: of a list of points, which was refused first.
    """

    def __init__(self, number: int, where: str = "") -> None:
        self.number = number
        self.name, self.sentence = REFUSALS[number]
        self.where = where
        super().__init__(number, where)

    def __str__(self) -> str:
        where = f" {self.where}" if self.where else ""
        return f"refused {self.number} ({self.name}){where}: {self.sentence}"


class Stale(ValueError):
    """A tensor is not the one that a build of its own samples gives; `found` says where."""

    def __init__(self, found: Any) -> None:
        self.found = found
        super().__init__(found)

    def __str__(self) -> str:
        return str(self.found)


def accept(refusal: int, where: str = "") -> None:
    """Raises where a call was refused."""
    if refusal != 0:
        raise Refused(refusal, where)
