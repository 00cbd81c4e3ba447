"""Sheets and tensors as texts made for an editor, and back.

A text has a line for the edition, four or five for each axis, and then the table of samples; what stands behind a # is a comment::

    edition 2

    axis 0
    ends natural
    outside hold
    knots 0.0 1.0 2.0

    samples
    10.0
    12.0
    11.0

In place of ``ends`` an axis may have two lines, ``lower`` and ``upper``, each with ``not-a-knot``, ``natural``, ``clamped``, ``periodic``,
``first-derivative V`` or ``second-derivative V``. On two axes the table has a row for each knot of axis 0; on more there is such a table
for each slice, behind ``slice I`` or ``slice I J``. In the text of a tensor, ``tensor`` stands in place of ``samples``, and its table has a
row for each place of the grid, in which the sample comes first and then the derivatives, mask after mask.
"""

from __future__ import annotations

import io
import itertools
import math
from collections.abc import Iterator, Sequence
from pathlib import Path
from typing import Any, NamedTuple

import numpy as np
from numpy.typing import NDArray

from . import _calls
from .axes import FIRST_DERIVATIVE, MODES, SECOND_DERIVATIVE, WORDS, Axes, End, end_slots
from .refusals import Refused
from .sheets import Parts, write

DERIVATIVES = {"first-derivative": FIRST_DERIVATIVE, "second-derivative": SECOND_DERIVATIVE}

# The words with which a line begins that is not one of numbers.
FIRSTS = {"edition", "axis", "ends", "lower", "upper", "outside", "knots", "samples", "tensor", "slice"}

# The most letters of a line of knots; the knots go on in the next one.
WIDTH = 100


class TextFault(ValueError):
    """A text is no sheet's, by the fault in a line."""

    def __init__(self, line: int, sentence: str) -> None:
        self.line, self.sentence = line, sentence
        super().__init__(line, sentence)

    def __str__(self) -> str:
        return f"line {self.line}: {self.sentence}"


# ---- From a sheet to its text.


def decimals(number: float) -> str:
    """The shortest decimals that read back to the same double."""
    return repr(float(number))


def wrapped(word: str, numbers: NDArray[np.float64]) -> Iterator[str]:
    """A word and its numbers, on as many lines as they need."""
    line = word
    for text in map(decimals, numbers):
        if len(line) + 1 + len(text) > WIDTH:
            yield line
            line = " " * len(word)
        line += f" {text}"
    yield line


def end_line(which: str, end: End) -> str:
    """The line of one end."""
    if isinstance(end, str):
        return f"{which} {end}"
    order, value = end
    return f"{which} {('first-derivative', 'second-derivative')[order - 1]} {decimals(value)}"


def axis_lines(axes: Axes, axis: int) -> Iterator[str]:
    """The lines of one axis."""
    yield from ("", f"axis {axis}")
    ends = axes.ends[axis]
    if isinstance(ends, str):
        yield f"ends {ends}"
    else:
        yield end_line("lower", ends[0])
        yield end_line("upper", ends[1])
    yield f"outside {axes.outside[axis]}"
    yield from wrapped("knots", axes.rows[axis])


def table_lines(heads: Sequence[str], names: Sequence[str], table: NDArray[np.float64]) -> Iterator[str]:
    """A table with its columns under each other: what each column is in a comment above it, and each row behind it."""
    columns = [[decimals(number) for number in column] for column in table.T]
    widths = [max(map(len, [head, *column])) for head, column in zip(heads, columns, strict=True)]
    if any(heads):
        yield "# " + "  ".join(head.rjust(width) for head, width in zip(heads, widths, strict=True))
    for row, name in zip(zip(*columns, strict=True), names, strict=True):
        yield "  " + "  ".join(text.rjust(width) for text, width in zip(row, widths, strict=True)) + f"  # {name}"


def sample_lines(axes: Axes, samples: NDArray[np.float64]) -> Iterator[str]:
    """The tables of samples: one on one or two axes, one for each slice on more."""
    names = [[decimals(knot) for knot in row] for row in axes.rows]
    if axes.number == 1:
        yield from table_lines([""], names[0], samples.reshape(-1, 1))
        return
    for slice_at in itertools.product(*map(range, axes.shape[:-2])):
        if slice_at:
            where = ", ".join(f"axis {axis} at {names[axis][index]}" for axis, index in enumerate(slice_at))
            yield from ("", f"slice {' '.join(map(str, slice_at))}  # {where}")
        yield from table_lines(names[-1], names[-2], samples[slice_at])


def axes_text(edition: int, axes: Axes) -> list[str]:
    """The lines before the table."""
    lines = [f"edition {edition}"]
    for axis in range(axes.number):
        lines += axis_lines(axes, axis)
    return [*lines, ""]


def text_of_sheet(parts: Parts) -> str:
    """The text of a sheet's parts."""
    lines = [*axes_text(parts.edition, parts.axes), "samples", *sample_lines(parts.axes, parts.samples)]
    return "\n".join(lines) + "\n"


def mask_name(mask: int, axes: int) -> str:
    """What stands at a mask of a tensor."""
    along = [str(axis) for axis in range(axes) if mask >> axis & 1]
    return f"along {'-'.join(along)}" if along else "sample"


def text_of_tensor(parts: Parts, tensor: NDArray[np.float64]) -> str:
    """The text of a sheet's axes and of a tensor on them."""
    axes = parts.axes
    heads = [mask_name(mask, axes.number) for mask in range(axes.masks)]
    names = [" ".join(map(str, place)) for place in itertools.product(*map(range, axes.shape))]
    lines = [*axes_text(parts.edition, axes), "tensor", *table_lines(heads, names, tensor.reshape(-1, axes.masks))]
    return "\n".join(lines) + "\n"


# ---- From a text to a sheet.


def text_of_file(path: str) -> str:
    """The text of a file in UTF-8, with or without the mark that some editors put before it."""
    letters = Path(path).read_bytes()
    try:
        return letters.decode("utf-8-sig")
    except UnicodeDecodeError as fault:
        raise TextFault(letters.count(b"\n", 0, fault.start) + 1, "this is no text in UTF-8") from None


class Line(NamedTuple):
    """The words of a line behind its first."""

    number: int
    words: list[str]


class Lines:
    """The lines of a text that say something, one after the other."""

    def __init__(self, text: str) -> None:
        lines = [(number, line.partition("#")[0].split()) for number, line in enumerate(io.StringIO(text, newline=None), 1)]
        self._lines = [(number, words) for number, words in lines if words]
        self._end = len(lines) + 1
        self.number = self._lines[0][0] if self._lines else self._end

    @property
    def word(self) -> str:
        """The first word of the next line, and nothing at the end."""
        return self._lines[0][1][0] if self._lines else ""

    def take(self, *firsts: str) -> Line:
        """The next line, which must begin with one of these words."""
        if self.word not in firsts:
            found = f"{self.word!r}" if self.word else "the end of the text"
            raise TextFault(self.number, f"{' or '.join(firsts)} should stand here, and not {found}")
        number, (_, *words) = self._taken()
        return Line(number, words)

    def _taken(self) -> tuple[int, list[str]]:
        taken = self._lines.pop(0)
        self.number = self._lines[0][0] if self._lines else self._end
        return taken

    def row(self) -> Row | None:
        """The next line where it is one of numbers."""
        if not self.word or self.word in FIRSTS:
            return None
        return numbers_of(Line(*self._taken()))


class Row(NamedTuple):
    """Numbers of a line."""

    line: int
    numbers: list[float]


def plain_number(word: str) -> float:
    """The number that a word is; 1_5, which Python takes for 15, is none."""
    if "_" in word or not word.isascii():
        raise ValueError(f"{word!r} is no number")
    return float(word)


def number_of(line: int, word: str) -> float:
    """The finite number that a word is."""
    try:
        number = plain_number(word)
    except ValueError:
        raise TextFault(line, f"{word!r} is no number") from None
    if not math.isfinite(number):
        raise TextFault(line, str(Refused(7)))
    return number


def numbers_of(line: Line) -> Row:
    """A line of numbers."""
    return Row(line.number, [number_of(line.number, word) for word in line.words])


def whole_of(line: Line) -> int:
    """The one whole number of a line."""
    if len(line.words) != 1 or not (line.words[0].isascii() and line.words[0].isdecimal()):
        raise TextFault(line.number, "one whole number should stand here")
    return int(line.words[0])


def end_of(line: Line) -> End:
    """The end that a line says."""
    match line.words:
        case [word] if word in WORDS:
            return word
        case [word, value] if word in DERIVATIVES:
            return DERIVATIVES[word], number_of(line.number, value)
    raise TextFault(line.number, f"an end is one of {', '.join(WORDS)}, or {' or '.join(DERIVATIVES)} and a number")


class AxisText(NamedTuple):
    """An axis as a text says it, and in which lines."""

    knots: list[Row]
    ends: tuple[End, End]
    ends_line: int
    outside: str
    outside_line: int

    @property
    def row(self) -> list[float]:
        """All knots."""
        return [knot for row in self.knots for knot in row.numbers]

    def refusal(self) -> int:
        """What a call on this axis alone refuses it by."""
        knots = np.array(self.row)
        ends = end_slots([self.ends], 1, _calls.AXIS_ENDS)
        room = np.zeros(knots.size), np.zeros(knots.size), np.zeros(_calls.SCRATCH)
        return _calls.moments(knots.size, knots, room[0], *ends, room[1], room[2])

    def line_of(self, refusal: int) -> int:
        """The line that a refusal of this axis comes from."""
        if refusal == 8:
            return self.falling_line()
        return self.knots[0].line if refusal == 2 else self.ends_line

    def falling_line(self) -> int:
        """The line of the first knot that the one before it refuses."""
        lines = [row.line for row in self.knots for _ in row.numbers]
        for line, pair in zip(lines[1:], itertools.pairwise(self.row), strict=True):
            if _calls.locate_step_index(2, np.array(pair), 0, 0.0, np.zeros(1, np.uint64)) != 0:
                return line
        return lines[0]


def taken_ends(lines: Lines) -> tuple[tuple[End, End], int]:
    """The ends of an axis, by one line or two, and the line of the first."""
    if lines.word == "ends":
        line = lines.take("ends")
        if len(line.words) != 1:
            raise TextFault(line.number, f"behind ends stands one of {', '.join(WORDS)}; with numbers write two lines, lower and upper")
        return (end_of(line), end_of(line)), line.number
    lower, upper = lines.take("ends", "lower"), lines.take("upper")
    return (end_of(lower), end_of(upper)), lower.number


def taken_axis(lines: Lines, axis: int) -> AxisText:
    """The lines of one axis."""
    head = lines.take("axis")
    if whole_of(head) != axis:
        raise TextFault(head.number, f"axis {axis} should stand here")
    ends, ends_line = taken_ends(lines)
    outside = lines.take("outside")
    if len(outside.words) != 1 or outside.words[0] not in MODES:
        raise TextFault(outside.number, f"behind outside stands one of {', '.join(MODES)}")
    rows = [numbers_of(lines.take("knots"))]
    while more := lines.row():
        rows.append(more)
    return AxisText(rows, ends, ends_line, outside.words[0], outside.number)


def taken_table(lines: Lines, rows: int, columns: int, what: str) -> Iterator[list[float]]:
    """A table of so many rows and columns."""
    for row in range(rows):
        line = lines.number
        taken = lines.row()
        if taken is None:
            raise TextFault(line, f"{rows} rows of {what} should stand here, and there are {row}")
        if len(taken.numbers) != columns:
            raise TextFault(line, f"{columns} {what} should stand in a row, and not {len(taken.numbers)}")
        yield taken.numbers


class SheetText:
    """A text as far as its table: the edition, the axes and their lines."""

    def __init__(self, lines: Lines) -> None:
        edition = lines.take("edition")
        self.edition, self.edition_line = whole_of(edition), edition.number
        self.axes: list[AxisText] = []
        while lines.word == "axis" and len(self.axes) < _calls.AXES:
            self.axes.append(taken_axis(lines, len(self.axes)))
        self.table_line = lines.number
        if not self.axes or lines.word == "axis":
            raise TextFault(lines.number, str(Refused(1)))

    @property
    def said(self) -> dict[str, Any]:
        """The axes as `Surface` takes them."""
        knots = [axis.row for axis in self.axes]
        return {"axes": knots, "ends": [axis.ends for axis in self.axes], "outside": [axis.outside for axis in self.axes]}

    @property
    def shape(self) -> list[int]:
        """How many knots each axis has."""
        return [len(axis.row) for axis in self.axes]

    def line_of(self, refusal: int) -> int:
        """The line that a refusal of the sheet comes from."""
        if refusal == 12:
            return self.edition_line
        if refusal == 23:
            return next(axis.outside_line for axis in self.axes if axis.outside != "extend")
        return next((axis.line_of(refusal) for axis in self.axes if axis.refusal() == refusal), self.table_line)

    def samples(self, lines: Lines) -> list[list[float]]:
        """The rows of all tables of samples."""
        lines.take("samples")
        rows, columns = self.shape[-2:] if len(self.axes) > 1 else (self.shape[0], 1)
        table: list[list[float]] = []
        for slice_at in itertools.product(*map(range, self.shape[:-2])):
            if slice_at:
                take_slice(lines, slice_at)
            table += taken_table(lines, rows, columns, "samples")
        return table


def take_slice(lines: Lines, slice_at: tuple[int, ...]) -> None:
    """The line before the table of a slice."""
    said = " ".join(map(str, slice_at))
    line = lines.take("slice")
    if " ".join(line.words) != said:
        raise TextFault(line.number, f"slice {said} should stand here")


def at_end(lines: Lines) -> None:
    """Refuses what stands behind the table."""
    if lines.word:
        raise TextFault(lines.number, f"the text should end here, and {lines.word!r} stands")


def sheet_of_text(text: str) -> bytes:
    """The sheet that a text says."""
    lines = Lines(text)
    head = SheetText(lines)
    samples = head.samples(lines)
    at_end(lines)
    axes = Axes.of(**head.said)
    try:
        return write(Parts(head.edition, axes, np.array(samples)))
    except Refused as refusal:
        raise TextFault(head.line_of(refusal.number), str(refusal)) from None


def tensor_of_text(text: str) -> tuple[dict[str, Any], NDArray[np.float64]]:
    """The axes, as `Surface` takes them, and the tensor that a text says."""
    lines = Lines(text)
    head = SheetText(lines)
    lines.take("tensor")
    masks = 1 << len(head.axes)
    rows = list(taken_table(lines, math.prod(head.shape), masks, "numbers"))
    at_end(lines)
    return head.said, np.array(rows).reshape(*head.shape, masks)
