"""The command ``hullashlar``, or ``python3 -m hullashlar``: for fitters, who work with files."""

from __future__ import annotations

import argparse
import sys
from collections.abc import Callable, Sequence
from pathlib import Path
from typing import NoReturn

import numpy as np

from . import sheets, text
from .refusals import REFUSALS, Refused, Stale
from .report import Report
from .surface import Surface

ACCEPTED, REFUSED, USAGE = 0, 1, 2

# A stream of more bytes is read with a bar that says how far it is.
LONG = 1 << 23
BAR = 40


def number(word: str) -> float:
    """The number that an argument says."""
    return text.plain_number(word)


def read_sheet(path: str) -> Surface:
    """The surface of a sheet's file."""
    return Surface.read(Path(path).read_bytes())


def show(options: argparse.Namespace) -> int:
    """A sheet as a text, of its samples or of its whole tensor."""
    sheet = Path(options.sheet).read_bytes()
    parts = sheets.read(sheet)
    said = text.text_of_tensor(parts, Surface.read(sheet).tensor) if options.tensor else text.text_of_sheet(parts)
    if options.output:
        Path(options.output).write_text(said, encoding="utf-8")
    else:
        sys.stdout.write(said)
    return ACCEPTED


def pack(options: argparse.Namespace) -> int:
    """A text as the sheet that it says."""
    sheet = text.sheet_of_text(text.text_of_file(options.text))
    Path(options.output).write_bytes(sheet)
    return ACCEPTED


def query(options: argparse.Namespace) -> int:
    """The value of a sheet's surface at a point."""
    surface = read_sheet(options.sheet)
    if len(options.point) != len(surface.axes):
        raise ValueError(f"{len(options.point)} coordinates, but the sheet has {len(surface.axes)} axes")
    print(text.decimals(surface(options.point, how=options.how)))
    return ACCEPTED


def moved(before: Surface, after: Surface) -> str:
    """How many numbers of a tensor have other bits than before, and how far the farthest went."""
    others = before.tensor.view(np.uint64) != after.tensor.view(np.uint64)
    if not others.any():
        return "no number moved"
    with np.errstate(over="ignore"):
        farthest = np.abs(after.tensor - before.tensor).max()
    return f"{np.count_nonzero(others)} of {others.size} numbers moved, by {text.decimals(farthest)} at most"


def change(options: argparse.Namespace) -> int:
    """A sheet with one sample changed, and what that moved."""
    before = read_sheet(options.sheet)
    after = before.copy()
    lanes = after.change(options.at, options.to)
    Path(options.output).write_bytes(after.write(edition=after.edition))
    place = tuple(options.at)
    values = f"{text.decimals(after.samples[place])} in place of {text.decimals(before.samples[place])}"
    print(f"sample at {', '.join(map(str, place))}: {values}, {lanes} lanes solved, {moved(before, after)}")
    return ACCEPTED


def verify(options: argparse.Namespace) -> int:
    """Whether the tensor of a text is that of its own samples."""
    said, tensor = text.tensor_of_text(text.text_of_file(options.tensor))
    print(Surface.of_tensor(tensor=tensor, **said).verify())
    return ACCEPTED


class Bar:
    """How far a long stream has gone in, on standard error where that is a terminal."""

    def __init__(self, path: str) -> None:
        self._path, self._size = path, Path(path).stat().st_size
        self._shown = self._size > LONG and sys.stderr.isatty()

    def draw(self, fed: int) -> None:
        """Shows that so many bytes went in."""
        done = min(BAR, BAR * fed // self._size) if self._shown else 0
        self._put(f"\r{self._path} [{'#' * done}{'.' * (BAR - done)}]")

    def clear(self) -> None:
        """Leaves the line as it was."""
        self._put("\r\033[K")

    def _put(self, letters: str) -> None:
        if self._shown:
            sys.stderr.write(letters)
            sys.stderr.flush()


def print_report(path: str, report: Report) -> None:
    """A report in words and a table."""
    how = "stopped before its end" if report.stopped else "read to its end"
    print(f"{path}: sheets {report.sheets}, accepted {report.accepted}, {how}")
    for refusal, sheets_refused in report.refused.items():
        print(f"  refused {refusal} ({REFUSALS[refusal][0]}): {sheets_refused}")
    print("  order     entries    not zero  largest")
    for order, derivatives in enumerate(report.orders):
        print(f"  {order:5}{derivatives.entries:12}{derivatives.nonzero:12}  {text.decimals(derivatives.largest)}")


def why_stopped(report: Report) -> str:
    """The refusal of the sheet in which a report stopped: it is the last, and of the numbers that a reader has."""
    unread = [refusal for refusal in report.refused if refusal not in (7, 8, 9, 10)]
    return str(Refused(unread[0])) if unread else "a report ends at a million sheets"


def report(options: argparse.Namespace) -> int:
    """What each stream holds; a refusal where one stopped."""
    status = ACCEPTED
    for path in options.streams:
        bar = Bar(path)
        with open(path, "rb") as stream:
            found = Report.of(stream, bar.draw)
        bar.clear()
        print_report(path, found)
        if found.stopped:
            print(f"{path}: stopped in sheet {found.sheets}: {why_stopped(found)}", file=sys.stderr)
            status = REFUSED
    return status


def draw(options: argparse.Namespace) -> int:
    """A picture of a sheet's surface."""
    try:
        from .pictures import draw_surface
    except ImportError:
        raise ValueError("drawing wants matplotlib: on Debian the package python3-matplotlib") from None
    if options.stale and not options.change:
        raise ValueError("--stale shows what a change leaves behind: say which with --change")
    changed = None
    if options.change:
        *place, value = options.change
        changed = tuple(int(index) for index in place), number(value)
    draw_surface(read_sheet(options.sheet), options.output, changed, options.stale, options.at, options.names)
    return ACCEPTED


class Commands:
    """The parser of the command, a subcommand at a time."""

    def __init__(self, program: str) -> None:
        self._program = program
        self._examples: list[str] = []
        self.parser = argparse.ArgumentParser(
            prog=program,
            description="Proved cubic-spline surfaces for hearing aids: sheets shown, packed, asked, changed, verified and drawn.",
            formatter_class=argparse.RawDescriptionHelpFormatter,
        )
        self._commands = self.parser.add_subparsers(metavar="COMMAND", required=True)

    def add(self, run: Callable[[argparse.Namespace], int], what: str, *examples: str) -> argparse.ArgumentParser:
        """A subcommand with its examples."""
        lines = [f"  {self._program} {example}" for example in examples]
        self._examples += lines
        self.parser.epilog = "examples:\n" + "\n".join(self._examples)
        command = self._commands.add_parser(
            run.__name__,
            help=what,
            description=f"{what[0].upper()}{what[1:]}.",
            epilog="\n".join(["example:", *lines]),
            formatter_class=argparse.RawDescriptionHelpFormatter,
        )
        command.set_defaults(run=run)
        return command


def parser_of(program: str) -> argparse.ArgumentParser:
    """The parser of all subcommands."""
    commands = Commands(program)
    command = commands.add(show, "show a sheet as a text for an editor", "show gain.sheet -o gain.txt")
    command.add_argument("sheet", metavar="SHEET")
    command.add_argument("--tensor", action="store_true", help="show the whole tensor in place of the samples")
    command.add_argument("-o", dest="output", metavar="TEXT", help="a file in place of standard output")
    command = commands.add(pack, "pack such a text into a sheet", "pack gain.txt -o packed.sheet")
    command.add_argument("text", metavar="TEXT")
    command.add_argument("-o", dest="output", metavar="SHEET", required=True)
    command = commands.add(query, "ask the surface of a sheet at a point", "query gain.sheet 1.5 60")
    command.add_argument("sheet", metavar="SHEET")
    command.add_argument("point", metavar="X", type=number, nargs="+", help="a coordinate for each axis")
    command.add_argument("--how", choices=("quick", "full", "direct"), default="quick")
    command = commands.add(change, "change a sample", "change gain.sheet --at 2 2 --to 15 -o changed.sheet")
    command.add_argument("sheet", metavar="SHEET")
    command.add_argument("--at", metavar="I", type=int, nargs="+", required=True, help="an index for each axis, from 0")
    command.add_argument("--to", metavar="VALUE", type=number, required=True)
    command.add_argument("-o", dest="output", metavar="NEW", required=True)
    examples = "show gain.sheet --tensor -o tensor.txt", "verify tensor.txt"
    command = commands.add(verify, "verify the tensor of a text that show --tensor has written", *examples)
    command.add_argument("tensor", metavar="TENSOR")
    command = commands.add(report, "report what streams of sheets hold", "report gain.sheet changed.sheet")
    command.add_argument("streams", metavar="STREAM", nargs="+")
    command = commands.add(draw, "draw the surface of a sheet", "draw gain.sheet --change 2 2 15 --stale -o gain.svg")
    command.add_argument("sheet", metavar="SHEET")
    command.add_argument("-o", dest="output", metavar="FILE", required=True, help="an svg or a png")
    command.add_argument("--at", metavar="X", type=number, nargs="+", help="the point that cuts go through")
    command.add_argument("--change", metavar="I", nargs="+", help="the indices of a sample and a new value: before, after, the difference")
    command.add_argument("--stale", action="store_true", help="also what a loader that keeps old derivatives would show")
    command.add_argument("--names", metavar="NAME", nargs="+", help="what each axis is, and behind them what the surface is")
    return commands.parser


def kept_numbers(arguments: Sequence[str]) -> list[str]:
    """The arguments with a space before numbers as -1e-3, which argparse would else take for options."""
    return [f" {word}" if word[:1] == "-" and is_number(word) else word for word in arguments]


def is_number(word: str) -> bool:
    """Whether a word reads as a number."""
    try:
        float(word)
    except ValueError:
        return False
    return True


def program_name() -> str:
    """How the command was called."""
    called = Path(sys.argv[0]).name
    return called if called == "hullashlar" else f"{Path(sys.executable).name} -m hullashlar"


def main(arguments: Sequence[str] | None = None) -> int:
    """Runs the command; answers 0, 1 for a refusal, 2 for wrong usage."""
    parser = parser_of(program_name())
    options = parser.parse_args(kept_numbers(sys.argv[1:] if arguments is None else arguments))
    try:
        return int(options.run(options))
    except (Refused, Stale, text.TextFault) as refusal:
        print(refusal, file=sys.stderr)
        return REFUSED
    except (ValueError, OSError) as wrong:
        print(wrong, file=sys.stderr)
        return USAGE


def entry() -> NoReturn:
    """The command as a program."""
    sys.exit(main())
