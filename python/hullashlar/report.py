"""What a stream of packed sheets holds, read through the proved program."""

from __future__ import annotations

import os
import shlex
import subprocess
from collections.abc import Callable
from dataclasses import dataclass
from typing import BinaryIO, Union, cast

import numpy as np

from ._calls import PROVED

# The proved program; on a machine that it is not for, this variable names what runs it.
PROGRAM = PROVED / "sheet_report"
RUNNER = "HULLASHLAR_RUNNER"

# What is handed to the program at a time.
PIECE = 1 << 20


@dataclass(frozen=True)
class Order:
    """Of the derivatives of one order: how many `entries` the accepted tensors have, how many are `nonzero`, the `largest` magnitude."""

    entries: int
    nonzero: int
    largest: float


@dataclass(frozen=True)
class Report:
    """What a stream of sheets holds: how many `sheets`, how many `accepted`, how many `refused` by each number, the derivative `orders`
    0 to 4, and whether it `stopped` in a sheet that could not be read.

    >>> from hullashlar import Surface
    >>> sheet = Surface([[0.0, 1.0]], [0.0, 1.0], ends="natural").write()
    >>> report = Report.of(sheet + sheet)
    >>> report.sheets, report.accepted, report.refused, report.stopped
    (2, 2, {}, False)
    >>> report.orders[1]
    Order(entries=4, nonzero=4, largest=1.0)
    """

    sheets: int
    accepted: int
    refused: dict[int, int]
    orders: tuple[Order, ...]
    stopped: bool

    @classmethod
    def of(cls, stream: Union[bytes, BinaryIO], progress: Callable[[int], None] = lambda bytes_read: None) -> Report:
        """The report of a stream: its bytes, or a file that is open to be read as bytes. `progress` is told how many bytes went in."""
        return report_of_text(text_of_report(stream, progress))


def text_of_report(stream: Union[bytes, BinaryIO], progress: Callable[[int], None]) -> str:
    """What the proved program prints of a stream."""
    command = [*shlex.split(os.environ.get(RUNNER, "")), str(PROGRAM)]
    with subprocess.Popen(command, stdin=subprocess.PIPE, stdout=subprocess.PIPE, stderr=subprocess.PIPE) as program:
        try:
            feed(stream, cast(BinaryIO, program.stdin), progress)
        except BrokenPipeError:
            pass  # the report stopped, and wants no more
        printed, said = program.communicate()
    if not printed:
        raise OSError(said.decode().strip() or f"{PROGRAM} printed nothing")
    return printed.decode()


def feed(stream: Union[bytes, BinaryIO], program: BinaryIO, progress: Callable[[int], None]) -> None:
    """Hands the stream to the program, piece by piece."""
    if isinstance(stream, (bytes, bytearray, memoryview)):
        program.write(stream)
        return
    fed = 0
    while piece := stream.read(PIECE):
        program.write(piece)
        fed += len(piece)
        progress(fed)


def report_of_text(text: str) -> Report:
    """The report that the program's lines say."""
    sheets = accepted = 0
    refused: dict[int, int] = {}
    orders: list[Order] = []
    *lines, last = text.splitlines()
    for line in lines:
        word, *words = line.split()
        if word == "sheets":
            sheets = int(words[0])
        elif word == "accepted":
            accepted = int(words[0])
        elif word == "refused":
            refused[int(words[0])] = int(words[1])
        else:
            orders.append(Order(int(words[1]), int(words[2]), float_of(words[3])))
    return Report(sheets, accepted, refused, tuple(orders), last == "stopped")


def float_of(digits: str) -> float:
    """The double of a pattern in hexadecimal digits."""
    return float(np.array([int(digits, 16)], np.uint64).view(np.float64)[0])
