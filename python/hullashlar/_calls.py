"""The exported calls of include/hullashlar.h and the loops of python/point_by_point.c over two of them, each declared once.

A call takes numbers as they are and arrays as a pointer and a length, so that no length is ever written by hand. What a call
answers is its refusal, 0 for none; :func:`hullashlar.refusals.accept` turns it into an exception.
"""

from __future__ import annotations

import ctypes
from pathlib import Path
from typing import Any, NamedTuple

import numpy as np
from numpy.typing import NDArray

# Sizes of the header, in elements.
AXES = 4
ENDS = 8
AXIS_ENDS = 2
FOUND = 3
TENSOR = 4096
SCRATCH = 2048
MOST_SCRATCH = 6144
BUFFER = 1024
SHEET = 10309

# No count that a call takes is as large, so one that does not fit 64 bits is refused as this one is.
MOST_COUNT = 2**64 - 1

# What ``make python`` puts beside this file: the shared library, and the program that reports.
PROVED = Path(__file__).with_name("proved")
LIBRARY = PROVED / "libhullashlar.so"

# Half of the first is subnormal: zero where the thread flushes such numbers. The second is lost beside 1 where it rounds to the nearest.
SMALLEST_NORMAL, QUARTER_OF_A_UNIT = 2.0**-1022, 2.0**-54


class Slice(NamedTuple):
    """A parameter that is a pointer and a length."""

    dtype: type[np.generic]


COUNT, PATTERN = ctypes.c_uint64, ctypes.c_uint64
BYTE, WHOLE, FLOAT = ctypes.c_uint8, ctypes.c_int32, ctypes.c_double
COUNTS, BYTES, FLOATS = Slice(np.uint64), Slice(np.uint8), Slice(np.float64)
WHOLES, CURSORS = Slice(np.int32), Slice(np.uint32)


def load() -> ctypes.CDLL:
    """The shared library that ``make python`` links from the archive."""
    if not LIBRARY.exists():
        raise ImportError(f"{LIBRARY} is not there: run `make python` in the repository first")
    return ctypes.CDLL(str(LIBRARY))


_library = load()


def look_at_floats() -> None:
    """Refuses to compute under float settings that move answers: asks what the header's hullashlar_floats_ready asks."""
    if SMALLEST_NORMAL / 2 == 0.0:
        raise FloatingPointError("this thread flushes subnormal numbers to zero: load no library that was built with -ffast-math")
    if not 1.0 + QUARTER_OF_A_UNIT == 1.0 == 1.0 - QUARTER_OF_A_UNIT:
        raise FloatingPointError("this thread does not round to the nearest number: let it do so before a call")


def count(number: int) -> int:
    """A whole number as a call takes it: one that no call can accept where it does not fit."""
    return number if 0 <= number <= MOST_COUNT else MOST_COUNT


class Call:
    """One call of the shared library: a proved one, or a loop over one."""

    def __init__(self, name: str, *parameters: Any, of: str = "hullashlar") -> None:
        self._parameters = parameters
        self._function = getattr(_library, f"{of}_{name}")
        self._function.restype = ctypes.c_uint64
        self._function.argtypes = [part for parameter in parameters for part in self._parts(parameter)]

    @staticmethod
    def _parts(parameter: Any) -> list[Any]:
        return [ctypes.c_void_p, ctypes.c_uint64] if isinstance(parameter, Slice) else [parameter]

    def __call__(self, *arguments: Any) -> int:
        """What the call returns."""
        look_at_floats()
        words: list[Any] = []
        for parameter, argument in zip(self._parameters, arguments, strict=True):
            words += lent(argument, parameter) if isinstance(parameter, Slice) else [argument]
        return int(self._function(*words))


def lent(array: NDArray[Any], parameter: Slice) -> list[int]:
    """The address and the length of an array that lies as a call takes it."""
    if array.dtype != parameter.dtype or not (array.flags.c_contiguous and array.flags.aligned):
        raise TypeError(f"a call takes an array of {parameter.dtype.__name__} without gaps, and this one of {array.dtype} is not so")
    return [array.ctypes.data, array.size]


# points, kinds and values of the ends, knots; and points, modes, knots, tensor, coordinates.
_GRID = (COUNT, COUNTS, BYTES, FLOATS, FLOATS)
_ASKED = (COUNT, COUNTS, BYTES, FLOATS, FLOATS, FLOATS)
_PARTS = (FLOATS, FLOATS, COUNTS, COUNTS, BYTES, FLOATS)

moments = Call("moments", COUNT, FLOATS, FLOATS, BYTES, FLOATS, FLOATS, FLOATS)
curve = Call("curve", COUNT, FLOATS, FLOATS, FLOATS, FLOAT, FLOATS)
slopes = Call("slopes", COUNT, FLOATS, FLOATS, FLOATS, FLOATS)
build = Call("build", *_GRID, FLOATS, FLOATS, FLOATS)
change = Call("change", *_GRID, FLOATS, FLOATS, COUNTS, FLOAT, COUNTS)
verify = Call("verify", *_GRID, FLOATS, FLOATS, COUNTS, COUNTS)
query = Call("query", *_ASKED, FLOATS, COUNTS)
quick_query = Call("quick_query", *_ASKED, FLOATS, COUNTS)
quick_queries = Call("quick_queries", *_ASKED, FLOATS, COUNTS, COUNTS)
direct_query = Call("direct_query", *_ASKED, FLOATS, COUNTS)
direct_queries = Call("direct_queries", *_ASKED, FLOATS, COUNTS, COUNTS)
even_profile = Call("even_profile", COUNT, COUNTS, FLOATS, COUNTS)
even_query = Call("even_query", *_ASKED, FLOATS, COUNTS, COUNTS)
read = Call("read", BYTES, *_PARTS, BYTES, COUNTS)
read_edition_1 = Call("read_edition_1", BYTES, *_PARTS)
sheet_tensor = Call("sheet_tensor", BYTES, *_PARTS, BYTES, COUNTS, FLOATS, FLOATS, COUNTS)
write = Call("write", COUNT, COUNTS, BYTES, FLOATS, BYTES, FLOATS, FLOATS, COUNT, BYTES, COUNTS)
exact_index = Call("exact_index", COUNT, FLOATS, COUNT, FLOAT, COUNTS)
locate_axis = Call("locate_axis", COUNT, FLOATS, FLOAT, COUNTS, FLOATS)
locate_step_index = Call("locate_step_index", COUNT, FLOATS, BYTE, FLOAT, COUNTS)
stepped = Call("stepped", *_ASKED, FLOATS, COUNTS)
stepped_many = Call("stepped_many", *_ASKED, FLOATS, COUNTS, COUNTS)
cell_value = Call("cell_value", WHOLE, WHOLE, WHOLE, WHOLE, WHOLE, WHOLES)
cursor_next = Call("cursor_next", BYTES, CURSORS, WHOLES)
surface = Call("surface", BYTES, PATTERN, PATTERN, PATTERN, PATTERN)

query_each = Call("query", *_ASKED, FLOATS, COUNTS, of="point_by_point")
curve_each = Call("curve", COUNT, FLOATS, FLOATS, FLOATS, FLOATS, FLOATS, COUNTS, of="point_by_point")
