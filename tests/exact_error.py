#!/usr/bin/env python3
"""How far rounding takes us from the exact spline, measured: sheets are built and queried by our archive, and the same spline is worked out
in fractions, from what a spline is and not by the rules' formulas. Prints the largest error of a value, in units in the last place of the
sheet's largest sample, by size of grid, kind of ends and evenness, and the sheet that has the worst. It is no theorem: another sheet may be
worse. Behind each error it prints the largest bound that is worked out beside the floats (docs/RULES.md, chapter Bounds), and it fails where
a value of the archive is not the one beside which the bound stands, or lies further off than the bound."""

import argparse
import ctypes
import math
import os
import random
import subprocess
import sys
import tempfile
from fractions import Fraction
from itertools import product
from pathlib import Path

import carried_bounds

ROOT = Path(__file__).resolve().parent.parent
ARCHIVE = Path(os.environ.get("HULLASHLAR_ARCHIVE_DIR", ROOT / "target" / "staticlib")) / "libhullashlar.a"

NOT_A_KNOT, FIRST, SECOND, PERIODIC = range(4)
ENDS = {"NotAKnot": (NOT_A_KNOT, 0.0), "second derivative 0": (SECOND, 0.0), "first derivative 1": (FIRST, 1.0), "Periodic": (PERIODIC, 0.0)}
GRIDS = [(4,), (8,), (32,), (128,), (4, 4), (8, 8), (16, 16), (4, 4, 4), (6, 6, 6), (4, 4, 4, 4)]
STEPS = {"even": lambda rng: 1.0, "uneven": lambda rng: 2.0 ** rng.uniform(-3, 3)}
LARGEST = 100.0


def library(folder):
    """The archive as a library that Python can call."""
    made = Path(folder) / "libhullashlar.so"
    subprocess.run(["gcc", "-shared", "-o", made, "-Wl,--whole-archive", ARCHIVE, "-Wl,--no-whole-archive"], check=True)
    calls = ctypes.CDLL(str(made))
    calls.hullashlar_build.restype = calls.hullashlar_query.restype = ctypes.c_size_t
    return calls


def lent(kind, numbers):
    """A slice as a call takes it: its first element and its length."""
    slice = (kind * len(numbers))(*numbers)
    return slice, [slice, ctypes.c_size_t(len(numbers))]


class Sheet:
    """A grid with samples, and its tensor from the archive."""

    def __init__(self, calls, points, end, axes, samples):
        self.calls, self.points, self.end, self.axes, self.samples = calls, points, end, axes, samples
        self.numbers, self.used = None, ctypes.c_size_t(len(points))
        self.four = lent(ctypes.c_size_t, [*points, 0, 0, 0, 0][:4])
        self.knots = lent(ctypes.c_double, [x for axis in axes for x in axis])
        kinds = lent(ctypes.c_uint8, [end[0]] * 2 * len(points) + [0] * (8 - 2 * len(points)))
        values = lent(ctypes.c_double, [end[1]] * 2 * len(points) + [0.0] * (8 - 2 * len(points)))
        self.tensor = lent(ctypes.c_double, [0.0] * (math.prod(points) << len(points)))
        scratch = lent(ctypes.c_double, [0.0] * 6144)
        refusal = calls.hullashlar_build(
            self.used, *self.four[1], *kinds[1], *values[1], *self.knots[1], *lent(ctypes.c_double, samples)[1], *self.tensor[1], *scratch[1])
        if refusal:
            sys.exit(f"a sheet was refused by {refusal}")

    def computed(self, point):
        """The archive's value at a point."""
        modes, value, labels = lent(ctypes.c_uint8, [0] * 4), lent(ctypes.c_double, [0.0]), lent(ctypes.c_size_t, [0] * 4)
        refusal = self.calls.hullashlar_query(
            self.used, *self.four[1], *modes[1], *self.knots[1], *self.tensor[1], *lent(ctypes.c_double, point)[1], *value[1], *labels[1])
        if refusal:
            sys.exit(f"a point was refused by {refusal}")
        return value[0][0]

    def bounded(self, point):
        """The same value with its bound."""
        if self.numbers is None:
            self.numbers = carried_bounds.tensor(self.axes, self.samples, *self.end)
        return carried_bounds.value(self.axes, self.numbers, point)

    def exact(self, point):
        """The value of the spline of splines, in fractions: along one axis after the other."""
        numbers = [Fraction(v) for v in self.samples]
        for axis, count, coordinate in reversed(list(zip(self.axes, self.points, point))):
            knots = [Fraction(x) for x in axis]
            lanes = [numbers[at:at + count] for at in range(0, len(numbers), count)]
            numbers = [value_at(knots, lane, seconds(knots, lane, self.end), Fraction(coordinate)) for lane in lanes]
        return numbers[0]


def seconds(x, y, end):
    """The second derivatives at the knots of the spline through y: the one solution of the rows that say that slopes meet and ends hold."""
    n = len(x) - 1
    h = [x[i + 1] - x[i] for i in range(n)]
    s = [(y[i + 1] - y[i]) / h[i] for i in range(n)]
    start, stop = ({0: -h[0] / 3, 1: -h[0] / 6}, s[0]), ({n - 1: h[-1] / 6, n: h[-1] / 3}, s[-1])
    rows = [({i: h[i] / 6, i + 1: (h[i] + h[i + 1]) / 3, i + 2: h[i + 1] / 6}, s[i + 1] - s[i]) for i in range(n - 1)]
    kind, number = end[0], Fraction(end[1])
    if kind == NOT_A_KNOT:
        thirds = [{i: -1 / h[i], i + 1: 1 / h[i] + 1 / h[i + 1], i + 2: -1 / h[i + 1]} for i in (0, n - 2)]
        rows = [(thirds[0], Fraction(0)), *rows, (thirds[1], Fraction(0))]
    elif kind == FIRST:
        rows = [(start[0], number - start[1]), *rows, (stop[0], number - stop[1])]
    elif kind == SECOND:
        rows = [({0: Fraction(1)}, number), *rows, ({n: Fraction(1)}, number)]
    elif n == 1:
        # the first is the last, and so both are nought
        rows = [({0: Fraction(1)}, Fraction(0)), ({1: Fraction(1)}, Fraction(0))]
    else:
        close = {k: start[0].get(k, Fraction(0)) - stop[0].get(k, Fraction(0)) for k in {*start[0], *stop[0]}}
        rows = [*rows, (close, stop[1] - start[1]), ({0: Fraction(1), n: Fraction(-1)}, Fraction(0))]
    return solved(rows)


def solved(rows):
    """The solution of linear rows, each its coefficients by unknown and its right side, by elimination."""
    rows, done = [(dict(row), right) for row, right in rows], []
    for k in range(len(rows)):
        at = next(j for j, (row, _) in enumerate(rows) if row.get(k))
        first, right = rows.pop(at)
        done.append((first, right))
        for j, (row, other) in enumerate(rows):
            if row.get(k):
                times = row[k] / first[k]
                for c, v in first.items():
                    row[c] = row.get(c, 0) - times * v
                rows[j] = ({c: v for c, v in row.items() if v}, other - times * right)
    found = [Fraction(0)] * len(done)
    for k in reversed(range(len(done))):
        row, right = done[k]
        found[k] = (right - sum(v * found[c] for c, v in row.items() if c > k)) / row[k]
    return found


def value_at(x, y, m, point):
    """The value of the cubic of the point's cell, as a polynomial around its lower knot."""
    i = max(k for k in range(len(x) - 1) if k == 0 or x[k] <= point)
    h, t = x[i + 1] - x[i], point - x[i]
    slope = (y[i + 1] - y[i]) / h - h * (2 * m[i] + m[i + 1]) / 6
    return y[i] + t * (slope + t * (m[i] / 2 + t * (m[i + 1] - m[i]) / (6 * h)))


def axis(rng, count, step):
    """Rising knots from a first one on."""
    knots = [rng.uniform(-10, 10)]
    while len(knots) < count:
        knots.append(knots[-1] + step(rng))
    return knots


def samples_of(rng, axes, smooth):
    """Samples at all places: of one wave along each axis, or any."""
    if not smooth:
        return [rng.uniform(-LARGEST, LARGEST) for _ in product(*axes)]
    waves = [(rng.uniform(0, 6), rng.uniform(0.5, 1.5) * math.pi / (a[-1] - a[0])) for a in axes]
    return [LARGEST * math.prod(math.sin(p + w * x) for x, (p, w) in zip(place, waves)) for place in product(*axes)]


def measured(calls, rng, points, end, step, smooth, count):
    """The largest error at points of one sheet, in units in the last place of its largest sample, and where; and the largest bound."""
    axes = [axis(rng, n, step) for n in points]
    sheet = Sheet(calls, points, end, axes, samples_of(rng, axes, smooth))
    unit = Fraction(math.ulp(max(map(abs, sheet.samples))))
    worst, largest = (0.0, None, sheet), 0.0
    for _ in range(count):
        point = [rng.uniform(a[0], a[-1]) for a in axes]
        computed, bounded = sheet.computed(point), sheet.bounded(point)
        error = abs(Fraction(computed) - sheet.exact(point))
        if computed != bounded.float:
            sys.exit(f"at {point} the archive has {computed}, and the bound stands beside {bounded.float}")
        if bounded.off is None or error > Fraction(bounded.off):
            sys.exit(f"at {point} the value is off by {float(error)}, and its bound is {bounded.off}")
        worst = max(worst, (float(error / unit), point, sheet), key=lambda found: found[0])
        largest = max(largest, float(Fraction(bounded.off) / unit))
    return *worst, largest


def main():
    options = argparse.ArgumentParser()
    options.add_argument("--seed", type=int, default=20240917)
    options.add_argument("--sheets", type=int, default=10, help="sheets of each kind")
    options.add_argument("--points", type=int, default=3, help="points of each sheet")
    given = options.parse_args()
    worst, asked = (0.0, None, None), 0
    names = [f"{data}, {steps}" for data in ("smooth", "random") for steps in STEPS]
    print("| Grid | Ends | " + " | ".join(names) + " |")
    print("|---|---|" + "---|" * len(names))
    with tempfile.TemporaryDirectory() as folder:
        calls = library(folder)
        for points, (ends, end) in product(GRIDS, ENDS.items()):
            row = []
            for data, (steps, step) in product(("smooth", "random"), STEPS.items()):
                rng = random.Random(f"{given.seed} {points} {ends} {data} {steps}")
                found = [measured(calls, rng, points, end, step, data == "smooth", given.points) for _ in range(given.sheets)]
                asked += given.sheets * given.points
                largest = max(found, key=lambda one: one[0])
                row.append(f"{largest[0]:.2f} of {max(one[3] for one in found):.0f}")
                worst = max(worst, largest[:3], key=lambda one: one[0])
            print(f"| {' × '.join(map(str, points))} | {ends} | " + " | ".join(row) + " |", flush=True)
    error, point, sheet = worst
    print(f"\n{asked} values, each within its bound. The worst is off by {error:.2f} units, where the spline is {float(sheet.exact(point))}, at {point} of this sheet:")
    print(f"points {sheet.points}, kind of ends {sheet.end}\nknots {sheet.axes}\nsamples {sheet.samples}")
    if not asked or not error:
        sys.exit("nothing was measured")


if __name__ == "__main__":
    main()
