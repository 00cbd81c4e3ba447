#!/usr/bin/env python3
"""Measures a million quick queries on a grid of 16×16 by one array call, beside a loop in C over the exported call for many points and
beside SciPy's RegularGridInterpolator(method="cubic"); fails where a goal is missed."""

import os
import statistics
import subprocess
import sys
import tempfile
import time
from pathlib import Path

import numpy as np
from scipy.interpolate import RegularGridInterpolator

from hullashlar import Surface

ROOT = Path(__file__).resolve().parents[2]
HERE = Path(__file__).resolve().parent
POINTS, SIDE, ROUNDS = 1_000_000, 16, 9

# SciPy fits a spline anew for each point, so it is asked at the first few of the same points.
SCIPY_POINTS = 5_000

MOST_OF_C, LEAST_OF_SCIPY = 1.3, 5.0


def seconds(call):
    start = time.perf_counter()
    call()
    return time.perf_counter() - start


def seconds_in_c(surface, points):
    """The median of the rounds of loop.c."""
    archive = Path(os.environ["HULLASHLAR_ARCHIVE_DIR"]) / "libhullashlar.a"
    with tempfile.TemporaryDirectory() as folder:
        np.concatenate(surface.axes).tofile(f"{folder}/knots")
        surface.tensor.tofile(f"{folder}/tensor")
        points.tofile(f"{folder}/points")
        compile_loop = ["gcc", "-std=gnu11", "-O2", f"-I{ROOT / 'include'}", HERE / "loop.c", archive, "-o", f"{folder}/loop"]
        subprocess.run(compile_loop, check=True)
        done = subprocess.run([f"{folder}/loop"], cwd=folder, check=True, capture_output=True, text=True)
    return statistics.median(map(float, done.stdout.split()))


def main():
    random = np.random.default_rng(20240917)
    row = np.arange(SIDE) + 0.125 * (np.arange(SIDE) % 3)
    samples = random.normal(size=(SIDE, SIDE))
    points = random.uniform(row[0], row[-1], (POINTS, 2))
    surface = Surface([row, row], samples)
    in_c = seconds_in_c(surface, points)
    surface(points)
    in_python = statistics.median(seconds(lambda: surface(points)) for _ in range(ROUNDS))
    theirs = RegularGridInterpolator((row, row), samples, method="cubic")
    in_scipy = seconds(lambda: theirs(points[:SCIPY_POINTS])) * POINTS / SCIPY_POINTS
    print("| A million quick queries on 16×16 | Nanoseconds a point |\n|---|--:|")
    for name, taken in (("loop in C", in_c), ("one array call", in_python), ("SciPy's RegularGridInterpolator, cubic", in_scipy)):
        print(f"| {name} | {1e9 * taken / POINTS:,.0f} |")
    print(f"\nThe array call takes {in_python / in_c:.2f} times the loop in C; SciPy takes {in_scipy / in_python:,.0f} times the array call.")
    if in_python > MOST_OF_C * in_c or in_scipy < LEAST_OF_SCIPY * in_python:
        sys.exit("a goal is missed")


if __name__ == "__main__":
    main()
