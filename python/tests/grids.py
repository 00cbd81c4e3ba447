"""Grids, samples and points for properties, as hypothesis makes them."""

import math

import numpy as np
from hypothesis import strategies as st

from hullashlar import Surface

NUMBERS = st.floats(-1e6, 1e6, allow_subnormal=False)
ENDS = st.sampled_from(["not-a-knot", "natural", "clamped", "periodic", ((1, 0.5), (2, -1.0)), ("not-a-knot", (1, 2.0))])
OUTSIDE = st.sampled_from(["extend", "hold", "refuse"])

# The most knots of an axis, by the number of axes: a tensor stays small.
MOST = {1: 40, 2: 9, 3: 5, 4: 4}


@st.composite
def parts(draw):
    """The axes, samples, ends and modes of a surface that is accepted: knots by steps from a thousandth to a thousand."""
    axes = draw(st.integers(1, 4))
    shape = [draw(st.integers(4, MOST[axes])) for _ in range(axes)]
    random = np.random.default_rng(draw(st.integers(0, 2**32)))
    knots = [np.cumsum(10.0 ** random.uniform(-3.0, 3.0, points)) for points in shape]
    samples = random.normal(size=shape) * 10.0 ** random.integers(-6, 6)
    ends = [draw(ENDS) for _ in range(axes)]
    return knots, samples, ends, [draw(OUTSIDE) for _ in range(axes)]


@st.composite
def surfaces(draw):
    """A surface of some parts."""
    return Surface(*draw(parts()))


@st.composite
def changes(draw, surface):
    """A list of changes, some of which are refused for their place or their number."""
    places = st.tuples(*(st.integers(-1, len(row)) for row in surface.axes))
    return draw(st.lists(st.tuples(places, NUMBERS | st.just(math.nan)), max_size=8))


@st.composite
def points(draw, surface):
    """Points inside, outside and on knots."""
    random = np.random.default_rng(draw(st.integers(0, 2**32)))
    drawn = [random.uniform(row[0] - 1.0, row[-1] + 1.0, 12) for row in surface.axes]
    knots = [random.choice(row, 12) for row in surface.axes]
    on_knot = random.random((12, len(surface.axes))) < 0.3
    return np.where(on_knot, np.stack(knots, axis=-1), np.stack(drawn, axis=-1))
