"""Beside SciPy: on smooth data the same numbers to 1e-9, and where the two part, why."""

import numpy as np
import pytest
from scipy.interpolate import CubicSpline

from hullashlar import Refused, Surface, curve

CLOSE = 1e-9
WORDS = ["natural", "clamped", "not-a-knot", "periodic"]
RANDOM = np.random.default_rng(20240917)

# Knots by steps that are not all alike; on the periodic wave the last sample is the first.
KNOTS = [np.linspace(0.0, 2.0, 17) ** 1.25, np.linspace(-1.0, 1.0, 12) + 0.02 * np.sin(np.arange(12))]


def wave(row, phase=0.0):
    """A smooth wave that is above zero and ends where it began."""
    turns = (row - row[0]) / (row[-1] - row[0])
    samples = 2.0 + np.sin(2.0 * np.pi * turns + phase)
    samples[-1] = samples[0]
    return samples


def inside(row, points):
    return RANDOM.uniform(row[0], row[-1], points)


@pytest.mark.parametrize("ends", [*WORDS, ((1, 0.5), (2, -1.0)), ("not-a-knot", (1, 0.25))])
@pytest.mark.parametrize("row", KNOTS)
def test_one_axis(ends, row):
    samples = wave(row)
    points = inside(row, 500)
    expected = CubicSpline(row, samples, bc_type=ends)(points)
    of_axis = [ends] if isinstance(ends, tuple) else ends
    np.testing.assert_allclose(Surface([row], samples, of_axis)(points[:, np.newaxis]), expected, rtol=CLOSE)
    np.testing.assert_allclose(curve(row, samples, of_axis)(points), expected, rtol=CLOSE)


@pytest.mark.parametrize("ends", WORDS)
def test_slopes_and_moments(ends):
    row, samples = KNOTS[0], wave(KNOTS[0])
    theirs, ours = CubicSpline(row, samples, bc_type=ends), curve(row, samples, ends)
    np.testing.assert_allclose(ours.slopes, theirs(row, 1), rtol=CLOSE, atol=CLOSE)
    np.testing.assert_allclose(ours.moments, theirs(row, 2), rtol=CLOSE, atol=1e-8)


def tensor_product(rows, samples, ends, points):
    """SciPy's splines along axis 1, and through their values at each point one along axis 0."""
    along = CubicSpline(rows[1], samples, axis=1, bc_type=ends[1])
    return np.array([CubicSpline(rows[0], along(second), bc_type=ends[0])(first) for first, second in points])


@pytest.mark.parametrize("first", WORDS)
@pytest.mark.parametrize("second", WORDS)
def test_two_axes(first, second):
    samples = wave(KNOTS[0])[:, np.newaxis] * wave(KNOTS[1], 1.0)
    points = np.stack([inside(row, 200) for row in KNOTS], axis=-1)
    expected = tensor_product(KNOTS, samples, (first, second), points)
    np.testing.assert_allclose(Surface(KNOTS, samples, [first, second])(points), expected, rtol=CLOSE)


def test_extend_is_scipy_s_extrapolation():
    row, samples = KNOTS[0], wave(KNOTS[0])
    points = np.array([row[0] - 0.1, row[-1] + 0.1])
    np.testing.assert_allclose(curve(row, samples)(points), CubicSpline(row, samples)(points), rtol=CLOSE)


def test_periodic_differs_outside():
    """SciPy goes round again beyond a periodic axis; ours extends the boundary cubic, holds or refuses, as `outside` says."""
    row, samples = KNOTS[0], wave(KNOTS[0])
    outside = row[-1] + 1.0
    theirs = CubicSpline(row, samples, bc_type="periodic")(outside)
    assert abs(Surface([row], samples, "periodic")([outside]) - theirs) > 1e-3


def test_three_not_a_knot_points_differ():
    """SciPy takes a parabola through three points; ours refuses by 9, since two not-a-knot ends drop two of three unknowns."""
    CubicSpline([0.0, 1.0, 2.0], [0.0, 1.0, 0.0])
    with pytest.raises(Refused) as caught:
        curve([0.0, 1.0, 2.0], [0.0, 1.0, 0.0])
    assert caught.value.number == 9


def test_periodic_samples_that_do_not_meet_differ():
    """SciPy wants the last sample to be the first; ours compares nothing, and makes slope and second derivative meet."""
    row, samples = [0.0, 1.0, 2.0, 3.0], [0.0, 1.0, 0.0, 5.0]
    with pytest.raises(ValueError):
        CubicSpline(row, samples, bc_type="periodic")
    ours = curve(row, samples, "periodic")
    assert ours.moments[0] == ours.moments[-1]
