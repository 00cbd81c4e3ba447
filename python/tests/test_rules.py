"""The worked examples of docs/RULES.md."""

import itertools

import numpy as np
import pytest

from hullashlar import Surface, cell_value, curve, sheet_value, stepped

ENDS = ["natural", ((1, 1.0), (2, 0.0))]
AXES = [[0.0, 1.0], [0.0, 1.0, 2.0]]

SHEET_1 = bytes.fromhex(
    "12 03 40 00 00 00 00 00 00 00 00 00 00 00 00 00 00 00 00 00 00 00 00 00 00 00 07 FE 00 00 00 00 00 00"
    "00 00 00 00 00 00 00 00 07 FE 00 00 00 00 00 00 00"
)
SHEET_2 = bytes.fromhex(
    "22 03 48 00 00 00 00 00 00 00 00 00 00 00 00 00 00 00 00 00 00 00 00 00 00 00 01 FF 80 00 00 00 00 00"
    "00 00 00 00 00 00 00 00 01 FF 80 00 00 00 00 00 00"
)


@pytest.fixture
def surface():
    return Surface(AXES, [[0.0, 1.0, 2.0], [0.0, 0.0, 3.0]], ENDS)


def test_the_tensor(surface):
    numbers = [0, 0, 1, 0, 1, -1, 1, 0, 2, 1, 1, 3, 0, 0, 1, 0, 0, -1, 1, 0, 3, 1, 4, 3]
    np.testing.assert_array_equal(surface.tensor.ravel(), numbers)


def test_the_change(surface):
    assert surface.change((1, 1), 7.0) == 4
    numbers = [0, 0, 1, 0, 1, 6, 1, 3, 2, 1, 1, -9, 0, 0, 1, 0, 7, 6, 4, 3, 3, 1, -8, -9]
    np.testing.assert_array_equal(surface.tensor.ravel(), numbers)


@pytest.mark.parametrize("how", ["quick", "full", "direct"])
def test_the_query(surface, how):
    assert surface([0.5, 1.5], how=how) == 1.3125
    np.testing.assert_array_equal(surface.label([0.5, 1.5]), [0, 1])


def test_the_sheets():
    line = [[0.0, 1.0]]
    assert Surface(line, [0.0, 1.0], "natural").write(edition=1) == SHEET_1
    assert Surface(line, [0.0, 1.0], "natural", "hold").write() == SHEET_2
    for sheet, outside in ((SHEET_1, "extend"), (SHEET_2, "hold")):
        read = Surface.read(sheet)
        np.testing.assert_array_equal(read.tensor, [[0.0, 1.0], [1.0, 1.0]])
        assert (read.ends, read.outside) == (("natural",), (outside,))
        assert read.write(edition=read.edition) == sheet


def test_the_firmware_s_call_reads_what_the_surface_has(gain_sheet):
    assert sheet_value(gain_sheet, [1.5, 60.0]) == Surface.read(gain_sheet)([1.5, 60.0])


def test_the_steps():
    points = [[-1.0], [0.0], [0.5], [1.0], [1.5], [2.0], [3.0]]
    knots, samples = [[0.0, 1.0, 2.0]], [0.0, 1.0, 2.0]
    np.testing.assert_array_equal(stepped(knots, samples, points, "lower"), [0, 0, 0, 1, 1, 2, 1])
    np.testing.assert_array_equal(stepped(knots, samples, points, "upper"), [1, 0, 1, 1, 2, 2, 2])
    grid = [[0.0, 1.0], [0.0, 1.0]]
    assert stepped(grid, [[1.0, 2.0], [3.0, 4.0]], [0.5, 0.5], ["lower", "upper"]) == 2.0


def test_the_curve():
    hill = curve([0.0, 1.0, 2.0], [0.0, 1.0, 0.0], ends="natural")
    np.testing.assert_array_equal(hill([[0.5, 1.0], [1.5, 2.0]]), [[0.6875, 1.0], [0.6875, 0.0]])
    assert hill(1.0) == 1.0


def test_the_cell():
    assert [cell_value(-3, 7, 0, 0, k) for k in (0, 128, 256)] == [-3, 2, 7]


def test_measured_points_are_read(gain_sheet):
    surface = Surface.read(gain_sheet)
    points = np.stack(np.meshgrid(*surface.axes, indexing="ij"), axis=-1)
    for how in ("quick", "full"):
        np.testing.assert_array_equal(surface(points, how=how), surface.samples)


PAIR = ((1, 0.5), (2, -0.0))


@pytest.mark.parametrize(
    "said, meant",
    [
        ("not-a-knot", "not-a-knot"),
        (["periodic"], "periodic"),
        (PAIR, PAIR),
        ([PAIR], PAIR),
        (np.array(PAIR), PAIR),
        (("natural", "clamped"), ((2, 0.0), (1, 0.0))),
        (["clamped", "clamped"], "clamped"),
        (("not-a-knot", (2, 1.0)), ("not-a-knot", (2, 1.0))),
    ],
)
def test_how_the_ends_of_one_axis_are_said(said, meant):
    row, samples = np.arange(5.0), np.random.default_rng(5).normal(size=5)
    surface = Surface([row], samples, said, ["hold"])
    assert (repr(surface.ends), surface.outside) == (repr((meant,)), ("hold",))
    assert surface.tensor[:, 1].tobytes() == curve(row, samples, said).slopes.tobytes()


@pytest.mark.parametrize("outside", [*itertools.product(["extend", "hold", "refuse"], repeat=2), "extend", "hold", "refuse"])
def test_what_is_outside_each_axis(outside):
    row, samples = np.arange(5.0), np.random.default_rng(6).normal(size=(5, 5))
    surface = Surface([row, row], samples, outside=outside)
    modes = [outside] * 2 if isinstance(outside, str) else outside
    assert surface.outside == tuple(modes)
    for axis, mode in enumerate(modes):
        beyond, end = np.full(2, 1.5), np.full(2, 1.5)
        beyond[axis], end[axis] = 4.5, 4.0
        value = surface(beyond, on_refusal="nan")
        assert np.isnan(value) == (mode == "refuse")
        assert (value == surface(end)) == (mode == "hold")


@pytest.mark.parametrize(
    "said, meant",
    [
        ("clamped", ["clamped", "clamped"]),
        (PAIR, [PAIR, PAIR]),
        ([[1, 0.5], [2, -0.0]], [PAIR, PAIR]),
        (("not-a-knot", (1, 0.5)), [("not-a-knot", (1, 0.5))] * 2),
        (((1, 0.5), "natural"), [((1, 0.5), (2, 0.0))] * 2),
        (("natural", "clamped"), ["natural", "clamped"]),
        ([PAIR, "periodic"], [PAIR, "periodic"]),
        ([("natural", "clamped"), "not-a-knot"], [((2, 0.0), (1, 0.0)), "not-a-knot"]),
    ],
)
def test_how_ends_are_said(said, meant):
    axes, samples = [np.arange(5.0)] * 2, np.random.default_rng(5).normal(size=(5, 5))
    surface = Surface(axes, samples, said, ("hold", "refuse"))
    assert repr(surface.ends) == repr(tuple(meant))
    assert surface.outside == ("hold", "refuse")
    assert surface.tensor.tobytes() == Surface(axes, samples, list(surface.ends)).tensor.tobytes()
