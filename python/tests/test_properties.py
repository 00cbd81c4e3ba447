"""What holds of any surface: of changes, of sheets and their texts, of many points."""

import copy
import math
import pickle

import numpy as np
from grids import changes, parts, points, surfaces
from hypothesis import given, settings
from hypothesis import strategies as st

from hullashlar import Refused, Surface, _calls, curve, stepped
from hullashlar.asked import PIECE
from hullashlar.axes import DIRECTIONS, Axes
from hullashlar.sheets import Parts, read, write
from hullashlar.text import sheet_of_text, tensor_of_text, text_of_sheet, text_of_tensor

settings.register_profile("hullashlar", max_examples=150, deadline=None)
settings.load_profile("hullashlar")


def fresh(surface):
    """A build from the samples that stand now."""
    return Surface(surface.axes, surface.samples, list(surface.ends), list(surface.outside))


@given(st.data())
def test_any_list_of_changes_equals_a_fresh_build(data):
    surface = data.draw(surfaces())
    for place, value in data.draw(changes(surface)):
        before = surface.tensor.tobytes()
        try:
            assert surface.change(place, value) > 0
        except Refused:
            assert surface.tensor.tobytes() == before
        assert surface.tensor.tobytes() == fresh(surface).tensor.tobytes()
    assert surface.verify().whole


@given(surfaces())
def test_write_then_read(surface):
    again = Surface.read(surface.write())
    assert again.tensor.tobytes() == surface.tensor.tobytes()
    assert all(np.array_equal(one, other) for one, other in zip(again.axes, surface.axes))
    assert (again.outside, again.edition) == (surface.outside, 2)
    assert again.write() == surface.write()


@given(parts(), st.sampled_from([1, 2]))
def test_show_then_pack(said, edition):
    knots, samples, ends, outside = said
    outside = outside if edition == 2 else "extend"
    sheet = Surface(knots, samples, ends, outside).write(edition=edition)
    assert sheet_of_text(text_of_sheet(read(sheet))) == sheet


@given(st.data())
def test_show_then_pack_of_any_finite_numbers(data):
    finite = st.floats(allow_nan=False, allow_infinity=False)
    knots = [sorted(data.draw(st.lists(finite, min_size=2, max_size=4, unique=True))) for _ in range(data.draw(st.integers(1, 3)))]
    shape = [len(row) for row in knots]
    samples = np.array(data.draw(st.lists(finite, min_size=math.prod(shape), max_size=math.prod(shape)))).reshape(shape)
    ends = [((1, data.draw(finite)), (2, data.draw(finite))) for _ in knots]
    try:
        sheet = write(Parts(2, Axes.of(knots, ends), samples))
    except Refused as refusal:
        assert refusal.number == 8 and any(math.isinf(row[-1] - row[0]) for row in knots)
    else:
        assert sheet_of_text(text_of_sheet(read(sheet))) == sheet


@given(surfaces())
def test_a_tensor_s_text_reads_back(surface):
    axes, tensor = tensor_of_text(text_of_tensor(read(surface.write()), surface.tensor))
    assert tensor.tobytes() == surface.tensor.tobytes()
    assert Surface.of_tensor(tensor=tensor, **axes).verify().whole


def one_by_one(call, axes, numbers, asked, *slots):
    """Values by the exported call for one point, NaN where it is refused."""
    values = []
    for point in asked:
        value, labels = np.zeros(1), np.zeros(_calls.AXES, np.uint64)
        refusal = call(*axes.asked, numbers, point, value, labels, *slots)
        values.append(value[0] if refusal == 0 else np.nan)
    return np.array(values)


def of_surface(call, surface, asked, *slots):
    """The same of a surface."""
    return one_by_one(call, surface._axes, surface._tensor, asked, *slots)


@given(st.data())
def test_many_points_equal_one_by_one(data):
    surface = data.draw(surfaces())
    asked = data.draw(points(surface))
    quick, full = (surface(asked, how=how, on_refusal="nan") for how in ("quick", "full"))
    assert quick.tobytes() == of_surface(_calls.quick_query, surface, asked).tobytes()
    assert full.tobytes() == of_surface(_calls.query, surface, asked).tobytes()
    assert quick.tobytes() == full.tobytes()
    assert quick.tobytes() == np.array([surface(point, on_refusal="nan") for point in asked]).tobytes()


@given(st.data())
def test_direct_is_the_quick_value_but_for_the_cell(data):
    lower = data.draw(st.integers(-5, 5))
    axes = [np.arange(lower, lower + data.draw(st.integers(4, 9)), dtype=float) for _ in range(2)]
    samples = np.fromfunction(lambda row, column: np.sin(row) * column, [len(axis) for axis in axes])
    surface = Surface(axes, samples, outside="hold")
    asked = data.draw(points(surface))
    direct = surface(asked, how="direct")
    assert direct.tobytes() == of_surface(_calls.direct_query, surface, asked).tobytes()
    assert direct.tobytes() == of_surface(_calls.even_query, surface, asked, np.zeros(2, np.uint64)).tobytes()
    np.testing.assert_allclose(direct, surface(asked), rtol=1e-9, atol=1e-9)


@given(st.data())
def test_labels_name_the_cell(data):
    surface = data.draw(surfaces())
    free = Surface(surface.axes, surface.samples, list(surface.ends), "extend")
    asked = data.draw(points(free))
    labels = free.label(asked)
    assert labels.shape == asked.shape
    for axis, row in enumerate(free.axes):
        coordinates, cells = asked[:, axis], labels[:, axis]
        inside = (row[0] <= coordinates) & (coordinates <= row[-1])
        assert np.all((row[cells] <= coordinates)[inside]) and np.all((coordinates <= row[cells + 1])[inside])


@given(st.data())
def test_a_curve_at_many_points_equals_one_by_one(data):
    surface = data.draw(surfaces())
    line = curve(surface.axes[0], surface.samples.reshape(len(surface.axes[0]), -1)[:, 0], [surface.ends[0]])
    asked = np.append(data.draw(points(surface))[:, 0], [np.nan, np.inf])
    expected = []
    for point in asked:
        value = np.zeros(1)
        refusal = _calls.curve(line.knots.size, line.knots, line.samples, line.moments, point, value)
        expected.append(value[0] if refusal == 0 else np.nan)
    assert np.isnan(expected).sum() == 2
    assert line(asked, on_refusal="nan").tobytes() == np.array(expected).tobytes()


@given(st.data())
def test_steps_of_many_points_equal_one_by_one(data):
    surface = data.draw(surfaces())
    asked = np.append(data.draw(points(surface)), [[np.nan] * len(surface.axes)], axis=0)
    directions = [data.draw(st.sampled_from(DIRECTIONS)) for _ in surface.axes]
    grid = Axes.of(surface.axes)
    grid.modes[: len(directions)] = [DIRECTIONS.index(direction) for direction in directions]
    many = stepped(surface.axes, surface.samples, asked, directions, on_refusal="nan")
    assert many.tobytes() == one_by_one(_calls.stepped, grid, surface.samples.flatten(), asked).tobytes()


@given(st.data())
def test_steps_upward_are_numpy_s(data):
    surface = data.draw(surfaces())
    asked = data.draw(points(surface))
    many = stepped(surface.axes, surface.samples, asked, "upper")
    upper = [np.searchsorted(row, coordinates).clip(coordinates < row[0], len(row) - 1) for row, coordinates in zip(surface.axes, asked.T)]
    np.testing.assert_array_equal(many, surface.samples[tuple(upper)])


@given(surfaces())
def test_copies_are_apart(surface):
    for other in (surface.copy(), copy.deepcopy(surface), pickle.loads(pickle.dumps(surface))):
        before = surface.tensor.tobytes()
        assert other.tensor.tobytes() == before
        other.change((0,) * len(surface.axes), 0.25)
        assert surface.tensor.tobytes() == before


@given(surfaces())
def test_views_are_read_only_and_follow_changes(surface):
    samples, tensor = surface.samples, surface.tensor
    place = (0,) * len(surface.axes)
    for view in (samples, tensor, *surface.axes):
        assert not view.flags.writeable
    surface.change(place, 0.25)
    assert samples[place] == tensor[(*place, 0)] == 0.25


def test_direct_takes_cell_0_far_above_the_knots():
    surface = Surface([np.arange(4.0)], [0.0, 1.0, 0.0, 5.0], "natural")
    far = np.array([[2.0**65]])
    assert surface(far, how="direct") == of_surface(_calls.direct_query, surface, far)
    assert surface(far, how="direct") != surface(far)


def test_more_points_than_one_call_takes():
    surface = Surface([np.arange(6.0)] * 2, np.random.default_rng(2).normal(size=(6, 6)), outside="refuse")
    asked = np.random.default_rng(3).uniform(-0.01, 5.01, (3 * PIECE + 7, 2))
    expected = of_surface(_calls.quick_query, surface, asked)
    assert 0 < np.isnan(expected).sum() < len(asked)
    assert surface(asked, on_refusal="nan").tobytes() == expected.tobytes()
    assert surface(asked, how="direct", on_refusal="nan").tobytes() == of_surface(_calls.direct_query, surface, asked).tobytes()
    assert surface(asked, how="full", on_refusal="nan").tobytes() == expected.tobytes()
    steps = one_by_one(_calls.stepped, Axes.of(surface.axes), surface.samples.flatten(), asked)
    assert stepped(surface.axes, surface.samples, asked).tobytes() == steps.tobytes()
    inside = asked[~np.isnan(expected)]
    np.testing.assert_array_equal(surface.label(inside), np.array([surface.label(point) for point in inside]))


def test_points_of_any_shape_and_layout():
    surface = Surface([[0.0, 1.0, 2.0, 3.0]] * 2, np.arange(16.0).reshape(4, 4))
    points = np.random.default_rng(1).uniform(0.0, 3.0, (3, 4, 5, 2))
    values = surface(points)
    assert values.shape == (3, 4, 5)
    for same in (np.asfortranarray(points), points[::-1][::-1], points.tolist(), points.astype(">f8")):
        assert surface(same).tobytes() == values.tobytes()
    assert surface(points[1, 2, 3]) == values[1, 2, 3]
    assert surface(np.empty((0, 2))).shape == (0,)
    assert surface([[1, 2]]).shape == (1,)
