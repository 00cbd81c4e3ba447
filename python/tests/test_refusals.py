"""Every refusal as an exception, and what is wrong usage."""

import pickle

import numpy as np
import pytest

from hullashlar import Refused, Stale, Surface, _calls, cell_value, curve, sheet_value, stepped
from hullashlar.refusals import REFUSALS, accept

LINE = [[0.0, 1.0, 2.0]]
HILL = [0.0, 1.0, 0.0]


def hill(**words):
    return Surface(LINE, HILL, **{"ends": "natural", **words})


def sheet(**words):
    return hill(**words).write()


def changed_bits(sheet, position, bits):
    """The sheet with a byte turned in some bits."""
    return sheet[:position] + bytes([sheet[position] ^ bits]) + sheet[position + 1 :]


def large():
    """A sheet of more numbers than the firmware's call has room for."""
    return Surface([np.arange(16.0)] * 2, np.zeros((16, 16))).write()


# For each number a call that is refused by it. Lengths, scratch and buffers are the package's own, so these ask the calls themselves.
REFUSED_BY = {
    1: lambda: Surface([], 1.0),
    2: lambda: Surface([[1.0]], [1.0]),
    3: lambda: Surface([np.arange(33.0)] * 2, np.zeros((33, 33))),
    4: lambda: accept(_calls.slopes(3, np.zeros(3), np.zeros(2), np.zeros(3), np.zeros(3))),
    5: lambda: accept(_calls.moments(2, np.arange(2.0), np.zeros(2), np.zeros(2, np.uint8), np.zeros(2), np.zeros(2), np.zeros(1))),
    6: lambda: hill().change((3,), 0.0),
    7: lambda: Surface(LINE, [0.0, np.nan, 0.0], "natural"),
    8: lambda: Surface([[0.0, 1.0, 1.0]], HILL, "natural"),
    9: lambda: Surface(LINE, HILL),
    10: lambda: Surface([[0.0, 1e-300, 2e-300]], [-1e300, 1e300, -1e300], "natural"),
    11: lambda: Surface.read(sheet()[:-1]),
    12: lambda: hill().write(edition=3),
    13: lambda: Surface(LINE, HILL, [("periodic", "natural")]),
    14: lambda: Surface.read(sheet() + b"\0"),
    15: lambda: accept(write_into(np.zeros(3, np.uint8))),
    16: lambda: sheet_value(large(), [1.0, 1.0]),
    17: lambda: sheet_value(sheet(), [1.0, 1.0]),
    18: lambda: hill(outside="refuse")([2.5]),
    19: lambda: cell_value(40_000, 0, 0, 0, 0),
    20: lambda: cell_value(0, 0, 0, 0, 257),
    21: lambda: Surface([[0.0, 1.0, 3.0]], HILL, "natural")([0.5], how="direct"),
    22: lambda: Surface.read(changed_bits(sheet(), 2, 0x18)),
    23: lambda: hill(outside="hold").write(edition=1),
}


def write_into(buffer):
    axes = hill()._axes
    return _calls.write(*axes.grid[:4], axes.modes, axes.knots, np.zeros(3), 2, buffer, np.zeros(1, np.uint64))


@pytest.mark.parametrize("number", REFUSALS)
def test_every_refusal_is_an_exception(number):
    with pytest.raises(Refused) as caught:
        REFUSED_BY[number]()
    refusal = caught.value
    name, sentence = REFUSALS[number]
    assert (refusal.number, refusal.name, refusal.sentence) == (number, name, sentence)
    assert str(refusal).startswith(f"refused {number} ({name})") and str(refusal).endswith(sentence)


def test_uneven_axes_say_where():
    with pytest.raises(Refused, match="on axis 0 behind knot 1"):
        REFUSED_BY[21]()


def test_no_count_wraps_around():
    for place in (-1, 2**64, 2**64 + 1):
        with pytest.raises(Refused) as caught:
            hill().change((place,), 0.0)
        assert caught.value.number == 6
    with pytest.raises(Refused) as caught:
        hill().write(edition=2**64 + 1)
    assert caught.value.number == 12
    with pytest.raises(Refused) as caught:
        cell_value(2**32, 0, 0, 0, 0)
    assert caught.value.number == 19
    with pytest.raises(Refused) as caught:
        cell_value(0, 0, 0, 0, 2**32)
    assert caught.value.number == 20


def test_a_refused_change_leaves_the_surface():
    surface = hill()
    before = surface.tensor.tobytes()
    for place, value in (((3,), 1.0), ((1,), np.inf), ((1,), 1.7e308)):
        with pytest.raises(Refused):
            surface.change(place, value)
        assert surface.tensor.tobytes() == before


def test_refused_points_among_others():
    surface = hill(outside="refuse")
    points = np.array([[[0.5], [3.0]], [[np.nan], [1.0]]])
    np.testing.assert_array_equal(np.isnan(surface(points, on_refusal="nan")), [[False, True], [True, False]])
    with pytest.raises(Refused, match=r"at points\[0, 1\], the first of 2 of 4") as caught:
        surface(points)
    assert caught.value.number == 18
    with pytest.raises(Refused, match=r"points\[0, 1\]"):
        surface.label(points)
    assert np.isnan(surface([3.0], on_refusal="nan"))


def test_a_stale_tensor():
    surface = hill()
    stale = surface.tensor.copy()
    stale[1, 0] = 5.0
    with pytest.raises(Stale) as caught:
        Surface.of_tensor(LINE, stale, "natural")
    assert (caught.value.found.whole, caught.value.found.place, caught.value.found.mask, caught.value.found.many) == (False, (0,), 1, 2)
    kept = Surface.of_tensor(LINE, stale, "natural", stale="keep")
    assert not kept.verify() and not kept.verify().whole
    kept.change((1,), 5.0)
    assert kept.verify().whole
    assert kept.tensor.tobytes() == Surface(LINE, [0.0, 5.0, 0.0], "natural").tensor.tobytes()


def test_wrong_usage_is_no_refusal():
    wrong = [
        lambda: Surface(LINE, [[0.0, 1.0, 0.0]], "natural"),
        lambda: Surface([[[0.0, 1.0, 2.0]]], HILL, "natural"),
        lambda: curve([[0.0, 1.0]], [0.0, 1.0], "natural"),
        lambda: Surface(LINE, HILL, "natrual"),
        lambda: Surface(LINE, HILL, ["natural"] * 3),
        lambda: Surface(LINE * 2, [HILL] * 3, ["natural"] * 3),
        lambda: Surface(LINE, HILL, ((3, 0.0), (1, 0.0))),
        lambda: Surface(LINE, HILL, ((1, "0.5"), (1, 0.0))),
        lambda: Surface(LINE, HILL, (1, 0.5)),
        lambda: Surface(LINE, HILL, [(1, 0.5)]),
        lambda: Surface(LINE, HILL, [["natural"]]),
        lambda: Surface(LINE, HILL, [None]),
        lambda: Surface(LINE, HILL, None),
        lambda: Surface(LINE, HILL, 2),
        lambda: Surface(LINE, HILL, "natural", "clamp"),
        lambda: Surface(LINE, HILL, "natural", None),
        lambda: Surface(LINE, HILL, "natural", ["hold", "hold"]),
        lambda: Surface(LINE, HILL, "natural", [1]),
        lambda: stepped(LINE, HILL, [0.5], "down"),
        lambda: hill()([[0.5, 0.5]]),
        lambda: hill()([0.5], how="fast"),
        lambda: hill()([0.5], on_refusal="ignore"),
        lambda: hill().change((1, 1), 0.0),
        lambda: Surface.of_tensor(LINE, np.zeros((3, 2)), "natural", stale="ignore"),
        lambda: sheet_value(sheet(), [0.0] * 5),
    ]
    for call in wrong:
        with pytest.raises(ValueError) as caught:
            call()
        assert not isinstance(caught.value, Refused)
    for numbers in ([0.0, 1j, 0.0], ["0", "1", "0"]):
        with pytest.raises(TypeError):
            Surface(LINE, numbers, "natural")


def test_a_curve_is_refused_too():
    with pytest.raises(Refused) as caught:
        curve([0.0, 1.0], [0.0, 1.0])
    assert caught.value.number == 9
    line = curve([0.0, 1.0], [0.0, 1.0], "natural")
    with pytest.raises(Refused):
        line([0.5, np.inf])
    np.testing.assert_array_equal(line([0.5, np.inf], on_refusal="nan"), [0.5, np.nan])


def test_the_loops_write_nothing_where_a_length_does_not_fit():
    surface, line = hill(), curve(LINE[0], HILL, "natural")
    loops = {
        _calls.query_each: (*surface._axes.asked, surface._tensor),
        _calls.curve_each: (3, line.knots, line.samples, line.moments),
    }
    for loop, lane in loops.items():
        for coordinates, values in ((2, 3), (3, 2), (4, 3), (3, 4)):
            written, refusals = np.full(values, 9.0), np.full(3, 99, np.uint64)
            assert loop(*lane, np.ones(coordinates), written, refusals) == 4
            assert (written == 9.0).all() and (refusals == 99).all()
        written, refusals = np.full(3, 9.0), np.full(3, 99, np.uint64)
        assert loop(*lane, np.ones(3), written, refusals) == 0
        assert (written == 1.0).all() and (refusals == 0).all()
    axes = (2**63, *surface._axes.asked[1:])
    assert _calls.query_each(*axes, surface._tensor, np.empty(0), np.zeros(2), np.zeros(2, np.uint64)) == 4


def test_exceptions_can_be_sent_to_another_process():
    refusal = pickle.loads(pickle.dumps(Refused(8, "here")))
    assert (refusal.number, refusal.where) == (8, "here")
