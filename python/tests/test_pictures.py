"""Every kind of picture is drawn, from the surface's own numbers."""

import itertools

import matplotlib
import numpy as np
import pytest

from hullashlar import Surface
from hullashlar.pictures import STYLE, draw_cut, draw_scene, draw_surface, scene_of, stale_surface

SIZES = {1: (6,), 2: (5, 4), 3: (4, 4, 4), 4: (3, 3, 3, 3)}


def surface_of(axes, outside="extend"):
    shape = SIZES[axes]
    samples = np.random.default_rng(axes).normal(size=shape)
    return Surface([np.arange(float(points)) for points in shape], samples, "natural", outside)


@pytest.mark.parametrize("axes", SIZES)
@pytest.mark.parametrize("changed, stale", [(False, False), (True, False), (True, True)])
@pytest.mark.parametrize("suffix", ["svg", "png"])
def test_pictures_are_drawn(tmp_path, axes, changed, stale, suffix):
    path = tmp_path / f"picture.{suffix}"
    place = (1,) * axes
    draw_surface(surface_of(axes), path, (place, 3.0) if changed else None, stale)
    start = path.read_bytes()[:8]
    assert start == b"\x89PNG\r\n\x1a\n" if suffix == "png" else start.startswith(b"<?xml")
    assert path.stat().st_size > 10_000


def panels_drawn(surface, changed, stale, names):
    """The panels of a picture whose layout is done, each with its place in the picture."""
    with matplotlib.rc_context(STYLE):
        scene = scene_of(surface, changed, stale, None, names)
        draw_scene(scene)
        scene.figure.draw_without_rendering()
    return scene.figure.bbox, scene.figure.axes


def holds(box, text):
    """Whether a text stands inside a box; half a pixel is allowed for rounding."""
    extent = text.get_window_extent()
    return box.x0 - 0.5 <= extent.x0 and extent.x1 <= box.x1 + 0.5 and box.y0 - 0.5 <= extent.y0 and extent.y1 <= box.y1 + 0.5


@pytest.mark.filterwarnings("error")
@pytest.mark.parametrize("axes", SIZES)
@pytest.mark.parametrize("changed, stale", [(False, False), (True, False), (True, True)])
def test_no_letters_are_cut_off_or_overlap(axes, changed, stale):
    names = ["frequency, kHz", "level in the room, dB", "program of the aid", "age in years", "gain, dB"]
    box, panels = panels_drawn(surface_of(axes), ((1,) * axes, 3.0) if changed else None, stale, [*names[:axes], names[-1]])
    texts = [text for panel in panels for text in (panel.title, panel.xaxis.label, panel.yaxis.label)]
    texts += [text for panel in panels if panel.get_legend() for text in panel.get_legend().get_texts()]
    texts = [text for text in texts if text.get_text()]
    assert len(texts) >= 2 and all(holds(box, text) for text in texts)
    for one, other in itertools.combinations(texts, 2):
        assert not one.get_window_extent().overlaps(other.get_window_extent()), (one, other)
    assert sum(len(panel.texts) for panel in panels) >= (2 if axes == 2 else 0)
    for panel in panels:
        assert all(holds(panel.get_window_extent(), label) for label in panel.texts)


@pytest.mark.filterwarnings("error")
@pytest.mark.parametrize("axes", SIZES)
def test_flat_and_huge_surfaces_are_drawn(tmp_path, axes):
    rows, shape, place = [np.arange(4.0)] * axes, (4,) * axes, (1,) * axes
    for samples in (np.zeros(shape), 1e300 * np.random.default_rng(1).normal(size=shape)):
        surface = Surface(rows, samples)
        draw_surface(surface, tmp_path / "picture.png")
        draw_surface(surface, tmp_path / "change.png", (place, float(samples[place])), stale=True)


def test_the_ring_is_around_the_changed_sample():
    scene = scene_of(surface_of(2), ((1, 2), 3.0), False, [0.5, 0.5], None)
    draw_scene(scene)
    for panel in scene.figure.axes:
        if panel.get_title() in ("before", "after", "after − before"):
            ring = panel.get_lines()[-1]
            assert (ring.get_markerfacecolor(), *ring.get_xydata().tolist()) == ("none", [1.0, 2.0])


def test_the_same_picture_has_the_same_bytes(tmp_path):
    for name in ("one.svg", "two.svg"):
        draw_surface(surface_of(2), tmp_path / name)
    assert (tmp_path / "one.svg").read_bytes() == (tmp_path / "two.svg").read_bytes()


def lines_of(surface, axis, at=None):
    scene = scene_of(surface, None, False, at, None)
    panel = scene.figure.subplots()
    draw_cut(scene, panel, axis)
    return scene, panel.get_lines()


def test_a_cut_shows_the_surface_and_the_samples_on_it():
    surface = surface_of(2)
    _, (line, samples) = lines_of(surface, 1)
    along = np.asarray(line.get_xdata())
    np.testing.assert_array_equal(line.get_ydata(), surface(np.stack([np.full(along.size, 2.0), along], axis=-1)))
    np.testing.assert_array_equal(samples.get_ydata(), surface.samples[2])


def test_a_cut_between_knots_shows_no_samples():
    _, lines = lines_of(surface_of(2), 1, at=[0.5, 1.0])
    assert len(lines) == 1


def test_a_cut_stops_where_points_are_refused():
    _, (line, _) = lines_of(surface_of(1, "refuse"), 0)
    values = np.asarray(line.get_ydata())
    assert np.isnan(values[0]) and np.isnan(values[-1]) and not np.isnan(values[len(values) // 2])


def test_stale_is_the_new_sample_beside_old_derivatives():
    surface = surface_of(2)
    stale = stale_surface(surface, (1, 1), 9.0)
    assert stale.samples[1, 1] == 9.0 and not stale.verify().whole
    np.testing.assert_array_equal(stale.tensor[..., 1:], surface.tensor[..., 1:])


def test_names_stand_in_the_picture(tmp_path):
    scene = scene_of(surface_of(2), None, False, None, ["frequency", "level", "gain"])
    assert (scene.name(0), scene.name(1), scene.value_name) == ("frequency", "level", "gain")
