"""Pictures of surfaces, by matplotlib: a curve, a map with contour lines and cuts, or cuts alone; and what a change does to them."""

from __future__ import annotations

import itertools
from collections.abc import Sequence
from dataclasses import dataclass, field
from functools import partial
from pathlib import Path
from typing import Any

import matplotlib
import numpy as np
from matplotlib.axes import Axes as Panel
from matplotlib.colors import LinearSegmentedColormap
from matplotlib.figure import Figure
from matplotlib.ticker import MaxNLocator
from numpy.typing import NDArray

from .surface import Surface

Values = NDArray[np.float64]
Changed = tuple[tuple[int, ...], float]

KINDS = (".svg", ".png")

# How many points a curve is drawn by, and a map along each axis.
FINE, MAP = 601, 161

# A difference of nothing at all is drawn as if this were its most.
SMALLEST = 2.0**-1022

# How high a legend's strip is, as a part of a panel's height.
STRIP = 0.1

# How much room a label has around it on a map, as a part of the map's side.
ROOM = 0.09

# How much of an axis is drawn beyond its knots, as a part of its length.
BEYOND = 0.08

BLUE, RED, GREY, INK, ORANGE = "#0969da", "#d1242f", "#8c959f", "#1f2328", "#bc4c00"

# From low to high, and light enough for dark lines and letters on it.
HEIGHTS = LinearSegmentedColormap.from_list("heights", ["#f6f9fd", "#a9cdf0", "#5b9edb"])
DIFFERENCES = LinearSegmentedColormap.from_list("differences", ["#0757b5", "#9cc3ee", "#ffffff", "#f3a6a2", "#b3202a"])

# How each surface of a picture is drawn in a cut.
LOOKS: dict[str, dict[str, Any]] = {
    "before": {"color": GREY, "linestyle": (0, (5, 3)), "linewidth": 1.8},
    "stale": {"color": RED, "linewidth": 1.8},
    "surface": {"color": BLUE, "linewidth": 2.0},
    "after": {"color": BLUE, "linewidth": 2.0},
}

STYLE = {
    "font.size": 10,
    "axes.titlesize": 11,
    "axes.titleweight": "bold",
    "axes.spines.top": False,
    "axes.spines.right": False,
    "axes.grid": True,
    "grid.color": "#e3e7eb",
    "axes.edgecolor": GREY,
    "legend.frameon": False,
    "svg.hashsalt": "hullashlar",
}


@dataclass
class Scene:
    """What is drawn: surfaces by name, the point that cuts go through, and what axes and values are called."""

    surfaces: dict[str, Surface]
    point: list[float]
    names: Sequence[str]
    changed: tuple[int, ...] | None = None
    figure: Figure = field(default_factory=partial(Figure, layout="constrained"))

    @property
    def last(self) -> Surface:
        """The surface as it stands in the end."""
        *_, last = self.surfaces.values()
        return last

    @property
    def changed_point(self) -> list[float]:
        """Where the changed sample stands."""
        return point_of(self.last, self.changed or ())

    def name(self, axis: int) -> str:
        """What an axis is called."""
        return self.names[axis] if axis < len(self.names) else f"axis {axis}"

    @property
    def value_name(self) -> str:
        """What the surface is called."""
        axes = len(self.last.axes)
        return self.names[axes] if axes < len(self.names) else "value"


def point_of(surface: Surface, place: tuple[int, ...]) -> list[float]:
    """The knots of a place."""
    return [float(row[index]) for row, index in zip(surface.axes, place, strict=True)]


def stale_surface(surface: Surface, place: tuple[int, ...], value: float) -> Surface:
    """What a loader leaves that knows nothing of derivatives: the new sample beside the old ones."""
    tensor = surface.tensor.copy()
    tensor[(*place, 0)] = value
    return Surface.of_tensor(surface.axes, tensor, surface.ends, surface.outside, stale="keep")


def scene_of(surface: Surface, changed: Changed | None, stale: bool, at: Sequence[float] | None, names: Sequence[str] | None) -> Scene:
    """The surfaces that a picture shows, and the point of its cuts: the given one, the changed sample or the middle of the grid."""
    surfaces = {"surface": surface}
    place = tuple(len(row) // 2 for row in surface.axes)
    if changed:
        place, value = changed
        after = surface.copy()
        after.change(place, value)
        surfaces = {"before": surface, "after": after}
        if stale:
            surfaces = {"before": surface, "stale": stale_surface(surface, place, value), "after": after}
    point = list(at) if at else point_of(surface, place)
    if len(point) != len(surface.axes):
        raise ValueError(f"a point of {len(point)} coordinates, but there are {len(surface.axes)} axes")
    return Scene(surfaces, point, names or [], place if changed else None)


def line_through(point: Sequence[float], axis: int, along: Values) -> Values:
    """The points of a line along an axis."""
    points = np.tile(np.asarray(point, float), (along.size, 1))
    points[:, axis] = along
    return points


def on_cut(surface: Surface, point: Sequence[float], axis: int) -> Values | None:
    """The samples that lie on a cut, where the cut goes through knots on every other axis."""
    place: list[Any] = []
    for other, (row, coordinate) in enumerate(zip(surface.axes, point, strict=True)):
        here = np.flatnonzero(row == coordinate)
        if other != axis and here.size == 0:
            return None
        place.append(slice(None) if other == axis else here[0])
    samples: Values = surface.samples[tuple(place)]
    return samples


def drawn_range(row: Values) -> tuple[float, float]:
    """From where to where a cut is drawn."""
    margin = BEYOND * (row[-1] - row[0])
    return row[0] - margin, row[-1] + margin


def draw_cut(scene: Scene, panel: Panel, axis: int) -> None:
    """The cut along an axis through the scene's point, of every surface, with the samples that lie on it."""
    row = scene.last.axes[axis]
    along = np.union1d(np.linspace(*drawn_range(row), FINE), row)
    points = line_through(scene.point, axis, along)
    for name, surface in scene.surfaces.items():
        panel.plot(along, surface(points, on_refusal="nan"), label=name, **LOOKS[name])
    for outside in ((drawn_range(row)[0], row[0]), (row[-1], drawn_range(row)[1])):
        panel.axvspan(*outside, color="#f2f4f6", zorder=0)
    samples = on_cut(scene.last, scene.point, axis)
    if samples is not None:
        panel.plot(row, samples, "o", color=INK, markersize=4.5, zorder=5)
    panel.set_xlim(*drawn_range(row))
    panel.set_xlabel(scene.name(axis))
    panel.set_ylabel(scene.value_name)


def other_coordinates(scene: Scene, axis: int) -> str:
    """Where a cut lies on the other axes, a line for each."""
    others = [f"{scene.name(other)}: {at:g}" for other, at in enumerate(scene.point) if other != axis]
    return "\n".join(others)


def draw_legend(strip: Panel, panel: Panel) -> None:
    """The legend of a panel in a strip of its own, where it covers nothing."""
    lines, names = panel.get_legend_handles_labels()
    strip.set_axis_off()
    strip.legend(lines, names, loc="center", ncols=len(names), borderaxespad=0.0).set_in_layout(False)


def draw_cut_difference(scene: Scene, panel: Panel, axis: int) -> None:
    """How far a change moves a cut; and how far a stale surface is from the renewed one."""
    row = scene.last.axes[axis]
    along = np.linspace(*drawn_range(row), FINE)
    points = line_through(scene.point, axis, along)
    after = scene.last(points, on_refusal="nan")
    panel.axhline(0.0, color=GREY, linewidth=1)
    panel.plot(along, after - scene.surfaces["before"](points, on_refusal="nan"), label="after − before", **LOOKS["after"])
    if "stale" in scene.surfaces:
        panel.plot(along, scene.surfaces["stale"](points, on_refusal="nan") - after, label="stale − after", **LOOKS["stale"])
    panel.set_xlim(*drawn_range(row))
    panel.set_xlabel(scene.name(axis))
    panel.set_ylabel("difference")


def draw_end_slopes(scene: Scene, panel: Panel) -> None:
    """The slopes at both ends of a curve, as the tensor has them: lines of a seventh of the axis, or of a third of the curve's height."""
    row, tensor = scene.last.axes[0], scene.last.tensor
    low, high = panel.get_ylim()
    for place, side in ((0, 1), (-1, -1)):
        knot, (sample, slope) = float(row[place]), map(float, tensor[place])
        steepness = abs(slope) * float(row[-1] - row[0]) / (high - low)
        reach = side * float(row[-1] - row[0]) / max(7.0, 3.0 * steepness)
        panel.plot([knot, knot + reach], [sample, sample + reach * slope], color=ORANGE, linewidth=2.2, zorder=4,
                   linestyle=("-", (0, (2, 1)))[place], label=f"slope {slope:.4g} at {knot:g}")
    panel.set_ylim(low, high)


def map_of(surface: Surface) -> tuple[Values, Values, Values]:
    """The coordinates and the values of a map."""
    rows = [np.union1d(np.linspace(row[0], row[-1], MAP), row) for row in surface.axes]
    points = np.stack(np.meshgrid(*rows, indexing="ij"), axis=-1)
    return rows[0], rows[1], surface(points, on_refusal="nan")


def levels_of(*maps: Values) -> Values:
    """Round levels that all maps share."""
    low, high = min(np.nanmin(values) for values in maps), max(np.nanmax(values) for values in maps)
    levels: Values = MaxNLocator(10).tick_values(low, high)
    return levels


def spots_of(surface: Surface, points: Values) -> Values:
    """Points as parts of a map, of which 0 and 1 are the frame."""
    low, high = (np.array([row[end] for row in surface.axes]) for end in (0, -1))
    spots: Values = (points - low) / (high - low)
    return spots


def clearance(spots: Values, taken: Values) -> Values:
    """How far each spot is from the nearest that is taken."""
    away: Values = np.hypot(*np.moveaxis(spots[:, np.newaxis] - taken, -1, 0)).min(axis=1)
    return away


def lines_drawn(scene: Scene) -> Values:
    """Points of a map that are drawn over: the ring of a change, or the lines of the cuts."""
    if scene.changed:
        return np.array([scene.changed_point])
    rows = [np.linspace(row[0], row[-1], MAP) for row in scene.last.axes]
    return np.concatenate([line_through(scene.point, axis, row) for axis, row in enumerate(rows)])


def label_contours(scene: Scene, panel: Panel, lines: Any) -> None:
    """Writes its level on each contour line where there is room: away from the frame, from other labels and from what is drawn over the
    map, and as far as can be from measured points."""
    surface = scene.last
    measured = spots_of(surface, np.stack(np.meshgrid(*surface.axes), axis=-1).reshape(-1, 2))
    taken, places = spots_of(surface, lines_drawn(scene)), []
    for line in itertools.chain.from_iterable(lines.allsegs):
        spots = spots_of(surface, line)
        room = np.minimum(clearance(spots, taken), np.minimum(spots, 1.0 - spots).min(axis=1))
        free = np.flatnonzero(room > ROOM)
        if free.size > 0 and np.ptp(spots, axis=0).max() > 2 * ROOM:
            best = free[np.argmax(clearance(spots[free], measured))]
            taken = np.append(taken, spots[best : best + 1], axis=0)
            places.append(line[best])
    panel.clabel(lines, fontsize=9, fmt="%g", manual=places, use_clabeltext=True)


def draw_map(scene: Scene, panel: Panel, values: Values, levels: Values, title: str) -> Any:
    """A map with contour lines and the measured points; answers what a bar of its colours is made of."""
    across, up, _ = map_of(scene.last)
    filled = panel.contourf(across, up, values.T, levels, cmap=HEIGHTS)
    between = levels[(levels > np.nanmin(values)) & (levels < np.nanmax(values))]
    if between.size > 0:
        lines = panel.contour(across, up, values.T, between, colors=INK, linewidths=0.7, alpha=0.7)
        label_contours(scene, panel, lines)
    finish_map(scene, panel, title, RED)
    return filled


def draw_map_difference(scene: Scene, panel: Panel, difference: Values, title: str) -> None:
    """A map of a difference, white where there is none."""
    across, up, _ = map_of(scene.last)
    most = max(float(np.nanmax(np.abs(difference))), SMALLEST)
    ticks = MaxNLocator(12, symmetric=True).tick_values(-most, most)
    half = (ticks[1] - ticks[0]) / 2
    filled = panel.contourf(across, up, difference.T, np.append(ticks - half, ticks[-1] + half), cmap=DIFFERENCES)
    finish_map(scene, panel, title, INK)
    scene.figure.colorbar(filled, ax=panel, ticks=ticks)


def finish_map(scene: Scene, panel: Panel, title: str, ring: str) -> None:
    """The measured points, a ring around the changed one, and the names of the axes."""
    across, up = np.meshgrid(*scene.last.axes, indexing="ij")
    panel.plot(across.ravel(), up.ravel(), "o", color=INK, markersize=3.2, markeredgecolor="white", markeredgewidth=0.6,
               clip_on=False, zorder=5)
    if scene.changed:
        panel.plot(*scene.changed_point, "o", color="none", markeredgecolor=ring, markersize=10, markeredgewidth=1.8)
    panel.grid(False)
    panel.set_title(title)
    panel.set_xlabel(scene.name(0))
    panel.set_ylabel(scene.name(1))


def draw_one_axis(scene: Scene) -> None:
    """The curve, its samples and the slopes at its ends; of a change the difference below."""
    if scene.changed is None:
        scene.figure.set_size_inches(7.4, 4.4)
        strip, panel = scene.figure.subplots(2, 1, height_ratios=[STRIP, 1])
        draw_cut(scene, panel, 0)
        draw_end_slopes(scene, panel)
        draw_legend(strip, panel)
        return
    scene.figure.set_size_inches(7.4, 6.6)
    strips_and_panels = scene.figure.subplots(4, 1, height_ratios=[STRIP, 1, STRIP, 0.6])
    for draw, strip, panel in zip((draw_cut, draw_cut_difference), strips_and_panels[::2], strips_and_panels[1::2], strict=True):
        draw(scene, panel, 0)
        draw_legend(strip, panel)


def draw_two_axes(scene: Scene) -> None:
    """A map, and beside it the cuts through the point."""
    scene.figure.set_size_inches(9.2, 5.0)
    panels = scene.figure.subplot_mosaic([["map", "0"], ["map", "1"]], width_ratios=[1.35, 1])
    values = map_of(scene.last)[2]
    filled = draw_map(scene, panels["map"], values, levels_of(values), scene.value_name)
    scene.figure.colorbar(filled, ax=panels["map"])
    panels["map"].axhline(scene.point[1], color=RED, linestyle=":", linewidth=1.4)
    panels["map"].axvline(scene.point[0], color=RED, linestyle=":", linewidth=1.4)
    for axis in range(2):
        draw_cut(scene, panels[str(axis)], axis)
        panels[str(axis)].set_title(other_coordinates(scene, axis))


def draw_changed_map(scene: Scene) -> None:
    """Maps before and after and their difference, and below them two cuts, or what a stale loader shows and a cut."""
    scene.figure.set_size_inches(10.4, 6.6)
    maps = {name: map_of(surface)[2] for name, surface in scene.surfaces.items()}
    levels = levels_of(*maps.values())
    rows, heights = [["before", "after", "after − before"], ["cut 0", "cut 1", "legend"]], [1.0, 1.0]
    if "stale" in maps:
        rows[1:], heights = [[".", ".", "legend"], ["stale", "stale − after", "cut 1"]], [1.0, STRIP, 1.0]
    panels = scene.figure.subplot_mosaic(rows, height_ratios=heights)
    for name, values in maps.items():
        filled = draw_map(scene, panels[name], values, levels, name)
    scene.figure.colorbar(filled, ax=panels["after"])
    for name, panel in panels.items():
        if " − " in name:
            one, other = name.split(" − ")
            draw_map_difference(scene, panel, maps[one] - maps[other], name)
        elif name.startswith("cut"):
            axis = int(name[-1])
            draw_cut(scene, panel, axis)
            panel.set_title(other_coordinates(scene, axis))
    draw_legend(panels["legend"], panels["cut 1"])


def draw_cuts(scene: Scene) -> None:
    """A cut along every axis; of a change its difference below each."""
    axes = range(len(scene.last.axes))
    rows = [[f"cut {axis}" for axis in axes]]
    if scene.changed is not None:
        rows = [["cuts" for _ in axes], *rows, ["differences" for _ in axes], [f"difference {axis}" for axis in axes]]
    heights = [STRIP, 1.1, STRIP, 1][-len(rows) :]
    scene.figure.set_size_inches(3.3 * len(axes), 3.6 * sum(heights))
    panels = scene.figure.subplot_mosaic(rows, height_ratios=heights)
    for axis in axes:
        draw_cut(scene, panels[f"cut {axis}"], axis)
        panels[f"cut {axis}"].set_title(other_coordinates(scene, axis), fontsize=9)
        if scene.changed is not None:
            draw_cut_difference(scene, panels[f"difference {axis}"], axis)
    if scene.changed is not None:
        draw_legend(panels["cuts"], panels["cut 0"])
        draw_legend(panels["differences"], panels["difference 0"])


def draw_scene(scene: Scene) -> None:
    """Draws a scene into its figure."""
    axes = len(scene.last.axes)
    if axes == 1:
        draw_one_axis(scene)
    elif axes > 2:
        draw_cuts(scene)
    elif scene.changed:
        draw_changed_map(scene)
    else:
        draw_two_axes(scene)


def draw_surface(
    surface: Surface,
    path: str | Path,
    changed: Changed | None = None,
    stale: bool = False,
    at: Sequence[float] | None = None,
    names: Sequence[str] | None = None,
) -> None:
    """Draws a surface into an svg or a png. With `changed`, a place and a value, it shows before, after and the difference; with `stale`
    also what a loader that keeps old derivatives would show. Cuts go through the point `at`; `names` are of the axes and of the value."""
    kind = Path(path).suffix.lower()
    if kind not in KINDS:
        raise ValueError(f"{path}: a picture is a file that ends in {' or '.join(KINDS)}")
    with matplotlib.rc_context(STYLE):
        scene = scene_of(surface, changed, stale, at, names)
        draw_scene(scene)
        metadata = {"Date": None} if kind == ".svg" else None
        scene.figure.savefig(path, dpi=120, metadata=metadata)
