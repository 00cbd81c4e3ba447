#!/usr/bin/env python3
"""Draws the cut that cut.c prints as an SVG: the surface before a sample is changed, with the new sample beside
the old derivatives, and with renewed ones. Reads standard input, writes standard output."""

import sys

WIDTH, HEIGHT = 700, 460
LEFT, RIGHT, TOP, BOTTOM = 62, 676, 96, 400

STYLE = """
  .page { fill: #ffffff; stroke: #d0d7de; }
  .grid { stroke: #e3e7eb; }
  .frame { stroke: #8c959f; }
  .before { stroke: #8c959f; }
  .stale { stroke: #d1242f; }
  .after { stroke: #0969da; }
  .error { fill: #d1242f; fill-opacity: 0.13; }
  .curve { fill: none; stroke-width: 2.6; stroke-linejoin: round; stroke-linecap: round; }
  .dashed { stroke-dasharray: 7 6; stroke-width: 2; }
  .sample { fill: #1f2328; stroke: #ffffff; stroke-width: 1.5; }
  .old { fill: #ffffff; stroke: #8c959f; stroke-width: 2; }
  .arrow { fill: none; stroke: #8c959f; stroke-width: 1.6; }
  text { font-family: system-ui, "Segoe UI", Helvetica, Arial, "DejaVu Sans", sans-serif; font-size: 14px; fill: #1f2328;
    paint-order: stroke; stroke: #ffffff; stroke-width: 6px; stroke-linejoin: round; }
  .title { font-size: 17px; font-weight: 600; }
  .quiet { fill: #59636e; }
  .red { fill: #b3202a; }
  .blue { fill: #0757b5; }
  @media (prefers-color-scheme: dark) {
    .page { fill: #0d1117; stroke: #30363d; }
    .grid { stroke: #21262d; }
    .stale { stroke: #ff6b63; }
    .after { stroke: #58a6ff; }
    .error { fill: #ff6b63; fill-opacity: 0.18; }
    .sample { fill: #f0f6fc; stroke: #0d1117; }
    .old { fill: #0d1117; }
    text { fill: #f0f6fc; stroke: #0d1117; }
    .quiet { fill: #9198a1; }
    .red { fill: #ff8a83; }
    .blue { fill: #79b8ff; }
  }
"""


class Cut:
    """The numbers of one cut."""

    def __init__(self, lines):
        self.measured, self.rows = [], []
        for line in lines:
            word, *numbers = line.split()
            numbers = tuple(float(number) for number in numbers)
            if word == "measured":
                self.measured.append(numbers)
            elif word == "changed":
                self.changed = numbers
            else:
                self.rows.append(numbers)

    def curve(self, column):
        """The points of one of the curves: 1 before, 2 stale, 3 after."""
        return [(row[0], row[column]) for row in self.rows]

    def worst(self):
        """The row where the old derivatives lead furthest astray."""
        return max(self.rows, key=lambda row: abs(row[2] - row[3]))


class Scale:
    """Levels and gains as places on the page."""

    def __init__(self, cut):
        gains = [gain for row in cut.rows for gain in row[1:]]
        self.levels = (cut.rows[0][0], cut.rows[-1][0])
        self.gains = (5 * (min(gains) // 5), 5 * (max(gains) // 5 + 1))

    def x(self, level):
        low, high = self.levels
        return LEFT + (level - low) / (high - low) * (RIGHT - LEFT)

    def y(self, gain):
        low, high = self.gains
        return BOTTOM - (gain - low) / (high - low) * (BOTTOM - TOP)

    def points(self, curve):
        return " ".join(f"{self.x(level):.1f},{self.y(gain):.1f}" for level, gain in curve)


def text(x, y, words, style="", anchor="start"):
    return f'<text x="{x:.1f}" y="{y:.1f}" class="{style}" text-anchor="{anchor}">{words}</text>'


def line(x1, y1, x2, y2, style):
    return f'<line x1="{x1:.1f}" y1="{y1:.1f}" x2="{x2:.1f}" y2="{y2:.1f}" class="{style}"/>'


def frame(_, scale):
    """The grid with its numbers, and what the two directions mean."""
    low, high = (int(end) for end in scale.gains)
    for gain in range(low, high + 1, 5):
        yield line(LEFT, scale.y(gain), RIGHT, scale.y(gain), "grid")
        yield text(LEFT - 10, scale.y(gain) + 5, gain, "quiet", "end")
    first, last = (int(end) for end in scale.levels)
    for level in range(first, last + 1, 10):
        yield line(scale.x(level), BOTTOM, scale.x(level), BOTTOM + 6, "frame")
        yield text(scale.x(level), BOTTOM + 23, level, "quiet", "middle")
    yield line(LEFT, BOTTOM, RIGHT, BOTTOM, "frame")
    yield text((LEFT + RIGHT) / 2, BOTTOM + 46, "input level, dB", "quiet", "middle")
    yield text(LEFT - 44, TOP - 14, "gain, dB", "quiet")


def curves(cut, scale):
    """The three curves, and the area between the wrong one and the right one."""
    around = cut.curve(2) + cut.curve(3)[::-1]
    yield f'<polygon points="{scale.points(around)}" class="error"/>'
    for column, style in ((1, "before dashed"), (3, "after"), (2, "stale")):
        yield f'<polyline points="{scale.points(cut.curve(column))}" class="curve {style}"/>'


def samples(cut, scale):
    """The measured points, and the way of the changed one."""
    level, old, new = cut.changed
    x, down = scale.x(level), 1 if new < old else -1
    tip = scale.y(new) - 9 * down
    yield line(x, scale.y(old) + 7 * down, x, tip, "arrow")
    yield f'<path d="M {x - 5:.1f} {tip - 8 * down:.1f} L {x:.1f} {tip:.1f} L {x + 5:.1f} {tip - 8 * down:.1f}" class="arrow"/>'
    yield f'<circle cx="{x:.1f}" cy="{scale.y(old):.1f}" r="5.5" class="old"/>'
    for level, gain in cut.measured + [(level, new)]:
        yield f'<circle cx="{scale.x(level):.1f}" cy="{scale.y(gain):.1f}" r="5.5" class="sample"/>'


def words(cut, scale):
    """The title, what each curve is, and how wrong the wrong one is."""
    level, old, new = cut.changed
    yield text(24, 34, "One sample changes. The slopes beside it must change too.", "title")
    yield text(24, 58, f"A cut through a gain surface; its sample at 1 kHz and {level:.0f} dB goes from {old:.0f} to {new:.0f}.", "quiet")
    left, top = scale.x(61), TOP + 6
    for row, (curve, style, meaning) in enumerate((
        ("stale", "red", "new sample, old derivatives: the fault"),
        ("after", "blue", "after hullashlar_change"),
        ("before dashed", "quiet", "before the change"),
    )):
        y = top + 26 * row
        yield f'<line x1="{left:.1f}" y1="{y:.1f}" x2="{left + 34:.1f}" y2="{y:.1f}" class="curve {curve}"/>'
        yield text(left + 44, y + 5, meaning, style)
    at, _, stale, after = cut.worst()
    yield text(scale.x(at), scale.y(max(stale, after)) - 14, f"{abs(stale - after):.1f} dB off", "red", "middle")


def picture(cut):
    scale = Scale(cut)
    yield f'<svg xmlns="http://www.w3.org/2000/svg" viewBox="0 0 {WIDTH} {HEIGHT}" width="{WIDTH}" height="{HEIGHT}" role="img">'
    yield "<title>The surface between measured points with stale derivatives, and with renewed ones</title>"
    yield f"<style>{STYLE}</style>"
    yield f'<rect x="0.5" y="0.5" width="{WIDTH - 1}" height="{HEIGHT - 1}" rx="8" class="page"/>'
    for part in (frame, curves, samples, words):
        yield from part(cut, scale)
    yield "</svg>"


if __name__ == "__main__":
    print("\n".join(picture(Cut(sys.stdin))))
