#!/usr/bin/env python3
"""Draws the rooms of crates.txt as docs/picture/rooms.svg: a box for each room with its crates, every room above all that it stands on, and
an arrow from a room to each that it stands on, but where other arrows lead there already. Programs and trials have a strip on top, and the
rooms that no call of the library stands on a strip on the right.

Without a word it writes the picture; with --check it writes nothing, and exits with 1 where the picture that is there is another."""

from __future__ import annotations

import itertools
import sys
from html import escape
from pathlib import Path
from typing import NamedTuple, Union

ROOT = Path(__file__).resolve().parents[2]
CRATES = ROOT / "crates.txt"
PICTURE = Path(__file__).with_name("rooms.svg")

# Crates of the kit, which crates.txt names and does not have.
OF_THE_KIT = {"io", "libc"}

# Rooms of the strip on top, and of the strip on the right, known by the prefix of a crate of theirs.
ON_TOP = ("program_", "trial_")
ON_THE_RIGHT = ("exact_", "doubles_")

WIDTH, MARGIN, GAP = 900, 20, 16
RIGHT_STRIP = 216
LIBRARY = (MARGIN, WIDTH - MARGIN - RIGHT_STRIP - 22)
BETWEEN, LINE, PADDING = 40, 16, 12
LETTER, TITLE_LETTER = 7.0, 8.6
CORRIDOR = 26

STYLE = """
  .page { fill: #ffffff; stroke: #d0d7de; }
  .strip { fill: #f3f5f7; }
  .room { fill: #e4effb; stroke: #4a86c5; stroke-width: 1.3; }
  .apart { fill: #fdf3dd; stroke: #b58a2c; }
  .arrow { fill: none; stroke: #1f2328; stroke-width: 1.5; }
  .faint { stroke: #8a6a1f; }
  .head { fill: #1f2328; }
  .faint-head { fill: #8a6a1f; }
  text { font-family: system-ui, "Segoe UI", Helvetica, Arial, "DejaVu Sans", sans-serif; font-size: 12px; fill: #1f2328; }
  .title { font-size: 14px; font-weight: 600; }
  .quiet { fill: #59636e; font-size: 12px; }
  @media (prefers-color-scheme: dark) {
    .page { fill: #0d1117; stroke: #30363d; }
    .strip { fill: #171c23; }
    .room { fill: #14304d; stroke: #58a6ff; }
    .apart { fill: #3a2e12; stroke: #c69026; }
    .arrow { stroke: #d1d7de; }
    .faint { stroke: #e3b341; }
    .head { fill: #d1d7de; }
    .faint-head { fill: #e3b341; }
    text { fill: #f0f6fc; }
    .quiet { fill: #9198a1; }
  }
"""


class Room(NamedTuple):
    """A room: its name, its crates, and the rooms by number that its crates stand on."""

    name: str
    crates: list[str]
    below: set[int]


class Box(NamedTuple):
    """Where a room is drawn, and in how many columns its crates are named."""

    left: float
    top: float
    width: float
    height: float
    columns: int


def rooms_of(text: str) -> list[Room]:
    """The rooms in the order of the file. A room's name is its comment up to the first colon or full stop."""
    rooms, room_of, needs = [], {}, []
    for number, line in enumerate(text.splitlines(), 1):
        if line.startswith("#"):
            rooms.append(Room(line[1:].split(":")[0].split(".")[0].strip(), [], set()))
        elif line.strip():
            crate, colon, over = line.partition(":")
            if not colon or not rooms:
                sys.exit(f"crates.txt:{number}: no crate of a room")
            rooms[-1].crates.append(crate)
            room_of[crate] = len(rooms) - 1
            needs += [(number, crate, other) for other in over.split() if other not in OF_THE_KIT]
    for number, crate, other in needs:
        if other not in room_of:
            sys.exit(f"crates.txt:{number}: {crate} stands on {other}, which no room has")
        if room_of[other] != room_of[crate]:
            rooms[room_of[crate]].below.add(room_of[other])
    return rooms


def all_below(rooms: list[Room], room: int, path: tuple[int, ...] = ()) -> set[int]:
    """The rooms that a room stands on, by however many others."""
    if room in path:
        sys.exit(f"rooms stand on each other: {', '.join(rooms[other].name for other in path)}")
    found = set(rooms[room].below)
    for other in rooms[room].below:
        found |= all_below(rooms, other, path + (room,))
    return found


def arrows_of(rooms: list[Room]) -> list[tuple[int, int]]:
    """The pairs of a room and one that it stands on, but where a third stands between them."""
    far = [all_below(rooms, room) for room in range(len(rooms))]
    return [
        (room, other)
        for room in range(len(rooms))
        for other in sorted(rooms[room].below)
        if not any(other in far[third] for third in rooms[room].below)
    ]


def strip(room: Room) -> str:
    """The strip of a room: top, right, or none, which is the library."""
    starts = room.crates[0]
    return "top" if starts.startswith(ON_TOP) else "right" if starts.startswith(ON_THE_RIGHT) else ""


def lengths(levels: list[int], arrows: list[tuple[int, int]]) -> int:
    return sum(levels[room] - levels[other] for room, other in arrows)


def levels_of(rooms: list[Room], arrows: list[tuple[int, int]]) -> list[int]:
    """The level of each room: the lowest that is above all it stands on, the strip on top above the library; then a room goes up
    where that makes arrows shorter."""
    levels = [0] * len(rooms)
    order = sorted(range(len(rooms)), key=lambda room: (strip(rooms[room]) == "top", len(all_below(rooms, room))))
    for room in order:
        floor = 1 + max((levels[other] for other in rooms[room].below), default=-1)
        if strip(rooms[room]) == "top":
            floor = max(floor, 1 + max(levels[other] for other in order if strip(rooms[other]) != "top"))
        levels[room] = floor
    for room in reversed(order):
        ceiling = min((levels[above] for above, other in arrows if other == room), default=levels[room] + 1)
        tries = [levels[:room] + [level] + levels[room + 1 :] for level in range(levels[room], ceiling)]
        levels = min(tries, key=lambda tried: lengths(tried, arrows))
    return levels


# An item of a row is the number of a room, or an arrow that passes the row between two rooms.
Item = Union[int, "tuple[int, int]"]


def rows_of(rooms: list[Room], levels: list[int], arrows: list[tuple[int, int]]) -> list[list[Item]]:
    """The items of each level, from the lowest on, in an order in which few arrows cross; a room of the strip on the right is the last."""
    rows = [[room for room in range(len(rooms)) if levels[room] == level] for level in range(max(levels) + 1)]
    for room, other in arrows:
        for level in range(levels[other] + 1, levels[room]):
            rows[level].append((room, other))
    pieces = [piece for arrow in arrows for piece in pieces_of(arrow, levels)]
    starts = [ordered(rows, level, order) for level in range(len(rows)) for order in itertools.permutations(rows[level])]
    return min((settled(start, rooms, pieces) for start in starts), key=lambda tried: tangle(tried, pieces))


def ordered(rows: list[list[Item]], level: int, order: tuple[Item, ...]) -> list[list[Item]]:
    """Rows of which one has another order."""
    return rows[:level] + [list(order)] + rows[level + 1 :]


def settled(rows: list[list[Item]], rooms: list[Room], pieces: list[tuple[int, Item, Item]]) -> list[list[Item]]:
    """Rows ordered one after the other until no other order of one makes less of a tangle."""
    before = None
    while before is None or tangle(rows, pieces) < before:
        before = tangle(rows, pieces)
        for level in range(len(rows)):
            orders = [order for order in itertools.permutations(rows[level]) if right_is_last(order, rooms)]
            rows = min((ordered(rows, level, order) for order in orders), key=lambda tried: tangle(tried, pieces))
    return rows


def right_is_last(row: tuple[Item, ...], rooms: list[Room]) -> bool:
    on_the_right = [isinstance(item, int) and strip(rooms[item]) == "right" for item in row]
    return on_the_right == sorted(on_the_right)


def pieces_of(arrow: tuple[int, int], levels: list[int]) -> list[tuple[int, Item, Item]]:
    """An arrow cut at each level: the level where a piece begins, and the items that it leads from and to."""
    upper, lower = levels[arrow[0]], levels[arrow[1]]
    items = [arrow[0]] + [arrow] * (upper - lower - 1) + [arrow[1]]
    return [(upper - place, items[place], items[place + 1]) for place in range(upper - lower)]


def tangle(rows: list[list[Item]], pieces: list[tuple[int, Item, Item]]) -> tuple[int, int]:
    """How often arrows cross, and how far they lead aside."""
    places = [(level, rows[level].index(upper), rows[level - 1].index(lower)) for level, upper, lower in pieces]
    crossed = sum(one[0] == two[0] and (one[1] - two[1]) * (one[2] - two[2]) < 0 for one, two in itertools.combinations(places, 2))
    return crossed, sum(abs(upper - lower) for _, upper, lower in places)


def title_lines(name: str, width: float) -> list[str]:
    """A room's name in lines that fit a width."""
    lines = [""]
    for word in name.split():
        longer = f"{lines[-1]} {word}".strip()
        if len(longer) * TITLE_LETTER <= width or not lines[-1]:
            lines[-1] = longer
        else:
            lines.append(word)
    return lines


def column_width(room: Room) -> float:
    return max(map(len, room.crates)) * LETTER + 14


def width_of(room: Room) -> float:
    """The least width of a room's box: a column of its crates, and its name in two lines."""
    width = column_width(room) + PADDING
    while len(title_lines(room.name, width - 2 * PADDING)) > 2:
        width += 1
    return width


def height_of(room: Room, width: float) -> tuple[float, int]:
    """The height of a room's box, and its columns."""
    columns = max(1, min(len(room.crates), int((width - PADDING) // column_width(room))))
    names = -(-len(room.crates) // columns)
    return len(title_lines(room.name, width - 2 * PADDING)) * 18 + names * LINE + 2 * PADDING - 4, columns


def widths_of(row: list[Item], rooms: list[Room], room_for_all: float) -> list[float]:
    """The widths of a row's items, which fill it: what is left goes to rooms by how many crates they have."""
    least = [width_of(rooms[item]) if isinstance(item, int) else CORRIDOR for item in row]
    left = room_for_all - sum(least) - GAP * (len(row) - 1)
    if left < 0:
        sys.exit(f"too wide together: {', '.join(rooms[item].name for item in row if isinstance(item, int))}")
    crates = [len(rooms[item].crates) if isinstance(item, int) else 0 for item in row]
    return [width + left * count / (sum(crates) or 1) for width, count in zip(least, crates)]


def boxes_of(rooms: list[Room], rows: list[list[Item]]) -> tuple[list[dict[Item, Box]], float]:
    """For each level where its items are drawn, and the height of the picture."""
    drawn, top = [], 78.0
    for row in reversed(rows):
        aside = [item for item in row if isinstance(item, int) and strip(rooms[item]) == "right"]
        ours = [item for item in row if item not in aside]
        on_top = any(isinstance(item, int) and strip(rooms[item]) == "top" for item in row)
        first, last = (MARGIN + 14, WIDTH - MARGIN - 14) if on_top else LIBRARY
        places = dict(zip(ours, spread(widths_of(ours, rooms, last - first), first)))
        strip_width = (RIGHT_STRIP - 28 - GAP * (len(aside) - 1)) / (len(aside) or 1)
        places |= dict(zip(aside, spread([strip_width] * len(aside), WIDTH - MARGIN - RIGHT_STRIP + 14)))
        sizes = {item: height_of(rooms[item], width) for item, (_, width) in places.items() if isinstance(item, int)}
        height = max((size for item, (size, _) in sizes.items() if item in ours), default=0)
        drawn.append({item: placed(item, place, top, height, sizes.get(item)) for item, place in places.items()})
        top += height + BETWEEN
    return drawn[::-1], top - BETWEEN + MARGIN


def placed(item: Item, place: tuple[float, float], top: float, height: float, size: tuple[float, int] | None) -> Box:
    """The box of an item: as high as its row, or, where it needs more, with the row's foot and higher."""
    needed, columns = size or (height, 0)
    needed = max(needed, height)
    return Box(place[0], top + height - needed, place[1], needed, columns)


def spread(widths: list[float], first: float) -> list[tuple[float, float]]:
    """Items side by side: where each begins, and its width."""
    begins = [first + sum(widths[:place]) + GAP * place for place in range(len(widths))]
    return list(zip(begins, widths))


# How far from a corner an arrow leaves or meets a box, and how far two arrows meet it from each other.
CORNER, APART = 13.0, 16.0


def ends_of(upper: Box, lower: Box, met: list[float]) -> tuple[float, float]:
    """Where an arrow leaves one box and meets the other: straight down where they lie above each other, else at their nearest corners,
    apart from where arrows have met the lower one already."""
    left = max(upper.left, lower.left) + CORNER
    right = min(upper.left + upper.width, lower.left + lower.width) - CORNER
    if left <= right:
        return (left + right) / 2, (left + right) / 2
    aside = upper.left < lower.left
    start = upper.left + upper.width - CORNER if aside else upper.left + CORNER
    end = lower.left + CORNER if aside else lower.left + lower.width - CORNER
    while any(abs(end - other) < APART for other in met):
        end += APART if aside else -APART
    return start, end


def drawn_arrow(arrow: tuple[int, int], levels: list[int], boxes: list[dict[Item, Box]], met: dict[int, list[float]], faint: bool) -> str:
    """An arrow through all levels that it passes; met has where arrows meet each room."""
    path = ""
    for level, upper, lower in pieces_of(arrow, levels):
        above, below = boxes[level][upper], boxes[level - 1][lower]
        ends_here = lower == arrow[1]
        start, end = ends_of(above, below, met.setdefault(arrow[1], []) if ends_here else [])
        leaves, meets = above.top + above.height, below.top
        middle = (leaves + meets) / 2
        path += f"{'L' if path else 'M'}{start:.1f} {leaves:.1f}"
        path += f"C{start:.1f} {middle:.1f} {end:.1f} {middle:.1f} {end:.1f} {meets - 7 if ends_here else meets:.1f}"
    met[arrow[1]].append(end)
    kind = ("arrow faint", "faint-head") if faint else ("arrow", "head")
    return f'<path class="{kind[0]}" d="{path}"/><path class="{kind[1]}" d="M{end:.1f} {meets:.1f}l-4.5 -9h9z"/>'


def drawn_room(room: Room, box: Box) -> list[str]:
    """A room's box, its name, and its crates, column after column."""
    kind = "room apart" if strip(room) else "room"
    lines = [f'<rect class="{kind}" x="{box.left:.1f}" y="{box.top:.1f}" width="{box.width:.1f}" height="{box.height:.1f}" rx="6"/>']
    below = box.top + 6
    for line in title_lines(room.name, box.width - 2 * PADDING):
        below += 18
        lines.append(f'<text class="title" x="{box.left + PADDING:.1f}" y="{below - 4:.1f}">{escape(line)}</text>')
    names = -(-len(room.crates) // box.columns)
    column = (box.width - PADDING) / box.columns
    for place, crate in enumerate(room.crates):
        left = box.left + PADDING + place // names * column
        lines.append(f'<text x="{left:.1f}" y="{below + (place % names + 1) * LINE - 1:.1f}">{escape(crate)}</text>')
    return lines


def strips(rooms: list[Room], levels: list[int], boxes: list[dict[Item, Box]]) -> list[str]:
    """The grounds of the two strips."""
    drawn = []
    for side, left, width in (("top", MARGIN, WIDTH - 2 * MARGIN), ("right", WIDTH - MARGIN - RIGHT_STRIP, RIGHT_STRIP)):
        inside = [boxes[levels[room]][room] for room in range(len(rooms)) if strip(rooms[room]) == side]
        if inside:
            top = min(box.top for box in inside) - 14
            bottom = max(box.top + box.height for box in inside) + 14
            drawn.append(f'<rect class="strip" x="{left}" y="{top:.1f}" width="{width}" height="{bottom - top:.1f}" rx="8"/>')
    return drawn


def picture(rooms: list[Room]) -> str:
    """The whole picture."""
    arrows = arrows_of(rooms)
    levels = levels_of(rooms, arrows)
    boxes, height = boxes_of(rooms, rows_of(rooms, levels, arrows))
    crates = sum(len(room.crates) for room in rooms)
    label = "The rooms of crates.txt, and on which each stands"
    legend = "An arrow leads down to a room that the upper one stands on; an arrow that follows from others is left out."
    lines = [
        f'<svg xmlns="http://www.w3.org/2000/svg" viewBox="0 0 {WIDTH} {height:.0f}" role="img" aria-label="{label}">',
        f"<style>{STYLE}</style>",
        f'<rect class="page" x="0.5" y="0.5" width="{WIDTH - 1}" height="{height - 1:.0f}" rx="8"/>',
        f'<text class="title" x="{MARGIN}" y="28">{crates} crates in {len(rooms)} rooms</text>',
        f'<text class="quiet" x="{MARGIN}" y="48">{legend}</text>',
        *strips(rooms, levels, boxes),
    ]
    met: dict[int, list[float]] = {}
    lines += [drawn_arrow(arrow, levels, boxes, met, strip(rooms[arrow[0]]) != "") for arrow in arrows]
    for room in range(len(rooms)):
        lines += drawn_room(rooms[room], boxes[levels[room]][room])
    return "\n".join(lines) + "\n</svg>\n"


def main() -> None:
    words = sys.argv[1:]
    if words not in ([], ["--check"]):
        sys.exit("usage: rooms.py [--check]")
    drawn = picture(rooms_of(CRATES.read_text()))
    if not words:
        PICTURE.write_text(drawn)
    elif not PICTURE.exists() or PICTURE.read_text() != drawn:
        sys.exit("docs/picture/rooms.svg is not what crates.txt gives: run docs/picture/rooms.py")


if __name__ == "__main__":
    main()
