"""The board as pictures in HTML: from the top and the bottom, and a table with the same in words.

The pictures are inline SVG without scripts. Nets are told apart by numbers as well as by colors.
"""

from __future__ import annotations

import math
from html import escape
from typing import Dict, Iterable, Iterator, List, NamedTuple, Sequence, Set, Tuple

from btest_tools.closeups import Marked, closeups
from btest_tools.drawing import UNIT, Box, Frame, Shapes, dots_path, extent, frame_of
from btest_tools.places import BOTTOM, TOP, Place, Places

MARKS = 200  # pins of a kind that are drawn one by one in a view
LINES = 40  # lines in a view
LISTED = 12  # pins of a net in the table
ROWS = 60  # nets in the table
FEW = 10  # nets whose table is printed on the page of the pictures
STACKED = 1.8  # heights of a board that is so wide that its pictures are one below the other

# Colors that differ for all kinds of sight, after Okabe and Ito, darkened for a white page.
COLORS = ("#b03a00", "#005f9e", "#00795a", "#a2407f", "#7a6200", "#2f7fb5", "#c07800", "#333333")

STYLE = """
.board .pictures, .whole { break-inside: avoid; } .board p { break-after: avoid; }
.board figure { margin: 0; flex: 1 1 22em; min-width: 0; break-inside: avoid; }
.board .views { display: flex; flex-wrap: wrap; gap: .6em 1em; }
.board .stacked figure { flex-basis: 100%; }
.board .close figure { flex: 1 1 14em; max-width: 23em; }
.board .close .dense { flex-basis: 24em; max-width: 35em; }
.board figcaption { font-weight: bold; } .board .legend { margin: .3em 0; }
.board svg { display: block; width: 100%; height: auto; max-height: 34em; margin: 0; }
.board .close svg { box-sizing: border-box; max-height: 28em; border: 1px solid #bbb; }
.board td:nth-child(2) { min-width: 9em; } .board td:nth-child(3) { min-width: 10em; }
@media print { .board .views { flex-wrap: nowrap; gap: .3em 1em; }
  .board .stacked figure { flex-basis: 0; } .board svg { max-height: 6.5cm; }
  .board .close { flex-wrap: wrap; } .board .close svg { max-height: 5.6cm; }
  .board .close figure { flex: 0 0 calc(33% - .7em); max-width: none; }
  .board .close .dense { flex-basis: calc(50% - .6em); } }
"""


class ShownNet(NamedTuple):
    """A net that a picture shows: its number in the table, all its pins, and those that fail."""

    number: int
    name: str
    pins: Sequence[str]
    failing: Sequence[str]

    @property
    def color(self) -> str:
        """The color of its marks. Colors repeat, numbers don't."""
        return COLORS[(self.number - 1) % len(COLORS)]


Pair = Tuple[str, str]  # two pins to measure between


class View:
    """The board from one side."""

    def __init__(self, places: Places, nets: Sequence[ShownNet], frame: Frame, side: str) -> None:
        self._places = places
        self._nets = nets
        self._frame = frame
        self._side = side
        self._size = frame.letter * UNIT
        self._radius = max(1, round(frame.radius * UNIT))
        self._taken: List[Box] = []  # by marks and letters

    def svg(self, name: str, definitions: str, pairs: Sequence[Pair], opens: Sequence[str]) -> str:
        """Returns the picture."""
        width, height = round(self._frame.width * UNIT), round(self._frame.height * UNIT)
        mirror = f' transform="matrix(-1 0 0 1 {width} 0)"' if self._side == BOTTOM else ""
        used = "".join(
            f'<use href="#{name}-{what}"{mirror}/>' for what in ("both", self._side, "edge")
        )
        pieces = [*self._others(), *self._marks(), *self._rings(opens), *self._lines(pairs)]
        pieces += self._letters()
        return (
            f'<svg viewBox="0 0 {width} {height}" role="group" aria-label="{escape(self._says())}" '
            f'font-family="sans-serif">{definitions}{used}{"".join(pieces)}{self._scale()}</svg>'
        )

    def _says(self) -> str:
        pins = [pin for net in self._nets for pin in net.failing if self._visible(pin)]
        said = ", ".join(pins[:LISTED]) + (" and more" if len(pins) > LISTED else "")
        return f"The board from the {self._side}. Failing pins on this side: {said or 'none'}"

    def _visible(self, pin: str) -> List[Place]:
        return [place for place in self._places.of(pin) if place.is_on(self._side)]

    def _spots(self, pins: Iterable[str]) -> List[Tuple[str, int, int]]:
        return [
            (pin, *self._frame.at(place, self._side))
            for pin in pins
            for place in self._visible(pin)
        ]

    def _others(self) -> Iterator[str]:
        """Yields the pins of the nets that don't fail, as small rings, or as dots if many."""
        total, width = 0, self._frame.stroke(0.1)
        for net in self._nets:
            failing = set(net.failing)
            spots = self._spots(pin for pin in net.pins if pin not in failing)
            total += len(spots)
            if total > MARKS:
                path = dots_path((x, y) for _, x, y in spots)
                yield (
                    f'<path d="{path}" fill="none" stroke="{net.color}" stroke-opacity=".5" '
                    f'stroke-linecap="round" stroke-width="{3 * width}">'
                    f"<title>{escape(net.name)}</title></path>"
                )
                continue
            circles = [
                f'<circle cx="{x}" cy="{y}" r="{round(self._radius * 0.6)}">'
                f"<title>{escape(pin)}, net {escape(net.name)}</title></circle>"
                for pin, x, y in spots
            ]
            yield f'<g fill="#fff" stroke="{net.color}" stroke-width="{width}">'
            yield "".join(circles) + "</g>"

    def _marks(self) -> Iterator[str]:
        """Yields the failing pins, as disks. Those beyond a number have no names."""
        total, radius = 0, self._radius
        width = self._frame.stroke(0.06)
        rest: Dict[str, List[Tuple[int, int]]] = {}  # by colors
        for net in self._nets:
            spots = self._spots(net.failing)
            single = spots[: max(0, MARKS - total)]
            total += len(spots)
            if single:
                yield f'<g fill="{net.color}" stroke="#fff" stroke-width="{width}">'
            for pin, x, y in single:
                yield (
                    f'<circle cx="{x}" cy="{y}" r="{radius}">'
                    f"<title>{escape(pin)}, net {escape(net.name)}, fails</title></circle>"
                )
                self._taken.append(Box(x - radius, y - radius, x + radius, y + radius))
            if single:
                yield "</g>"
            rest.setdefault(net.color, []).extend((x, y) for _, x, y in spots[len(single) :])
        yield from self._dots(rest)

    def _dots(self, colors: Dict[str, List[Tuple[int, int]]]) -> Iterator[str]:
        """Yields disks in few bytes: of those that nearly cover each other, one is drawn."""
        taken: Set[Tuple[int, int]] = set()
        for color, points in colors.items():
            kept = []
            for x, y in points:
                cell = x // self._radius, y // self._radius
                if cell not in taken:
                    taken.add(cell)
                    kept.append((x, y))
            if kept:
                yield (
                    f'<path d="{dots_path(kept)}" fill="none" stroke="{color}" '
                    f'stroke-linecap="round" stroke-width="{2 * self._radius}">'
                    "<title>failing pins</title></path>"
                )

    def _rings(self, opens: Sequence[str]) -> Iterator[str]:
        """Yields black rings around the pins that may be open."""
        width = self._frame.stroke(0.12)
        yield f'<g fill="none" stroke="#000" stroke-width="{width}">'
        for pin, x, y in self._spots(opens[:MARKS]):
            yield (
                f'<circle cx="{x}" cy="{y}" r="{self._radius + width}"><title>{escape(pin)} may '
                "be open</title></circle>"
            )
        yield "</g>"

    def _lines(self, pairs: Sequence[Pair]) -> Iterator[str]:
        """Yields the lines between the pins to measure between, and rings on the other side."""
        width = self._frame.stroke(0.14)
        for pair in pairs[:LINES]:
            places = [self._visible(pin) or self._places.of(pin) for pin in pair]
            if not all(places) or not any(self._visible(pin) for pin in pair):
                continue
            begin, end = (self._frame.at(spots[0], self._side) for spots in places)
            yield (
                f'<g fill="none" stroke="#000" stroke-width="{width}"><line x1="{begin[0]}" '
                f'y1="{begin[1]}" x2="{end[0]}" y2="{end[1]}" '
                f'stroke-dasharray="{3 * width} {2 * width}"/>'
                f"<title>measure between {escape(pair[0])} and {escape(pair[1])}</title>"
            )
            for pin, (x, y) in zip(pair, (begin, end)):
                if not self._visible(pin):
                    yield (
                        f'<circle cx="{x}" cy="{y}" r="{self._radius}" '
                        f'stroke-dasharray="{width}"/>'
                    )
            yield "</g>"

    def _letters(self) -> Iterator[str]:
        """Yields the numbers of the nets beside the failing pins, then the names of their parts."""
        size, radius = self._size, self._radius
        yield (
            f'<g font-size="{round(size)}" font-weight="bold" text-anchor="middle" stroke="#fff" '
            f'stroke-width="{self._frame.stroke(0.2)}" paint-order="stroke">'
        )
        shown = 0
        for net in self._nets:
            half = size * 0.32 * len(str(net.number))
            for _, x, y in self._spots(net.failing):
                shown += 1
                if shown > MARKS:
                    break
                aside, above = radius + half + size * 0.1, radius + size * 0.5
                steps = (
                    *((aside, 0), (-aside, 0), (0, -above), (0, above)),
                    *((aside, -above), (-aside, above)),
                )
                for across, down in steps:
                    box = Box(x + across - half, y + down - size / 2, x + across + half, 0)
                    box = box._replace(bottom=box.top + size * 0.9)
                    if self._is_free(box):
                        yield (
                            f'<text x="{x + across:.0f}" y="{y + down + size * 0.35:.0f}" '
                            f'fill="{net.color}">{net.number}</text>'
                        )
                        break
        yield "</g>"
        yield from self._names()

    def _is_free(self, box: Box) -> bool:
        if any(box.meets(other) for other in self._taken):
            return False
        self._taken.append(box)
        return True

    def _names(self) -> Iterator[str]:
        """Yields the names of the parts that have failing pins on this side."""
        size = self._size * 0.8
        pins = [pin for net in self._nets for pin in net.failing if self._visible(pin)]
        yield f'<g font-size="{round(size)}" text-anchor="middle" fill="#444">'
        for part in list(dict.fromkeys(pin.partition(".")[0] for pin in pins))[:MARKS]:
            spots = [place for pin in self._places.parts[part] for place in self._places.of(pin)]
            box = extent(spots)
            middle = self._frame.across((box.left + box.right) / 2, self._side)
            half = size * 0.32 * len(part)
            middle = round(min(max(middle, half), self._frame.width * UNIT - half))
            rows = (box.top + box.bottom) / 2, box.top, box.bottom
            for row, shift in zip(rows, (0.0, -0.8, 0.8)):
                y = self._frame.down(row) + shift * size
                if self._is_free(Box(middle - half, y - size / 2, middle + half, y + size / 2)):
                    text = f'<text x="{middle}" y="{y + size * 0.35:.0f}">{escape(part)}</text>'
                    yield text
                    break
        yield "</g>"

    def _scale(self) -> str:
        """Returns a bar with its length: 1, 2 or 5 of a power of ten, a fifth of the width."""
        wanted = self._frame.width / 5
        power = 10.0 ** math.floor(math.log10(wanted))
        length = max(step * power for step in (1, 2, 5) if step * power <= wanted)
        x, y = self._size, self._frame.height * UNIT - self._size * 0.5
        end, tick = x + length * UNIT, self._size * 0.25
        return (
            f'<path d="M{x:.0f} {y - tick:.0f}V{y:.0f}H{end:.0f}V{y - tick:.0f}" fill="none" '
            f'stroke="#000" stroke-width="{self._frame.stroke(0.08)}"/>'
            f'<text x="{end + tick:.0f}" y="{y:.0f}" font-size="{self._size * 0.8:.0f}">'
            f"{length:g} mm</text>"
        )


def where(places: Places, frame: Frame, pin: str) -> str:
    """Returns a pin and its place in words."""
    spots = places.of(pin)
    if not spots:
        return f"{escape(pin)} (no place)"
    spot = spots[0]
    left, upper = spot.x - frame.corner[0], spot.y - frame.corner[1]
    side = "both sides" if spot.side not in (TOP, BOTTOM) else spot.side
    return f"{escape(pin)} ({side}, {left:.1f}, {upper:.1f})"


def some(words: List[str]) -> str:
    """Returns the first of some words."""
    more = f" and {len(words) - LISTED:,} more" if len(words) > LISTED else ""
    return ", ".join(words[:LISTED]) + more


def table(places: Places, frame: Frame, nets: Sequence[ShownNet], pairs: Sequence[Pair]) -> str:
    """Returns what the pictures show, in words."""
    rows = []
    for net in nets[:ROWS]:
        failing = set(net.failing)
        wrong = [where(places, frame, pin) for pin in net.failing]
        others = [escape(pin) for pin in net.pins if pin not in failing]
        rows.append(
            f'<tr><td class=number><b style="color:{net.color}">{net.number}</b></td>'
            f"<td>{escape(net.name)}</td><td>{some(wrong)}</td><td>{some(others)}</td></tr>"
        )
    if len(nets) > ROWS:
        rows.append(f"<tr><td></td><td>and {len(nets) - ROWS:,} more nets</td></tr>")
    heads = "<tr><th class=number></th><th>net</th><th>failing pins</th><th>other pins</th></tr>"
    head, body = f"<thead>{heads}</thead>", f"<tbody>{''.join(rows)}</tbody>"
    lines = [f"<div class=wide><table>{head}{body}</table></div>"]
    if pairs:
        items = [f"<li>{measure(places, frame, pair)}</li>" for pair in pairs[:ROWS]]
        lines.append(f"<p>Measure between:</p><ul>{''.join(items)}</ul>")
    return "".join(lines)


def measure(places: Places, frame: Frame, pair: Pair) -> str:
    """Returns two pins to measure between, in words."""
    ends = [places.of(pin) for pin in pair]
    apart = f", {ends[0][0].distance(ends[1][0]):.1f} mm apart" if all(ends) else ""
    return f"{where(places, frame, pair[0])} and {where(places, frame, pair[1])}{apart}"


LEGEND = (
    "&#9679; a failing pin, with the number of its net in the table; &#9675; another pin of such a "
    "net; a black ring is a pin that may be open; a dashed line joins pins to measure between, and "
    "a dashed ring is a pin on the other side; a box is a part, as far as its pins reach. A "
    "close-up has the pins of a part and, where there is room, their names with the numbers of "
    "their nets in brackets. "
    "Places are in mm from the left and the upper edge, as seen from the top."
)


def legend(places: Places, nets: Sequence[ShownNet]) -> str:
    """Returns what the marks mean, and how many pins have a number if not all have one."""
    count = sum(len(places.of(pin)) for net in nets for pin in net.failing)
    more = f" Of {count:,} failing pins, at most {MARKS} of a side have numbers."
    return f"<p class=legend>{LEGEND}{more if count > MARKS else ''}</p>"


def marked(nets: Sequence[ShownNet], opens: Set[str]) -> Iterator[Marked]:
    """Yields the pins that a close-up marks."""
    for net in nets:
        failing = set(net.failing)
        for pin in net.pins:
            is_open = pin in opens
            yield Marked(pin, net.name, net.color, net.number, pin in failing, is_open)


def board(
    places: Places,
    nets: Sequence[ShownNet],
    pairs: Sequence[Pair] = (),
    opens: Sequence[str] = (),
    name: str = "board",
) -> str:
    """Returns the pictures and the table, as HTML for a page that has STYLE.

    `pairs` are pins to measure between, `opens` pins that may be open. `name` must
    differ among the boards of a page, since the pictures refer to pieces by it.
    """
    frame = frame_of(places)
    definitions = Shapes(places, frame).definitions(name)
    views = []
    for side, says in ((TOP, "from the top"), (BOTTOM, "from the bottom, as one looks at it")):
        svg = View(places, nets, frame, side).svg(name, definitions, pairs, opens)
        views.append(f"<figure><figcaption>The board {says}</figcaption>{svg}</figure>")
        definitions = ""  # both views use those of the first
    close = "".join(closeups(places, list(marked(nets, set(opens)))))
    kind = "views stacked" if frame.width > STACKED * frame.height else "views"
    whole = " whole" if len(nets) <= FEW else ""
    return (
        f'<div class="board{whole}"><div class=pictures><div class="{kind}">{"".join(views)}</div>'
        f'<div class="views close">{close}</div>{legend(places, nets)}</div>'
        f"{table(places, frame, nets, pairs)}</div>"
    )
