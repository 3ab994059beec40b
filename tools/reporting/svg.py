"""Panels of a plot over time, as inline SVG: each plot is drawn for a wide window and for a narrow one. What would
cover each other is drawn by columns of pixels: how many there are, or the least, the mean and the greatest value."""
from __future__ import annotations

import html
import math
from collections.abc import Callable, Iterable
from dataclasses import dataclass, field

from reporting.clock import Clock

INK, FAINT, GRID = "var(--ink)", "var(--faint)", "var(--grid)"
BLUE, GREEN, RED, ORANGE, PURPLE = "var(--blue)", "var(--green)", "var(--red)", "var(--orange)", "var(--purple)"
COLUMN, LANE_COLUMN, LINE_COLUMN = 6, 9, 3  # pixels of a column: of values, of a lane of marks, of a line
SPACE = 5  # pixels that a mark needs: where there are more marks, columns are drawn
CHARACTER = 7.7  # pixels of a digit, at most
SHAPES = {
    "dot": "m-2.6 0a2.6 2.6 0 1 0 5.2 0a2.6 2.6 0 1 0 -5.2 0",
    "up": "m0 -4.6l4.4 8h-8.8z",
    "down": "m0 4.6l4.4 -8h-8.8z",
    "square": "m-3.6 -3.6h7.2v7.2h-7.2z",
    "diamond": "m0 -5l5 5l-5 5l-5 -5z",
    "plus": "m-1 -4.4h2v3.4h3.4v2h-3.4v3.4h-2v-3.4h-3.4v-2h3.4z",
    "cross": "m-4 -2.5l1.5 -1.5l2.5 2.5l2.5 -2.5l1.5 1.5l-2.5 2.5l2.5 2.5l-1.5 1.5l-2.5 -2.5l-2.5 2.5l-1.5 -1.5"
             "l2.5 -2.5z",
}


def shown(text: object) -> str:
    """A text as HTML shows it: nothing of it is markup, and each unprintable character is seen as its number."""
    return html.escape(unmarked(str(text)))


def unmarked(text: str) -> str:
    """A text in which each unprintable character is seen as its number."""
    return "".join(c if c.isprintable() else f"\\u{{{ord(c):x}}}" for c in text)


def number(value: float, places: int = 3) -> str:
    """With commas, and with at most so many decimal places."""
    text = f"{value:,.{places}f}"
    text = text.rstrip("0").rstrip(".") if "." in text else text
    return "0" if text == "-0" else text


def short(value: float) -> str:
    """A number at an axis."""
    for unit, size in (("G", 1e9), ("M", 1e6), ("k", 1e4)):
        if abs(value) >= size:
            return number(value / (1e3 if unit == "k" else size)) + unit
    return number(value, 6)


def plural(count: int, name: str) -> str:
    return f"{number(count)} {name}{'' if count == 1 else 's'}"


def ticks(low: float, high: float, most: int) -> list[float]:
    """Round values from low to high, a step of 1, 2 or 5 times a power of ten apart, and about `most` of them."""
    rough = (high - low) / most
    power = 10.0 ** math.floor(math.log10(rough))
    step = next(power * factor for factor in (1, 2, 5, 10) if power * factor >= rough * 0.999)
    first, last = math.ceil(low / step - 1e-9), math.floor(high / step + 1e-9)
    return [place * step for place in range(first, last + 1)]


@dataclass(frozen=True)
class Layout:
    """The room of a picture, in pixels."""

    name: str  # its class
    width: int
    left: int  # for the numbers of an axis
    right: int  # for names at the ends of lines
    lane: int  # the height of a lane of marks
    marks: int  # about how many texts there are at the axis of time

    @property
    def inside(self) -> int:
        return self.width - self.left - self.right

    @property
    def is_wide(self) -> bool:
        return self.right > self.left // 2


WIDE = Layout("wide", 1120, 130, 130, 22, 9)
NARROW = Layout("narrow", 343, 44, 12, 40, 4)


@dataclass(frozen=True)
class Mark:
    x: float
    y: float
    title: str = ""


@dataclass
class Plot:
    """A picture that grows downwards, panel by panel, over a time from 0 to `end`, in microseconds."""

    layout: Layout
    clock: Clock
    end: int
    parts: list[str] = field(default_factory=list)
    height: float = 8

    def __post_init__(self):
        self.left, self.inside = self.layout.left, self.layout.inside
        self.right = self.left + self.inside

    def x(self, moment: int) -> float:
        """Where a moment lies."""
        return self.left + self.inside * moment / self.end

    def column(self, moment: int, width: int) -> int:
        """The column of pixels, of this width, in which it lies."""
        return self.inside * moment // self.end // width

    def is_full(self, count: int) -> bool:
        """Whether so many marks would cover each other."""
        return count * SPACE > self.inside

    def line(self, x1: float, y1: float, x2: float, y2: float, colour: str, more: str = "") -> None:
        self.parts.append(f'<line x1="{x1:.1f}" y1="{y1:.1f}" x2="{x2:.1f}" y2="{y2:.1f}" stroke="{colour}" {more}/>')

    def text(self, x: float, y: float, words: str, anchor: str = "start", colour: str = INK, more: str = "") -> None:
        self.parts.append(f'<text x="{x:.1f}" y="{y:.1f}" text-anchor="{anchor}" fill="{colour}" {more}>'
                          f"{shown(words)}</text>")

    def path(self, data: str, more: str, title: str = "") -> None:
        """A path; a narrow plot, for which there is no pointer, has no titles."""
        end = f"><title>{shown(title)}</title></path>" if title and self.layout.is_wide else "/>"
        self.parts.append(f'<path d="{data}" {more}{end}')

    def marks(self, marks: Iterable[Mark], shape: str, colour: str) -> None:
        """Marks of one kind, of which those that would cover each other are drawn once."""
        seen: dict[tuple[int, int], list[Mark]] = {}
        for mark in marks:
            seen.setdefault((round(mark.x), round(mark.y)), []).append(mark)
        for some in seen.values():
            more = f" (and {len(some) - 1} more here)" if len(some) > 1 else ""
            self.path(f"M{some[0].x:.1f} {some[0].y:.1f}{SHAPES[shape]}", f'fill="{colour}" fill-opacity="0.85"',
                      some[0].title + more)

    def lane(self, name: str, marks: list[tuple[int, str]], shape: str, colour: str, count: int | None = None) -> None:
        """A row of marks of one kind, with its name and how many there are."""
        said = number(len(marks) if count is None else count) if marks else "none"
        y = self.height + self.layout.lane - 11
        if self.layout.is_wide:
            self.text(self.left - 10, y + 4, name, "end")
            self.text(self.right + 10, y + 4, said, colour=FAINT)
        else:
            self.text(self.left, y - 13, f"{name}: {said}")
        self.line(self.left, y, self.right, y, GRID)
        if self.is_full(len(marks)):
            self._counts(name, marks, y + 8, colour)
        else:
            self.marks((Mark(self.x(moment), y, title) for moment, title in marks), shape, colour)
        self.height += self.layout.lane

    def _counts(self, name: str, marks: list[tuple[int, str]], foot: float, colour: str) -> None:
        """How many marks each column has."""
        columns: dict[int, list[tuple[int, str]]] = {}
        for mark in marks:
            columns.setdefault(self.column(mark[0], LANE_COLUMN), []).append(mark)
        most = max(map(len, columns.values()))
        for column, some in columns.items():
            high = 2 + 14 * len(some) / most
            title = some[0][1] + (f" (and {len(some) - 1} more here)" if len(some) > 1 else "")
            self.path(f"M{self.left + LANE_COLUMN * column} {foot:.1f}v{-high:.1f}h{LANE_COLUMN - 2}v{high:.1f}z",
                      f'fill="{colour}" fill-opacity="0.75"', title)

    def panel(self, height: float, high: float, unit: str, low: float = 0) -> Panel:
        """A new panel, whose values lie from low to high. Its title is the unit of these."""
        self.height += 4
        self.text(self.left if self.layout.is_wide else 2, self.height + 13, unit, colour=FAINT)
        top = self.height + 26
        self.height = top + height + 12
        return Panel(self, top, height, low, high)

    def time_axis(self) -> None:
        """The foot of the plot, with lines upwards through all of it."""
        foot, free = self.height, 0.0
        for moment, words in self.clock.axis(self.end, self.layout.marks):
            x, half = self.x(moment), CHARACTER * len(words) / 2
            self.parts.insert(0, f'<line x1="{x:.1f}" y1="8" x2="{x:.1f}" y2="{foot:.1f}" stroke="{GRID}"/>')
            middle = min(max(x, half), self.layout.width - half)
            if middle - half >= free:
                self.text(middle, foot + 16, words, "middle")
                free = middle + half
        self.line(self.left, foot, self.right, foot, FAINT)
        self.text(self.left + self.inside / 2, foot + 34, self.clock.axis_name(self.end), "middle", FAINT)
        self.height = foot + 42

    def svg(self, label: str) -> str:
        """The picture. Its time axis is its last panel."""
        self.time_axis()
        return (f'<svg class="{self.layout.name}" role="img" aria-label="{shown(label)}" '
                f'viewBox="0 0 {self.layout.width} {self.height:.0f}" width="{self.layout.width}" '
                f'height="{self.height:.0f}">\n' + "\n".join(self.parts) + "\n</svg>\n")


def drawn(label: str, clock: Clock, end: int, draw: Callable[[Plot], None]) -> str:
    """What `draw` puts into a plot, for a wide window and for a narrow one. The style shows one of them."""
    pictures = ""
    for layout in (WIDE, NARROW):
        plot = Plot(layout, clock, end)
        draw(plot)
        pictures += plot.svg(label)
    return f'<div class="scroll" tabindex="0" role="region" aria-label="{shown(label)}">\n{pictures}</div>\n'


Point = tuple[int, float, str]  # its moment, its value and its title


@dataclass(frozen=True)
class Panel:
    """A part of a plot with a scale of its own."""

    plot: Plot
    top: float
    height: float
    low: float
    high: float

    def y(self, value: float) -> float:
        return self.top + self.height * (self.high - value) / (self.high - self.low)

    def scale(self, values: list[float], unit: str = "") -> None:
        """Numbers at the left, with lines."""
        for value in values:
            y = self.y(value)
            self.plot.line(self.plot.left, y, self.plot.right, y, GRID)
            self.plot.text(self.plot.left - 8, y + 4, short(value) + unit, "end")

    def scaled(self, most: int) -> Panel:
        """The panel, with about so many numbers at the left."""
        self.scale(ticks(self.low, self.high, most))
        return self

    def steps(self, points: list[tuple[int, float]], until: int) -> str:
        """The path of values that each hold from their moment on."""
        points = self._thinned(points)
        parts = [f"M{self.plot.x(points[0][0]):.1f} {self.y(points[0][1]):.1f}"]
        parts += [f"H{self.plot.x(moment):.1f}V{self.y(value):.1f}" for moment, value in points[1:]]
        return "".join(parts) + f"H{self.plot.x(until):.1f}"

    def joined(self, points: list[tuple[int, float]]) -> str:
        """The path from point to point."""
        return "M" + "L".join(f"{self.plot.x(moment):.1f} {self.y(value):.1f}"
                              for moment, value in self._thinned(points))

    def _thinned(self, points: list[tuple[int, float]]) -> list[tuple[int, float]]:
        """Of the points of each column the first, the least, the greatest and the last: they draw the same."""
        if not self.plot.is_full(len(points)):
            return points
        columns: dict[int, list[tuple[int, float]]] = {}
        for point in points:
            columns.setdefault(self.plot.column(point[0], LINE_COLUMN), []).append(point)
        some = [{some[0], min(some, key=lambda point: point[1]), max(some, key=lambda point: point[1]), some[-1]}
                for some in columns.values()]
        return [point for few in some for point in sorted(few)]

    def area(self, points: list[tuple[int, float]], until: int, colour: str) -> None:
        """What lies below the path of steps."""
        foot, start = self.y(self.low), self.plot.x(points[0][0])
        self.plot.path(f"{self.steps(points, until)}V{foot:.1f}H{start:.1f}Z", f'fill="{colour}" fill-opacity="0.18"')

    def name_right(self, places: list[tuple[float, str, str]]) -> None:
        """Names lines at their right ends: values, names and colours. A name that would cover another moves up. In a
        narrow plot there is no room for them."""
        free = math.inf
        for value, name, colour in sorted(places) if self.plot.layout.is_wide else []:
            y = min(self.y(value) + 4, free)
            self.plot.text(self.plot.right + 8, y, name, colour=colour, more='font-weight="600"')
            free = y - 15

    def marks(self, points: list[Point], shape: str, colour: str, unit: str = "") -> None:
        """A mark for each point; or, if these are too many, of each column its least, mean and greatest value."""
        if self.plot.is_full(len(points)):
            self._envelope(points, colour, unit)
        else:
            self.plot.marks((Mark(self.plot.x(moment), self.y(value), title) for moment, value, title in points),
                            shape, colour)

    def _envelope(self, points: list[Point], colour: str, unit: str) -> None:
        columns: dict[int, list[Point]] = {}
        for point in points:
            columns.setdefault(self.plot.column(point[0], COLUMN), []).append(point)
        for column, some in columns.items():
            x, values = self.plot.left + COLUMN * column, [value for _, value, _ in some]
            low, high, mean = self.y(min(values)) + 0.7, self.y(max(values)) - 0.7, self.y(sum(values) / len(values))
            title = some[0][2] if len(some) == 1 else (
                f"{len(some)} from {self.plot.clock.moment(some[0][0])} on: {number(min(values))} to "
                f"{number(max(values))}{unit}, mean {number(sum(values) / len(values))}{unit}")
            self.plot.path(f"M{x} {low:.1f}V{high:.1f}h{COLUMN - 2}V{low:.1f}z", f'fill="{colour}" fill-opacity="0.35"',
                           title)
            self.plot.path(f"M{x} {mean - 1:.1f}h{COLUMN - 2}v2h{2 - COLUMN}z", f'fill="{colour}"')
