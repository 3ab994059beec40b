"""Plots of one quantity of several streams: a panel for each, all on one scale, and the numbers as a table."""
from __future__ import annotations

from dataclasses import dataclass

from reporting.plots import HEIGHT, line, picture, top_of, upper
from reporting.session import Session
from reporting.svg import RED, Panel, Plot, Point, number, plural
from reporting.words import Cell, box, table

PANEL = HEIGHT * 3 / 5
MOST_ROWS = 12  # without scrolling
MOST_NUMBERS = 200  # rows of a table of a plot of RTCP itself


@dataclass(frozen=True)
class Series:
    """The values of a stream."""

    name: str  # a text, not HTML
    points: list[Point]
    start: int = 0  # of the first value, where each holds from the one before


def figure(session: Session, title: str, unit: str, series: list[Series], colour: str) -> str:
    """Dots, joined where there are few, from 0 to the greatest value of all."""
    some = [one for one in series if one.points]
    if not some:
        return ""
    top = upper([value for one in some for _, value, _ in one.points], 1)

    def draw(plot: Plot) -> None:
        for one in some:
            dotted(plot.panel(PANEL, top, f"{one.name}, {unit}").scaled(3), one, colour, unit)

    return picture(session, title, draw)


def dotted(panel: Panel, one: Series, colour: str, unit: str) -> None:
    if not panel.plot.is_full(len(one.points)):
        line(panel, panel.joined([(moment, value) for moment, value, _ in one.points]), colour, 'stroke-opacity="0.5"')
    panel.marks(one.points, "dot", colour, f" {unit}")


def losses_figure(session: Session, title: str, series: list[Series]) -> str:
    """Parts lost, in per cent: steps, each of which holds from the moment before to its own."""
    some = [one for one in series if one.points]
    if not some:
        return ""
    top = top_of(value for one in some for _, value, _ in one.points)

    def draw(plot: Plot) -> None:
        for one in some:
            stepped(plot.panel(PANEL, top, one.name), one, top)

    return picture(session, f"{title}, in per cent", draw)


def stepped(panel: Panel, one: Series, top: int) -> None:
    panel.scale([0, top / 2, top], " %")
    moments = [one.start, *(moment for moment, _, _ in one.points)]
    steps = [(begins, value) for begins, (_, value, _) in zip(moments, one.points)]
    panel.area(steps, moments[-1], RED)
    line(panel, panel.steps(steps, moments[-1]), RED)
    panel.marks([point for point in one.points if point[1]], "dot", RED, " %")


def numbers(label: str, titles: list[str], rows: list[list[str]], note: str = "") -> str:
    """The numbers of a plot, folded: the first cell of a row is its head."""
    if not rows:
        return ""
    cells = [[Cell(words, at > 0) for at, words in enumerate(row)] for row in rows]
    inside = table(titles, cells, "numbers")
    count = plural(len(rows), "row") + note
    inside = box(label, inside, count, is_tall=len(rows) > MOST_ROWS)
    return f"<details>\n<summary>{label}</summary>\n{inside}</details>\n"


def limited(label: str, titles: list[str], rows: list[list[str]]) -> str:
    """A table of numbers, which says if some are left out."""
    left_out = len(rows) - MOST_NUMBERS
    note = f"; {number(left_out)} more are left out" if left_out > 0 else ""
    return numbers(label, titles, rows[:MOST_NUMBERS], note)
