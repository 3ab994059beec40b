"""Parts of a page that all its sections use."""
from __future__ import annotations

from collections.abc import Sequence
from dataclasses import dataclass

from reporting.svg import SHAPES, number

NUMBER = ' class="number"'
MANY = "Where dots would cover each other, a bar spans the least and the greatest of them, with a line at their mean."

# The numbers of docs/PROTOCOL.md, in words
MEANINGS = {
    "E1": "this participant has left", "E2": "the moment lies before the latest one", "E3": "the moment is beyond 2^50",
    "E4": "too many calls",
    "E7": "it names this participant's SSRC, from a peer that did so before or after eight changes",
    "C4": "a bandwidth that is none of 16 to 2^30", "C5": "a clock whose rate is none of 1 to 2^20",
    "C6": "an item whose type is none of 2 to 8",
    "F1": "fewer than 4 octets are left", "F2": "the version of RTCP is not 2",
    "F3": "the first packet is neither an SR nor an RR", "F4": "the first packet has padding",
    "F5": "a packet is longer than what is left", "F6": "padding that cannot be",
    "F7": "a packet's body does not have the size that its type and count need",
    "F8": "an item of an SDES does not end in its packet", "F9": "the reason of a BYE does not fit",
    "F10": "more than 65,535 octets", "G1": "fewer octets than the head has", "G2": "the version of RTP is not 2",
    "G3": "a payload type of 72 to 76, which may be RTCP", "G4": "an extension longer than the datagram",
    "G5": "padding that cannot be",
    "H1": "held back by the guard: it names a source of another address",
    "H2": "held back by the guard: its address would have too many sources, or say BYE too often",
}


def percent(part: int, whole: int, before: str = "") -> str:
    """A part of a whole in per cent, after these words; nothing where there is no whole."""
    return f"{before}{number(100 * part / whole, 2)} %" if whole > 0 else ""


def key(shape: str, colour: str, words: str) -> str:
    """An entry of a legend."""
    data = {"line": "M0 7h18v2h-18z", "dashes": "M0 7h7v2h-7zM11 7h7v2h-7z", "area": "M0 3h18v10h-18z"}.get(shape)
    return (f'<span><svg class="key" viewBox="0 0 18 16"><path d="{data or "M9 8" + SHAPES[shape]}" '
            f'fill="{colour}"/></svg>{words}</span>')


def section(title: str, words: str, *entries: tuple[str, str, str]) -> str:
    """The head of a section: what it shows, and a legend."""
    return f"<h2>{title}</h2>\n" + (f"<p>{words}</p>\n" if words else "") + legend(*entries)


def subsection(title: str, *entries: tuple[str, str, str]) -> str:
    """The head of a part of a section, with a legend."""
    return f"<h3>{title}</h3>\n" + legend(*entries)


def legend(*entries: tuple[str, str, str]) -> str:
    """What shapes of which colours stand for."""
    return f'<p class="keys">{"".join(key(*entry) for entry in entries)}</p>\n' if entries else ""


def box(label: str, inside: str, count: str = "", is_tall: bool = False, kind: str = "") -> str:
    """What may be wider or higher than its room: it scrolls, by keyboard too, and says what it holds."""
    cue = '<span class="cue">; scroll for the rest</span>' if is_tall else ""
    before = f'<p class="count">{count}{cue}</p>\n' if count else ""
    classes = " ".join(filter(None, ("scroll", "tall" if is_tall else "", kind)))
    return f'{before}<div class="{classes}" tabindex="0" role="region" aria-label="{label}">\n{inside}</div>\n'


@dataclass(frozen=True)
class Cell:
    """A cell of a table, as HTML."""

    words: str
    is_number: bool = False


def table(titles: Sequence[str], rows: list[list[Cell]], kind: str = "sources") -> str:
    """A table, whose first column has the heads of its rows. A column in which all cells are empty is left out."""
    used = [at for at in range(len(titles)) if any(row[at].words for row in rows)]
    numbers = {at for at in used if rows[0][at].is_number}
    head = "".join(f'<th scope="col"{NUMBER if at in numbers else ""}>{titles[at]}</th>' for at in used)
    body = "".join("<tr>" + "".join(cell_of(row[at], at == used[0]) for at in used) + "</tr>\n" for row in rows)
    return f'<table class="{kind}">\n<thead><tr>{head}</tr></thead>\n<tbody>\n{body}</tbody></table>'


def cell_of(cell: Cell, is_head: bool) -> str:
    if is_head:
        return f'<th scope="row">{cell.words}</th>'
    return f'<td{NUMBER if cell.is_number else ""}>{cell.words or "–"}</td>'
