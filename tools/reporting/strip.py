"""A strip of a stream's loss over the time of its session, small enough for a row of a table: a line where packets
came, and bars of what was lost."""
from __future__ import annotations

from dataclasses import dataclass

from reporting.plots import LEAST_TIME, clock_of
from reporting.reports import Pair, Span
from reporting.session import Session
from reporting.stream import SECOND, by_parts
from reporting.svg import FAINT, RED, number
from reporting.verdict import Verdict

PARTS = 60  # of the time, at most
WIDTH, HEIGHT, LINE = 3, 24, 2  # units of the picture: of a part, of all, and of the line at the foot


@dataclass(frozen=True)
class Piece:
    """A part of the time: what was lost of a stream in it, in per cent."""

    at: int  # from 0 on
    percent: float


def part_size(session: Session) -> int:
    """The seconds of a part."""
    return max(1, -(-max(session.end, LEAST_TIME) // SECOND // PARTS))


def pieces(session: Session, verdict: Verdict) -> list[Piece]:
    """Those in which packets came here; or those that the worst report tells of."""
    size, worst = part_size(session), verdict.worst
    if worst is None or worst.reporter is None:
        found = by_parts(verdict.stream, size) if verdict.stream else []
        return [Piece(part.moment // SECOND // size, part.percent) for part in found if part.came]
    return reported(session.reported.pairs[worst.reporter, verdict.ssrc], verdict, size)


def reported(pair: Pair, verdict: Verdict, size: int) -> list[Piece]:
    """Of each part what the report tells that has its middle."""
    spans, found = pair.spans(verdict.stream), []
    for at in range(PARTS + 1):
        middle = (2 * at + 1) * size * SECOND // 2
        span = next((span for span in spans if span.begin <= middle < span.end), None)
        found += [Piece(at, percent_of(span))] if span else []
    return found


def percent_of(span: Span) -> float:
    """The part lost."""
    return 100 * max(0, span.lost) / span.expected


def in_words(session: Session, piece: Piece) -> str:
    """What was lost of a part of the time, and from when on."""
    moment = clock_of(session).moment(piece.at * part_size(session) * SECOND, 0)
    return f"{number(piece.percent, 1)} % from {moment} on"


def strip(session: Session, some: list[Piece], top: float) -> str:
    """The picture, whose bars reach from 0 to this many per cent; nothing where nothing is known."""
    if not some:
        return ""
    line = "".join(f"M{WIDTH * piece.at} {HEIGHT - LINE}h{WIDTH}v{LINE}h-{WIDTH}z" for piece in some)
    bars = "".join(bar(piece, top) for piece in some if piece.percent > 0)
    worst = max(some, key=lambda piece: piece.percent)
    words = f"most was lost: {in_words(session, worst)}" if worst.percent else "nothing was lost"
    width = WIDTH * max(1, -(-session.end // (part_size(session) * SECOND)))
    return (f'<svg class="strip" role="img" aria-label="{words}" viewBox="0 0 {width} {HEIGHT}" '
            f'preserveAspectRatio="none"><title>{words}</title><path d="{line}" fill="{FAINT}"/>'
            f'<path d="{bars}" fill="{RED}"/></svg>')


def bar(piece: Piece, top: float) -> str:
    height = max(LINE, (HEIGHT - LINE) * min(1.0, piece.percent / top))
    return f"M{WIDTH * piece.at} {HEIGHT - LINE - height:.1f}h{WIDTH - 0.5}v{height:.1f}h-{WIDTH - 0.5}z"
