"""The rows of sessions for a spreadsheet or a script: of each source, what came of it in each interval of time, and
each report block about it."""
from __future__ import annotations

import csv
import io
from datetime import datetime, timedelta

from reporting.clock import hours
from reporting.names import cname_of
from reporting.plots import clock_of
from reporting.reports import Pair
from reporting.session import Session
from reporting.stream import SECOND, Part, Stream, by_parts
from reporting.svg import unmarked
from reporting.verdict import by_source, has_jitter, rate_of

TITLES = ("call", "ssrc", "cname", "by", "from", "to", "expected", "lost", "lost_percent", "came", "again", "jitter_ms",
          "greatest_jitter_ms", "kbit_s", "round_trip_ms", "round_trip_is_whole")
FORMULA = ("=", "+", "-", "@", "\t", "\r")  # what a spreadsheet would compute if a text began with it
HERE = "here"


def spreadsheet(sessions: list[Session], interval: int) -> str:
    """One text of all sessions, with a head."""
    text = io.StringIO()
    writer = csv.writer(text, lineterminator="\n")
    writer.writerow(TITLES)
    for number, session in enumerate(sessions, 1):
        writer.writerows([number, *row] for row in rows_of(session, interval))
    return text.getvalue()


def rows_of(session: Session, interval: int) -> list[list]:
    """The rows of a session, without the number of its call."""
    about, rows = by_source(session), []
    for ssrc in sorted({*about, *(ssrc for ssrc, source in session.heard.items() if source.stream)}):
        if session.chosen is not None and ssrc not in session.chosen:
            continue
        source = session.heard.get(ssrc)
        stream = source.stream if source else None
        head = [f"{ssrc:08x}", harmless(cname_of(session, ssrc))]
        if stream:
            rows += [[*head, HERE, *part_cells(session, stream, part, interval)] for part in by_parts(stream, interval)]
        for pair in about.get(ssrc, []):
            rows += [[*head, f"{pair.reporter:08x}", *cells] for cells in block_cells(session, pair)]
    return rows


def harmless(name: bytes | None) -> str:
    """A CNAME as a spreadsheet shows it: no formula, and no character that is not printed."""
    text = unmarked("" if name is None else name.decode(errors="replace"))
    return "'" + text if text.startswith(FORMULA) else text


def time_of(session: Session, moment: int) -> str:
    """A moment in UTC where that is known, otherwise since the start."""
    base = clock_of(session).unix
    if base is None:
        return hours(moment, 3)
    when = datetime(1970, 1, 1) + timedelta(microseconds=base + moment)
    return when.isoformat(timespec="milliseconds") + "Z"


def part_cells(session: Session, stream: Stream, part: Part, interval: int) -> list:
    """The cells of what came in an interval."""
    begin, end = max(part.moment, stream.first), min(part.moment + interval * SECOND, stream.last)
    rate = 8 * part.octets / max(end - begin, SECOND) * SECOND / 1000
    jitters = [f"{value:.3f}" if has_jitter(session, stream) else "" for value in (part.jitter, part.most)]
    return [time_of(session, begin), time_of(session, end), part.expected, part.lost, f"{part.percent:.3f}", part.came,
            part.again, *jitters, f"{rate:.3f}", "", ""]


def block_cells(session: Session, pair: Pair) -> list[list]:
    """A row for each block: what was expected and lost since the block before."""
    trips = {trip.moment: trip for trip in session.reported.trips(pair, session.own)}
    source = session.heard.get(pair.source)
    spans = {span.end: span for span in pair.spans(source.stream if source else None)}
    rows = []
    for block in pair.blocks:
        span, trip = spans.get(block.moment), trips.get(block.moment)
        begin, rate = time_of(session, span.begin) if span else "", rate_of(session, pair.source, block.moment)
        jitter = f"{1000 * block.jitter / rate:.3f}" if rate else ""
        trip_cells = [f"{1000 * trip.time:.3f}", "yes" if trip.is_whole else "no"] if trip else ["", ""]
        rows.append([begin, time_of(session, block.moment), span.expected if span else "", span.lost if span else "",
                     f"{block.percent:.3f}", "", "", jitter, "", "", *trip_cells])
    return rows
