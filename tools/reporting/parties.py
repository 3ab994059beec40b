"""What each party reported of each other one: loss, jitter and round trips, over time, from all report blocks."""
from __future__ import annotations

from reporting.headline import per_cent
from reporting.names import party, plain_name
from reporting.plots import clock_of
from reporting.reports import Block, Pair, Trip
from reporting.series import Series, figure, losses_figure, numbers
from reporting.session import Session
from reporting.stream import Loss
from reporting.svg import GREEN, PURPLE, RED, number, plural
from reporting.verdict import Verdict, by_source, jitters_told, rate_of
from reporting.words import Cell, box, section, subsection, table

MOST_ROWS = 12  # without scrolling
DRAWN = 6  # pairs with plots of their own
MOST_PAIRS, MOST_BLOCKS = 400, 300  # rows of the tables
TITLES = ("of", "reported by", "lost, %", "lost", "expected", "greatest fraction lost", "jitter", "round trip, ms",
          "blocks", "from", "to")
NUMBERS = ["of, by, at", "fraction, %", "lost in all", "highest number", "jitter", "round trip"]


WORDS = ("What those who heard a source told of it in their report blocks, the worst first. A lost percentage is of "
         "the packets between the first block and the last one, or from the first packet here. A round trip is that "
         "between the source and the reporter, by LSR and DLSR; “at least” is only the way from here to the reporter "
         "and back. Jitter is in milliseconds where the source's clock is known.")

NOBODY = " Nobody listened where the capture was made, so nothing was reported from there."


def parties(session: Session, verdicts: list[Verdict]) -> str:
    """The reports of each source, the worst source first, and of these the worst report first."""
    title = "What each party reported"
    about = by_source(session)
    pairs = [pair for verdict in verdicts for pair in sorted(about.get(verdict.ssrc, []), key=worst_first)]
    if not pairs:
        return section(title, "No report block came or went out.")
    words = WORDS + (NOBODY if session.is_captured else "")
    rows = [cells_of_row(session, pair) for pair in pairs[:MOST_PAIRS]]
    more = f"; {number(len(pairs) - MOST_PAIRS)} more are left out" if len(pairs) > MOST_PAIRS else ""
    count = f"{plural(len(pairs), 'row')}: a source and who reported of it{more}"
    reported = box(title, table(TITLES, rows), count, is_tall=len(pairs) > MOST_ROWS)
    return section(title, words) + reported + pictures(session, pairs)


def worst_first(pair: Pair) -> tuple[float, int]:
    """The key by which the reports of a source are sorted."""
    return -max(block.fraction for block in pair.blocks), pair.reporter


def cells_of_row(session: Session, pair: Pair) -> list[Cell]:
    """The row of a source and one who reports of it."""
    moment, blocks = clock_of(session).moment, pair.blocks
    loss = loss_of(session, pair)
    worst = max(blocks, key=lambda block: block.fraction)
    greatest = f"{worst.percent:.1f} % at {moment(worst.moment, 0)}" if worst.fraction else "0 %"
    return [Cell(party(session, pair.source)), Cell(party(session, pair.reporter)),
            Cell(per_cent(loss.percent) if loss else "", True),
            Cell(number(loss.lost if loss else blocks[-1].lost), True),
            Cell(number(loss.expected) if loss else "", True), Cell(greatest),
            Cell(jitter_in_words(session, pair)), Cell(trips_in_words(session, pair)),
            Cell(number(len(blocks)), True), Cell(moment(blocks[0].moment, 0)), Cell(moment(blocks[-1].moment, 0))]


def loss_of(session: Session, pair: Pair) -> Loss | None:
    """What the reporter missed in all."""
    source = session.heard.get(pair.source)
    return pair.loss(source.stream if source else None)


def jitter_in_words(session: Session, pair: Pair) -> str:
    """The mean and the greatest jitter, in milliseconds where the clock is known."""
    values, times = [block.jitter for block in pair.blocks], jitters_told(session, pair)
    if not times:
        return f"{number(sum(values) / len(values), 1)}, at most {number(max(values))} units"
    return f"{sum(times) / len(times):,.2f}, at most {max(times):,.2f} ms"


def trips_in_words(session: Session, pair: Pair) -> str:
    """The mean and the greatest round trip; empty if none can be told."""
    trips = session.reported.trips(pair, session.own)
    some = [trip for trip in trips if trip.is_whole] or trips
    if not some:
        return ""
    times = [1000 * trip.time for trip in some]
    least = "" if some[0].is_whole else "at least "
    return f"{least}{sum(times) / len(times):,.1f}, at most {max(times):,.1f}"


# The plots


def pictures(session: Session, pairs: list[Pair]) -> str:
    """The plots of the first pairs, and their numbers."""
    some = pairs[:DRAWN]
    which = f"the {DRAWN} first of {number(len(pairs))} rows" if len(pairs) > DRAWN else plural(len(pairs), "row")
    lossy = [pair for pair in some if any(block.fraction for block in pair.blocks)]
    plots = ""
    if lossy:
        plots += subsection(f"Fraction lost, as reported: {which}", ("area", RED, "lost, from block to block"))
        plots += losses_figure(session, "fraction lost", [fractions(session, pair) for pair in lossy])
    if jitters := [series for series in (jitter_of(session, pair) for pair in some) if series.points]:
        plots += subsection(f"Jitter, as reported: {which}", ("dot", GREEN, "of a block"))
        plots += figure(session, "jitter", "ms", jitters, GREEN)
    if trips := [series for series in (trips_of(session, pair) for pair in some) if series.points]:
        plots += subsection(f"Round trips: {which}", ("dot", PURPLE, "by a block that answers a sender report"))
        plots += figure(session, "round trip", "ms", trips, PURPLE)
    return plots + table_of_blocks(session, some)


def plain(session: Session, pair: Pair) -> str:
    """Who reports of whom, as a text for a plot."""
    return f"{plain_name(session, pair.source)} by {plain_name(session, pair.reporter)}"


def fractions(session: Session, pair: Pair) -> Series:
    moment = clock_of(session).moment
    source = session.heard.get(pair.source)
    stream = source.stream if source else None
    start = stream.first if stream and stream.came and stream.first < pair.blocks[0].moment else pair.blocks[0].moment
    return Series(plain(session, pair), [
        (block.moment, block.percent, f"{block.percent:.1f} % lost since the block before, {number(block.lost)} in "
                                      f"all, reported at {moment(block.moment)}") for block in pair.blocks], start)


def jitter_of(session: Session, pair: Pair) -> Series:
    moment = clock_of(session).moment
    points = [(block.moment, time, f"jitter {number(time)} ms reported at {moment(block.moment)}")
              for block, time in zip(pair.blocks, jitters_told(session, pair))]
    return Series(plain(session, pair), points)


def trips_of(session: Session, pair: Pair) -> Series:
    moment = clock_of(session).moment
    return Series(plain(session, pair), [
        (trip.moment, 1000 * trip.time, f"round trip {in_words(trip)} ms, by a block at {moment(trip.moment)}")
        for trip in session.reported.trips(pair, session.own)])


def in_words(trip: Trip) -> str:
    return f"{'' if trip.is_whole else 'at least '}{number(1000 * trip.time, 2)}"


def table_of_blocks(session: Session, pairs: list[Pair]) -> str:
    """The blocks of the pairs that are drawn, one by one."""
    blocks = [(pair, block) for pair in pairs for block in pair.blocks]
    trips = {(pair.reporter, pair.source, trip.moment): trip for pair in pairs
             for trip in session.reported.trips(pair, session.own)}
    rows = [cells_of(session, pair, block, trips.get((pair.reporter, pair.source, block.moment)))
            for pair, block in blocks[:MOST_BLOCKS]]
    left_out = len(blocks) - MOST_BLOCKS
    note = f"; {number(left_out)} more are left out here, and stand in --csv" if left_out > 0 else ""
    return numbers("The numbers of these plots, block by block", NUMBERS, rows, note)


def cells_of(session: Session, pair: Pair, block: Block, trip: Trip | None) -> list[str]:
    rate = rate_of(session, pair.source, block.moment)
    jitter = f"{1000 * block.jitter / rate:,.2f} ms" if rate else f"{number(block.jitter)} units"
    when = clock_of(session).moment(block.moment)
    return [f"<code>{pair.source:08x}</code> <code>{pair.reporter:08x}</code> {when}",
            f"{block.percent:.1f}", number(block.lost), number(block.highest), jitter,
            f"{'' if trip.is_whole else 'at least '}{1000 * trip.time:,.2f} ms" if trip else ""]
