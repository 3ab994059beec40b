"""What the RTP packets say themselves: what was lost, in which second and how many in a row, what came late or again,
how much came, and of which payload types."""
from __future__ import annotations

from reporting.headline import MOST_STREAMS, per_cent
from reporting.names import party, plain_name
from reporting.plots import LEAST_TIME, WINDOWS, clock_of
from reporting.series import Series, figure, losses_figure, numbers
from reporting.session import Session
from reporting.stream import SECOND, Part, Stream, by_parts
from reporting.svg import BLUE, GREEN, RED, Point, number, plural
from reporting.verdict import Verdict, has_jitter
from reporting.words import Cell, box, section, subsection, table

MOST_ROWS = 12  # without scrolling
DRAWN = 6  # streams with plots of their own
MOST_PARTS = 40  # of the time, in the table of numbers
LEAST_PART = 0.3  # of a part, in which packets could come, for a bit rate that is drawn
TITLES = ("stream", "came", "expected", "lost", "lost, %", "late", "again", "losses in a row", "longest silence",
          "jitter, ms", "at most, ms", "packets a second", "kbit/s", "payload types")
NUMBERS = ["stream, from", "came", "lost", "lost, %", "again", "jitter, ms", "at most, ms", "packets a second",
           "kbit/s"]


WORDS = ("What the RTP packets that came here say themselves, the worst stream first. Expected are the numbers from "
         "the first to the greatest one, so what came is what was expected, less what was lost, plus what came again. "
         "Late are packets that came after one with a greater number. The jitter is that of RFC 3550, A.8, after each "
         "packet; kbit/s count the octets of RTP, without headers of UDP and IP.")


def media(session: Session, verdicts: list[Verdict]) -> str:
    """The section: a row for each stream, and the plots of the worst ones."""
    some = [verdict for verdict in verdicts if verdict.stream]
    if not some:
        return section("From the packets", "No RTP packet came.")
    rows = [cells_of_row(session, verdict) for verdict in some[:MOST_STREAMS]]
    more = f", the worst {MOST_STREAMS} here" if len(some) > MOST_STREAMS else ""
    return (section("From the packets", WORDS)
            + box("Streams, from the packets", table(TITLES, rows), plural(len(some), "stream") + more,
                  is_tall=len(some) > MOST_ROWS)
            + pictures(session, some[:DRAWN], len(some)))


def cells_of_row(session: Session, verdict: Verdict) -> list[Cell]:
    stream = verdict.stream
    time = max(stream.last - stream.first, 1) / SECOND
    strays = f" and {number(stream.strays)} of no run" if stream.strays else ""
    jitters = (stream.mean_jitter, stream.most_jitter) if has_jitter(session, stream) else ()
    rates = ((stream.came - 1) / time, 8 * stream.octets / time / 1000) if stream.came > 1 else ()
    return [Cell(party(session, verdict.ssrc)),
            *(Cell(number(count), True) for count in (stream.came, stream.expected, stream.lost)),
            Cell(per_cent(stream.loss.percent), True), Cell(number(stream.late), True),
            Cell(number(stream.repeated) + strays, True), Cell(in_a_row(session, stream)),
            Cell(silence_of(session, stream)),
            *([Cell(f"{jitter:,.2f}", True) for jitter in jitters] or [Cell("", True)] * 2),
            *([Cell(f"{rate:,.1f}", True) for rate in rates] or [Cell("", True)] * 2), Cell(kinds(session, stream))]


def in_a_row(session: Session, stream: Stream) -> str:
    """The losses one after the other: how often, and where most were lost."""
    if not stream.gaps:
        return ""
    most = max(stream.gaps, key=lambda gap: gap.size)
    when = clock_of(session).moment(most.moment, 0)
    return f"{plural(len(stream.gaps), 'time')}, at most {number(most.size)} at {when}"


def silence_of(session: Session, stream: Stream) -> str:
    when = clock_of(session).moment(stream.gap_from, 0)
    return f"{stream.gap / SECOND:,.2f} s from {when} on" if stream.gap else ""


def kinds(session: Session, stream: Stream) -> str:
    """The payload types that came, with their clocks."""
    return "; ".join(f"{kind} ({'clock not known' if kind in session.guessed else f'{number(rate)} Hz'}): "
                     f"{plural(count, 'packet')}"
                     for kind, (count, rate) in sorted(stream.kinds.items(), key=lambda kind: -kind[1][0]))


def plain(session: Session, verdict: Verdict) -> str:
    """A stream's name, as a text for a plot."""
    name, ssrc = plain_name(session, verdict.ssrc), f"{verdict.ssrc:08x}"
    return ssrc if name == ssrc else f"{name} {ssrc}"


# The plots


def pictures(session: Session, verdicts: list[Verdict], count: int) -> str:
    """The plots of these streams, of so many, and their numbers."""
    which = f"the {number(len(verdicts))} worst of {plural(count, 'stream')}" if count > len(verdicts) else plural(
        count, "stream")
    size = part_size(session)
    parts = {verdict.ssrc: by_parts(verdict.stream, size) for verdict in verdicts}
    lossy = [verdict for verdict in verdicts if verdict.stream.lost]
    plots = ""
    if lossy:
        plots += subsection(f"Lost in each second: {which}", ("area", RED, "lost, of those expected in a second"))
        plots += losses_figure(session, "lost in each second", [losses_of(session, verdict) for verdict in lossy])
    jitters = [jitters_of(session, verdict, parts[verdict.ssrc]) for verdict in verdicts
               if has_jitter(session, verdict.stream)]
    if jitters:
        plots += subsection(f"Jitter: {which}", ("dot", GREEN, f"on the average of {size} s"))
        plots += figure(session, "jitter", "ms", jitters, GREEN)
    plots += subsection(f"Bit rate: {which}", ("dot", BLUE, f"on the average of {size} s"))
    plots += figure(session, "bit rate", "kbit/s", [rates_of(session, verdict, parts[verdict.ssrc], size)
                                                    for verdict in verdicts], BLUE)
    rows = [cells_of(session, verdict, part, size) for verdict in verdicts for part in parts[verdict.ssrc]]
    return plots + numbers(f"The numbers of these plots, by {size} seconds", NUMBERS, rows)


def part_size(session: Session) -> int:
    """The seconds of a part of the time, of which there are not too many."""
    return next((size for size in WINDOWS if session.end <= size * SECOND * MOST_PARTS),
                -(-session.end // SECOND // MOST_PARTS))


def losses_of(session: Session, verdict: Verdict) -> Series:
    moment, end = clock_of(session).moment, max(session.end, LEAST_TIME)
    points: list[Point] = []
    for loss in verdict.stream.by_second():
        if points and loss.moment > points[-1][0]:  # seconds in which nothing came
            points.append((loss.moment, 0.0, ""))
        words = (f"{number(loss.lost)} of {plural(loss.expected, 'packet')} lost, {loss.percent:.1f} %, in the second "
                 f"from {moment(loss.moment, 0)} on")
        points.append((min(loss.moment + SECOND, end), loss.percent, words))
    return Series(plain(session, verdict), points, verdict.stream.first // SECOND * SECOND)


def jitters_of(session: Session, verdict: Verdict, parts: list[Part]) -> Series:
    moment = clock_of(session).moment
    return Series(plain(session, verdict), [
        (part.moment, part.jitter, f"jitter {number(part.jitter, 2)} ms, at most {number(part.most, 2)} ms, from "
                                   f"{moment(part.moment, 0)} on") for part in parts if part.came])


def rates_of(session: Session, verdict: Verdict, parts: list[Part], size: int) -> Series:
    moment = clock_of(session).moment
    long = [part for part in parts if length_of(verdict.stream, part, size) > size * LEAST_PART] or parts
    rates = [(part.moment, bit_rate(verdict.stream, part, size)) for part in long]
    return Series(plain(session, verdict), [
        (begins, rate, f"{rate:,.1f} kbit/s from {moment(begins, 0)} on") for begins, rate in rates])


def length_of(stream: Stream, part: Part, size: int) -> float:
    """The seconds of a part in which packets could come, at least one."""
    begin, end = max(part.moment, stream.first), min(part.moment + size * SECOND, stream.last)
    return max(end - begin, SECOND) / SECOND


def bit_rate(stream: Stream, part: Part, size: int) -> float:
    """In kbit/s."""
    return 8 * part.octets / length_of(stream, part, size) / 1000


def cells_of(session: Session, verdict: Verdict, part: Part, size: int) -> list[str]:
    when, stream = clock_of(session).moment(part.moment, 0), verdict.stream
    jitters = [f"{value:,.2f}" if has_jitter(session, stream) else "" for value in (part.jitter, part.most)]
    return [f"{party(session, verdict.ssrc)} {when}", number(part.came), number(part.lost), f"{part.percent:.1f}",
            number(part.again), *jitters,
            f"{part.came / length_of(stream, part, size):,.1f}", f"{bit_rate(stream, part, size):,.1f}"]
