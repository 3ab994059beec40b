"""The sources of a session: what was lost of each, their table, and the plots of each."""
from __future__ import annotations

from dataclasses import dataclass

from reporting import plots
from reporting.plots import clock_of
from reporting.series import limited
from reporting.session import DISMISSED, JOINED, SAID_BYE, TIMED_OUT, Heard, Session
from reporting.svg import BLUE, GREEN, PURPLE, RED, number, plural, shown
from reporting.words import MANY, box, percent, section

PLOTTED = 10  # sources with a plot of their own
MOST_ROWS = 1500  # of the table of sources
LONGEST_NAME = 60  # characters of a CNAME that are shown


def name_of(octets: bytes | None) -> str:
    """A CNAME as the page shows it."""
    if octets is None:
        return "not known"
    text = octets.decode(errors="replace")
    return shown(text if len(text) <= LONGEST_NAME else text[:LONGEST_NAME] + "…")


def busiest(session: Session) -> list[Heard]:
    return sorted(session.heard.values(), key=lambda source: (-source.datagrams, source.ssrc))


# Loss


def losses(session: Session) -> str:
    """What was lost on the way here: as a plot where anything was."""
    expected, missing = session.loss
    if not expected:
        return section("Loss", "No RTP packet was counted, so nothing can be said of loss.")
    reported = [source for source in busiest(session) if source.receptions]
    lossy = [source for source in reported if any(reception.fraction for reception in source.receptions)]
    said = said_of_loss(session, expected, missing)
    if not lossy:
        return section("Loss", f"{said} {no_plot(reported)}")
    rest = len(reported) - len(lossy)
    some = f" Here are the {PLOTTED} busiest of {number(len(lossy))} sources with loss." if len(lossy) > PLOTTED else ""
    none = f" Blocks about {plural(rest, 'more source')} report no loss." if rest else ""
    both = "of all sources together, and of each" if len(reported) > 1 else "of the only source"
    words = (f"{said} The plot shows what was lost between two report blocks of this participant, of the packets then "
             f"expected: {both}.{some}{none}")
    heading = section("Loss", words, ("area", RED, "lost, from block to block"))
    return heading + plots.loss_plot(session, lossy[:PLOTTED])


def said_of_loss(session: Session, expected: int, missing: int) -> str:
    """The loss of all sources in words."""
    if not any(source.lost for source in session.heard.values()):
        return f"Nothing was lost: all of the {plural(expected, 'RTP packet')} expected came."
    worst = max(session.heard.values(), key=lambda source: (source.lost, source.ssrc))
    most = (f", most of <code>{worst.ssrc:08x}</code> ({number(worst.lost)})"
            if sum(source.lost != 0 for source in session.heard.values()) > 1 and worst.lost > 0 else "")
    twice = " Fewer than 0 are lost where packets came twice." if missing < 0 else ""
    return (f"Of {plural(expected, 'RTP packet')} expected {number(missing)} did not come"
            f"{percent(missing, expected, ': ')}{most}.{twice}")


def no_plot(reported: list[Heard]) -> str:
    """Why there is no plot of loss."""
    if not reported:
        return "This participant sent no report block, so there is no plot of loss over time."
    return "No report block of this participant has a loss, so there is no plot of loss over time."


# The table


@dataclass(frozen=True)
class Column:
    """A column of the table of sources."""

    title: str
    kind: str = "number"


COUNTED = ("Packets expected and lost are counted as in report blocks: without the packet that begins a run, and until "
           "the leave, if there was one.")
PACKETS, JITTER, TRIPS, PEERS = "packets", "jitter", "trips", "peers"  # columns where some source has such values
COLUMNS = [
    ("", Column("SSRC", "")), ("", Column("CNAME", "name")), (PACKETS, Column("RTP packets in")),
    (PACKETS, Column("expected")), (PACKETS, Column("lost")), (PACKETS, Column("lost, %")),
    (JITTER, Column("mean jitter, ms")), (JITTER, Column("greatest jitter, ms")), (TRIPS, Column("round trip, ms")),
    ("", Column("RTCP compounds in")), (PEERS, Column("from", "")), ("", Column("first heard")),
    ("", Column("last heard")), ("", Column("at the end", "end")),
]


def columns_of(session: Session, sources: list[Heard]) -> set[str]:
    """What some source has a value of."""
    values = {PACKETS: any(source.packets for source in sources),
              JITTER: any(source.receptions for source in sources),
              TRIPS: any(source.round_trips for source in sources),
              PEERS: any(session.endpoint(source.peer) for source in sources)}
    return {"", *(what for what, is_there in values.items() if is_there)}


def whose(session: Session) -> str:
    """Whose reports a session has."""
    return "a listener at the capture, which was never there" if session.is_captured else "this participant"


def table_of_sources(session: Session) -> str:
    sources = busiest(session)
    if not sources:
        return section("Sources", "No source was heard.")
    has = columns_of(session, sources)
    head = "".join(f'<th scope="col" class="{column.kind}">{column.title}</th>'
                   for what, column in COLUMNS if what in has)
    rows = "".join(row(session, source, has) for source in sources[:MOST_ROWS])
    left_out = len(sources) - MOST_ROWS
    more = f"<p>{plural(left_out, 'more source')}, from which less came, left out.</p>\n" if left_out > 0 else ""
    words = ["Every source that an accepted datagram named, the busiest first."]
    words += [COUNTED] if PACKETS in has else []
    words += [f"Jitter is that of the report blocks of {whose(session)}."] if JITTER in has else []
    words += ["A round trip is the latest one."] if TRIPS in has else []
    words += ["A dash: there is none."] if len(has) > 1 else []
    table = f'<table class="sources">\n<thead><tr>{head}</tr></thead>\n<tbody>\n{rows}</tbody></table>'
    return (section("Sources", " ".join(words))
            + box("Sources", table, plural(len(sources), "source"), is_tall=len(sources) > 12) + more)


def row(session: Session, source: Heard, has: set[str]) -> str:
    clock = clock_of(session)
    lost, jitter = ("–",) * 3, ("–",) * 2
    if source.expected:
        lost = number(source.expected), number(source.lost), number(100 * source.lost / source.expected, 2)
    if source.receptions:
        values = [reception.milliseconds for reception in source.receptions]
        jitter = f"{sum(values) / len(values):,.2f}", f"{max(values):,.2f}"
    trip = f"{1000 * source.round_trips[-1][1]:,.2f}" if source.round_trips else "–"
    cells = [f"<code>{source.ssrc:08x}</code>", name_of(source.cname), number(source.packets), *lost, *jitter, trip,
             number(source.compounds), session.endpoint(source.peer) or "–", clock.moment(source.first),
             clock.moment(source.last), fate(session, source)]
    columns = [f'<td class="{column.kind}">{cell}</td>' for (what, column), cell in zip(COLUMNS[1:], cells[1:])
               if what in has]
    return f'<tr><th scope="row">{cells[0]}</th>{"".join(columns)}</tr>\n'


def fate(session: Session, source: Heard) -> str:
    """How a source left, or that it is there."""
    when = clock_of(session).moment(source.since)
    if source.state == SAID_BYE:
        return f"BYE at {when}"
    if source.state in (TIMED_OUT, DISMISSED):
        return f"{source.state} at {when}"
    if source.state != JOINED:
        return "never a member"
    if source.goodbye is not None:
        return f"there at the leave, BYE at {clock_of(session).moment(source.goodbye)}"
    return "there" if session.leave is None else "there at the leave"


# One by one


def one_by_one(session: Session) -> str:
    """Jitter, round trips and the spacing of reports of the busiest sources."""
    some = [source for source in busiest(session) if plots.has_plot(source)]
    if not some:
        return section("Source by source", "No report of this participant has a block about a source, and no source "
                                           "reported twice.")
    which = f"the {PLOTTED} busiest of {number(len(some))}" if len(some) > PLOTTED else plural(len(some), "source")
    shown_ones = some[:PLOTTED]
    words, entries = what_is_shown(shown_ones)
    heading, scales = section(f"Source by source: {which}", words, *entries), plots.scales_of(shown_ones)
    return heading + "".join(source_section(session, source, scales) for source in shown_ones)


def what_is_shown(sources: list[Heard]) -> tuple[str, list[tuple[str, str, str]]]:
    """The words and the legend of the plots of these sources."""
    words, entries = [], []
    if any(source.receptions for source in sources):
        words.append("Jitter is that of the report blocks that this participant sent about the source.")
        entries.append(("dot", GREEN, "jitter"))
    if any(source.round_trips for source in sources):
        words.append("A round trip is computed from a block of the source about a sender report of this participant "
                     "(LSR and DLSR), when it came.")
        entries.append(("dot", PURPLE, "round trip"))
    if any(len(source.reports) > 1 for source in sources):
        words.append("The spacing is the time between two compounds here that begin with a report of the source. A "
                     "peer that keeps to RFC 3550, with its minimum of 5 seconds, sends reports at least 2.05 seconds "
                     "apart, the first two perhaps half of that; the network delays them by more or less.")
        entries += [("dot", BLUE, "time since its previous report"), ("dashes", RED, "2.05 seconds")]
    return " ".join([*words, MANY]), entries


def source_section(session: Session, source: Heard, scales: plots.Scales) -> str:
    name = f"{name_of(source.cname)} — " if source.cname is not None else ""
    return (f"<h3><code>{source.ssrc:08x}</code> {name}{plural(source.packets, 'RTP packet')}, "
            f"{plural(source.compounds, 'RTCP compound')}</h3>\n" + plots.source_plot(session, source, scales)
            + limited("When it reported, in seconds", ["at", "since its previous report"], spacings(session, source)))


def spacings(session: Session, source: Heard) -> list[list[str]]:
    """The time between each report of a source and the one before."""
    moment = clock_of(session).moment
    return [[moment(after), f"{(after - before) / 1e6:,.3f}"]
            for before, after in zip(source.reports, source.reports[1:])]
