"""The plots of a session."""
from __future__ import annotations

from collections import defaultdict
from collections.abc import Iterable
from dataclasses import dataclass

from reporting.clock import Clock, seconds
from reporting.session import DISMISSED, JOINED, SAID_BYE, TIMED_OUT, Compound, Heard, Report, Session
from reporting.svg import BLUE, FAINT, GREEN, ORANGE, PURPLE, RED, Panel, Plot, Point, drawn, number, plural, ticks

from participant import HEADERS, SECOND

MOST_FAULTS = 8  # lanes of refused datagrams, the last one for all the other faults
LEAST_TIME = SECOND  # on the axis, however short the session is
HEIGHT = 150  # of a panel
TOPS = (2, 4, 8, 10, 20, 40, 60, 80, 100)  # of a scale in per cent, each with four steps
WINDOWS = (5, 10, 15, 30, 60, 120, 300, 600, 1800, 3600)  # seconds over which octets are counted
MOST_WINDOWS = 120
LEAST_SPACING = 5 / 2 / 1.21828  # seconds between two reports of a peer that keeps to RFC 3550, after the first two
LOOKS = {"SR": "up", "RR": "dot", "BYE": "square", "APP": "diamond", "other": "plus"}  # by the kind of a compound
KIND_NAMES = {"SR": "sender report", "RR": "receiver report", "BYE": "with BYE", "APP": "with APP",
              "other": "with packets of other types"}


def clock_of(session: Session) -> Clock:
    return Clock.of_ntp(session.options["ntp"])


def picture(session: Session, label: str, draw) -> str:
    """A plot over the time of the session, for wide and for narrow windows."""
    return drawn(label, clock_of(session), max(session.end, LEAST_TIME), draw)


def upper(values: list[float], least: float) -> float:
    """The end of a scale that has room for these values."""
    high = max([*values, least]) * 1.04
    step = ticks(0, high, 4)[1]
    return step * -(-high // step)


def top_of(percents: Iterable[float]) -> int:
    """The end of a scale in per cent that has room for these values."""
    most = max(percents)
    return next((top for top in TOPS if top >= most), 100)


def fault_of(reason: str) -> str:
    """A refusal without the offset in the datagram: such as `E5 F1 Short`, `E6 G3 PayloadType`, `E7 OwnSsrc`."""
    number_and_name, _, fault = reason.partition(": ")
    return f"{number_and_name.split(' ')[0]} {fault.partition(' at ')[0]}" if fault else number_and_name


def line(panel: Panel, data: str, colour: str, more: str = "") -> None:
    panel.plot.path(data, f'fill="none" stroke="{colour}" stroke-width="2" {more}')


# Loss


def loss_panel(plot: Plot, title: str, fractions: list[Point], start: int, top: int) -> None:
    """The part that was lost, in per cent, of the packets expected between two blocks: steps from block to block."""
    panel = plot.panel(HEIGHT, top, title)
    panel.scale([top * quarter / 4 for quarter in range(5)], " %")
    moments = [start, *(moment for moment, _, _ in fractions)]
    steps = [(begins, value) for begins, (_, value, _) in zip(moments, fractions)]
    panel.area(steps, moments[-1], RED)
    line(panel, panel.steps(steps, moments[-1]), RED)
    panel.marks(fractions, "dot", RED, " %")


def loss_of(session: Session, source: Heard) -> list[Point]:
    """The fraction lost of each block about a source."""
    clock, points = clock_of(session), []
    for reception in source.receptions:
        percent = 100 * reception.fraction / 256
        points.append((reception.moment, percent,
                       f"{number(reception.lost)} lost in all, {percent:.1f} % since the previous block, "
                       f"{clock.moment(reception.moment)}"))
    return points


def loss_of_all(session: Session) -> list[Point]:
    """The part lost of the packets of all sources that a report has blocks about."""
    sums: dict[int, list[int]] = {}
    for source in session.heard.values():
        add_receptions(sums, source)
    clock, points = clock_of(session), []
    for moment, (expected, missing) in sorted(sums.items()):
        percent = 100 * max(0, missing) / expected if expected > 0 else 0.0
        points.append((moment, percent, f"{number(missing)} of {plural(expected, 'packet')} lost, {percent:.1f} %, "
                                        f"{clock.moment(moment)}"))
    return points


def add_receptions(sums: dict[int, list[int]], source: Heard) -> None:
    """Adds what was expected of a source and what did not come of it, by the moments of the blocks."""
    for reception in source.receptions:
        before = sums.get(reception.moment, (0, 0))
        sums[reception.moment] = [before[0] + reception.expected, before[1] + reception.missing]


def loss_plot(session: Session, sources: list[Heard]) -> str:
    """Loss of all sources together, if there are several, and of each of these."""
    reported = [source for source in session.heard.values() if source.receptions]
    panels = [(f"{source.ssrc:08x}, fraction lost, %", loss_of(session, source), source.first) for source in sources]
    if len(reported) > 1:
        begins = min(source.first for source in reported)
        panels.insert(0, ("all sources, lost of the packets expected, %", loss_of_all(session), begins))
    top = top_of(value for _, points, _ in panels for _, value, _ in points)

    def draw(plot: Plot) -> None:
        for panel in panels:
            loss_panel(plot, *panel, top)

    return picture(session, "The part of the RTP packets that was lost, in per cent", draw)


# Members


def members_plot(session: Session) -> str:
    """Members and senders until the leave, and below them who joined and left."""
    clock = clock_of(session)

    def draw(plot: Plot) -> None:
        panel = plot.panel(HEIGHT, upper([count[1] for count in session.counts], 3), "members, senders").scaled(4)
        members_lines(session, panel)
        looks = {JOINED: ("up", GREEN), SAID_BYE: ("down", ORANGE), TIMED_OUT: ("cross", RED),
                 DISMISSED: ("down", PURPLE)}
        for what, look in looks.items():
            marks = [(moment, f"{ssrc:08x} {what} at {clock.moment(moment)}")
                     for moment, ssrc, kind in session.changes if kind == what]
            if marks or what != DISMISSED:
                plot.lane(what, marks, *look)
        if session.goodbyes:
            marks = [(moment, f"{plural(count, 'BYE')} in the backoff at {clock.moment(moment)}")
                     for moment, count in session.goodbyes]
            plot.lane("BYE in the backoff", marks, "down", ORANGE, session.said_goodbye)
        if taken := session.identifiers[1:]:
            marks = [(moment, f"this participant became {ssrc:08x} at {clock.moment(moment)}")
                     for moment, ssrc in taken]
            plot.lane("SSRC changed", marks, "diamond", PURPLE)

    return picture(session, "Members and senders over time", draw)


def members_lines(session: Session, panel: Panel) -> None:
    """The counts, which end with the leave: after it there are no members to count."""
    until = session.end if session.leave is None else session.leave
    members = [(moment, members) for moment, members, _ in session.counts]
    senders = [(moment, senders) for moment, _, senders in session.counts]
    shade_leaving(session, panel)
    line(panel, panel.steps(members, until), BLUE)
    line(panel, panel.steps(senders, until), ORANGE)
    panel.name_right([(members[-1][1], plural(members[-1][1], "member"), BLUE),
                      (senders[-1][1], plural(senders[-1][1], "sender"), ORANGE)])


def shade_leaving(session: Session, panel: Panel) -> None:
    """Marks the time from the leave on."""
    if session.leave is None:
        return
    plot, x, end = panel.plot, panel.plot.x(session.leave), panel.plot.right
    if end - x > 1:
        plot.parts.append(f'<rect x="{x:.1f}" y="{panel.top:.1f}" width="{end - x:.1f}" height="{panel.height:.1f}" '
                          f'fill="{PURPLE}" fill-opacity="0.13"/>')
    plot.line(x, panel.top, x, panel.top + panel.height, PURPLE, 'stroke-width="1.5"')
    is_left = x < plot.left + plot.inside / 2
    plot.text(x + 4 if is_left else x - 4, panel.top + 13, "leave", "start" if is_left else "end", PURPLE)


# RTCP


def rates_plot(session: Session) -> str:
    """The octets a second of RTCP, in all and of senders and others, against their shares of the bandwidth."""
    window, end = window_of(session), max(session.end, LEAST_TIME)
    parts = [(who, rates(session, compounds, window), shares) for who, compounds, shares in parts_of(session)]
    high = upper([value for _, points, shares in parts for _, value in points + shares], 20)

    def draw(plot: Plot) -> None:
        for who, points, shares in parts:
            title = f"{who}, octets a second over {number(window // SECOND)} s"
            rate_panel(plot.panel(HEIGHT * 2 / 3, high, title).scaled(4), points, shares, end)

    return picture(session, "Octets a second of RTCP over time, and its shares of the bandwidth", draw)


def parts_of(session: Session) -> list[tuple[str, list[Compound], list[tuple[int, float]]]]:
    """All compounds, those of senders and those of others, each with the moments and the sizes of their share."""
    compounds, shares = session.came + session.handed_out, shares_of(session)
    return [("all", compounds, [(moment, senders + others) for moment, senders, others in shares]),
            ("senders", [compound for compound in compounds if compound.is_sender],
             [(moment, senders) for moment, senders, _ in shares]),
            ("others", [compound for compound in compounds if not compound.is_sender],
             [(moment, others) for moment, _, others in shares])]


def shares_of(session: Session) -> list[tuple[int, float, float]]:
    """From which moment on senders and others may take which octets a second (RFC 3550, 6.3.1): each their share; or
    all members alike, where the senders are a greater part of them than of the bandwidth."""
    changes = [(moment, "shares", values) for moment, *values in session.shares]
    changes += [(moment, "counts", values) for moment, *values in session.counts]
    latest, found = {"shares": session.shares[0][1:], "counts": session.counts[0][1:]}, {}
    for moment, what, values in sorted(changes, key=lambda change: change[0]):
        latest[what] = values
        found[moment] = divided(*latest["shares"], *latest["counts"])
    return [(moment, *both) for moment, both in found.items()]


def divided(senders_share: int, others_share: int, members: int, senders: int) -> tuple[float, float]:
    """What senders and others may take, of shares that are for so many members and senders."""
    whole = senders_share + others_share
    if senders * whole > members * senders_share:
        return whole * senders / members, whole * (members - senders) / members
    return senders_share, others_share


def rates_in_words(session: Session) -> str:
    """The average and the greatest rates."""
    window, words = window_of(session), []
    for who, compounds, shares in parts_of(session):
        octets = sum(compound.size + HEADERS for compound in compounds)
        most = max(rate for _, rate in rates(session, compounds, window))
        words.append(f"{who}: {number(octets * SECOND / max(session.end, LEAST_TIME), 1)} on the average, at most "
                     f"{number(most, 1)}, share {number(shares[-1][1], 1)}")
    return f"Octets a second, over {number(window // SECOND)} seconds each: {'; '.join(words)}."


def window_of(session: Session) -> int:
    """The time over which octets are counted."""
    return next((window for window in WINDOWS if session.end <= window * SECOND * MOST_WINDOWS),
                -(-session.end // SECOND // MOST_WINDOWS)) * SECOND


def rates(session: Session, compounds: list[Compound], window: int) -> list[tuple[int, float]]:
    """The octets a second of each window, with the headers of UDP and IP. The last window ends with the
    session."""
    count = max(1, round(session.end / window))
    sums = [0] * count
    for compound in compounds:
        sums[min(compound.moment // window, count - 1)] += compound.size + HEADERS
    lengths = [window] * (count - 1) + [max(session.end - (count - 1) * window, LEAST_TIME)]
    return [(number * window, octets * SECOND / length) for number, (octets, length) in enumerate(zip(sums, lengths))]


def rate_panel(panel: Panel, points: list[tuple[int, float]], shares: list[tuple[int, float]], end: int) -> None:
    panel.area(points, end, BLUE)
    line(panel, panel.steps(points, end), BLUE)
    line(panel, panel.steps(shares, end), RED, 'stroke-dasharray="6 4"')
    panel.name_right([(shares[-1][1], f"share: {number(shares[-1][1], 1)}", RED)])


def compounds_plot(session: Session) -> str:
    """The sizes of compounds in and out by kind, and below them what was refused."""
    def draw(plot: Plot) -> None:
        sizes = [compound.size for compound in session.came + session.handed_out]
        high = upper(sizes, 80)
        for title, colour, compounds in (("in: octets of a compound", BLUE, session.came),
                                         ("out: octets of a compound", ORANGE, session.handed_out)):
            if compounds:
                sizes_panel(session, plot, plot.panel(HEIGHT * 2 / 3, high, title).scaled(4), compounds, colour)
        for fault, marks in refused_by_fault(session).items():
            plot.lane(fault, marks, "cross", RED)

    return picture(session, "Sizes of compounds over time, and refused datagrams", draw)


def sizes_panel(session: Session, plot: Plot, panel: Panel, compounds: list[Compound], colour: str) -> None:
    """Marks by size and kind; or, where they would cover each other, sizes alone and a lane for each kind."""
    if plot.is_full(len(compounds)):
        panel.marks(sizes_of(session, compounds), "dot", colour, " octets")
        kind_lanes(session, plot, compounds, colour)
    else:
        kind_marks(session, panel, compounds, colour)


def sizes_of(session: Session, compounds: list[Compound]) -> list[Point]:
    clock = clock_of(session)
    return [(compound.moment, compound.size, f"{compound.kind} {'out' if compound.is_out else 'in'}: "
                                             f"{compound.size} octets at {clock.moment(compound.moment)}")
            for compound in compounds]


def kinds_of(compounds: list[Compound]) -> list[str]:
    """The kinds of compounds that there are."""
    return [kind for kind in LOOKS if any(compound.look == kind for compound in compounds)]


def kind_marks(session: Session, panel: Panel, compounds: list[Compound], colour: str) -> None:
    """A mark for each compound, by its kind."""
    for kind in kinds_of(compounds):
        some = [compound for compound in compounds if compound.look == kind]
        panel.marks(sizes_of(session, some), LOOKS[kind], colour)


def kind_lanes(session: Session, plot: Plot, compounds: list[Compound], colour: str) -> None:
    """A lane for each kind of compound: where marks would cover each other."""
    for kind in kinds_of(compounds):
        some = [compound for compound in compounds if compound.look == kind]
        name = f"{'with ' if kind in ('APP', 'other') else ''}{kind} {'out' if some[0].is_out else 'in'}"
        plot.lane(name, [(moment, title) for moment, _, title in sizes_of(session, some)], LOOKS[kind], colour)


def refused_by_fault(session: Session) -> dict[str, list[tuple[int, str]]]:
    """Marks of refused datagrams, the commonest faults first."""
    lanes, clock = defaultdict(list), clock_of(session)
    for refused in session.refused:
        if refused.is_datagram and refused.moment <= session.end:
            lanes[fault_of(refused.reason)].append(
                (refused.moment, f"{refused.call.upper()} refused at {clock.moment(refused.moment)}: {refused.reason}"))
    common = sorted(lanes.items(), key=lambda lane: -len(lane[1]))
    if len(common) > MOST_FAULTS:
        others = [mark for _, marks in common[MOST_FAULTS - 1:] for mark in marks]
        common[MOST_FAULTS - 1:] = [("other faults", others)]
    return dict(common)


# Intervals


def intervals_plot(session: Session) -> str:
    """The time before each report, with the computed interval and what no report may fall short of."""
    reports, clock = session.reports, clock_of(session)
    points = [(report.moment, report.since / 1e6,
               f"report at {clock.moment(report.moment)}, {seconds(report.since)} after the previous one; "
               f"computed: {seconds(report.computed)}, least: {seconds(report.least)}") for report in reports]

    def draw(plot: Plot) -> None:
        values = [max(report.since, report.computed) / 1e6 for report in reports]
        panel = plot.panel(HEIGHT, upper(values, 6), "seconds before a report").scaled(4)
        least = spans(reports, [report.least / 1e6 for report in reports])
        panel.area(least, reports[-1].moment, RED)
        line(panel, panel.steps(least, reports[-1].moment), RED, 'stroke-dasharray="6 4"')
        computed = spans(reports, [report.computed / 1e6 for report in reports])
        line(panel, panel.steps(computed, reports[-1].moment), FAINT)
        panel.name_right([(computed[-1][1], "computed", FAINT), (least[-1][1], "least", RED)])
        panel.marks(points, "dot", BLUE, " s")

    return picture(session, "The time before each report, and the interval computed", draw)


def spans(reports: list[Report], values: list[float]) -> list[tuple[int, float]]:
    """Values that each hold from the previous report to their own."""
    return [(report.moment - report.since, value) for report, value in zip(reports, values)]


# One source


@dataclass(frozen=True)
class Scales:
    """The ends of the scales of the plots of some sources: the same for all of them."""

    jitter: float
    trip: float
    least_trip: float  # clocks that differ or a wrong DLSR can make a round trip negative
    spacing: float


def scales_of(sources: list[Heard]) -> Scales:
    """Those that have room for all values of these sources."""
    trips = [1000 * trip for source in sources for _, trip in source.round_trips]
    return Scales(upper([reception.milliseconds for source in sources for reception in source.receptions], 1),
                  upper(trips, 1), 1.1 * min(0.0, *trips, 0.0),
                  upper([(after - before) / 1e6 for source in sources
                         for before, after in zip(source.reports, source.reports[1:])], 6))


def has_plot(source: Heard) -> bool:
    return bool(source.receptions or source.round_trips or len(source.reports) > 1)


def source_plot(session: Session, source: Heard, scales: Scales) -> str:
    """Jitter, round trips and the spacing of reports of a source, as far as there are any."""
    def draw(plot: Plot) -> None:
        if source.receptions:
            jitter_panel(session, plot.panel(HEIGHT * 2 / 3, scales.jitter, "jitter, ms").scaled(4), source)
        if source.round_trips:
            panel = plot.panel(HEIGHT * 2 / 3, scales.trip, "round trip, ms", scales.least_trip).scaled(4)
            trips = [(moment, 1000 * trip) for moment, trip in source.round_trips]
            panel.marks(titled(session, "round trip", trips), "dot", PURPLE, " ms")
        if len(source.reports) > 1:
            spacing_panel(session, plot.panel(HEIGHT * 2 / 3, scales.spacing, "seconds between its reports").scaled(4),
                          source)

    return picture(session, f"What is known of {source.ssrc:08x}, over time", draw)


def jitter_panel(session: Session, panel: Panel, source: Heard) -> None:
    points = [(reception.moment, reception.milliseconds) for reception in source.receptions]
    if not panel.plot.is_full(len(points)):
        line(panel, panel.joined(points), GREEN, 'stroke-opacity="0.5"')
    panel.marks(titled(session, "jitter", points), "dot", GREEN, " ms")


def titled(session: Session, name: str, points: list[tuple[int, float]]) -> list[Point]:
    """Values in milliseconds, with what a browser shows of each."""
    clock = clock_of(session)
    return [(moment, value, f"{name} {number(value)} ms at {clock.moment(moment)}") for moment, value in points]


def spacing_panel(session: Session, panel: Panel, source: Heard) -> None:
    """The time between two successive compounds that begin with a report of the source."""
    clock, plot = clock_of(session), panel.plot
    points = [(after, (after - before) / 1e6,
               f"{source.ssrc:08x} reported at {clock.moment(after)}, {seconds(after - before)} after its previous "
               "report")
              for before, after in zip(source.reports, source.reports[1:])]
    y = panel.y(LEAST_SPACING)
    plot.line(plot.left, y, plot.right, y, RED, 'stroke-width="1.5" stroke-dasharray="6 4"')
    panel.name_right([(LEAST_SPACING, "2.05 s", RED)])
    panel.marks(points, "dot", BLUE, " s")
