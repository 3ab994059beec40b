"""The numbers of the plots of RTCP itself, as tables."""
from __future__ import annotations

from reporting.plots import clock_of, kinds_of, parts_of, rates, shares_of, window_of
from reporting.series import limited
from reporting.session import Session
from reporting.svg import number


def members_numbers(session: Session) -> str:
    """How many members and senders there were, from change to change."""
    moment = clock_of(session).moment
    return limited("The numbers of this plot", ["from", "members", "senders"],
                   [[moment(at), number(members), number(senders)] for at, members, senders in session.counts])


def rates_numbers(session: Session) -> str:
    """Octets a second, with the shares at the end of each window."""
    moment, window = clock_of(session).moment, window_of(session)
    columns = [rates(session, compounds, window) for _, compounds, _ in parts_of(session)]
    shares, at, rows = shares_of(session), 0, []
    for points in zip(*columns):
        while at + 1 < len(shares) and shares[at + 1][0] < points[0][0] + window:
            at += 1
        _, senders, others = shares[at]
        cells = [*(rate for _, rate in points), senders + others, senders, others]
        rows.append([moment(points[0][0], 0), *(number(cell, 1) for cell in cells)])
    titles = ["from", "all", "senders", "others", "share of all", "of senders", "of others"]
    return limited("The numbers of this plot, octets a second", titles, rows)


def compounds_numbers(session: Session) -> str:
    """The compounds in and out, in the order of their moments."""
    moment = clock_of(session).moment
    both = sorted([*session.came, *session.handed_out], key=lambda compound: compound.moment)
    rows = [[moment(compound.moment), "out" if compound.is_out else "in", compound.kind, number(compound.size)]
            for compound in both]
    return limited("The numbers of this plot", ["at", "way", "kind", "octets"], rows) if kinds_of(both) else ""


def intervals_numbers(session: Session) -> str:
    """The time before each report, with what was computed, and the least that could be drawn."""
    moment = clock_of(session).moment
    rows = [[moment(report.moment), *(f"{value / 1e6:,.3f}" for value in (report.since, report.computed, report.least))]
            for report in session.reports]
    return limited("The numbers of this plot, in seconds", ["at", "since the one before", "computed", "least"], rows)
