"""The page of a session: one HTML file that needs nothing else."""
from __future__ import annotations

from collections import Counter

from reporting import plots
from reporting.clock import Clock, duration_text
from reporting.folded import compounds_numbers, intervals_numbers, members_numbers, rates_numbers
from reporting.headline import headline, sentence
from reporting.limits import Limits
from reporting.media import media
from reporting.names import cname_of
from reporting.parties import parties
from reporting.plots import KIND_NAMES, LOOKS, clock_of, fault_of, rates_in_words
from reporting.session import DISMISSED, Compound, Session
from reporting.sources import name_of, one_by_one, losses, table_of_sources
from reporting.style import STYLE
from reporting.svg import BLUE, FAINT, GREEN, ORANGE, PURPLE, RED, number, plural, shown
from reporting.verdict import WORDS, Verdict, verdicts
from reporting.words import MANY, MEANINGS, box, percent, section

from participant import HEADERS, SECOND

MOST_PEERS = 4  # that the head names
MOST_CALLS = 20  # of a capture that have a section


def page(session: Session, limits: Limits = Limits()) -> str:
    """That of one session."""
    found = verdicts(session, limits)
    body = f"<h1>{heading(session, found)}</h1>\n" + contents(session, found, limits)
    return document(title_of(session, found), body)


def page_of_calls(sessions: list[Session], limits: Limits) -> str:
    """That of several calls: an index, the worst call first, and then each call as a page of its own would be."""
    calls = [(session, verdicts(session, limits)) for session in sessions]
    calls.sort(key=lambda call: call[1][0].rank if call[1] else (len(WORDS),))
    sections = "".join(f'<section id="call-{at}">\n<h1 class="call">Call {at}: {parties_of(session, found)}</h1>\n'
                       + contents(session, found, limits) + "</section>\n"
                       for at, (session, found) in enumerate(calls[:MOST_CALLS], 1))
    return document(f"{number(len(calls))} calls of a capture", index(calls) + sections)


def document(title: str, body: str) -> str:
    """A page with this title and body, both HTML."""
    return (f'<!DOCTYPE html>\n<html lang="en"><head><meta charset="utf-8">'
            f'<meta name="viewport" content="width=device-width, initial-scale=1"><title>{title}</title>'
            f"<style>{STYLE}</style></head>\n<body>\n{body}</body></html>\n")


def contents(session: Session, found: list[Verdict], limits: Limits) -> str:
    """The verdict, what it rests on, and what only those want who look at RTCP itself."""
    return (about(session) + cut(session) + headline(session, found, limits) + parties(session, found)
            + media(session, found) + refusals(session) + table_of_sources(session) + plumbing(session))


def index(calls: list[tuple[Session, list[Verdict]]]) -> str:
    """A row for each call."""
    bad = sum(any(not verdict.is_good for verdict in found) for _, found in calls)
    words = f"{number(bad)} of {number(len(calls))} calls had a stream that was not good." if bad else (
        f"All {number(len(calls))} calls were good.")
    rows = "".join(index_row(at, *call) for at, call in enumerate(calls, 1))
    which = "the worst first" if len(calls) <= MOST_CALLS else (
        f"the worst {MOST_CALLS} below; --ssrc, --cname, --from and --to choose others")
    titles = ("call", "verdict", "between", "began", "lasted", "streams")
    head = "".join(f'<th scope="col">{title}</th>' for title in titles)
    table = f'<table class="calls">\n<thead><tr>{head}</tr></thead>\n<tbody>\n{rows}</tbody></table>'
    return (f'<h1>{number(len(calls))} calls of a capture</h1>\n<p class="verdict">{words}</p>\n'
            + box("Calls", table, f"{number(len(calls))} calls, {which}", is_tall=len(calls) > 12))


def index_row(at: int, session: Session, found: list[Verdict]) -> str:
    kind = "bad" if found and not found[0].is_good else "good"
    name = f'<a href="#call-{at}">call {at}</a>' if at <= MOST_CALLS else f"call {at}"
    return (f'<tr class="{kind}"><th scope="row">{name}</th>'
            f"<td>{sentence(session, found)}</td><td>{parties_of(session, found)}</td>"
            f"<td>{clock_of(session).date(0)} {clock_of(session).moment(0, 0)}</td>"
            f"<td>{duration_text(session.end)}</td><td>{number(len(found))}</td></tr>\n")


def parties_of(session: Session, found: list[Verdict]) -> str:
    """Who is in a call, by name or else by endpoint."""
    names = list(dict.fromkeys(name_of(cname_of(session, verdict.ssrc)) for verdict in found
                               if cname_of(session, verdict.ssrc) is not None))
    names = names or list(session.names.values())
    return " and ".join(names) if len(names) < 3 else f"{names[0]} and {number(len(names) - 1)} others"


def plumbing(session: Session) -> str:
    """How RTCP itself went. Of a capture it is what a listener there would have done."""
    words = ("<p>Nobody listened at the capture: this is what a participant there would have counted and sent.</p>\n"
             if session.is_captured else "")
    return ("<details>\n<summary>RTCP itself: members, bandwidth, compounds, intervals</summary>\n" + words
            + facts(session) + losses(session) + members(session) + rates(session) + compounds(session)
            + intervals(session) + one_by_one(session) + "</details>\n")


# The head


def heading(session: Session, found: list[Verdict]) -> str:
    """Whose call or session it is."""
    if session.is_captured:
        names = parties_of(session, found)
        return f"RTP call of {names}" if names else "RTP call"
    return f"RTCP session of {name_of(session.options['cname'])}"


def title_of(session: Session, found: list[Verdict]) -> str:
    """The title of a window: whose session it is, with whom, and when it began."""
    began = f", {clock_of(session).date(0)} {clock_of(session).moment(0, 0)} UTC" if session.options["ntp"] else ""
    if session.is_captured:
        return heading(session, found) + began
    return f"{heading(session, found)} ({session.options['ssrc']:08x}){with_whom(session)}{began}"


def with_whom(session: Session) -> str:
    """The peer, or how many there are; nothing where the record has no endpoints."""
    names = [name for name in map(session.endpoint, session.peers) if name]
    return "" if not names else f" with {names[0]}" if len(names) == 1 else f" with {len(names)} peers"


def about(session: Session) -> str:
    """The line below the heading."""
    clock, end = clock_of(session), session.end
    words = f"SSRC <code>{session.options['ssrc']:08x}</code>{with_whom(session)}"
    if session.is_captured:
        words = "A capture" + with_whom(session)
    if session.options["ntp"]:
        last = clock.date(end) if clock.date(end) != clock.date(0) else ""
        words += f"<br>{clock.date(0)}, {clock.moment(0, 0)} to {last} {clock.moment(end, 0)} UTC".replace("  ", " ")
    notes = "".join(f"<br>{shown(note)}" for note in session.notes)
    return f'<p class="about">{words}{notes}</p>\n'


def cut(session: Session) -> str:
    """What is missing of a record whose last line was not written to its end."""
    if not session.cut:
        return ""
    when = f"after {clock_of(session).moment(session.latest)}" if session.lines else "at its start"
    are = "is" if session.cut == 1 else "are"
    return (f'<p class="cut">The record was cut {when}: its last line, of which there {are} '
            f"{plural(session.cut, 'octet')} and no line feed, is left out. What came after that moment is not on this "
            "page.</p>\n")


def facts(session: Session) -> str:
    options, clock = session.options, clock_of(session)
    rows = [
        ("Duration", duration_text(session.end)),
        ("SSRC", "; ".join(f"<code>{ssrc:08x}</code> from {clock.moment(moment)} on"
                           for moment, ssrc in session.identifiers)),
        *peers(session),
        ("RTCP bandwidth", f"{number(session.bandwidth)} octets a second: {number(options['sender-bw'])} for senders, "
                           f"{number(options['receiver-bw'])} for the others"),
        ("Media clock", clocks(session)),
        *([("Other settings from", ", ".join(clock.moment(moment) for moment, *_ in session.shares[1:]))]
          if session.shares[1:] else []),
        *([("Time of day set", days_set(session))] if session.bases[1:] else []),
        ("Room for other sources", f"{number(options['capacity'])}; largest report {number(options['limit'])} octets"),
        ("Datagrams in", f"{datagrams(session, 'rtcp')}; {datagrams(session, 'rtp')}"),
        ("RTP lost", lost(session)),
        ("RTCP in", share(session, session.came)),
        ("RTCP out", share(session, session.handed_out)),
        ("Compounds in", kinds(session.came)),
        ("Compounds out", sent(session)),
        ("RTP out", f"{plural(session.packets_sent, 'packet')}, {plural(session.octets_sent, 'octet')} of payload"),
        ("Most at a time", most_at_a_time(session)),
        ("End", ending(session)),
    ]
    body = "".join(f'<tr><th scope="row">{title}</th><td>{words}</td></tr>\n' for title, words in rows)
    return f'<table class="facts">\n{body}</table>\n'


def clocks(session: Session) -> str:
    """The clocks of the payload types that came; otherwise that of those without a clock of their own, as the host gave
    it in turn."""
    rates = {kind: rate for source in session.heard.values() if source.stream
             for kind, (_, rate) in source.stream.kinds.items()}
    if not rates:
        (_, first), *others = session.rates
        later = [f"{number(rate)} from {clock_of(session).moment(moment)} on" for moment, rate in others]
        return "; ".join([f"{number(first)} units a second", *later])
    words = {kind: "not known" if kind in session.guessed else f"{number(rate)} units a second"
             for kind, rate in sorted(rates.items())}
    return "; ".join(f"{text} (payload type {kind})" for kind, text in words.items())


def days_set(session: Session) -> str:
    """When the host set the time of day, and to what. The moments of a page all go by the first one."""
    texts = []
    for moment, base in session.bases[1:]:
        day = Clock.of_ntp(base)
        to = f"{day.date(moment)} {day.moment(moment)} UTC" if base else "one that is not known"
        texts.append(f"at {clock_of(session).moment(moment)} to {to}")
    return "; ".join([*texts, "this page keeps to its first clock"])


def peers(session: Session) -> list[tuple[str, str]]:
    """The endpoints that RTCP came from."""
    names = [name for name in map(session.endpoint, session.peers) if name]
    more = f" and {len(names) - MOST_PEERS} more" if len(names) > MOST_PEERS else ""
    return [("RTCP came from", ", ".join(names[:MOST_PEERS]) + more)] if names else []


def datagrams(session: Session, kind: str) -> str:
    refused = sum(refused.call == kind for refused in session.refused)
    return f"{number(session.lines[kind.encode()])} of {kind.upper()}, {number(refused)} of them refused"


def lost(session: Session) -> str:
    """The packets of all sources that were expected and did not come."""
    expected, missing = session.loss
    return f"{number(missing)} of {plural(expected, 'packet')} expected{percent(missing, expected, ', ')}"


def share(session: Session, compounds: list[Compound]) -> str:
    """What compounds took of the bandwidth, with the headers that RFC 3550, 6.2, counts."""
    octets = sum(compound.size + HEADERS for compound in compounds)
    words = f"{plural(len(compounds), 'compound')}, {plural(octets, 'octet')} with {HEADERS} of headers each"
    if session.end < SECOND:
        return words
    rate = octets * 1e6 / session.end
    return f"{words}: {number(rate, 1)} octets a second, {number(100 * rate / session.bandwidth, 2)} % of the bandwidth"


def kinds(compounds: list[Compound]) -> str:
    """How many compounds there are of each kind. SR and RR have packets of no other type but SDES."""
    counts = Counter(compound.kind for compound in compounds)
    reports = f"{plural(counts['SR'], 'sender report')}, {plural(counts['RR'], 'receiver report')}"
    return ", ".join([reports, *(f"{number(counts[kind])} {KIND_NAMES[kind]}" for kind in ("BYE", "APP", "other"))])


def sent(session: Session) -> str:
    counts = Counter(compound.kind for compound in session.handed_out)
    reports = f"{plural(counts['SR'], 'sender report')}, {plural(counts['RR'], 'receiver report')}"
    return (f"{reports}, {plural(counts['BYE of a change'], 'BYE')} of a change of SSRC, "
            f"{plural(counts['BYE'], 'BYE')} of leaving")


def most_at_a_time(session: Session) -> str:
    return (f"{plural(max(members for _, members, _ in session.counts), 'member')}, "
            f"{plural(max(senders for _, _, senders in session.counts), 'sender')}, this participant included")


def ending(session: Session) -> str:
    _, members, senders = session.counts[-1]
    there = f"{plural(members, 'member')}, {plural(senders, 'sender')}, this participant included"
    if session.leave is None:
        return f"this participant did not leave; at the end: {there}"
    clock = clock_of(session)
    asked = f"this participant's host asked to leave at {clock.moment(session.leave)}"
    there = f"until then: {there}"
    if session.said_goodbye:
        there += f"; {plural(session.said_goodbye, 'BYE')} of others came in the backoff"
    if session.left is None:
        return f"{asked}; its BYE was not yet due; {there}"
    said = session.handed_out and session.handed_out[-1].kind == "BYE"
    return f"{asked}; it left at {clock.moment(session.left)}, {'with' if said else 'without'} a BYE; {there}"


def refusals(session: Session) -> str:
    """A row for each kind of call and fault, and from where the datagrams came."""
    if not session.refused:
        return ""
    names = {"rtcp": "RTCP datagram", "rtp": "RTP datagram", "sent": "RTP packet sent", "configure": "other settings",
             "forget": "source that is gone"}
    counts = Counter((fault_of(refused.reason), refused.call) for refused in session.refused)
    places = refused_from(session)
    rows = "".join(f'<tr><td class="number">{number(count)}</td><td>{names.get(call, call)}</td><td>{shown(fault)}</td>'
                   f"<td>{meaning(fault)}</td>{of_places(places, fault, call)}</tr>\n"
                   for (fault, call), count in counts.most_common())
    titles = ("call", "fault", "meaning", *(["from"] if places else []))
    head = "".join(f'<th scope="col">{title}</th>' for title in titles)
    inside = (f'<table>\n<thead><tr><th scope="col" class="number">how many</th>{head}</tr></thead>\n<tbody>\n{rows}'
              "</tbody></table>")
    return section("Refused", "") + box("Refused", inside)


def refused_from(session: Session) -> dict[tuple[str, str], Counter]:
    """How many datagrams came from each endpoint, by fault and call; of peers whose number tells an endpoint."""
    places: dict[tuple[str, str], Counter] = {}
    for refused in session.refused:
        if place := session.endpoint(refused.peer):
            places.setdefault((fault_of(refused.reason), refused.call), Counter())[place] += 1
    return places


def of_places(places: dict[tuple[str, str], Counter], fault: str, call: str) -> str:
    """The cell of a row: the endpoints that most came from."""
    if not places:
        return ""
    found = places.get((fault, call), Counter()).most_common()
    words = [f"{place} ({number(count)})" for place, count in found[:MOST_PEERS]]
    more = f" and {len(found) - MOST_PEERS} more" if len(found) > MOST_PEERS else ""
    return f"<td>{shown(', '.join(words))}{more}</td>"


def meaning(fault: str) -> str:
    """What the last number in a fault stands for."""
    numbers = [word for word in fault.split(" ") if word in MEANINGS]
    return MEANINGS[numbers[-1]] if numbers else ""


# The plots


def members(session: Session) -> str:
    words = ("Both include this participant. A source joins with its CNAME, or with the second of two RTP packets in "
             "sequence.")
    if session.leave is not None:
        words += (" The lines end with the leave: after it (shaded) the other sources are not tracked.")
    if session.goodbyes:
        words += (f" While the participant waited in the backoff of RFC 3550, 6.3.7, "
                  f"{plural(session.said_goodbye, 'BYE')} came.")
    entries = [("line", BLUE, "members"), ("line", ORANGE, "senders"), ("up", GREEN, "a source joined"),
               ("down", ORANGE, "it said BYE"), ("cross", RED, "it timed out")]
    if any(what == DISMISSED for _, _, what in session.changes):
        entries.append(("down", PURPLE, "the host said that it is gone"))
    return section("Members and senders", words, *entries) + plots.members_plot(session) + members_numbers(session)


def rates(session: Session) -> str:
    """RTCP against the bandwidth that it may take."""
    if not session.came and not session.handed_out:
        return section("RTCP and its bandwidth", "No compound came in or went out.")
    words = (f"The octets of all compounds in and out, each with {HEADERS} of headers of UDP and IP, and the bandwidth "
             "that the session allows for them. Those that begin with an SR are of senders, the rest of the others. "
             "While the senders are a greater part of the members than their share is of the bandwidth, all members "
             "share the whole alike.</p>\n"
             f"<p>{rates_in_words(session)}")
    return section("RTCP and its bandwidth", words, ("line", BLUE, "octets a second"),
                   ("dashes", RED, "the share of the bandwidth")) + plots.rates_plot(session) + rates_numbers(session)


def compounds(session: Session) -> str:
    if not session.came and not session.handed_out and not session.refused:
        return section("Compounds in and out", "No compound came in or went out.")
    entries = [(LOOKS[kind], BLUE, f"{KIND_NAMES[kind]} in") for kind in plots.kinds_of(session.came)]
    entries += [(LOOKS[kind], ORANGE, f"{KIND_NAMES[kind]} out") for kind in plots.kinds_of(session.handed_out)]
    if plots.refused_by_fault(session):
        entries.append(("cross", RED, "a datagram was refused"))
    off = sum(refused.is_datagram and refused.moment > session.end for refused in session.refused)
    note = f"<p>{plural(off, 'datagram')} refused at a moment off the axis, not drawn.</p>\n" if off else ""
    words = ("Sizes without the headers of UDP and IP. Where there are too many compounds for marks, bars show the "
             "least and the greatest size at a time, and a lane for each kind how many came.")
    return (section("Compounds in and out", words, *entries) + plots.compounds_plot(session) + note
            + compounds_numbers(session))


def intervals(session: Session) -> str:
    """The law of the spacing, as a picture and with the closest pair."""
    if not session.reports:
        return section("Intervals between reports", "This participant sent no report.")
    low = min(report.since / report.computed for report in session.reports)
    words = ("Each dot is a report, at the height of the time since the previous one (the first: since the start). The "
             "computed interval follows from members, senders, the average compound size and the bandwidths at that "
             "moment. A random factor of 1/2 to 3/2, over 1.21828, makes an interval of it: so no report lies in the "
             f"red area. The earliest of {plural(len(session.reports), 'report')} came after {low:,.3f} of the "
             "computed interval; the least allowed is 1 / (2 · 1.21828) = 0.410 of it. " + MANY)
    if not all(report.is_lawful for report in session.reports):
        words += " <strong>Some reports came too soon.</strong>"
    heading = section("Intervals between reports", words, ("dot", BLUE, "time since the previous report"),
                      ("line", FAINT, "computed interval"), ("dashes", RED, "the least: half of it, over 1.21828"))
    return heading + plots.intervals_plot(session) + intervals_numbers(session)
