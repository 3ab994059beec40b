"""Holds the table of compare/stacks/peers against what compare/stacks/peer_known.py says that it did."""
import re

import peer_table
from peer_relay import MOST_AFTER, PEER, PLAYER

# 2 of F3: one of them is the BYE
REFUSED = "; refused: 1 by F2 Version, 2 by F3 FirstType, 1 by F5 Length, 1 by G2 Version"
BYES = {"known": "BYE SDES: dropped only with report_before", "known-off": "RR SDES BYE: dropped"}
LATE = 0.3  # seconds that a report of the peer may be late by


def figures(session):
    """What the peer printed at its end, by name; and the losses that it counted at each report."""
    counts, told = re.search(r"(reports .*) told \[(.*)\]", session.printed()).groups()
    words = counts.split()
    return dict(zip(words[::2], map(int, words[1::2]))), [int(count) for count in told.split(", ")]


def cells_wanted(name, reports, told, packets):
    """How the cells begin that are known, by the names of their columns."""
    taken, blocks = reports + (name == "known-off"), len(told)  # the BYE of one counts
    return {"Its datagrams": f"{taken} compounds, {packets} packets" + (REFUSED if name == "known" else ""),
            "Its CNAME": f"known@example.com: {taken} of {taken}",
            "Losses it tells of our stream": f"0 of {blocks} blocks, " if name == "known-off"
                                             else f"{blocks} of {blocks} blocks, up to {max(told)}",
            "Its BYE": BYES.get(name, "none")}


def trips_wrong(cell):
    """The peer reports as if our reports had been sent 50 milliseconds earlier."""
    least, most = map(float, re.fullmatch(r"SSRC, round trips of ([\d.]+) to ([\d.]+) ms", cell).groups())
    return not 49.9 < least <= most < 50 + 1_000 * LATE


def intervals_wrong(name, cells):
    ours, theirs = (float(re.match(r"[\d.]+", cells[column])[0]) for column in ("Our intervals", "Its intervals"))
    return not 3 - LATE < theirs < 3.01 or (ours < 1) != (name == "known-again")


def losses_wrong(row, cell, skipped):
    """What we report is what the peer skipped and the relay dropped, unless the skipped packets went around the
    relay."""
    found = re.fullmatch(r"(\d+) of (\d+) blocks, up to (\d+)(.*); ([012] of 2) lists", cell)
    if found is None:
        return True
    told, count, most, rest, lists = found.groups()
    if row.session.peer.name == "known-around":  # to one of the players
        return told == count or not rest.startswith(f"; -{skipped}") or lists != "1 of 2"
    (stream,) = (stream for (who, _), stream in row.streams.items() if who == PEER)
    missing = skipped + len(stream.dropped) + stream.held
    return told != count or rest or lists != "2 of 2" or not skipped <= int(most) <= missing


def relay_wrong(row, ended):
    """What the peer counted as lost is what the relay dropped, and packets that it still held back."""
    dropped = {who: stream.dropped for (who, _), stream in row.streams.items()}
    held_back = ended["lost"] - sum(number <= ended["highest"] for number in dropped[PLAYER])
    is_lossy = row.session.seed is not None
    return any(bool(numbers) != is_lossy for numbers in dropped.values()) or not 0 <= held_back <= MOST_AFTER


def faults(row):
    """Where a row is not what is known."""
    session, name, cells = row.session, row.session.peer.name, dict(zip(peer_table.COLUMNS, row.cells()))
    ended, told = figures(session)
    for column, wanted in cells_wanted(name, ended["reports"], told, ended["packets"]).items():
        if not cells[column].startswith(wanted):
            yield f"{column}: {cells[column]}, not {wanted}"
    if trips_wrong(cells["It sees"]):
        yield f"round trips: {cells['It sees']}"
    if intervals_wrong(name, cells):
        yield f"intervals: {cells['Our intervals']} and {cells['Its intervals']}"
    if losses_wrong(row, cells["Losses we tell of its stream"], ended["skipped"]):
        yield f"losses: {cells['Losses we tell of its stream']}"
    if relay_wrong(row, ended):
        yield f"the relay: {cells[peer_table.COLUMNS[1]]}"
    if row.differs != (name in ("known-around", "known-again")):
        yield f"status: {row.differs}"


def check(rows):
    """Prints what is wrong, and gives the status."""
    wrong = [f"{row.session.name}: {fault}" for row in rows for fault in faults(row)]
    print("\n".join(wrong) or f"the {len(rows)} rows are what is known of these peers")
    return 1 if wrong else 0
