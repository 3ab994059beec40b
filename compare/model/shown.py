"""A plain model of what `rtcp listen --show` writes to standard error, by the record of the session, and of the text of
`rtcp check --plain`, written from docs/PROGRAM.md, docs/FORMATS.md and docs/PROTOCOL.md alone."""
import re

import decoder
import participant
from participant import SECOND

ESCAPES = {9: r"\t", 10: r"\n", 13: r"\r", 34: r"\"", 39: r"\'", 92: r"\\"}
CNAME = 1
BLOCK = 24  # octets
PATIENCE = 5 * SECOND  # without a datagram
COLUMNS = 100  # of a short row


def moment_text(moment):
    return f"{moment // SECOND}.{moment % SECOND:06}"


def of_day(base, moment):
    """The time of day in UTC, by the NTP timestamp of moment 0."""
    whole, part = divmod(participant.ntp_timestamp(base, moment), 1 << 32)
    clock = (whole % 86400) * SECOND + (part * SECOND >> 32)
    minutes, micros = divmod(clock, 60 * SECOND)
    return f"{minutes // 60:02}:{minutes % 60:02}:{micros // SECOND:02}.{micros % SECOND:06}Z"


def tenths_text(tenths):
    return f"{tenths // 10}.{tenths % 10}"


def time_text(microseconds):
    return f"{microseconds // 1000}.{microseconds % 1000:03}ms"


def peer_text(peer):
    address, port = divmod(peer, 65536)
    return ".".join(map(str, address.to_bytes(4, "big"))) + f":{port}"


def escaped(octets):
    return "".join(ESCAPES.get(octet) or (chr(octet) if 32 <= octet < 127 else f"\\x{octet:02x}") for octet in octets)


def blocks_of(kind, count, body):
    """The reporter's SSRC, and the report blocks of a packet."""
    start = {200: 24, 201: 4}.get(kind)
    if start is None:
        return None, []
    return body[:4], [body[start + BLOCK * i:start + BLOCK * (i + 1)] for i in range(count)]


# ---- Plain words

ITEMS = {1: "cname", 2: "name", 3: "email", 4: "phone", 5: "loc", 6: "tool", 7: "note", 8: "priv"}


def number(octets):
    return int.from_bytes(octets, "big")


def seconds(fixed, bits):
    """Seconds as a fixed-point number with so many bits after the point, rounded down to microseconds."""
    whole, part = divmod(fixed, 1 << bits)
    return f"{whole}.{part * SECOND >> bits:06}s"


def quoted(octets):
    return f'"{escaped(octets)}"'


def plain_block(block, rate):
    tenths = block[4] * 1000 // 256
    jitter, last_report = number(block[12:16]), number(block[16:20])
    return (f" block about={block[:4].hex()} loss={tenths // 10}.{tenths % 10}%"
            f" lost={int.from_bytes(block[5:8], 'big', signed=True)} highest={number(block[8:12])}"
            f" jitter={f'{jitter}units' if rate is None else time_text(jitter * SECOND // rate)}"
            f" lsr={seconds(last_report, 16) if last_report else 'none'} dlsr={seconds(number(block[20:24]), 16)}")


def plain_report(kind, count, body, rate):
    end = 24 if kind == 200 else 4
    sent = (f" ntp={seconds(number(body[4:12]), 32)} rtp={number(body[12:16])} packets={number(body[16:20])}"
            f" octets={number(body[20:24])}") if kind == 200 else ""
    blocks = "".join(plain_block(block, rate) for block in blocks_of(kind, count, body)[1])
    size = len(body) - end - BLOCK * count
    extension = f" extension={size}" if size else ""
    return f"{'SR' if kind == 200 else 'RR'} ssrc={body[:4].hex()}{sent}{blocks}{extension}"


def plain_packet(kind, count, body, rate):
    if kind in (200, 201):
        return plain_report(kind, count, body, rate)
    if kind == 202:
        items = lambda texts: "".join(f" {ITEMS.get(item, f'item{item}')}={quoted(text)}" for item, text in texts)
        chunks = decoder.description_chunks(body, count)
        return "SDES" + "".join(f" ssrc={source.hex()}{items(texts)}" for source, texts in chunks)
    if kind == 203:
        reason = body[4 * count:]
        text = f" reason={quoted(reason[1:1 + reason[0]])}" if reason else ""
        return "BYE" + "".join(f" ssrc={body[4 * i:4 * i + 4].hex()}" for i in range(count)) + text
    if kind == 204:
        return f"APP ssrc={body[:4].hex()} subtype={count} name={quoted(body[4:8])} data={len(body) - 8}"
    return f"OTHER type={kind} count={count} body={len(body)}"


def plain_answer(octets, rate=None):
    """The line of `rtcp check --plain` for a datagram, or of a session whose clock has so many units a second."""
    answer = decoder.answer(octets)
    if not answer.startswith("ok "):
        return answer
    return "ok " + " ".join(plain_packet(*packet, rate) for packet in decoder.packets(octets))


def block_rows(octets):
    """The lines of `rtcp check --blocks` for a datagram."""
    answer = decoder.answer(octets)
    if not answer.startswith("ok "):
        return [answer]
    rows = []
    for packet in decoder.packets(octets):
        reporter, blocks = blocks_of(*packet)
        rows += [f"by={reporter.hex()}{plain_block(block, None).removeprefix(' block')}" for block in blocks]
    return rows


# ---- A session

class Shown:
    """A session of `rtcp listen` with these options of a participant, whose compounds go to this peer. In plain words
    the jitter of report blocks is by the clock of `--rate`, and in units if there is a `--clock`."""

    def __init__(self, options, to, is_plain=False, most=None):
        self.participant, self.to = participant.begun(participant.configuration(options)), to
        base = self.participant.options["ntp"]
        self.when = (lambda moment: of_day(base, moment)) if is_plain and base else moment_text
        self.most = most  # rows, of `--rows`
        rate = None if "--clock" in options else int(options[options.index("--rate") + 1])
        self.answer = (lambda octets: plain_answer(octets, rate)) if is_plain else decoder.answer
        self.cnames, self.trips = {}, {}  # of the sources that are listed
        self.rtp_peers, self.rtcp_peers = {}, {}  # and where their datagrams came from
        self.counted, self.before, self.looked, self.elapsed = {}, {}, 0, 1
        self.second, self.last, self.roles = 0, None, {}
        self.waits = True  # for a first datagram
        self.summary = None  # the rows that came last before it was asked to leave
        self.lines = []

    def header(self, rtp, rtcp):
        """The line before those of the session, with the numbers of where it receives."""
        options = self.participant.options
        return (f"session ssrc={self.participant.ssrc:08x} cname={quoted(options['cname'])} rtp={peer_text(rtp)}"
                f" rtcp={peer_text(rtcp)} peer={peer_text(self.to)}")

    def tell(self, line):
        """Tells it a line of the record."""
        kind, moment, *fields = line.split(b" ")
        if kind == b"leave" and self.summary is None:
            self.summary = self.last or []
        moment, answer = int(moment), participant.answer(self.participant, line)
        taken, now = answer.startswith("ok "), self.when(moment)
        if kind == b"rtcp":
            octets = b"" if fields[2] == b"-" else bytes.fromhex(fields[2].decode())
            text = self.answer(octets) if taken else answer
            self.lines.append(f"{now} in {peer_text(int(fields[0]))} {text}")
        elif not taken:
            self.lines.append(f"{now} " + (f"rtp {peer_text(int(fields[0]))} " if kind == b"rtp" else "") + answer)
        if taken:
            self.tell_answer(now, answer)
        if taken and kind == b"rtcp":
            self.note(moment, octets)
            self.note_peer(self.rtcp_peers, octets[4:8], int(fields[0]))
        if taken and kind == b"rtp":
            self.note_peer(self.rtp_peers, bytes.fromhex(fields[2].decode())[8:12], int(fields[0]))
        if taken and self.participant.is_present():  # from its leave on, waiting with its BYE too, it lists nobody
            self.show_changes(now, is_told=kind != b"forget")
        if moment // SECOND > self.second:
            self.second = moment // SECOND
            self.elapsed, self.looked = max(1, moment - self.looked), moment
            self.show_sources(now)
        if self.waits and kind not in (b"rtcp", b"rtp") and moment >= PATIENCE:
            self.lines.append(f"{now} nothing heard yet")
        self.waits = self.waits and kind not in (b"rtcp", b"rtp") and moment < PATIENCE
        return answer

    def tell_answer(self, now, answer):
        if changed := re.search(r" ssrc=[0-9a-f]{8}$", answer):
            self.lines.append(now + changed[0])
        if out := re.search(r" out=(?:report|bye):([0-9a-f]+)", answer):
            self.lines.append(f"{now} out {peer_text(self.to)} {self.answer(bytes.fromhex(out[1]))}")

    def listed(self):
        return self.participant.sources if self.participant.is_present() else {}

    def note(self, moment, octets):
        """Keeps CNAMEs and round trips of the sources that are listed."""
        arrived = participant.ntp_timestamp(self.participant.options["ntp"], moment) >> 16
        for kind, count, body in decoder.packets(octets):
            reporter, blocks = blocks_of(kind, count, body)
            for block in blocks:
                last_report, delay = number(block[16:20]), number(block[20:24])
                if number(block[:4]) == self.participant.ssrc and last_report and number(reporter) in self.listed():
                    self.trips[number(reporter)] = (arrived - last_report - delay) % 2**32
            for identifier, items in decoder.description_chunks(body, count) if kind == 202 else []:
                for item, text in items:
                    if item == CNAME and number(identifier) in self.listed():
                        self.cnames[number(identifier)] = text

    def note_peer(self, peers, ssrc, peer):
        if number(ssrc) in self.listed():
            peers[number(ssrc)] = peer

    def flow(self, ssrc):
        """How the packets of a source come."""
        return self.losses(ssrc) + self.interval(ssrc, "interval-loss") + self.pace(ssrc)

    def losses(self, ssrc):
        source = self.listed()[ssrc]
        if not source.integers:
            return ""
        received, lost = source.reception()[:2]
        lost = max(0, lost)
        return f" total-loss={tenths_text(lost * 1000 // max(1, received + lost))}%"

    def interval(self, ssrc, word):
        block = self.listed()[ssrc].last_block
        return f" {word}={tenths_text(block[0] * 1000 // 256)}%" if block else ""

    def pace(self, ssrc):
        source, text = self.listed()[ssrc], ""
        received = source.reception()[0] if source.integers else 0
        if source.integers and ssrc in self.before and self.before[ssrc] <= received:
            text = f" pace={tenths_text((received - self.before[ssrc]) * 10 * SECOND // self.elapsed)}/s"
        peer = self.rtp_peers.get(ssrc, self.rtcp_peers.get(ssrc))
        return text + (f" peer={peer_text(peer)}" if peer is not None else "")

    def show_changes(self, now, is_told):
        """Who joined, left, began or ceased to send, unless the host dismissed a source."""
        role = lambda source: (1 + source.counts_as_sender()) if source.is_member() else 0  # 0 away, 1 member, 2 sender
        roles = {ssrc: role(source) for ssrc, source in self.listed().items()}
        for ssrc in sorted(self.roles | roles):
            was, now_is = self.roles.get(ssrc, 0), roles.get(ssrc, 0)
            has_left = ssrc in roles and self.listed()[ssrc].left is not None
            gone = was and not now_is
            lines = {"joined": not was and now_is, "began-sending": was < 2 == now_is,
                     "stopped-sending": now_is < 2 == was, "bye": gone and has_left, "timed-out": gone and not has_left}
            self.lines += [f"{now} {word}={ssrc:08x}" for word, so in lines.items() if so and is_told]
        self.roles = roles

    def row(self, ssrc):
        source, text = self.listed()[ssrc], f"source={ssrc:08x}"
        text += " sends=" + ("yes" if source.counts_as_sender() else "no")
        if source.left is not None:
            text += f" left={self.when(source.left)}"
        elif not source.is_member():
            text += " valid=no"
        if source.integers:
            received, lost = source.reception()[:2]
            text += f" packets={received} lost={lost}"
        return text + self.delays(ssrc) + self.name(ssrc) + self.flow(ssrc)

    def delays(self, ssrc):
        source, text = self.listed()[ssrc], ""
        if source.integers:
            _, _, _, jitter, rate = source.reception()
            text += f" jitter={time_text(jitter * SECOND // rate)}"
        if ssrc in self.trips:
            text += f" round-trip={time_text(self.trips[ssrc] * SECOND // 65536)}"
        return text

    def name(self, ssrc):
        return f" cname=\"{escaped(self.cnames[ssrc])}\"" if ssrc in self.cnames else ""

    def short_row(self, ssrc):
        """The row of `--rows`, cut to so many columns."""
        source = self.listed()[ssrc]
        word = ("sends" if source.counts_as_sender() else "left" if source.left is not None
                else "member" if source.is_member() else "invalid")
        text = (f"{ssrc:08x} {word}{self.interval(ssrc, 'loss')}{self.losses(ssrc)}{self.delays(ssrc)}"
                f"{self.pace(ssrc)}{self.name(ssrc)}")
        return text if len(text) <= COLUMNS else text[:COLUMNS - 3] + "..."

    def worst(self, listed):
        """So many sources of which most was lost by the latest report, in the order of their SSRCs."""
        fraction = lambda ssrc: self.listed()[ssrc].last_block[0] if self.listed()[ssrc].last_block else 0
        return sorted(sorted(listed, key=lambda ssrc: (-fraction(ssrc), ssrc))[:self.most])

    def rows(self, listed):
        """The counts, and the rows after them."""
        counts = f"members={self.participant.members()} senders={self.participant.senders()}"
        if self.most is None:
            return [counts, *map(self.row, listed)]
        worst = self.worst(listed)
        return [counts + (f" shown={len(worst)}" if len(worst) < len(listed) else ""), *map(self.short_row, worst)]

    def show_sources(self, now):
        listed = sorted(self.listed())
        self.cnames = {ssrc: text for ssrc, text in self.cnames.items() if ssrc in listed}
        self.trips = {ssrc: trip for ssrc, trip in self.trips.items() if ssrc in listed}
        for peers in (self.rtp_peers, self.rtcp_peers):
            for ssrc in peers.keys() - listed:
                del peers[ssrc]
        counted = {ssrc: source.reception()[0] for ssrc, source in self.listed().items() if source.integers}
        self.before, self.counted = self.counted, counted
        shown = self.rows(listed)
        if shown != self.last:
            self.last = shown
            self.lines += [f"{now} {shown[0]}", *shown[1:]]


class Alarm:
    """The first alarm of a session with these limits, if one was raised."""

    def __init__(self, loss, silence):
        self.loss, self.silence, self.heard, self.text = loss, silence, 0, None

    def tell(self, listed, is_present, line, answer):
        kind, moment = line.split(b" ")[:2]
        taken = answer.startswith("ok ")
        if taken and kind == b"rtp":
            self.heard = int(moment)
        found = self.found(listed, taken and " out=-" not in answer)
        if not found and self.silence is not None and is_present and int(moment) >= self.heard + self.silence * SECOND:
            found = "silence"
        if found and not self.text:
            self.text = f"alarm {moment_text(int(moment))} {found}"

    def found(self, listed, is_report):
        for ssrc, source in sorted(listed.items()) if self.loss is not None and is_report else []:
            if source.last_block and source.last_block[0] * 100 > self.loss * 256:
                return f"loss={ssrc:08x} {tenths_text(source.last_block[0] * 1000 // 256)}%"
        return None


def text_of(options, rtp, rtcp, to, record, is_plain=False, most=None, alarm=None):
    """What a session with this record wrote, where datagrams are shown in plain words or not, with so many short rows at
    most, and the rows that came last before its leave. `rtp`, `rtcp` and `to` are the numbers of where it receives and sends. An alarm
    is told each line."""
    shown = Shown(options, to, is_plain, most)
    shown.lines.append(shown.header(rtp, rtcp))
    for line in record.splitlines():
        answer = shown.tell(line)
        if alarm:
            alarm.tell(shown.listed(), shown.participant.is_present(), line, answer)
    return "".join(line + "\n" for line in shown.lines), "".join(line + "\n" for line in shown.summary or [])
