"""Hostile sessions, derived from parts of the sample sessions and of random histories, by mutations: lines that are
dropped, doubled, exchanged or inserted, other moments, words and datagrams, other options.

Everything is drawn from a seed and a number, so these reproduce the same session."""
import functools
import random
import re

import histories
import mutator
import participant
import rows
from histories import FURTHEST, PEERS, SECOND, came, choose, packet, random_word

BASES = 300  # histories made at random to grow sessions from
LONGEST_BASE_LINE = 20_000
GAPS = [1, 1000, 20_000, SECOND, 2_500_000, 5_000_000, 12_500_000, 25_000_000, 100 * SECOND, 70_000 * SECOND]
FLOODS = 700  # a history of so many has as many BYE packets as members can be in a backoff
BREAKS = [b"", b" ", b"0", b"g", b"-", b"\r", b"\n", b"\0", b"\xff", b"F"]
AUDIENCES = [1, 2, 5, 31, 48, 49, 50, 51, 52, 62, 100]


@functools.cache
def samples():
    """Options and lines of the sample sessions, and of those worked by hand."""
    found = []
    for file in sorted(mutator.SAMPLES.glob("*.replay")):
        found.append((file.with_suffix(".options").read_text().split(), file.read_bytes().splitlines()))
    found += [(options, [line.encode() for line, _ in lines]) for options, lines, _, _ in rows.ALL]
    return [(options, short_ones(lines)) for options, lines in found]


@functools.cache
def random_bases(seed):
    made = [histories.History(random.Random(f"{seed} base {number}")).make() for number in range(BASES)]
    return [(options, short_ones(octets.split(b"\n"))) for options, octets in made]


def short_ones(lines):
    return [line for line in lines if 0 < len(line) < LONGEST_BASE_LINE]


def part(rng, lines):
    """A prefix or a slice. Of a long session at times most ticks are left out first, so that it covers more time."""
    size = choose(rng, (6, rng.randrange(20, 60)), (1, rng.randrange(20)), (0.1, 500))
    start = rng.choice([0, rng.randrange(len(lines) + 1)])
    if rng.randrange(2):
        kept = rng.choice([0.01, 0.1])
        window = lines[start:start + 20 * size]
        return [line for line in window if not line.startswith(b"tick") or rng.random() < kept][:size]
    return lines[start:start + size]


def with_moment(line, change):
    """A line with another moment, where it has one."""
    fields = line.split(b" ")
    if len(fields) > 1 and fields[1].isdigit() and len(fields[1]) <= 20:
        fields[1] = b"%d" % max(0, change(int(fields[1])))
    return b" ".join(fields)


def moment_of(line):
    found = re.match(b"[a-z]+ ([0-9]{1,20}) ", line)
    return int(found[1]) if found else 0


def datagram_of(line):
    """The fields of a line of a datagram, with its octets, where it is of its form."""
    if not re.fullmatch(b"rtc?p [0-9]{1,20} [0-9]{1,20} [0-9a-fA-F]{8} ([0-9a-fA-F]{2})+", line):
        return None
    kind, moment, peer, word, text = line.split(b" ")
    return kind, moment, peer, word, bytes.fromhex(text.decode())


class Session:
    """A session while it grows: its options, its lines, and the changes to these."""

    def __init__(self, seed, number):
        self.rng = rng = random.Random(f"{seed} h{number}")
        self.seed, self.own = seed, 0xaa
        self.is_flood = rng.randrange(FLOODS) == 0
        self.options, self.lines = (rows.PLAIN, []) if self.is_flood else self.base()
        self.lines = part(rng, self.lines)
        if not self.is_flood:
            self.choose_options()

    def base(self):
        """Options and lines to grow from."""
        rng = self.rng
        conversation, leaving, *_ = samples()
        other, made = rng.choice(samples()), rng.choice(random_bases(self.seed))
        return choose(rng, (2, conversation), (2, leaving), (1, other), (4, made))

    def choose_options(self):
        """Keeps the options, or makes others, mostly around the same SSRC."""
        rng = self.rng
        if "--ssrc" in self.options[:-1]:
            text = self.options[self.options.index("--ssrc") + 1]
            self.own = int(text, 16) if re.fullmatch("[0-9a-fA-F]{1,8}", text) else 0xaa
        if rng.randrange(20) == 0:
            self.own = rng.choice(self.known())
        elif rng.randrange(2):
            return
        self.options = histories.random_options(rng, self.own, [1, 2, 3, 4, 8, 50, 51, 100, 1024, 1024])

    def place(self):
        return self.rng.randrange(len(self.lines) + 1)

    def run_of_lines(self):
        """A few lines that follow one another."""
        rng, start = self.rng, self.place()
        return start, start + choose(rng, (4, 1), (2, rng.randrange(1, 5)), (0.3, rng.randrange(1, 40)))

    def moment(self, place):
        """The moment of the last line before a place that has one."""
        for line in reversed(self.lines[:place]):
            fields = line.split(b" ")
            if len(fields) > 1 and fields[1].isdigit():
                return int(fields[1])
        return 0

    def put(self, place, line):
        self.lines.insert(place, line if isinstance(line, bytes) else line.encode())

    def known(self):
        """SSRCs that datagrams of the session name first."""
        start, lines = b"(?m)^%b [0-9]+ [0-9]+ [0-9a-fA-F]{8} [0-9a-fA-F]{%d}([0-9a-fA-F]{8})", b"\n".join(self.lines)
        found = re.findall(start % (b"rtcp", 8), lines) + re.findall(start % (b"rtp", 16), lines)
        return sorted({int(text, 16) for text in found}) or mutator.SSRCS

    def own_clock(self):
        """The rate and the NTP timestamp of moment 0 that the options give, or what they are without options."""
        try:
            begun = participant.configuration(self.options)
        except (participant.Fault, participant.Usage):
            return 8000, 0
        return begun["rate"], begun["ntp"]

    # Lines

    def drop(self):
        start, end = self.run_of_lines()
        del self.lines[start:end]

    def double(self):
        start, end = self.run_of_lines()
        times = choose(self.rng, (6, 1), (1, self.rng.randrange(2, 6)))
        self.lines[end:end] = self.lines[start:end] * times

    def exchange(self):
        if len(self.lines) > 1:
            one = self.rng.randrange(len(self.lines) - 1)
            other = self.rng.choice([one + 1, self.rng.randrange(len(self.lines))])
            self.lines[one], self.lines[other] = self.lines[other], self.lines[one]

    def splice(self):
        """Puts a few lines of another session in, in half of the cases at the moment of the place."""
        _, others = self.base()
        start, place = self.rng.randrange(len(others) + 1), self.place()
        some = others[start:start + self.rng.randrange(1, 20)]
        if some and self.rng.randrange(2):
            later = self.moment(place) - moment_of(some[0])
            some = [with_moment(line, lambda moment: moment + later) for line in some]
        self.lines[place:place] = some

    # Moments

    def move_moments(self, start, end, change):
        self.lines[start:end] = [with_moment(line, change) for line in self.lines[start:end]]

    def move_one(self):
        rng, place, gap = self.rng, self.place(), self.rng.choice(GAPS)
        step = choose(rng, (3, rng.choice([-1, 1])), (3, gap), (2, -gap), (2, rng.randrange(SECOND)))
        self.move_moments(place, place + 1, lambda moment: moment + step)

    def move_rest(self):
        """A gap in the session, or an overlap."""
        rng = self.rng
        step = choose(rng, (6, rng.choice(GAPS)), (2, rng.randrange(30 * SECOND)), (1, -rng.choice(GAPS)))
        self.move_moments(self.place(), None, lambda moment: moment + step)

    def move_to_limit(self):
        """Puts a line at a limit of moments, mostly with all that follow."""
        rng, place = self.rng, self.place()
        near = FURTHEST - rng.randrange(20 * SECOND)
        limit = rng.choice([0, near, FURTHEST - 1, FURTHEST, FURTHEST + 1, 2**64 - 1])
        if rng.randrange(4) == 0:
            return self.move_moments(place, place + 1, lambda moment: limit)
        later = limit - self.moment(place + 1)
        self.move_moments(place, None, lambda moment: min(moment + later, 2**64 - 1))

    def stretch(self):
        """Puts all moments nearer to one another, or further apart."""
        factor, divisor = self.rng.choice([(0, 1), (1, 100), (1, 10), (1, 2), (2, 1), (10, 1), (100, 1), (10_000, 1)])
        self.move_moments(0, None, lambda moment: min(moment * factor // divisor, 2**64 - 1))

    # Words, numbers and datagrams

    def some_line(self, *kinds):
        """Where some line of these kinds is."""
        places = [place for place, line in enumerate(self.lines) if line.split(b" ")[0] in kinds and b" " in line]
        return self.rng.choice(places) if places else None

    def change_words(self):
        """Other random words, another timestamp and size of a packet sent, or another peer and word of a datagram."""
        rng, place = self.rng, self.some_line(b"tick", b"leave", b"sent", b"rtcp", b"rtp")
        if place is None:
            return
        fields = self.lines[place].split(b" ")
        if fields[0] in (b"rtcp", b"rtp"):
            fields[2:4] = self.peer(), self.word()
            self.lines[place] = b" ".join(fields)
            return
        for at in range(2, len(fields)):
            if rng.randrange(3):
                fields[at] = b"%08x" % random_word(rng) if fields[0] != b"sent" else b"%d" % random_word(rng)
        self.lines[place] = b" ".join(fields)

    def change_datagrams(self):
        for _ in range(choose(self.rng, (3, 1), (1, self.rng.randrange(1, 8)))):
            self.change_datagram()

    def change_datagram(self):
        place = self.some_line(b"rtcp", b"rtp")
        parts = None if place is None else datagram_of(self.lines[place])
        if parts is None:
            return
        *start, octets = parts
        octets = self.changed(start[0], octets)
        text = octets.hex() if self.rng.randrange(10) else octets.hex().upper()
        self.lines[place] = b" ".join([*start, text.encode() or b"-"])

    def changed(self, kind, octets):
        """The octets with a word of theirs made an SSRC that is known, or with any other change."""
        rng = self.rng
        if rng.randrange(3) == 0 and len(octets) >= 8:
            first = choose(rng, (2, 4 if kind == b"rtcp" else 8), (1, 12), (4, 4 * rng.randrange(len(octets) // 4)))
            ssrc = choose(rng, (1, self.own), (3, rng.choice(self.known())), (1, rng.choice(histories.POOL)))
            return octets[:first] + participant.words(ssrc) + octets[first + 4:]
        if kind == b"rtcp" and rng.randrange(100) == 0:
            return mutator.lengthened(rng, octets)
        changes = mutator.RTP_CHANGES if kind == b"rtp" and rng.randrange(4) else mutator.CHANGES
        return mutator.mutated(rng, octets, changes)

    def peer(self):
        return b"%d" % choose(self.rng, (4, 1), (4, self.rng.choice(PEERS)), (1, self.rng.getrandbits(64)))

    def word(self):
        """A word, often that of a source that is known or of one a little below it."""
        rng = self.rng
        near = rng.choice(self.known() + mutator.SSRCS + [self.own]) - rng.randrange(3)
        return b"%08x" % (choose(rng, (1, random_word(rng)), (2, near)) % 2**32)

    # What is put in

    def put_datagram(self, place, kind, octets):
        self.put(place, came(kind, self.moment(place), octets, int(self.peer()), int(self.word(), 16)))

    def add_datagram(self):
        self.put_datagram(self.place(), "rtcp", mutator.datagram(self.rng))

    def add_goodbyes(self):
        """BYE packets of sources that are known: of one, of some in one packet, or of each in its own."""
        rng, place, known = self.rng, self.place(), self.known()
        gone = rng.sample(known, min(len(known), choose(rng, (3, 1), (2, rng.randrange(1, 32)))))
        packets = [packet(len(gone), 203, participant.words(*gone))]
        if rng.randrange(2):
            packets = [packet(1, 203, participant.words(ssrc)) for ssrc in gone]
        self.put_datagram(place, "rtcp", packet(0, 201, participant.words(gone[0])) + b"".join(packets))

    def add_audience(self):
        """Sources that are named at once, often about so many that a leave needs a backoff."""
        place = self.rng.choice([0, self.place()])
        first = self.rng.choice([1, 0x100, 0x7fffffe0])
        size = choose(self.rng, (3, self.rng.choice(AUDIENCES)), (1, self.rng.randrange(1, 60)))
        self.put(place, rows.named(self.moment(place), first, first + size - 1))

    def add_run(self):
        """Packets of one source, in one or two runs of sequence numbers, some with CSRCs."""
        rng, place, known = self.rng, self.place(), self.known() + mutator.SSRCS
        ssrc, first = rng.choice(known), rng.choice([0, 65533, rng.randrange(65536)])
        runs = [first, first + rng.choice([200, 4000, 32768])][:rng.randrange(1, 3)]
        for number in range(rng.randrange(2, 7) * len(runs)):
            which = rng.randrange(len(runs))
            runs[which] += choose(rng, (6, 1), (1, rng.choice(histories.SEQUENCE_STEPS)))
            csrcs = rng.choices([*known, *[self.own] * 3], k=choose(rng, (4, 0), (1, rng.randrange(1, 5))))
            head = bytes([0x80 | len(csrcs), 0]) + (runs[which] % 65536).to_bytes(2, "big")
            octets = head + participant.words(160 * number + rng.randrange(2) * rng.getrandbits(8), ssrc, *csrcs)
            self.put(place + number, came("rtp", self.moment(place), octets))

    def add_crowd(self):
        """So many senders that a report may need a second packet, mostly with a limit near such a report's size."""
        rng, place = self.rng, self.place()
        moment = self.moment(place)
        for ssrc in rng.sample(range(1000, 2000), rng.randrange(25, 70)):
            for sequence in (6, 5):
                self.put(place, histories.media(moment, ssrc, sequence))
        self.options = ["--ssrc", f"{self.own:08x}", "--cname", "c"]
        if rng.randrange(4):
            self.options += ["--limit", str(histories.full_packet_limit(rng))]

    def add_last_bye(self):
        """A leave with so many members that it may begin a backoff, and BYE packets, ticks and a leave after it."""
        self.add_audience()
        rng, end = self.rng, len(self.lines)
        moment = self.moment(end)
        if rng.randrange(6):
            self.put(end, f"sent {moment} {random_word(rng)} 160")
        lines = [f"leave {moment} {random_word(rng):08x}"]
        for _ in range(rng.randrange(8)):
            moment += rng.randrange(SECOND)
            goodbyes = packet(1, 203, participant.words(rng.choice(mutator.SSRCS))) * rng.randrange(4)
            octets = packet(0, 201, participant.words(rng.choice([1, 1, self.own]))) + goodbyes
            lines.append(came("rtcp", moment, octets, int(self.peer()), int(self.word(), 16)))
            lines.append(f"{rng.choice(['tick', 'tick', 'tick', 'leave'])} {moment} {random_word(rng):08x}")
            lines[-1] += f" {random_word(rng):08x}" if lines[-1].startswith("tick") else ""
        self.lines += [line.encode() for line in lines]

    def add_return(self):
        """A source that says goodbye, and comes back at about the moment when a check forgets it."""
        rng, place, ssrc = self.rng, self.place(), self.rng.choice(self.known())
        moment = self.moment(place)
        goodbye = packet(0, 201, participant.words(ssrc)) + packet(1, 203, participant.words(ssrc))
        later = moment + 5 * SECOND + rng.choice([-1, 0, 0, 1])
        self.move_moments(place, None, lambda moment: moment + 5 * SECOND + 1)
        self.put(place, rows.named(later, ssrc, ssrc))
        self.put(place, f"tick {later} {random_word(rng):08x} {random_word(rng):08x}")
        self.put(place, came("rtcp", moment, goodbye))

    def flood(self):
        """A leave among many, and so many BYE packets that members come to 65,535."""
        rng = self.rng
        octets = packet(0, 201, participant.words(1)) + packet(0, 203, b"") * 16_381
        self.lines = [rows.named(0, 1, rng.choice([50, 51, 60])).encode(), b"sent 0 0 160", b"leave 0 00000000"]
        self.lines += [came("rtcp", 0, octets).encode()] * rng.randrange(4, 6)
        goodbye = bytes.fromhex(rows.GOODBYE_OF_1)
        self.lines += [rows.named(1, 1, 1).encode(), came("rtcp", 2, goodbye).encode()] * rng.randrange(20)
        self.lines += [f"tick {2**step} {random_word(rng):08x} 00000000".encode() for step in range(20, 50, 3)]

    def add_ticks(self):
        rng, place = self.rng, self.place()
        for _ in range(choose(rng, (3, 1), (2, rng.randrange(1, 6)))):
            self.put(place, f"tick {self.moment(place)} {random_word(rng):08x} {random_word(rng):08x}")

    def add_sent(self):
        place, octets = self.place(), choose(self.rng, (3, 160), (1, self.rng.getrandbits(32)))
        self.put(place, f"sent {self.moment(place)} {random_word(self.rng)} {octets}")

    def add_leave(self):
        """A leave, or two; mostly towards the end, so that there was a session before."""
        rng = self.rng
        for _ in range(rng.choice([1, 1, 2])):
            place = max(self.place(), self.place())
            self.put(place, f"leave {self.moment(place)} {random_word(rng):08x}")

    def add_settings(self):
        place = self.place()
        self.put(place, f"configure {self.moment(place)} {histories.random_settings(self.rng, *self.own_clock())}")

    def add_forgets(self):
        """Sources of which a host says that they are gone, mostly known ones."""
        rng = self.rng
        for _ in range(choose(rng, (3, 1), (1, rng.randrange(1, 5)))):
            place, ssrc = self.place(), choose(rng, (6, rng.choice(self.known())), (1, self.own))
            self.put(place, f"forget {self.moment(place)} {ssrc:08x}")

    def break_line(self):
        """A line that is not of its form, or no longer."""
        rng, place = self.rng, max(self.place(), self.place())
        if not self.lines or rng.randrange(2):
            return self.put(place, rng.choice(histories.FAULTY_LINES))
        line = bytearray(self.lines[place - 1])
        for _ in range(rng.randrange(1, 3)):
            at = rng.randrange(len(line) + 1)
            line[at:at + rng.randrange(2)] = rng.choice(BREAKS)
        self.lines[place - 1] = bytes(line) + choose(rng, (30, b""), (1, b"0" * 131_200))

    def grow(self):
        """Makes some changes, each less likely than the one before."""
        chance = 0.97
        while self.rng.random() < chance:
            getattr(self, choose(self.rng, *CHANGES))()
            chance *= 0.9
        if self.rng.randrange(15) == 0:
            self.break_line()

    def aim(self):
        """Puts some ticks near the moment that the model gives as the next, and what follows as much later. Makes some
        datagrams name the identifier that the participant then has."""
        rng, later, moments = self.rng, 0, [0]
        chance, collisions = rng.choice([0, 0.3, 0.9]), rng.choice([0, 0.02, 0.2])
        try:
            model = participant.Participant(participant.configuration(self.options))
            for place, line in enumerate(self.lines):
                if later:
                    line = with_moment(line, lambda moment: moment + (later if moment < FURTHEST else 0))
                if line.startswith(b"tick ") and rng.random() < chance and not model.has_left:
                    missing = max(0, self.target(model, moments) - moment_of(line))
                    line, later = with_moment(line, lambda moment: moment + missing), later + missing
                if rng.random() < collisions:
                    line = self.colliding(line, model)
                self.lines[place] = line
                participant.answer(model, line)
                moments.append(model.last_call)
        except (participant.Fault, participant.Usage):
            pass  # the lines after a fault are not looked at

    def colliding(self, line, model):
        """The line of a datagram with the present identifier as its source or in a BYE packet, mostly from a new peer,
        and with a word near an identifier that must not be taken."""
        rng, parts = self.rng, datagram_of(line)
        if parts is None:
            return line
        kind, moment, _, _, octets = parts
        own, first = participant.words(model.ssrc), 4 if kind == b"rtcp" else 8
        if kind == b"rtcp" and rng.randrange(4) == 0:
            octets += packet(1, 203, own)
        else:
            octets = octets[:first] + own + octets[first + 4:]
        avoided = [*histories.named_by(kind.decode(), octets), *model.earlier, *model.sources, model.ssrc]
        word = choose(rng, (1, random_word(rng)), (4, rng.choice(avoided) - rng.randrange(3))) % 2**32
        return came(kind.decode(), int(moment), octets, int(self.peer()), word).encode()

    def target(self, model, moments):
        """About the next moment, or where some of what came before is just so long ago that a check notices it."""
        rng = self.rng
        near = choose(rng, (4, 0), (1, 1), (1, -1), (2, rng.randrange(SECOND)))
        edge = rng.choice(moments[-20:]) + rng.choice(histories.WAITS) + rng.choice([-1, 0, 1])
        return choose(rng, (3, max(model.next, model.last_call) + near), (1, edge))

    def made(self):
        if self.is_flood:
            self.flood()
        else:
            self.grow()
            self.aim()
        octets = b"".join(line + b"\n" for line in self.lines)
        return self.options, octets[:-1] if self.rng.randrange(10) == 0 else octets


CHANGES = [
    (4, "drop"), (4, "double"), (4, "exchange"), (3, "splice"), (4, "move_one"), (5, "move_rest"), (1, "move_to_limit"),
    (1, "stretch"), (3, "change_words"), (9, "change_datagrams"), (3, "add_datagram"), (4, "add_goodbyes"),
    (2, "add_audience"), (4, "add_run"), (0.8, "add_crowd"), (1, "add_last_bye"), (2, "add_return"), (4, "add_ticks"),
    (2, "add_sent"), (2, "add_leave"), (2, "add_settings"), (2, "add_forgets"),
]


def session(seed, number):
    """The options and the octets of a hostile session."""
    return Session(seed, number).made()
