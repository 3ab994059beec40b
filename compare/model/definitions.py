#!/usr/bin/env python3
"""A second model of `rtcp replay`: its answers are those of the definitions in specs/ that the contract of
`rtcp_engine::run` names, computed from the whole history at each line. The command line is read as by participant.py.

usage: compare/model/definitions.py replay OPTION VALUE ... < LINES"""
import sys
import threading

import antt
import decoder
import library
import participant
from library import NONE, Node, items, listed, node, record, some

ANSWERS, ACTS, HISTORIES, OUTCOMES = (f"rtcp_engine.specs.answers.{name}" for name in
                                      ("Answers", "Acts", "Histories", "Outcomes"))
SENT, RUNS, TAKEN = "rtcp_engine.specs.bounds.Sent", "rtcp_engine.specs.bounds.Runs", "rtcp_engine.specs.state.Taken"
# the names of what is refused, in the order of their numbers
REFUSALS = ["Left", "Backwards", "TooFar", "TooMany", "Wire", "Rtp", "OwnSsrc", "Settings"]
SETTINGS = ["Cname", "Capacity", "Limit", "Bandwidth", "Rate", "Item"]
FAULTS = ["Short", "Version", "FirstType", "FirstPadding", "Length", "Padding", "Body", "Item", "Reason", "TooLong"]
RTP_FAULTS = ["Short", "Version", "PayloadType", "Extension", "Padding"]


def number(octets, start, size):
    return int.from_bytes(octets[start:start + size], "big")


def item_values(pairs):
    return listed(record({"kind": kind, "text": listed(text)}) for kind, text in pairs)


def settings_value(sender_bw, receiver_bw, clocks, pairs, rate, ntp):
    clock_values = listed(record({"payload_type": kind, "rate": units}) for kind, units in clocks)
    return record({"sender_bw": sender_bw, "receiver_bw": receiver_bw, "rate": rate, "clocks": clock_values,
                   "ntp_base": ntp, "extras": item_values(pairs)})


def blocks_in(octets, count):
    """The blocks, and the extension after them."""
    found = []
    for at in range(0, 24 * count, 24):
        block = {"ssrc": number(octets, at, 4), "fraction": octets[at + 4],
                 "lost": int.from_bytes(octets[at + 5:at + 8], "big", signed=True)}
        for name, place in (("highest", 8), ("jitter", 12), ("lsr", 16), ("dlsr", 20)):
            block[name] = number(octets, at + place, 4)
        found.append(record(block))
    return listed(found), listed(octets[24 * count:])


def packet_value(kind, count, body):
    if kind == 200:
        sender = {name: number(body, at, size) for name, at, size in
                  (("ssrc", 0, 4), ("ntp", 4, 8), ("rtp", 12, 4), ("packets", 16, 4), ("octets", 20, 4))}
        return node("sr", record(sender), *blocks_in(body[24:], count))
    if kind == 201:
        return node("rr", number(body, 0, 4), *blocks_in(body[4:], count))
    if kind == 202:
        chunks = decoder.description_chunks(body, count)
        return node("sdes", listed(record({"id": number(one, 0, 4), "items": item_values(pairs)})
                                   for one, pairs in chunks))
    if kind == 203:
        reason, ids = body[4 * count:], listed(number(body, 4 * at, 4) for at in range(count))
        return node("bye", ids, some(listed(reason[1:1 + reason[0]])) if reason else NONE)
    if kind == 204:
        return node("app", count, number(body, 0, 4), listed(body[4:8]), listed(body[8:]))
    return node("other", kind, count, listed(body))


def rtcp_reading(octets):
    text = decoder.answer(octets)
    if not text.startswith("ok"):
        _, name, _, place = text.split()
        return node("Err", record({"reason": node(name), "place": int(place)}))
    return node("Ok", listed(packet_value(*packet) for packet in decoder.packets(octets)))


def rtp_reading(octets):
    try:
        size = participant.payload_size(octets)
    except decoder.Fault as fault:
        return node("Err", node(str(fault).split()[1]))
    sequence, timestamp, ssrc, csrcs = participant.read_head(octets)
    end = len(octets) - (octets[-1] if octets[0] & 0x20 else 0)
    return node("Ok", record({
        "payload_type": participant.payload_type(octets), "marker": octets[1] > 127, "sequence": sequence,
        "timestamp": timestamp, "ssrc": ssrc, "csrcs": listed(csrcs), "payload": listed(octets[end - size:end])}))


def numbered(letter, names, tag):
    return f"{letter}{names.index(tag) + 1} {tag}"


def refusal_text(refusal):
    text = numbered("E", REFUSALS, refusal.tag)
    if refusal.tag == "Wire":
        fault = refusal.parts[0].fields
        text += f": {numbered('F', FAULTS, fault['reason'].tag)} at {fault['place']}"
    if refusal.tag == "Rtp":
        text += f": {numbered('G', RTP_FAULTS, refusal.parts[0].tag)}"
    if refusal.tag == "Settings":
        text += f": {numbered('C', SETTINGS, refusal.parts[0].tag)}"
    return text


class Defined:
    """A history, and what the definitions answer to one act more."""

    def __init__(self, options, definitions):
        self.answer_of, self.followed_by = (definitions.call(ANSWERS, name) for name in ("answer_of", "followed_by"))
        setup = record({
            "ssrc": options["ssrc"], "cname": listed(options["cname"]), "capacity": options["capacity"],
            "limit": options["limit"],
            "settings": settings_value(*(options[name] for name in
                                         ("sender-bw", "receiver-bw", "clock", "items", "rate", "ntp")))})
        self.start = self.history = record({"setup": setup, "word": options["word"], "acts": listed([])})
        self.acts, self.answers, self.definitions = [], [], definitions
        life = definitions.call(HISTORIES, "life_at")(self.history)
        self.next = definitions.call(OUTCOMES, "timing_of")(life.parts[0]).fields["next"]

    def answer(self, act):
        answer = self.answer_of(self.history, act)
        self.history = self.followed_by(self.history, act)
        self.acts.append(act)
        self.answers.append(answer)
        if answer.tag == "Err":
            raise participant.Refusal(refusal_text(answer.parts[0]))
        step = answer.parts[0].fields
        out = "-"
        for given in items(listed(step["out"].parts)):
            out = f"{given.fields['kind'].tag.lower()}:{bytes(items(given.fields['octets'])).hex()}"
        following = "".join(map(str, step["next"].parts)) or "-"
        changed = "".join(f" ssrc={ssrc:08x}" for ssrc in step["changed"].parts)
        return f"members={step['members']} senders={step['senders']} next={following} out={out}{changed}"

    def keeps_its_promise(self):
        """Whether the answers are within the bounds that `run` promises, by a history that may be. What is said of all
        windows is tried with some between reports."""
        sent = self.definitions.call(SENT, "sent_at")(self.history)
        moments = [one.fields["moment"] for _, one in zip(range(6), items(sent))]
        library.NUMBERS.clear()
        library.NUMBERS.update(moments, (abs(one - other) for one in moments for other in moments))
        hands_over, is_history = self.definitions.call(RUNS, "HandsOver"), self.definitions.call(TAKEN, "IsHistory")
        return is_history(self.history) and hands_over(self.start, listed(self.acts), listed(self.answers))

    def rtcp_came(self, moment, peer, word, octets):
        reading = node("rtcp", len(octets), defined_reading(octets, True, self.definitions))
        return self.answer(node("arrived", moment, peer, word, reading))

    def rtp_came(self, moment, peer, word, octets):
        reading = node("rtp", defined_reading(octets, False, self.definitions))
        return self.answer(node("arrived", moment, peer, word, reading))

    def packet_sent(self, *values):
        return self.answer(node("rtp_sent", *values))

    def tick(self, *values):
        return self.answer(node("ticked", *values))

    def leave(self, *values):
        return self.answer(node("left", *values))

    def configure(self, moment, *values):
        return self.answer(node("configured", moment, settings_value(*values)))

    def forget(self, *values):
        return self.answer(node("forgotten", *values))


def defined_reading(octets, is_rtcp, definitions):
    """What a datagram says by the definitions."""
    place = ("rtcp_wire.specs.Readings", "rtcp_in") if is_rtcp else ("rtcp_wire.specs.RtpReadings", "rtp_in")
    return definitions.call(*place)(listed(octets))


def replay(arguments, octets, definitions, look=lambda defined: None):
    """As `participant.replay`. `look` is given what there is at the end, where no line has a fault."""
    definitions.clear()
    begun = []

    def begin(options):
        begun.append(Defined(options, definitions))
        return begun[0]

    said = participant.replay(arguments, octets, begin=begin)
    if not said[1]:
        look(begun[0])
    return said


def deeply(work):
    """Runs this where definitions may call each other as deep as a history is long."""
    sys.setrecursionlimit(10**6)
    threading.stack_size(2**29)
    thread = threading.Thread(target=work)
    thread.start()
    thread.join()


def main():
    if sys.argv[1:2] != ["replay"]:
        sys.exit(__doc__)
    answers, fault, status = replay(sys.argv[2:], sys.stdin.buffer.read(), antt.Definitions())
    sys.stdout.write(answers)
    sys.stderr.write(fault)
    sys.stdout.flush()
    return status


if __name__ == "__main__":
    statuses = []
    deeply(lambda: statuses.append(main()))
    sys.exit(statuses[0] if statuses else 1)
