"""The guard of `rtcp replay --guard`, written from docs/PROTOCOL.md ("A guard") alone: what stands before the calls of
a participant."""
import itertools

import decoder

MOST_NAMES = 512  # of a datagram that are looked at


class Refusal(Exception):
    """A call that is refused."""


class Guard:
    """Whose source is whose: of each claim the origin, when a datagram that named the source was passed on, and how many
    goodbyes were."""

    def __init__(self, names, hold, capacity):
        self.names, self.hold, self.room = names, hold, 2 * capacity
        self.claims = {}

    def is_strange(self, origin, name):
        return name in self.claims and self.claims[name][0] != origin

    def own(self, origin):
        """The claims of an origin."""
        return {name: claim for name, claim in self.claims.items() if claim[0] == origin}

    def verdict(self, origin, names, goodbye):
        """Why a datagram with these names is held back, if it is."""
        looked_at = names[:MOST_NAMES]
        stranger = next((place for place, name in enumerate(looked_at) if self.is_strange(origin, name)), None)
        own = {*self.own(origin), *looked_at[:stranger]}
        if len(own) > self.names or len({*self.claims, *own}) > self.room:
            return "H2 Crowd"
        if stranger is not None:
            return "H1 Stranger"
        goodbyes = sum(count for _, _, count in self.own(origin).values())
        return "H2 Crowd" if len(names) > MOST_NAMES or goodbye is not None and goodbyes >= self.names else None

    def come(self, moment, peer, names, goodbye):
        """A datagram comes. It says goodbye of one of its names first, or of none."""
        origin = peer // 2**16
        reason = self.verdict(origin, names, goodbye)
        if reason:
            raise Refusal(reason)
        own = self.own(origin)
        for name in names:
            self.claims[name] = origin, moment, own[name][2] if name in own else 0
        if goodbye is not None:
            self.claims[goodbye] = origin, moment, self.claims[goodbye][2] + 1

    def check(self, moment, silent):
        before = min(max(0, moment - self.hold), silent)
        self.claims = {name: claim for name, claim in self.claims.items() if claim[1] >= before}


class Guarding:
    """A participant, which is told only what its guard passes on."""

    def __init__(self, options):
        super().__init__(options)
        self.guard = Guard(*options["guard"], options["capacity"])

    def judge(self, moment, peer, named, csrcs, left=()):
        """Asks the guard about a datagram, unless the participant refuses it."""
        self.begin_call(moment)
        changes = self.ssrc in named
        if changes and not self.may_give_way(peer):
            return
        is_other = lambda name: changes or name != self.ssrc
        names = [name for name, _ in itertools.groupby(filter(is_other, named + csrcs))]
        self.guard.come(moment, peer, names, next(filter(is_other, left), None))

    def rtcp_came(self, moment, peer, word, octets):
        if decoder.answer(octets).startswith("ok"):
            facts = decoder.facts(octets)
            left = [ssrc for kind, ssrc, _ in facts if kind == "gone"]
            self.judge(moment, peer, [ssrc for _, ssrc, _ in facts], [], left)
        return super().rtcp_came(moment, peer, word, octets)

    def rtp_came(self, moment, peer, word, octets):
        try:
            _, _, ssrc, csrcs = self.read_head(octets)
        except decoder.Fault:
            return super().rtp_came(moment, peer, word, octets)
        self.judge(moment, peer, [ssrc], csrcs)
        return super().rtp_came(moment, peer, word, octets)

    def tick(self, moment, word1, word2):
        self.begin_call(moment)
        silent = max(0, moment - 5 * self.check_interval(moment)) if self.is_present() else 0
        answer = super().tick(moment, word1, word2)
        self.guard.check(moment, silent)
        return answer
