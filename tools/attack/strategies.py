"""Strategies for attacks on polls, played by attack.course.

A strategy is told what its peers receive, and nothing else (`lks.play.Told`). From the start it knows what anybody may know:
the AU, the rules, and who is there. SOSP is Maniatis et al., SOSP 2003; TOCS the same, ACM TOCS 23(1), 2005; USENIX Giuli et
al., USENIX Annual Technical Conference 2005. Their sections are named by their titles.
"""

from __future__ import annotations

from collections import deque
from collections.abc import Iterator, Sequence
from dataclasses import dataclass, replace

from lks import hashes, message
from lks.fields import PollName
from lks.message import Poll, PollChallenge, PollProof, Repair, RepairRequest, Vote
from lks.play import Received, Told
from lks.script import Word

Words = Sequence[Word]
# No good block of a scene has this length.
BAD = b"\xff" * 15
# For each honest peer so many polls on an AU are remembered, the latest ones of all peers: one is open at a time. And so many
# votes for a poller.
MOST_POLLS, MOST_VOTES = 2, 1_000
# So many sessions a peer has open at a time (docs/PROTOCOL.md, "Voting in polls of others").
SESSIONS = 16


@dataclass(frozen=True)
class Known:
    """What a strategy knows from the start: its own peers, the honest ones, the AU with its good blocks, and the rules.
    Its draws are of the run's seed."""

    own: tuple[int, ...]
    honest: tuple[int, ...]
    au: int
    blocks: tuple[bytes, ...]
    rules: dict[str, int]
    draws: hashes.Draws

    def any_honest(self) -> int:
        """An honest peer that is drawn."""
        return self.honest[self.draws.below(len(self.honest))]

    def with_bad_block(self, at: int) -> tuple[bytes, ...]:
        """The good blocks but for one."""
        return (*self.blocks[:at], BAD, *self.blocks[at + 1 :])


class Faithful:
    """Its peers keep to the protocol, hold good blocks, and nominate honest peers. The strategies change a part of this."""

    def __init__(self, known: Known) -> None:
        self.known = known

    def act(self, what: Told) -> Iterator[Words]:
        """The lines that its peers say and forge now."""
        for it in what.received:
            yield from self.answer(it)

    def meanwhile(self) -> Iterator[Words]:
        """What network and power do before messages are delivered."""
        yield from ()

    def answer(self, it: Received) -> Iterator[Words]:
        """What is answered to one message."""
        back = PollName(it.sender, it.message.number)
        if isinstance(it.message, Poll):
            yield "say", it.receiver, "challenge", *back, "yes"
        elif isinstance(it.message, PollProof):
            yield "say", it.receiver, "nominate", *back, *self.nominees()
            yield "say", it.receiver, "vote", *back, self.known.au, "of", self.blocks(back, it.receiver)
        elif isinstance(it.message, RepairRequest):
            block = self.blocks(back, it.receiver)[it.message.block]
            yield "say", it.receiver, "repair", *back, it.message.block, [block]

    def nominees(self) -> tuple[int, ...]:
        """Whom a voter nominates."""
        return self.known.draws.pick(self.known.honest, 8)

    def blocks(self, poll: PollName, voter: int) -> tuple[bytes, ...]:
        """For which blocks a peer votes, and which of them it gives."""
        return self.known.blocks


class Silent(Faithful):
    """Its peers say nothing.

    USENIX, "Targeting Connectivity" (pipe stoppage): an adversary who keeps peers from hearing one another.
    """

    def act(self, what: Told) -> Iterator[Words]:
        yield from ()


class Nominations(Faithful):
    """Votes well, and nominates its own peers alone.

    TOCS, "Attack Techniques" (foothold in a reference list): voters of the outer circle that agree come onto the list.
    """

    def nominees(self) -> tuple[int, ...]:
        return self.known.draws.pick(self.known.own, 8)


class League(Nominations):
    """Its peers tell one another of each invitation, so that they know how many of them are in an inner circle: those that
    are invited before the first of them is to vote. By that they choose their votes."""

    def __init__(self, known: Known) -> None:
        super().__init__(known)
        self.circles: dict[PollName, list[int]] = {}
        self.begun: set[PollName] = set()

    def act(self, what: Told) -> Iterator[Words]:
        for it in what.received:
            poll = PollName(it.sender, it.message.number)
            circle = self.circles.setdefault(poll, [])
            if len(self.circles) > MOST_POLLS * len(self.known.honest):
                oldest = next(iter(self.circles))
                del self.circles[oldest]
                self.begun.discard(oldest)
            if isinstance(it.message, Poll) and poll not in self.begun and it.receiver not in circle:
                circle.append(it.receiver)
            elif isinstance(it.message, PollProof):
                self.begun.add(poll)
        yield from super().act(what)


class Stealth(League):
    """Votes well until so many of a circle are its peers that the poller must believe them, and then for one bad block.

    SOSP and TOCS, "Adversary Attacks" (stealth modification): replace the content at honest peers, and ring no alarm.
    """

    def __init__(self, known: Known) -> None:
        super().__init__(known)
        self.bad = known.with_bad_block(known.draws.below(len(known.blocks)))

    def blocks(self, poll: PollName, voter: int) -> tuple[bytes, ...]:
        is_won = len(self.circles[poll]) >= self.known.rules["inner"] - self.known.rules["minority"]
        return self.bad if is_won else self.known.blocks


class Nuisance(League):
    """Lets a poll be inconclusive where it can: one vote more than a landslide bears is for a bad first block.

    SOSP and TOCS, "Adversary Attacks" (nuisance): false alarms, until nobody listens to them.
    """

    def blocks(self, poll: PollName, voter: int) -> tuple[bytes, ...]:
        circle, enough = self.circles[poll], self.known.rules["minority"] + 1
        is_against = len(circle) >= enough and voter in circle[:enough]
        return self.known.with_bad_block(0) if is_against else self.known.blocks


class Attrition(Faithful):
    """Invites honest peers to polls that it never goes on with, until they have no session left for one another.

    TOCS, "Adversary Attacks" (attrition), and USENIX, "Targeting the Admission Control Filter": invitations that cost nothing.
    A wave goes out at each tick: to each peer as many as it has sessions, or four where it said no to some of the last one.
    """

    def __init__(self, known: Known) -> None:
        super().__init__(known)
        self.waves = dict.fromkeys(known.honest, SESSIONS)
        self.number, self.tick = 0, -1

    def inviters(self, victim: int) -> Sequence[int]:
        """Who may invite an honest peer."""
        return self.known.own

    def act(self, what: Told) -> Iterator[Words]:
        told = [it for it in what.received if isinstance(it.message, PollChallenge)]
        for victim in {it.sender: 0 for it in told}:
            is_refused = any(not it.message.yes for it in told if it.sender == victim)
            self.waves[victim] = 4 if is_refused else SESSIONS
        if what.tick == self.tick:
            return
        self.tick = what.tick
        for victim, count in self.waves.items():
            by = self.inviters(victim)
            for _ in range(count if by else 0):
                self.number += 1
                yield "say", by[self.number % len(by)], "poll", victim, self.number, self.known.au


class Credit(Attrition):
    """As attrition, by peers that voted well in a poll of their victim: these are in credit, and are let in without a limit.

    USENIX on first-hand reputation: here no invitation lessens it, since it is votes alone that count.
    """

    def __init__(self, known: Known) -> None:
        super().__init__(known)
        self.voters: dict[int, deque[int]] = {}

    def inviters(self, victim: int) -> Sequence[int]:
        return self.voters.get(victim, ())

    def act(self, what: Told) -> Iterator[Words]:
        for it in what.received:
            yield from self.answer(it)
            if isinstance(it.message, PollProof):
                self.voters.setdefault(it.sender, deque(maxlen=MOST_VOTES)).append(it.receiver)
        yield from super().act(what)


class Forger(Faithful):
    """Votes and gives blocks in spoiled bytes, and sends random ones to whoever is drawn.

    TOCS, "Adversary Capabilities" (spoofing; the sender is truly named here), and USENIX on floods of bogus votes.
    """

    def answer(self, it: Received) -> Iterator[Words]:
        known, came, proof = self.known, it.message, b"\1"
        if isinstance(came, Poll):
            yield from super().answer(it)
        elif isinstance(came, PollProof):
            key = hashes.key(came.hash, it.sender, came.number, came.nonce, it.receiver, known.au, len(known.blocks))
            vote = Vote(came.number, hashes.vote(came.hash, key, known.blocks), proof)
            yield "forge", it.receiver, it.sender, self.spoiled(message.write(vote))
        elif isinstance(came, RepairRequest):
            repair = Repair(came.number, came.block, known.blocks[came.block])
            yield "forge", it.receiver, it.sender, self.spoiled(message.write(repair))
        yield "forge", it.receiver, known.any_honest(), self.some_bytes()

    def some_bytes(self) -> bytes:
        """Up to 32 random bytes, most of them behind the head of a message."""
        below = self.known.draws.below
        head = bytes([1, 1 + below(8), 0, 0, 0, 1 + below(4)]) if below(4) else b""
        return head + bytes(below(256) for _ in range(below(32)))

    def spoiled(self, data: bytes) -> bytes:
        """These bytes cut off, with more behind them, with one of them drawn anew, or others."""
        below = self.known.draws.below
        at, more = below(len(data)), self.some_bytes()
        return (data[:at], data + more, data[:at] + bytes([below(256)]) + data[at + 1 :], more)[below(4)]


class Crashes(Faithful):
    """The power of honest peers fails, as often as a script may say it: between two steps, or within one.

    SOSP and TOCS, "Design Principles": peers are cheap and fail, and a poll goes on without them.
    """

    left = 16

    def meanwhile(self) -> Iterator[Words]:
        below = self.known.draws.below
        if self.left == 0 or below(4):
            return
        self.left -= 1
        yield "next", 1 + below(32)
        # the last call leaves nothing, all, or an open gate
        yield ("crash", self.known.any_honest()) if below(4) == 0 else ("cut", below(6), (0, 1, 0xA5)[below(3)], "next")


class Losses(Faithful):
    """The network loses about one message of sixteen.

    USENIX, "Targeting Connectivity" (pipe stoppage), as a network does it that is merely bad.
    """

    def meanwhile(self) -> Iterator[Words]:
        for _ in range(12):
            yield "next", 1 + self.known.draws.below(30)
            yield ("lose",)


class Mixed(Faithful):
    """Each corrupt peer follows a strategy that is drawn, in league with those that drew the same. Messages get lost, and power
    fails.

    TOCS, "Adversary Analysis": what one adversary may do, all at once.
    """

    def __init__(self, known: Known) -> None:
        super().__init__(known)
        kinds: list[type[Faithful]] = [Silent, Stealth, Nuisance, Attrition, Nominations, Forger]
        drawn = [(peer, kinds[known.draws.below(len(kinds))]) for peer in known.own]
        self.parts = []
        for kind in kinds:
            own = tuple(peer for peer, it in drawn if it is kind)
            self.parts += [kind(replace(known, own=own))] if own else []
        self.bad_times = [Crashes(known), Losses(known)]

    def act(self, what: Told) -> Iterator[Words]:
        for part in self.parts:
            own = part.known.own
            peers = {peer: what.own.peers[peer] for peer in own}
            received = tuple(it for it in what.received if it.receiver in own)
            yield from part.act(what._replace(own=replace(what.own, peers=peers), received=received))

    def meanwhile(self) -> Iterator[Words]:
        yield from self.bad_times[self.known.draws.below(2)].meanwhile()


STRATEGIES: dict[str, type[Faithful]] = {
    "silent": Silent,
    "stealth": Stealth,
    "nuisance": Nuisance,
    "attrition": Attrition,
    "credit": Credit,
    "nominations": Nominations,
    "forger": Forger,
    "crashes": Crashes,
    "losses": Losses,
    "mixed": Mixed,
}
