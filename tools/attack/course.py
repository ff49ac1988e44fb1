"""Attacks on polls: honest peers audit an AU round by round, while a strategy moves the corrupt ones (docs/ATTACKS.md).

A run is made of a strategy, settings and a seed, and is the same wherever it is made. What happens in it is told by the program
alone, which replays the run so far each time that the strategy is asked; at the end all of it is read anew and checked.
"""

from __future__ import annotations

from collections import Counter
from collections.abc import Iterable
from dataclasses import replace

from attack.strategies import STRATEGIES, Known, Words
from lks import journal, message, play, report
from lks.fields import PollName
from lks.hashes import Draws
from lks.plan import MOST_EVENTS
from lks.script import BOUNDS, Script, rules_words

AU, LABEL = 1, 7
# What a scene is made of: default, least, most, and what it is.
SCENE = {
    "peers": (16, 2, 32, "peers in all"),
    "corrupt": (4, 0, 31, "of them corrupt"),
    # the journals of a full history with more blocks may be longer than `lockss evidence` reads
    "blocks": (8, 1, 128, "blocks of the AU"),
    "refs": (10, 1, 31, "peers on an honest peer's list at the start, drawn of all others"),
    "friends": (2, 0, 31, "friends of an honest peer, drawn of the honest ones"),
    "damage": (25, 0, 100, "chance in percent that a block of an honest copy is bad at the start, the place drawn"),
    "rounds": (4, 1, 1000, "rounds at most; in each every honest peer opens a poll"),
    "together": (4, 1, 32, "polls that are opened at one tick"),
    "gap": (10, 1, 1_000_000, "ticks from these to the next ones"),
    "expire": (0, 0, 1000, "rounds after which an operator ends a session that is open; 0 never"),
}
# The rules where they aren't 0.
RULES = {"inner": 7, "quorum": 5, "minority": 2, "outer": 2, "repairs": 8, "overdue": 1000}
RULES |= {"unknown": 100, "debt": 100, "churn": 1}
SETTINGS = {name: it[:3] for name, it in SCENE.items()} | {name: (RULES.get(name, 0), *it) for name, it in BOUNDS.items()}
Settings = dict[str, int]


def settings(**changed: int) -> Settings:
    """All settings, with these changed."""
    for name, value in changed.items():
        if name not in SETTINGS:
            raise ValueError(f"no setting has the name {name}: there are {', '.join(SETTINGS)}")
        _, least, most = SETTINGS[name]
        if not least <= value <= most:
            raise ValueError(f"{name} is {value}, and goes from {least} to {most}")
    found = {name: it[0] for name, it in SETTINGS.items()} | changed
    if found["corrupt"] >= found["peers"]:
        raise ValueError(f"{found['corrupt']} of {found['peers']} peers are corrupt: none is honest")
    return found


def good_blocks(given: Settings) -> tuple[bytes, ...]:
    """The AU as it was published."""
    return tuple(bytes([at % 256]) * 16 for at in range(given["blocks"]))


def draws_of(seed: int, number: int) -> Draws:
    """The draws of a seed with this number."""
    return Draws(seed.to_bytes(8, "big").ljust(32, b"\0"), LABEL, number)


def scene(given: Settings, seed: int) -> Script:
    """The plan of a run: the first peers are honest, the last ones corrupt."""
    script, draws, peers = Script(), draws_of(seed, 0), range(1, given["peers"] + 1)
    honest = peers[: len(peers) - given["corrupt"]]
    script.add("lockss", 1)
    script.add(*rules_words(**{name: given[name] for name in BOUNDS}))
    script.add("au", AU, given["blocks"])
    for peer in peers:
        kind = "honest" if peer in honest else "corrupt"
        script.add("peer", peer, kind, seed.to_bytes(8, "big") + peer.to_bytes(2, "big"), b"\1")
    for peer in honest:
        script.add("copy", peer, AU, *([good_blocks(given)] if peer == 1 else ["like", 1]))
        for name, among in (("refs", peers), ("friends", honest)):
            picked = draws.pick([it for it in among if it != peer], given[name])
            if picked:
                script.add(name, peer, *picked)
    for peer in honest:
        if draws.below(100) < given["damage"]:
            script.add("damage", peer, AU, draws.below(given["blocks"]), [bytes([200 + peer]) * 15])
    return script


class Course:
    """A run that goes on, as it is known by replaying it: its polls that are open or shut, and its sessions."""

    def __init__(self, strategy: str, given: Settings, seed: int) -> None:
        self.given, self.script, self.draws = given, scene(given, seed), draws_of(seed, 1)
        self.clock = 0
        plan = self.script.plan
        own = {it.id: it for it in plan.peers.values() if not it.honest}
        self.own, self.honest = replace(plan, peers=own), [it.id for it in plan.honest()]
        known = Known(tuple(own), tuple(self.honest), AU, good_blocks(given), plan.rules, draws_of(seed, 2))
        self.strategy = STRATEGIES[strategy](known)
        self.report, self.journals, self.read = report.Report(), journal.Journals(self.script), Counter[int]()
        # the number of events at the end of each round
        self.rounds: list[int] = []
        # votes of running polls; those that wait for a block, and whether they were nudged; those to be tallied
        self.votes: Counter[PollName] = Counter()
        self.asked: dict[PollName, bool] = {}
        self.ready: dict[PollName, None] = {}
        # sessions by voter and poll: the round in which each was joined, and those that are to work
        self.sessions: dict[tuple[int, PollName], int] = {}
        self.to_work: dict[tuple[int, PollName], None] = {}

    def play(self) -> None:
        """Plays the rounds, or as many as there is room for where each takes as many events as the one before it."""
        events = self.report.events
        while len(self.rounds) < self.given["rounds"]:
            *_, before, last = [0, 0, *self.rounds]
            if 2 * last - before > MOST_EVENTS:
                return
            self._round()
            self.rounds.append(len(events))

    def _round(self) -> None:
        """Old sessions are ended, each honest peer calls a poll, in an order that is drawn, and looks what is overdue."""
        rest, age = self.honest.copy(), self.given["expire"]
        old = [it for it, joined in self.sessions.items() if age and joined <= len(self.rounds) - age]
        self._do(("expire", voter, *poll) for voter, poll in old)
        while rest:
            pollers = [rest.pop(self.draws.below(len(rest))) for _ in range(min(self.given["together"], len(rest)))]
            self._wait()
            self._do(("open", peer, AU) for peer in pollers)
            late = [it for it, votes in self.votes.items() if votes < self.given["quorum"]]
            self._do([("nudge", *it) for it in late] + [("outer", *it) for it in self.votes])
            self._do([(name, *it) for it in self.votes for name in ("shut", "tally")])
            while self.asked and len(self.report.events) < MOST_EVENTS:
                waiting, self.asked = self.asked, dict.fromkeys(self.asked, True)
                self._do([("give-up" if is_nudged else "nudge", *it) for it, is_nudged in waiting.items()])
        self._do(("check", peer) for peer in self.honest)

    def _wait(self) -> None:
        """The clock moves on, and the strategy may act before anybody else does."""
        self.script.add("tick", self.given["gap"])
        self.clock += self.given["gap"]
        for words in self._ask([]):
            self.script.add(*words)

    def _do(self, steps: Iterable[Words]) -> None:
        """Does these steps, and lets network, strategy and work go on until nobody has anything left to do."""
        lines = list(steps)
        while lines:
            before = len(self.report.events)
            for words in (*lines, *self.strategy.meanwhile(), ("next", MOST_EVENTS)):
                self.script.add(*words)
            self._catch_up()
            if len(self.report.events) == before:
                return
            lines = self._ask(self.report.events[before:])
            lines += [("work", voter, *poll) for voter, poll in self.to_work] + [("tally", *poll) for poll in self.ready]

    def _catch_up(self) -> None:
        """Reads the events that the program tells of the script beyond those that were read before."""
        told = play.told("replay", self.script.text())
        for line in told.split("\n")[len(self.report.events) + 1 :]:
            if not line[0].isdigit():
                return
            report.add_line(self.report, line)
            event = self.report.events[-1]
            for note in event.notes:
                self._note(event.values["peer"], note)

    def _bag(self) -> message.Bag:
        """The messages of the run so far. Of the journals what was read before isn't read again."""
        for line in play.told("journals", self.script.text()).split("\n"):
            if line.startswith("journal "):
                _, peer, frames = line.split(" ")
                new = journal.read_frames(bytes.fromhex(frames[self.read[int(peer)] :]))
                self.journals.batches.setdefault(int(peer), []).extend(new)
                # the closed gate at the end is opened by the next batch
                self.read[int(peer)] = len(frames) - 2
        return message.Bag(self.script, self.report, self.journals)

    def _note(self, peer: int, note: report.Note) -> None:
        """What a record means for the polls and sessions that go on."""
        poll = PollName(note.values.get("poller", peer), note.values.get("number", 0))
        if note.name == "opened":
            self.votes[poll] = 0
        elif note.name == "vote-in":
            self.votes[poll] += 1
        elif note.name == "asked":
            self.asked[poll] = False
            self.ready.pop(poll, None)
        elif note.name in ("shut", "replaced", "repair-bad"):
            self.ready[poll] = None
            self.asked.pop(poll, None)
        elif note.name == "closed":
            del self.votes[poll]
            self.ready.pop(poll, None)
        elif note.name == "joined":
            self.sessions[peer, poll] = len(self.rounds)
        elif note.name == "committed":
            self.to_work[peer, poll] = None
        elif note.name in ("voted", "ended"):
            self.to_work.pop((peer, poll), None)
            if note.name == "ended":
                del self.sessions[peer, poll]

    def _ask(self, events: list[report.Event]) -> list[Words]:
        """What the strategy says when it is told what its peers received in these events."""
        came = [it.values for it in events if it.name == "deliver" and it.peer in self.own.peers]
        bag = self._bag() if came else None
        received = tuple(play.Received(it["sender"], it["peer"], bag.message(it["message"])) for it in came)
        said = list(self.strategy.act(play.Told(self.clock, self.own, received)))
        if any(words[0] not in ("say", "forge") or words[1] not in self.own.peers for words in said):
            raise ValueError("a strategy says and forges as its own peers alone")
        return said
