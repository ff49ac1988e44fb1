"""The log of all events of a network, in order, as the events of a report (docs/FORMATS.md, "The report").

It is made of the lines that daemons told and the links' own, while the run goes on, and of the journals: each of their records
is a note of one event. Records that no line tells, since their node was killed before its reply, stand with the crash.
"""

from __future__ import annotations

import pathlib
from collections import Counter, deque
from collections.abc import Iterable, Iterator, Mapping
from itertools import takewhile
from typing import NamedTuple

from lks import journal
from lks.fields import whole
from lks.journal import OPEN, Record
from lks.plan import Plan
from lks.report import NOTES
from peer import follow, log

# The events of steps, with the values behind the peer's own number.
STEPS = {"open": ["au"], "check": [], "work": ["peer", "poll"], "expire": ["peer", "poll"]}
STEPS |= dict.fromkeys(("outer", "shut", "tally", "nudge", "give-up"), ["poll"])
# What notes call a record, where it isn't the record's own name.
NOTED = {"pollopened": "opened", "votein": "vote-in", "repairbad": "repair-bad", "outeropened": "outer"}
# After so many looks a message is forgotten. In a network that is after four minutes, and a link that ended is away for one
# at most. By looks and not by messages: so a long run holds what a short one does.
MOST_LOOKS = 120

# What was told, when and by whom: the peer of a daemon, or 0 for the links.
Line = NamedTuple("Line", [("time", str), ("own", int), ("values", dict[str, str])])
# A message: its sender, its receiver, and the mark of its bytes.
Key = tuple[int, int, str]


class Tail:
    """The lines of a log as it grows."""

    def __init__(self, own: int, path: pathlib.Path) -> None:
        self.own, self.path, self.at = own, path, 0

    def lines(self) -> Iterator[Line]:
        """Those that are new and whole."""
        if not self.path.exists():
            return
        with open(self.path, "rb") as file:
            file.seek(self.at)
            data = file.read()
        size = data.rfind(b"\n") + 1
        self.at += size
        for line in data[:size].decode(errors="replace").splitlines():
            values = log.read(line)
            if {"what", "time"} <= values.keys():
                yield Line(values["time"], self.own, values)


class Reader:
    """The batches of a journal as it grows, without the hashes of votes."""

    def __init__(self, path: pathlib.Path) -> None:
        self.path, self.gate = path, 0

    def upto(self, gate: float) -> list[list[Record]]:
        """Those before this gate, or before the closed one, that weren't read yet."""
        found: list[list[Record]] = []
        if gate <= self.gate or not self.path.exists():
            return found
        with open(self.path, "rb") as file:
            file.seek(self.gate)
            while self.gate < gate and (head := file.read(5))[:1] == OPEN:
                body = file.read(int.from_bytes(head[1:], "big"))
                self.gate += len(head) + len(body)
                found.append(whole(follow.BATCH.read, body))
        return found


def note_of(it: Record) -> str:
    """A record as a report notes it."""
    name, values = type(it).__name__.lower(), dict(vars(it))
    name = NOTED.get(name, name)
    if "poll" in values:
        values |= {"poller": it.poll.poller, "number": it.poll.number}
    values |= {"length": len(values.get("content", "")), "count": len(values.get("outer", ""))}
    values["grade"] = "low" if values.get("low") else "high"
    if isinstance(it, journal.Tuned):
        values |= it.limits._asdict()
    return " ".join([name, *(str(values[what]) for what in NOTES[name].split())])


class Messages:
    """The numbers of messages, by which a report tells of them, in the order of sending."""

    def __init__(self) -> None:
        self.count = 0
        # how many were sent before each of the latest looks
        self.looks = deque([0] * MOST_LOOKS, MOST_LOOKS)
        # those that wait, by keys in the order in which their last one was sent; and the last one of each key that came
        self.waiting: dict[Key, list[int]] = {}
        self.came: dict[Key, int] = {}

    def __len__(self) -> int:
        """How many keys are known."""
        return len(self.waiting) + len(self.came)

    def send(self, key: Key) -> None:
        """One more was sent."""
        self.waiting[key] = [it for it in self.waiting.pop(key, []) if it >= self.looks[0]] + [self.count]
        self.count += 1

    def look(self) -> None:
        """One look more: those of before all that are known are forgotten."""
        self.looks.append(self.count)
        for key in list(takewhile(lambda it: self.waiting[it][-1] < self.looks[0], self.waiting)):
            del self.waiting[key]
        for key in list(takewhile(lambda it: self.came[it] < self.looks[0], self.came)):
            del self.came[key]

    def take(self, key: Key) -> int | None:
        """The first that waits, which does so no more; or the one that came last; or none, where there is neither."""
        if numbers := self.waiting.get(key):
            self.came.pop(key, None)
            self.came[key] = numbers.pop(0)
            if not numbers:
                del self.waiting[key]
        return self.came.get(key)


class Teller:
    """Writes the report, and counts what the journals come to. `bad` has the blocks that aren't as published."""

    def __init__(self, plan: Plan, journals: Mapping[int, pathlib.Path], path: pathlib.Path) -> None:
        self.published = {au: plan.published(au) for au in plan.aus}
        copies = [(peer.id, au, blocks) for peer in plan.honest() for au, blocks in peer.copies.items()]
        blocks = [(peer, au, at, it) for peer, au, held in copies for at, it in enumerate(held)]
        self.bad = {(peer, au, at) for peer, au, at, it in blocks if it != self.published[au][at]}
        self.readers = {peer: Reader(it) for peer, it in journals.items()}
        self.file = open(path, "w", encoding="ascii")
        self.file.write("lockss report 1\n")
        self.messages, self.crashed, self.counts = Messages(), set[int](), Counter[str]()
        # events, the clock, and messages that came though no line tells that they were sent
        self.count = self.tick = self.strange = 0

    def tell(self, lines: Iterable[Line]) -> None:
        """Tells what these lines say: those of one peer in their order, all in that of time, and of two of the same
        millisecond first the one that sent the message of the other."""
        queues: dict[int, deque[Line]] = {}
        for line in lines:
            queues.setdefault(line.own, deque()).append(line)
        while queues:
            own = min(queues, key=lambda it: (queues[it][0].time, self._is_early(queues[it][0])))
            self._tell(queues[own].popleft())
            if not queues[own]:
                del queues[own]
        self.messages.look()
        self.file.flush()

    def end(self) -> None:
        """Tells what the journals have beyond that, and the end."""
        for own, reader in self.readers.items():
            self._come_back(own, reader.upto(float("inf")))
        self.file.write(f"end {self.count}\n")
        self.file.close()

    def _is_early(self, line: Line) -> bool:
        is_about = line.values["what"] in ("heard", "reached", "lost")
        return is_about and not any(self._key(line) in it for it in (self.messages.waiting, self.messages.came))

    def _key(self, line: Line) -> Key:
        """The message that a line is about."""
        it = line.values
        if "receiver" in it:
            return int(it["sender"]), int(it["receiver"]), it["mark"]
        is_sent = it.get("why") in ("queue", "no-link")
        return (line.own, int(it["peer"]), it["mark"]) if is_sent else (int(it["peer"]), line.own, it["mark"])

    def _tell(self, line: Line) -> None:
        values, own, notes = line.values, line.own, list[Record]()
        if (tick := int(values.get("tick", 0))) > self.tick:
            self._event(f"tick {tick - self.tick}", 0)
            self.tick = tick
        what = values["what"]
        if what in ("failed", "killed"):
            self.crashed.add(own or int(values["peer"]))
        if (gate := int(values.get("gate", values.get("bytes", 0)))) and own:
            batches = self.readers[own].upto(gate - ("bytes" in values))
            notes = batches.pop() if "notes" in values and batches else []
            self._come_back(own, batches)
        if what in STEPS:
            self._event(" ".join([what, str(own), *(values[it] for it in STEPS[what])]), own, notes, self._sends(line))
        elif what == "forged":
            self._event("forge {sender} {receiver} {length}".format(**values), 0, (), [self._key(line)])
        elif what in ("heard", "reached"):
            self._deliver(self._key(line), notes, self._sends(line))
        elif what in ("lost", "dropped") and "mark" in values and self._key(line) in self.messages.waiting:
            self._event(f"lose {self.messages.take(self._key(line))}", 0)

    def _sends(self, line: Line) -> list[Key]:
        to, marks = (line.values.get(it, "").split(",") for it in ("to", "marks"))
        return [(line.own, int(peer), mark) for peer, mark in zip(to, marks) if peer]

    def _come_back(self, own: int, batches: list[list[Record]]) -> None:
        """Tells of a crash, with what was kept of a step whose reply nobody had. Deposits are no event's."""
        untold = [it for batch in batches for it in batch if not isinstance(it, journal.Deposit)]
        if untold or own in self.crashed:
            self.crashed.discard(own)
            self._event(f"crash {own}", own, untold)

    def _deliver(self, key: Key, notes: list[Record], sends: list[Key]) -> None:
        if (number := self.messages.take(key)) is None:
            # a report tells who sent each message
            self.strange += 1
            self._event(f"forge {key[0]} {key[1]} 0", 0, (), [key])
            number = self.messages.take(key)
        self._event(f"deliver {number} {key[0]} {key[1]}", key[1], notes, sends)

    def _event(self, words: str, own: int, notes: Iterable[Record] = (), sends: Iterable[Key] = ()) -> None:
        self.count += 1
        told, keys = [note_of(it) for it in notes], list(sends)
        self.file.write(f"{self.count} {words} | {', '.join(told) or '-'} | {len(keys)}\n")
        for it in notes:
            self._count(own, it)
        for key in keys:
            self.messages.send(key)

    def _count(self, own: int, it: Record) -> None:
        match it:
            case journal.PollOpened():
                self.counts["polls"] += 1
            case journal.Replaced():
                self.counts["replaced"] += 1
                is_good = it.content == self.published[it.au][it.block]
                (self.bad.discard if is_good else self.bad.add)((own, it.au, it.block))
            case journal.Closed():
                self.counts[it.outcome.rstrip("0123456789").rstrip("-")] += 1
                self.counts["alarms"] += it.outcome not in ("agreed", "inquorate")
            case journal.Overdue():
                self.counts["alarms"] += 1
