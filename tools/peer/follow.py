"""A journal file as it grows, and what its records come to."""

from __future__ import annotations

import mmap
import os
import pathlib
from collections.abc import Iterator
from dataclasses import dataclass

from files import disk
from files.disk import Damaged
from lks import journal
from lks.fields import HASHES, BadBytes, Family, Field, PollName, listed, number, whole
from lks.journal import OPEN, Record
from lks.plan import Plan

# The hashes of votes are most of a journal, and nothing here asks for them.
_COUNT = number(2, 512)
_PASSED = Field(lambda source: source.take(32 * _COUNT.read(source))[:0], lambda _: b"")
LIGHT = Family()
LIGHT.shapes = {
    head: (made, {name: _PASSED if part is HASHES else part for name, part in shape.items()})
    for head, (made, shape) in journal.RECORDS.shapes.items()
}
BATCH = listed(number(2, least=1), Field(LIGHT.read, LIGHT.write))


@dataclass
class Poll:
    """A poll that runs. `asked` is the place in the journal of its unanswered request, counted from 1."""

    au: int
    opened: int
    is_wide: bool = False
    is_shut: bool = False
    asked: int = 0


@dataclass
class Session:
    """A part in a poll of another that is open."""

    au: int
    joined: int
    is_committed: bool = False
    has_voted: bool = False


class State:
    """What records come to: the greatest tick, AUs that are held with the tick of the last poll on each, polls that run, sessions
    that are open; `count` counts records."""

    def __init__(self) -> None:
        self.tick = self.count = 0
        self.aus: dict[int, int | None] = {}
        self.polls: dict[int, Poll] = {}
        self.sessions: dict[PollName, Session] = {}

    def take(self, record: Record) -> None:
        """One record more."""
        self.count += 1
        self.tick = max(self.tick, getattr(record, "tick", 0))
        match record:
            case journal.Deposit():
                self.aus[record.au] = None
            case journal.PollOpened():
                self.aus[record.au] = record.tick
                self.polls[record.number] = Poll(record.au, record.tick)
            case journal.OuterOpened():
                self.polls[record.number].is_wide = True
            case journal.Shut():
                self.polls[record.number].is_shut = True
            case journal.Asked() | journal.RepairBad() | journal.Replaced():
                self.polls[record.number].asked = self.count if isinstance(record, journal.Asked) else 0
            case journal.Closed():
                del self.polls[record.number]
            case journal.Joined():
                self.sessions[record.poll] = Session(record.au, record.tick)
            case journal.Committed():
                self.sessions[record.poll].is_committed = True
            case journal.Voted():
                self.sessions[record.poll].has_voted = True
            case journal.Ended():
                del self.sessions[record.poll]


class Follower:
    """The journal of a peer in a file, read up to `gate`, the offset of its closed gate, and the state that it comes to."""

    def __init__(self, path: pathlib.Path, plan: Plan, peer: int) -> None:
        self.path, self.plan, self.peer = path, plan, peer
        self.gate = 0
        self.state = State()

    def records(self) -> Iterator[Record]:
        """The records behind what was read before, each once the state has it; or `Damaged`."""
        for record in self._behind():
            try:
                self.state.take(record)
            except KeyError:
                raise Damaged(self.gate, f"{type(record).__name__} stands before what it is about") from None
            yield record

    def _behind(self) -> Iterator[Record]:
        with open(self.path, "rb") as file:
            file.seek(self.gate)
            while (head := file.read(5))[:1] == OPEN:
                length = int.from_bytes(head[1:], "big")
                body = file.read(length)
                if len(head) + len(body) < 5 + length or not file.peek(1):
                    raise Damaged(self.gate, "its length, its body or the next gate passes the end")
                try:
                    batch = whole(BATCH.read, body)
                except BadBytes as fault:
                    raise Damaged(self.gate, f"its body is no batch: {fault}") from None
                yield from batch
                self.gate += 5 + length

    def look(self, passed: int | None = None) -> None:
        """Reads on, and raises `Damaged` where a gate is doubtful: one that was open before is closed, or more stands behind the
        closed one than an append leaves. Behind the gate that someone passed all is cut off. No file is a new journal."""
        size, at = self.path.stat().st_size if self.path.exists() else 0, 0
        if size > self.gate > 0:
            with open(self.path, "rb") as file, mmap.mmap(file.fileno(), 0, access=mmap.ACCESS_READ) as data:
                while at < self.gate and data[at : at + 1] == OPEN:
                    at += 5 + int.from_bytes(data[at + 1 : at + 5], "big")
        if at != self.gate:
            raise Damaged(at, f"it was whole up to offset {self.gate} before")
        if size > 0:
            for _ in self.records():
                pass
            if self.gate == passed:
                os.truncate(self.path, self.gate + 1)
            disk.doubt(self.plan, self.peer, self.state.aus, self.gate, self.path.stat().st_size)
