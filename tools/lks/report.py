"""Reports (docs/FORMATS.md, "The report"): events, notes, copies, polls and alarms."""

from __future__ import annotations

import re
from collections.abc import Iterator
from dataclasses import dataclass, field
from itertools import accumulate
from typing import NamedTuple

from lks.fields import PollName

# What the words behind the name of an event are. `peer` is the one whose event it is.
EVENTS = {"open": "peer au", "tune": "peer quorum minority repairs", "tick": "ticks"}
EVENTS |= {"lose": "message", "deliver": "message sender peer", "forge": "peer receiver length"}
EVENTS |= dict.fromkeys(("outer", "shut", "tally", "nudge", "give-up"), "peer number")
EVENTS |= dict.fromkeys(("work", "expire"), "peer poller number") | dict.fromkeys(("check", "crash"), "peer")
# The same of notes. Those with a poller are of polls of others.
NOTES = {"opened": "number au", "shut": "number", "closed": "number outcome", "outer": "number count", "overdue": "au"}
NOTES |= {"replaced": "number au block length", "tuned": "quorum minority repairs"}
NOTES |= dict.fromkeys(("vote-in", "nominated"), "number voter")
NOTES |= dict.fromkeys(("asked", "repair-bad"), "number block voter")
NOTES |= {"joined": "poller number au grade", "committed": "poller number version", "served": "poller number block"}
NOTES |= dict.fromkeys(("voted", "ended"), "poller number")
# Words that are no numbers.
OUTCOME = "agreed|inquorate|(?:split|no-supplier)-[0-9]+"
WORDS = {"outcome": OUTCOME, "grade": "low|high"}
EVENT = re.compile(r"([0-9]+) (?:cut (kept|lost) )?([^|]+?)(?: (accepted|refused))? \| ([^|]+) \| ([0-9]+)")
COPY = re.compile("copy ([0-9]+) ([0-9]+) ([0-9]+)")
POLL = re.compile(f"poll {'([0-9]+) ' * 5}({OUTCOME}|running)")
ALARM = re.compile("alarm [0-9]+ [0-9]+ (?:(?:split|no-supplier) [0-9]+ [0-9]+|overdue [0-9]+)")


class BadReport(ValueError):
    """What no report says there."""


# A record that a peer wrote: its text and name, its numbers by what they are, and its outcome or grade if it has one.
Note = NamedTuple("Note", [("text", str), ("name", str), ("values", dict[str, int]), ("word", str)])


@dataclass(frozen=True)
class Event:
    """A line of a report. `judged` may be `accepted` or `refused`, and `cut` may be `kept` or `lost`."""

    number: int
    name: str
    values: dict[str, int]
    notes: tuple[Note, ...]
    sends: int
    judged: str
    cut: str

    @property
    def peer(self) -> int | None:
        """Whose event it is; none where the clock moves on or a message is lost."""
        return self.values.get("peer")


# An alarm: `numbers` are a poll and a block, or an AU.
Alarm = NamedTuple("Alarm", [("peer", int), ("tick", int), ("kind", str), ("numbers", tuple[int, ...])])
# A poll at the end, with its inner and outer votes.
PollEnd = NamedTuple("PollEnd", [("peer", int), ("number", int), ("au", int), ("inner", int), ("outer", int), ("outcome", str)])


@dataclass
class Report:
    """A whole report. `copies` has how many blocks of each peer's copy of each AU were replaced, and `senders` for each
    message the event that sent it."""

    events: list[Event] = field(default_factory=list)
    copies: dict[tuple[int, int], int] = field(default_factory=dict)
    polls: list[PollEnd] = field(default_factory=list)
    alarms: list[Alarm] = field(default_factory=list)
    senders: list[Event] = field(default_factory=list)

    def notes(self) -> Iterator[tuple[Event, Note]]:
        """All notes in order, each with its event."""
        return ((event, note) for event in self.events for note in event.notes)

    def ticks(self) -> list[int]:
        """The clock after each event."""
        return list(accumulate(event.values.get("ticks", 0) for event in self.events))


def _said(kinds: dict[str, str], text: str) -> tuple[str, dict[str, int], str]:
    """The name, the numbers and the other word of what is told as one of these kinds."""
    name, *words = text.split(" ")
    names = kinds.get(name, "?").split()
    pattern = " ".join(f"({WORDS.get(what, '[0-9]+')})" for what in names)
    if not re.fullmatch(pattern, " ".join(words)):
        raise BadReport(f"nothing is told as `{text}`")
    values = {what: int(word) for what, word in zip(names, words) if what not in WORDS}
    return name, values, "".join(word for what, word in zip(names, words) if what in WORDS)


def add_line(report: Report, line: str) -> None:
    """Adds a line behind the first and before the last one."""
    if parts := EVENT.fullmatch(line):
        number, cut, text, judged, notes, sends = parts.groups(default="")
        name, values, _ = _said(EVENTS, text)
        told = () if notes == "-" else tuple(Note(note, *_said(NOTES, note)) for note in notes.split(", "))
        if int(number) != len(report.events) + 1 or report.copies or report.polls or report.alarms:
            raise BadReport("an event out of its place")
        if values.get("message", -1) >= len(report.senders):
            raise BadReport(f"no message {values['message']} was sent")
        report.events.append(Event(int(number), name, values, told, int(sends), judged, cut))
        report.senders += [report.events[-1]] * int(sends)
    elif parts := COPY.fullmatch(line):
        report.copies[int(parts[1]), int(parts[2])] = int(parts[3])
    elif parts := POLL.fullmatch(line):
        report.polls.append(PollEnd(*map(int, parts.groups()[:5]), parts[6]))
    elif ALARM.fullmatch(line):
        _, peer, tick, kind, *numbers = line.split(" ")
        report.alarms.append(Alarm(int(peer), int(tick), kind, tuple(map(int, numbers))))
    else:
        raise BadReport("it isn't a line of a report")


def read(text: str) -> Report:
    """The report that this text is. A front of one is refused."""
    *lines, rest = text.split("\n")
    if lines[:1] != ["lockss report 1"]:
        raise BadReport("line 1: it isn't `lockss report 1`")
    report = Report()
    for place, line in enumerate(lines[1:], 2):
        if line == f"end {len(report.events)}" and place == len(lines) and not rest:
            return report
        try:
            add_line(report, line)
        except BadReport as fault:
            raise BadReport(f"line {place}: {fault}") from None
    raise BadReport("it isn't whole: its last line isn't `end` and the number of events")


def polls_of(report: Report) -> list[PollName | None]:
    """The poll of each event as far as it is told. A message is of the poll of the event that sent it; what a corrupt peer
    sent, of the poll that its delivery notes."""
    found: dict[int, PollName | None] = {}
    for event in report.events:
        told = [{"poller": event.peer} | it for it in (event.values, *(note.values for note in event.notes)) if "number" in it]
        poll = PollName(told[0]["poller"], told[0]["number"]) if told else None
        if "message" in event.values:
            sender = report.senders[event.values["message"]].number
            found[sender] = found[sender] or poll
            poll = poll or found[sender]
        found[event.number] = poll
    return list(found.values())


def ending(told: bytes) -> bytes:
    """The lines behind the title and the events of a report."""
    return b"".join(line for line in told.splitlines(keepends=True)[1:] if not line[:1].isdigit())
