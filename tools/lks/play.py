"""The program, runs of it, and runs in which a strategy answers what its peers receive."""

from __future__ import annotations

import functools
import pathlib
import subprocess
from collections.abc import Iterable, Sequence
from dataclasses import replace
from typing import NamedTuple, Protocol

from lks import journal, message, report
from lks.plan import Plan
from lks.script import Script, Word, read

TOP = pathlib.Path(__file__).resolve().parents[2]


class Failed(RuntimeError):
    """The program isn't there, or ended as no run does that was told whole."""


# How the program ended, and what it wrote.
Ended = NamedTuple("Ended", [("status", int), ("out", bytes), ("err", bytes)])


@functools.cache
def program() -> pathlib.Path:
    """The program. Where it isn't built, bin/lockss proves and builds it first, and tells a terminal how far that is."""
    with open(TOP / "examples/agreed.lockss", "rb") as script:
        tried = subprocess.run([TOP / "bin/lockss", "replay"], stdin=script, stdout=subprocess.DEVNULL, check=False)
    if tried.returncode != 0:
        raise Failed("bin/lockss has no program")
    return TOP / "crates/lockss/out/lockss"


def run(*words: str, data: bytes = b"") -> Ended:
    """The program with these words and this standard input."""
    ended = subprocess.run([program(), *words], input=data, capture_output=True, check=False)
    return Ended(ended.returncode, ended.stdout, ended.stderr)


def told(command: str, script: str) -> str:
    """What the program writes of a script, by `replay` or `journals`."""
    ended = run(command, data=script.encode("latin-1"))
    if ended.status not in (0, 1):
        raise Failed(ended.err.decode(errors="replace").strip())
    return ended.out.decode()


class Run:
    """A script, perhaps with one line more, what the program tells of it, the report and the journals, and its messages."""

    def __init__(self, script: Script, more: str = "") -> None:
        self.script = script
        self.report = report.read(told("replay", script.text() + more))
        self.journals = journal.read(told("journals", script.text() + more).encode())
        self.bag = message.Bag(script, self.report, self.journals)


# A message that a peer of a strategy received, or its bytes where they spell none.
Received = NamedTuple("Received", [("sender", int), ("receiver", int), ("message", message.Message)])
# What a strategy is told: the clock, the plan with its own peers alone, and what these received since it was last told.
Told = NamedTuple("Told", [("tick", int), ("own", Plan), ("received", tuple[Received, ...])])


class Strategy(Protocol):
    """Who moves corrupt peers, as those of `attack.strategies`. It is to answer the same whenever it is told the same."""

    def act(self, what: Told) -> Iterable[Sequence[Word]]:
        """The words of `say` and `forge` lines that its peers send now."""


class Play:
    """A run that goes on step by step, in which a strategy moves these peers.

    The strategy is asked after each step, and within `settle` and `finish` after each message that reaches one of its peers:
    these are done by single steps, which are known by replaying them. `script` is the run so far, and replays alone.
    """

    def __init__(self, script: Script, strategy: Strategy, peers: Iterable[int]) -> None:
        self.script, self.strategy = read(script.text().encode("latin-1")), strategy
        self.own = replace(script.plan, peers={peer: script.plan.peers[peer] for peer in peers})
        self.heard = len(Run(script).report.events)

    def step(self, *words: Word) -> None:
        """Does a step."""
        while words[0] in ("settle", "finish") and self._go_on(f"{words[0]}\n"):
            pass
        self.script.add(*words)
        run = Run(self.script)
        self._tell(run, run.report.events[self.heard :])

    def _reaches(self, event: report.Event) -> bool:
        return event.name == "deliver" and event.peer in self.own.peers

    def _go_on(self, line: str) -> bool:
        """Does what this line does up to the first message that reaches a peer of the strategy, if one does."""
        run = Run(self.script, line)
        ahead = run.report.events[self.heard :]
        reached = next((place for place, event in enumerate(ahead, 1) if self._reaches(event)), 0)
        for event in ahead[:reached]:
            self.script.add(*(["next"] if event.name == "deliver" else [event.name, *event.values.values()]))
        if reached:
            self._tell(run, ahead[:reached])
        return reached > 0

    def _tell(self, run: Run, events: list[report.Event]) -> None:
        """Tells the strategy what its peers received in these new events of a run, and adds what they send."""
        new = [event.values for event in events if self._reaches(event)]
        received = tuple(Received(it["sender"], it["peer"], run.bag.message(it["message"])) for it in new)
        self.heard += len(events)
        clock = ([0] + run.report.ticks()[: self.heard])[-1]
        for words in self.strategy.act(Told(clock, self.own, received)):
            if words[0] not in ("say", "forge") or words[1] not in self.own.peers:
                raise ValueError(f"a strategy says and forges as its own peers: {words}")
            self.script.add(*words)
            self.heard += 1
