"""A network from its start to its end."""

from __future__ import annotations

import asyncio
import gc
import os
import pathlib
import resource
import shutil
import signal
import threading
import time
from collections import Counter, deque
from collections.abc import Callable, Iterator
from dataclasses import dataclass
from datetime import UTC, datetime, timedelta

from lks.script import Script
from net import judging
from net.chaos import Chaos
from net.doctor import Doctor
from net.liars import Liars
from net.peers import LEAST_BETWEEN, Peer, adopt, give_back, share_heap, ticks
from net.scenes import own_plan
from net.telling import Line, Tail, Teller
from net.watching import Watch
from net.weather import Weather
from net.wires import Wires
from peer.log import Log

# So many seconds lie between two looks. So old a line has to be before it is told: by then all earlier ones are there.
EVERY, BEHIND = 2, timedelta(seconds=1)
# After so many looks it is swept: what ended links leave refers to itself, and else waits until it is a quarter of all. Ten
# seconds of it are little beside what a network holds.
SWEEP = 5
# So many seconds it rests before it looks whether it is over, and so many that it may sleep longer than it wanted.
REST, MOST_LAG = 0.2, 2.0


@dataclass(frozen=True)
class Wanted:
    """What is asked for. It runs `seconds`, or without an end, and then in calm until no block is bad, for `settle` seconds at
    most. A tick has `tick` seconds, and a peer opens a poll on an AU every `between` ticks."""

    node: pathlib.Path
    folder: pathlib.Path
    strategy: str
    seconds: float | None
    settle: float
    tick: float
    between: int
    chaos: int | None
    doctor: int | None


class Net:
    """All of it. `faults` are what can't be explained, once `lines` are told."""

    def __init__(self, script: Script, wanted: Wanted) -> None:
        self.wanted, self.plan, top, seed = wanted, script.plan, wanted.folder, wanted.chaos
        if not self.plan.honest():
            raise ValueError("the plan has no honest peer")
        if wanted.tick < 0.01 or wanted.between < LEAST_BETWEEN:
            raise ValueError(f"a tick has at least 0.01 seconds, and between two polls are at least {LEAST_BETWEEN}")
        if top.exists() and any(top.iterdir()):
            raise ValueError(f"{top} isn't empty")
        for name in ("", "peers", "wires"):
            (top / name).mkdir(mode=0o700, exist_ok=True, parents=True)
        (top / "plan.lockss").write_text(script.text())
        wires = {peer: top / "wires" / str(peer) for peer in self.plan.peers}
        self.peers = {it.id: Peer(top, it.id, wanted.node, ticks(wanted.between)) for it in self.plan.honest()}
        for number, it in self.peers.items():
            others = {peer: path for peer, path in wires.items() if peer != number}
            it.give(own_plan(self.plan, number), others, time.time(), wanted.tick)
        # what the links told, and lines that are too young to be told
        self.own, self.young, self.telling = deque[Line](), list[Line](), threading.Lock()
        self.weather = Weather(seed, self.plan.peers)
        self.liars = Liars(self.plan, wanted.strategy, seed or 0, wires, self._own)
        doors = {number: it.socket for number, it in self.peers.items()}
        self.wires = Wires(top / "wires", doors, self.weather, self.liars.hear, self._own)
        self.deeds = Log(open(top / "deeds", "w", encoding="ascii"))
        given = self.plan, self.peers, self._deed
        self.chaos = None if seed is None else Chaos(seed, *given, self.weather, self.wires)
        self.doctor = None if wanted.doctor is None else Doctor(wanted.doctor, *given, top / "doctor")
        self.watch = Watch(top / "samples.csv")
        self.tails = [Tail(number, it.told) for number, it in self.peers.items()]
        self.teller = Teller(self.plan, {number: it.journal for number, it in self.peers.items()}, top / "report")
        self.faults: list[str] = []
        self.stopping, self.is_over = asyncio.Event(), False
        self.begun, self.ran, self.lag = time.monotonic(), 0.0, 0.0

    def _own(self, what: str, **values: object) -> None:
        """A line of the links."""
        now = datetime.now(UTC).isoformat(timespec="milliseconds").replace("+00:00", "Z")
        self.own.append(Line(now, 0, {"what": what, **{name: str(it) for name, it in values.items()}}))

    def _deed(self, what: str, **values: object) -> None:
        """Something that was done to peers or links."""
        self.deeds(what, **values)
        if what == "killed":
            self._own(what, **values)

    async def run(self) -> None:
        """Runs it, and ends all processes whatever comes."""
        adopt()
        share_heap()
        most = resource.getrlimit(resource.RLIMIT_NOFILE)[1]
        resource.setrlimit(resource.RLIMIT_NOFILE, (most, most))
        for number in (signal.SIGTERM, signal.SIGINT):
            asyncio.get_running_loop().add_signal_handler(number, self.stopping.set)
        await self.wires.listen(self.plan.peers)
        doers = [it for it in (self.chaos, self.doctor) if it is not None]
        tasks = [asyncio.create_task(it) for it in (self.liars.run(), self._look())]
        doing = [asyncio.create_task(it.run()) for it in doers]
        try:
            for it in self.peers.values():
                it.start()
            await self._until(self.wanted.seconds, lambda: any(it.done() for it in [*tasks, *doing]))
            for doer in doers:
                doer.over.set()
            await asyncio.gather(*doing)
            self.weather.calm()
            await self._until(self.wanted.settle, lambda: not self.teller.bad or any(it.done() for it in tasks))
        finally:
            await self._end([*tasks, *doing])

    async def _until(self, seconds: float | None, is_over: Callable[[], bool]) -> None:
        """Waits so long, or until it is told to stop, or this is over."""
        end = None if seconds is None else time.monotonic() + seconds
        while not self.stopping.is_set() and not is_over() and (end is None or time.monotonic() < end):
            begun = time.monotonic()
            await asyncio.sleep(REST)
            self.lag = max(self.lag, time.monotonic() - begun - REST)

    async def _end(self, tasks: list[asyncio.Task[None]]) -> None:
        self.ran, self.is_over = time.monotonic() - self.begun, True
        stopped = await asyncio.gather(*(asyncio.to_thread(it.rest) for it in self.peers.values()), return_exceptions=True)
        self.faults += [str(it) for it in stopped if isinstance(it, BaseException)]
        for task in tasks:
            task.cancel()
        ended = await asyncio.gather(*tasks, return_exceptions=True)
        await self.wires.close()
        self._take("~")
        self.teller.end()
        self.watch.progress(is_over=True)
        for file in (self.watch.file, self.deeds.file):
            file.close()
        for it in ended:
            if isinstance(it, Exception):
                raise it

    async def _look(self) -> None:
        """Tells what there is to tell, every other second."""
        while not self.is_over:
            await asyncio.sleep(EVERY)
            until = (datetime.now(UTC) - BEHIND).isoformat(timespec="milliseconds")
            await asyncio.to_thread(self._take, until)
            for it in self.peers.values():
                if not self.is_over and not it.lock.locked() and it.daemon is not None and not it.is_up:
                    self.faults.append(f"peer {it.number} ended by itself with {it.daemon.wait()}: {it.told}")
                    it.daemon = None
            if not self.is_over:
                self._sample()
            if self.watch.count % SWEEP == 0:
                gc.collect()
                give_back()

    def _take(self, until: str) -> None:
        """Tells the lines from before a time."""
        # the last time while a thread may be at it
        with self.telling:
            own = [self.own.popleft() for _ in range(len(self.own))]
            lines = [*self.young, *own, *(line for tail in self.tails for line in tail.lines())]
            self.young = [it for it in lines if it.time >= until]
            self.teller.tell(it for it in lines if it.time < until)

    def _sample(self) -> None:
        """Measures all processes."""
        daemons = [it.daemon.pid for it in self.peers.values() if it.daemon is not None and it.is_up]
        nodes = [process for it in self.peers.values() for process in it.nodes()]
        told = self.teller.counts
        counts = {"up": len(nodes)} | {name: told[name] for name in ("polls", "agreed", "replaced", "alarms")}
        counts |= {"bad blocks": len(self.teller.bad), "frames": self.wires.counts["out"]}
        kinds = {"nodes": nodes, "daemons": daemons, "the network's own process": [os.getpid()]}
        self.watch.add(int(time.monotonic() - self.begun), counts, kinds, len(self.teller.messages))
        self.watch.progress()

    def lines(self) -> Iterator[str]:
        """What there was."""
        told, frames, seconds = self.teller.counts, self.wires.counts["out"], max(1.0, self.ran)
        yield f"{seconds:.0f} seconds, {len(self.peers)} honest peers, {len(self.liars.own.peers)} corrupt ({self.wanted.strategy})"
        outcomes = ", ".join(f"{told[name]} {name}" for name in ("agreed", "inquorate", "split", "no-supplier"))
        yield f"{told['polls']} polls: {outcomes}; {told['alarms']} alarms; {told['replaced']} blocks replaced"
        yield f"{frames} frames came through, {frames / seconds:.0f} a second; {self.teller.count} events"
        yield f"{len(self.teller.bad)} blocks are bad at the end"
        if self.lag > MOST_LAG:
            yield f"the machine was too busy: what carries the frames came {self.lag:.1f} seconds late"
        for doer in (self.chaos, self.doctor):
            yield from doer.lines() if doer is not None else ()
        yield from self.watch.growth()
        found = judging.ends(self.peers.values())
        yield "ends of nodes and daemons: " + ", ".join(f"{status} {count} times" for status, count in sorted(found.items()))
        said = judging.checkers(self.wanted.folder)
        yield from (f"{name}: {line}" for name, line in said.items())
        self._judge(found, said)

    def _judge(self, found: Counter[int], said: dict[str, str]) -> None:
        killed = self.chaos.killed() if self.chaos else 0
        self.faults += judging.unexplained(found, killed) + (self.doctor.faults if self.doctor else [])
        self.faults += [f"{name} doesn't say yes" for name, line in said.items() if not line.startswith("evidence yes")]
        if self.teller.strange:
            self.faults.append(f"{self.teller.strange} messages came that nobody sent")


def run(script: Script, wanted: Wanted) -> Net:
    """A network that ran to its end."""
    made = Net(script, wanted)
    asyncio.run(made.run())
    shutil.rmtree(wanted.folder / "wires", ignore_errors=True)
    return made
