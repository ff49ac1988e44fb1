"""A daemon that owns a node: it keeps its clock, takes the steps that are due, and hands messages on."""

from __future__ import annotations

import asyncio
import contextlib
import gc
import signal
import time

from files.disk import Damaged
from lks import journal, message
from lks.journal import Record
from lks.plan import LAST_NUMBER
from peer.config import Config
from peer.door import Door
from peer.follow import Follower
from peer.links import Link, Pause
from peer.log import Log, mark
from peer.node import MOST_FRAMES, MOST_TICKS, Ended, Node, Reply, status_of
from peer.schedule import Schedule

# Frames that are kept for steps where messages used up the others too early, and how many parts in polls of one poller may be
# open: it has no more AUs to open polls on.
KEPT_FRAMES, MOST_PARTS = 512, 4
# Starts take at most a tenth of the time: each is followed by so many times its length.
REST = 9


class Stop(Exception):
    """The status of a daemon that can't go on, and why, in a line."""


async def wait(event: asyncio.Event, seconds: float) -> None:
    """Waits for an event, so long at most."""
    with contextlib.suppress(TimeoutError):
        await asyncio.wait_for(event.wait(), max(0.0, seconds))


async def sweep() -> None:
    """Frees what waits and cancelled tasks left in cycles, once a minute, so that memory doesn't grow until Python does."""
    while True:
        await asyncio.sleep(60)
        gc.collect()


class Daemon:
    """A peer. `gate` is the offset of a doubtful gate that someone passed."""

    def __init__(self, config: Config, gate: int | None) -> None:
        self.config, self.gate, self.log = config, gate, Log()
        plan = config.plan
        held = [au for au in plan.aus if au in plan.peers[config.peer].copies]
        self.schedule = Schedule(config.schedule, held, plan.rules["outer"])
        self.follower = Follower(config.journal, plan, config.peer)
        self.woken, self.stopping = asyncio.Event(), asyncio.Event()
        self.door = Door([peer for peer in plan.peers if peer != config.peer], self.woken, self.log)
        self.links = {peer: Link(peer, it, self.log) for peer, it in config.links.items()}
        # the message that is with the node, and whether one that ended had it before
        self.left: tuple[int, bytes] | None = None
        self.is_repeated = False
        # the tick that the node was told; when its start was over, how long that took, and its tick
        self.told, self.started, self.cost, self.born = 0, 0.0, 0.0, 0

    def stop(self) -> None:
        """Ends the node at the end of its frame, and all else."""
        self.stopping.set()
        self.woken.set()

    async def run(self) -> None:
        """Keeps a node running until it is told to stop, or raises `Stop`."""
        for number in (signal.SIGTERM, signal.SIGINT):
            asyncio.get_running_loop().add_signal_handler(number, self.stop)
        server = await self.door.listen(self.config.socket)
        tasks = [asyncio.create_task(it) for it in (sweep(), *(link.run() for link in self.links.values()))]
        pause = Pause(0.1, 300.0)
        try:
            while not self.stopping.is_set():
                begun = time.monotonic()
                if (code := await self._live()) != 0:
                    await self._fail(code, pause.after(time.monotonic() - begun))
        finally:
            server.close()
            for task in tasks:
                task.cancel()
            await asyncio.gather(*tasks, return_exceptions=True)
            self.config.socket.unlink(missing_ok=True)
            self.log("stopped")

    async def _fail(self, code: int, pause: float) -> None:
        """Tells of a failure, and waits; or `Stop` where a start anew can't help."""
        status = status_of(code)
        if not status.is_passing:
            raise Stop(code, f"the node ended with {code}, {status.name}: {status.advice}")
        self.log("failed", status=code, name=status.name, advice=status.advice, pause=pause)
        await wait(self.stopping, pause)

    async def _live(self) -> int:
        """One life of a node: its status, 0 where it was ended between two frames."""
        config, node, begun = self.config, None, time.monotonic()
        try:
            await asyncio.to_thread(self.follower.look, self.gate)
            self.log.tick = max(self.log.tick, self.follower.state.tick)
            self.log("read", bytes=self.follower.gate + 1)
            self._move_clock()
            node = self.node = await Node.start(config.node, config.peer, config.journal, config.script)
            self.told = self.follower.state.tick
            await self._step("check")
            self.started, self.born = time.monotonic(), self.log.tick
            self.cost = self.started - begun
            self.log("started", seconds=f"{self.cost:.3f}", bytes=self.follower.gate + 1)
            while not self.stopping.is_set() and not self._is_over():
                await self._turn()
            status = await node.end()
            self.log("ended", status=status, frames=node.frames)
            return status
        except Ended as ended:
            status, reply = ended.args
            self._keep(status)
            if reply:
                self.log("no-reply", text=reply)
            return status or 1
        except Damaged as fault:
            raise Stop(1, f"{config.journal}: {fault}: RUNNING, A doubtful gate") from None
        finally:
            if node is not None:
                await node.kill()

    def _move_clock(self) -> None:
        """The clock by the wall time, by so much as one frame tells; where that falls, it stands still."""
        tick = min(int((time.time() - self.config.epoch) // self.config.seconds), LAST_NUMBER)
        if tick - self.log.tick > self.config.leap:
            raise Stop(1, f"tick {tick} by the machine's clock is far from {self.log.tick}: set that clock, or raise `leap`")
        self.log.tick = max(self.log.tick, min(tick, self.log.tick + MOST_TICKS))

    def _until_start(self) -> float:
        """Seconds until the node may be started anew."""
        return self.started + REST * self.cost - time.monotonic()

    def _is_over(self) -> bool:
        """Whether the node is to be started anew: two frames more might be too many, or a scrub is due."""
        is_due = self.node.frames >= MOST_FRAMES - 1 or self.log.tick - self.born >= self.config.schedule["scrub"]
        return is_due and self._until_start() <= 0

    async def _turn(self) -> None:
        """Takes a step that is due, or hands on a message; or waits for either."""
        self._move_clock()
        self.woken.clear()
        left, length = MOST_FRAMES - 1 - self.node.frames, self.config.seconds
        next_tick = length - (time.time() - self.config.epoch) % length + 0.001
        if left > 0 and (words := self.schedule.next(self.follower.state, self.log.tick)) is not None:
            await self._step(words)
        elif left > 0 and (left > KEPT_FRAMES or self._until_start() <= 0):
            heard = self.left or self.door.next()
            await (wait(self.woken, next_tick) if heard is None else self._hear(*heard))
        else:
            await wait(self.stopping, min(next_tick, self._until_start()))

    async def _step(self, words: str) -> None:
        """Takes a step, whose words these are but for the peer."""
        name, *rest = words.split()
        reply, notes = await self._ask(b"\2" + " ".join([name, str(self.config.peer), *rest]).encode())
        self.schedule.told(words, self.follower.state, self.log.tick)
        self._tell(name, reply, notes, **dict(zip(["au"] if name == "open" else ["poll", "peer"], reversed(rest))))

    async def _hear(self, peer: int, data: bytes) -> None:
        """Hands a message on, unless its sender has too many parts of its polls here already."""
        self.left, said = None, message.read(data)
        parts = [it.number for it in self.follower.state.sessions if it.poller == peer]
        if isinstance(said, message.Poll) and said.number not in parts and len(parts) >= MOST_PARTS:
            self.log("dropped", peer=peer, poll=said.number, why="parts", mark=mark(data))
            return
        self.left = peer, data
        reply, notes = await self._ask(b"\1" + peer.to_bytes(2, "big") + data)
        self.left, self.is_repeated = None, False
        about = {"poll": getattr(said, "number", None), "message": type(said).__name__, "mark": mark(data)}
        self._tell("heard", reply, notes, peer=peer, **about)

    def _keep(self, status: int) -> None:
        """Keeps the message that the node had when it ended for the next one, once, unless it is at fault itself."""
        if self.left is not None and (self.is_repeated or status in (11, 14)):
            self.log("dropped", peer=self.left[0], why="no-reply", mark=mark(self.left[1]))
            self.left = None
        self.is_repeated = self.left is not None

    async def _ask(self, body: bytes) -> tuple[Reply, list[Record]]:
        """The node's reply to a frame, once it has the time, and its records. What it sends goes to the links."""
        while self.told < self.log.tick:
            ticks = min(self.log.tick - self.told, MOST_TICKS)
            await self.node.ask(b"\3" + ticks.to_bytes(4, "big"))
            self.told += ticks
        reply = await self.node.ask(body)
        # a new journal has deposits before the first reply
        found = self.follower.records() if reply.records or self.follower.gate == 0 else []
        notes = [it for it in found if not isinstance(it, journal.Deposit)]
        if len(notes) != reply.records:
            raise Damaged(self.follower.gate, f"a reply told {reply.records} records, and {len(notes)} stand there")
        for to, data in reply.sends:
            if to in self.links:
                self.links[to].put(data)
            else:
                self.log("dropped", peer=to, why="no-link", mark=mark(data))
        return reply, notes

    def _tell(self, what: str, reply: Reply, notes: list[Record], **about: object) -> None:
        """Lines for the log: what was done, and what an operator is to see of it."""
        names, gate = ([type(it).__name__ for it in notes], self.follower.gate) if notes else (None, None)
        to, marks = [it.to for it in reply.sends] or None, [mark(it.data) for it in reply.sends] or None
        self.log(what, **about, notes=names, gate=gate, to=to, marks=marks)
        for it in notes:
            if isinstance(it, journal.Replaced):
                self.log("replaced", poll=it.number, au=it.au, block=it.block)
            elif isinstance(it, journal.Overdue):
                self.log("alarm", au=it.au, outcome="overdue")
            elif isinstance(it, journal.Closed):
                is_alarm = it.outcome not in ("agreed", "inquorate")
                self.log("alarm" if is_alarm else "closed", poll=it.number, outcome=it.outcome)
