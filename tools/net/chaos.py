"""What is done to peers and links, by a seed: what comes next, to whom and for how long is drawn before it is done."""

from __future__ import annotations

import asyncio
import os
import pathlib
import random
import signal
import time
from collections import Counter
from collections.abc import Callable, Iterator, Mapping

from files import disk
from lks.journal import OPEN
from lks.plan import Plan
from net.peers import Peer
from net.weather import Weather
from net.wires import Wires
from peer.follow import Follower

# So often each thing is done, of eleven times; and so many seconds go by between two things that are done to one peer.
KINDS = {"kill-node": 5, "kill-peer": 2, "hold": 1, "cut": 3}
BETWEEN = 12.0
# How long at most a kill waits for a write, a peer is down, a link is cut and a clock stands still, in seconds.
MOST_WAIT, MOST_DOWN, MOST_CUT, MOST_HELD = 2.0, 4.0, 6.0, 6.0


def gate_of(path: pathlib.Path) -> int:
    """The offset of the closed gate of a journal."""
    at = 0
    if path.exists():
        with open(path, "rb") as file:
            while (head := file.read(5))[:1] == OPEN:
                at = file.seek(int.from_bytes(head[1:], "big"), os.SEEK_CUR)
    return at


def change_of(path: pathlib.Path) -> tuple[int, int]:
    """What is different once a file was written."""
    found = path.stat() if path.exists() else None
    return (found.st_size, found.st_mtime_ns) if found else (0, 0)


def scribble(plan: Plan, peer: Peer, draws: random.Random) -> int:
    """Overwrites what stands behind the closed gate of a journal, as a crash within an append may leave it; its bytes then."""
    if change_of(peer.journal)[0] == 0:
        return 0
    follower = Follower(peer.journal, plan, peer.number)
    for _ in follower.records():
        pass
    size = draws.randint(0, disk.appended(plan, peer.number, follower.state.aus))
    with open(peer.journal, "r+b") as file:
        # noise, nothing, or what looks like frames
        left = (draws.randbytes(size), bytes(size), file.read(size))[draws.randrange(3)]
        file.truncate(follower.gate + 1)
        file.seek(follower.gate + 1)
        file.write(left)
    return len(left)


def strike(peer: Peer, wait: float) -> str:
    """Kills a node as soon as its journal is written, or after so many seconds: whether its append was `torn` by that, was
    `kept`, or there was none; nothing where no node ran."""
    found = peer.nodes()
    try:
        process = os.pidfd_open(found[0]) if found else None
    except ProcessLookupError:
        process = None
    if process is None:
        return ""
    end, gate, before = time.monotonic() + wait, gate_of(peer.journal), change_of(peer.journal)
    while (is_idle := change_of(peer.journal) == before) and time.monotonic() < end:
        time.sleep(0.0003)
    try:
        signal.pidfd_send_signal(process, signal.SIGKILL)
    except ProcessLookupError:
        return ""
    finally:
        os.close(process)
    return "idle" if is_idle else "torn" if gate_of(peer.journal) == gate else "kept"


class Chaos:
    """Does one thing after another. `tell` is told of each, and `counts` counts them."""

    def __init__(
        self, seed: int, plan: Plan, peers: Mapping[int, Peer], tell: Callable[..., None], weather: Weather, wires: Wires
    ) -> None:
        self.seed, self.plan, self.peers, self.tell, self.weather, self.wires = seed, plan, peers, tell, weather, wires
        self.draws = random.Random(f"chaos {seed}")
        self.counts: Counter[str] = Counter()
        self.over = asyncio.Event()
        self.deeds: set[asyncio.Task[None]] = set()

    async def run(self) -> None:
        """Goes on until it is over, and waits for what was begun."""
        ways = {"kill-node": self._kill_node, "kill-peer": self._kill_peer, "hold": self._hold, "cut": self._cut}
        while not self.over.is_set():
            (kind,) = self.draws.choices(list(KINDS), list(KINDS.values()))
            peer, draws = self.draws.choice(list(self.peers.values())), random.Random(self.draws.randbytes(8))
            await self._pause(self.draws.uniform(0, 2 * BETWEEN / len(self.peers)))
            for deed in [it for it in self.deeds if it.done()]:
                self.deeds.discard(deed)
                deed.result()
            if not self.over.is_set():
                self.deeds.add(asyncio.ensure_future(ways[kind](peer, draws)))
        await asyncio.gather(*self.deeds)

    def killed(self) -> int:
        """How many nodes were killed, alone or with their daemon."""
        return self.counts["kill-node"] + self.counts["killed"]

    def lines(self) -> Iterator[str]:
        """What was done."""
        told, frames = self.counts, self.wires.counts
        appends = f"{told['torn']} in the middle of an append, {told['kept']} behind it"
        yield f"chaos {self.seed}: {told['kill-node']} nodes killed, {appends}; {told['hold']} clocks held; {told['cut']} links cut"
        yield f"{told['killed']} peers killed, and what stood behind the closed gates of their journals overwritten"
        yield f"{frames['lost']} frames lost, {frames['twice']} sent twice, {frames['late']} late, {frames['overtaken']} overtaken"

    async def _pause(self, seconds: float) -> None:
        try:
            await asyncio.wait_for(self.over.wait(), seconds)
        except TimeoutError:
            pass

    def _told(self, what: str, **values: object) -> None:
        self.counts[what] += 1
        self.tell(what, **values)

    async def _kill_node(self, peer: Peer, draws: random.Random) -> None:
        """Kills a node; its daemon starts it again."""
        wait = draws.uniform(0, MOST_WAIT)
        async with peer.lock:
            if peer.is_up and (found := await asyncio.to_thread(strike, peer, wait)):
                self.counts[found] += 1
                self._told("kill-node", peer=peer.number, append=found)

    async def _kill_peer(self, peer: Peer, draws: random.Random) -> None:
        """Kills a daemon with its node, overwrites what stands behind the closed gate, and starts it again."""
        async with peer.lock:
            if not peer.is_up:
                return
            await asyncio.to_thread(peer.kill)
            left = await asyncio.to_thread(scribble, self.plan, peer, draws)
            self._told("killed", peer=peer.number, behind=left)
            await self._pause(draws.uniform(0, MOST_DOWN))
            peer.start()

    async def _hold(self, peer: Peer, draws: random.Random) -> None:
        """Stops a peer, and starts it again with a clock that stands still for a while, and is late from then on."""
        seconds = draws.uniform(0, MOST_HELD)
        async with peer.lock:
            if not peer.is_up:
                return
            await asyncio.to_thread(peer.rest)
            peer.give(peer.script, peer.wires, peer.epoch + seconds, peer.seconds)
            self._told("hold", peer=peer.number, seconds=f"{seconds:.1f}")
            peer.start()

    async def _cut(self, peer: Peer, draws: random.Random) -> None:
        """Cuts a peer off from another one."""
        other, is_silent = draws.choice([it for it in self.plan.peers if it != peer.number]), draws.random() < 0.5
        seconds = draws.uniform(0, MOST_CUT)
        self.weather.cut(peer.number, other, is_silent)
        if not is_silent:
            self.wires.sever(peer.number, other)
        self._told("cut", peer=peer.number, other=other, seconds=f"{seconds:.1f}", silent=is_silent)
        await self._pause(seconds)
        self.weather.mend(peer.number, other)
