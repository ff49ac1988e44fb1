"""Copies of journals with one bit turned: who refuses them, by what the bit belongs to."""

from __future__ import annotations

import asyncio
import csv
import hashlib
import mmap
import pathlib
import random
import shutil
import subprocess
from collections import Counter
from collections.abc import Callable, Iterator, Mapping
from typing import NamedTuple

from files.disk import MOST_APPENDED, Damaged
from lks.fields import BE16, BE32, Source, number
from lks.journal import OPEN, RECORDS
from lks.plan import Plan
from net.peers import Peer
from peer.follow import Follower
from peer.node import frame

# Who refuses a copy: the look of a daemon, or the node by one of these statuses.
LOOK, UNSEEN, STATUSES = "look", "unseen", {0: "unseen", 10: "10", 16: "16"}
# Copies of a file at each stop of its peer, and seconds between two stops.
COPIES, PAUSE, MOST_SECONDS = 24, 5.0, 120
BYTE = number(1)
# A part of a file: where it begins, how long it is, and what it is called.
Part = NamedTuple("Part", [("at", int), ("size", int), ("name", str)])
# The bytes of a file, which may be mapped.
Data = bytes | mmap.mmap


def parts(data: Data) -> Iterator[Part]:
    """What the bytes of a journal belong to."""
    source = Source(data)

    def part(name: str, read: Callable[[Source], object]) -> Part:
        begun = source.place
        read(source)
        return Part(begun, source.place - begun, name)

    while data[source.place : source.place + 1] == OPEN:
        yield part("gate", BYTE.read)
        yield part("length", BE32.read)
        count = int.from_bytes(data[source.place : source.place + 2], "big")
        yield part("count", BE16.read)
        for _ in range(count):
            made, shape = RECORDS.shapes[data[source.place : source.place + 2]]
            yield part(f"{made.__name__} head", BE16.read)
            yield from (part(f"{made.__name__} {name}", field.read) for name, field in shape.items())
    yield part("closed gate", BYTE.read)
    if source.place < len(data):
        yield Part(source.place, len(data) - source.place, "behind it")


def drawn(data: Data, draws: random.Random, count: int) -> list[tuple[int, Part]]:
    """So many bytes of a file, and what each belongs to: each byte is as likely as another, or, in half of the cases, each
    part. A file has the more parts the longer it grows, so they are counted, and none is kept that isn't drawn."""
    most = sum(1 for _ in parts(data))
    by_part = Counter(draws.randrange(most) for _ in range(count) if draws.randrange(2))
    offsets = sorted((draws.randrange(len(data)) for _ in range(count - by_part.total())), reverse=True)
    found = []
    for place, part in enumerate(parts(data)):
        found += [(part.at + draws.randrange(part.size), part) for _ in range(by_part[place])]
        while offsets and offsets[-1] < part.at + part.size:
            found.append((offsets.pop(), part))
    return found


def turn(path: pathlib.Path, at: int, bit: int) -> None:
    """Turns a bit of the byte at this offset of a file."""
    with open(path, "r+b") as file:
        file.seek(at)
        byte = file.read(1)[0]
        file.seek(at)
        file.write(bytes([byte ^ 1 << bit]))


def digest(path: pathlib.Path) -> bytes:
    """The hash of a file."""
    with open(path, "rb") as file:
        return hashlib.file_digest(file, "sha256").digest()


def refusal(plan: Plan, script: bytes, peer: Peer, path: pathlib.Path) -> str:
    """Who refuses a journal first, or that nobody does."""
    try:
        Follower(path, plan, peer.number).look()
    except Damaged:
        return LOOK
    words = [peer.node, str(peer.number), path]
    ended = subprocess.run(words, input=frame(script), stdout=subprocess.DEVNULL, timeout=MOST_SECONDS, check=False)
    return STATUSES.get(ended.returncode, f"status {ended.returncode}")


class Doctor:
    """Stops peer after peer, by a seed, turns bits in copies of their files, and starts them again with the true ones."""

    def __init__(self, seed: int, plan: Plan, peers: Mapping[int, Peer], tell: Callable[..., None], folder: pathlib.Path) -> None:
        self.draws = random.Random(f"doctor {seed}")
        self.plan, self.peers, self.tell, self.folder = plan, peers, tell, folder
        self.found: Counter[tuple[str, str]] = Counter()
        self.faults: list[str] = []
        self.over = asyncio.Event()
        folder.mkdir()

    async def run(self) -> None:
        """Goes on until it is over."""
        while not self.over.is_set():
            try:
                await asyncio.wait_for(self.over.wait(), PAUSE)
            except TimeoutError:
                await self._visit(self.draws.choice(list(self.peers.values())))

    async def _visit(self, peer: Peer) -> None:
        async with peer.lock:
            if not peer.is_up or not peer.journal.exists() or peer.journal.stat().st_size == 0:
                return
            await asyncio.to_thread(peer.rest)
            whole = digest(peer.journal)
            await asyncio.to_thread(self._turn, peer)
            if digest(peer.journal) != whole:
                self.faults.append(f"peer {peer.number}: the true file changed")
            self.tell("doctor", peer=peer.number, bytes=peer.journal.stat().st_size)
            peer.start()

    def _turn(self, peer: Peer) -> None:
        """Tries copies of a file, and notes each: its peer, its length, offset, bit, part, and who refused it."""
        with open(peer.journal, "rb") as journal, mmap.mmap(journal.fileno(), 0, access=mmap.ACCESS_READ) as data:
            found, size = drawn(data, self.draws, COPIES), len(data)
            deposited = max((it.at for it in parts(data) if it.name.startswith("Deposit")), default=0)
        script, path = peer.script.encode(), self.folder / "copy"
        with open(self.folder / "turned.csv", "a", encoding="ascii", newline="") as file:
            # in another order than that of the file, since the run may be over before the last of them
            for at, part in self.draws.sample(found, len(found)):
                if self.over.is_set():
                    return
                bit = self.draws.randrange(8)
                shutil.copyfile(peer.journal, path)
                turn(path, at, bit)
                by = refusal(self.plan, script, peer, path)
                path.unlink()
                self.found[part.name, by] += 1
                self._judge(peer, part, by, size if at > deposited else 0)
                csv.writer(file, lineterminator="\n").writerow([peer.number, size, at, bit, part.name, by])

    def _judge(self, peer: Peer, part: Part, by: str, size: int) -> None:
        """What can't be: another end of a node, or a gate that nobody misses, behind the deposits and far from the end."""
        if by.startswith("status"):
            self.faults.append(f"peer {peer.number}: a node ended with {by} on a turned bit of {part.name}")
        if part.name == "gate" and by == UNSEEN and (behind := size - part.at - 1) > MOST_APPENDED:
            self.faults.append(f"peer {peer.number}: the gate before {behind} bytes was turned, and nobody saw it")

    def lines(self) -> Iterator[str]:
        """What was found, in all and of each part."""
        ways = sorted({by for _, by in self.found})
        sums = ", ".join(f"{by} {sum(it for (_, way), it in self.found.items() if way == by)}" for by in ways)
        yield f"{sum(self.found.values())} copies with one bit turned: {sums}"
        for name in sorted({name for name, _ in self.found}):
            yield f"  {name}: " + ", ".join(f"{by} {self.found[name, by]}" for by in ways if self.found[name, by])
