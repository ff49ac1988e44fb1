"""Journals as they stand on disks (docs/FORMATS.md, "Frames"), and a look behind their closed gates."""

from __future__ import annotations

from collections.abc import Collection
from typing import NamedTuple

from lks.fields import BadBytes, whole
from lks.journal import BATCH, OPEN, Batch, Deposit, Record
from lks.plan import Plan

# What an append of an event writes behind the closed gate has at most so many bytes.
MOST_APPENDED = 32_768


class Damaged(ValueError):
    """A journal that can't be read, with the offset of the gate of the frame where that is so."""

    def __init__(self, offset: int, reason: str) -> None:
        super().__init__(f"the journal is damaged at offset {offset}: {reason}")
        self.offset = offset


class Disk(NamedTuple):
    """The bytes of a disk, the batches in its open frames, and the offset of the closed gate behind them."""

    data: bytes
    batches: list[Batch]
    gate: int

    def frames(self) -> bytes:
        """The open frames, as they stand there, and a closed gate."""
        return self.data[: self.gate] + b"\0"

    def records(self) -> list[Record]:
        """All records, in order."""
        return [record for batch in self.batches for record in batch]


def read(data: bytes) -> Disk:
    """What a disk holds up to its first closed gate, which is any byte but an open one; or `Damaged`."""
    at, found = 0, []
    while data[at : at + 1] == OPEN:
        body = at + 5
        end = body + int.from_bytes(data[at + 1 : body], "big")
        if end >= len(data):
            raise Damaged(at, "its length, its body or the next gate passes the end")
        try:
            found.append(whole(BATCH.read, data[body:end]))
        except BadBytes as fault:
            raise Damaged(at, f"its body is no batch: {fault}") from None
        at = end
    if at >= len(data):
        raise Damaged(0, "the disk is empty")
    return Disk(data, found, at)


def appended(plan: Plan, peer: int, deposited: Collection[int]) -> int:
    """How many bytes an append may have left behind the closed gate of a journal with the deposits of these AUs: those of the
    frame of the deposit that is due there, or, behind the deposits, of an event's."""
    copies = plan.peers[peer].copies
    due = [Deposit(au, tuple(copies[au])) for au in plan.aus if au in copies and au not in deposited]
    return 5 + len(BATCH.write(due[:1])) if due else MOST_APPENDED


def doubt(plan: Plan, peer: int, deposited: Collection[int], gate: int, size: int) -> None:
    """Raises `Damaged` where more stands behind the closed gate than an append leaves: then an open gate was damaged.

    No frame says so, since what stands behind a closed gate isn't read. As much as an append leaves, or less, can't be told
    from one that was torn.
    """
    behind = size - gate - 1
    if behind > appended(plan, peer, deposited):
        raise Damaged(gate, f"its gate is closed, and {behind} bytes stand behind it")


def look(plan: Plan, peer: int, disk: Disk) -> None:
    """Raises `Damaged` where the closed gate of a disk is doubtful."""
    doubt(plan, peer, {it.au for it in disk.records() if isinstance(it, Deposit)}, disk.gate, len(disk.data))
