"""Frames for a node whose polls find no supplier, and what stands in its journal."""

import pathlib
import random
import sys
from collections.abc import Iterator

TOP = pathlib.Path(__file__).resolve().parent.parent
sys.path.insert(0, str(TOP / "tools"))

from lks import journal

PROGRAM = TOP / "crates/lks_node/out/lks_node"
PLAN = b"""\
lockss 1
rules inner 3 quorum 3 minority 1 outer 0 repairs 2 pace 0 refractory 0 overdue 100 unknown 100 debt 100 churn 0
au 1 1
peer 1 honest 01 01
peer 2 corrupt 02 01
peer 3 corrupt 03 01
peer 4 corrupt 04 01
refs 1 2 3 4
copy 1 1 41
"""


def frame(body: bytes) -> bytes:
    """A frame with this body."""
    return len(body).to_bytes(4, "big") + body


def step(words: str) -> bytes:
    """The body of a step."""
    return b"\2" + words.encode()


def vote(voter: int, number: int, at_random: random.Random) -> bytes:
    """The body of a vote of one hash, whatever it is a hash of, with a proof that is accepted."""
    return b"\1" + voter.to_bytes(2, "big") + b"\1\5" + number.to_bytes(4, "big") + b"\0\1" + at_random.randbytes(32) + b"\1\1"


def poll(number: int, at_random: random.Random) -> Iterator[bytes]:
    """The frames of a poll that finds no supplier."""
    yield step("open 1 1")
    yield b"\3" + at_random.randint(1, 5).to_bytes(4, "big")
    yield from (vote(voter, number, at_random) for voter in (2, 3, 4))
    yield step(f"tune 1 3 1 {at_random.randint(0, 9)}")
    yield step(f"shut 1 {number}")
    for _ in range(3):
        yield step(f"tally 1 {number}")
        yield step(f"give-up 1 {number}")
    yield step(f"tally 1 {number}")


def orders(count: int, at_random: random.Random) -> list[bytes]:
    """So many frames of polls, one after another."""
    found: list[bytes] = []
    number = 1
    while len(found) < count:
        found += poll(number, at_random)
        number += 1
    return found[:count]


def batches(path: pathlib.Path) -> list[bytes]:
    """The bodies before the first closed gate of the file; what stands behind it is no part of the journal."""
    data, at, found = path.read_bytes() if path.exists() else b"", 0, []
    while data[at : at + 1] == journal.OPEN:
        end = at + 5 + int.from_bytes(data[at + 1 : at + 5], "big")
        found.append(data[at + 5 : end])
        at = end
    return found
