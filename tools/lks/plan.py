"""Plans, and the words of lines as they are read under one (docs/FORMATS.md, "Scripts"): a bad word breaks a rule."""

from __future__ import annotations

import re
from collections import Counter
from collections.abc import Callable
from dataclasses import dataclass, field
from typing import Any

MOST_BLOCK_BYTES, MOST_EVENTS, LAST_ID, LAST_NUMBER = 16_384, 4_096, 65_535, 4_294_967_295


class Broken(ValueError):
    """The rule that a line breaks."""


def must(test: bool, reason: str) -> None:
    """Breaks the rule where the test fails."""
    if not test:
        raise Broken(reason)


@dataclass
class Peer:
    """A peer of a plan. Its copies are lists of blocks by AU."""

    id: int
    honest: bool
    seed: bytes
    proof: bytes
    hash: str = "sha256"
    refs: tuple[int, ...] = ()
    friends: tuple[int, ...] = ()
    copies: dict[int, list[bytes]] = field(default_factory=dict)


@dataclass
class Plan:
    """What a run begins with. `aus` has the number of blocks of each AU; both are in the plan's order."""

    rules: dict[str, int] = field(default_factory=dict)
    turns: int = MOST_EVENTS
    aus: dict[int, int] = field(default_factory=dict)
    peers: dict[int, Peer] = field(default_factory=dict)

    def honest(self) -> list[Peer]:
        """Its honest peers, in order."""
        return [peer for peer in self.peers.values() if peer.honest]

    def published(self, au: int, holder: int | None = None) -> tuple[bytes, ...]:
        """An AU as it was published, if it is held: at each place the block that most honest copies have, at a tie the
        first of them; or that of one holder."""
        copies = [it.copies[au] for it in self.honest() if au in it.copies and holder in (None, it.id)]
        return tuple(Counter(blocks).most_common(1)[0][0] for blocks in zip(*copies))


# A reader gives the value of a word under a plan, or breaks a rule.
Reader = Callable[[Plan, str], Any]


def number(name: str, least: int = 0, most: int = LAST_NUMBER) -> Reader:
    """A decimal number in these bounds, without sign and without leading zeros."""
    def read(_: Plan, word: str) -> int:
        must(re.fullmatch("[0-9]+", word) is not None, f"{name} isn't a number")
        must(word == "0" or word[0] != "0", f"{name} has a leading zero")
        # a number of very many digits isn't read
        must(len(word) <= 10 and int(word) <= most, f"{name} above {most}")
        must(int(word) >= least, f"{name} below {least}")
        return int(word)
    return read


ID = number("number", 0, LAST_ID)
POLL = number("poll")
BLOCK_NUMBER = number("block", 0, 511)


def one_of(*words: str) -> Reader:
    """One of these words."""
    def read(_: Plan, word: str) -> str:
        must(word in words, f"{' or '.join(f'`{it}`' for it in words)} is wanted")
        return word
    return read


def declared(kind: str = "") -> Reader:
    """A declared peer, of this kind if one is said."""
    def read(plan: Plan, word: str) -> int:
        found = ID(plan, word)
        must(found in plan.peers, "no such peer")
        is_honest = plan.peers[found].honest
        must(not kind or is_honest == (kind == "honest"), f"peer {found} is {'honest' if is_honest else 'corrupt'}")
        return found
    return read


def au_id(plan: Plan, word: str) -> int:
    """A declared AU."""
    found = ID(plan, word)
    must(found in plan.aus, "no such AU")
    return found


def hex_bytes(name: str, most: int, empty: bool = True) -> Reader:
    """The hex of 1 to so many bytes, or a hyphen for none where that may be."""
    def read(_: Plan, word: str) -> bytes:
        if word == "-" and empty:
            return b""
        must(re.fullmatch("[0-9A-Fa-f]+", word) is not None, f"{name} isn't hex")
        must(len(word) % 2 == 0, f"{name} has half a byte")
        must(len(word) <= 2 * most, f"{name} longer than {most} bytes")
        return bytes.fromhex(word)
    return read


def block(plan: Plan, word: str) -> bytes:
    """A block: `-`, hex, or a byte and how often it stands."""
    byte, star, times = word.partition("*")
    if not star:
        return hex_bytes("block", MOST_BLOCK_BYTES)(plan, word)
    one = hex_bytes("repeated byte", 1, empty=False)(plan, byte)
    return one * number("repetition", 1, MOST_BLOCK_BYTES)(plan, times)


def blocks(plan: Plan, word: str) -> list[bytes]:
    """1 to 512 blocks parted by commas."""
    parts = word.split(",")
    must(len(parts) <= 512, "more than 512 blocks")
    return [block(plan, part) for part in parts]
