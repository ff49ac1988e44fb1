"""Nonces, keys, votes and draws (docs/FORMATS.md, "Hashes" and "Draws")."""

from __future__ import annotations

import hashlib
import struct
from collections.abc import Callable, Iterable, Sequence
from functools import lru_cache, partial
from itertools import accumulate

# The hashes by the names by which scripts call them.
KINDS: dict[str, Callable[[bytes], hashlib._Hash]]
KINDS = {"sha256": hashlib.sha256, "sha512-256": partial(hashlib.new, "sha512_256")}
MASK = 0xFFFFFFFF


def digest(kind: str, data: bytes) -> bytes:
    """The hash of this name, SHA-256 or SHA-512/256 of FIPS 180-4."""
    return KINDS[kind](data).digest()


def nonce(seed: bytes, number: int) -> bytes:
    """The nonce of a peer's poll: `seed` has 32 bytes."""
    return digest("sha256", b"nonce" + seed + number.to_bytes(4, "big"))


def key(kind: str, poller: int, number: int, poll_nonce: bytes, voter: int, au: int, count: int) -> bytes:
    """The key of a vote in this poll on an AU of so many blocks."""
    poll = struct.pack(">HI", poller, number) + poll_nonce
    return digest(kind, b"LOCKSS/1" + poll + struct.pack(">HHH", voter, au, count))


# Of equal blocks the same one, so that votes that are kept share them.
_same: Callable[[bytes], bytes] = lru_cache(2048)(lambda block: block)


@lru_cache(1024)
def _vote(kind: str, vote_key: bytes, blocks: tuple[bytes, ...]) -> tuple[bytes, ...]:
    hash_of = KINDS[kind]
    _, *hashes = accumulate(blocks, lambda last, block: hash_of(last + block).digest(), initial=vote_key)
    return tuple(hashes)


# Lets go of the votes that are kept.
forget: Callable[[], None] = _vote.cache_clear


def vote(kind: str, vote_key: bytes, blocks: Iterable[bytes]) -> tuple[bytes, ...]:
    """The running hashes of these blocks, one for each. The last votes are kept: who looks at a run asks for one often."""
    return _vote(kind, vote_key, tuple(map(_same, blocks)))


def _quarter_round(x: list[int], a: int, b: int, c: int, d: int) -> None:
    for one, two, three, by in ((a, b, d, 16), (c, d, b, 12), (a, b, d, 8), (c, d, b, 7)):
        x[one] = (x[one] + x[two]) & MASK
        mixed = x[three] ^ x[one]
        x[three] = (mixed << by | mixed >> (32 - by)) & MASK


def chacha20(chacha_key: bytes, place: int) -> list[int]:
    """The 16 words of the block at this place, stream 0 (RFC 8439)."""
    start = [*struct.unpack("<4I", b"expand 32-byte k"), *struct.unpack("<8I", chacha_key), place, 0, 0, 0]
    words = start.copy()
    for turn in range(20):
        for i in range(4):
            # the columns, and then the diagonals
            _quarter_round(words, i, *(4 * row + (i + row * (turn % 2)) % 4 for row in (1, 2, 3)))
    return [(one + two) & MASK for one, two in zip(words, start)]


class Draws:
    """The words of the draw with this label and number, of a seed of 32 bytes."""

    def __init__(self, seed: bytes, label: int, number: int) -> None:
        self.key = digest("sha256", bytes([label]) + seed + number.to_bytes(4, "big"))
        self.blocks = 0
        self.words: list[int] = []

    def word(self) -> int:
        """The next word."""
        if not self.words:
            self.words = chacha20(self.key, self.blocks)
            self.blocks += 1
        return self.words.pop(0)

    def below(self, n: int) -> int:
        """A number below n."""
        return self.word() * n >> 32

    def pick(self, members: Sequence[int], most: int) -> tuple[int, ...]:
        """At most so many of these members."""
        rest = list(members)
        if len(rest) <= most:
            return tuple(rest)
        return tuple(rest.pop(self.below(len(rest))) for _ in range(most))
