"""What the network does to frames, by a seed: which are lost, repeated or late, and between whom nothing comes through."""

from __future__ import annotations

import random
from collections.abc import Iterable
from itertools import permutations

# Of a hundred frames so many are lost, sent twice, or late, by up to so many seconds.
LOST, TWICE, LATE, MOST_LATE = 3, 3, 10, 2.0


class Weather:
    """Without a seed all frames come through at once. The fate of the frame at a place of a link is always the same. The draws of
    the links among such peers are made at the start, so that a network needs no more memory when a link is first used."""

    def __init__(self, seed: int | None, peers: Iterable[int] = ()) -> None:
        self.seed = seed
        self.draws: dict[tuple[int, int], random.Random] = {}
        if seed is not None:
            for link in permutations(peers, 2):
                self._draws(*link)
        # pairs of peers that are cut off from one another, and how often; those of whom nobody notices it
        self.cuts: dict[frozenset[int], int] = {}
        self.silent: set[frozenset[int]] = set()

    def calm(self) -> None:
        """From now on all frames come through, but where links are cut."""
        self.seed = None

    def cut(self, one: int, two: int, is_silent: bool) -> None:
        """Nothing comes through between these two: links break, or frames vanish."""
        pair = frozenset((one, two))
        self.cuts[pair] = self.cuts.get(pair, 0) + 1
        if is_silent:
            self.silent.add(pair)

    def mend(self, one: int, two: int) -> None:
        """Ends a cut."""
        pair = frozenset((one, two))
        self.cuts[pair] -= 1
        if self.cuts[pair] == 0:
            del self.cuts[pair]
            self.silent.discard(pair)

    def is_broken(self, sender: int, receiver: int) -> bool:
        """Whether a link can't even be begun."""
        pair = frozenset((sender, receiver))
        return pair in self.cuts and pair not in self.silent

    def fates(self, sender: int, receiver: int) -> list[float]:
        """After how many seconds the next frame of a link comes out, each time that it does."""
        if frozenset((sender, receiver)) in self.cuts:
            return []
        if self.seed is None:
            return [0.0]
        draws = self._draws(sender, receiver)
        kind, first, second = draws.random() * 100, draws.uniform(0, MOST_LATE), draws.uniform(0, MOST_LATE)
        if kind < LOST:
            return []
        if kind < LOST + TWICE:
            return [0.0, second]
        return [first] if kind < LOST + TWICE + LATE else [0.0]

    def _draws(self, sender: int, receiver: int) -> random.Random:
        """Those of a link."""
        link = sender, receiver
        if link not in self.draws:
            self.draws[link] = random.Random(f"{self.seed} {sender} {receiver}")
        return self.draws[link]
