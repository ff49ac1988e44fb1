"""Corrupt peers: the strategies of bin/attack, which receive frames from honest peers and send theirs."""

from __future__ import annotations

import asyncio
import pathlib
from collections.abc import Callable, Iterable, Mapping, Sequence
from dataclasses import replace

from attack.course import draws_of
from attack.strategies import MOST_POLLS, STRATEGIES, Crashes, Known, Losses
from lks import hashes, message
from lks.fields import PollName
from lks.plan import Plan
from lks.play import Received, Told
from lks.script import Word, read_step, spelled
from net.peers import link
from peer import config
from peer.links import Link
from peer.log import Log, mark

# The strategies that corrupt peers can follow here: of the others it is the network that acts.
NAMES = [name for name, it in STRATEGIES.items() if not issubclass(it, (Crashes, Losses))]


class Quiet(Log):
    """A log that nobody reads."""

    def __call__(self, what: str, **values: object) -> None:
        """Tells nothing."""


class Liars:
    """All corrupt peers of a plan, who are in league. `tell` is told what they send and receive."""

    def __init__(
        self, plan: Plan, name: str, seed: int, wires: Mapping[int, pathlib.Path], tell: Callable[..., None]
    ) -> None:
        own = {it.id: it for it in plan.peers.values() if not it.honest}
        honest = tuple(it.id for it in plan.honest())
        self.plan, self.own, self.tell = plan, replace(plan, peers=own), tell
        self.strategies = {
            au: STRATEGIES[name](Known(tuple(own), honest, au, plan.published(au), plan.rules, draws_of(seed, place)))
            for place, au in enumerate(plan.aus)
        }
        # the AUs of the latest polls to which they were invited
        self.aus: dict[PollName, int] = {}
        self.links = {
            (peer, to): Link(to, config.Link(link(peer, wires[to]), config.QUEUE), Quiet()) for peer in own for to in honest
        }
        self.seconds = 0

    async def run(self) -> None:
        """Keeps their links running, and lets each strategy act once a second."""
        tasks = [asyncio.create_task(it.run()) for it in self.links.values()]
        try:
            while True:
                await asyncio.sleep(1)
                self.seconds += 1
                for au in self.strategies:
                    self._act(au, ())
                # nobody asks for a vote again that was given
                hashes.forget()
        finally:
            for task in tasks:
                task.cancel()
            await asyncio.gather(*tasks, return_exceptions=True)

    def hear(self, sender: int, receiver: int, data: bytes) -> None:
        """A frame reached one of them."""
        self.tell("reached", sender=sender, receiver=receiver, mark=mark(data))
        said = message.read(data)
        if isinstance(said, bytes):
            return
        name = PollName(sender, said.number)
        if isinstance(said, message.Poll):
            self.aus[name] = said.au
            if len(self.aus) > MOST_POLLS * len(self.plan.honest()) * len(self.plan.aus):
                del self.aus[next(iter(self.aus))]
        au = self.aus.get(name, next(iter(self.strategies)))
        if au in self.strategies:
            self._act(au, (Received(sender, receiver, said),))

    def _act(self, au: int, received: tuple[Received, ...]) -> None:
        self._say(self.strategies[au].act(Told(self.seconds, self.own, received)))

    def _say(self, lines: Iterable[Sequence[Word]]) -> None:
        """Sends what lines of a script say."""
        for name, *words in lines:
            step = read_step(self.plan, str(name), [spelled(it) for it in words])
            sender, to = step.values[0], step.values[1 if step.name == "forge" else 2]
            data = message.write(message.said(self.plan, step))
            if (sender, to) in self.links:
                self.tell("forged", sender=sender, receiver=to, mark=mark(data), length=len(data))
                self.links[sender, to].put(data)
