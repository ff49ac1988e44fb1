"""The links between peers of a network: bin/from connects to a socket here, and its frames come out at the door of a daemon."""

from __future__ import annotations

import asyncio
import contextlib
import pathlib
from collections import Counter
from collections.abc import Callable, Iterable, Mapping

from net.weather import Weather
from peer.door import look
from peer.log import mark
from peer.node import MOST_MESSAGE, frame


class Wire:
    """A connection of a link. `out` is that to the door of its receiver, where this is a daemon."""

    def __init__(self, sender: int, receiver: int, into: asyncio.StreamWriter) -> None:
        self.sender, self.receiver, self.into = sender, receiver, into
        self.out: asyncio.StreamWriter | None = None
        self.watched: asyncio.Task[None] | None = None
        # the place of the last frame that came in, and of the latest that went out
        self.came = self.went = 0

    def is_open(self) -> bool:
        """Whether a frame that goes out now gets anywhere."""
        return not (self.out or self.into).is_closing()

    def close(self) -> None:
        """Ends it on both sides."""
        self.into.close()
        if self.out is not None:
            self.out.close()

    async def reach(self, door: pathlib.Path) -> None:
        """Connects to the door of the receiver, or `OSError` where its daemon isn't there; ends when that one does."""
        reader, self.out = await asyncio.open_unix_connection(door)
        self.out.write(self.sender.to_bytes(2, "big"))

        async def watch() -> None:
            with contextlib.suppress(OSError):
                await reader.read(1)
            self.close()

        self.watched = asyncio.create_task(watch())


class Wires:
    """All links: a socket for each peer. `hear` is told the frames for peers that have no door: sender, receiver and bytes.
    `tell` is told of each frame that is lost."""

    def __init__(
        self,
        folder: pathlib.Path,
        doors: Mapping[int, pathlib.Path],
        weather: Weather,
        hear: Callable[[int, int, bytes], None],
        tell: Callable[..., None],
    ) -> None:
        self.folder, self.doors, self.weather, self.hear, self.tell = folder, doors, weather, hear, tell
        self.open: set[Wire] = set()
        self.counts: Counter[str] = Counter()
        self.servers: list[asyncio.Server] = []

    async def listen(self, receivers: Iterable[int]) -> None:
        """Begins to take frames for these peers."""
        for receiver in receivers:
            path = self.folder / str(receiver)
            look(path)
            serve = lambda reader, writer, to=receiver: self._serve(to, reader, writer)
            self.servers.append(await asyncio.start_unix_server(serve, path))

    async def close(self) -> None:
        """Ends all of them."""
        for server in self.servers:
            server.close()
        for wire in list(self.open):
            wire.close()
        # each ends what it began
        await asyncio.sleep(0)

    def sever(self, one: int, two: int) -> None:
        """Breaks the links between two peers."""
        for wire in list(self.open):
            if {wire.sender, wire.receiver} == {one, two}:
                wire.close()

    async def _serve(self, receiver: int, reader: asyncio.StreamReader, writer: asyncio.StreamWriter) -> None:
        with contextlib.suppress(asyncio.IncompleteReadError, OSError, asyncio.CancelledError):
            wire = Wire(int.from_bytes(await reader.readexactly(2), "big"), receiver, writer)
            self.open.add(wire)
            try:
                if not self.weather.is_broken(wire.sender, receiver):
                    if receiver in self.doors:
                        await wire.reach(self.doors[receiver])
                    await self._carry(wire, reader)
            finally:
                wire.close()
                self.open.discard(wire)
                if wire.watched is not None:
                    wire.watched.cancel()
        writer.close()

    async def _carry(self, wire: Wire, reader: asyncio.StreamReader) -> None:
        """Hands frames on, each after the seconds that the weather says."""
        while wire.is_open():
            length = int.from_bytes(await reader.readexactly(4), "big")
            if length > MOST_MESSAGE:
                return
            data = await reader.readexactly(length)
            wire.came += 1
            fates = self.weather.fates(wire.sender, wire.receiver)
            self.counts["twice"] += len(fates) > 1
            self.counts["late"] += any(fates)
            if not fates:
                self._lose(wire, data)
            for again, seconds in enumerate(fates):
                if seconds:
                    asyncio.get_running_loop().call_later(seconds, self._put, wire, wire.came, data, again)
                else:
                    self._put(wire, wire.came, data, again)
            if wire.out is not None:
                await wire.out.drain()

    def _lose(self, wire: Wire, data: bytes) -> None:
        self.counts["lost"] += 1
        self.tell("lost", sender=wire.sender, receiver=wire.receiver, mark=mark(data))

    def _put(self, wire: Wire, place: int, data: bytes, again: int) -> None:
        """Lets a frame out, which came in at this place."""
        if not wire.is_open():
            if not again:
                self._lose(wire, data)
            return
        self.counts["out"] += 1
        self.counts["overtaken"] += place < wire.went
        wire.went = max(wire.went, place)
        if wire.out is None:
            self.hear(wire.sender, wire.receiver, data)
        else:
            wire.out.write(frame(data))
