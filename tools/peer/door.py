"""The socket at which `bin/from` hands on what other peers send: each connection begins with the number of its sender."""

from __future__ import annotations

import asyncio
import contextlib
import os
import pathlib
import socket
import stat
from collections.abc import Collection

from peer.log import Log
from peer.node import MOST_MESSAGE

# How many messages of a peer may wait. While so many do, no more of its connection is read.
MOST_WAITING = 64


def look(path: pathlib.Path) -> None:
    """Makes the folder of a socket where it isn't there. Others may not come to it, and nobody may listen there."""
    path.parent.mkdir(mode=0o700, exist_ok=True)
    found = path.parent.stat()
    if stat.S_IMODE(found.st_mode) != 0o700 or found.st_uid != os.geteuid():
        raise ValueError(f"{path.parent}: the folder of the socket is to be this account's, with mode 0700")
    with socket.socket(socket.AF_UNIX) as tried:
        if tried.connect_ex(str(path)) == 0:
            raise ValueError(f"{path}: another daemon listens there")


class Door:
    """Messages that wait, by their senders, who take turns. `woken` is set when one comes."""

    def __init__(self, senders: Collection[int], woken: asyncio.Event, log: Log) -> None:
        self.queues = {peer: asyncio.Queue[bytes](MOST_WAITING) for peer in senders}
        self.turns = list(senders)
        self.open: dict[int, asyncio.StreamWriter] = {}
        self.woken, self.log = woken, log

    async def listen(self, path: pathlib.Path) -> asyncio.Server:
        """Listens at this path."""
        look(path)
        return await asyncio.start_unix_server(self._serve, path)

    def next(self) -> tuple[int, bytes] | None:
        """The next message and its sender, if one waits."""
        for peer in list(self.turns):
            self.turns.remove(peer)
            self.turns.append(peer)
            if not self.queues[peer].empty():
                return peer, self.queues[peer].get_nowait()
        return None

    async def _serve(self, reader: asyncio.StreamReader, writer: asyncio.StreamWriter) -> None:
        peer, why = None, "closed"
        with contextlib.suppress(asyncio.IncompleteReadError, ConnectionError, asyncio.CancelledError):
            peer = int.from_bytes(await reader.readexactly(2), "big")
            # an older connection of this peer is one that it lost
            older, self.open[peer] = self.open.get(peer), writer
            if older is not None:
                older.close()
            self.log("came", peer=peer)
            why = await self._read(peer, reader)
        if peer is not None and self.open.get(peer) is writer:
            del self.open[peer]
            self.log("went", peer=peer, why=why)
        writer.close()

    async def _read(self, peer: int, reader: asyncio.StreamReader) -> str:
        """Puts frames into the queue of their sender; why not, where they can't be put there."""
        while peer in self.queues:
            length = int.from_bytes(await reader.readexactly(4), "big")
            if length > MOST_MESSAGE:
                return f"a frame of {length} bytes"
            await self.queues[peer].put(await reader.readexactly(length))
            self.woken.set()
        return "the plan has no other peer of this number"
