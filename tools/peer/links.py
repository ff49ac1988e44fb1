"""Commands that take messages to the peers of other libraries: kept running, with what waits for each in a queue."""

from __future__ import annotations

import asyncio
import contextlib
import os
import signal
import time
from collections import deque

from peer import config
from peer.log import Log, mark
from peer.node import frame

# What the other side writes once frames reach its daemon; lines before it, of a login shell perhaps, are passed over.
READY = b"ready\n"
# The least and the most seconds between two starts of a command.
LEAST_PAUSE, MOST_PAUSE = 1.0, 60.0


class Pause:
    """Seconds to wait before the next start: twice as long each time, and the least again once something lived longer."""

    def __init__(self, least: float, most: float) -> None:
        self.least, self.most, self.last = least, most, 0.0

    def after(self, lived: float) -> float:
        """How long to wait after something lived so many seconds."""
        self.last = self.least if lived > self.last else max(self.least, min(2 * self.last, self.most))
        return self.last


class Link:
    """The link to a peer. A message is lost where more wait than may, or where the command ends while it has it."""

    def __init__(self, peer: int, given: config.Link, log: Log) -> None:
        self.peer, self.command, self.most, self.log = peer, given.command, given.queue, log
        self.queue: deque[bytes] = deque()
        self.filled = asyncio.Event()

    def put(self, data: bytes) -> None:
        """Adds a message. Where too many wait, the oldest is dropped."""
        self.queue.append(data)
        self.filled.set()
        if len(self.queue) > self.most:
            self.log("dropped", peer=self.peer, why="queue", mark=mark(self.queue.popleft()))

    async def run(self) -> None:
        """Keeps the command running."""
        pause = Pause(LEAST_PAUSE, MOST_PAUSE)
        while True:
            begun = time.monotonic()
            status = await self._live()
            wait = pause.after(time.monotonic() - begun)
            self.log("link-ended", peer=self.peer, status=status, pause=wait)
            await asyncio.sleep(wait)

    async def _live(self) -> int | str:
        """Runs the command to its end; its status, or why it wasn't started."""
        pipe = asyncio.subprocess.PIPE
        try:
            process = await asyncio.create_subprocess_exec(
                *self.command, stdin=pipe, stdout=pipe, stderr=pipe, start_new_session=True
            )
        except OSError as fault:
            return fault.strerror or "not started"
        tasks = [asyncio.create_task(it) for it in (self._pump(process), process.wait(), self._hear(process))]
        try:
            await asyncio.wait(tasks[:2], return_when=asyncio.FIRST_COMPLETED)
        finally:
            # not by `terminate`, which may take the status of one that has just ended from who waits for it
            with contextlib.suppress(ProcessLookupError):
                if process.returncode is None:
                    os.kill(process.pid, signal.SIGTERM)
            for task in tasks:
                task.cancel()
            await asyncio.gather(*tasks, return_exceptions=True)
            status = await process.wait()
        return status

    async def _pump(self, process: asyncio.subprocess.Process) -> None:
        """Hands messages to the command, from when the other side is ready."""
        assert process.stdin is not None and process.stdout is not None
        while (line := await process.stdout.readline()) != READY:
            if not line:
                return
        self.log("link-ready", peer=self.peer)
        # a message leaves the queue once the command has it
        process.stdin.transport.set_write_buffer_limits(0)
        with contextlib.suppress(ConnectionError):
            while True:
                while not self.queue:
                    self.filled.clear()
                    await self.filled.wait()
                data = self.queue[0]
                process.stdin.write(frame(data))
                await process.stdin.drain()
                if self.queue and self.queue[0] is data:
                    self.queue.popleft()

    async def _hear(self, process: asyncio.subprocess.Process) -> None:
        """Tells the log what the command says, and ends when it says no more."""
        assert process.stderr is not None
        while said := await process.stderr.read(500):
            self.log("link-said", peer=self.peer, text=said.decode(errors="replace").strip())
