"""The program `lks_node` as a process: it is sent a frame at a time, and answers it once what it adds is in its file."""

from __future__ import annotations

import asyncio
import contextlib
import pathlib
from typing import NamedTuple

from lks.fields import BE16, BE32, BadBytes, group, listed, sized, whole

# A node takes one frame more than these behind its plan, so many ticks at once, and messages of so many bytes.
MOST_FRAMES, MOST_TICKS, MOST_MESSAGE = 4_095, 1_000_000, 40_000
# A reply sends at most one message to each peer that a poll may invite.
MOST_REPLY = 65_536 + 64 * (6 + MOST_MESSAGE)

Send = NamedTuple("Send", [("to", int), ("data", bytes)])
Reply = NamedTuple("Reply", [("records", int), ("sends", tuple[Send, ...])])
REPLY = group(Reply, BE16, listed(BE16, group(Send, BE16, sized(BE32))))
# What a status is called, what to do about it, and whether a start anew may help.
Status = NamedTuple("Status", [("name", str), ("advice", str), ("is_passing", bool)])

STATUSES = {
    2: Status("usage", "the number of the peer or the path of the journal in the config is none", False),
    3: Status("bad-plan", "`bin/why PLAN` names the bad line", False),
    4: Status("read-fault", "it is started again", True),
    5: Status("write-fault", "it is started again", True),
    6: Status("disk-fault", "look at the disk and its room; it is started again", True),
    7: Status("no-memory", "give it memory: it holds its journal; it is started again", True),
    10: Status("foreign", "the journal isn't of this peer and plan, or its bytes rotted: RUNNING, A journal that rotted", False),
    11: Status("bad-frame", "the frame is left out; node and daemon may be of different versions", True),
    12: Status("open-fault", "another node has the journal, or its folder can't be written", True),
    13: Status("full", "the journal has no room: RUNNING, Growth", False),
    14: Status("too-many-frames", "node and daemon are of different versions", True),
    15: Status("stranger", "the plan has no honest peer of this number", False),
    16: Status("damaged", "the journal is damaged: RUNNING, A journal that rotted", False),
    70: Status("no-program", "`node` in the config can't be run: README, Run it, check it, says how to build it", False),
}


class Ended(Exception):
    """The status of a node that ended, and why what it wrote is no reply, if it was ended for that."""


def status_of(code: int) -> Status:
    """What a status is called; a signal is the negative of its number."""
    return STATUSES.get(code) or Status(f"signal-{-code}" if code < 0 else "unknown", "it is started again", True)


def frame(body: bytes) -> bytes:
    """A frame with this body."""
    return BE32.write(len(body)) + body


class Node:
    """A node from its start to its end. `frames` counts those behind the plan."""

    def __init__(self, process: asyncio.subprocess.Process) -> None:
        assert process.stdin is not None and process.stdout is not None
        self.process, self.input, self.output = process, process.stdin, process.stdout
        self.frames = 0

    @classmethod
    async def start(cls, program: pathlib.Path, peer: int, journal: pathlib.Path, script: bytes) -> Node:
        """Starts it in a session of its own, so that no terminal's signal ends it within a frame, and hands it its plan."""
        pipe = asyncio.subprocess.PIPE
        words = [str(program), str(peer), str(journal)]
        try:
            process = await asyncio.create_subprocess_exec(*words, stdin=pipe, stdout=pipe, start_new_session=True)
        except OSError:
            raise Ended(70, "") from None
        node = cls(process)
        await node.send(script)
        return node

    async def send(self, body: bytes) -> None:
        """Sends a frame. That nobody reads it is told by the status, which comes next."""
        with contextlib.suppress(ConnectionError):
            self.input.write(frame(body))
            await self.input.drain()

    async def ask(self, body: bytes) -> Reply:
        """The reply to a frame; or `Ended`."""
        self.frames += 1
        await self.send(body)
        try:
            length = int.from_bytes(await self.output.readexactly(4), "big")
            if length > MOST_REPLY:
                raise BadBytes(f"a reply of {length} bytes")
            return whole(REPLY.read, await self.output.readexactly(length))
        except asyncio.IncompleteReadError:
            raise Ended(await self.process.wait(), "") from None
        except BadBytes as fault:
            await self.kill()
            raise Ended(self.process.returncode, f"what it wrote is no reply: {fault}") from None

    async def end(self) -> int:
        """Ends it behind its last frame; its status."""
        self.input.close()
        return await self.process.wait()

    async def kill(self) -> None:
        """Ends it wherever it is, if it runs."""
        with contextlib.suppress(ProcessLookupError):
            self.process.kill()
        await self.process.wait()
