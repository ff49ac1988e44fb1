"""The honest peers of a network, each a daemon with a node and links, and how they are killed, stopped and started again."""

from __future__ import annotations

import asyncio
import contextlib
import ctypes
import os
import pathlib
import shlex
import signal
import subprocess
import sys
from collections import Counter
from collections.abc import Iterator, Mapping

from lks.play import TOP, Failed
from peer import trial

# The schedule of a network, in parts of the ticks between two polls of a peer on an AU.
PARTS = {"nudge": 1 / 12, "outer": 1 / 4, "shut": 3 / 5, "give-up": 1 / 5, "check": 1, "expire": 3, "expire-bare": 1, "scrub": 12}
# So many ticks between them are enough for each part.
LEAST_BETWEEN = 12
# The longest path of a socket.
MOST_PATH = 107
# prctl(PR_SET_CHILD_SUBREAPER), mallopt(M_ARENA_MAX)
_SUBREAPER, _ARENAS = 36, -8


def ticks(between: int) -> dict[str, int]:
    """The numbers of a schedule with so many ticks between two polls of a peer on an AU."""
    return {"open": between, **{name: max(1, round(part * between)) for name, part in PARTS.items()}}


def adopt() -> None:
    """What a killed daemon leaves behind becomes a child of this process, which waits for it."""
    ctypes.CDLL(None).prctl(_SUBREAPER, 1, 0, 0, 0)


def share_heap() -> None:
    """All threads of this process take memory from one heap: else each keeps what it once needed. Only glibc has more."""
    with contextlib.suppress(AttributeError):
        ctypes.CDLL(None).mallopt(_ARENAS, 1)


def give_back() -> None:
    """What is free in the heap of this process goes back to the machine. Only glibc does that."""
    with contextlib.suppress(AttributeError):
        ctypes.CDLL(None).malloc_trim(0)


def children(process: int) -> Iterator[int]:
    """The processes that a process started, as far as it runs."""
    for path in pathlib.Path(f"/proc/{process}/task").glob("*/children"):
        try:
            yield from map(int, path.read_text().split())
        except OSError:
            continue


def link(own: int, to: pathlib.Path) -> list[str]:
    """The command of a link on this machine: bin/from, as it stands behind the key of a library."""
    return [sys.executable, "-I", str(TOP / "bin/from"), str(own), str(to)]


class Peer(trial.Peer):
    """An honest peer. Its journal stands in the folder of the network, where `bin/journals` looks for it."""

    def __init__(self, top: pathlib.Path, number: int, node: pathlib.Path, schedule: Mapping[str, int]) -> None:
        super().__init__(top / "peers", number, node, **schedule)
        self.journal = top / str(number)
        # nothing else is done to a peer while one thing is
        self.lock = asyncio.Lock()
        # how often its daemon ended with which status when it was told to
        self.statuses: Counter[int] = Counter()
        if len(os.fsencode(self.socket)) > MOST_PATH:
            raise ValueError(f"{self.socket}: a socket's path has at most {MOST_PATH} bytes")

    def give(self, script: str, wires: Mapping[int, pathlib.Path], epoch: float, seconds: float) -> None:
        """Writes its plan and its config, with the sockets at which other peers are reached, and its clock."""
        self.script, self.wires, self.epoch, self.seconds = script, dict(wires), epoch, seconds
        links = {peer: shlex.join(link(self.number, to)) for peer, to in self.wires.items()}
        self.set_up(script, links, epoch, seconds)

    @property
    def is_up(self) -> bool:
        """Whether its daemon runs."""
        return self.daemon is not None and self.daemon.poll() is None

    def nodes(self) -> list[int]:
        """Its node, while there is one."""
        return [it for it in children(self.daemon.pid) if self._is_node(it)] if self.daemon else []

    def _is_node(self, process: int) -> bool:
        try:
            return str(self.node) in pathlib.Path(f"/proc/{process}/cmdline").read_text()
        except OSError:
            return False

    def kill_node(self) -> bool:
        """Kills its node alone; whether there was one."""
        found = self.nodes()
        for process in found:
            os.kill(process, signal.SIGKILL)
        return len(found) > 0

    def kill(self) -> None:
        """Kills all of it, as a power failure does."""
        assert self.daemon is not None
        # stopped first, so that nothing is started behind the look
        self.daemon.send_signal(signal.SIGSTOP)
        left = list(children(self.daemon.pid))
        self.daemon.kill()
        self.daemon.wait()
        self.daemon = None
        for process in left:
            try:
                os.kill(process, signal.SIGKILL)
                os.waitpid(process, 0)
            except (ProcessLookupError, ChildProcessError):
                continue

    def rest(self) -> int:
        """Stops its daemon behind the frame of its node; its status."""
        if self.daemon is None:
            return 0
        try:
            status = self.stop()
        except subprocess.TimeoutExpired:
            self.kill()
            raise Failed(f"peer {self.number} didn't stop") from None
        self.daemon = None
        self.statuses[status] += 1
        return status
