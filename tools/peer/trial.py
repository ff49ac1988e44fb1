"""Peers on this machine, for trials: each has a folder with its plan, its config, its journal and what its daemon told."""

from __future__ import annotations

import json
import os
import pathlib
import signal
import subprocess
import sys
import time
from collections.abc import Callable, Iterator, Mapping, Sequence
from datetime import UTC, datetime

from files import disk
from lks.journal import Record
from lks.play import TOP, Failed
from lks.script import Script, rules_words
from peer import log

GOOD = [bytes([place]) * 300 for place in range(4)]
DAMAGED = [GOOD[0], b"rotten", *GOOD[2:]]
# A second has five ticks.
TICKS = {"open": 150, "nudge": 10, "outer": 5, "shut": 20, "give-up": 50, "check": 25, "expire": 600, "expire-bare": 100}
SECONDS = 0.2
MOST_WAIT = 180.0


def program() -> pathlib.Path | None:
    """The node's program: what LKS_NODE names, or what is built in this tree; None where there is neither."""
    built = TOP / "crates/lks_node/out/lks_node"
    found = pathlib.Path(os.environ.get("LKS_NODE") or built)
    return found if found.is_file() and os.access(found, os.X_OK) else None


def plan(own: int, copy: Sequence[bytes], refs: Sequence[int], peers: int = 3, **rules: int) -> str:
    """The plan of a library: its own copy and seed, and of the others what is the same for all."""
    made = Script()
    made.add("lockss", 1)
    made.add(*rules_words(**{"inner": 1, "quorum": 1, "repairs": 9, "overdue": 100_000, "unknown": 100, "debt": 100} | rules))
    made.add("au", 1, len(copy))
    for peer in range(1, peers + 1):
        made.add("peer", peer, "honest", os.urandom(32) if peer == own else b"\0", b"\1")
    if refs:
        made.add("refs", own, *refs)
    made.add("copy", own, 1, copy)
    return made.text()


class Peer:
    """A peer in a folder of its own."""

    def __init__(self, folder: pathlib.Path, number: int, node: pathlib.Path, **ticks: int) -> None:
        self.folder, self.number, self.node = folder / str(number), number, node
        self.folder.mkdir()
        self.ticks = {"scrub": 100_000} | TICKS | {name.replace("_", "-"): it for name, it in ticks.items()}
        self.socket, self.journal, self.told = self.folder / "run/socket", self.folder / "journal", self.folder / "log"
        self.daemon: subprocess.Popen[bytes] | None = None

    def set_up(self, script: str, links: Mapping[int, str], epoch: float | None = None, seconds: float = SECONDS) -> None:
        """Writes the plan and the config. The epoch is now, where none is said."""
        (self.folder / "plan.lockss").write_text(script)
        lines = [f"peer = {self.number}", 'plan = "plan.lockss"', f"journal = {json.dumps(str(self.journal))}"]
        since = datetime.now(UTC).replace(microsecond=0) if epoch is None else datetime.fromtimestamp(epoch, UTC)
        lines += ['socket = "run/socket"', f'node = "{self.node}"', "[clock]", f"epoch = {since.isoformat()}"]
        lines += [f"seconds = {seconds}", "[schedule]", *(f"{name} = {it}" for name, it in self.ticks.items())]
        for peer, command in links.items():
            lines += [f"[links.{peer}]", f"command = '{command}'"]
        (self.folder / "peer.toml").write_text("\n".join(lines) + "\n")

    def start(self, *more: str) -> None:
        """Starts its daemon, with more words."""
        with open(self.told, "ab") as told:
            words = [sys.executable, TOP / "bin/peer", self.folder / "peer.toml", *more]
            self.daemon = subprocess.Popen(words, stdout=told, stderr=told, start_new_session=True)

    def stop(self) -> int:
        """Tells its daemon to stop; its status."""
        if self.daemon is None:
            return 0
        self.daemon.send_signal(signal.SIGTERM)
        return self.daemon.wait(MOST_WAIT)

    def log(self) -> Iterator[dict[str, str]]:
        """The events that its daemon told."""
        if self.told.exists():
            with open(self.told) as file:
                yield from map(log.read, file)

    def events(self, what: str, **values: object) -> list[dict[str, str]]:
        """Those of this name with these values."""
        wanted = {"what": what} | {name: str(it) for name, it in values.items()}
        return [line for line in self.log() if wanted.items() <= line.items()]

    def records(self) -> list[Record]:
        """What stands in its journal."""
        return disk.read(self.journal.read_bytes()).records()


def until(what: str, test: Callable[[], object], seconds: float = MOST_WAIT) -> None:
    """Waits until a test holds; `Failed` where it doesn't in time."""
    end = time.monotonic() + seconds
    while not test():
        if time.monotonic() > end:
            raise Failed(f"not in {seconds:.0f} seconds: {what}")
        time.sleep(0.05)
