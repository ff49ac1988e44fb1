"""What the checkers say of the journals of a network, and whether each end of a node is explained."""

from __future__ import annotations

import pathlib
import shutil
import subprocess
import sys
from collections import Counter
from collections.abc import Iterable

from lks.play import TOP
from net.peers import Peer

# A node or daemon that was told to end, a daemon that was told so before it heeds signals, and a node that was killed.
TOLD, EARLY, KILLED = 0, -15, -9


def _run(name: str, *words: object) -> tuple[int, str]:
    ended = subprocess.run(
        [sys.executable, TOP / "bin" / name, *map(str, words)], capture_output=True, text=True, check=False
    )
    return ended.returncode, (ended.stdout + ended.stderr).strip()


def checkers(folder: pathlib.Path) -> dict[str, str]:
    """What both say of the journals in a folder, in one line each."""
    _, first = _run("journals", folder, "--evidence")
    inputs = folder / "inputs"
    status, second = _run("journals", folder, "--to", inputs)
    if status == 0:
        said = [_run("check-evidence", path)[1] for path in sorted(inputs.iterdir())]
        doubts = [it for it in said if not it.startswith("evidence yes ")]
        # where one input isn't enough, a block may stand in several
        second = doubts[0] if doubts else said[0] if len(said) == 1 else f"evidence yes, of each of {len(said)} inputs"
    shutil.rmtree(inputs, ignore_errors=True)
    return {"lockss evidence": first, "bin/check-evidence": second}


def ends(peers: Iterable[Peer]) -> Counter[int]:
    """The statuses of all nodes that failed, and of the daemons that were told to stop."""
    found: Counter[int] = Counter()
    for it in peers:
        found.update(int(event["status"]) for event in it.log() if event.get("what") in ("failed", "ended"))
        found.update(it.statuses)
    return found


def unexplained(found: Counter[int], kills: int) -> list[str]:
    """Which of these nothing explains that was done."""
    others = {status: count for status, count in found.items() if status not in (TOLD, EARLY, KILLED)}
    lines = [f"{count} nodes or daemons ended with {status}" for status, count in sorted(others.items())]
    if found[KILLED] > kills:
        lines.append(f"{found[KILLED]} nodes ended by SIGKILL, and {kills} were killed")
    return lines
