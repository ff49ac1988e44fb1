"""The processor seconds of each function's proof."""

from __future__ import annotations

import os
import pathlib
import re
from collections.abc import Iterable
from typing import NamedTuple, TextIO

from building.lanes import Lanes, Task
from building.rooms import room

TICKS = os.sysconf("SC_CLK_TCK")

Seconds = NamedTuple("Seconds", [("function", str), ("seconds", float)])


def seconds_in(session: int) -> float:
    """The processor seconds that all processes of a session took, with those that ended and were waited for."""
    ticks = 0
    for folder in pathlib.Path("/proc").glob("[0-9]*"):
        try:
            fields = (folder / "stat").read_text().rpartition(")")[2].split()
        except OSError:
            continue
        if int(fields[3]) == session:
            ticks += sum(map(int, fields[11:15]))
    return ticks / TICKS


class Timed(Lanes):
    """Crates that are proved anew with their tests, over libraries that are built: each function after another, several crates at a
    time. `found` are the seconds of their functions."""

    def __init__(self, crates: Iterable[str], out: TextIO) -> None:
        super().__init__({crate: [] for crate in crates}, out, each=1)
        self.found: list[Seconds] = []

    def prove(self, task: Task) -> str | None:
        """Proves a crate. It gives what rt said where that didn't go well."""
        words = "rt", "check", "--test", "--jobs", "1"
        with room(task.crate, "nothing") as folder, self.begun(*words, folder=folder) as process:
            assert process.stdout is not None
            said, before = list[str](), 0.0
            for line in process.stdout:
                said.append(line)
                if found := re.match(r"checked (\S+), \d+ of \d+", line):
                    now = seconds_in(process.pid)
                    self.found.append(Seconds(found[1], now - before))
                    before = now
            return "".join(said) if process.wait() else None
