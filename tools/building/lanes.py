"""Crates proved side by side, and libraries built."""

from __future__ import annotations

import contextlib
import os
import pathlib
import re
import shutil
import sys
import threading
from collections.abc import Iterator
from concurrent.futures import FIRST_COMPLETED, Future, ThreadPoolExecutor, wait
from subprocess import Popen
from typing import NamedTuple, TextIO

from building.rooms import CRATES, give_way, held, room, started, stop

# So many jobs a crate has at most, as rt itself gives it. The one on which the longest chain stands waits for no other, always
# has so many, and the others give way to it.
MOST_JOBS = 4
# The memory, in kB, that one more crate may need.
EACH_KB = 3_000_000

Task = NamedTuple("Task", [("crate", str), ("jobs", int), ("gives_way", bool)])
# With the crate itself and without.
Chain = NamedTuple("Chain", [("lines", int), ("above", int)])


def chains(needs: dict[str, list[str]]) -> dict[str, Chain]:
    """The longest chain that begins at each crate and goes up, in lines of source."""
    found = dict[str, Chain]()
    for crate in reversed(needs):
        above = max((it.lines for name, it in found.items() if crate in needs[name]), default=0)
        files = (CRATES / crate / "src").rglob("*.rt")
        found[crate] = Chain(above + sum(it.read_bytes().count(b"\n") for it in files), above)
    return found


def lanes() -> int:
    """How many crates may be proved at a time."""
    free = re.search(r"MemAvailable:\s+(\d+)", pathlib.Path("/proc/meminfo").read_text())
    return max(1, min(len(os.sched_getaffinity(0)), int(free[1]) // EACH_KB if free else 1))


class Lanes:
    """Crates that are proved, each once those below it are, and where that is told. Libraries are built too. A crate has so many
    jobs at most."""

    def __init__(self, needs: dict[str, list[str]], out: TextIO = sys.stdout, each: int = MOST_JOBS) -> None:
        self.needs, self.long, self.most, self.each = needs, chains(needs), lanes(), each
        self.left, self.done = sorted(needs, key=lambda it: -self.long[it].lines), set[str]()
        self.running: dict[Future[str | None], Task] = {}
        self.processes: set[Popen[str]] = set()
        self.over, self.out = threading.Event(), out

    @contextlib.contextmanager
    def begun(self, *words: str, folder: pathlib.Path) -> Iterator[Popen[str]]:
        """A command that ends with these lanes."""
        with started(*words, folder=folder) as process:
            self.processes.add(process)
            if self.over.is_set():
                stop(process)
            try:
                yield process
            finally:
                self.processes.remove(process)

    def prove(self, task: Task) -> str | None:
        """Proves a crate, and builds it if it is a library. It gives what rt said where that didn't go well."""
        word = "check" if (CRATES / task.crate / "src/main.rt").is_file() else "lib"
        with held(task.crate), room(task.crate) as folder:
            with self.begun("rt", word, "--jobs", str(task.jobs), folder=folder) as process:
                if task.gives_way:
                    give_way(process)
                said = process.communicate()[0]
            if process.returncode:
                return said
            shutil.rmtree(CRATES / task.crate / "out", ignore_errors=True)
            (folder / "out").rename(CRATES / task.crate / "out")
            return None

    def begin(self, pool: ThreadPoolExecutor) -> None:
        """Begins what may be begun. A crate gets more than one job where no other waits, or where the longest chain stands on it:
        one that is longer than what stands on each crate that is being proved. It counts as one whatever its jobs are, since most
        of the time but one of them has work."""
        ready = [it for it in self.left if self.done.issuperset(self.needs[it])]
        for at, crate in enumerate(ready):
            tasks = self.running.values()
            idle = self.most - len(tasks)
            is_first = all(self.long[crate].lines > self.long[it.crate].above for it in tasks)
            has_all = is_first and 1 < self.each <= self.most
            if idle > 0 or has_all and idle == 0:
                jobs = self.each if has_all else max(1, min(self.each, idle // (len(ready) - at)))
                self.left.remove(crate)
                task = Task(crate, jobs, gives_way=not is_first)
                self.running[pool.submit(self.prove, task)] = task

    def run(self) -> bool:
        """Proves all, and prints a line for each crate. It ends at the first one that isn't proved."""
        with ThreadPoolExecutor(self.most + 1) as pool:
            try:
                while self.left or self.running:
                    self.begin(pool)
                    for it in wait(self.running, return_when=FIRST_COMPLETED).done:
                        crate, said = self.running.pop(it).crate, it.result()
                        print(f"{crate} is proved" if said is None else said.rstrip(), file=self.out, flush=True)
                        if said is not None:
                            return False
                        self.done.add(crate)
                return True
            finally:
                self.over.set()
                for process in self.processes.copy():
                    stop(process)
