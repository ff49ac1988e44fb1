"""Memory and open files of processes, as a run goes on; a line of progress on a terminal, and a picture of a run."""

from __future__ import annotations

import csv
import os
import pathlib
import statistics
import sys
from collections.abc import Iterable, Iterator, Mapping, Sequence
from itertools import islice

from attack.picture import Point, picture

# So many samples are enough to see what grows.
ENOUGH = 300
# In its first samples a process may not be done with its start, where the machine is busy.
STARTING = 5
# Points of a picture from left to right, and what it shows: counts, and then measures.
SLOTS = 40
SHOWN = {"nodes up": "up", "polls agreed": "agreed", "bad blocks": "bad blocks"}
MEASURED = ("memory of nodes, MB", "memory of daemons, MB", "open files of daemons")
# What this process holds, as it counts itself: its memory is also what it once held.
HELD = "thousand blocks of memory that the network's own process holds"
# With these what it holds goes up and down: the messages of the last looks, by which the report numbers what comes.
REMEMBERED = "messages that the network's own process remembers"
COUNTS = ("up", "polls", "agreed", "replaced", "alarms", "bad blocks", "frames")
# What a sample has of each measure, in columns of these names: of all processes of a kind that run.
EXTREMES = ("least", "median", "most")
# A row of the file of samples, by the names of its columns. Where no process of a kind ran, nothing stands there.
Row = dict[str, str]


def usage(processes: Iterable[int]) -> dict[int, tuple[float, float]]:
    """The memory in MB and the open files of each of these processes that still runs."""
    found = {}
    for process in processes:
        try:
            pages = int(pathlib.Path(f"/proc/{process}/statm").read_text().split()[1])
            opened = len(os.listdir(f"/proc/{process}/fd"))
        except OSError:
            continue
        found[process] = pages * os.sysconf("SC_PAGE_SIZE") / 1e6, float(opened)
    return found


def extremes(values: Sequence[float]) -> tuple[float, float, float]:
    """The least, the median and the most."""
    return min(values), statistics.median(values), max(values)


def extremes_of(rows: Sequence[Row], name: str) -> tuple[float, float, float] | None:
    """Those of a count, or of a measure with the median of its medians, in samples; none where nothing was measured."""
    columns = [name] * 3 if name in COUNTS else [f"{name} {it}" for it in EXTREMES]
    least, middle, most = ([float(row[column]) for row in rows if row[column]] for column in columns)
    return (min(least), statistics.median(middle), max(most)) if middle else None


class Watch:
    """Samples of a run, which go into a file as they come and are read again at its end: they are kept nowhere else, so
    that a long run takes no more memory than a short one."""

    def __init__(self, path: pathlib.Path) -> None:
        self.path, self.file = path, open(path, "w", encoding="ascii", newline="")
        self.rows = csv.writer(self.file, lineterminator="\n")
        self.count, self.last, self.measures = 0, "", list[str]()
        # of each kind the memory that its processes had in their first samples
        self.first: dict[str, dict[int, list[float]]] = {}

    def add(self, second: int, counts: Mapping[str, int], kinds: Mapping[str, Sequence[int]], remembered: int) -> None:
        """Measures the processes of each kind, while so many messages are remembered."""
        measures: dict[str, list[float]] = {}
        for kind, processes in kinds.items():
            found = usage(processes)
            measures[f"memory of {kind}, MB"] = [memory for memory, _ in found.values()]
            measures[f"growth of {kind}, kB"] = self.grown(kind, {it: memory for it, (memory, _) in found.items()})
            measures[f"open files of {kind}"] = [opened for _, opened in found.values()]
        measures |= {HELD: [sys.getallocatedblocks() / 1000], REMEMBERED: [float(remembered)]}
        if self.count == 0:
            self.measures = list(measures)
            self.rows.writerow(["second", *COUNTS, *(f"{name} {it}" for name in measures for it in EXTREMES)])
        cells = [f"{it:.1f}" if values else "" for values in measures.values() for it in extremes(values or [0.0])]
        self.rows.writerow([second, *(counts[name] for name in COUNTS), *cells])
        self.file.flush()
        self.count += 1
        self.last = f"{second} s: " + ", ".join(f"{counts[name]} {name}" for name in COUNTS)

    def grown(self, kind: str, memory: Mapping[int, float]) -> list[float]:
        """By how many kB each process grew since its start was over."""
        before = self.first.get(kind, {})
        self.first[kind] = {it: [*before.get(it, []), now][:STARTING] for it, now in memory.items()}
        return [1000 * (now - before[it][-1]) for it, now in memory.items() if len(before.get(it, [])) == STARTING]

    def progress(self, is_over: bool = False) -> None:
        """The line of progress, where standard error is a terminal."""
        if sys.stderr.isatty() and self.last:
            sys.stderr.write(f"\r\x1b[K{self.last}" + "\n" * is_over)
            sys.stderr.flush()

    def samples(self, first: int = 0, last: int | None = None) -> Iterator[Row]:
        """The samples from one place to another, read again."""
        with open(self.path, encoding="ascii", newline="") as file:
            yield from islice(csv.DictReader(file), first, last)

    def parts(self) -> Iterator[list[Row]]:
        """The samples, parted into as many stretches as a picture has points, or fewer."""
        samples, size = self.samples(), -(-self.count // SLOTS)
        while part := list(islice(samples, size)):
            yield part

    def draw(self, path: pathlib.Path, title: str) -> None:
        """A picture of the run."""
        panels: dict[str, list[Point]] = {name: [] for name in (*SHOWN, *MEASURED)}
        for part in self.parts():
            for name, points in panels.items():
                if found := extremes_of(part, SHOWN.get(name, name)):
                    points.append(Point(int(part[-1]["second"]), *found))
        if all(panels.values()):
            path.write_text(picture(title, "seconds", panels), encoding="ascii")

    def growth(self) -> list[str]:
        """Of each measure the median in the second tenth of the run and in the last one, where the run was long enough
        for that to say something."""
        tenth, lines = self.count // 10, list[str]()
        if self.count < ENOUGH:
            return lines
        early, late = list(self.samples(tenth, 2 * tenth)), list(self.samples(self.count - tenth))
        for name in self.measures:
            before, now = extremes_of(early, name), extremes_of(late, name)
            if before and now:
                lines.append(f"{name}: {before[1]:.1f} early, {now[1]:.1f} late, at most {now[2]:.1f}")
        return lines
