"""Journal files of a folder as inputs of `lockss evidence` (docs/FORMATS.md, "Journals as text")."""

from __future__ import annotations

import pathlib
import re
from collections.abc import Iterable, Mapping
from dataclasses import dataclass

from files import disk
from files.disk import Disk
from lks.journal import PollOpened, Record, Replaced, VoteIn, of_kind
from lks.plan import Plan
from lks.script import BEHIND, MOST_BYTES, STEP_LINES, Script, judge_lines

# No rule of evidence asks what a plan's copies are: how many blocks an AU has stands in its own line. They would take most of
# the room.
KEPT_LINES = BEHIND.keys() - STEP_LINES - {"copy", "damage"}


@dataclass
class Folder:
    """The plan of a folder's peers, its lines but for copies and steps, and the journals of honest peers that are there."""

    plan: Plan
    head: str
    disks: dict[int, Disk]

    def text(self, peers: Iterable[int]) -> bytes:
        """An input with the journals of these peers."""
        lines = [f"journal {peer} {self.disks[peer].frames().hex()}\n" for peer in self.plan.peers if peer in peers]
        return (self.head + "".join(lines)).encode("latin-1")

    def sizes(self) -> dict[int, int]:
        """How many bytes the line of each journal takes."""
        return {peer: len(f"journal {peer} \n") + 2 * len(it.frames()) for peer, it in self.disks.items()}

    def replaced(self) -> int:
        """How many blocks were replaced in all journals."""
        return sum(len(of_kind(it.records(), Replaced)) for it in self.disks.values())


def plan_of(data: bytes) -> tuple[Plan, str]:
    """The plan of a script, and its lines as an input has them."""
    script = Script()
    judge_lines(data, script.add_line)
    script.end()
    return script.plan, "".join(f"{line}\n" for line in script.lines if line.split(" ")[0] in KEPT_LINES)


def read(folder: pathlib.Path, plan_file: pathlib.Path) -> tuple[Folder, list[str]]:
    """What a folder has, and which of its journals are damaged, as lines. A file whose name is the number of an honest peer is
    its journal; the plan and files with other names than numbers are none."""
    plan, head = plan_of(plan_file.read_bytes())
    found, faults = Folder(plan, head, {}), []
    files = [path for path in folder.iterdir() if re.fullmatch("[0-9]+", path.name)]
    for path in sorted(files, key=lambda it: (len(it.name), it.name)):
        peer = next((it.id for it in plan.honest() if str(it.id) == path.name), None)
        if peer is None:
            raise ValueError(f"{path}: the plan has no honest peer of this number")
        try:
            found.disks[peer] = disk.read(path.read_bytes())
            disk.look(plan, peer, found.disks[peer])
        except disk.Damaged as fault:
            faults.append(f"{path}: {fault}")
    return found, faults


def voters_of(records: list[Record]) -> list[int] | None:
    """The inner voters of the polls that replaced a block in a journal; none where no block was replaced."""
    numbers = {it.number for it in of_kind(records, Replaced)}
    inner = {(it.number, member) for it in of_kind(records, PollOpened) for member in it.inner}
    votes = {it.voter for it in of_kind(records, VoteIn) if it.number in numbers and (it.number, it.voter) in inner}
    return sorted(votes) if numbers else None


def _place(inputs: list[list[int]], sizes: Mapping[int, int], room: int, peers: tuple[int, ...]) -> bool:
    """Puts peers together into the input that wants the fewest of them and has room, or into a new one; whether it could."""

    def lacks(held: list[int]) -> list[int]:
        return [peer for peer in peers if peer not in held]

    inputs.append([])
    for held in sorted(inputs, key=lambda it: len(lacks(it))):
        if sum(sizes[peer] for peer in [*held, *lacks(held)]) <= room:
            held += lacks(held)
            break
    if not inputs[-1]:
        inputs.pop()
    return any(not lacks(held) for held in inputs)


def gather(folder: Folder, most: int = MOST_BYTES) -> tuple[list[list[int]], list[tuple[int, ...]]]:
    """Inputs of at most so many bytes, each as its peers, and who doesn't fit into one: a poller, or a poller and a voter.

    Each poller with a replaced block stands in one with each of its inner voters whose journal is there. A doubt of a replaced
    block is of its poller's journal, alone or with that of one voter, so all inputs hold exactly where the whole set does.
    """
    sizes, room = folder.sizes(), most - len(folder.head)
    if sum(sizes.values()) <= room:
        return [list(sizes)], []
    inputs: list[list[int]] = []
    apart: list[tuple[int, ...]] = []
    for poller, it in folder.disks.items():
        voters = voters_of(it.records())
        if voters is None:
            continue
        wanted = [(poller, voter) for voter in voters if voter in sizes and voter != poller]
        alone = not _place(inputs, sizes, room, (poller,))
        apart += [(poller,)] if alone else [pair for pair in wanted if not _place(inputs, sizes, room, pair)]
    return inputs or [[]], apart
