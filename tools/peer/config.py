"""What an operator says in a config file: docs/RUNNING.md says how to choose its schedule."""

from __future__ import annotations

import pathlib
import shlex
import tomllib
from collections.abc import Callable
from dataclasses import dataclass
from datetime import datetime
from typing import Any, NamedTuple

from lks.plan import LAST_ID, LAST_NUMBER, Plan
from lks.play import TOP
from lks.script import read

# How many messages wait for a link, and how many ticks the clock may leap, where a config doesn't say it.
QUEUE, LEAP = 256, 100_000
# The numbers of the schedule, in ticks.
TICKS = ("open", "nudge", "outer", "shut", "give-up", "check", "expire", "expire-bare", "scrub")
# Where messages for a peer go: the words of a command, and how many may wait for it.
Link = NamedTuple("Link", [("command", list[str]), ("queue", int)])


@dataclass(frozen=True)
class Config:
    """What a config file says. `schedule` has the numbers of `TICKS`, and `epoch` is the wall time of tick 0."""

    peer: int
    journal: pathlib.Path
    socket: pathlib.Path
    node: pathlib.Path
    script: bytes
    plan: Plan
    epoch: float
    seconds: float
    leap: int
    schedule: dict[str, int]
    links: dict[int, Link]


class Table:
    """A table of a config: each of its keys is taken once, and none is left behind the `with` that it stands in."""

    def __init__(self, name: str, values: dict[str, Any]) -> None:
        self.name, self.values = name, dict(values)

    def __enter__(self) -> Table:
        return self

    def __exit__(self, kind: object, *_: object) -> None:
        if kind is None and self.values:
            raise ValueError(f"`{next(iter(self.values))}` in {self.name} means nothing")

    def take(self, key: str, wanted: str, fits: Callable[[Any], bool], default: Any = None) -> Any:
        """The value of a key, which is to be as wanted, or its default where it has one."""
        value = self.values.pop(key, default)
        if value is None or not fits(value):
            raise ValueError(f"`{key}` in {self.name} {'is missing' if value is None else f'is to be {wanted}'}")
        return value

    def number(self, key: str, least: int, most: int, default: int | None = None) -> int:
        """A whole number in these bounds."""
        fits = lambda it: type(it) is int and least <= it <= most
        return self.take(key, f"a whole number from {least} to {most}", fits, default)

    def text(self, key: str, default: str | None = None) -> str:
        """A text that isn't empty."""
        return self.take(key, "a text", lambda it: isinstance(it, str) and it.strip() != "", default)

    def table(self, key: str, default: dict[str, Any] | None = None) -> Table:
        """A table within this one."""
        name = f"[{key}]" if self.name == "the config" else f"{self.name[:-1]}.{key}]"
        return Table(name, self.take(key, "a table", lambda it: isinstance(it, dict), default))


def _is_command(value: Any) -> bool:
    try:
        return isinstance(value, str) and len(shlex.split(value)) > 0
    except ValueError:
        return False


def _link(table: Table) -> Link:
    with table:
        command = table.take("command", "the words of a command", _is_command)
        return Link(shlex.split(command), table.number("queue", 1, 65_536, QUEUE))


def _plan(path: pathlib.Path, peer: int) -> tuple[bytes, Plan]:
    script = path.read_bytes()
    try:
        plan = read(script).plan
    except ValueError as fault:
        raise ValueError(f"{path}: {fault}") from None
    if peer not in plan.peers or not plan.peers[peer].honest:
        raise ValueError(f"{path}: the plan has no honest peer {peer}")
    return script, plan


def parse(text: str, folder: pathlib.Path) -> Config:
    """The config that this text says. Its paths begin in this folder."""
    with Table("the config", tomllib.loads(text)) as table:
        peer = table.number("peer", 0, LAST_ID)
        script, plan = _plan(folder / table.text("plan"), peer)
        journal, socket = folder / table.text("journal"), folder / table.text("socket")
        node = folder / table.text("node", str(TOP / "bin/lks_node"))
        with table.table("clock") as clock:
            is_time = lambda it: isinstance(it, datetime) and it.tzinfo is not None
            epoch = clock.take("epoch", "a time with its zone, as 2026-11-29T00:00:00Z", is_time).timestamp()
            is_length = lambda it: type(it) in (int, float) and 0.01 <= it <= 86_400
            seconds = clock.take("seconds", "a number from 0.01 to 86400", is_length)
            leap = clock.number("leap", 1, LAST_NUMBER, LEAP)
        with table.table("schedule") as ticks:
            schedule = {name: ticks.number(name, 1, 1_000_000) for name in TICKS}
        with table.table("links", {}) as linked:
            others = [it for it in plan.peers if it != peer and str(it) in linked.values]
            links = {it: _link(linked.table(str(it))) for it in others}
    return Config(peer, journal, socket, node, script, plan, epoch, seconds, leap, schedule, links)


def load(path: pathlib.Path) -> Config:
    """The config in this file; a `ValueError` says in one line what is wrong with it."""
    try:
        return parse(path.read_text("utf-8"), path.parent.resolve())
    except ValueError as fault:
        raise ValueError(f"{path}: {fault}") from None
