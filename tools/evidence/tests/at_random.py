"""Attacks at random, journals with a stroke in them, and both checkers of evidence compared on such journals."""

from __future__ import annotations

from collections import Counter
from dataclasses import dataclass, field, fields, replace
from random import Random
from typing import Any

from evidence.checker import Checker, line_of
from lks import journal, play, script
from lks.fields import PollName
from lks.journal import RECORDS, Committed, Deposit, Joined, Journals, PollOpened, Replaced, Shut, VoteIn

BLOCKS = [b"", b"A", b"B", b"CC", b"D" * 20]
# Records on which evidence rests.
GROUNDS = Deposit, PollOpened, VoteIn, Shut, Replaced, Joined, Committed


class Attacks(Random):
    """Scripts of a few honest peers with damaged blocks, in whose polls corrupt ones vote and send repairs."""

    def script(self) -> script.Script:
        """A script."""
        made, honest = script.Script(), list(range(1, self.randint(3, 7)))
        corrupt = [honest[-1] + more for more in range(1, self.randint(2, 5))]
        inner = self.randint(1, len(honest) + len(corrupt) - 1)
        quorum = self.randint(1, inner)
        numbers = {"inner": inner, "quorum": quorum, "minority": self.randint(0, (quorum - 1) // 2)}
        more = {"outer": self.randint(0, 2), "repairs": self.randint(1, 6), "churn": self.randint(0, 1)}
        made.add("lockss", 1)
        made.add(*script.rules_words(**numbers, **more, overdue=100, unknown=100, debt=100))
        aus = {au: [self.choice(BLOCKS) for _ in range(self.randint(1, 6))] for au in range(1, self.randint(2, 3))}
        for au, blocks in aus.items():
            made.add("au", au, len(blocks))
        for peer in honest + corrupt:
            made.add("peer", peer, "honest" if peer in honest else "corrupt", self.randbytes(4), b"\1")
        for peer in honest:
            self.hold(made, peer, [other for other in honest + corrupt if other != peer], aus)
        opened: Counter[int] = Counter()
        for _ in range(self.randint(2, 6)):
            opened[peer := self.choice(honest)] += 1
            self.poll(made, peer, opened[peer], corrupt, aus)
        return made

    def hold(self, made: script.Script, peer: int, others: list[int], aus: dict[int, list[bytes]]) -> None:
        """Adds what an honest peer has: its hash, its list, and its copies, of which some blocks may be damaged."""
        if self.random() < 0.3:
            made.add("hash", peer, "sha512-256")
        made.add("refs", peer, *self.sample(others, len(others)))
        for au, blocks in aus.items():
            made.add("copy", peer, au, [self.randbytes(3) if self.random() < 0.2 else block for block in blocks])

    def poll(self, made: script.Script, peer: int, poll: int, corrupt: list[int], aus: dict[int, list[bytes]]) -> None:
        """Adds a poll, with what corrupt peers say in it."""
        au = self.choice(list(aus))
        blocks = [self.randbytes(2) if self.random() < 0.3 else block for block in aus[au]]
        made.add("open", peer, au)
        if self.random() < 0.2:
            made.add("tune", peer, 1, 0, self.randint(0, 4))
        for voter in corrupt:
            if self.random() < 0.8:
                made.add("say", voter, "vote", peer, poll, au, "of", blocks if self.random() < 0.9 else aus[au])
        made.add("next", self.randint(1, 20))
        if self.random() < 0.2:
            made.add("crash", peer)
        made.add("settle")
        made.add("shut", peer, poll)
        for _ in range(self.randint(0, 3)):
            made.add("settle")
            for voter in corrupt:
                for place in range(len(blocks)):
                    made.add("say", voter, "repair", peer, poll, place, blocks[place : place + 1])
        made.add("finish")


@dataclass
class Strokes:
    """A plan and journals as text, and how it is changed in one place; `polls` are those that replaced a block."""

    data: bytes
    journals: Journals
    random: Random
    polls: set[PollName] = field(default_factory=set)

    def __post_init__(self) -> None:
        for peer in self.journals.batches:
            self.polls |= {PollName(peer, it.number) for it in journal.of_kind(self.journals.records(peer), Replaced)}

    def _pick(self) -> tuple[int, int, int]:
        """A record of a kind that is picked first, mostly one on which evidence rests: its peer, its batch, its place there."""
        found: dict[bool, dict[type[Any], list[tuple[int, int, int]]]] = {False: {}, True: {}}
        for peer, batches in self.journals.batches.items():
            for row, batch in enumerate(batches):
                for place, record in enumerate(batch):
                    kinds = found[self._is_ground(peer, record)]
                    kinds.setdefault(type(record), []).append((peer, row, place))
        kinds = found[bool(found[True]) and self.random.random() < 0.8] or found[True]
        return self.random.choice(self.random.choice(list(kinds.values())))

    def _is_ground(self, peer: int, record: Any) -> bool:
        """Whether the evidence of a replaced block rests on this record of a peer."""
        poll = record.poll if isinstance(record, (Joined, Committed)) else PollName(peer, getattr(record, "number", 0))
        return isinstance(record, GROUNDS) and bool(self.polls) and (isinstance(record, Deposit) or poll in self.polls)

    def _with(self, peer: int, frames: bytes) -> bytes:
        """The text with another journal of this peer."""
        at = self.data.index(f"\njournal {peer} ".encode()) + 1
        return self.data[:at] + f"journal {peer} {frames.hex()}".encode() + self.data[self.data.index(b"\n", at) :]

    def turned(self) -> bytes:
        """One bit is turned: of a record, or of any byte of a journal."""
        peer, row, place = self._pick()
        batches = self.journals.batches[peer]
        frames = bytearray(journal.write_frames(batches))
        first, size = 0, len(frames)
        if self.random.random() < 0.8:
            # behind the gate, which a journal of the batches before ends with, a length and a count
            first = len(journal.write_frames(batches[:row])) + 6
            first += sum(len(RECORDS.write(it)) for it in batches[row][:place])
            size = len(RECORDS.write(batches[row][place]))
        frames[first + self.random.randrange(size)] ^= 1 << self.random.randrange(8)
        return self._with(peer, bytes(frames))

    def changed(self) -> bytes:
        """One record is taken out, doubled, moved, or has one thing of another one of its kind."""
        peer, row, place = self._pick()
        batches: list[list[Any]] = [list(batch) for batch in self.journals.batches[peer]]
        record, stroke = batches[row][place], self.random.choice(["out", "double", "move", "field", "field"])
        if stroke in ("out", "move"):
            del batches[row][place]
        if stroke in ("double", "move"):
            into = self.random.choice(batches)
            into.insert(self.random.randint(0, len(into)), record)
        if stroke == "field":
            batches[row][place] = self._changed(record)
        return self._with(peer, journal.write_frames(tuple(batch) for batch in batches if batch))

    def _changed(self, record: Any) -> Any:
        """The record with a field of another one, or with one hash less."""
        if isinstance(record, VoteIn) and self.random.random() < 0.3:
            return replace(record, hashes=record.hashes[:-1])
        every = [it for peer in self.journals.batches for it in journal.of_kind(self.journals.records(peer), type(record))]
        name = self.random.choice([it.name for it in fields(record)])
        return replace(record, **{name: getattr(self.random.choice(every), name)})


@dataclass
class Compared:
    """How many inputs of which kind were compared, what was found of them, and where the checkers differ."""

    kinds: Counter[str] = field(default_factory=Counter)
    found: Counter[str] = field(default_factory=Counter)
    differ: list[str] = field(default_factory=list)

    def add(self, name: str, kind: str, data: bytes) -> None:
        """Compares what both find of this input."""
        ended = play.run("evidence", data=data)
        try:
            told = line_of(Checker(journal.read(data)).findings()) + "\n"
        except script.BadLine as bad:
            told = f"lockss: bad script: line {bad.number}\n"
        words = (ended.out + ended.err).decode()
        wanted = {"evidence yes": 0, "evidence no": 9, "lockss: bad": 3}[" ".join(told.split()[:2])]
        if (words, ended.status) != (told, wanted):
            self.differ.append(f"{name}, {kind}: the program says {words!r} and status {ended.status}, this checker {told!r}")
        self.kinds[kind] += 1
        self.found["bad line" if wanted == 3 else told.split()[1] if wanted == 0 else told.split()[4]] += 1

    def text(self) -> str:
        """Its lines."""
        sums = [", ".join(f"{name} {count}" for name, count in it.items()) for it in (self.kinds, self.found)]
        return "\n".join([*self.differ, f"{self.kinds.total()} inputs compared, {len(self.differ)} differ", *sums])


def compare(count: int, seed: int, drills: bool = True) -> Compared:
    """Compares both checkers on the journals of so many runs, and on each with a stroke of either kind."""
    compared = Compared()
    for number in range(count):
        random = Attacks(f"{seed} {number}")
        is_drill = drills and number % 2 == 0
        made = script.drill(seed * 1_000_000 + number) if is_drill else random.script()
        data = play.told("journals", made.text()).encode()
        strokes, name = Strokes(data, journal.read(data), random), "drill" if is_drill else "attack"
        for kind, it in (("whole", data), ("one bit turned", strokes.turned()), ("one record changed", strokes.changed())):
            compared.add(f"{name} of run {number}", f"{name}s {kind}", it)
    return compared
