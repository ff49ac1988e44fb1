"""The rules of evidence again (docs/FORMATS.md, "Evidence"), over journals that were read: a second checker.

It follows the documents alone. Hashes are those of `hashlib`, and what it says of a poll it counts from the records of the
journal through which it walks.
"""

from __future__ import annotations

from collections import defaultdict
from collections.abc import Iterable, Iterator, Sequence
from dataclasses import dataclass
from itertools import islice
from typing import Any, NamedTuple

from lks.fields import PollName
from lks.hashes import digest, key, vote
from lks.journal import Committed, Deposit, Joined, Journals, Limits, PollOpened, Record, Replaced, Shut, VoteIn

# What a voter's journal says of its vote.
BORNE_OUT, OTHER_HASH, NO_VERSION, NO_JOURNAL = "borne out", "another hash", "no version", "no journal"


class Counted(NamedTuple):
    """A vote behind a replaced block: whether it is for the block that was there and for the one that came, and what its
    voter's journal says of it."""

    voter: int
    for_old: bool
    for_new: bool
    borne: str


@dataclass(frozen=True)
class Finding:
    """A replaced block: its record, and the place of that in a peer's journal; the numbers and the inner votes of its poll,
    where there is one; and why it is doubted, or nothing."""

    peer: int
    place: int
    record: Record
    limits: Limits | None
    votes: tuple[Counted, ...]
    why: str


class Walk:
    """What a journal says before a place: of copies, and of polls by their numbers. For the poll that was asked for last it
    keeps the running hashes of the copy under each voter's key."""

    def __init__(self) -> None:
        self.copies: dict[int, list[bytes]] = {}
        self.of_polls: dict[tuple[type[Any], int], list[Record]] = defaultdict(list)
        self.poll: PollName | None = None
        self.hashes: dict[bytes, list[bytes]] = {}

    def add(self, record: Record) -> None:
        """Goes on by a record."""
        if isinstance(record, (PollOpened, VoteIn, Shut)):
            self.of_polls[type(record), record.number].append(record)
        elif isinstance(record, Deposit):
            self.copies[record.au], self.poll = list(record.blocks), None
        elif isinstance(record, Replaced) and record.block < len(self.copies.get(record.au, ())):
            self.copies[record.au][record.block] = record.content
            for kept in self.hashes.values():
                # the hashes of blocks before this one stay; those of another AU are hashed again
                del kept[record.block + 1 :]

    def hash_before(self, poll: PollName, opened: Record, vote_key: bytes, block: int) -> bytes:
        """The running hash of all blocks of the copy before this one, which is the key itself for none."""
        if self.poll != poll:
            self.poll, self.hashes = poll, {}
        kept = self.hashes.setdefault(vote_key, [vote_key])
        for content in islice(self.copies[opened.au], len(kept) - 1, block):
            kept.append(digest(opened.hash, kept[-1] + content))
        return kept[block]


class Checker:
    """Examines journals, of which it trusts the plan alone."""

    def __init__(self, journals: Journals) -> None:
        self.plan = journals.script.plan
        self.records = {peer: journals.records(peer) for peer in journals.batches}
        # the records of each journal by what they are, and of which AU or poll
        self.of: dict[tuple[int, type[Any], Any], list[Record]] = defaultdict(list)
        for peer, records in self.records.items():
            for record in records:
                if isinstance(record, (Deposit, Replaced)):
                    self.of[peer, type(record), record.au].append(record)
                elif isinstance(record, (Joined, Committed)):
                    self.of[peer, type(record), record.poll].append(record)
        self.votes: dict[tuple[PollName, int], tuple[bytes, ...] | None] = {}

    def findings(self) -> Iterator[Finding]:
        """What is found of each replaced block, journal by journal."""
        for peer, records in self.records.items():
            walk = Walk()
            for place, record in enumerate(records):
                if isinstance(record, Replaced):
                    yield self._find(peer, place, record, walk)
                walk.add(record)

    def _find(self, peer: int, place: int, record: Record, walk: Walk) -> Finding:
        deposits, count = self.of[peer, Deposit, record.au], self.plan.aus.get(record.au)
        is_held = record.au in walk.copies and len(deposits) == 1 and len(deposits[0].blocks) == count
        if not is_held or record.block >= len(deposits[0].blocks):
            return Finding(peer, place, record, None, (), "copy")
        opened = walk.of_polls.get((PollOpened, record.number), [])
        if len(opened) != 1 or opened[0].au != record.au or (Shut, record.number) not in walk.of_polls:
            return Finding(peer, place, record, None, (), "poll")
        # records in their limits have no numbers by which votes are a landslide both ways
        limits = opened[0].limits or Limits(self.plan.rules["quorum"], self.plan.rules["minority"])
        inner = [it for it in walk.of_polls.get((VoteIn, record.number), []) if it.voter in opened[0].inner]
        counted = tuple(self._count(PollName(peer, record.number), opened[0], it, record, walk) for it in inner)
        return Finding(peer, place, record, limits, counted, doubt(limits, inner, counted, len(deposits[0].blocks)))

    def _count(self, poll: PollName, opened: Record, it: Record, record: Record, walk: Walk) -> Counted:
        """What a vote says at the replaced block."""
        copy = walk.copies[opened.au]
        vote_key = key(opened.hash, poll.poller, poll.number, opened.nonce, it.voter, opened.au, len(copy))
        before = walk.hash_before(poll, opened, vote_key, record.block)
        told = it.hashes[record.block] if record.block < len(it.hashes) else None
        old, new = (digest(opened.hash, before + block) == told for block in (copy[record.block], record.content))
        return Counted(it.voter, old, new, self._borne(poll, opened, it))

    def _borne(self, poll: PollName, opened: Record, it: Record) -> str:
        """What the voter's journal says of a vote."""
        if it.voter not in self.records:
            return NO_JOURNAL
        if (poll, it.voter) not in self.votes:
            self.votes[poll, it.voter] = self._vote_of(it.voter, poll, opened)
        named = self.votes[poll, it.voter]
        return NO_VERSION if named is None else BORNE_OUT if named == it.hashes else OTHER_HASH

    def _vote_of(self, voter: int, poll: PollName, opened: Record) -> tuple[bytes, ...] | None:
        """The vote over the version that the voter's journal names for this poll, if it names one."""
        au, count = opened.au, self.plan.aus[opened.au]
        deposits, replaced = self.of[voter, Deposit, au], self.of[voter, Replaced, au]
        joined, committed = self.of[voter, Joined, poll], self.of[voter, Committed, poll]
        if not len(deposits) == len(joined) == len(committed) == 1 or len(deposits[0].blocks) != count or joined[0].au != au:
            return None
        if (committed[0].nonce, committed[0].hash) != (opened.nonce, opened.hash) or committed[0].version > len(replaced):
            return None
        blocks = list(deposits[0].blocks)
        for it in replaced[: committed[0].version]:
            if it.block >= count:
                return None
            blocks[it.block] = it.content
        vote_key = key(opened.hash, poll.poller, poll.number, opened.nonce, voter, au, count)
        return vote(opened.hash, vote_key, blocks)


def doubt(limits: Limits, inner: Sequence[Record], counted: Sequence[Counted], count: int) -> str:
    """The first rule on the inner votes of a poll that a replaced block breaks, or nothing."""
    voters = [it.voter for it in inner]
    for place, voter in enumerate(voters):
        if voter in voters[place + 1 :]:
            return f"twice {voter}"
    for it in inner:
        if len(it.hashes) != count:
            return f"length {it.voter}"
    if len(inner) < limits.quorum:
        return f"quorum {len(inner)}"
    for_old, against = sum(it.for_old for it in counted), sum(not it.for_new for it in counted)
    if for_old > limits.minority:
        return f"for {for_old}"
    if against > limits.minority:
        return f"against {against}"
    for it in counted:
        if it.borne in (OTHER_HASH, NO_VERSION):
            return f"vote {it.voter}"
    return ""


def line_of(findings: Iterable[Finding]) -> str:
    """The line that `lockss evidence` writes: the first doubt, of copies before all others, or the number of findings."""
    found = list(findings)
    doubts = [it for it in found if it.why == "copy"] + [it for it in found if it.why]
    return f"evidence no {doubts[0].peer} {doubts[0].place} {doubts[0].why}" if doubts else f"evidence yes {len(found)}"
