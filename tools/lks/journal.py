"""Journals and their text, frames, batches and records (docs/FORMATS.md), and what a journal says of copies and lists."""

from __future__ import annotations

import re
from collections.abc import Iterable, Iterator
from dataclasses import dataclass, field
from typing import Any, NamedTuple

from lks.fields import BE16, BE32, BLOCK, HASH, HASHES, INDEX, KIND, NOMINEES, POLL, YES_OR_NO
from lks.fields import BadBytes, Family, Field, Source, group, listed, number, sized, whole
from lks.hashes import Draws, key, vote
from lks.plan import LAST_ID, Broken, Peer, Plan, must
from lks.plan import number as decimal
from lks.script import MOST_BYTES, Script, is_idle, judge_lines

OPEN, CLOSED = b"\xa5", b"\0"
OUTCOMES = ("agreed", "inquorate", "split", "no-supplier")
# A poll's quorum and minority.
Limits = NamedTuple("Limits", [("quorum", int), ("minority", int)])


def _limits(quorum: int, minority: int) -> Limits:
    if not 2 * minority < quorum:
        raise BadBytes("twice the minority isn't below the quorum")
    return Limits(quorum, minority)


def _outcome(which: int, at: int) -> str:
    if which < 2 and at != 0:
        raise BadBytes("a block where there is none")
    return OUTCOMES[which] + (f"-{at}" if which >= 2 else "")


def _write_outcome(outcome: str) -> bytes:
    name, _, at = outcome.partition("-") if outcome in OUTCOMES else outcome.rpartition("-")
    return bytes([OUTCOMES.index(name)]) + int(at or 0).to_bytes(2, "big")


CIRCLE = listed(number(1, 16), BE16)
REPAIRS = number(2, 512)
LIMITS = group(_limits, number(2, 16, least=1), BE16)
OUTCOME = Field(group(_outcome, number(1, 3), INDEX).read, _write_outcome)

# The table "Records" of docs/FORMATS.md.
Record = Any
RECORDS = Family()
Deposit = RECORDS.kind(1, "Deposit", au=BE16, blocks=listed(number(2, 512, least=1), BLOCK))
PollOpened = RECORDS.kind(
    2, "PollOpened", number=BE32, au=BE16, nonce=HASH, inner=CIRCLE, tick=BE32, limits=(LIMITS, None), hash=KIND
)
Nominated = RECORDS.kind(3, "Nominated", number=BE32, voter=BE16, nominees=NOMINEES)
OuterOpened = RECORDS.kind(4, "OuterOpened", number=BE32, outer=CIRCLE)
VoteIn = RECORDS.kind(5, "VoteIn", number=BE32, voter=BE16, hashes=HASHES)
Shut = RECORDS.kind(6, "Shut", number=BE32)
Asked = RECORDS.kind(7, "Asked", number=BE32, block=INDEX, voter=BE16)
RepairBad = RECORDS.kind(8, "RepairBad", number=BE32, block=INDEX, voter=BE16)
Replaced = RECORDS.kind(9, "Replaced", number=BE32, au=BE16, block=INDEX, content=BLOCK)
Closed = RECORDS.kind(10, "Closed", number=BE32, outcome=OUTCOME, tick=BE32)
Overdue = RECORDS.kind(11, "Overdue", au=BE16, tick=BE32)
Joined = RECORDS.kind(12, "Joined", poll=POLL, au=BE16, tick=BE32, low=YES_OR_NO, repairs=(REPAIRS, None))
Committed = RECORDS.kind(13, "Committed", poll=POLL, nonce=HASH, version=BE32, hash=KIND)
Voted = RECORDS.kind(14, "Voted", poll=POLL, hashes=HASHES)
Served = RECORDS.kind(15, "Served", poll=POLL, block=INDEX)
Ended = RECORDS.kind(16, "Ended", poll=POLL)
Tuned = RECORDS.kind(17, "Tuned", first_form=2, limits=LIMITS, repairs=REPAIRS)
BATCH = listed(number(2, least=1), Field(RECORDS.read, RECORDS.write))
BODY = sized(number(4))
Batch = tuple[Record, ...]


def _frames(source: Source) -> Iterator[Batch]:
    while (gate := source.take(1)) != CLOSED:
        if gate != OPEN:
            raise BadBytes("a gate is neither open nor closed")
        yield whole(BATCH.read, BODY.read(source))


def read_frames(data: bytes) -> list[Batch]:
    """The batches of a journal, which ends with its closed gate."""
    return whole(lambda source: list(_frames(source)), data)


def write_frames(batches: Iterable[Batch]) -> bytes:
    """A journal of these batches."""
    return b"".join(OPEN + BODY.write(BATCH.write(batch)) for batch in batches) + CLOSED


@dataclass
class Journals:
    """A plan, and journals of its honest peers, as the batches of each."""

    script: Script
    batches: dict[int, list[Batch]] = field(default_factory=dict)

    def records(self, peer: int) -> list[Record]:
        """The records of a peer, in order; none where its journal isn't there."""
        return [record for batch in self.batches.get(peer, []) for record in batch]

    def add_line(self, line: str) -> None:
        """Adds the journal that a line says, or breaks a rule."""
        if is_idle(line):
            return
        plan, words = self.script.plan, line.split(" ")
        must(len(words) == 3 and words[0] == "journal", "a line here is `journal`, a peer and hex")
        peer = decimal("peer", 0, LAST_ID)(plan, words[1])
        must(peer in plan.peers and plan.peers[peer].honest, "no such honest peer")
        must(peer not in self.batches, f"peer {peer} has its journal already")
        must(re.fullmatch("[0-9A-Fa-f]*", words[2]) is not None and len(words[2]) % 2 == 0, "no hex of whole bytes")
        try:
            self.batches[peer] = read_frames(bytes.fromhex(words[2]))
        except BadBytes as fault:
            raise Broken(f"no journal: {fault}") from None


def read(data: bytes, most: int = MOST_BYTES) -> Journals:
    """The plan and the journals that these bytes say, or `BadLine` for their first bad line. What `lockss journals` writes may
    have more bytes than `lockss evidence` reads, which are `most` where nothing else is said."""
    if len(data) > most:
        raise ValueError(f"more than {most} bytes")
    at = 0 if data.startswith(b"journal ") else data.find(b"\njournal ") + 1 or len(data)
    script = Script()
    judge_lines(data[:at], script.add_line)
    script.end()
    found = Journals(script)
    judge_lines(data[at:], found.add_line, len(script.lines))
    return found


def of_kind(records: Iterable[Record], kind: type[Any], **values: Any) -> list[Record]:
    """The records of this kind whose fields are these, in order."""
    return [r for r in records if isinstance(r, kind) and all(getattr(r, name) == it for name, it in values.items())]


def only(records: Iterable[Record], kind: type[Any], **values: Any) -> Record:
    """The only record of this kind whose fields are these."""
    (found,) = of_kind(records, kind, **values)
    return found


def versions(records: Iterable[Record], au: int) -> list[tuple[bytes, ...]]:
    """The versions of a copy: its deposit, and what each replacement of a block makes of it."""
    found: list[tuple[bytes, ...]] = []
    for record in records:
        if isinstance(record, Deposit) and record.au == au:
            found.append(record.blocks)
        elif isinstance(record, Replaced) and record.au == au:
            found.append((*found[-1][: record.block], record.content, *found[-1][record.block + 1 :]))
    return found


def _for_copy(own: int, opened: Record, records: list[Record]) -> list[tuple[int, bool]]:
    """Each voter of a poll, and whether its vote is for the poller's copy at the last block."""
    copy, voters = versions(records, opened.au)[-1], []
    for it in of_kind(records, VoteIn, number=opened.number):
        wanted = key(opened.hash, own, opened.number, opened.nonce, it.voter, opened.au, len(copy))
        voters.append((it.voter, it.hashes[-1] == vote(opened.hash, wanted, copy)[-1]))
    return voters


def references(plan: Plan, peer: Peer, records: list[Record]) -> list[int]:
    """The reference list that a journal comes to (docs/PROTOCOL.md, "The reference list")."""
    found = list(peer.refs)
    for place, closed in enumerate(records):
        if not isinstance(closed, Closed) or closed.outcome != "agreed":
            continue
        opened = only(records[:place], PollOpened, number=closed.number)
        voters = _for_copy(peer.id, opened, records[:place])
        found = [it for it in found if (it, False) not in voters or it not in opened.inner]
        friends = Draws(peer.seed, 4, closed.number).pick(peer.friends, plan.rules["churn"])
        for it in [it for it, agrees in voters if agrees and it not in opened.inner] + list(friends):
            if it not in found and it != peer.id:
                found.append(it)
    return found
