"""Both checkers of evidence say the same of journals, and what docs/FORMATS.md says; and journal files as their inputs."""

from __future__ import annotations

import pathlib
import tempfile
import unittest
from dataclasses import replace
from typing import Any

from evidence.checker import Checker, line_of
from evidence.tests.at_random import Compared, compare
from files import disk, gather
from lks import hashes, journal, play, script
from lks.fields import PollName
from lks.journal import Committed, Deposit, Joined, Limits, PollOpened, Record, Replaced, Shut, VoteIn
from testing.commands import tool
from testing.side_by_side import long

EXAMPLES = play.TOP / "examples"
NONCE, OTHER = bytes(32), bytes(range(32))
OLD, GOOD, NEITHER = (b"A", b"B"), (b"A", b"C"), (b"A", b"D")
Set = dict[int, list[Record]]
POLL = PollName(1, 1)
# The places of the records in a poller's journal, and in a voter's.
OPENED, VOTE, SHUT, REPAIR = 1, 2, 5, 6
JOINED, COMMITTED = 1, 2


def plan(copies: str = "") -> str:
    """A plan of five honest peers and an AU of two blocks."""
    rules = " ".join(map(str, script.rules_words(inner=4, quorum=3, minority=1, repairs=2)))
    peers = "".join(f"peer {peer} honest 0{peer} 01\n" for peer in range(1, 6))
    return f"lockss 1\n{rules}\nau 1 2\n{peers}{copies}"


def vote(voter: int, blocks: tuple[bytes, ...], kind: str = "sha256") -> Record:
    """The vote of a voter over these blocks in poll 1 of peer 1."""
    return VoteIn(1, voter, hashes.vote(kind, hashes.key(kind, 1, 1, NONCE, voter, 1, 2), blocks))


def held(kind: str = "sha256", **limits: Any) -> Set:
    """Journals that hold: peer 1 replaces block 1 on the votes of peers 2 to 4, all of which are there."""
    opened = PollOpened(1, 1, NONCE, (2, 3, 4, 5), 0, hash=kind, **limits)
    votes = [vote(voter, GOOD, kind) for voter in (2, 3, 4)]
    found: Set = {1: [Deposit(1, OLD), opened, *votes, Shut(1), Replaced(1, 1, 1, b"C")]}
    for voter in (2, 3, 4):
        found[voter] = [Deposit(1, GOOD), Joined(POLL, 1, 0, True), Committed(POLL, NONCE, 0, hash=kind)]
    return found


def frames(records: list[Record]) -> bytes:
    """A journal with a batch for each record."""
    return journal.write_frames((record,) for record in records)


def text(journals: Set) -> bytes:
    """A plan and these journals."""
    return (plan() + "".join(f"journal {peer} {frames(it).hex()}\n" for peer, it in journals.items())).encode()


class Rules(unittest.TestCase):
    """Each rule, by journals that break it."""

    def find(self, journals: Set, line: str) -> None:
        data, compared = text(journals), Compared()
        self.assertEqual(line_of(Checker(journal.read(data)).findings()), f"evidence {line}")
        compared.add("by hand", "", data)
        self.assertEqual(compared.differ, [])

    def change(self, peer: int, place: int, line: str, *records: Record, **values: Any) -> None:
        """What is found where other records stand at this place, or the one there has other values."""
        journals = held()
        own = journals[peer]
        own[place : place + 1] = [replace(own[place], **values)] if values else records
        self.find(journals, line)

    def test_journals_that_hold(self) -> None:
        for journals in (held(), held(limits=Limits(3, 1)), held("sha512-256", limits=Limits(3, 1)), {1: held()[1]}):
            self.find(journals, "yes 1")
        self.find({peer: it for peer, it in held().items() if peer > 1}, "yes 0")
        self.find({}, "yes 0")
        # whoever is no inner peer may vote what it likes, and so may one of them as long as its journal isn't there
        self.change(1, SHUT, "yes 1", vote(1, OLD), Shut(1))
        self.change(1, SHUT, "yes 1", vote(5, OLD), Shut(1))

    def test_copies(self) -> None:
        deposit = Deposit(1, OLD)
        self.change(1, 0, "no 1 5 copy")
        self.change(1, 0, "no 1 7 copy", deposit, deposit)
        self.change(1, 0, "no 1 6 copy", Deposit(1, (*OLD, b"E")))
        self.change(1, 0, "no 1 6 copy", Deposit(2, OLD))
        self.change(1, REPAIR, "no 1 6 copy", block=2)
        self.change(1, REPAIR, "no 1 6 copy", Replaced(1, 1, 1, b"C"), deposit)
        journals = held()
        journals[1].append(journals[1].pop(0))
        self.find(journals, "no 1 5 copy")
        # copies come before polls, whichever journal they are of
        journals = held()
        del journals[1][SHUT]
        journals[4].append(Replaced(1, 7, 0, b""))
        self.find(journals, "no 4 3 copy")

    def test_polls(self) -> None:
        opened = held()[1][OPENED]
        self.change(1, OPENED, "no 1 5 poll")
        self.change(1, OPENED, "no 1 7 poll", opened, opened)
        self.change(1, OPENED, "no 1 6 poll", number=2)
        self.change(1, OPENED, "no 1 6 poll", au=2)
        self.change(1, SHUT, "no 1 5 poll")
        self.change(1, SHUT, "no 1 6 poll", number=2)
        self.change(1, REPAIR, "no 1 6 poll", number=2)

    def test_votes(self) -> None:
        self.change(1, VOTE, "no 1 7 twice 2", vote(2, GOOD), vote(2, GOOD))
        self.change(1, VOTE + 2, "no 1 7 twice 2", vote(3, GOOD), vote(2, GOOD))
        self.change(1, VOTE, "no 1 6 length 2", replace(vote(2, GOOD), hashes=vote(2, GOOD).hashes[:1]))
        self.change(1, VOTE, "no 1 5 quorum 2")
        self.change(1, OPENED, "no 1 6 quorum 2", inner=(2, 3, 5))
        self.change(1, OPENED, "no 1 6 quorum 3", limits=Limits(4, 1))
        self.change(1, VOTE, "no 1 7 for 2", vote(2, OLD), vote(5, OLD))
        self.change(1, REPAIR, "no 1 6 against 3", content=b"D")
        self.change(1, VOTE, "no 1 7 against 2", vote(2, NEITHER), vote(5, NEITHER))

    def test_voters(self) -> None:
        for place, record in enumerate(held()[3]):
            self.change(3, place, "no 1 6 vote 3")
            self.change(3, place, "no 1 6 vote 3", record, record)
        self.change(3, 0, "no 1 6 vote 3", blocks=(*GOOD, b""))
        self.change(3, 0, "no 1 6 vote 3", blocks=(b"", b"C"))
        self.change(3, JOINED, "no 1 6 vote 3", au=2)
        self.change(3, JOINED, "no 1 6 vote 3", poll=PollName(1, 2))
        for values in ({"nonce": OTHER}, {"version": 1}, {"hash": "sha512-256"}, {"poll": PollName(2, 1)}):
            self.change(3, COMMITTED, "no 1 6 vote 3", **values)
        self.change(1, VOTE, "no 1 6 vote 2", vote(2, NEITHER))

    def test_versions(self) -> None:
        # peer 2 votes over what it replaced before, and peer 1 then replaces by its vote
        journals = held()
        other, key = PollName(2, 7), hashes.key("sha256", 2, 7, OTHER, 5, 1, 2)
        opened = PollOpened(7, 1, OTHER, (5,), 0, limits=Limits(1, 0))
        counted = VoteIn(7, 5, hashes.vote("sha256", key, GOOD))
        journals[2] = [Deposit(1, OLD), opened, counted, Shut(7), Replaced(7, 1, 1, b"C"), *journals[2][1:]]
        self.find(journals, "no 1 6 vote 2")
        journals[2][-1] = replace(journals[2][-1], version=1)
        self.find(journals, "yes 2")
        journals[5] = [Deposit(1, GOOD), Joined(other, 1, 0, False), Committed(other, OTHER, 0)]
        self.find(journals, "yes 2")
        journals[5][0] = Deposit(1, NEITHER)
        self.find(journals, "no 2 4 vote 5")

    def test_every_finding(self) -> None:
        # a block before one that was asked for changes all hashes behind it
        journals = held()
        journals[1] += [Replaced(1, 1, 0, b"Z"), Replaced(1, 1, 1, b"C")]
        findings = Checker(journal.read(text(journals))).findings()
        self.assertEqual([it.why for it in findings], ["", "for 3", "against 3"])


class Comparing(unittest.TestCase):
    @long
    def test_attacks_at_random(self) -> None:
        compared = compare(30, 1, drills=False)
        self.assertEqual((compared.differ, compared.kinds.total()), ([], 90))
        # strokes are seen, and a repair is there to be doubted
        self.assertGreater(len(compared.found), 5)

    @long
    def test_drill(self) -> None:
        self.assertEqual(compare(1, 1).differ, [])

    def test_long(self) -> None:
        journals = held()
        del journals[4]
        journals[1][VOTE] = vote(2, NEITHER)
        ended = tool("check-evidence", "--long", input=text(journals).decode())
        said = ["neither block: its journal has another hash", "the block that came: its journal bears it out"]
        said.append("the block that came: its journal isn't there")
        told = ["evidence no 1 6 vote 2", "peer 1 place 6: block 1 of AU 1 by poll 1, quorum 3, minority 1, votes 3: vote 2"]
        told += [f"  vote of peer {voter} for {what}" for voter, what in enumerate(said, 2)]
        self.assertEqual((ended.returncode, ended.stdout.splitlines()), (9, told))
        for path in EXAMPLES.glob("*.journals"):
            self.assertEqual(tool("check-evidence", path).stdout, path.with_suffix(".evidence").read_text())
        self.assertEqual(tool("check-evidence", EXAMPLES / "repaired.report").returncode, 3)


class Folders(unittest.TestCase):
    """Journal files become inputs."""

    def setUp(self) -> None:
        made = tempfile.TemporaryDirectory()
        self.addCleanup(made.cleanup)
        self.top = pathlib.Path(made.name)
        copies = "copy 1 1 41,42\n" + "".join(f"copy {peer} 1 41,43\n" for peer in (2, 3, 4, 5))
        (self.top / "plan.lockss").write_text(plan(copies))
        for peer, records in held().items():
            (self.top / str(peer)).write_bytes(frames(records))

    def gather(self, most: int) -> tuple[list[list[int]], list[tuple[int, ...]]]:
        folder, faults = gather.read(self.top, self.top / "plan.lockss")
        self.assertEqual(faults, [])
        return gather.gather(folder, most)

    def test_one_input(self) -> None:
        (self.top / "2").write_bytes((self.top / "2").read_bytes() + b"what a torn append left")
        ended = tool("journals", self.top)
        self.assertEqual((ended.returncode, ended.stderr), (0, "journals: warning: peer 5 has no journal here\n"))
        self.assertEqual(ended.stdout, text(held()).decode())
        self.assertEqual(tool("journals", self.top, "--evidence").stdout, "evidence yes 1\n")
        (self.top / "3").write_bytes(frames(held()[3][:-1]))
        ended = tool("journals", self.top, "--evidence")
        self.assertEqual((ended.returncode, ended.stdout), (9, "evidence no 1 6 vote 3\n"))

    def test_many_inputs(self) -> None:
        folder, _ = gather.read(self.top, self.top / "plan.lockss")
        sizes, head = folder.sizes(), len(folder.head)
        pair = head + sizes[1] + sizes[2]
        (self.top / "5").write_bytes(frames([Deposit(1, GOOD)]))
        everyone = sum(gather.read(self.top, self.top / "plan.lockss")[0].sizes().values())
        self.assertEqual(self.gather(head + everyone), ([[1, 2, 3, 4, 5]], []))
        self.assertEqual(self.gather(head + everyone - 1), ([[1, 2, 3, 4]], []))
        # the polls that replaced a block, and their inner voters, are all that matters
        other = [PollOpened(2, 1, NONCE, (5,), 0), VoteIn(2, 5, ()), VoteIn(1, 1, ())]
        self.assertEqual(gather.voters_of(held()[1] + other), [2, 3, 4])
        (self.top / "5").unlink()
        self.assertEqual(self.gather(pair + sizes[3]), ([[1, 2, 3], [1, 4]], []))
        self.assertEqual(self.gather(pair), ([[1, 2], [1, 3], [1, 4]], []))
        self.assertEqual(self.gather(pair - 1), ([[1]], [(1, 2), (1, 3), (1, 4)]))
        self.assertEqual(self.gather(head + sizes[1] - 1), ([[]], [(1,)]))
        self.assertEqual(len(folder.text([1, 2])), pair)

    def test_damage(self) -> None:
        whole = frames(held()[2])
        first, last = 5 + len(journal.BATCH.write((Deposit(1, GOOD),))), len(whole) - 1
        for at, behind, fault in (
            (0, b"", f"damaged at offset 0: its gate is closed, and {len(whole) - 1} bytes stand behind it"),
            (first, b"", ""),
            (last, b"\1" * 32_768, ""),
            (last, b"\1" * 32_769, f"damaged at offset {last}: its gate is closed, and 32769 bytes stand behind it"),
        ):
            (self.top / "2").write_bytes(whole[:at] + b"\xa4" + whole[at + 1 :] + behind)
            ended = tool("journals", self.top)
            self.assertEqual((ended.returncode, ended.stdout == ""), (1, True) if fault else (0, False), ended.stderr)
            self.assertIn(fault, ended.stderr)
        # an append of the only deposit was torn, or there is a byte more than it writes
        for more in (0, 1):
            (self.top / "2").write_bytes(b"\0" + whole[1 : first + 1 + more])
            self.assertEqual(tool("journals", self.top).returncode, more)
        for data, offset in ((b"", 0), (whole[:-1], len(frames(held()[2][:2])) - 1), (b"\xa5\0\0\0\2\0\0\0", 0)):
            with self.assertRaises(disk.Damaged) as caught:
                disk.read(data)
            self.assertEqual(caught.exception.offset, offset)

    def test_journals_of_a_run(self) -> None:
        told = play.told("journals", (EXAMPLES / "many-peers.lockss").read_text()).encode()
        for path in self.top.iterdir():
            path.unlink()
        for peer, batches in journal.read(told).batches.items():
            (self.top / str(peer)).write_bytes(journal.write_frames(batches))
        ended = tool("journals", self.top, "--plan", EXAMPLES / "many-peers.lockss", "--evidence")
        self.assertEqual((ended.returncode, ended.stdout), (0, play.run("evidence", data=told).out.decode()))
        parts = tool("journals", self.top, "--plan", EXAMPLES / "many-peers.lockss", "--to", self.top / "to")
        self.assertEqual((parts.returncode, parts.stdout), (0, ""))
        line = tool("check-evidence", self.top / "to/1.journals").stdout
        self.assertEqual(line, ended.stdout)

    def test_strangers(self) -> None:
        (self.top / "9").write_bytes(b"\0")
        self.assertEqual(tool("journals", self.top).returncode, 2)
