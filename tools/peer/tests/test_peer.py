"""A peer at a library: its config, its journal, its schedule, its links and its door; and two peers, where a node is built."""

from __future__ import annotations

import asyncio
import contextlib
import os
import pathlib
import subprocess
import tempfile
import time
import unittest
from collections.abc import Awaitable, Iterator
from unittest import mock

from files import archive, disk
from lks import journal, message, script
from lks.fields import PollName
from lks.journal import Asked, Closed, Committed, Deposit, Ended, Joined, Overdue, PollOpened, RepairBad, Replaced, Shut, VoteIn
from lks.journal import Limits, Voted
from lks.tests.test_tools import EXAMPLES, NONCE
from peer import config, links, node, trial
from peer.daemon import Daemon, Stop
from peer.door import Door
from peer.follow import Follower, State
from peer.links import Link, Pause
from peer.log import Log, word
from peer.node import Ended as NodeEnded
from peer.node import Node, Reply, Send, frame, status_of
from peer.schedule import Schedule
from testing.commands import tool
from testing.side_by_side import long

GIVEN = (EXAMPLES / "peer/peer.toml").read_text()
FROM = trial.TOP / "bin/from"
PLAN = script.read(trial.plan(1, trial.GOOD, [2, 3]).encode()).plan
DEPOSIT = Deposit(1, tuple(trial.GOOD))
HASHES = (NONCE,) * 4
OTHER = PollName(2, 9)
NUMBERS = dict.fromkeys(config.TICKS, 1000) | {"open": 100, "nudge": 10, "outer": 20, "shut": 50, "give-up": 30, "check": 5}


def opened(number: int = 1, tick: int = 0) -> PollOpened:
    """The opening of a poll of peers 2 and 3."""
    return PollOpened(number, 1, NONCE, (2, 3), tick, limits=Limits(1, 0))


POLL = [opened(), VoteIn(1, 2, HASHES), Shut(1), Asked(1, 1, 2), Replaced(1, 1, 1, b"x"), Closed(1, "agreed", 7)]
PART = [Joined(OTHER, 1, 3, False), Committed(OTHER, NONCE, 0), Voted(OTHER, HASHES), Ended(OTHER)]


def state_of(*records: journal.Record) -> State:
    """The state that a journal of these comes to."""
    found = State()
    for record in [DEPOSIT, *records]:
        found.take(record)
    return found


def first_due(tick: int, *records: journal.Record, outer: int = 1) -> str | None:
    """What is due first, at this tick, of a peer that checked its AUs and opened a poll in time."""
    schedule = Schedule(NUMBERS, [1], outer)
    schedule.told("check", state_of(), tick)
    return schedule.next(state_of(*records), tick)


@contextlib.contextmanager
def folder() -> Iterator[pathlib.Path]:
    """A new folder."""
    with tempfile.TemporaryDirectory() as made:
        yield pathlib.Path(made)


class Configs(unittest.TestCase):
    def parse(self, text: str) -> config.Config:
        return config.parse(text, EXAMPLES / "peer")

    def test_example(self) -> None:
        found = self.parse(GIVEN)
        self.assertEqual((found.peer, found.seconds, found.leap, found.schedule["expire-bare"]), (1, 60, 100_000, 30))
        linked = {peer: (it.command[0], it.queue) for peer, it in found.links.items()}
        self.assertEqual(linked, {2: ("ssh", 256), 3: ("ssh", 512)})
        self.assertEqual((found.journal, found.epoch), (EXAMPLES / "peer/journal", 1_795_910_400))
        ticks, rules = found.schedule, found.plan.rules
        self.assertTrue(ticks["shut"] < ticks["expire"] < ticks["open"] < rules["overdue"] and rules["pace"] <= ticks["open"])

    def test_bad_configs(self) -> None:
        for old, new, fault in (
            ("peer = 1", "peer = 1.5", "`peer` in the config is to be a whole number from 0 to 65535"),
            ("peer = 1", "peer = 10", "the plan has no honest peer 10"),
            ("peer = 1", "", "`peer` in the config is missing"),
            ("peer = 1", "peer = ", "Invalid value (at line 2, column 8)"),
            ("peer = 1", "peer = 1\npear = 2", "`pear` in the config means nothing"),
            ('"plan.lockss"', '"peer.toml"', "line 2: `peer = 1`: `peer` can't stand here"),
            ("00Z", "00", "`epoch` in [clock] is to be a time with its zone, as 2026-11-29T00:00:00Z"),
            ("seconds = 60", "seconds = 0", "`seconds` in [clock] is to be a number from 0.01 to 86400"),
            ("nudge = 60", "nudge = true", "`nudge` in [schedule] is to be a whole number from 1 to 1000000"),
            ("nudge = 60", "", "`nudge` in [schedule] is missing"),
            ("[links.2]", "[links]\n2 = 1\n[more]", "`2` in [links] is to be a table"),
            ("links.2", "links.1", "`1` in [links] means nothing"),
            ("queue = 512", "queue = 0", "`queue` in [links.3] is to be a whole number from 1 to 65536"),
            ("ssh -T", "'ssh -T", "`command` in [links.2] is to be the words of a command"),
        ):
            with self.subTest(new), self.assertRaises(ValueError) as caught:
                self.parse(GIVEN.replace(old, new, 1))
            self.assertIn(fault, str(caught.exception))
            self.assertNotIn("\n", str(caught.exception))

    def test_commands(self) -> None:
        for words, status, said in (
            (("peer", "/nowhere.toml"), 2, "peer: [Errno 2] No such file or directory: '/nowhere.toml'\n"),
            (("status", "/nowhere", EXAMPLES / "repaired.lockss"), 3, "status: UNKNOWN: [Errno 2]"),
            (("status", "/nowhere"), 3, "status: UNKNOWN: the following arguments are required: PLAN\n"),
        ):
            ended = tool(*words)
            self.assertEqual((ended.returncode, ended.stderr[: len(said)], ended.stderr.count("\n")), (status, said, 1))


class Following(unittest.TestCase):
    def test_state(self) -> None:
        found = state_of(*POLL[:4])
        self.assertEqual((found.polls[1].is_shut, found.polls[1].asked, found.aus), (True, 5, {1: 0}))
        self.assertEqual(state_of(*POLL[:5]).polls[1].asked, 0)
        self.assertEqual((state_of(*POLL).polls, state_of(*POLL).tick), ({}, 7))
        self.assertEqual([len(state_of(*PART[:count]).sessions) for count in range(5)], [0, 1, 1, 1, 0])
        self.assertEqual(state_of(Overdue(1, 99)).tick, 99)

    def test_growth(self) -> None:
        with folder() as top:
            path, batches = top / "journal", [(DEPOSIT,), *((it,) for it in POLL + PART)]
            follower, other = Follower(path, PLAN, 1), Follower(path, PLAN, 1)
            follower.look()
            for count in range(len(batches)):
                # what a torn append leaves behind the gate is no record yet
                path.write_bytes(journal.write_frames(batches[: count + 1]) + b"\1" * count)
                self.assertEqual(len(list(follower.records())), 1)
                follower.look()
            other.look()
            self.assertEqual((other.gate, vars(other.state)), (follower.gate, vars(follower.state)))
            self.assertEqual(follower.gate, disk.read(path.read_bytes()).gate)

    def test_doubtful_gates(self) -> None:
        batches = [(DEPOSIT,), *((VoteIn(1, peer, HASHES * 60),) for peer in range(2, 9))]
        batches.insert(1, (opened(),))
        whole = journal.write_frames(batches)
        first = len(journal.write_frames(batches[:2])) - 1
        with folder() as top:
            path = top / "journal"
            seen = Follower(path, PLAN, 1)
            path.write_bytes(whole)
            seen.look()
            path.write_bytes(whole[:first] + b"\xa4" + whole[first + 1 :])
            self.assertIn(f"at offset {first}: it was whole", self.fault(seen))
            self.assertIn(f"at offset {first}: its gate is closed, and", self.fault(Follower(path, PLAN, 1)))
            self.assertIn("its gate is closed", self.fault(Follower(path, PLAN, 1), first + 1))
            self.assertEqual(self.fault(Follower(path, PLAN, 1), first), "")
            self.assertEqual(path.read_bytes(), whole[:first] + b"\xa4")
            path.write_bytes(whole[:-1])
            self.assertIn("passes the end", self.fault(Follower(path, PLAN, 1)))
            path.write_bytes(journal.write_frames([(Shut(1),)]))
            self.assertIn("Shut stands before what it is about", self.fault(Follower(path, PLAN, 1)))

    def fault(self, follower: Follower, passed: int | None = None) -> str:
        try:
            follower.look(passed)
        except disk.Damaged as fault:
            return str(fault)
        return ""


class Schedules(unittest.TestCase):
    def test_due(self) -> None:
        for tick, records, wanted in (
            (0, [], "open 1"),
            (3, [opened()], None),
            (10, [opened()], None),
            (20, [opened()], "outer 1"),
            (50, [opened()], "shut 1"),
            (50, POLL[:3], "tally 1"),
            (29, POLL[:4], None),
            (30, [*POLL[:4], RepairBad(1, 1, 2)], "tally 1"),
            (99, POLL, None),
            (100, POLL, "open 1"),
            (9, [opened(), *PART[:1]], None),
            (9, [opened(), *PART[:2]], "work 2 9"),
            (9, [opened(), *PART[:3]], None),
            (49, [opened(), *PART[:3]], None),
        ):
            self.assertEqual(first_due(tick, *records, outer=int(tick < 49)), wanted, (tick, records))
        waits = Schedule(NUMBERS, [], 0)
        due = [list(waits.due(state_of(*POLL[:4]), tick))[0] for tick in (60, 89, 90)]
        self.assertEqual(due, ["check", "nudge 1", "give-up 1"])
        bare = Schedule(NUMBERS | {"expire-bare": 40}, [], 0)
        due = [list(bare.due(state_of(*PART[:count]), 43))[0] for count in (1, 2)]
        self.assertEqual(due, ["expire 2 9", "work 2 9"])

    def test_reminders(self) -> None:
        schedule, found, taken = Schedule(NUMBERS, [1], 0), state_of(opened()), []
        for tick in range(50):
            while words := schedule.next(found, tick):
                schedule.told(words, found, tick)
                taken.append((tick, words))
        self.assertEqual([tick for tick, words in taken if words == "check"], list(range(0, 50, 5)))
        self.assertEqual([tick for tick, words in taken if words == "nudge 1"], [10, 20, 30, 40])

    def test_tries(self) -> None:
        schedule, found = Schedule(NUMBERS, [1], 0), state_of(*POLL[:3])
        self.assertEqual([schedule.next(found, 9) for _ in range(3)], ["tally 1", "check", None])
        self.assertEqual(schedule.next(found, 10), "tally 1")
        found.take(Asked(1, 1, 2))
        found.take(RepairBad(1, 1, 2))
        self.assertEqual(schedule.next(found, 10), "tally 1")


class Programs(unittest.IsolatedAsyncioTestCase):
    """Programs that are no node, but what goes wrong with one; commands of links; what comes in."""

    async def ask(self, program: str) -> tuple[object, ...]:
        with folder() as top:
            (top / "node").write_text(f"#!/bin/sh\n{program}\n")
            (top / "node").chmod(0o755)
            started = await Node.start(top / "node", 1, top / "journal", b"lockss 1\n" * 40_000)
            with self.assertRaises(NodeEnded) as caught:
                await started.ask(b"\2check 1")
            await started.kill()
            return caught.exception.args

    async def test_faults(self) -> None:
        self.assertEqual(await self.ask("exit 10"), (10, ""))
        self.assertEqual(await self.ask("kill -9 $$"), (-9, ""))
        for told, why in (("\\0\\0\\0\\1x", "bytes are missing at the end"), ("\\377\\0\\0\\1", "a reply of 4278190081 bytes")):
            ended = await self.ask(f"printf '{told}'; cat >/dev/null")
            self.assertEqual(ended, (-9, f"what it wrote is no reply: {why}"))
        for program in ("/nowhere", "/"):
            with self.assertRaises(NodeEnded) as caught:
                await Node.start(pathlib.Path(program), 1, pathlib.Path("journal"), b"")
            self.assertEqual(caught.exception.args, (70, ""))
        self.assertEqual([status_of(it).name for it in (10, -9, 99)], ["foreign", "signal-9", "unknown"])
        self.assertEqual(node.whole(node.REPLY.read, bytes.fromhex("0001000100020000000141")), Reply(1, (Send(2, b"A"),)))

    async def come(self, door: Door, count: int) -> list[tuple[int, bytes]]:
        found: list[tuple[int, bytes]] = []
        while len(found) < count:
            door.woken.clear()
            if (heard := door.next()) is None:
                await asyncio.wait_for(door.woken.wait(), 10)
            else:
                found.append(heard)
        return found

    async def send(self, data: bytes, *words: object, **environment: str) -> tuple[int | None, bytes, bytes]:
        pipe = asyncio.subprocess.PIPE
        process = await asyncio.create_subprocess_exec(
            FROM, *map(str, words), stdin=pipe, stdout=pipe, stderr=pipe, env={**os.environ, **environment}
        )
        out, err = await process.communicate(data)
        return process.returncode, out, err

    @long
    async def test_door(self) -> None:
        with folder() as top, mock.patch("builtins.print"):
            path = top / "run/socket"
            refused = b"from: the daemon doesn't listen: No such file or directory\n"
            self.assertEqual(await self.send(b"", 2, path), (1, b"", refused))
            door = Door([2, 3], asyncio.Event(), Log())
            server = await door.listen(path)
            self.assertEqual(path.parent.stat().st_mode & 0o777, 0o700)
            # whatever the other side sends and asks for, the sender is the one of the words
            said = frame(b"\0\3") + frame(b"") + frame(b"\1" * 40_000)
            ended = await self.send(said, 2, path, SSH_ORIGINAL_COMMAND=f"{FROM} 3 {path}")
            self.assertEqual(ended, (0, b"ready\n", b""))
            self.assertEqual(await self.come(door, 3), [(2, b"\0\3"), (2, b""), (2, b"\1" * 40_000)])
            for data in (b"\0\0", b"\0\0\0\2A", (40_001).to_bytes(4, "big") + bytes(40_001)):
                ended = await self.send(data, 2, path)
                self.assertEqual(ended, (2, b"ready\n", b"from: no whole frame of at most 40000 bytes\n"))
            bad = ((), (2,), ("x", path), (65_536, path), (-1, path))
            for ended in await asyncio.gather(*(self.send(b"", *words) for words in bad)):
                self.assertEqual(ended, (2, b"", b"from: usage: from NUMBER SOCKET\n"))
            with self.assertRaises(ValueError):
                await Door([], asyncio.Event(), Log()).listen(path)
            server.close()

    async def test_turns(self) -> None:
        with folder() as top, mock.patch("builtins.print") as printed:
            door = Door([2, 3], asyncio.Event(), Log())
            server = await door.listen(top / "run/socket")
            for head, count in ((b"\0\2", 3), (b"\0\3", 1), (b"\0\4", 1)):
                reader, writer = await asyncio.open_unix_connection(top / "run/socket")
                writer.write(head + frame(b"A") * count + b"\0\0\x9c\x41")
                self.assertEqual(await reader.read(), b"")
                writer.close()
            self.assertEqual([peer for peer, _ in await self.come(door, 4)], [2, 3, 2, 2])
            server.close()
            told = " ".join(str(word) for call in printed.call_args_list for word in call.args)
            self.assertIn('peer=2 why="a frame of 40001 bytes"', told)
        with folder() as top:
            (top / "run").mkdir(mode=0o755)
            with self.assertRaisesRegex(ValueError, "mode 0700"):
                await Door([], asyncio.Event(), Log()).listen(top / "run/socket")

    async def with_link(self, link: Link, test: Awaitable[None]) -> str:
        """What a link told while the test went on."""
        with mock.patch("builtins.print") as printed, mock.patch.object(links, "LEAST_PAUSE", 0.05):
            running = asyncio.create_task(link.run())
            try:
                await asyncio.wait_for(test, 10)
            finally:
                running.cancel()
                await asyncio.gather(running, return_exceptions=True)
        return " ".join(str(word) for call in printed.call_args_list for word in call.args)

    async def test_links(self) -> None:
        with folder() as top:
            # a login shell says something first; the command ends behind each message
            text = f"echo hello; echo ready; echo oops >&2; head -c 5 >> {top}/sent; exit 3"
            link = Link(2, config.Link(["sh", "-c", text], 2), Log())

            async def test() -> None:
                for data in (b"1", b"2", b"3"):
                    link.put(data)
                while not (top / "sent").exists() or (top / "sent").stat().st_size < 5:
                    await asyncio.sleep(0.01)
                while (top / "sent").stat().st_size < 10:
                    link.put(b"9")
                    await asyncio.sleep(0.01)

            told = await self.with_link(link, test())
            # the oldest was dropped; what the first command had beyond its message went with it
            self.assertEqual((top / "sent").read_bytes(), frame(b"2") + frame(b"9"))
            for it in ("why=queue", "what=link-ready peer=2", "what=link-said peer=2 text=oops", "status=3 pause="):
                self.assertIn(it, told)

        async def wait() -> None:
            await asyncio.sleep(0.1)

        nowhere = Link(2, config.Link(["/nowhere"], 2), Log())
        self.assertIn('status="No such file or directory"', await self.with_link(nowhere, wait()))

    def test_pauses(self) -> None:
        pause = Pause(1, 60)
        self.assertEqual([pause.after(it) for it in (0, 0, 0, 5, 0.5, 1.5, 2.5)], [1, 2, 4, 1, 2, 4, 8])
        self.assertEqual([pause.after(0) for _ in range(5)][-2:], [60, 60])


class Telling(unittest.TestCase):
    def test_log(self) -> None:
        for value, wanted in ((1, "1"), ("a b", '"a b"'), ('a"', r'"a\""'), ("", '""'), ([2, 3], "2,3"), ("ü", r'"\u00fc"')):
            self.assertEqual(word(value), wanted)
        with mock.patch("builtins.print") as printed:
            Log()("heard", peer=2, poll=None)
        line = " ".join(printed.call_args.args)
        self.assertRegex(line, r"^time=\d{4}-\d\d-\d\dT\d\d:\d\d:\d\d\.\d{3}Z tick=0 what=heard peer=2$")

    def status(self, *records: journal.Record, words: tuple[str, ...] = ()) -> tuple[int, str]:
        with folder() as top:
            (top / "journal").write_bytes(journal.write_frames([(it,) for it in (DEPOSIT, *records)]))
            (top / "plan").write_text(trial.plan(1, trial.GOOD, [2]))
            ended = tool("status", top / "journal", top / "plan", *words)
            return ended.returncode, ended.stdout + ended.stderr

    def test_status(self) -> None:
        split, no_quorum = Closed(1, "split-0", 5), Closed(1, "inquorate", 5)
        full = [Joined(PollName(2, it), 1, 3, False) for it in range(12)]
        for records, status, line in (
            ([], 0, "AU 1: never agreed, 0 polls"),
            (POLL, 0, "AU 1: block 1 replaced by poll 1 of tick 0"),
            (PART[:1], 0, "in poll 9 of peer 2 on AU 1 since tick 3"),
            ([opened(), no_quorum], 1, "1 since then without a quorum"),
            ([opened(), no_quorum, opened(2), Closed(2, "agreed", 8)], 0, "agreed at tick 8, 2 polls, 0 since"),
            (full, 1, "12 of 16 parts"),
            ([opened(), split], 2, "alarm at tick 5: split-0"),
            ([Overdue(1, 44)], 2, "alarm at tick 44: overdue"),
            ([opened(), split, opened(2), Closed(2, "agreed", 8)], 0, "OK"),
            ([Shut(1)], 2, "Shut stands before what it is about"),
        ):
            ended = self.status(*records)
            self.assertEqual(ended[0], status, ended)
            self.assertIn(line, ended[1])
        self.assertIn('"replaced": [{"block": 1, "poll": 1, "tick": 0}]', self.status(*POLL, words=("--json",))[1])
        self.assertIn('lks_agreed_tick{peer="1",au="1"} 7\n', self.status(*POLL, words=("--prometheus",))[1])
        self.assertEqual(self.status(words=("--peer", "9"))[0], 3)
        self.assertEqual([self.status(words=("--silent", it))[0] for it in ("-1", "60")], [2, 0])

    def test_from_is_short(self) -> None:
        self.assertLess(len(FROM.read_text().splitlines()), 60)

    def test_clock(self) -> None:
        with folder() as top:
            one = trial.Peer(top, 1, pathlib.Path("node"))
            one.set_up(trial.plan(1, trial.GOOD, [2]), {})
            daemon = Daemon(config.load(one.folder / "peer.toml"), None)
            daemon.log.tick = 5
            for ahead, wanted in ((100, 100), (20, 100), (100_100, 100_100)):
                with mock.patch("time.time", return_value=daemon.config.epoch + ahead * 0.2 + 0.1):
                    daemon._move_clock()
                self.assertEqual(daemon.log.tick, wanted)
            with mock.patch("time.time", return_value=daemon.config.epoch + 201_000 * 0.2):
                self.assertRaisesRegex(Stop, "raise `leap`", daemon._move_clock)

    def test_starts(self) -> None:
        with folder() as top:
            one = trial.Peer(top, 1, pathlib.Path("node"))
            one.set_up(trial.plan(1, trial.GOOD, [2]), {})
            daemon = Daemon(config.load(one.folder / "peer.toml"), None)
            for frames, ticks, rested, wanted in (
                (4_093, 0, 10, False),
                (4_094, 0, 10, True),
                (4_094, 0, 8, False),
                (9, 100_000, 10, True),
                (9, 100_000, 8, False),
                (9, 99_999, 10, False),
            ):
                daemon.node = mock.Mock(frames=frames)
                daemon.log.tick, daemon.cost = ticks, 100
                daemon.started = time.monotonic() - rested * 100
                self.assertEqual(daemon._is_over(), wanted, (frames, ticks, rested))


@unittest.skipUnless(trial.program(), "no node is built")
class TwoPeers(unittest.TestCase):
    """Two daemons, whose links run bin/from alone."""

    def setUp(self) -> None:
        self.top = pathlib.Path(self.enterContext(tempfile.TemporaryDirectory()))
        program = trial.program()
        assert program is not None
        self.one, self.two = trial.Peer(self.top, 1, program), trial.Peer(self.top, 2, program, open=1_000_000)
        self.one.set_up(trial.plan(1, trial.DAMAGED, [2]), {2: f"{FROM} 1 {self.two.socket}"})
        self.two.set_up(trial.plan(2, trial.GOOD, []), {1: f"{FROM} 2 {self.one.socket}"})
        self.addCleanup(lambda: [it.stop() for it in (self.one, self.two)])

    @long
    def test_repair(self) -> None:
        self.two.start()
        self.one.start()
        trial.until("a poll agrees", lambda: self.one.events("closed", outcome="agreed"))
        self.assertEqual(archive.copy_of(self.one.journal.read_bytes(), 1), (1, trial.GOOD))
        self.assertEqual([it.stop() for it in (self.one, self.two)], [0, 0])
        self.assertEqual((len(self.one.events("stopped")), len(self.one.events("ended", status=0))), (1, 1))
        # each reply with records tells where the closed gate then stood
        gates = [int(it["gate"]) for it in self.one.log() if "gate" in it]
        found = disk.read(self.one.journal.read_bytes())
        self.assertEqual((gates, gates[-1]), (sorted(gates), found.gate))
        self.assertEqual(len(gates), len(found.batches) - 1)

    @long
    def test_bare_invitations(self) -> None:
        self.one.ticks |= {"expire-bare": 10, "open": 1_000_000}
        self.one.set_up(trial.plan(1, trial.GOOD, []), {})
        self.one.start()
        trial.until("a node is started", lambda: self.one.events("started"))
        said = b"".join(frame(message.write(message.Poll(number, 1))) for number in range(1, 7))
        # the daemon ends before a sender that has said all
        with subprocess.Popen([FROM, "2", self.one.socket], stdin=subprocess.PIPE, stdout=subprocess.DEVNULL) as sender:
            assert sender.stdin is not None
            sender.stdin.write(said)
            sender.stdin.flush()
            trial.until("all have come", lambda: len(self.one.events("dropped", why="parts")) == 2)
            self.assertEqual(len(self.one.events("heard", notes="Joined")), 4)
            trial.until("all have ended", lambda: len(self.one.events("expire", notes="Ended")) == 4)
            self.assertEqual(self.one.stop(), 0)

    @long
    def test_doubt(self) -> None:
        # however slow this machine is, its first poll adds the only batch
        self.one.ticks |= {"open": 1_000_000, "shut": 1_000_000}
        self.one.set_up(trial.plan(1, trial.DAMAGED, [2]), {})
        self.one.start()
        trial.until("a poll is opened", lambda: self.one.events("open"))
        self.assertEqual(self.one.stop(), 0)
        whole = self.one.journal.read_bytes()
        self.one.journal.write_bytes(whole + b"\1" * 40_000)
        why = f"offset {len(whole) - 1}: its gate is closed, and 40000 bytes stand behind it: RUNNING, A doubtful gate"
        self.assertEqual(self.ended(), (1, f"peer: {self.one.journal}: the journal is damaged at {why}"))
        self.one.start("--gate", str(len(whole) - 1))
        trial.until("a node is started", lambda: len(self.one.events("started")) == 2)
        self.assertEqual(self.one.stop(), 0)
        self.assertEqual(self.one.journal.read_bytes(), whole)
        # a bit of a block, and one of a count
        for at, status, line in ((20, 10, "the node ended with 10, foreign: "), (6, 1, "its body is no batch")):
            self.one.journal.write_bytes(whole[:at] + bytes([whole[at] ^ 1]) + whole[at + 1 :])
            ended = self.ended()
            self.assertEqual(ended[0], status)
            self.assertIn(line, ended[1])

    def ended(self) -> tuple[int, str]:
        """The status of a daemon that ends by itself, and its last line."""
        self.one.start()
        assert self.one.daemon is not None
        status, self.one.daemon = self.one.daemon.wait(20), None
        return status, self.one.told.read_text().splitlines()[-1]


if __name__ == "__main__":
    unittest.main()
