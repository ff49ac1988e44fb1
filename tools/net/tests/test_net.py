"""A network on this machine: its plans, links, corrupt peers, chaos, doctor and log; and a short one, where a node is built."""

from __future__ import annotations

import asyncio
import contextlib
import os
import pathlib
import random
import tempfile
import unittest
from collections import Counter
from collections.abc import Iterator
from typing import Any
from unittest import mock

from files import archive, disk
from lks import hashes, journal, message, play, report, script
from lks.journal import Closed, Deposit, Limits, PollOpened, Replaced, Shut, VoteIn
from lks.tests.test_tools import EXAMPLES, NONCE, SCRIPTS
from net import chaos, doctor, judging, peers, running, telling
from net.liars import NAMES, Liars
from net.scenes import own_plan, same_files, scene
from net.telling import Line, Messages, Tail, Teller, note_of
from net.watching import COUNTS, Watch, extremes_of
from net.weather import Weather
from net.wires import Wires
from peer import trial
from peer.log import mark
from peer.node import frame
from testing.commands import tool

PLAN = script.read((EXAMPLES / "net/plan.lockss").read_bytes())
COPY = tuple(PLAN.plan.peers[2].copies[1])
OPENED = PollOpened(1, 1, NONCE, (1, 3, 4, 5, 6, 7, 8), 9, limits=Limits(5, 2))
VOTE = VoteIn(1, 7, (NONCE,) * 8)
BATCHES = [(Deposit(1, COPY),), (OPENED,), (VOTE,), (Shut(1),), (Replaced(1, 1, 5, b"x"), Closed(1, "split-5", 30))]


@contextlib.contextmanager
def folder() -> Iterator[pathlib.Path]:
    """A new folder."""
    with tempfile.TemporaryDirectory() as made:
        yield pathlib.Path(made)


def peer_in(top: pathlib.Path, number: int = 2) -> peers.Peer:
    """A peer with a journal in this folder."""
    (top / "peers").mkdir()
    made = peers.Peer(top, number, pathlib.Path("/nowhere"), peers.ticks(100))
    made.journal.write_bytes(journal.write_frames(BATCHES))
    return made


class Scenes(unittest.TestCase):
    def test_published(self) -> None:
        self.assertEqual(PLAN.plan.published(1), tuple(bytes([0x41 + at]) * 4096 for at in range(8)))
        self.assertEqual(COPY[5], b"rotten")

    def test_own_plan(self) -> None:
        found = script.read(own_plan(PLAN.plan, 2).encode()).plan
        self.assertEqual((found.rules, found.aus, found.peers[2]), (PLAN.plan.rules, PLAN.plan.aus, PLAN.plan.peers[2]))
        others = [it for it in found.peers.values() if it.id != 2]
        self.assertEqual([(it.honest, it.seed, it.copies) for it in others], [(True, bytes(32), {})] * 7)

    def test_scene(self) -> None:
        with folder() as top:
            (top / "in").mkdir()
            for name in ("a", "b", "c"):
                (top / "in" / name).write_text(name * 20_000)
            plan = scene(top / "in", 8, 2, 2, 7).plan
            self.assertEqual([it.honest for it in plan.peers.values()], [True] * 6 + [False] * 2)
            whole = plan.published(1)
            bad = [(it.id, at) for it in plan.honest() for at in range(len(whole)) if it.copies[1][at] != whole[at]]
            self.assertEqual((len(bad), len({it for it, _ in bad}), len({at for _, at in bad})), (2, 2, 2))
            self.assertEqual(same_files(whole, top / "in", top / "out"), [])
            told = same_files(plan.peers[bad[0][0]].copies[1], top / "in", top / "other")
            self.assertEqual((len(told), "it has another" in told[0]), (1, True))
            for given in ((8, 8, 0), (8, 2, 7)):
                self.assertRaises(ValueError, scene, top / "in", *given, 1)

    def test_schedule(self) -> None:
        found = peers.ticks(100)
        self.assertTrue(found["nudge"] < found["outer"] < found["shut"] < found["open"] < found["expire"] < found["scrub"])
        self.assertEqual(set(found), set(trial.TICKS) | {"scrub"})


class Weathers(unittest.TestCase):
    def test_fates(self) -> None:
        self.assertEqual(Weather(None).fates(1, 2), [0.0])
        weather, same = Weather(3), Weather(3)
        fates = [weather.fates(1, 2) for _ in range(4_000)]
        same.fates(2, 1)
        self.assertEqual([same.fates(1, 2) for _ in range(4_000)], fates)
        lost, twice = fates.count([]), sum(len(it) == 2 for it in fates)
        late = sum(len(it) == 1 and it[0] > 0 for it in fates)
        self.assertTrue(60 < lost < 200 and 60 < twice < 200 and 300 < late < 500, (lost, twice, late))
        weather.calm()
        self.assertEqual(weather.fates(1, 2), [0.0])

    def test_cuts(self) -> None:
        weather = Weather(None)
        weather.cut(1, 2, is_silent=True)
        self.assertEqual((weather.fates(2, 1), weather.is_broken(2, 1), weather.fates(1, 3)), ([], False, [0.0]))
        weather.cut(2, 1, is_silent=False)
        weather.mend(1, 2)
        self.assertEqual(weather.fates(1, 2), [])
        weather.mend(1, 2)
        self.assertEqual(weather.fates(1, 2), [0.0])
        weather.cut(1, 2, is_silent=False)
        self.assertTrue(weather.is_broken(1, 2))


class Links(unittest.IsolatedAsyncioTestCase):
    def setUp(self) -> None:
        self.writers: list[asyncio.StreamWriter] = []

    async def test_wires(self) -> None:
        came: list[tuple[int, bytes]] = []
        heard: list[tuple[int, int, bytes]] = []

        async def door(reader: asyncio.StreamReader, writer: asyncio.StreamWriter) -> None:
            sender = int.from_bytes(await reader.readexactly(2), "big")
            with contextlib.suppress(asyncio.IncompleteReadError):
                while True:
                    length = int.from_bytes(await reader.readexactly(4), "big")
                    came.append((sender, await reader.readexactly(length)))
            writer.close()

        with folder() as top:
            server, weather, told = await asyncio.start_unix_server(door, top / "door"), Weather(None), mock.Mock()
            (top / "wires").mkdir(mode=0o700)
            wires = Wires(top / "wires", {2: top / "door", 3: top / "none"}, weather, lambda *it: heard.append(it), told)
            await wires.listen([2, 3, 7])
            reader, writer = await self.say(wires, 2, frame(b"A") + frame(b"B"))
            await self.say(wires, 7, frame(b"C"))
            await self.until(lambda: len(came) == 2 and len(heard) == 1)
            self.assertEqual((came, heard), ([(1, b"A"), (1, b"B")], [(1, 7, b"C")]))
            with mock.patch.object(weather, "fates", side_effect=[[0.2, 0.3], [0.0], []]):
                writer.write(frame(b"1") + frame(b"2") + frame(b"3"))
                await self.until(lambda: len(came) == 5)
            self.assertEqual([data for _, data in came[2:]], [b"2", b"1", b"1"])
            self.assertEqual((wires.counts["overtaken"], wires.counts["lost"], wires.counts["twice"]), (2, 1, 1))
            told.assert_called_once_with("lost", sender=1, receiver=2, mark=mark(b"3"))
            # where no daemon listens, and where links are cut, a connection ends
            gone, _ = await self.say(wires, 3, b"")
            self.assertEqual(await gone.read(), b"")
            weather.cut(1, 2, is_silent=False)
            wires.sever(2, 1)
            self.assertEqual(await reader.read(), b"")
            again, _ = await self.say(wires, 2, frame(b"D"))
            self.assertEqual((await again.read(), len(came)), (b"", 5))
            await wires.close()
            server.close()
            for it in self.writers:
                it.close()

    async def say(self, wires: Wires, to: int, data: bytes) -> tuple[asyncio.StreamReader, asyncio.StreamWriter]:
        reader, writer = await asyncio.open_unix_connection(wires.folder / str(to))
        writer.write(b"\0\1" + data)
        self.writers.append(writer)
        return reader, writer

    async def until(self, test: Any) -> None:
        for _ in range(500):
            if test():
                return
            await asyncio.sleep(0.01)
        self.fail("it didn't come")

    async def test_liars(self) -> None:
        paths = {it: pathlib.Path(f"/{it}") for it in PLAN.plan.peers}
        for name in NAMES:
            told = mock.Mock()
            liars = Liars(PLAN.plan, name, 1, paths, told)
            liars.hear(1, 7, message.write(message.Poll(3, 1)))
            liars.hear(1, 7, message.write(message.PollProof(3, NONCE, b"\1", hash="sha256")))
            liars.hear(1, 7, b"noise")
            sent = [message.read(it) for it in liars.links[7, 1].queue]
            if name in ("nominations", "stealth"):
                nonce = hashes.nonce(PLAN.plan.peers[1].seed, 3)
                key = hashes.key("sha256", 1, 3, nonce, 7, 1, 8)
                self.assertEqual(sent[-1].hashes, hashes.vote("sha256", key, PLAN.plan.published(1)))
            self.assertEqual(len([it for it in told.mock_calls if it.args[0] == "reached"]), 3, name)
            self.assertTrue(bool(sent) != (name == "silent") or name == "mixed", name)

    async def test_votes_are_forgotten(self) -> None:
        liars = Liars(PLAN.plan, "forger", 1, {it: pathlib.Path(f"/{it}") for it in PLAN.plan.peers}, mock.Mock())
        liars.hear(1, 7, message.write(message.PollProof(3, NONCE, b"\1", hash="sha256")))
        self.assertGreater(hashes._vote.cache_info().currsize, 0)
        liars.links.clear()
        going = asyncio.create_task(liars.run())
        await self.until(lambda: hashes._vote.cache_info().currsize == 0)
        going.cancel()
        await asyncio.gather(going, return_exceptions=True)


class Telling(unittest.TestCase):
    def test_notes(self) -> None:
        for path in SCRIPTS:
            run = play.Run(script.read(path.read_bytes()))
            for peer in run.script.plan.honest():
                told = [note.text for event, note in run.report.notes() if event.peer == peer.id]
                records = [it for it in run.journals.records(peer.id) if not isinstance(it, Deposit)]
                self.assertEqual(list(map(note_of, records)), told, path)

    def told(self, top: pathlib.Path, *lines: Line) -> tuple[report.Report, Counter[str]]:
        teller = Teller(PLAN.plan, {2: top / "2", 3: top / "3"}, top / "report")
        teller.tell(lines)
        teller.end()
        self.assertEqual(teller.strange, 0)
        return report.read((top / "report").read_text()), teller.counts

    def test_report(self) -> None:
        gates = [len(journal.write_frames(BATCHES[:count])) - 1 for count in range(len(BATCHES) + 1)]
        opened = {"what": "open", "au": "1", "notes": "PollOpened", "gate": str(gates[2]), "to": "3,7", "marks": "aa,bb", "tick": "9"}
        with folder() as top:
            (top / "2").write_bytes(journal.write_frames(BATCHES) + b"torn")
            found, counts = self.told(
                top,
                # of the same moment; what was sent comes first
                Line("1", 3, {"what": "heard", "peer": "2", "mark": "aa", "poll": "1", "message": "Poll"}),
                Line("1", 2, opened),
                Line("2", 0, {"what": "reached", "sender": "2", "receiver": "7", "mark": "bb"}),
                Line("2", 0, {"what": "forged", "sender": "7", "receiver": "2", "mark": "cc", "length": "5"}),
                Line("3", 0, {"what": "lost", "sender": "7", "receiver": "2", "mark": "cc"}),
                Line("4", 0, {"what": "killed", "peer": "2"}),
                Line("5", 2, {"what": "read", "bytes": str(gates[3] + 1)}),
                Line("6", 2, {"what": "shut", "poll": "1", "notes": "Shut", "gate": str(gates[4]), "tick": "9"}),
            )
        told = [(it.name, it.peer, [note.text for note in it.notes]) for it in found.events]
        self.assertEqual(told[:3], [("tick", None, []), ("open", 2, ["opened 1 1"]), ("deliver", 3, [])])
        self.assertEqual(told[3:6], [("deliver", 7, []), ("forge", 7, []), ("lose", None, [])])
        self.assertEqual(told[6:8], [("crash", 2, ["vote-in 1 7"]), ("shut", 2, ["shut 1"])])
        self.assertEqual(told[8], ("crash", 2, ["replaced 1 1 5 1", "closed 1 split-5"]))
        self.assertEqual(counts, {"polls": 1, "replaced": 1, "split": 1, "alarms": 1})

    def test_messages(self) -> None:
        with mock.patch.object(telling, "MOST_LOOKS", 3):
            found, key = Messages(), (1, 2, "aa")
        self.assertIsNone(found.take(key))
        found.send(key)
        found.send(key)
        self.assertEqual([found.take(key) for _ in range(3)], [0, 1, 1])
        for to in (3, 4, 3, 5, 6, 4):
            found.send((1, to, "bb"))
            found.take((1, 5, "bb"))
            found.look()
        # as old as the oldest look that is known, or younger
        self.assertEqual((found.waiting, found.came), ({(1, 6, "bb"): [6], (1, 4, "bb"): [7]}, {}))
        for to in range(7, 12):
            found.send((1, to, "bb"))
            found.take((1, to, "bb"))
            found.look()
        self.assertEqual((found.waiting, list(found.came.values())), ({}, [11, 12]))
        for _ in range(3):
            found.look()
        self.assertEqual((found.came, found.count), ({}, 13))

    def test_tail(self) -> None:
        with folder() as top:
            tail = Tail(2, top / "log")
            self.assertEqual(list(tail.lines()), [])
            for text, wanted in (("time=1 what=a\npeer: it ended\ntime=2 wh", ["a"]), ("at=b\n", ["b"])):
                with open(top / "log", "a", encoding="ascii") as log:
                    log.write(text)
                self.assertEqual([it.values["what"] for it in tail.lines()], wanted)

    def test_watch(self) -> None:
        with folder() as top, contextlib.closing((watch := Watch(top / "samples.csv")).file):
            for second in range(1, 302):
                nodes = [os.getpid(), 2**22 + 1] if second % 2 else []
                watch.add(second, dict.fromkeys(COUNTS, second), {"nodes": nodes, "daemons": [os.getpid()]}, 3)
            watch.draw(top / "picture.svg", "a run")
            self.assertEqual((top / "picture.svg").read_text().count("open files of daemons"), 1)
            # no node was there in two samples, one after another
            self.assertEqual((len(watch.growth()), len(list(watch.parts())), watch.last[:6]), (7, 38, "301 s:"))
            samples = [{1: 5.0}] * 4 + [{1: 2.0, 2: 7.0}, {1: 2.5, 2: 7.5}, {2: 7.25}, {1: 9.0}]
            self.assertEqual([watch.grown("these", it) for it in samples], [[]] * 5 + [[500.0], [], []])
            self.assertEqual(extremes_of(list(watch.samples(10, 21)), "agreed"), (11, 16, 21))
            # in an even second no node ran, and the columns of daemons are where they were
            found = [extremes_of(list(watch.samples(11, 12)), f"open files of {it}") for it in ("nodes", "daemons")]
            self.assertEqual([it is None for it in found], [True, False])


class Doing(unittest.TestCase):
    def test_scribble(self) -> None:
        for seed in range(20):
            with folder() as top:
                peer, whole = peer_in(top), journal.write_frames(BATCHES)
                left = chaos.scribble(PLAN.plan, peer, random.Random(seed))
                found = disk.read(peer.journal.read_bytes())
                self.assertEqual((found.frames(), len(found.data)), (whole, len(whole) + left))
                disk.look(PLAN.plan, 2, found)
                self.assertEqual(chaos.gate_of(peer.journal), found.gate)

    def test_parts(self) -> None:
        data, at = journal.write_frames(BATCHES) + b"torn", 0
        found = list(doctor.parts(data))
        for part in found:
            self.assertEqual(part.at, at)
            at += part.size
        self.assertEqual((at, found[-1].name), (len(data), "behind it"))
        names = {it.name for it in found}
        self.assertTrue({"gate", "length", "Deposit blocks", "VoteIn hashes", "PollOpened nonce", "closed gate"} <= names)
        for seed in range(20):
            drawn = doctor.drawn(data, random.Random(seed), 10)
            self.assertEqual(len(drawn), 10)
            for place, part in drawn:
                self.assertTrue(part in found and part.at <= place < part.at + part.size)
        with folder() as top:
            (top / "file").write_bytes(data)
            before = doctor.digest(top / "file")
            doctor.turn(top / "file", 5, 3)
            self.assertEqual((top / "file").read_bytes(), data[:5] + bytes([data[5] ^ 8]) + data[6:])
            doctor.turn(top / "file", 5, 3)
            self.assertEqual(doctor.digest(top / "file"), before)

    def test_ends(self) -> None:
        self.assertEqual(judging.unexplained(Counter({0: 9, -9: 3, -15: 1}), 3), [])
        told = judging.unexplained(Counter({-9: 3, 10: 1}), 2)
        self.assertEqual(told, ["1 nodes or daemons ended with 10", "3 nodes ended by SIGKILL, and 2 were killed"])

    def test_commands(self) -> None:
        with folder() as top:
            (top / "net").mkdir()
            (top / "net/file").touch()
            for words, said in (
                (("net", "/nowhere", "--folder", top / "new"), "[Errno 2] No such file or directory: '/nowhere'"),
                (("check-net", "--files", "/nowhere"), "[Errno 2] No such file or directory: b'/nowhere/'"),
                (("check-net", "--corrupt", "8"), "2 damaged and 8 corrupt ones of 8 peers can't be"),
            ):
                given = {"PATH": "/usr/bin:/bin", "LKS_NODE": "/bin/true"}
                with self.subTest(said), mock.patch.dict(os.environ, given):
                    ended = tool(*words)
                    self.assertEqual((ended.returncode, ended.stderr), (2, f"{words[0]}: {said}\n"))
            with self.assertRaisesRegex(ValueError, "isn't empty"):
                self.net(top / "net")
            with self.assertRaisesRegex(ValueError, "at most 107 bytes"):
                self.net(top / ("x" * 90))
            with self.assertRaisesRegex(ValueError, "at least 12"):
                self.net(top / "new", 11)
        ended = tool("check-net", "--plan", "--peers", "16", "--corrupt", "3", "--damaged", "4", "--files", EXAMPLES / "bad")
        self.assertEqual(len(script.read(ended.stdout.encode()).plan.honest()), 13)

    def net(self, top: pathlib.Path, between: int = 100) -> running.Net:
        return running.Net(PLAN, running.Wanted(pathlib.Path("/node"), top, "silent", 1, 0, 0.1, between, None, None))


@unittest.skipUnless(trial.program(), "no node is built")
class ShortRun(unittest.TestCase):
    def test_run(self) -> None:
        node = trial.program()
        assert node is not None
        with folder() as top:
            found = running.run(PLAN, running.Wanted(node, top / "net", "forger", 10, 60, 0.1, 60, 1, None))
            lines = list(found.lines())
            self.assertEqual((found.faults, found.teller.bad), ([], set()), lines)
            told = report.read((top / "net/report").read_text())
            for number, peer in found.peers.items():
                records = [it for it in peer.records() if not isinstance(it, Deposit)]
                self.assertEqual([note.text for event, note in told.notes() if event.peer == number], list(map(note_of, records)))
                self.assertEqual(archive.copy_of(peer.journal.read_bytes(), 1)[1], list(PLAN.plan.published(1)))
            self.assertIn("bin/check-evidence: evidence yes", lines[-1])


if __name__ == "__main__":
    unittest.main()
