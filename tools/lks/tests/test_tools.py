"""What the package says is what docs/FORMATS.md and the program say."""

from __future__ import annotations

import subprocess
import unittest
from collections.abc import Callable
from typing import Any

from attack.strategies import Faithful, Forger, Known
from lks import hashes, journal, message, play, report, script
from lks.fields import PollName, whole
from lks.tests.at_random import Scripts
from testing.commands import tool
from testing.side_by_side import long

# How many scripts of each kind are compared, and what they are made of; bin/check-tools sets both.
COUNT, SEED = 200, 1
EXAMPLES = play.TOP / "examples"
SCRIPTS = sorted(EXAMPLES.glob("*.lockss"))
SEED_1, NONCE = b"\1".ljust(32, b"\0"), bytes(range(32))
# Steps with the last good number, and steps to which something may be added so often.
NUMBERS = {"tick {}": 1_000_000, "next {}": 4_096, "again {}": 4_294_967_295, "cut {} 0 next": 8, "cut 0 {} next": 255}
NUMBERS |= {"tune 1 3 1 {}": 512, "say 2 request 1 1 {}": 511, "say 2 nominate 1 1 {}": 65_535}
NUMBERS |= {"say 2 repair 1 1 0 41*{}": 16_384}
ADDED = {("say 2 nominate 1 1", " 7"): 8, ("forge 2 1 ", "00"): 40_000, ("say 2 vote 1 1 1 of 41", ",41"): 511}
ADDED |= {("crash 1", "\ncrash 1"): 15}
# What a record has of the message that came.
AS_IT_CAME = {journal.VoteIn: ["hashes"], journal.Nominated: ["nominees"], journal.Committed: ["nonce", "hash"]}
AS_IT_CAME |= {journal.Replaced: ["block", "content"], journal.RepairBad: ["block"]}


def plan(**rules: int) -> str:
    """A plan of six lines."""
    words = " ".join(map(str, script.rules_words(**{"inner": 3, "quorum": 3, "minority": 1} | rules)))
    return f"lockss 1\n{words}\nau 1 1\npeer 1 honest 01 01\npeer 2 corrupt 02 01\ncopy 1 1 41\n"


def judged(data: bytes, read: Callable[[bytes], Any] = script.read) -> tuple[int, str]:
    """The first bad line, or 0, and why."""
    try:
        read(data)
    except script.BadLine as bad:
        return bad.number, bad.reason
    return 0, "good"


class Judging(unittest.TestCase):
    """Scripts are judged as the program judges them."""

    def compare(self, data: bytes, read: Callable[[bytes], Any] = script.read, command: str = "replay") -> None:
        line, why = judged(data, read)
        ended = play.run(command, data=data)
        self.assertIn(ended.status, (0, 1, 3, 9))
        self.assertEqual(line, int(ended.err.split()[-1]) if ended.status == 3 else 0, (why, data))

    def test_examples(self) -> None:
        for path in EXAMPLES.glob("bad/*.lockss"):
            self.assertEqual(judged(path.read_bytes())[0], int(path.name.split("-")[1]), path)
            self.compare(path.read_bytes())

    def test_texts_at_random(self) -> None:
        scripts, text = Scripts(SEED), (EXAMPLES / "repaired.journals").read_bytes()
        for _ in range(COUNT):
            self.compare(scripts.script())
            self.compare(scripts.mutated(scripts.choice(SCRIPTS).read_bytes()))
            self.compare(scripts.mutated(text), journal.read, "evidence")

    def test_reasons(self) -> None:
        for line, reason in {
            "open 3 1\n": "no such peer",
            "tune 1 4 0 0\n": "quorum above inner",
            "tune 1 2 1 0\n": "twice the minority isn't below the quorum",
            "settle\r\n": "the line ends with a carriage return",
            "peer 3 honest 01 01\n": "`peer` can't stand here: it comes before lists and copies",
            "cut 0 0 next 1\n": "`next` has no count in a `cut`",
            "settle": "no line feed at the end of the file",
        }.items():
            self.assertEqual(judged((plan() + line).encode()), (7, reason))
            self.compare((plan() + line).encode())
        self.assertEqual(judged(b"lockss 1\n"), (2, "the script ends before its first peer"))

    def test_limits(self) -> None:
        pairs = [(line.format(last), line.format(last + 1)) for line, last in NUMBERS.items()]
        for good, bad in pairs + [(line + more * last, line + more * (last + 1)) for (line, more), last in ADDED.items()]:
            self.assertEqual([judged(f"{plan()}{it}\n".encode())[1] == "good" for it in (good, bad)], [True, False], good)
        for name, last in {"inner": 16, "outer": 16, "repairs": 512, "pace": 1_000_000, "debt": 100, "churn": 16}.items():
            self.assertEqual([judged(plan(**{name: n}).encode())[0] for n in (last, last + 1)], [0, 2], name)

    def test_journals(self) -> None:
        for text in ("00", "01", "0000", "", "0", "a50000000900010106000000010000", "a50000000c00010107000000010200000100"):
            for lines in (f"journal 1 {text}\n", f"journal 1 00\njournal 1 {text}\n", f"journal 2 {text}\n"):
                self.compare((plan() + lines).encode(), journal.read, "evidence")


class Spelling(unittest.TestCase):
    """Values from outside: those of docs/FORMATS.md, and of a separate program for the second hash and other draws."""

    def test_hashes(self) -> None:
        nonce = hashes.nonce(SEED_1, 1)
        self.assertEqual(nonce.hex(), "0d00e5e6a8a816ce10265bd371e0540ce61267aeae9a835e35de0248493c5d44")
        for kind, key, last in (
            ("sha256", "2f62253af5fcaba930bec0546226c5c672e5cd35d9908fb174c38b8d85b064aa", "1cc09c4e"),
            ("sha512-256", "ac2f960edbeade55274cd0ec54906a2922657970d50e21e66803a4620ccc0112", "874ab5cf"),
        ):
            found = hashes.key(kind, 1, 1, nonce, 2, 1, 2)
            self.assertEqual((found.hex(), hashes.vote(kind, found, [b"A", b"B"])[1].hex()[:8]), (key, last))

    def test_draws(self) -> None:
        for label, number, words in ((1, 1, "a4910d84 3bab75de"), (3, 65537, "cde077a8 98f7cf43"), (6, 0, "52fa73e0 f2a4a390")):
            draws = hashes.Draws(SEED_1, label, number)
            self.assertEqual(f"{draws.word():08x} {draws.word():08x}", words)
        self.assertEqual(hashes.Draws(SEED_1, 1, 1).pick(range(2, 8), 3), (5, 3, 4))

    def test_records_and_messages(self) -> None:
        opened, limits = (1, 2, NONCE, (3, 4), 5), journal.Limits(3, 1)
        body, kind = f"000000010002{NONCE.hex()}020003000400000005", "sha512-256"
        for record, spelled in (
            (journal.Shut(1), "010600000001"),
            (journal.Tuned(journal.Limits(1, 0), 2), "0211000100000002"),
            (journal.PollOpened(*opened), f"0102{body}"),
            (journal.PollOpened(*opened, limits=limits), f"0202{body}00030001"),
            (journal.PollOpened(*opened, limits=limits, hash=kind), f"0302{body}0003000102"),
            (journal.Joined(PollName(6, 7), 2, 5, True, repairs=4), "020c000600000007000200000005010004"),
            (journal.Committed(PollName(6, 7), NONCE, 1, hash=kind), f"020d000600000007{NONCE.hex()}0000000102"),
        ):
            data = bytes.fromhex("0001" + spelled)
            self.assertEqual((journal.BATCH.write((record,)), whole(journal.BATCH.read, data)), (data, (record,)))
        self.assertEqual(journal.write_frames([(journal.Shut(1),)]).hex(), "a500000008000101060000000100")
        proof = message.PollProof(1, NONCE, b"\1", hash=kind)
        for said, spelled in ((message.Receipt(1), "010800000001"), (proof, f"020300000001{NONCE.hex()}020101")):
            self.assertEqual((message.write(said).hex(), message.read(bytes.fromhex(spelled))), (spelled, said))


def drills_from(first: int) -> Callable[[Runs], None]:
    """A test of five drills."""
    return long(lambda runs: runs.check_drills(range(first, first + 5)))


class Runs(unittest.TestCase):
    """Each message, hash and draw of a run is made again, and is what the report and the journals have."""

    def check_run(self, run: play.Run) -> None:
        bag, journals = run.bag, run.journals
        for number, (event, _) in enumerate(bag.sent):
            if event.name == "forge":
                self.assertEqual(len(message.write(bag.message(number))), event.values["length"])
        for event in run.report.events:
            came = bag.message(event.values["message"]) if event.name == "deliver" and event.sends else None
            self.assertFalse(isinstance(came, message.PollChallenge) and not came.yes)
            if event.notes:
                upto = bag.written[event.number]
                for place in range(upto - len(event.notes), upto):
                    self.check_record(run, event, bag.records[event.peer][:place], bag.records[event.peer][place])
        for peer, batches in journals.batches.items():
            notes = [note for event, note in run.report.notes() if event.peer == peer]
            deposits = {it.au: list(it.blocks) for it in journal.of_kind(journals.records(peer), journal.Deposit)}
            self.assertEqual(deposits, run.script.plan.peers[peer].copies)
            self.assertEqual(len(journals.records(peer)), len(deposits) + len(notes))
            self.assertEqual(journal.read_frames(journal.write_frames(batches)), batches)

    def check_record(self, run: play.Run, event: report.Event, before: list[journal.Record], record: journal.Record) -> None:
        peer, plan = run.script.plan.peers[event.values["peer"]], run.script.plan
        came = run.bag.message(event.values["message"]) if event.name == "deliver" else None
        for name in AS_IT_CAME.get(type(record), ()) if came else ():
            self.assertEqual(getattr(record, name), getattr(came, name))
        if isinstance(record, journal.PollOpened):
            draws = hashes.Draws(peer.seed, 1, record.number)
            self.assertEqual(record.nonce, hashes.nonce(peer.seed, record.number))
            self.assertEqual(record.inner, draws.pick(journal.references(plan, peer, before), plan.rules["inner"]))
        elif isinstance(record, journal.Voted):
            au = journal.only(before, journal.Joined, poll=record.poll).au
            kept = journal.only(before, journal.Committed, poll=record.poll)
            blocks = journal.versions(before, au)[kept.version]
            key = hashes.key(kept.hash, *record.poll, kept.nonce, peer.id, au, len(blocks))
            self.assertEqual(record.hashes, hashes.vote(kept.hash, key, blocks))
        elif isinstance(record, journal.Ended) and came and not event.judged:
            self.assertEqual(came, message.Receipt(record.poll.number))

    def test_examples(self) -> None:
        for path in SCRIPTS:
            run = play.Run(script.read(path.read_bytes()))
            self.assertEqual(report.read(path.with_suffix(".report").read_text()), run.report)
            self.check_run(run)

    def test_lists(self) -> None:
        built, peers = script.Script(), range(1, 10)
        built.add("lockss", 1)
        built.add(*script.rules_words(inner=3, quorum=3, minority=1, outer=2, repairs=2, unknown=100, debt=100, churn=1))
        built.add("au", 1, 2)
        for peer in peers:
            built.add("peer", peer, "honest", bytes([peer]), b"\1")
        for peer in peers:
            others = [(peer + more) % 9 + 1 for more in range(8)]
            built.add("refs", peer, *others[:4])
            built.add("friends", peer, *others[4:])
            built.add("copy", peer, 1, [b"A", b"B" if peer % 4 else b"C"])
        for words in (words for peer in (*peers, *peers) for words in (["open", peer, 1], ["finish"])):
            built.add(*words)
        self.check_run(play.Run(built))

    def test_play(self) -> None:
        plan = (EXAMPLES / "repaired.lockss").read_text().split("open")[0].encode()
        known, runs = Known((2, 3, 4), (1,), 1, (b"A", b"C"), {}, hashes.Draws(SEED_1, 7, 0)), []
        for kind in (Faithful, Faithful, Forger):
            game = play.Play(script.read(plan), kind(known), known.own)
            game.step("open", 1, 1)
            game.step("finish")
            runs.append(play.Run(game.script))
            self.check_run(runs[-1])
        for run in runs[:2]:
            self.assertEqual(journal.versions(run.journals.records(1), 1)[-1], (b"A", b"C"))
            self.assertEqual([it.outcome for it in run.report.polls], ["agreed"])
        self.assertEqual(*(run.script.text() for run in runs[:2]))
        self.assertIn("\nforge 2 1 ", runs[2].script.text())

    def check_drills(self, seeds: range) -> None:
        for seed in seeds:
            run = play.Run(script.drill(seed))
            notes = [note for _, note in run.report.notes()]
            polls, replaced = (sum(note.name == name for note in notes) for name in ("opened", "replaced"))
            sums = f"polls {polls} agreed {sum(note.word == 'agreed' for note in notes)} replaced {replaced}"
            line = f"drill {seed} events {len(run.report.events)} {sums} alarms {len(run.report.alarms)}\n"
            self.assertEqual(line.encode(), play.run("drill", str(seed)).out)
            self.check_run(run)

    # tests of their own, which run side by side
    test_drills_1, test_drills_6, test_drills_11, test_drills_16 = map(drills_from, (1, 6, 11, 16))


class Commands(unittest.TestCase):
    def test_why(self) -> None:
        ended = tool("why", EXAMPLES / "bad/line-8-list-with-its-own-peer-alone.lockss")
        self.assertEqual((ended.returncode, ended.stdout), (1, "line 8: `refs 1 1`: peer 1 lists itself\n"))
        ended = tool("why", "--journals", EXAMPLES / "repaired.journals")
        self.assertEqual((ended.returncode, ended.stdout), (0, ""))

    def test_chart(self) -> None:
        picture = (play.TOP / "README.md").read_text().split("```mermaid\n")[1].split("```")[0]
        self.assertEqual(tool("chart", EXAMPLES / "repaired.report").stdout, picture)
        asked = ["--poll", "2.1", "--peers", "2,3", "--events", "11-14", "--copies"]
        few = tool("chart", *asked, EXAMPLES / "snapshot.report").stdout
        drawn = ["Note over P2: 11 tally 1<br/>asked 1 0 3", "Note over P3: 12 forge 11 bytes for peer 2"]
        drawn += ["P2->>P3: message 6 of event 11", "P3->>P2: message 7 of event 12"]
        drawn += ["Note over P2: 14 replaced 1 1 0 1<br/>AU 1 is at version 1", "Note over P2: AU 1 is at version 1"]
        self.assertEqual([line.strip() for line in few.splitlines()[3:]], drawn)
        front = tool("chart", input=(EXAMPLES / "repaired.report").read_text().rpartition("end ")[0])
        self.assertEqual((front.returncode, front.stdout), (2, ""))
        piped = subprocess.run(f"{play.TOP}/bin/chart {EXAMPLES}/many-peers.report | true", shell=True, stderr=-1, check=False)
        self.assertEqual(piped.stderr, b"")

    def test_sums(self) -> None:
        # the script damages block 5 of peer 1, which line 23 of its report replaces
        ended = tool("sums", "--csv", "blocks", EXAMPLES / "ordinary-use.lockss")
        self.assertEqual(ended.stdout.split(), ["peer,au,block,becomes,event,tick", "1,1,5,damaged,0,0", "1,1,5,healed,23,0"])
        ended = tool("sums", "--csv", "polls", "--report", EXAMPLES / "outer-circle.report")
        self.assertEqual(ended.stdout.splitlines()[1:], ["1.1,1,1,0,4,3,1,0,0,0,agreed"])
        ended = tool("sums", EXAMPLES / "snapshot.lockss")
        warnings = ["poll 2.1 never ended", "1 sessions of peer 2 stayed open"]
        self.assertEqual(ended.stderr, "".join(f"sums: warning: {it}\n" for it in warnings))
        for count, told in ((4_096, "sums: warning: the history is full: it has 4096 events\n"), (4_095, "")):
            lines = ["lockss report 1", *(f"{number} tick 1 | - | 0" for number in range(1, count + 1)), f"end {count}", ""]
            self.assertEqual(tool("sums", "--report", "/dev/stdin", input="\n".join(lines)).stderr, told)
