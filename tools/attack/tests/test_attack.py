"""Attacks: what strategies say to what they are told, one run of each, and that what is wrong with a run is seen."""

from __future__ import annotations

import pathlib
import tempfile
import unittest
import xml.etree.ElementTree
from collections.abc import Iterator, Sequence
from dataclasses import replace
from unittest import mock

from attack import course, outcome, picture, strategies
from lks import journal, message, play, report, script
from lks.tests.test_tools import EXAMPLES, NONCE
from testing.commands import tool
from testing.side_by_side import long

GIVEN = course.settings(peers=12, corrupt=5, refs=8, rounds=2)
GOOD = course.good_blocks(GIVEN)
OWN, HONEST = (8, 9, 10, 11, 12), (1, 2, 3, 4, 5, 6, 7)
PLAN = course.scene(GIVEN, 1).plan


def strategy(name: str) -> strategies.Faithful:
    """A strategy of five peers."""
    return strategies.STRATEGIES[name](strategies.Known(OWN, HONEST, course.AU, GOOD, PLAN.rules, course.draws_of(1, 2)))


def hear(of: strategies.Faithful, said: message.Message, to: Sequence[int] = OWN, tick: int = 0) -> list[strategies.Words]:
    """What a strategy says when these of its peers hear this of peer 1."""
    received = tuple(play.Received(1, peer, said) for peer in to)
    return list(of.act(play.Told(tick, replace(PLAN, peers={it: PLAN.peers[it] for it in OWN}), received)))


def votes(name: str, circle: int) -> list[tuple[bytes, ...]]:
    """For which blocks so many peers of a strategy vote, of which two more are invited once the first votes are given."""
    of, number = strategy(name), 3
    hear(of, message.Poll(number, course.AU), OWN[:circle])
    said = hear(of, message.PollProof(number, NONCE, b"\1"), OWN[:circle])
    hear(of, message.Poll(number, course.AU), OWN[circle:])
    asked = hear(of, message.RepairRequest(number, 0), OWN[:1])
    given = [words[-1] for words in said if words[1 : 3] == (words[1], "vote")]
    assert asked == [("say", OWN[0], "repair", 1, number, 0, [given[0][0]])]
    return given


def example(name: str) -> play.Run:
    """The run of an example."""
    return play.Run(script.read((EXAMPLES / f"{name}.lockss").read_bytes()))


class Scenes(unittest.TestCase):
    def test_scene(self) -> None:
        plan = script.read(course.scene(course.settings(damage=50), 7).text().encode()).plan
        self.assertEqual([it.id for it in plan.honest()], list(range(1, 13)))
        self.assertEqual({(len(it.refs), len(it.friends)) for it in plan.honest()}, {(10, 2)})
        self.assertTrue(all(friend <= 12 for it in plan.honest() for friend in it.friends))
        bad = [sum(one != other for one, other in zip(it.copies[1], GOOD)) for it in plan.honest()]
        self.assertEqual((set(bad), 3 <= sum(bad) <= 9), ({0, 1}, True))
        texts = {course.scene(course.settings(), seed).text() for seed in (1, 1, 2)}
        self.assertEqual(len(texts), 2)

    def test_settings(self) -> None:
        for changed in ({"corrupt": 16}, {"peers": 33}, {"damage": 101}, {"liars": 1}):
            self.assertRaises(ValueError, course.settings, **changed)


class Strategies(unittest.TestCase):
    def test_votes(self) -> None:
        # of 7 votes a landslide bears 2 on its losing side
        bad = strategy("stealth").bad
        self.assertEqual(sum(one != other for one, other in zip(bad, GOOD)), 1)
        self.assertEqual([votes("stealth", count) for count in (1, 4, 5)], [[GOOD], [GOOD] * 4, [bad] * 5])
        against = (strategies.BAD, *GOOD[1:])
        self.assertEqual([votes("nuisance", count) for count in (2, 3)], [[GOOD] * 2, [against] * 3])
        self.assertEqual(votes("nuisance", 5), [against] * 3 + [GOOD] * 2)

    def test_memory(self) -> None:
        league, credit = strategy("stealth"), strategy("credit")
        with mock.patch.multiple(strategies, MOST_POLLS=1, MOST_VOTES=3):
            for number in range(9):
                for of in (league, credit):
                    hear(of, message.Poll(number, course.AU))
                    hear(of, message.PollProof(number, NONCE, b"\1"))
        self.assertEqual([it.number for it in league.circles], [2, 3, 4, 5, 6, 7, 8])
        self.assertEqual((len(league.begun), len(credit.voters[1])), (7, 3))
        self.assertEqual(votes("nominations", 5), [GOOD] * 5)

    def test_nominees(self) -> None:
        for name, nominees in {"nominations": OWN, "losses": HONEST}.items():
            said = hear(strategy(name), message.PollProof(1, NONCE, b"\1"), OWN[:1])
            self.assertEqual(said[0], ("say", 8, "nominate", 1, 1, *nominees))

    def test_attrition(self) -> None:
        of, yes, no = strategy("attrition"), message.PollChallenge(1, True), message.PollChallenge(1, False)
        waves = [[words[3] for words in it] for it in (hear(of, yes, (), 1), hear(of, yes, tick=1), hear(of, no, tick=2))]
        waves.append([words[3] for words in hear(of, yes, tick=3)])
        self.assertEqual([(it.count(1), it.count(2)) for it in waves], [(16, 16), (0, 0), (4, 16), (16, 16)])
        self.assertEqual(len(waves[0]), 16 * len(HONEST))
        said = hear(strategy("credit"), message.PollProof(1, NONCE, b"\1"), OWN[:1], 1)
        self.assertEqual(said[2:], [("say", OWN[0], "poll", 1, number, course.AU) for number in range(1, 17)])

    def test_others(self) -> None:
        self.assertEqual(hear(strategy("silent"), message.Poll(1, 1)), [])
        forged = [words for at in range(20) for words in hear(strategy("forger"), message.RepairRequest(1, at % 8))]
        self.assertEqual((len(forged), {words[0] for words in forged}), (200, {"forge"}))
        crashes, losses = strategy("crashes"), strategy("losses")
        steps = [words for _ in range(200) for words in crashes.meanwhile()]
        self.assertEqual(sum(words[0] in ("cut", "crash") for words in steps), 16)
        self.assertEqual(sum(words == ("lose",) for words in losses.meanwhile()), 12)


class Runs(unittest.TestCase):
    def check_seed(self, first: int) -> None:
        """One seed of every third strategy from this one on."""
        for name in list(strategies.STRATEGIES)[first::3]:
            with self.subTest(strategy=name):
                found = outcome.attempt(name, GIVEN, 1)
                self.assertEqual(found.faults, [])
                self.assertEqual(found.measures["agreed"] + found.measures["inquorate"] > 0, True)

    @long
    def test_one_seed_of_a_third(self) -> None:
        self.check_seed(0)

    @long
    def test_one_seed_of_another_third(self) -> None:
        self.check_seed(1)

    @long
    def test_one_seed_of_the_last_third(self) -> None:
        self.check_seed(2)

    @long
    def test_again(self) -> None:
        found = [outcome.attempt("mixed", GIVEN, 2) for _ in range(2)]
        self.assertEqual(*found)

    def test_attrition_rings_nothing(self) -> None:
        found = outcome.attempt("attrition", GIVEN, 1)
        self.assertEqual([found.measures[name] for name in ("agreed", "alarms")], [0, 0])
        self.assertEqual(play.run("replay", data=found.script.encode()).status, 0)


class Checks(unittest.TestCase):
    """A run that is told wrong is seen."""

    def faults(self, of: Iterator[str], *wanted: str) -> None:
        self.assertEqual([fault.split(" ", 1)[0] for fault in of], list(wanted))

    def test_order(self) -> None:
        told = example("repaired").report
        self.faults(outcome.order_faults(told))
        events = told.events
        self.faults(outcome.order_faults(replace(told, events=[*events[:5], *events[6:]])), *["event"] * 13, "1")
        self.faults(outcome.order_faults(replace(told, events=[*events, replace(events[4], number=20)])), "message")
        self.faults(outcome.order_faults(replace(told, senders=[events[18], *told.senders[1:]])), "message", "message")

    def test_sums(self) -> None:
        told = example("inconclusive").report
        self.faults(outcome.sum_faults(told))
        poll = told.polls[0]
        for changed, fault in (
            ({"copies": {(1, 1): 1}}, "copy"),
            ({"polls": [poll._replace(inner=9)]}, "poll"),
            ({"polls": [poll._replace(outcome="agreed")]}, "poll"),
            ({"polls": []}, "0"),
            ({"alarms": []}, "0"),
        ):
            self.faults(outcome.sum_faults(replace(told, **changed)), fault)

    def test_votes(self) -> None:
        # what three corrupt peers vote for, and what three honest ones do, as if the block that goes were the good one
        for name, in_repaired in (("repaired", True), ("ordinary-use", False)):
            journals = example(name).journals
            good = tuple(journals.script.plan.peers[1].copies[1])
            self.faults(outcome.vote_faults(journals, good))
            batches = journals.batches[1]
            place = next(at for at, batch in enumerate(batches) if isinstance(batch[0], journal.PollOpened))
            opened = replace(batches[place][0], limits=journal.Limits(7, 3))
            self.faults(outcome.vote_faults(self.with_batch(journals, place, (opened,)), good), "peer")

    def with_batch(self, journals: journal.Journals, place: int, batch: journal.Batch) -> journal.Journals:
        batches = journals.batches[1]
        return replace(journals, batches=journals.batches | {1: [*batches[:place], batch, *batches[place + 1 :]]})

    def test_evidence(self) -> None:
        texts = {name: (EXAMPLES / f"{name}.journals").read_text() for name in ("repaired", "doctored")}
        self.faults(outcome.evidence_faults(texts["repaired"], 1))
        self.faults(outcome.evidence_faults(texts["repaired"], 2), "`lockss")
        self.faults(outcome.evidence_faults(texts["doctored"], 1), "`lockss")


class Pictures(unittest.TestCase):
    def test_picture(self) -> None:
        points = [picture.Point(0, 0, 10, 20), picture.Point(2, 20, 40, 40)]
        drawn = picture.picture("a < b", "corrupt", {"alarms": points})
        root = xml.etree.ElementTree.fromstring(drawn)
        found = {it.tag.split("}")[1]: it for it in root.iter()}
        # 240 wide from 44, and 150 high from 64
        self.assertEqual(found["polyline"].get("points"), "44.0,176.5 284.0,64.0")
        self.assertEqual(found["polygon"].get("points"), "44.0,139.0 284.0,64.0 284.0,139.0 44.0,214.0")
        self.assertIn("a < b", [it.text for it in root.iter()])


class Commands(unittest.TestCase):
    def test_bad_words(self) -> None:
        for words in (["nope"], ["silent", "--seeds", "2-1"], ["silent", "--sweep", "corrupt=3"], ["silent", "--peers", "99"]):
            ended = tool("attack", *words)
            self.assertEqual((ended.returncode, ended.stdout, ended.stderr.count("attack: ")), (2, "", 1), words)

    @long
    def test_sweep(self) -> None:
        words = ["stealth", "--seeds", "1-2", "--peers", "8", "--rounds", "1", "--sweep", "corrupt=0..4..2", "--into"]
        texts = []
        for jobs in ("1", "2"):
            with tempfile.TemporaryDirectory() as folder:
                ended = tool("attack", *words, folder, "--keep", folder, "--jobs", jobs)
                self.assertEqual((ended.returncode, ended.stderr), (0, ""))
                files = sorted(pathlib.Path(folder).iterdir())
                texts.append([(it.name, it.read_text()) for it in files])
        self.assertEqual(texts[0], texts[1])
        self.assertEqual([name for name, _ in texts[0]][:2], ["attack-stealth-corrupt.csv", "attack-stealth-corrupt.svg"])
        self.assertEqual(len(texts[0]), 2 + 6)
        self.assertEqual([line.split(",")[:2] for line in texts[0][0][1].splitlines()[1:3]], [["0", "1"], ["0", "2"]])
