"""Tests side by side: each in a process of its own, as many at once as cores may run them, and told in their order."""

from __future__ import annotations

import multiprocessing
import os
import signal
import sys
import tempfile
import time
import unittest
from collections.abc import Callable, Iterator, Sequence
from dataclasses import dataclass
from multiprocessing.connection import Connection, wait
from types import FrameType
from typing import NamedTuple, NoReturn, TypeVar

# So many seconds after a test was told that it hangs, its process is killed.
MERCY = 30
FORK = multiprocessing.get_context("fork")
Test = TypeVar("Test", bound=Callable[..., object])
# What came of a test: `ok`, `skipped` or `FAILED`, and why, in lines.
Outcome = NamedTuple("Outcome", [("word", str), ("why", str), ("seconds", float)])


class Hangs(Exception):
    """A test isn't over in its time."""


def long(test: Test) -> Test:
    """Marks a test that takes long, so that it is begun before others."""
    test.__dict__["is_long"] = True
    return test


def tests_of(suite: unittest.TestSuite) -> Iterator[unittest.TestCase]:
    """The tests of a suite, in its order."""
    for it in suite:
        yield from tests_of(it) if isinstance(it, unittest.TestSuite) else [it]


def _hang(_: int, at: FrameType | None) -> NoReturn:
    raise Hangs("it hangs here")


def _judge(test: unittest.TestCase, written: int) -> tuple[str, str]:
    """Runs a test; what came of it, and why. `written` is the file that has what it and its programs wrote."""
    result = unittest.TestResult()
    unittest.TestSuite([test]).run(result)
    faults = [text for _, text in result.failures + result.errors]
    faults += ["it passes, though it was expected to fail\n" for _ in result.unexpectedSuccesses]
    if not faults:
        return ("skipped", result.skipped[0][1]) if result.skipped else ("ok", "")
    sys.stdout.flush()
    told = os.pread(written, 100_000, 0).decode(errors="replace")
    return "FAILED", "\n".join(faults) + (f"\nIt wrote:\n{told}" if told else "")


def _run(test: unittest.TestCase, seconds: int, to: Connection) -> None:
    """Runs a test in this process, and says what came of it."""
    signal.signal(signal.SIGALRM, _hang)
    signal.alarm(seconds)
    sys.stdout, sys.stderr = sys.__stdout__, sys.__stderr__
    with tempfile.TemporaryFile() as written:
        for stream in (1, 2):
            os.dup2(written.fileno(), stream)
        to.send(_judge(test, written.fileno()))


@dataclass
class Running:
    """A test that runs, by its place, and when it is to be over at last."""

    place: int
    process: multiprocessing.process.BaseProcess
    source: Connection
    begun: float
    end: float

    @classmethod
    def start(cls, place: int, test: unittest.TestCase, seconds: int) -> Running:
        """Starts it."""
        source, to = FORK.Pipe(duplex=False)
        process = FORK.Process(target=_run, args=(test, seconds, to))
        process.start()
        # once the process has ended, nobody holds the other end
        to.close()
        begun = time.monotonic()
        return cls(place, process, source, begun, begun + seconds + MERCY)

    def outcome(self) -> Outcome | None:
        """What came of it, if it is over: it said so, or its process ended or is past its end."""
        now, is_over = time.monotonic(), not self.process.is_alive()
        try:
            told = self.source.recv() if self.source.poll() else None
        except EOFError:
            told = None
        if told is None and not is_over and now < self.end:
            return None
        if told is None:
            self.process.kill()
        self.process.join()
        told = told or ("FAILED", f"its process ended with {self.process.exitcode}, and said nothing\n")
        return Outcome(*told, now - self.begun)


def outcomes(tests: Sequence[unittest.TestCase], most: int, seconds: int) -> Iterator[Outcome]:
    """What came of each test, in their order, at most so many of which run at once, each at most so many seconds."""
    is_short = [not hasattr(getattr(it, it._testMethodName, None), "is_long") for it in tests]
    left, running, found = sorted(range(len(tests)), key=is_short.__getitem__), list[Running](), dict[int, Outcome]()
    try:
        for place in range(len(tests)):
            while place not in found:
                while left and len(running) < most:
                    running.append(Running.start(left[0], tests[left.pop(0)], seconds))
                wait([it for one in running for it in (one.source, one.process.sentinel)], timeout=1)
                found |= {it.place: outcome for it in running if (outcome := it.outcome())}
                running = [it for it in running if it.place not in found]
            yield found[place]
    finally:
        for one in running:
            one.process.kill()


def run(suite: unittest.TestSuite, most: int, seconds: int) -> int:
    """Runs tests, as `outcomes` does, and tells of each and then of all; 1 where one failed, else 0."""
    tests, found = list(tests_of(suite)), list[Outcome]()
    for test, it in zip(tests, outcomes(tests, most, seconds)):
        found.append(it)
        print(f"{it.word:7} {it.seconds:6.1f} s  {test.id()}", flush=True)
    for test, it in zip(tests, found):
        if it.word == "FAILED":
            print(f"\n{test.id()} failed:\n{it.why}", end="")
    reasons = [it.why for it in found if it.word == "skipped"]
    if reasons:
        print(f"{len(reasons)} skipped: {', '.join(dict.fromkeys(reasons))}")
    failed = sum(it.word == "FAILED" for it in found)
    print(f"{len(found) - failed - len(reasons)} passed, {failed} failed")
    return int(failed > 0)
