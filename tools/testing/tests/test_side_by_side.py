"""Tests that fail, die or hang are told, in their order, and end."""

from __future__ import annotations

import contextlib
import io
import os
import signal
import subprocess
import time
import unittest

from testing import side_by_side


WHYS = {
    "dies": "its process ended with -9, and said nothing\n",
    "exits": "its process ended with 7, and said nothing\n",
    "fails": "AssertionError: 1 != 2\n\nIt wrote:\nsaid by a program\nsaid by the test\n",
    "hangs": "it hangs here\n\nIt wrote:\ncleaned up\n",
    "subtests": "AssertionError: 2 != 1\n",
    "unexpected": "it passes, though it was expected to fail\n",
}


def cases() -> unittest.TestSuite:
    """One test of each kind. They stand in a function, so that no loader finds them."""

    class Cases(unittest.TestCase):
        def test_dies(self) -> None:
            os.kill(os.getpid(), signal.SIGKILL)

        def test_exits(self) -> None:
            # what it started goes on, and has all that it had open
            subprocess.Popen(["sleep", "20"], close_fds=False)
            os._exit(7)

        def test_fails(self) -> None:
            subprocess.run(["echo", "said by a program"], check=True)
            print("said by the test")
            self.assertEqual(1, 2)

        def test_hangs(self) -> None:
            self.addCleanup(print, "cleaned up")
            time.sleep(60)

        def test_is_skipped(self) -> None:
            self.skipTest("not here")

        @side_by_side.long
        def test_passes(self) -> None:
            self.assertEqual(1, 1)

        def test_subtests(self) -> None:
            for number in range(3):
                with self.subTest(number=number):
                    self.assertEqual(number, 1)

        @unittest.expectedFailure
        def test_unexpected(self) -> None:
            pass

    return unittest.TestLoader().loadTestsFromTestCase(Cases)


class SideBySide(unittest.TestCase):
    def test_cases(self) -> None:
        begun = time.monotonic()
        with contextlib.redirect_stdout(io.StringIO()) as told:
            self.assertEqual(side_by_side.run(cases(), 3, 2), 1)
        # nobody waited for what a test left behind
        self.assertLess(time.monotonic() - begun, 15)
        lines, *failures = told.getvalue().split("\ntesting.tests.test_side_by_side.")
        words = [(line.split()[0], line.split("test_")[-1]) for line in lines.splitlines()]
        others = {"is_skipped": "skipped", "passes": "ok"}
        self.assertEqual(words, [(others.get(name, "FAILED"), name) for name in sorted([*WHYS, *others])])
        *failures, last = [*failures[:-1], *failures[-1].rpartition("1 skipped: ")[::2]]
        self.assertEqual(last, "not here\n1 passed, 6 failed\n")
        for it, (name, why) in zip(failures, WHYS.items(), strict=True):
            self.assertTrue(it.startswith(f"cases.<locals>.Cases.test_{name} failed:\n") and it.endswith(why), it)

    def test_success(self) -> None:
        suite = unittest.TestSuite(it for it in side_by_side.tests_of(cases()) if "passes" in it.id())
        with contextlib.redirect_stdout(io.StringIO()) as told:
            self.assertEqual(side_by_side.run(suite, 2, 60), 0)
        self.assertEqual(told.getvalue().splitlines()[1:], ["1 passed, 0 failed"])
