"""bin/performance-table, over a log of rows that were made up."""

import pathlib
import subprocess
import tempfile
import unittest

from lks.play import TOP

SMALL = "mend 16,mend 32,mend 64,small 15,small 30,small 60,small 115"
REPLAYS = f"{SMALL},hash 2,hash 4,hash 8,wide 1,wide 2,pair 16383,pair 16384,together 8"
RACES = [f"race {threads} race {turns}" for threads in (1, 2, 4) for turns in (0, 1536)]
EVIDENCE = "repairs 100,repairs 200,repairs 400,widest 64,most-repairs,most-polls,most-hashing"


class Tables(unittest.TestCase):
    def tell(self, log: str) -> subprocess.CompletedProcess[str]:
        with tempfile.TemporaryDirectory() as folder:
            path = pathlib.Path(folder) / "log"
            path.write_text(log)
            return subprocess.run([TOP / "bin/performance-table", path], capture_output=True, text=True, check=False)

    def test_a_log_becomes_tables(self) -> None:
        both = [f"replay {run:14}    1234.5 ms   end 1791" for run in [*REPLAYS.split(","), "settled 1536"]]
        both += [f"{run}    7.0 ms   end 9" for run in RACES]
        more = [f"evidence {run:14} 2.5 ms   evidence yes 3" for run in EVIDENCE.split(",")]
        parts = ["performance: kit: `k`", "performance: by: cores", *both, *more, "performance: by: core", *both]
        log = "\n".join([*parts, "performance: by: node", "in Python   on disk          9.7 ms", ""])
        told = self.tell(log)
        self.assertEqual((told.returncode, told.stderr), (0, ""))
        self.assertEqual(told.stdout.count("\n| "), 1 + 2 * 5 + 15 + 7 + 7 + 1)
        for row in ("kit | `k`", "`hash 4` | 4 polls of 2 MiB | 1,791 | 1,234.5 | 1,234.5", "in Python on disk | 9.7"):
            self.assertIn(f"\n| {row} |\n", told.stdout)
        told = self.tell(log.replace("widest", "narrow"))
        self.assertEqual((told.returncode, told.stdout, "evidence widest 64" in told.stderr), (2, "", True))
