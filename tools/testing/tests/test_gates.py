"""bin/gate-compare, over a repository of two gates that were made up."""

import os
import pathlib
import subprocess
import tempfile
import unittest

from lks.play import TOP

PAGE = """\
| commit | `{commit}` |
| processor minutes | {minutes} |

| crate | lines of code | lines of definitions | lines of proof | seconds of proofs | edits | their seconds |
|---|---|---|---|---|---|---|
| `lks_same` | 1 | 0 | 0 | {proofs} | 4 | {edits} |
| `lks_new` | 1 | 0 | 0 | 1,000 | 4 | 1 |
| `lks_edits` | 1 | 0 | 0 | 1,000 | {count} | 1 |
| all | 3 | 0 | 0 | 2,000 | 12 | 2 |
"""


class Gates(unittest.TestCase):
    def setUp(self) -> None:
        self.folder = pathlib.Path(self.enterContext(tempfile.TemporaryDirectory()))
        self.env = {**os.environ, "GIT_DIR": str(self.folder / ".git")}
        self.git("init", "-q", str(self.folder))

    def git(self, *words: str) -> str:
        by = ("-c", "user.name=a", "-c", "user.email=a@b.example")
        told = subprocess.run(["git", *by, *words], cwd=self.folder, env=self.env, capture_output=True, text=True, check=True)
        return told.stdout.strip()

    def commit(self, files: dict[str, str]) -> str:
        """Commits these files, and gives the commit's name."""
        for name, text in files.items():
            (self.folder / name).parent.mkdir(parents=True, exist_ok=True)
            (self.folder / name).write_text(text)
        self.git("add", ".")
        self.git("commit", "-qm", "it")
        return self.git("rev-parse", "--short", "HEAD")

    def crates(self, **code: str) -> dict[str, str]:
        return {f"crates/lks_{name}/src/lib.rt": text for name, text in code.items()}

    def tell(self, *words: str) -> tuple[int, str, str]:
        told = subprocess.run([TOP / "bin/gate-compare", *words], env=self.env, capture_output=True, text=True, check=False)
        return told.returncode, told.stdout, told.stderr

    def test_crates_with_the_same_code_and_as_many_edits_count(self) -> None:
        long = "let a = 1;\n" * 20
        tree = self.commit(self.crates(same=long, new=long, edits=long))
        old = self.commit({"docs/GATE.md": PAGE.format(commit=tree, minutes=150, proofs=10, edits="1,010", count=4)})
        tree = self.commit(self.crates(same=f"// said\n{long}b", new=f"{long}let b = 1;", edits=long))
        page = PAGE.format(commit=tree, minutes=438, proofs="1,020", edits="1,020", count=5)
        self.commit({"docs/GATE.md": page})
        status, out, fault = self.tell(old)
        self.assertEqual((status, fault), (0, ""))
        self.assertIn("the same in both: 1 crates, lks_same\n", out)
        self.assertIn("they took 1,020 and 2,040 processor seconds, 2.00 times as many\n", out)
        self.assertTrue(out.endswith(": 219 processor minutes\n"), out)

    def test_what_cannot_be_compared_is_one_line(self) -> None:
        tree = self.commit(self.crates(same="a", new="b", edits="c"))
        bare = self.commit({"docs/GATE.md": "no table\n"})
        old = self.commit({"docs/GATE.md": PAGE.format(commit=tree, minutes=1, proofs=1, edits=1, count=4)})
        tree = self.commit(self.crates(same="d", new="e", edits="f"))
        new = self.commit({"docs/GATE.md": PAGE.format(commit=tree, minutes=1, proofs=1, edits=1, count=4)})
        for words, what in ((("nothing",), "nothing"), ((bare,), "no table"), ((old, new), "no crate that is the same")):
            status, out, fault = self.tell(*words)
            self.assertEqual((status, out, fault.count("\n"), what in fault), (2, "", 1, True), fault)
