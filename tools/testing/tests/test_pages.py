"""The examples of crate pages are lines of functions in a crate of trials, which the gate compiles and runs."""

import re
import textwrap
import unittest

from lks.play import TOP

SHOWN = {"lks_peer": "invited", "lks_host": "invited_and_kept", "lks_evidence": "a_set_that_is_examined"}


class Pages(unittest.TestCase):
    def test_each_example_is_lines_of_a_function_that_runs(self) -> None:
        text = (TOP / "crates/lks_run_trials/src/examples.rt").read_text()
        bodies = dict(re.findall(r"^fn (\w+).*?(?:^| )\{\n(.*?)^\}", text, re.DOTALL | re.MULTILINE))
        for crate, name in SHOWN.items():
            lines = (TOP / "crates" / crate / "src/lib.rt").read_text().splitlines()
            page = "\n".join(line[4:] for line in lines if line.startswith("//!"))
            self.assertIn(f"`{name}`", page)
            [example] = re.findall(r"```rust\n(.*?)```", page, re.DOTALL)
            self.assertEqual(example, textwrap.dedent(bodies[name]))
            self.assertRegex(text, rf"#\[test\]\nfn {name}\(|[ (]{name}\(alloc, &rt")
