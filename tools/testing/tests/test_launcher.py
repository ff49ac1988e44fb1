"""bin/lockss and bin/proved, over a faked program, a faked kit, and no command but those they use; how others start."""

from __future__ import annotations

import fcntl
import os
import pathlib
import pty
import shutil
import subprocess
import sys
import tempfile
import time
import unittest

from lks.play import TOP

COMMANDS = "sh dirname readlink find grep cat cp touch mkdir nice python3 sleep".split()
PROGRAM = '#!/bin/sh\n[ $# -gt 0 ] || exit 2\ncat\necho "words $*"\nexit "${STATUS-0}"\n'
# It proves a library, or proves and builds the program; or it fails at either.
KIT = """#!/bin/sh
[ "$1" != version ] || { echo kit 1; exit; }
[ "$1" != "$BROKEN" ] || { echo the proof fails; exit 1; }
echo logic=proved
[ "$1" = run ] || { mkdir -p out; exit; }
cp ../../made out/lockss && touch out/lockss.stamp && exec out/lockss
"""
# It says beside which built crates and parts of its own a library is proved, and proves it, one after another.
BUILDER = """#!/bin/sh
own=${PWD##*/}
said="$own:"
for it in ../*; do [ ! -d "$it/out/rlib" ] || [ "$it" = "../$own" ] || said="$said ${it#../}"; done
for it in *; do said="$said $it"; done
for it in $(grep -o '^[a-z]*' ../../crates.txt); do [ -d "../$it" ] || said="$said no $it"; done
[ "$own" != "$BROKEN" ] || { echo "$said"; echo no proof; exit 1; }
mkdir -p out/rlib
echo "$said" >>out/said
[ "$1" = lib ] || { echo "checked $own::one, 1 of 2"; echo "fn $own::one: proved"; echo "checked $own::two, 2 of 2"; }
"""
# It says how nice it is, once it has run for a while.
NICE = "#!/bin/sh\nsleep 0.3\nmkdir -p out\nnice >out/nice\n"
FIRST = "lockss: proving and building the program first, 2 crates\n"
NO_PROGRAM = "lockss: the program isn't built, or a source changed since, and "


class Commands(unittest.TestCase):
    def test_starts(self) -> None:
        """Each starts by itself, and not only in a fork of the tests."""
        paths = [it for it in (TOP / "bin").iterdir() if b"env python3" in it.read_bytes()[:40]]
        files = {"stdin": subprocess.DEVNULL, "stdout": subprocess.PIPE, "stderr": subprocess.PIPE}
        started = [subprocess.Popen([it, "--help"], text=True, **files) for it in paths]
        for path, it in zip(paths, started):
            out, err = it.communicate()
            self.assertEqual((it.returncode, err, out.startswith("usage: ")), (0, "", True), path)


class Launcher(unittest.TestCase):
    def setUp(self) -> None:
        made = tempfile.TemporaryDirectory()
        self.addCleanup(made.cleanup)
        self.top = pathlib.Path(made.name).resolve()
        for name in ("lockss", "proved", "build-below", "dearest"):
            self.put(f"bin/{name}", (TOP / "bin" / name).read_text())
        for name in ("dearest", "lanes", "rooms"):
            self.put(f"tools/building/{name}.py", (TOP / f"tools/building/{name}.py").read_text())
        for name in COMMANDS:
            (self.top / "path").mkdir(exist_ok=True)
            (self.top / "path" / name).symlink_to(shutil.which(name) or name)
        self.put("path/rt", KIT)
        self.put("crates.txt", "low:\nlockss may_wait=8: low\nother: low\n")
        self.put("crates/lockss/src/main.rt", "")
        self.put("crates/low/src/lib.rt", "")
        self.put("made", PROGRAM)
        self.program, self.stamp = self.put("crates/lockss/out/lockss", PROGRAM), self.put("crates/lockss/out/lockss.stamp", "")

    def put(self, name: str, text: str) -> pathlib.Path:
        """A file that anyone may run, older than others."""
        path = self.top / name
        path.parent.mkdir(parents=True, exist_ok=True)
        path.write_text(text)
        path.chmod(0o755)
        os.utime(path, (1, 1 + name.endswith(".stamp")))
        return path

    def run_it(self, *words: object, link: str = "bin/lockss", err: int = -1, **more: str) -> tuple[int, str, str]:
        """How bin/lockss ends, and what it writes."""
        given = {"PATH": str(self.top / "path")} | more
        ended = subprocess.run([self.top / link, *words], input=b"in\n", stdout=-1, stderr=err, env=given, check=False)
        return ended.returncode, ended.stdout.decode(), (ended.stderr or b"").decode()

    def on_terminal(self, *words: object, **more: str) -> tuple[int, str, list[str]]:
        """The same with a terminal as standard error."""
        ours, theirs = pty.openpty()
        try:
            status, out, _ = self.run_it(*words, err=theirs, **more)
            os.write(theirs, b"|")
            seen = b""
            while not seen.endswith(b"|"):
                seen += os.read(ours, 1000)
            return status, out, seen.decode().removesuffix("|").splitlines()
        finally:
            os.close(ours)
            os.close(theirs)

    def test_words(self) -> None:
        self.assertEqual(self.run_it("replay", "a b", "", STATUS="9"), (9, "in\nwords replay a b \n", ""))
        self.assertEqual(self.run_it(), (2, "", ""))

    def test_link(self) -> None:
        (self.top / "far").mkdir()
        (self.top / "far/one").symlink_to("../bin/lockss")
        (self.top / "two").symlink_to(self.top / "far/one")
        (self.top / "folder").symlink_to("bin")
        for link in ("far/one", "two", "folder/lockss"):
            self.assertEqual(self.run_it("replay", link=link), (0, "in\nwords replay\n", ""))

    def test_terminal(self) -> None:
        for words, told in (("replay", "SCRIPT"), ("evidence", "--journals FILE")):
            ended = self.on_terminal(words, STATUS="3")
            self.assertEqual(ended, (3, f"in\nwords {words}\n", [f"lockss: bin/why {told} says why"]))
        self.assertEqual(self.on_terminal("replay", STATUS="1"), (1, "in\nwords replay\n", []))

    def test_changes(self) -> None:
        now = time.time()
        for name in (".main.rt.swp", "main.rt~", "main.swp", "#main.rt#", ".#main.rt", ".cache/main.rt", "../out/x.rt"):
            os.utime(self.put(f"crates/lockss/src/{name}", ""), (now, now))
        self.assertEqual(self.run_it("replay", LOCKSS_BUILD="no"), (0, "in\nwords replay\n", ""))
        for name in ("crates/other/specs/Lib.antt", "crates.txt"):
            before = (self.top / name).read_text() if name == "crates.txt" else ""
            os.utime(self.put(name, before), (now, now))
            self.assertEqual(self.run_it("replay", LOCKSS_BUILD="no"), (70, "", f"{NO_PROGRAM}LOCKSS_BUILD=no\n"))
            self.put(name, before)
        self.stamp.rename(self.stamp.with_suffix(".by-rattle"))
        self.assertEqual(self.run_it("replay", LOCKSS_BUILD="no")[0], 0)

    def test_builds(self) -> None:
        self.program.unlink()
        for at in ("lib", "check", "run"):
            self.assertEqual(self.run_it("replay", BROKEN=at), (70, "", f"{FIRST}the proof fails\n"), at)
        self.assertEqual(self.run_it("replay"), (0, "in\nwords replay\n", FIRST))
        self.assertEqual(self.run_it("replay"), (0, "in\nwords replay\n", ""))
        self.program.unlink()
        proved = [f"lockss: {crate} is proved, crate {place} of 2" for place, crate in enumerate(("low", "lockss"), 1)]
        self.assertEqual(self.on_terminal("replay"), (0, "in\nwords replay\n", [FIRST.strip(), *proved]))

    def test_below(self) -> None:
        """Each crate is proved beside what was built below it, over what an earlier proof of it left, the longest chain first."""
        self.put("crates.txt", "other:\nlow:\nmiddle may_wait=1: low sha2 # or not\nhigh: low middle other\n")
        for name, lines in (("other", 2), ("low", 3), ("middle", 1), ("high", 9)):
            self.put(f"crates/{name}/src/lib.rt", "\n" * lines)
            self.put(f"crates/{name}/must-fail/a.edit", "")
        self.put("path/rt", BUILDER)
        build = lambda *words, **more: self.run_it(*words, "high", link="bin/build-below", **more)
        self.assertEqual(build("--list"), (0, "low\nmiddle\nother\n", ""))
        self.assertEqual(build("--list", "--itself"), (0, "low\nmiddle\nother\nhigh\n", ""))
        for again in ("", "out "):
            self.assertEqual(sorted(build()[1].splitlines()), ["low is proved", "middle is proved", "other is proved"])
            told = [(self.top / "crates" / name / "out/said").read_text().splitlines()[-1] for name in ("low", "middle", "other")]
            self.assertEqual(told, [f"low: {again}src", f"middle: low {again}src", f"other: {again}src"])
        status, out, _ = build(BROKEN="middle")
        self.assertEqual((status, out.splitlines()[-2:]), (1, ["middle: low out src", "no proof"]))
        self.assertEqual([it.name for it in self.top.iterdir() if it.name.startswith(".")], [])
        self.assertEqual(self.run_it("none", link="bin/build-below"), (1, "", "build-below: crates.txt has no crate none\n"))

    def test_gives_way(self) -> None:
        """What is proved beside the crate on which the longest chain stands gives way to it."""
        self.put("crates.txt", "other:\nlow:\nmiddle: low\nhigh: middle other\n")
        for name, lines in (("other", 1), ("low", 2), ("middle", 2), ("high", 1)):
            self.put(f"crates/{name}/src/lib.rt", "\n" * lines)
        self.put("path/rt", NICE)
        code = "from building import lanes, rooms\nlanes.lanes = lambda: 2\nlanes.Lanes(rooms.below('high')).run()"
        given = {"PATH": str(self.top / "path")}
        subprocess.run([sys.executable, "-c", code], cwd=self.top / "tools", env=given, stdout=-1, check=True)
        told = [int((self.top / "crates" / name / "out/nice").read_text()) for name in ("low", "other", "middle", "high")]
        ours = os.nice(0)
        self.assertEqual(told, [ours, min(19, ours + 10), ours, ours])

    def test_waits(self) -> None:
        """What was built below a crate isn't copied while another proof may put something new in its place."""
        self.put("crates.txt", "low:\nhigh: low\n")
        for name in ("low", "high"):
            self.put(f"crates/{name}/out/rlib/it", "")
        code = "from building.rooms import room\nwith room('high') as it: print((it / '../low/out/rlib/it').exists())"
        low = os.open(self.top / "crates/low", os.O_RDONLY)
        self.addCleanup(os.close, low)
        fcntl.flock(low, fcntl.LOCK_EX)
        with subprocess.Popen([sys.executable, "-c", code], cwd=self.top / "tools", stdout=-1, text=True) as copier:
            with self.assertRaises(subprocess.TimeoutExpired):
                copier.wait(1)
            fcntl.flock(low, fcntl.LOCK_UN)
            self.assertEqual(copier.communicate()[0], "True\n")

    def test_dearest(self) -> None:
        self.put("crates.txt", "low:\nhigh: low\n")
        for name in ("low", "high"):
            self.put(f"crates/{name}/src/lib.rt", "")
        self.put("path/rt", BUILDER)
        rows = "| function | processor seconds |\n|---|---|\n| `high::one` | 0 |\n| `high::two` | 0 |\n"
        ended = self.run_it("high", "--keep", self.top / "all", link="bin/dearest")
        self.assertEqual(ended, (0, rows, "low is proved\nhigh is proved\n"))
        self.assertEqual((self.top / "all").read_text(), "high::one,0.0\nhigh::two,0.0\n")
        ended = self.run_it("high", link="bin/dearest", BROKEN="high")
        self.assertEqual(ended, (1, "", "low is proved\nhigh: low src\nno proof\n"))

    def test_no_kit(self) -> None:
        (self.top / "path/rt").unlink()
        self.assertEqual(self.run_it("replay"), (0, "in\nwords replay\n", ""))
        self.program.unlink()
        self.assertEqual(self.run_it("replay"), (70, "", f"{NO_PROGRAM}`rt` of the kit isn't on the PATH\n"))

    def test_version(self) -> None:
        self.program.unlink()
        self.assertEqual(self.run_it("--version"), (0, "lockss no commit, kit 1\n", ""))
        (self.top / "path/rt").unlink()
        (self.top / "path/git").symlink_to(shutil.which("git") or "git")
        # these files are no repository, or are put into one
        self.assertEqual(self.run_it("--version"), (0, "lockss no commit, no kit on the PATH\n", ""))
        git = ["git", "-c", "user.name=x", "-c", "user.email=x@x", "-C", self.top]
        for words in (["init", "-q"], ["add", "crates.txt"], ["commit", "-q", "-m", "x"], ["tag", "v1"]):
            subprocess.run([*git, *words], check=True)
        commit = subprocess.run([*git, "rev-parse", "--short", "HEAD"], stdout=-1, check=True).stdout.decode().strip()
        self.assertEqual(self.run_it("--version"), (0, f"lockss {commit}, no kit on the PATH\n", ""))
        self.put("crates.txt", "")
        self.assertEqual(self.run_it("--version"), (0, f"lockss {commit}-dirty, no kit on the PATH\n", ""))
        (self.top / "below").mkdir()
        (self.top / "bin").rename(self.top / "below/bin")
        self.assertEqual(self.run_it("--version", link="below/bin/lockss"), (0, "lockss no commit, no kit on the PATH\n", ""))

    def test_help(self) -> None:
        self.program.unlink()
        status, out, err = self.run_it("--help")
        self.assertEqual((status, err), (0, ""))
        self.assertLess(len(out.splitlines()), 20)
        for name in ("replay", "race THREADS", "drill SEED", "journals", "evidence", "70", "LOCKSS_BUILD=no", "docs/FORMATS.md"):
            self.assertIn(name, out)
        self.assertIn(f"Read on in {self.top}: ", out)

    def test_syntax(self) -> None:
        for name in ("lockss", "lks_node", "proved"):
            subprocess.run(["sh", "-n", TOP / "bin" / name], check=True)
            if shutil.which("shellcheck"):
                subprocess.run(["shellcheck", "-s", "sh", TOP / "bin" / name], check=True)
