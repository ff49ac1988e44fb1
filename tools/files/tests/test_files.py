"""Files become AUs and come back, and nothing else comes of a manifest."""

from __future__ import annotations

import os
import pathlib
import resource
import tempfile
import unittest
from random import Random

from files import archive
from files.archive import Entry, File
from lks import hashes, journal, play, script
from testing.commands import tool
from testing.side_by_side import long

BLOCK = 16_384
NAMES = (b"plain %d", b"two  words %d", b"line\nfeed %d", b"\xff\xfe %d", b"a folder\n\xc3/of its own/%d", b"\xe2\x82\xac %d")


def library() -> dict[bytes, bytes]:
    """Fifty files by their paths: empty ones, ones of one whole block, and longer and shorter ones."""
    random = Random(1)
    sizes = [0, BLOCK, BLOCK + 1, 1, 3 * BLOCK, random.randrange(40_000)]
    return {NAMES[place % 6] % place: random.randbytes(sizes[place // 6 % 6]) for place in range(50)}


def written(folder: bytes) -> dict[bytes, bytes]:
    """All files below a folder."""
    found = {}
    for top, _, names in os.walk(folder):
        for name in names:
            with open(os.path.join(top, name), "rb") as file:
                found[os.path.relpath(file.name, folder)] = file.read()
    return found


def entry(path: bytes, content: bytes, first: int, **more: object) -> Entry:
    """What a manifest says of a file of one block or none."""
    return Entry(path, len(content), hashes.digest("sha256", content), first, int(content != b""))._replace(**more)


def copy(entries: list[Entry], *blocks: bytes) -> list[bytes]:
    """A manifest of one block, whatever it says, and blocks behind it."""
    body = archive.BODY.write(archive.ENTRIES.write(entries))
    return [archive.TITLE + hashes.digest("sha256", body) + body, *blocks]


class Case(unittest.TestCase):
    def setUp(self) -> None:
        made = tempfile.TemporaryDirectory()
        self.addCleanup(made.cleanup)
        self.top = os.fsencode(made.name)
        self.to = os.path.join(self.top, b"to")

    def put(self, path: bytes, content: bytes) -> bytes:
        """A file below the folder of this test, by its whole path."""
        whole = os.path.join(self.top, path)
        os.makedirs(os.path.dirname(whole), exist_ok=True)
        pathlib.Path(os.fsdecode(whole)).write_bytes(content)
        return whole

    def au(self, *words: str | bytes) -> tuple[int, str]:
        """The status of `bin/au`, and what it writes, with its faults."""
        ended = tool("au", *words)
        return ended.returncode, ended.stderr + ended.stdout


class RoundTrip(Case):
    @long
    def test_repaired_library(self) -> None:
        wanted = library()
        for path, content in wanted.items():
            self.put(b"from/" + path, content)
        status, lines = self.au("import", os.path.join(self.top, b"from"), "--peers", "1,2,3,4")
        self.assertEqual(status, 0)
        aus, copies = lines.splitlines()[:1], lines.splitlines()[1:]
        blocks = archive.blocks_of([File(path, wanted[path]) for path in sorted(wanted)])
        entries = {it.path: it for it in archive.entries_of(blocks)}
        # a block of the manifest, the last of the longest files, and a file of one whole block
        self.assertEqual(copies[0], f"copy 1 1 {script.spelled(blocks)}")
        one, two = (entries[NAMES[place] % (6 * row + place)] for row, place in ((4, 3), (1, 2)))
        damage = [f"damage 1 1 {block} 00" for block in (0, one.first + 2, two.first)]
        self.play([*aus, *(f"peer {peer} honest 0{peer} 01" for peer in (1, 2, 3, 4)), "refs 1 2 3 4", *copies, *damage])
        names = [archive.shown(it.path) for it in (one, two)]
        for version, bad in ((0, ["the manifest of AU 1 at version 0"]), (1, sorted(names))):
            to = self.to + b"%d" % version
            status, told = self.au("export", self.top + b"/journals", "1", to, "--version", str(version))
            found = [line.split(" differs")[0] for line in told.splitlines() if " differs: " in line]
            self.assertEqual((status, sorted(found)), (1, bad))
        self.assertEqual(written(to), {path: it for path, it in wanted.items() if path not in (one.path, two.path)})
        for more in ([], ["--peer", "4", "--version", "0"]):
            to += b"+"
            self.assertEqual(self.au("export", self.top + b"/journals", "1", to, *more)[0], 0)
            self.assertEqual(written(to), wanted)

    def play(self, lines: list[str]) -> None:
        """Repairs what is damaged, keeps the journals, and takes the files from that of peer 1 as a node has it."""
        rules = " ".join(map(str, script.rules_words(inner=3, quorum=3, minority=1, repairs=9, unknown=100, debt=100)))
        told = play.told("journals", "".join(f"{line}\n" for line in ["lockss 1", rules, *lines, "open 1 1", "finish"]))
        self.put(b"journals", told.encode())
        batches = journal.read(told.encode()).batches[1]
        self.put(b"disk", journal.write_frames(batches) + b"torn")
        self.assertEqual(self.au("export", self.top + b"/disk", "1", self.top + b"/of disk")[0], 0)
        self.assertEqual(written(self.top + b"/of disk"), library())

    def test_many_aus(self) -> None:
        wanted = {b"%03d" % place: bytes([place % 256]) * (BLOCK + place) for place in range(520)}
        wanted[b"zero"] = b""
        units = archive.split([File(*it) for it in sorted(wanted.items())], 2**27)
        self.assertEqual(len(units), 3)
        for unit in units:
            blocks = archive.blocks_of(unit)
            self.assertLessEqual(len(blocks), 512)
            self.assertEqual(archive.write(blocks, self.to), [(file.path, "") for file in unit])
            self.assertEqual(written(self.to), dict(unit))
            self.to += b"+"


class Limits(Case):
    def test_what_fits(self) -> None:
        random = Random(1).randbytes(BLOCK)
        fits = [File(b"%03d" % place, random) for place in range(500)]
        for more, most in (
            # the script, the blocks of an AU, the AUs, all copies
            ([*fits, File(b"w", random * 10), File(b"x", random)], 2**27),
            ([File(b"x", b"\0" * (BLOCK * 512))], 2**27),
            ([File(b"%04d" % place, b"1") for place in range(4 * 508)] + [File(b"x", bytes(9 * BLOCK))], 2**27),
            ([File(b"w", random), File(b"x", random)], 3 * BLOCK),
        ):
            with self.assertRaisesRegex(ValueError, "^'x' doesn't fit: a plan has 4 AUs of 512 blocks"):
                archive.split(more, most)
            archive.split(more[:-1], most)

    def test_bad_words(self) -> None:
        os.makedirs(self.to)
        os.symlink(b"/etc/passwd", self.to + b"/link")
        self.assertEqual(self.au("import", self.to), (2, "au: 'link' is neither a file nor a folder\n"))
        self.assertEqual(self.au("import", self.top + b"/none")[0], 2)
        held = self.put(b"held", journal.write_frames([(journal.Deposit(1, (b"A",)),)]))
        for words, status in (([held, "2", b"x"], 3), ([held, "1", b"x", "--version", "1"], 3), ([b"none", "1", b"x"], 3)):
            self.assertEqual(self.au("export", *words)[0], status)
        self.assertEqual(self.au("export", held, "1", self.to)[0], 1)
        self.put(b"held", journal.write_frames([(journal.Deposit(1, tuple(archive.blocks_of([]))),)]))
        self.assertEqual(self.au("export", held, "1", self.to)[0], 2)
        told = self.au("export", held, "1", self.top + b"/new")
        self.assertEqual(told, (0, "AU 1 at version 0: 0 files are good, 0 differ\n"))
        self.put(b"held", b"\xa5\0")
        self.assertEqual(self.au("export", held, "1", b"x")[0], 3)


class Hostile(Case):
    """A manifest is of whoever won the poll."""

    def check(self, entries: list[Entry], good: list[bytes], *blocks: bytes) -> None:
        told = archive.write(copy(entries, *blocks), self.to)
        self.assertEqual([path for path, fault in told if not fault], good)
        self.assertEqual(sorted(written(self.to)), sorted(good))
        self.assertEqual(os.listdir(self.top), [b"to"])

    def test_paths(self) -> None:
        outside = [b"/abs", b"../up", b"a/../../up", b"..", b".", b"", b"a//b", b"a/", b"nul\0", b"./c", b"a/.", b"/", b"a/.."]
        for path in outside:
            self.assertEqual(archive.faults_of([b""], [entry(path, b"", 1)]), ["its path leads to no place in the folder"], path)
            self.check([entry(path, b"", 1), entry(b"ok", b"", 1)], [b"ok"])
            os.unlink(os.path.join(self.to, b"ok"))
        names = [b"...", b"a\\..\\b", b"-", b"~", b"ok"]
        self.check([entry(path, b"", 1) for path in names], names)

    def test_names_that_meet(self) -> None:
        names = [b"a", b"a/b", b"c/d", b"c", b"a", b"c/d/e", b"c/e"]
        self.check([entry(path, b"", 1) for path in names], [b"a", b"c/d", b"c/e"])

    def test_long_names(self) -> None:
        self.check([entry(path, b"", 1) for path in (b"n" * 256, b"n" * 255, b"d/" * 2_047 + b"xy")], [b"n" * 255])

    def test_blocks(self) -> None:
        one, two = entry(b"one", b"A", 1), entry(b"two", b"A", 5)
        bad = [one._replace(path=b"again"), entry(b"manifest", b"A", 0), entry(b"hash", b"A", 2, hash=bytes(32))]
        bad += [entry(b"same", b"A", 2), entry(b"length", b"A", 3, length=2), entry(b"other", b"B", 4)]
        self.check([one, *bad, two, entry(b"past", b"A", 5, count=9)], [b"one", b"two"], *[b"A"] * 5)

    def test_no_room(self) -> None:
        limits = resource.getrlimit(resource.RLIMIT_FSIZE)
        self.addCleanup(resource.setrlimit, resource.RLIMIT_FSIZE, limits)
        resource.setrlimit(resource.RLIMIT_FSIZE, (4, limits[1]))
        self.check([entry(b"a", b"12345", 1), entry(b"b", b"1234", 2)], [b"b"], b"12345", b"1234")

    def test_manifests(self) -> None:
        whole = copy([entry(b"x", b"A", 1)], b"A")
        for at in range(len(whole[0])):
            with self.assertRaises(archive.NoManifest):
                archive.entries_of([whole[0][:at] + bytes([whole[0][at] ^ 1]) + whole[0][at + 1 :], b"A"])
            with self.assertRaises(archive.NoManifest):
                archive.entries_of([whole[0][:at], b"A"])

    def test_links(self) -> None:
        os.makedirs(self.to)
        os.makedirs(self.top + b"/out")
        os.symlink(self.top + b"/out", self.to + b"/link")
        os.symlink(self.top + b"/out/new", self.to + b"/file")
        with self.assertRaisesRegex(ValueError, "isn't empty"):
            archive.write(copy([entry(b"link/x", b"", 1)]), self.to)
        top = os.open(self.to, os.O_RDONLY)
        self.addCleanup(os.close, top)
        for path in (b"link/x", b"file", b"link"):
            with self.assertRaises(OSError):
                archive._put(top, File(path, b"A"))
        self.assertEqual(written(self.top + b"/out"), {})
