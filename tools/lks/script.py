"""Scripts, judged and built line by line (docs/FORMATS.md, "Scripts"): a bad line is told with the rule that it breaks."""

from __future__ import annotations

from collections.abc import Callable, Sequence
from typing import Any, NamedTuple

from lks.hashes import KINDS, Draws
from lks.plan import BLOCK_NUMBER, ID, LAST_ID, MOST_EVENTS, POLL, Broken, Peer, Plan, Reader
from lks.plan import au_id, block, blocks, declared, hex_bytes, must, number, one_of

MOST_BYTES, MOST_COPY_BYTES = 16_777_216, 134_217_728

# The least and the most of each of the rules. A quorum is bounded by `inner`, and a minority by the quorum.
BOUNDS = {"inner": (1, 16), "quorum": (1, LAST_ID), "minority": (0, LAST_ID), "outer": (0, 16), "repairs": (0, 512)}
BOUNDS |= dict.fromkeys(("pace", "refractory", "overdue"), (0, 1_000_000))
BOUNDS |= {"unknown": (0, 100), "debt": (0, 100), "churn": (0, 16)}

PEER, HONEST, CORRUPT = declared(), declared("honest"), declared("corrupt")
OWN_STEPS: dict[str, tuple[Reader, ...]] = {"open": (HONEST, au_id), "check": (HONEST,)}
OWN_STEPS |= dict.fromkeys(("outer", "shut", "tally", "nudge", "give-up"), (HONEST, POLL))
OWN_STEPS |= dict.fromkeys(("work", "expire"), (HONEST, PEER, POLL))
OWN_STEPS |= {"tune": (HONEST, number("quorum", 1), number("minority"), number("repairs", 0, 512))}
STEPS = OWN_STEPS | {"tick": (number("ticks", 1, 1_000_000),), "next": (number("count", 1, MOST_EVENTS),)}
STEPS |= {"again": (number("message"),), "forge": (CORRUPT, PEER, hex_bytes("message", 40_000)), "crash": (HONEST,)}
STEPS |= dict.fromkeys(("lose", "settle", "finish"), ())
# Behind `say F WHAT T N`.
SAYINGS: dict[str, tuple[Reader, ...]] = {"vote": (au_id, one_of("of"), blocks), "repair": (BLOCK_NUMBER, block)}
SAYINGS |= {"challenge": (one_of("yes", "no"),), "poll": (au_id,), "request": (BLOCK_NUMBER,)}
SAYINGS |= dict.fromkeys(("proof", "receipt"), ())
CUT = (number("calls", 0, 8), number("choice", 0, 255))
# The lines of a plan with a word for each reader.
PLAN_LINES: dict[str, tuple[Reader, ...]] = {"hash": (PEER, one_of(*KINDS)), "au": (ID, number("count", 1, 512))}
PLAN_LINES |= {"turns": (number("turns", 0, MOST_EVENTS),), "damage": (HONEST, au_id, BLOCK_NUMBER, block)}
PLAN_LINES |= {"peer": (ID, one_of("honest", "corrupt"), hex_bytes("seed", 32, empty=False), hex_bytes("proof", 64))}
STEP_LINES = {*STEPS, "say", "cut"}
LIST_LINES = {"refs", "friends", "hash", "copy", "damage"}
# How far a script is: the lines that may come next, and what is said where another one comes; then the part behind a line.
PARTS = {
    "blank": ({"lockss"}, "the first line is `lockss 1`"),
    "titled": ({"rules"}, "the rules come behind the title"),
    "ruled": ({"turns", "au"}, "`turns` or an AU comes here"),
    "turned": ({"au"}, "an AU comes here"),
    "aus": ({"au", "peer"}, "an AU or a peer comes here"),
    "peers": ({"peer"} | LIST_LINES | STEP_LINES, "it comes before the peers"),
    "lists": (LIST_LINES | STEP_LINES, "it comes before lists and copies"),
    "steps": (STEP_LINES, "it comes before the steps"),
}
BEHIND = {"lockss": "titled", "rules": "ruled", "turns": "turned", "au": "aus", "peer": "peers"}
BEHIND |= dict.fromkeys(LIST_LINES, "lists") | dict.fromkeys(STEP_LINES, "steps")

# A step line: the word that names it, and the values of those behind it.
Step = NamedTuple("Step", [("name", str), ("values", tuple[Any, ...])])
# What a builder takes as a word: a number, text as it is, bytes in hex, or blocks parted by commas.
Word = int | str | bytes | Sequence[bytes]


class BadLine(ValueError):
    """A line that a script can't have there: its number from 1, its text, and the rule that it breaks."""

    def __init__(self, number: int, text: str, reason: str) -> None:
        shown = "".join(c if " " <= c <= "~" else f"\\x{ord(c):02x}" for c in text[:80]) + ".." * (len(text) > 80)
        super().__init__(f"line {number}: `{shown}`: {reason}")
        self.number, self.reason = number, reason


def read_words(plan: Plan, name: str, readers: Sequence[Reader], words: Sequence[str]) -> tuple[Any, ...]:
    """The values of words, of which there must be one for each reader."""
    must(len(words) == len(readers), f"{len(readers)} words stand behind `{name}`, not {len(words)}")
    return tuple(read(plan, word) for read, word in zip(readers, words))


def check_quorum(quorum: int, minority: int, inner: int) -> None:
    """The rule of quorums."""
    must(quorum <= inner, "quorum above inner")
    must(2 * minority < quorum, "twice the minority isn't below the quorum")


def read_saying(plan: Plan, words: Sequence[str]) -> tuple[Any, ...]:
    """What stands behind `say`: who says what to whom for which poll, and more."""
    must(len(words) >= 4, "`say` wants a sender, what it says, a receiver and a poll")
    sender, receiver = CORRUPT(plan, words[0]), PEER(plan, words[2])
    head = (sender, words[1], receiver, POLL(plan, words[3]))
    if words[1] == "nominate":
        must(len(words) <= 12, "more than 8 nominees")
        return (*head, tuple(ID(plan, word) for word in words[4:]))
    must(words[1] in SAYINGS, "no message has this name")
    return (*head, *read_words(plan, words[1], SAYINGS[words[1]], words[4:]))


def read_step(plan: Plan, name: str, words: Sequence[str]) -> Step:
    """The step that a line says."""
    if name == "say":
        return Step(name, read_saying(plan, words))
    if name == "cut":
        must(len(words) >= 3, "`cut` wants calls, a choice and a step")
        must(words[2] in OWN_STEPS or words[2] in ("next", "again"), "this step can't be cut")
        must(words[2:] == ["next"] or words[2] != "next", "`next` has no count in a `cut`")
        step = read_step(plan, words[2], words[3:])
        return Step(name, (*read_words(plan, name, CUT, words[:2]), step))
    step = Step(name, read_words(plan, name, STEPS[name], words if words or name != "next" else ["1"]))
    if name == "tune":
        check_quorum(step.values[1], step.values[2], plan.rules["inner"])
    return step


def is_idle(line: str) -> bool:
    """An empty line, or a comment in ASCII."""
    return line == "" or line[0] == "#" and line.isascii()


def spelled(word: Word) -> str:
    """A word of a script."""
    if isinstance(word, (int, str)):
        return str(word)
    if isinstance(word, (bytes, bytearray)):
        return word.hex() or "-"
    return ",".join(f"{it[:1].hex()}*{len(it)}" if len(it) > 1 and it == it[:1] * len(it) else spelled(it) for it in word)


class Script:
    """A script as far as it is read or built: its lines, and the plan and the steps that they say."""

    def __init__(self) -> None:
        self.lines: list[str] = []
        self.plan = Plan()
        self.steps: list[Step] = []
        self.part = "blank"
        self.hashed: set[int] = set()
        self.copied = 0

    def add(self, *words: Word) -> None:
        """Adds a line of these words."""
        self.add_line(" ".join(map(spelled, words)))

    def add_line(self, line: str) -> None:
        """Adds a line without its line feed, or raises `BadLine` and stays as it was."""
        try:
            self._judge(line)
        except Broken as rule:
            raise BadLine(len(self.lines) + 1, line, str(rule)) from None
        self.lines.append(line)

    def end(self) -> None:
        """The script may end here, or `BadLine` is raised."""
        if not self.plan.peers:
            raise BadLine(len(self.lines) + 1, "", "the script ends before its first peer")

    def text(self) -> str:
        """All its lines."""
        return "".join(line + "\n" for line in self.lines)

    def _judge(self, line: str) -> None:
        must("\n" not in line, "a line feed within the line")
        if is_idle(line):
            return
        must(line.isascii(), "a byte that isn't ASCII")
        must(line[-1] != "\r", "the line ends with a carriage return")
        words = line.split(" ")
        must("" not in words, "words are parted by exactly one space")
        name, more = words[0], words[1:]
        must(name in BEHIND, "no line begins with this word")
        names, otherwise = PARTS[self.part]
        must(name in names, f"`{name}` can't stand here: {otherwise}")
        if name == "lockss":
            must(more == ["1"], "the first line is `lockss 1`")
        elif name in STEP_LINES:
            self._add_step(name, more)
        elif name in ("refs", "friends"):
            self._add_list(name, more)
        elif name in ("rules", "copy"):
            getattr(self, f"_add_{name}")(more)
        else:
            getattr(self, f"_add_{name}")(*read_words(self.plan, name, PLAN_LINES[name], more))
        self.part = BEHIND[name]

    def _add_rules(self, words: list[str]) -> None:
        must(words[::2] == list(BOUNDS) and len(words) == 2 * len(BOUNDS), f"the rules are {', '.join(BOUNDS)}")
        readers = [number(name, *bounds) for name, bounds in BOUNDS.items()]
        rules = dict(zip(BOUNDS, read_words(self.plan, "rules", readers, words[1::2])))
        check_quorum(rules["quorum"], rules["minority"], rules["inner"])
        self.plan.rules = rules

    def _add_turns(self, turns: int) -> None:
        self.plan.turns = turns

    def _add_au(self, au: int, count: int) -> None:
        must(au not in self.plan.aus, f"AU {au} is declared twice")
        must(len(self.plan.aus) < 4, "more than 4 AUs")
        self.plan.aus[au] = count

    def _add_peer(self, peer: int, kind: str, seed: bytes, proof: bytes) -> None:
        must(peer not in self.plan.peers, f"peer {peer} is declared twice")
        must(len(self.plan.peers) < 32, "more than 32 peers")
        self.plan.peers[peer] = Peer(peer, kind == "honest", seed.ljust(32, b"\0"), proof)

    def _add_list(self, name: str, words: list[str]) -> None:
        must(len(words) > 1, "the list is empty")
        peer = self.plan.peers[HONEST(self.plan, words[0])]
        must(not getattr(peer, name), f"peer {peer.id} has its {name} already")
        members = tuple(PEER(self.plan, word) for word in words[1:])
        must(peer.id not in members, f"peer {peer.id} lists itself")
        must(len(set(members)) == len(members), "a peer is listed twice")
        setattr(peer, name, members)

    def _add_hash(self, peer: int, kind: str) -> None:
        must(peer not in self.hashed, f"peer {peer} has its hash already")
        self.hashed.add(peer)
        self.plan.peers[peer].hash = kind

    def _add_copy(self, words: list[str]) -> None:
        must(len(words) in (3, 4), "`copy` wants a peer, an AU, and blocks or `like` and a peer")
        peer, au = self.plan.peers[HONEST(self.plan, words[0])], au_id(self.plan, words[1])
        if words[3:]:
            one_of("like")(self.plan, words[2])
            other = self.plan.peers[PEER(self.plan, words[3])]
            must(au in other.copies, f"peer {other.id} has no copy of AU {au} yet")
            content = other.copies[au].copy()
        else:
            content = blocks(self.plan, words[2])
            must(len(content) == self.plan.aus[au], f"AU {au} has {self.plan.aus[au]} blocks, not {len(content)}")
        must(au not in peer.copies, f"peer {peer.id} has its copy of AU {au} already")
        self._count(sum(map(len, content)))
        peer.copies[au] = content

    def _add_damage(self, peer: int, au: int, at: int, content: bytes) -> None:
        copies = self.plan.peers[peer].copies
        must(au in copies, f"peer {peer} has no copy of AU {au} yet")
        must(at < self.plan.aus[au], f"AU {au} has no block {at}")
        self._count(len(content) - len(copies[au][at]))
        copies[au][at] = content

    def _count(self, more: int) -> None:
        must(self.copied + more <= MOST_COPY_BYTES, f"all copies together above {MOST_COPY_BYTES} bytes")
        self.copied += more

    def _add_step(self, name: str, words: list[str]) -> None:
        failures = sum(step.name in ("crash", "cut") for step in self.steps) if name in ("crash", "cut") else 0
        must(failures < 16, "more than 16 power failures")
        self.steps.append(read_step(self.plan, name, words))


def judge_lines(data: bytes, judge: Callable[[str], None], before: int = 0) -> None:
    """Judges the lines of these bytes, which stand behind so many others; a last one without its line feed is bad."""
    *lines, last = data.decode("latin-1").split("\n")
    for place, line in enumerate(lines, before + 1):
        try:
            judge(line)
        except Broken as rule:
            raise BadLine(place, line, str(rule)) from None
    if last:
        raise BadLine(before + len(lines) + 1, last, "no line feed at the end of the file")


def read(data: bytes) -> Script:
    """The script that these bytes say, or `BadLine` for its first bad line."""
    if len(data) > MOST_BYTES:
        raise ValueError(f"more than {MOST_BYTES} bytes")
    script = Script()
    judge_lines(data, script.add_line)
    script.end()
    return script


def rules_words(**rules: int) -> list[Word]:
    """The words of the `rules` line with these numbers, and 0 for all others."""
    return ["rules", *(word for name in BOUNDS for word in (name, rules.get(name, 0)))]


def drill(seed: int) -> Script:
    """The scenario of a drill (docs/FORMATS.md, "Drills")."""
    script, peers, front = Script(), range(1, 13), seed.to_bytes(8, "big")
    script.add("lockss", 1)
    sizes = {"inner": 8, "quorum": 5, "minority": 2, "outer": 2, "repairs": 4}
    script.add(*rules_words(**sizes, overdue=1000, unknown=100, debt=100, churn=1))
    for au in (1, 2):
        script.add("au", au, 128)
    for peer in peers:
        script.add("peer", peer, "honest", front + peer.to_bytes(2, "big"), b"\1")
    for peer in peers:
        script.add("refs", peer, *(other for other in peers if other != peer))
        script.add("friends", peer, peer % 12 + 1)
    copies = [(peer, au) for peer in peers for au in (1, 2)]
    for peer, au in copies:
        script.add("copy", peer, au, [bytes([i]) * 512 for i in range(128)])
    draws = Draws(front.ljust(32, b"\0"), 6, 0)
    for peer, au in copies:
        if draws.below(8) == 0:
            script.add("damage", peer, au, draws.below(128), [bytes([200 + peer]) * 512])
    for peer, au in copies:
        script.add("open", peer, au)
        script.add("finish")
    return script
