"""Scripts at random, good ones and bad ones, and what a few strokes make of a script."""

from __future__ import annotations

from random import Random

# Letters stand for words: H an honest peer, C a corrupt one, P any, A an AU, L its blocks, B a block's number, b a block,
# X hex, N a poll, Y yes or no, T ticks, K calls of a disk, M, Q and D what sizes, quorums and minorities are.
WORDS = {"H": "1 2", "C": "3 4", "P": "1 2 3 4", "A": "1 9", "L": "41,42 -,42*3 41", "B": "0 1 2", "b": "- 41 42*3 Ff"}
WORDS |= {"X": "- 00 010800000001", "N": "1 2 3", "Y": "yes no", "T": "1 10 100", "K": "0 2 8", "M": "3 4 16"}
WORDS |= {"Q": "3 3 3 1", "D": "0 1"}
STEPS = """open H A|outer H N|shut H N|tally H N|nudge H N|give-up H N|work H P N|expire H P N|check H|tune H 2 0 N|tune H N B N
tick T|next|next T|lose|again N|settle|finish|forge C P X|crash H|say C vote P N A of L|say C repair P N B b|say C poll P N A
say C challenge P N Y|say C nominate P N P P|say C nominate P N|say C proof P N|say C request P N B|say C receipt P N
cut K T next|cut K T again N|cut K T open H A|cut K T tally H N|cut K T tune H 1 0 N"""
LISTS = "refs H P|refs H P P|friends H P|hash P sha256|hash P sha512-256|copy H A L|copy H A like H|damage H A B b"
RULES = "inner M quorum Q minority D outer M repairs B pace T refractory T overdue T unknown T debt T churn N"
WILD = """0 00 01 -1 +1 1_0 7 16 17 32 100 101 255 256 511 512 513 4096 4097 65535 65536 1000000 1000001 4294967295 4294967296
- x 4 zz 41*0 41*2*2 41*16384 41*16385 4142*2 AbCd 41, yes maybe like of next open ²""".split()
WILD += ["", "01 ", "9" * 5000, "ff" * 65]
STROKES = [b"", b" ", b"\n", b"\r", b"#", b"0", b"1", b"9", b"a", b"-", b"*", b",", b"\xff", b"\t"]


class Scripts(Random):
    """Scripts at random, of which about a third are good."""

    def word(self, letter: str) -> str:
        """A word for this letter, now and then any other."""
        if self.random() < 0.004:
            return self.choice(WILD)
        return self.choice(WORDS.get(letter, letter).split())

    def line(self, templates: str) -> str:
        """A line like one of these."""
        return " ".join(map(self.word, self.choice(templates.replace("\n", "|").split("|")).split(" ")))

    def script(self) -> bytes:
        """A script, with a few strokes now and then."""
        chance, below = self.random, self.randrange
        lines = ["lockss 1", "rules " + self.line(RULES), *(["turns 4096"] * (chance() < 0.2)), "au 1 2", "au 9 2"]
        lines += [self.line(f"peer {p} {'honest' if p < 3 else 'corrupt'} 0{p} X") for p in range(1, 5)]
        lines += ["copy 1 1 41,42"] * (chance() < 0.7) + [self.line(LISTS) for _ in range(below(3))]
        data = "".join(line + "\n" for line in [*lines, *(self.line(STEPS) for _ in range(below(12)))]).encode("latin-1")
        return self.mutated(data) if chance() < 0.15 else data

    def mutated(self, data: bytes) -> bytes:
        """The script after a stroke or two: at a byte, at a word or at a line."""
        pick, below = self.choice, self.randrange
        for _ in range(self.randint(1, 2)):
            at, lines = below(len(data) + 1), data.split(b"\n")
            row = below(len(lines))
            words = lines[row].split(b" ")
            words[below(len(words))] = pick(WILD).encode("latin-1")
            others = pick([[], [b" ".join(words)], [pick(lines), lines[row]]])
            by_line = b"\n".join([*lines[:row], *others, *lines[row + 1 :]])
            data = pick([by_line, data[:at] + pick(STROKES) + data[at + below(2) :]])
        return data
