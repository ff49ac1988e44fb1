#!/usr/bin/env python3
"""Prints the script of a timed run, of this family and size.

mend N   one poll of three voters on an AU of 512 blocks, of which the first N are bad: N repairs
small N  N polls of eight voters, one after another, on one block of one byte: 35 events a poll
hash N   N polls of three voters, one after another, on 128 blocks of 16 KiB
wide N   32 honest peers with 512 blocks of 128 bytes, one block of two of them damaged: N rounds in which each of them
         opens a poll of eight inner voters and everything due is done, as far as 4,096 events go
repairs N
         one poll of three honest voters on 512 blocks of 3,072 bytes, of which the poller's first N are damaged
widest N 32 honest peers on 256 blocks of 240 bytes, the first N of three of them damaged, each of which opens a poll of
         eight inner voters
pair N   100 polls of two honest voters, one after another, on seven blocks of 16 KiB and one of N bytes: the two votes of each
         are ready together
race N   32 honest peers on 128 blocks of 4,096 bytes, each of which is invited to the polls of eight others and opens one
         itself, with N turns: with 1,536 a race ends when all votes are in
settled N
         the same with settle as its last step
together N
         N honest peers on 128 blocks of 16 KiB, each of which opens a poll whose voters are all others; the votes of all
         polls are hashed in one step, and the tallies of all in another
"""

import argparse
import sys


def head(voters, blocks):
    yield "lockss 1\n"
    yield f"rules inner {voters} quorum 3 minority 1 outer 0 repairs 512 pace 0 refractory 0 overdue 1000000 unknown 100 debt 100 churn 0\n"
    yield f"au 1 {len(blocks)}\n"
    yield "peer 1 honest 01 01\n"
    for peer in range(2, voters + 2):
        yield f"peer {peer} corrupt {peer:02x} 01\n"
    yield f"refs {' '.join(map(str, range(1, voters + 2)))}\n"
    yield f"copy 1 1 {','.join(blocks)}\n"


def poll(number, voters, blocks):
    """A poll in which each voter votes for these blocks."""
    yield "open 1 1\n"
    for peer in range(2, voters + 2):
        yield f"say {peer} vote 1 {number} 1 of {','.join(blocks)}\n"
    yield f"settle\nshut 1 {number}\nsettle\n"


def polls(count, voters, blocks):
    yield from head(voters, blocks)
    for number in range(1, count + 1):
        yield from poll(number, voters, blocks)


def mend(repairs):
    good = [f"{block % 256:02x}{block // 256:02x}" for block in range(512)]
    bad = [f"ff{block}" for block in good[:repairs]]
    yield from head(3, bad + good[repairs:])
    yield from poll(1, 3, good)
    for block in range(repairs):
        yield f"say 2 repair 1 1 {block} {good[block]}\nsettle\n"


def small(count):
    return polls(count, 8, ["41"])


def large_blocks():
    return [f"{block:02x}*16384" for block in range(128)]


def large(count):
    return polls(count, 3, large_blocks())


def honest(peers, rules, blocks):
    """Honest peers that all know one another and hold these blocks."""
    yield "lockss 1\n"
    yield f"rules {rules} pace 0 refractory 0 overdue 1000000 unknown 100 debt 100 churn 1\n"
    yield f"au 1 {len(blocks)}\n"
    for peer in peers:
        yield f"peer {peer} honest {peer:02x} 01\n"
    for peer in peers:
        yield f"refs {peer} {' '.join(str(other) for other in peers if other != peer)}\n"
    yield f"copy 1 1 {','.join(blocks)}\n"
    for peer in peers[1:]:
        yield f"copy {peer} 1 like 1\n"


def wide(rounds):
    peers = range(1, 33)
    blocks = [f"{block % 256:02x}*128" for block in range(512)]
    yield from honest(peers, "inner 8 quorum 5 minority 2 outer 2 repairs 4", blocks)
    for peer in peers[15::16]:
        yield f"damage {peer} 1 {peer * 8} ff*128\n"
    for _ in range(rounds):
        for peer in peers:
            yield f"open {peer} 1\nfinish\n"


def together(count):
    peers = range(1, count + 1)
    yield from honest(peers, f"inner {count - 1} quorum 3 minority 1 outer 0 repairs 4", large_blocks())
    yield from (f"open {peer} 1\n" for peer in peers)
    yield "settle\n"
    yield from (f"shut {peer} 1\n" for peer in peers)
    yield "settle\n"


def race(turns):
    """Peer p invites the eight peers behind it, counted round."""
    peers = range(1, 33)
    blocks = [f"{block:02x}*4096" for block in range(128)]
    for line in honest(peers, "inner 8 quorum 5 minority 2 outer 0 repairs 4", blocks):
        if line.startswith("au "):
            yield f"turns {turns}\n"
        if line.startswith("refs "):
            peer = int(line.split()[1])
            line = f"refs {peer} {' '.join(str((peer + step - 1) % 32 + 1) for step in range(1, 9))}\n"
        yield line
    yield from (f"open {peer} 1\n" for peer in peers)


def settled(turns):
    yield from race(turns)
    yield "settle\n"


def repairs(count):
    peers = range(1, 5)
    yield from honest(peers, "inner 3 quorum 3 minority 1 outer 0 repairs 512", [f"{block % 256:02x}*3072" for block in range(512)])
    for block in range(count):
        yield f"damage 1 1 {block} {255 - block % 256:02x}*3072\n"
    yield "open 1 1\nfinish\n"


def widest(count):
    peers = range(1, 33)
    blocks = [f"{block:02x}*240" for block in range(256)]
    yield from honest(peers, "inner 8 quorum 5 minority 2 outer 2 repairs 512", blocks)
    for peer in peers[7::11]:
        yield from (f"damage {peer} 1 {block} ff*{240 - peer}\n" for block in range(count))
    for peer in peers:
        yield f"open {peer} 1\nfinish\n"


def pair(last):
    blocks = [f"{block:02x}*16384" for block in range(7)] + [f"07*{last}"]
    yield from honest(range(1, 4), "inner 2 quorum 1 minority 0 outer 0 repairs 4", blocks)
    for number in range(1, 101):
        yield f"open 1 1\nsettle\nshut 1 {number}\nsettle\n"


FAMILIES = {"mend": mend, "small": small, "hash": large, "wide": wide, "repairs": repairs, "widest": widest, "pair": pair, "race": race, "settled": settled, "together": together}

if __name__ == "__main__":
    parser = argparse.ArgumentParser(description=__doc__, formatter_class=argparse.RawDescriptionHelpFormatter)
    parser.add_argument("family", choices=FAMILIES)
    parser.add_argument("size", type=int)
    asked = parser.parse_args()
    sys.stdout.writelines(FAMILIES[asked.family](asked.size))
