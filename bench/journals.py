#!/usr/bin/env python3
"""Prints an input of the command `evidence` that holds, as large as one may be.

most-repairs  polls one after another, of one voter each on 512 blocks of one byte, each of which replaces all blocks: as
              many repairs as there is room for
most-polls    polls one after another, of one voter each on one block of one byte, each of which replaces it: as many polls as
              there is room for
most-hashing  polls one after another on 87 blocks, of which the last has one byte and the others 16 KiB, each of which
              replaces the last one by the only vote, of a voter whose journal is there too: as many bytes are hashed as
              there is room for
"""

import argparse
import hashlib
import struct
import sys

ROOM = 16_777_216
NONCE = bytes(32)


def deposit(blocks):
    return struct.pack(">BBHH", 1, 1, 1, len(blocks)) + b"".join(struct.pack(">H", len(b)) + b for b in blocks)


def vote(number, voter, blocks):
    """The vote of a voter over these blocks in the poll of peer 1 with this number."""
    last = hashlib.sha256(b"LOCKSS/1" + struct.pack(">HI32sHHH", 1, number, NONCE, voter, 1, len(blocks))).digest()
    hashes = []
    for block in blocks:
        last = hashlib.sha256(last + block).digest()
        hashes.append(last)
    return struct.pack(">BBIHH", 1, 5, number, voter, len(blocks)) + b"".join(hashes)


def poll(number, voter, blocks):
    """Its opening with quorum 1 and minority 0, its one vote, and its shutting."""
    opened = struct.pack(">BBIH32sBHIHH", 2, 2, number, 1, NONCE, 1, voter, 0, 1, 0)
    return [opened, vote(number, voter, blocks), struct.pack(">BBI", 1, 6, number)]


def replaced(number, block, data):
    return struct.pack(">BBIHHH", 1, 9, number, 1, block, len(data)) + data


def part(number):
    """What a voter writes of the poll: that it joined, and to version 0 of its copy."""
    return [struct.pack(">BBHIHIB", 1, 12, 1, number, 1, 0, 0), struct.pack(">BBHI32sI", 1, 13, 1, number, NONCE, 0)]


def journal(peer, records):
    """Frames of 1,000 records each, as a line."""
    frames = []
    for start in range(0, len(records), 1000):
        batch = records[start : start + 1000]
        body = struct.pack(">H", len(batch)) + b"".join(batch)
        frames.append(b"\xa5" + struct.pack(">I", len(body)) + body)
    return f"journal {peer} {b''.join(frames).hex()}00\n"


def plan(peers, count):
    yield "lockss 1\n"
    yield "rules inner 1 quorum 1 minority 0 outer 0 repairs 512 pace 0 refractory 0 overdue 1000000 unknown 100 debt 100 churn 0\n"
    yield f"au 1 {count}\n"
    yield from (f"peer {peer} honest {peer:02x} 01\n" for peer in range(1, peers + 1))


def most_repairs():
    yield from plan(2, 512)
    room = ROOM // 2 - 20_000
    records = [deposit([b"\0"] * 512)]
    for number in range(1, 1_000):
        data = bytes([number % 256])
        records += poll(number, 2, [data] * 512)
        records += [replaced(number, block, data) for block in range(512)]
        room -= sum(map(len, records[-515:])) + 7
        if room < 23_200:
            break
    yield journal(1, records)


def most_polls():
    yield from plan(2, 1)
    records = [deposit([b"\0"])]
    for number in range(1, (ROOM // 2 - 10_000) // 116):
        data = bytes([number % 256])
        records += poll(number, 2, [data]) + [replaced(number, 0, data)]
    yield journal(1, records)


def most_hashing():
    yield from plan(3, 87)
    front = [bytes([block]) * 16_384 for block in range(86)]
    copies = {voter: front + [bytes([voter])] for voter in (2, 3)}
    journals = {1: [deposit(front + [b"\1"])], 2: [deposit(copies[2])], 3: [deposit(copies[3])]}
    room = ROOM // 2 - 20_000 - 3 * len(journals[1][0])
    for number in range(1, 10_000):
        voter = 2 + number % 2
        journals[1] += poll(number, voter, copies[voter]) + [replaced(number, 86, bytes([voter]))]
        journals[voter] += part(number)
        room -= sum(map(len, journals[1][-4:] + journals[voter][-2:])) + 1
        if room < 2_950:
            break
    yield from (journal(peer, records) for peer, records in journals.items())


FAMILIES = {"most-repairs": most_repairs, "most-polls": most_polls, "most-hashing": most_hashing}

if __name__ == "__main__":
    parser = argparse.ArgumentParser(description=__doc__, formatter_class=argparse.RawDescriptionHelpFormatter)
    parser.add_argument("family", choices=FAMILIES)
    sys.stdout.writelines(FAMILIES[parser.parse_args().family]())
