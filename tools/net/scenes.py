"""Plans of networks: what each peer is given of one, and a plan over the files of a folder."""

from __future__ import annotations

import os
import pathlib
import random
from collections.abc import Iterable, Sequence

from files import archive
from lks.plan import Plan
from lks.script import MOST_COPY_BYTES, Script, rules_words

# The rules of a plan that is made here: seven voters, of whom two may be wrong.
RULES = {"inner": 7, "quorum": 5, "minority": 2, "outer": 2, "repairs": 64, "overdue": 100_000, "unknown": 100, "debt": 100}


def own_plan(plan: Plan, own: int) -> str:
    """The plan of one peer: its seed, lists and copies, and of the others that they are there. Who is corrupt it isn't told."""
    made, it = Script(), plan.peers[own]
    made.add("lockss", 1)
    made.add(*rules_words(**plan.rules))
    for au, count in plan.aus.items():
        made.add("au", au, count)
    for peer in plan.peers.values():
        made.add("peer", peer.id, "honest", it.seed if peer is it else b"\0", peer.proof)
    made.add("hash", own, it.hash)
    for name, members in (("refs", it.refs), ("friends", it.friends)):
        if members:
            made.add(name, own, *members)
    for au, blocks in it.copies.items():
        made.add("copy", own, au, blocks)
    return made.text()


def _damage(script: Script, peers: Iterable[int], draws: random.Random) -> None:
    """One block of each of these peers is damaged, which isn't one of the manifest: no two at the same place."""
    aus = script.plan.aus
    places = [(au, at) for au, count in aus.items() for at in range(1, count)]
    for peer, (au, at) in zip(peers, draws.sample(places, len(places))):
        script.add("damage", peer, au, at, [b"rotten at peer %d " % peer + draws.randbytes(16)])


def scene(folder: pathlib.Path, peers: int, liars: int, damaged: int, seed: int) -> Script:
    """A plan in which honest peers hold the files below a folder, some with a damaged block; the last peers are corrupt."""
    draws, made, everyone = random.Random(f"scene {seed}"), Script(), range(1, peers + 1)
    honest = everyone[: peers - liars]
    if not 0 <= damaged <= len(honest) or not honest:
        raise ValueError(f"{damaged} damaged and {liars} corrupt ones of {peers} peers can't be")
    units = [archive.blocks_of(unit) for unit in archive.split(archive.walk(os.fsencode(folder)), MOST_COPY_BYTES // len(honest))]
    made.add("lockss", 1)
    made.add(*rules_words(**RULES))
    for au, blocks in enumerate(units, 1):
        made.add("au", au, len(blocks))
    for peer in everyone:
        made.add("peer", peer, "honest" if peer in honest else "corrupt", draws.randbytes(32), b"\1")
    for peer in honest:
        made.add("refs", peer, *(it for it in everyone if it != peer))
    for au, blocks in enumerate(units, 1):
        for peer in honest:
            made.add("copy", peer, au, *([blocks] if peer == honest[0] else ["like", honest[0]]))
    _damage(made, draws.sample(honest, damaged), draws)
    return made


def same_files(blocks: Sequence[bytes], folder: pathlib.Path, to: pathlib.Path) -> list[str]:
    """Writes the files of a copy, and tells which of them aren't whole, or not those of a folder."""
    found = [f"{archive.shown(path)}: {fault}" for path, fault in archive.write(blocks, os.fsencode(to)) if fault]
    for it in archive.walk(os.fsencode(to)):
        if it.content != (folder / os.fsdecode(it.path)).read_bytes():
            found.append(f"{archive.shown(it.path)}: it differs from that of {folder}")
    return found
