"""Files as AUs: a manifest and the files behind it, each in blocks of its own; and the files back from the blocks of a copy.

The manifest has the first blocks of an AU. It is the text `lockss files 1` and a line feed, the SHA-256 of all behind that, a
be32 length, and so many bytes: a be16 count, and of each file a be16 length and its path, its be32 length, its SHA-256, and the
be16 numbers of its first block and of its blocks. Each block has 16,384 bytes, but for the last of the manifest and of each
file; an empty file has none.
"""

from __future__ import annotations

import os
from collections.abc import Iterable, Iterator, Sequence
from contextlib import suppress
from typing import NamedTuple

from files import disk
from files.disk import Damaged
from lks import journal
from lks.fields import BE16, BE32, HASH, BadBytes, group, listed, sized, whole
from lks.hashes import digest
from lks.journal import CLOSED, OPEN, Deposit, Replaced, of_kind
from lks.plan import MOST_BLOCK_BYTES
from lks.script import MOST_BYTES, BadLine, spelled

MOST_BLOCKS, MOST_AUS = 512, 4
# How many bytes of a script are left for its other lines, and how long the path of a file may be.
REST, MOST_PATH = 16_384, 4_095
LIMITS = (
    f"a plan has {MOST_AUS} AUs of {MOST_BLOCKS} blocks of {MOST_BLOCK_BYTES:,} bytes at most, no file has blocks of two AUs, "
    f"and copies are spelled in hex in a script of {MOST_BYTES:,} bytes, so all files together have less than 8 MiB"
)
TITLE = b"lockss files 1\n"
HEAD = len(TITLE) + 32
# What the manifest says of a file.
Entry = NamedTuple("Entry", [("path", bytes), ("length", int), ("hash", bytes), ("first", int), ("count", int)])
ENTRIES = listed(BE16, group(Entry, sized(BE16), BE32, HASH, BE16, BE16))
BODY = sized(BE32)
# A path within a folder, parted by slashes, and what the file holds.
File = NamedTuple("File", [("path", bytes), ("content", bytes)])


class Unreadable(ValueError):
    """Why a journal has no such copy."""


class NoManifest(ValueError):
    """Why the first blocks of a copy are no manifest."""


def shown(path: bytes) -> str:
    """A path in printable ASCII."""
    return repr(path)[1:]


def walk(folder: bytes) -> Iterator[File]:
    """The files below a folder, in the order of the bytes of their paths. What is neither a file nor a folder is refused."""
    paths, folders = [], [b""]
    while folders:
        top = folders.pop()
        for entry in os.scandir(os.path.join(folder, top)):
            path = os.path.join(top, entry.name)
            if not entry.is_dir(follow_symlinks=False) and not entry.is_file(follow_symlinks=False):
                raise ValueError(f"{shown(path)} is neither a file nor a folder")
            (folders if entry.is_dir(follow_symlinks=False) else paths).append(path)
    for path in sorted(paths):
        with open(os.path.join(folder, path), "rb") as file:
            # one byte more than any library has is enough to see that it doesn't fit
            yield File(path, file.read(MOST_BYTES // 2 + 1))


def blocks_for(length: int) -> int:
    """How many blocks so many bytes take."""
    return -(-length // MOST_BLOCK_BYTES)


def parts_of(content: bytes) -> list[bytes]:
    """The blocks of these bytes."""
    return [content[at : at + MOST_BLOCK_BYTES] for at in range(0, len(content), MOST_BLOCK_BYTES)]


def entry_size(file: File) -> int:
    """How many bytes a file takes in the manifest."""
    return 42 + len(file.path)


def manifest_blocks(entries: int) -> int:
    """How many blocks a manifest has whose entries take so many bytes."""
    return blocks_for(HEAD + 4 + 2 + entries)


def blocks_of(files: Sequence[File]) -> list[bytes]:
    """The blocks of an AU of these files."""
    first, entries, parts = manifest_blocks(sum(map(entry_size, files))), [], []
    for file in files:
        own = parts_of(file.content)
        entries.append(Entry(file.path, len(file.content), digest("sha256", file.content), first + len(parts), len(own)))
        parts += own
    body = BODY.write(ENTRIES.write(entries))
    return parts_of(TITLE + digest("sha256", body) + body) + parts


def split(files: Iterable[File], most: int) -> list[list[File]]:
    """The files of each AU, in their order. Together they have at most so many bytes; the file that doesn't fit is named."""
    found: list[list[File]] = [[]]
    text = size = count = entries = 0
    for file in files:
        own, entry = parts_of(file.content), entry_size(file)
        if found[-1] and manifest_blocks(entries + entry) + count + len(own) > MOST_BLOCKS:
            found.append([])
            count = entries = 0
        found[-1].append(file)
        count += len(own)
        entries += entry
        size += entry + len(file.content)
        text += 2 * entry + sum(1 + len(spelled([part])) for part in own)
        fits = manifest_blocks(entries) + count <= MOST_BLOCKS and len(found) <= MOST_AUS
        if not fits or text > MOST_BYTES - REST or size > most - REST:
            raise ValueError(f"{shown(file.path)} doesn't fit: {LIMITS}")
    return found


def copy_of(data: bytes, au: int, version: int | None = None, peer: int | None = None) -> tuple[int, list[bytes]]:
    """A version of a copy, the newest where none is said, and its blocks; or `Unreadable`.

    The journal is a disk's bytes, or that of this peer, or the first, in what `lockss journals` wrote.
    """
    try:
        if data[:1] in (OPEN, CLOSED):
            records = disk.read(data).records()
        else:
            journals = journal.read(data, len(data))
            if peer is None and journals.batches or peer in journals.batches:
                records = journals.records(next(iter(journals.batches)) if peer is None else peer)
            else:
                raise Unreadable("no journal of this peer is there")
    except (Damaged, BadLine) as fault:
        raise Unreadable(str(fault)) from None
    deposits, replaced = of_kind(records, Deposit, au=au), of_kind(records, Replaced, au=au)
    if len(deposits) != 1:
        raise Unreadable(f"AU {au} is deposited {len(deposits)} times")
    if version is not None and version > len(replaced):
        raise Unreadable(f"AU {au} has versions 0 to {len(replaced)}")
    blocks, version = list(deposits[0].blocks), len(replaced) if version is None else version
    for it in replaced[:version]:
        if it.block >= len(blocks):
            raise Unreadable(f"AU {au} has no block {it.block}")
        blocks[it.block] = it.content
    return version, blocks


def entries_of(blocks: Sequence[bytes]) -> list[Entry]:
    """What the manifest of a copy says, or `NoManifest`."""
    if not blocks[0].startswith(TITLE):
        raise NoManifest("block 0 doesn't begin with `lockss files 1`")
    length = int.from_bytes(blocks[0][HEAD : HEAD + 4], "big")
    data = b"".join(blocks[: blocks_for(HEAD + 4 + length)])
    if digest("sha256", data[HEAD:]) != data[len(TITLE) : HEAD]:
        raise NoManifest("it has another hash")
    try:
        return whole(ENTRIES.read, whole(BODY.read, data[HEAD:]))
    except BadBytes as fault:
        raise NoManifest(str(fault)) from None


def is_within(path: bytes) -> bool:
    """Whether a path leads to a place below its folder, by names alone, and isn't longer than a system takes it."""
    return len(path) <= MOST_PATH and b"\0" not in path and not {b"", b".", b".."} & {*path.split(b"/")}


def faults_of(blocks: Sequence[bytes], entries: Sequence[Entry]) -> list[str]:
    """What is wrong with each file of a manifest, whatever the manifest says; nothing where none of it is. No block is looked
    at for two files."""
    found, last = [], blocks_for(HEAD + 4 + len(ENTRIES.write(entries)))
    for it in entries:
        fault = "" if is_within(it.path) else "its path leads to no place in the folder"
        if it.first < last:
            fault = fault or "its blocks aren't its own"
        else:
            last = it.first + it.count
            content = b"".join(blocks[it.first : last])
            if len(content) != it.length or digest("sha256", content) != it.hash:
                fault = fault or "it has another hash"
        found.append(fault)
    return found


def _put(top: int, file: File) -> None:
    """Writes a new file below an open folder. No link is followed, and nothing that stands there already is written over."""
    *folders, name = file.path.split(b"/")
    at = os.dup(top)
    try:
        for part in folders:
            with suppress(FileExistsError):
                os.mkdir(part, dir_fd=at)
            below = os.open(part, os.O_RDONLY | os.O_DIRECTORY | os.O_NOFOLLOW, dir_fd=at)
            os.close(at)
            at = below
        made = os.open(name, os.O_WRONLY | os.O_CREAT | os.O_EXCL | os.O_NOFOLLOW, 0o666, dir_fd=at)
        try:
            with os.fdopen(made, "wb") as out:
                out.write(file.content)
        except OSError:
            os.unlink(name, dir_fd=at)
            raise
    finally:
        os.close(at)


def write(blocks: Sequence[bytes], folder: bytes) -> list[tuple[bytes, str]]:
    """Writes the files of a copy into a new or empty folder, and gives each path with what is wrong with its file, if anything
    is: such a file isn't written."""
    entries = entries_of(blocks)
    os.makedirs(folder, exist_ok=True)
    if os.listdir(folder):
        raise ValueError(f"{shown(folder)} isn't empty")
    told, top = [], os.open(folder, os.O_RDONLY | os.O_DIRECTORY)
    for it, fault in zip(entries, faults_of(blocks, entries)):
        try:
            if not fault:
                _put(top, File(it.path, b"".join(blocks[it.first : it.first + it.count])))
        except OSError as refusal:
            fault = f"it can't be written: {refusal.strerror}"
        told.append((it.path, fault))
    os.close(top)
    return told
