"""Copies in which crates are proved. rt keeps others out of all crates below the one that it proves, so two proofs over the same
crates wait for each other, but where each has a copy of them."""

from __future__ import annotations

import contextlib
import fcntl
import os
import pathlib
import re
import shutil
import signal
import subprocess
import tempfile
from collections.abc import Iterator

TOP = pathlib.Path(__file__).resolve().parent.parent.parent
CRATES = TOP / "crates"
# What rt reads of a library, beside what was built of it.
PARTS = ("src", "specs", "proofs")
# How much nicer what gives way to the longest chain is: it gets a tenth of a processor's time where both have work.
GIVING_WAY = 10


class NoCrate(Exception):
    """crates.txt has no crate of this name."""


def below(name: str) -> dict[str, list[str]]:
    """The crates of crates.txt below one, lowest first, and then that one, each with those of them on which it stands."""
    rows = re.findall(r"^(\w+)[^\n:#]*:([^\n#]*)", (TOP / "crates.txt").read_text(), re.M)
    needs, found = {crate: words.split() for crate, words in rows}, dict[str, list[str]]()
    if name not in needs:
        raise NoCrate(f"crates.txt has no crate {name}")

    def visit(crate: str) -> None:
        ours = [it for it in needs[crate] if it in needs]
        for it in ours:
            if it not in found:
                visit(it)
        found[crate] = ours

    visit(name)
    return found


@contextlib.contextmanager
def held(crate: str) -> Iterator[None]:
    """Keeps every rt out of a crate's folder, as rt itself does."""
    at = os.open(CRATES / crate, os.O_RDONLY)
    try:
        fcntl.flock(at, fcntl.LOCK_EX)
        yield
    finally:
        os.close(at)


def bring(crate: str, room: pathlib.Path, out: str) -> None:
    """Copies the sources of a crate, and links what was built of it."""
    for part in PARTS:
        if (CRATES / crate / part).is_dir():
            shutil.copytree(CRATES / crate / part, room / "crates" / crate / part)
    if (CRATES / crate / out).is_dir():
        shutil.copytree(CRATES / crate / out, room / "crates" / crate / out, copy_function=os.link)


@contextlib.contextmanager
def room(crate: str, out: str = "out") -> Iterator[pathlib.Path]:
    """A copy of the sources of a crate and of those below it, with what was built of these, and with this folder of its own. It
    gives the crate's folder there."""
    with tempfile.TemporaryDirectory(prefix=".build-", dir=TOP) as made:
        top, needs = pathlib.Path(made), below(crate)
        rows = (TOP / "crates.txt").read_text().splitlines(keepends=True)
        (top / "crates.txt").write_text("".join(it for it in rows if re.split(r"[\s:]", it)[0] in needs))
        for it in needs:
            # another proof of a crate below puts what it built in place of what is there
            with contextlib.nullcontext() if it == crate else held(it):
                bring(it, top, out if it == crate else "out/rlib")
        yield top / "crates" / crate


def stop(process: subprocess.Popen[str]) -> None:
    """Ends a command that `started` began, and all that it began."""
    with contextlib.suppress(ProcessLookupError):
        os.killpg(process.pid, signal.SIGTERM)


def give_way(process: subprocess.Popen[str]) -> None:
    """Lets commands that were not told so have the processors first. Where Linux shares them between sessions before it looks at
    processes, the session is told too."""
    os.setpriority(os.PRIO_PROCESS, process.pid, min(19, os.getpriority(os.PRIO_PROCESS, process.pid) + GIVING_WAY))
    with contextlib.suppress(OSError):
        pathlib.Path(f"/proc/{process.pid}/autogroup").write_text(f"{GIVING_WAY}\n")


@contextlib.contextmanager
def started(*words: str, folder: pathlib.Path) -> Iterator[subprocess.Popen[str]]:
    """A command in a session of its own. Both end with this block."""
    files = {"stdin": subprocess.DEVNULL, "stdout": subprocess.PIPE, "stderr": subprocess.STDOUT}
    with subprocess.Popen(words, cwd=folder, text=True, start_new_session=True, **files) as process:
        try:
            yield process
        finally:
            stop(process)
