"""Commands of bin/, each in a fork of this process, which has read the package: that takes longer than most commands."""

from __future__ import annotations

import os
import runpy
import signal
import subprocess
import sys
import tempfile
import traceback
from collections.abc import Sequence
from typing import IO, NoReturn

from lks.play import TOP


def _obey(path: str, words: Sequence[str], files: Sequence[IO[bytes]]) -> NoReturn:
    """Runs a command with these as its standard files, and ends this process with its status."""
    status = 70
    try:
        os.setpgid(0, 0)
        for number, file in enumerate(files):
            os.dup2(file.fileno(), number)
        sys.stdin, sys.stdout, sys.stderr = open(0), open(1, "w"), open(2, "w")
        sys.argv = [path, *words]
        runpy.run_path(path, run_name="__main__")
    except SystemExit as end:
        status = end.code if isinstance(end.code, int) else int(end.code is not None)
    except BaseException:
        traceback.print_exc()
    finally:
        sys.stdout.flush()
        sys.stderr.flush()
        os._exit(status)


def tool(name: str, *words: object, input: str = "") -> subprocess.CompletedProcess[str]:
    """A Python command of bin/ with these words and this standard input."""
    path, told = str(TOP / "bin" / name), [os.fsdecode(it) if isinstance(it, bytes) else str(it) for it in words]
    with tempfile.TemporaryFile() as given, tempfile.TemporaryFile() as out, tempfile.TemporaryFile() as err:
        given.write(input.encode())
        given.seek(0)
        sys.stdout.flush()
        sys.stderr.flush()
        if (child := os.fork()) == 0:
            _obey(path, told, (given, out, err))
        try:
            status = os.waitstatus_to_exitcode(os.waitpid(child, 0)[1])
        except BaseException:
            # neither it nor what it started outlives its test
            os.killpg(child, signal.SIGKILL)
            raise
        wrote = [(file.seek(0), file.read().decode())[1] for file in (out, err)]
        return subprocess.CompletedProcess([path, *told], status, *wrote)
