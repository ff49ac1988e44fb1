"""One line an event: `key=value` words, of which the first is the wall time; and such lines read again."""

from __future__ import annotations

import contextlib
import hashlib
import json
import re
from datetime import UTC, datetime
from typing import TextIO


def word(value: object) -> str:
    """A value as one word: in quotes where it has more than printable ASCII without spaces, quotes and `=`."""
    text = ",".join(map(str, value)) if isinstance(value, list) else str(value)
    return text if re.fullmatch("[!#-<>-~]+", text) else json.dumps(text)


def read(line: str) -> dict[str, str]:
    """The words of a line by their keys; those in quotes keep these."""
    return dict(re.findall(r'([a-z]+)=("(?:[^"\\]|\\.)*"|\S+)', line))


def mark(data: bytes) -> str:
    """How the bytes of a message are called in the logs of both sides."""
    return hashlib.sha256(data).hexdigest()[:8]


class Log:
    """Lines on standard output, or in a file. `tick` is the clock of the peer."""

    def __init__(self, file: TextIO | None = None) -> None:
        self.tick, self.file = 0, file

    def __call__(self, what: str, **values: object) -> None:
        """A line of this event. What is None is left out."""
        now = datetime.now(UTC).isoformat(timespec="milliseconds").replace("+00:00", "Z")
        told = {"time": now, "tick": self.tick, "what": what, **values}
        # a log that nobody reads is no reason to end
        with contextlib.suppress(OSError):
            words = (f"{key}={word(value)}" for key, value in told.items() if value is not None)
            print(*words, file=self.file, flush=True)
