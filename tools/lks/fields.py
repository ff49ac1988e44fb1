"""Fields of bytes, and families of values that are spelled by them: messages and records (docs/FORMATS.md)."""

from __future__ import annotations

from collections.abc import Callable
from dataclasses import dataclass, field, make_dataclass
from typing import Any, NamedTuple


class BadBytes(ValueError):
    """Why bytes spell nothing, or a value can't be spelled."""


class Source:
    """Bytes that are read from left to right."""

    def __init__(self, data: bytes) -> None:
        self.data, self.place = data, 0

    def take(self, count: int) -> bytes:
        """So many bytes more."""
        taken = self.data[self.place : self.place + count]
        if len(taken) < count:
            raise BadBytes("bytes are missing at the end")
        self.place += count
        return taken


def whole(read: Callable[[Source], Any], data: bytes) -> Any:
    """What these bytes are read as, where none is left."""
    source = Source(data)
    value = read(source)
    if source.place < len(data):
        raise BadBytes("bytes are left at the end")
    return value


@dataclass(frozen=True)
class Field:
    """How a value is read and how it is written."""

    read: Callable[[Source], Any]
    write: Callable[[Any], bytes]


def number(size: int, most: int | None = None, least: int = 0) -> Field:
    """A big-endian number of so many bytes, in its limits."""
    def check(value: int) -> int:
        if not least <= value <= (256**size - 1 if most is None else most):
            raise BadBytes(f"{value} is outside its limits")
        return value

    return Field(lambda source: check(int.from_bytes(source.take(size), "big")), lambda n: check(n).to_bytes(size, "big"))


def choice(*values: Any, first: int = 0) -> Field:
    """One byte that says which of these values it is."""
    byte = number(1, first + len(values) - 1, first)
    return Field(lambda source: values[byte.read(source) - first], lambda value: byte.write(values.index(value) + first))


def sized(length: Field) -> Field:
    """A length, and so many bytes."""
    return Field(lambda source: source.take(length.read(source)), lambda data: length.write(len(data)) + data)


def listed(count: Field, item: Field) -> Field:
    """A count, and so many items."""
    read = lambda source: tuple(item.read(source) for _ in range(count.read(source)))
    return Field(read, lambda items: count.write(len(items)) + b"".join(map(item.write, items)))


def group(kind: Callable[..., Any], *parts: Field) -> Field:
    """Fields in a row, which make one value."""
    write = lambda value: b"".join(part.write(it) for part, it in zip(parts, value))
    return Field(lambda source: kind(*(part.read(source) for part in parts)), write)


# The name of a poll: who opened it, and its number.
PollName = NamedTuple("PollName", [("poller", int), ("number", int)])

BE16, BE32 = number(2), number(4)
HASH = Field(lambda source: source.take(32), lambda data: Source(data).take(32))
INDEX = number(2, 511)
BLOCK = sized(number(2, 16_384))
PROOF = sized(number(1, 64))
HASHES = listed(number(2, 512), HASH)
NOMINEES = listed(number(1, 8), BE16)
YES_OR_NO = choice(False, True)
POLL = group(PollName, BE16, BE32)
# How SHA-512/256 is told; SHA-256 is told by the form that leaves it out.
KIND = (choice("sha512-256", first=2), "sha256")


class Family:
    """Kinds of values that are spelled as a form byte, a tag byte and their fields in order."""

    def __init__(self) -> None:
        self.shapes: dict[bytes, tuple[type[Any], dict[str, Field]]] = {}

    def kind(self, tag: int, name: str, /, first_form: int = 1, **parts: Field | tuple[Field, Any]) -> type[Any]:
        """A kind, as a dataclass of this name. A part may have a default beside its field: such parts are left out of the first
        form, and each later form takes in one more of them, in order."""
        given = {it: part if isinstance(part, tuple) else (part,) for it, part in parts.items()}
        later = [it for it, part in given.items() if part[1:]]
        hints = [(it, Any, *(field(default=default, kw_only=True) for default in part[1:])) for it, part in given.items()]
        made = make_dataclass(name, hints, frozen=True)
        for more in range(len(later) + 1):
            shape = {it: part[0] for it, part in given.items() if it not in later[more:]}
            self.shapes[bytes([first_form + more, tag])] = made, shape
        return made

    def read(self, source: Source) -> Any:
        """The value that the next bytes spell."""
        head = source.take(2)
        if head not in self.shapes:
            raise BadBytes(f"form {head[0]} has no tag {head[1]}")
        made, shape = self.shapes[head]
        return made(**{name: part.read(source) for name, part in shape.items()})

    def write(self, value: Any) -> bytes:
        """Its one spelling: in the first form from which it reads back."""
        for head, (made, shape) in self.shapes.items():
            told = {name: getattr(value, name) for name in shape} if made is type(value) else {}
            if told and made(**told) == value:
                return head + b"".join(part.write(told[name]) for name, part in shape.items())
        raise BadBytes(f"no form has {value}")
