"""Which step a peer is due to take, by the state that its journal comes to and the numbers of its config."""

from __future__ import annotations

from collections.abc import Iterator, Mapping

from peer.follow import Poll, State


class Schedule:
    """The steps of a peer. `numbers` has those of the config, in ticks, `aus` the AUs that the peer holds."""

    def __init__(self, numbers: Mapping[str, int], aus: list[int], outer: int) -> None:
        self.numbers, self.aus, self.outer = numbers, aus, outer
        self.checked: int | None = None
        # of each poll the ticks of its last reminder, under 0, and of the first sight of its requests, under their places
        self.since: dict[tuple[int, int], int] = {}
        self.tried: dict[str, tuple[int, int]] = {}

    def next(self, state: State, tick: int) -> str | None:
        """The words of the first step that is due. One that added nothing isn't due again before the next tick or record."""
        self.tried = {words: at for words, at in self.tried.items() if at == (tick, state.count)}
        for words in self.due(state, tick):
            if words not in self.tried:
                self.tried[words] = tick, state.count
                return words
        return None

    def told(self, words: str, state: State, tick: int) -> None:
        """A step was taken: what leaves no record is noted here."""
        name, _, number = words.partition(" ")
        if name == "check":
            self.checked = tick
        if name == "nudge":
            self.since[int(number), 0] = tick
        self.since = {it: at for it, at in self.since.items() if it[0] in state.polls}

    def due(self, state: State, tick: int) -> Iterator[str]:
        """All steps that are due: first the work that others wait for."""
        for poll, part in state.sessions.items():
            if part.is_committed and not part.has_voted:
                yield f"work {poll.poller} {poll.number}"
            if tick - part.joined >= self.numbers["expire" if part.is_committed else "expire-bare"]:
                yield f"expire {poll.poller} {poll.number}"
        for number, own in state.polls.items():
            yield from self._of_poll(number, own, tick)
        if self.checked is None or tick - self.checked >= self.numbers["check"]:
            yield "check"
        running = {poll.au for poll in state.polls.values()}
        for au in self.aus:
            opened = state.aus.get(au)
            if au not in running and (opened is None or tick - opened >= self.numbers["open"]):
                yield f"open {au}"

    def _of_poll(self, number: int, poll: Poll, tick: int) -> Iterator[str]:
        age = tick - poll.opened
        if poll.is_shut and not poll.asked:
            yield f"tally {number}"
        elif poll.asked and tick - self.since.setdefault((number, poll.asked), tick) >= self.numbers["give-up"]:
            yield f"give-up {number}"
        elif not poll.is_shut and age >= self.numbers["shut"]:
            yield f"shut {number}"
        elif not poll.is_shut and not poll.is_wide and self.outer and age >= self.numbers["outer"]:
            yield f"outer {number}"
        elif tick - self.since.setdefault((number, 0), tick) >= self.numbers["nudge"]:
            yield f"nudge {number}"
