"""Messages (docs/FORMATS.md), and what those of a run say, by its report and its journals."""

from __future__ import annotations

from typing import Any

from lks import hashes
from lks.fields import BE16, BE32, BLOCK, HASH, HASHES, INDEX, KIND, NOMINEES, PROOF, YES_OR_NO
from lks.fields import BadBytes, Family, PollName, whole
from lks.journal import Asked, Committed, Ended, Joined, Journals, PollOpened, Record, RepairBad, Replaced, Voted
from lks.journal import of_kind, only, references, versions
from lks.plan import Peer, Plan
from lks.report import Event, Report
from lks.script import Script, Step

# The table "Messages" of docs/FORMATS.md.
Message = Any
MESSAGES = Family()
Poll = MESSAGES.kind(1, "Poll", number=BE32, au=BE16)
PollChallenge = MESSAGES.kind(2, "PollChallenge", number=BE32, yes=YES_OR_NO)
PollProof = MESSAGES.kind(3, "PollProof", number=BE32, nonce=HASH, hash=KIND, proof=PROOF)
Nominate = MESSAGES.kind(4, "Nominate", number=BE32, nominees=NOMINEES)
Vote = MESSAGES.kind(5, "Vote", number=BE32, hashes=HASHES, proof=PROOF)
RepairRequest = MESSAGES.kind(6, "RepairRequest", number=BE32, block=INDEX)
Repair = MESSAGES.kind(7, "Repair", number=BE32, block=INDEX, content=BLOCK)
Receipt = MESSAGES.kind(8, "Receipt", number=BE32)


def read(data: bytes) -> Message:
    """The message that these bytes spell, or the bytes where they spell none."""
    try:
        return whole(MESSAGES.read, data)
    except BadBytes:
        return data


def write(message: Message) -> bytes:
    """The bytes of a message."""
    return message if isinstance(message, bytes) else MESSAGES.write(message)


def said(plan: Plan, step: Step) -> Message:
    """What a corrupt peer sends in a `forge` or `say` step."""
    if step.name == "forge":
        return read(step.values[2])
    sender, what, receiver, number, *more = step.values
    voter, poller = plan.peers[sender], plan.peers[receiver]
    if what == "vote":
        au, _, blocks = more
        key = hashes.key(poller.hash, receiver, number, hashes.nonce(poller.seed, number), sender, au, plan.aus[au])
        return Vote(number, hashes.vote(poller.hash, key, blocks), voter.proof)
    if what == "proof":
        return PollProof(number, hashes.nonce(voter.seed, number), voter.proof, hash=voter.hash)
    if what == "challenge":
        return PollChallenge(number, more[0] == "yes")
    kinds = {"poll": Poll, "nominate": Nominate, "request": RepairRequest, "repair": Repair, "receipt": Receipt}
    return kinds[what](number, *more)


def _sent(event: Event, peer: Peer, records: list[Record]) -> Message:
    """What a peer sent in a step of its own, all messages of which are alike, with its records after it."""
    number = event.values.get("number", -1)
    if event.name == "work":
        return Vote(number, only(records, Voted, poll=PollName(event.values["poller"], number)).hashes, peer.proof)
    if event.name == "open":
        number = of_kind(records, PollOpened)[-1].number
    requests = [it for it in records if isinstance(it, (Asked, RepairBad, Replaced)) and it.number == number]
    if event.name in ("tally", "nudge") and requests and isinstance(requests[-1], Asked):
        return RepairRequest(number, requests[-1].block)
    if event.name in ("tally", "shut"):
        return Receipt(number)
    return Poll(number, only(records, PollOpened, number=number).au)


class Bag:
    """All messages that were sent in a run.

    Neither report nor journals have what honest peers sent. It follows from what they noted, from what they answered, and
    of corrupt peers from the script. `records` has those of each honest peer, and `written` how many of them it had after
    each of its events.
    """

    def __init__(self, script: Script, report: Report, journals: Journals) -> None:
        self.plan = script.plan
        self.sent = [(event, place) for event in report.events for place in range(event.sends)]
        forged = [event.number for event in report.events if event.name == "forge"]
        self.sayings = dict(zip(forged, (step for step in script.steps if step.name in ("forge", "say"))))
        self.records = {peer.id: journals.records(peer.id) for peer in self.plan.honest()}
        self.written: dict[int, int] = {}
        count = {peer.id: len(peer.copies) for peer in self.plan.honest()}
        for event in report.events:
            if event.peer in count:
                count[event.peer] += len(event.notes)
                self.written[event.number] = count[event.peer]

    def message(self, number: int) -> Message:
        """The message with this number, or its bytes where they spell none."""
        event, place = self.sent[number]
        if event.name == "forge":
            return said(self.plan, self.sayings[event.number])
        peer = self.plan.peers[event.values["peer"]]
        records = self.records[peer.id][: self.written[event.number]]
        if event.name != "deliver":
            return _sent(event, peer, records)
        return self._answer(self.message(event.values["message"]), event.values["sender"], peer, records, place)

    def _answer(self, message: Message, sender: int, peer: Peer, records: list[Record], place: int) -> Message:
        """What a peer answers a message, with its records after that: the first of its messages, or the second."""
        number, poll = message.number, PollName(sender, message.number)
        if isinstance(message, Poll):
            return PollChallenge(number, bool(of_kind(records, Joined, poll=poll)) and not of_kind(records, Ended, poll=poll))
        if isinstance(message, PollChallenge):
            opened = only(records, PollOpened, number=number)
            return PollProof(number, opened.nonce, peer.proof, hash=opened.hash)
        if isinstance(message, PollProof) and place == 0:
            draws = hashes.Draws(peer.seed, 5, sender * 65_536 + number % 65_536)
            return Nominate(number, draws.pick(references(self.plan, peer, records), 8))
        if isinstance(message, PollProof):
            return Vote(number, only(records, Voted, poll=poll).hashes, peer.proof)
        assert isinstance(message, RepairRequest), f"{message} has no answer"
        au, version = only(records, Joined, poll=poll).au, only(records, Committed, poll=poll).version
        return Repair(number, message.block, versions(records, au)[version][message.block])
