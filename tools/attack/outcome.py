"""What came of a run of attack.course: it is read anew, checked, and summed up."""

from __future__ import annotations

from bisect import bisect_left
from collections import Counter
from collections.abc import Iterator
from dataclasses import dataclass

from attack.course import Course, Settings, good_blocks
from lks import journal, play, report
from lks.fields import PollName
from lks.journal import Committed, PollOpened, Replaced, VoteIn, of_kind, only, versions
from lks.plan import MOST_EVENTS, Plan

OUTCOMES = ("agreed", "inquorate", "split", "no-supplier", "running")
MEASURES = ("rounds", "events", *OUTCOMES, "alarms", "damaged", "healed", "turned bad", "bad at the end", "rounds until healed")
MEASURES += ("list length", "corrupt listed %")
# What is told of a run: a number for each measure, or none where there is nothing to measure.
Measures = dict[str, int | None]


def order_faults(run: report.Report) -> Iterator[str]:
    """Events are in order, and each message was sent before, and by whom it is said, and is delivered or lost once."""
    gone: set[int] = set()
    for place, event in enumerate(run.events, 1):
        if event.number != place:
            yield f"event {event.number} stands at place {place}"
        if "message" not in event.values:
            continue
        number, sender = event.values["message"], run.senders[event.values["message"]]
        if sender.number >= event.number:
            yield f"message {number} is delivered at event {event.number}, and sent at event {sender.number}"
        if event.name == "deliver" and event.values["sender"] != sender.peer:
            yield f"message {number} is said to come from peer {event.values['sender']}, and came from {sender.peer}"
        if number in gone:
            yield f"message {number} is delivered or lost twice"
        gone.add(number)
    if len(run.events) < MOST_EVENTS and len(gone) < len(run.senders):
        yield f"{len(run.senders) - len(gone)} messages wait at the end"


def sum_faults(run: report.Report) -> Iterator[str]:
    """The report's last lines are what its events add up to."""
    notes: Counter[tuple[int | None, str, int]] = Counter()
    for event, note in run.notes():
        notes[event.peer, note.name, note.values.get("au" if note.name == "replaced" else "number", 0)] += 1
    for (peer, au), version in run.copies.items():
        if notes[peer, "replaced", au] != version:
            yield f"copy {peer} {au} is told to be at version {version}, after {notes[peer, 'replaced', au]} replacements"
    closed = {(event.peer, note.values["number"]): note.word for event, note in run.notes() if note.name == "closed"}
    for it in run.polls:
        if notes[it.peer, "vote-in", it.number] != it.inner + it.outer:
            yield f"poll {it.peer}.{it.number} is told with {it.inner} and {it.outer} votes"
        if closed.get((it.peer, it.number), "running") != it.outcome:
            yield f"poll {it.peer}.{it.number} is told to be {it.outcome}"
    if len(run.polls) != sum(note.name == "opened" for _, note in run.notes()):
        yield f"{len(run.polls)} polls are told"
    rung = sum(note.name == "overdue" or note.word.startswith(("split", "no-supplier")) for _, note in run.notes())
    if len(run.alarms) != rung:
        yield f"{len(run.alarms)} alarms are told, and {rung} rang"


def _is_against(journals: journal.Journals, poll: PollName, it: Replaced, voter: int, good: tuple[bytes, ...]) -> bool:
    """Whether a voter may be against a good block: it is corrupt, or its committed version was bad there or before."""
    if not journals.script.plan.peers[voter].honest:
        return True
    records = journals.records(voter)
    kept = versions(records, it.au)[only(records, Committed, poll=poll).version]
    return kept[: it.block + 1] != good[: it.block + 1]


def vote_faults(journals: journal.Journals, good: tuple[bytes, ...]) -> Iterator[str]:
    """A good block is replaced by a bad one only where more than D of the votes behind that are of corrupt peers, or of
    honest ones whose committed version was bad at that block or before it."""
    plan = journals.script.plan
    for peer, place, it, was in replacements(journals):
        if was != good[it.block] or it.content == was:
            continue
        before = journals.records(peer)[:place]
        opened = only(before, PollOpened, number=it.number)
        most = opened.limits.minority if opened.limits else plan.rules["minority"]
        voters = [vote.voter for vote in of_kind(before, VoteIn, number=it.number) if vote.voter in opened.inner]
        count = sum(_is_against(journals, PollName(peer, it.number), it, voter, good) for voter in voters)
        if count <= most:
            yield f"peer {peer} lost the good block {it.block} in its poll {it.number} to {count} votes"


def evidence_faults(journals: str, count: int) -> Iterator[str]:
    """The program's checker says yes to these journals, with so many replaced blocks."""
    ended = play.run("evidence", data=journals.encode())
    if (ended.status, ended.out) != (0, f"evidence yes {count}\n".encode()):
        yield f"`lockss evidence` ends with {ended.status}: {(ended.out or ended.err).decode().strip()}"


def replacements(journals: journal.Journals) -> Iterator[tuple[int, int, Replaced, bytes]]:
    """Each replaced block: its peer, its place in the journal, its record, and the block that was there."""
    for peer in journals.script.plan.honest():
        now = {au: list(blocks) for au, blocks in peer.copies.items()}
        for place, it in enumerate(journals.records(peer.id)):
            if isinstance(it, Replaced):
                yield peer.id, place, it, now[it.au][it.block]
                now[it.au][it.block] = it.content


def _lists(plan: Plan, journals: journal.Journals) -> Measures:
    """How long honest peers' lists are at the end, and how many of a hundred entries are corrupt, both rounded down."""
    lists = [journal.references(plan, peer, journals.records(peer.id)) for peer in plan.honest()]
    corrupt, length = sum(not plan.peers[it].honest for one in lists for it in one), sum(map(len, lists))
    return {"list length": length // len(lists), "corrupt listed %": 100 * corrupt // length if length else None}


def _life(run: report.Report, rounds: list[int], healed: set[tuple[int, int, int]]) -> int | None:
    """The round in which the last of these replacements, by peer, poll and block, was made."""
    at = [
        event.number for event, note in run.notes()
        if note.name == "replaced" and (event.peer, note.values["number"], note.values["block"]) in healed
    ]
    return 1 + bisect_left(rounds, max(at)) if at else None


def measures(run: play.Run, good: tuple[bytes, ...], rounds: list[int]) -> Measures:
    """The measures of a run, of which the number of events at the end of each round is told."""
    plan, told = run.script.plan, run.report
    names = Counter(next(name for name in OUTCOMES if it.outcome.startswith(name)) for it in told.polls)
    last = [versions(run.journals.records(peer.id), au)[-1] for peer in plan.honest() for au in peer.copies]
    first = [copy for peer in plan.honest() for copy in peer.copies.values()]
    damaged, bad = (sum(block != good[at] for copy in copies for at, block in enumerate(copy)) for copies in (first, last))
    changes = [(peer, it, was, good[it.block]) for peer, _, it, was in replacements(run.journals)]
    healed = {(peer, it.number, it.block) for peer, it, was, wanted in changes if was != wanted == it.content}
    turned = sum(was == wanted != it.content for _, it, was, wanted in changes)
    found = {"rounds": len(rounds), "events": len(told.events), **{name: names[name] for name in OUTCOMES}}
    found |= {"alarms": len(told.alarms), "damaged": damaged, "healed": len(healed), "turned bad": turned}
    found |= {"bad at the end": bad, "rounds until healed": _life(told, rounds, healed)}
    return found | _lists(plan, run.journals)


def faults(run: play.Run, good: tuple[bytes, ...], told: Measures) -> list[str]:
    """All that is wrong with a run."""
    found = [*order_faults(run.report), *sum_faults(run.report), *vote_faults(run.journals, good)]
    found += evidence_faults(play.told("journals", run.script.text()), sum(run.report.copies.values()))
    if told["damaged"] + told["turned bad"] != told["healed"] + told["bad at the end"]:
        found.append(f"good and bad blocks don't add up: {told}")
    return found


@dataclass(frozen=True)
class Result:
    """What came of a run: its measures, what is wrong with it, and its script, which replays alone."""

    seed: int
    measures: Measures
    faults: list[str]
    script: str


def attempt(strategy: str, given: Settings, seed: int) -> Result:
    """Makes a run and looks at it."""
    course, good = Course(strategy, given, seed), good_blocks(given)
    course.play()
    run = play.Run(course.script)
    told = measures(run, good, course.rounds)
    found = faults(run, good, told)
    if run.report.events != course.report.events:
        found.append("the whole run isn't what its steps were")
    return Result(seed, told, found, run.script.text())
