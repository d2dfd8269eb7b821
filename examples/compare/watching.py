"""A small device, looked at after each command: which blocks are erased, and what is cleared first.

The image after the first k commands is that of a run of just these on a blank device. A run gives the same image each
time, so the images are those of one long run.
"""
from __future__ import annotations

from collections import Counter
from dataclasses import dataclass, field
from typing import Dict, Iterable, List, NamedTuple, Set

from images import Record, Slot, erased_blocks, read_slots
from serving import Flash, text_numbers


class Point(NamedTuple):
    """What was seen up to some command."""

    commands: int
    erases: int
    least: int
    """The erases of the block that was erased least often."""
    most: int
    cleared: int
    loose: int
    """The loose records on the flash at that moment."""


class Look(NamedTuple):
    """A device at one moment."""

    slots: List[Slot]
    current: Dict[int, int]
    """The version of each page that counts, 0 for none."""
    programs: int
    erases: int

    def loose(self) -> Set[Record]:
        """The records above the version that counts: what is left of transactions that did not come to their end."""
        records = {slot.record for slot in self.slots if slot.record}
        return {record for record in records if record.version > self.current.get(record.page, 0)}


@dataclass
class Watched:
    """What was seen of one device."""

    erases: Dict[int, int] = field(default_factory=Counter)
    """By block."""
    told: int = 0
    """How many erases the device itself counted."""
    cleared: int = 0
    """Loose records that went because a page was to be written which they name."""
    clearing: int = 0
    """Blocks erased by steps that had to clear first."""
    stayed: int = 0
    """Loose records that name such a page and stayed."""
    steps: int = 0
    """Steps that wrote a page."""
    blocked: int = 0
    """Those of them that had to clear first."""
    points: List[Point] = field(default_factory=list)

    def point(self, commands: int, blocks: int, loose: int) -> Point:
        erases = [self.erases.get(block, 0) for block in range(blocks)]
        return Point(commands, sum(erases), min(erases), max(erases), self.cleared, loose)


def current_versions(report: Iterable[str]) -> Dict[int, int]:
    """The version of each page that counts, from the lines of a report."""
    found = {}
    for line in report:
        words = line.split()
        if words[0] == "verdict":
            found[int(words[1])] = int(words[words.index("current") + 1])
    return found


def look(flash: Flash, commands: List[str]) -> Look:
    """The device after these commands."""
    replies, image = flash.run_from_blank([*commands, "stats", "explain"])
    place = max(number for number, reply in enumerate(replies) if reply.startswith("stats "))
    numbers = text_numbers(replies[place])
    current = current_versions(replies[place + 1 :])
    return Look(read_slots(image, flash.shape), current, numbers["programs"], numbers["erases"])


def count_step(before: Look, after: Look, command: str, own: Set[Record], watched: Watched) -> None:
    """Counts what one step did. `own` are the records that its transaction has on the flash."""
    new = {slot.record for slot in after.slots if slot.record} - {slot.record for slot in before.slots if slot.record}
    if not command.startswith("step ") or len(new) != 1:
        return
    (written,) = new
    named = {record for record in before.loose() - own if record.mentions_below(written.page, written.version)}
    there = {slot.record for slot in after.slots if slot.record}
    gone = named - there
    watched.steps += 1
    watched.cleared += len(gone)
    watched.stayed += len(named) - len(gone)
    if gone:
        watched.blocked += 1
        watched.clearing += after.erases - before.erases
    own.add(written)


def watch(flash: Flash, first: List[str], commands: List[str], every: int) -> Watched:
    """What the device does at each of the commands that come after the first ones, with a point each so many."""
    watched = Watched()
    blocks = flash.shape.slots // flash.shape.block
    own: Set[Record] = set()
    before = begun = look(flash, first)
    for number, command in enumerate(commands, 1):
        if command.startswith("write "):
            # It does not touch the flash.
            own, after = set(), before
        else:
            after = look(flash, first + commands[:number])
        for block in erased_blocks(before.slots, after.slots, flash.shape):
            watched.erases[block] += 1
        count_step(before, after, command, own, watched)
        if number % every == 0 or number == len(commands):
            watched.points.append(watched.point(number, blocks, len(after.loose())))
        before = after
    watched.told = before.erases - begun.erases
    return watched


def in_steps(parts: Iterable[List[str]]) -> List[str]:
    """The same work with a `step` for each page of a `finish`, so that each is looked at."""
    commands: List[str] = []
    for opening, *others in parts:
        pages = opening.count("=")
        for line in (opening, *others):
            verb, _, tag = line.partition(" ")
            commands += [f"step {tag}"] * pages if verb == "finish" else [line]
    return commands
