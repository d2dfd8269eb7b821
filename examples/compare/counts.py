"""What a device did for its host, counted from its replies alone."""
from __future__ import annotations

from dataclasses import dataclass, fields
from typing import Dict, Iterable, Iterator, List, Tuple

from serving import Flash, runs_of, text_numbers


@dataclass(frozen=True)
class Count:
    programs: int = 0
    """Pages that the flash programmed, broken programs left out."""
    erases: int = 0
    """Blocks that it erased."""
    own: int = 0
    """Those of the programs that wrote a page of a transaction. The others are copies of collections."""
    written: int = 0
    """Pages of the transactions that were answered `done`: what the host wrote."""
    done: int = 0
    aborted: int = 0
    cut: int = 0
    refused: int = 0

    def since(self, other: Count) -> Count:
        return Count(*(getattr(self, field.name) - getattr(other, field.name) for field in fields(Count)))

    @property
    def copies(self) -> int:
        return self.programs - self.own

    @property
    def amplification(self) -> float:
        """Pages programmed for each page that the host wrote."""
        return self.programs / self.written if self.written else 0.0

    @property
    def erases_by_page(self) -> float:
        """Blocks erased for each 100 pages that the host wrote."""
        return 100 * self.erases / self.written if self.written else 0.0


class Counter:
    """Counts replies one by one. Programs and erases are known at each reply of `stats`."""

    def __init__(self) -> None:
        self.numbers = {field.name: 0 for field in fields(Count)}
        self.before = (0, 0)
        """The programs and erases of earlier runs: `stats` counts those of its own."""
        self.open: Dict[str, Tuple[int, int]] = {}
        """By its tag how many pages of a transaction are written, and how many it has."""

    @property
    def count(self) -> Count:
        return Count(**self.numbers)

    def next_run(self) -> None:
        """A run begins with nothing open."""
        self.before = (self.numbers["programs"], self.numbers["erases"])
        self.open = {}

    def take(self, reply: str) -> None:
        words = reply.split()
        numbers = self.numbers
        if words[0] == "open":
            self.open[words[1]] = (0, int(words[2]))
        elif words[0] == "wrote":
            self.open[words[1]] = (int(words[2]), int(words[3]))
            numbers["own"] += 1
        elif words[0] == "done":
            written, pages = self.open.pop(words[1])
            numbers["own"] += pages - written
            numbers["written"] += pages
            numbers["done"] += 1
        elif words[0] == "stats":
            told = text_numbers(reply)
            numbers["programs"] = self.before[0] + told["programs"]
            numbers["erases"] = self.before[1] + told["erases"]
        elif words[0] in ("aborted", "cut", "refused"):
            self.open = {} if words[0] == "cut" else self.open
            numbers[words[0]] += 1


def marked_parts(parts: Iterable[List[str]], every: int) -> Iterator[List[str]]:
    """The parts with a `stats` behind each so many of them, and behind the last."""
    number = 0
    for number, part in enumerate(parts, 1):
        yield [*part, "stats"] if number % every == 0 else part
    if number % every:
        yield ["stats"]


def points(flash: Flash, first: Iterable[List[str]], parts: Iterable[List[str]], every: int) -> List[Count]:
    """The counts after each so many parts, from the end of what comes first, which is counted as nothing."""
    counter = Counter()
    found: List[Count] = []
    for run in runs_of([*first, ["stats"], *marked_parts(parts, every)]):
        counter.next_run()
        # The last reply tells what a run did that ends between two points.
        *replies, last = flash.run([*run, "stats"])
        for reply in replies:
            counter.take(reply)
            if reply.startswith("stats "):
                found.append(counter.count)
        counter.take(last)
    return [count.since(found[0]) for count in found[1:]]


def total(flash: Flash, first: Iterable[List[str]], parts: List[List[str]]) -> Count:
    """What the device did for these parts."""
    return points(flash, first, parts, len(parts) + 1)[-1]
