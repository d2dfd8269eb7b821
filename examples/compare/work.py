"""Work for a device, drawn from a seed: transactions, some of them given up or cut, as lines of commands."""
from __future__ import annotations

import random
from bisect import bisect
from dataclasses import dataclass
from itertools import accumulate
from typing import Callable, Iterator, List

from shape import Problem, Shape

Lines = List[str]
OUTCOMES = ("none", "all", "bad")


@dataclass(frozen=True)
class Work:
    """Shares are from 0 to 1."""

    transactions: int = 3000
    least: int = 1
    most: int = 4
    """The pages of a transaction, drawn evenly from `least` to `most`."""
    aborts: float = 0.0
    """The share of transactions that the host gives up when a part of their pages is written."""
    cuts: float = 0.0
    """The share in which power fails at a program or an erase."""
    discards: float = 0.0
    """The share of entries that discard their page."""
    zipf: float = 0.0
    """The exponent of Zipf's law by which pages are drawn; 0 draws them evenly."""
    seed: int = 1

    def check(self, shape: Shape) -> None:
        """Refuses work that cannot be drawn for this device."""
        if not 1 <= self.least <= self.most <= min(shape.pending, shape.logical):
            raise Problem(f"a transaction has 1 to {min(shape.pending, shape.logical)} pages on this device")
        if min(self.aborts, self.cuts, self.discards, self.zipf) < 0 or self.aborts + self.cuts > 1:
            raise Problem("shares are from 0 to 1, those of aborts and cuts together too")


def page_drawer(chance: random.Random, pages: int, exponent: float) -> Callable[[], int]:
    """A function that draws pages: evenly, or the k-th most frequent one with a weight of 1 / k^exponent."""
    if exponent == 0:
        return lambda: chance.randrange(pages)
    by_rank = chance.sample(range(pages), pages)
    sums = list(accumulate(rank**-exponent for rank in range(1, pages + 1)))
    return lambda: by_rank[min(bisect(sums, chance.random() * sums[-1]), pages - 1)]


def distinct_pages(draw: Callable[[], int], count: int) -> List[int]:
    """So many different pages, in the order in which they were drawn."""
    pages: List[int] = []
    while len(pages) < count:
        page = draw()
        if page not in pages:
            pages.append(page)
    return pages


def fill(count: int, pending: int) -> Iterator[Lines]:
    """So many pages once each, in transactions of as many as may be pending."""
    for start in range(0, count, pending):
        pages = range(start, min(start + pending, count))
        yield ["write 0 " + " ".join(f"{page}=01" for page in pages), "finish 0"]


def transaction(chance: random.Random, work: Work, draw: Callable[[], int], tag: int) -> Lines:
    """The commands of one transaction. A cut comes at the first program or erase of one of its steps."""
    pages = distinct_pages(draw, chance.randint(work.least, work.most))
    entries = [f"{page}=~" if chance.random() < work.discards else f"{page}={tag % 255 + 1:02x}" for page in pages]
    opening = f"write {tag} " + " ".join(entries)
    kind, part = chance.random(), chance.randrange(len(pages))
    outcome = chance.choice(OUTCOMES)
    if kind < work.aborts:
        steps = max(part, min(1, len(pages) - 1))
        return [opening, *[f"step {tag}"] * steps, f"abort {tag}"]
    if kind < work.aborts + work.cuts:
        return [opening, *[f"step {tag}"] * part, f"cut 1 {outcome}", f"step {tag}"]
    return [opening, f"finish {tag}"]


def transactions(work: Work, shape: Shape) -> Iterator[Lines]:
    """The work, a transaction at a time. The same work on the same pages gives the same lines."""
    work.check(shape)
    chance = random.Random(work.seed)
    draw = page_drawer(chance, shape.logical, work.zipf)
    for number in range(work.transactions):
        yield transaction(chance, work, draw, number + 1)
