"""One flash for all ways to make a commit last: what each programs for the commits of one SQLite history.

The history, and what SQLite writes for it with a rollback journal or a log, come from `examples/database`.
"""
from __future__ import annotations

import os
import sys
import tempfile
from dataclasses import dataclass, replace
from typing import Iterator, List, NamedTuple, Optional, Sequence

sys.path.append(os.path.join(os.path.dirname(os.path.abspath(__file__)), "..", "database"))

from bank import Bank  # noqa: E402
from history import record  # noqa: E402
from journals import Written, journal_lengths, journal_writes, log_writes  # noqa: E402

from counts import total  # noqa: E402
from serving import Flash  # noqa: E402
from shape import Shape  # noqa: E402
from work import fill  # noqa: E402

BLOCK = 8
ROUNDS = 3
"""How often the history is served. The first time brings the flash into its usual state and is not counted."""
# The databases have some 340 pages each.
BANKS = {512: Bank(accounts=7600, transfers=800, kept=200), 4096: Bank(accounts=62000, transfers=800, kept=200)}


class Commit(NamedTuple):
    """The pages that are written for a commit, in their order, each by a number of the device."""

    pages: List[int]


@dataclass(frozen=True)
class Way:
    """A way to make commits last."""

    name: str
    protocol: str
    database: int
    """The pages of the database, which are on the device before the first commit."""
    commits: List[Commit]
    whole: bool
    """Whether a commit is one transaction. Otherwise each page is written by itself."""

    @property
    def logical(self) -> int:
        """The pages of a device that it needs."""
        return max(self.database, 1 + max(page for commit in self.commits for page in commit.pages))

    @property
    def pending(self) -> int:
        return max(len(commit.pages) for commit in self.commits) if self.whole else 1

    @property
    def handed(self) -> float:
        """The pages that it hands over for each commit."""
        return sum(len(commit.pages) for commit in self.commits) / len(self.commits)

    def load(self) -> Iterator[List[str]]:
        """The commands that bring the database to the device."""
        return fill(self.database, self.pending)

    def parts(self) -> Iterator[List[str]]:
        """The commands of each commit. What is in a page does not matter here."""
        for commit in self.commits:
            if self.whole:
                yield ["write 0 " + " ".join(f"{page}=01" for page in commit.pages), "finish 0"]
            else:
                yield [line for page in commit.pages for line in (f"write 0 {page}=01", "finish 0")]


def written_commits(all_written: Sequence[Written], pages: int, page_bytes: int) -> List[Commit]:
    """What SQLite writes for each commit: a journal or log behind so many pages of the database, and its file."""
    commits = []
    for written in all_written:
        beside = [pages + page for page in written.pages(page_bytes)]
        commits.append(Commit([*beside, *(page - 1 for page in written.database)]))
    return commits


def ways_of(page_bytes: int, folder: str, seed: int) -> List[Way]:
    """All ways, for the history of a bank whose database has pages of that size."""
    bank = replace(BANKS[page_bytes], seed=seed)
    history = record(folder, bank, page_bytes)
    commits, pages = history.later_commits(), history.largest()
    own = [Commit(sorted(page - 1 for page in commit.pages)) for commit in commits if commit.pages]
    journal = journal_writes(commits, journal_lengths(folder, bank, page_bytes))

    def single(name: str, all_written: Sequence[Written]) -> Way:
        return Way(name, "scc", pages, written_commits(all_written, pages, page_bytes), False)

    return [
        single("log, checkpoint at 1000", log_writes(commits, page_bytes, 1000)),
        single("log, checkpoint at 100", log_writes(commits, page_bytes, 100)),
        Way("transactions, scc", "scc", pages, own, True),
        Way("transactions, bpcc", "bpcc", pages, own, True),
        single("rollback journal", journal),
        Way("one page at a time", "scc", pages, own, False),
    ]


def load_ways(page_bytes: int, folder: str, seed: int) -> List[Way]:
    """The same, with the database's files in a folder of their own within this one."""
    with tempfile.TemporaryDirectory(dir=folder) as own:
        return ways_of(page_bytes, own, seed)


def device_for(way: Way, slots: int, page_bytes: int) -> Optional[Shape]:
    """The device of so many slots on which a way is served, or None where it does not fit."""
    shape = Shape(page_bytes, BLOCK, slots // BLOCK, 1, way.logical, way.pending)
    return shape if shape.fits else None


def programs_by_commit(program: str, way: Way, slots: int, page_bytes: int) -> Optional[float]:
    """The pages that a device of so many slots programs for each commit, collections included."""
    shape = device_for(way, slots, page_bytes)
    if shape is None:
        return None
    once = list(way.parts())
    with Flash(program, shape, way.protocol) as flash:
        count = total(flash, [*way.load(), *once], once * (ROUNDS - 1))
    return count.programs / (len(way.commits) * (ROUNDS - 1))
