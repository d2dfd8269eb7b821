#!/usr/bin/env python3
"""What a commit costs on a device, beside what SQLite's journal and log cost for the same history.

    cost.py PROGRAM [FRAMES]

PROGRAM is the built program, or ./txflash. A table and a chart say how many pages are written for each commit. `handed
over` are the pages that SQLite gives to the system, counted by their bytes. Then come the pages that a device programs
for them, collections included, where its logical pages are 50, 80 and 95 percent of its slots. A transaction has all
pages of a commit. The pages of journal, log and database file are written each by itself, and the log or journal stands
behind the database. A checkpoint comes after so many FRAMES of the log, 100 where that is left out.
"""
from __future__ import annotations

import os
import sys
import tempfile
from concurrent.futures import ThreadPoolExecutor
from dataclasses import dataclass
from typing import Dict, Iterator, List, Sequence

from bank import PAGE_BYTES, Bank
from bench import Bench
from command_files import Piece
from device import Program, load_device
from history import History, record
from journals import Written, journal_lengths, journal_writes, log_writes
from plan import check, load, replay
from problems import Problem
from tables import bars, table
from wal_log import Commit

BANK = Bank(accounts=7600, transfers=800, kept=200)
BLOCK_PAGES = 4
PERCENT = (50, 80, 95)
# SQLite's own number of frames to a checkpoint makes a log of three times this database.
FRAMES, DEFAULT_FRAMES = 100, 1000


@dataclass(frozen=True)
class Way:
    """A way to make commits last."""

    name: str
    protocol: str
    handed: float
    """The pages that it hands over for each commit."""
    area: int
    """The pages of a device that it needs behind those of the database."""
    pieces: List[Piece]


def single_writes(all_written: Sequence[Written], pages: int) -> Iterator[Piece]:
    """The same writes on a device, page by page. What is in a page does not matter here."""
    for written in all_written:
        places = [pages + page for page in written.pages(PAGE_BYTES)] + [page - 1 for page in written.database]
        yield Piece([line for place in places for line in (f"write 0 {place}=01", "finish 0")])


def handed_pages(all_written: Sequence[Written]) -> float:
    """How many pages the bytes of a commit are."""
    return sum(written.bytes(PAGE_BYTES) for written in all_written) / PAGE_BYTES / len(all_written)


def way_of(name: str, all_written: Sequence[Written], pages: int) -> Way:
    area = max(written.pages(PAGE_BYTES).stop for written in all_written)
    return Way(name, "scc", handed_pages(all_written), area, list(single_writes(all_written, pages)))


def ways(history: History, commits: Sequence[Commit], lengths: Sequence[int], frames: int) -> List[Way]:
    pages = history.largest()
    changed = sum(len(commit.pages) for commit in commits) / len(commits)
    transactions = list(replay(commits))
    return [
        *(Way(f"transactions, {protocol}", protocol, changed, 0, transactions) for protocol in ("scc", "bpcc")),
        way_of(f"log, checkpoint at {frames}", log_writes(commits, PAGE_BYTES, frames), pages),
        way_of("journal", journal_writes(commits, lengths), pages),
    ]


def blocks(logical: int, pending: int, percent: int) -> int:
    """How many blocks a device has of whose slots the logical pages are so many percent."""
    least = logical + pending + 1 + BLOCK_PAGES
    return max(round(100 * logical / percent / BLOCK_PAGES), -(-least // BLOCK_PAGES))


def programs(bench: Bench, history: History, way: Way, percent: int) -> float:
    """How many pages a fresh device programs for each commit after the accounts were opened."""
    image = bench.path("cost.img")
    logical, pending = history.largest() + way.area, history.widest()
    numbers = (PAGE_BYTES, BLOCK_PAGES, blocks(logical, pending, percent), 1, logical, pending)
    bench.program.format(image, [way.protocol, *map(str, numbers)])
    device = load_device(image)
    check(history.begun.pages, history.log.commits, PAGE_BYTES, device)
    bench.programs(image, [*load(history.begun.pages, device), *replay(history.opening_commits())])
    return bench.programs(image, way.pieces) / len(history.later_commits())


def count(program: Program, folder: str, history: History, all_ways: Sequence[Way]) -> Dict[str, List[float]]:
    """The row of each way. Each processor serves a device of its own."""

    def cell(way: Way, percent: int) -> float:
        with tempfile.TemporaryDirectory(dir=folder) as own:
            return programs(Bench(program, own), history, way, percent)

    with ThreadPoolExecutor(os.cpu_count()) as pool:
        cells = {way.name: [pool.submit(cell, way, percent) for percent in PERCENT] for way in all_ways}
        return {way.name: [way.handed, *(each.result() for each in cells[way.name])] for way in all_ways}


def report(counted: Dict[str, List[float]]) -> List[str]:
    """The table, and the chart of its column of 80 percent."""
    head = ["pages for each commit", "handed over", *(f"{percent} % full" for percent in PERCENT)]
    rows = [[name, *(f"{number:.1f}" for number in numbers)] for name, numbers in counted.items()]
    chart = bars(list(counted), [numbers[2] for numbers in counted.values()], 40)
    return [*table(head, rows), "", f"{PERCENT[1]} % full:", *chart]


def work(program: Program, frames: int) -> None:
    program.build()
    with tempfile.TemporaryDirectory() as folder:
        history = record(folder, BANK, PAGE_BYTES)
        lengths = journal_lengths(folder, BANK, PAGE_BYTES)
        commits = history.later_commits()
        counted = count(program, folder, history, ways(history, commits, lengths, frames))
    usual = handed_pages(log_writes(commits, PAGE_BYTES, DEFAULT_FRAMES))
    print(f"{len(commits)} commits on a database of {history.largest()} pages")
    print("\n".join(report(counted)))
    print(f"(The log with SQLite's own checkpoint at {DEFAULT_FRAMES} frames hands over {usual:.1f}.)")


def main(words: List[str]) -> int:
    if len(words) not in (1, 2) or not all(word.isdigit() and int(word) for word in words[1:]):
        print((__doc__ or "").strip(), file=sys.stderr)
        return 2
    try:
        work(Program(words[0]), int(words[1]) if words[1:] else FRAMES)
    except (Problem, OSError) as problem:
        print(f"cost: {problem}", file=sys.stderr)
        return 1
    return 0


if __name__ == "__main__":
    sys.exit(main(sys.argv[1:]))
