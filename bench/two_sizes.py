#!/usr/bin/env python3
"""The same work on a device of 4096 slots and on one of 65536, as a table.

    two_sizes.py EXE [--protocol scc|bpcc] [--repeat N] [--limit SECONDS] [--folder FOLDER]

EXE is `crates/txflash/out/txflash`, which `./txflash` builds. The devices have pages of 16 bytes and blocks of 4 slots
on 4 dies. As many pages as fit are logical, and each of them was written once, by a transaction of its own. Each work
is run N times on copies of their images, and the least time is told: processor time, user and system, in seconds. The
third number is how often the first goes into the second, and the fourth the same where opening and saving is taken from
both. The last one is the most memory that the run on 65536 slots held at once, in MiB. A work that takes longer than
the limit is told as `over` it.
"""
from __future__ import annotations

import argparse
import random
import tempfile
from typing import Callable, Dict, List, Optional

from runs import COPY, MEMORY, Bench, Run, expect, filling

PAGES = 4  # slots of a block
DIES = 4
PENDING = 16
SLOTS = (4096, 65536)
REWRITES = 20000


def logical(slots: int) -> int:
    """As many pages as a device may have."""
    return slots - PAGES - PENDING - 1


def rewrites(pages: int) -> List[str]:
    """Single pages, one after another."""
    rng = random.Random(1)
    lines = []
    for i in range(REWRITES):
        lines += ["write 1 %d=%02x" % (rng.randrange(pages), i & 255), "finish 1"]
    return lines


def pairs(pages: int) -> List[str]:
    """Transactions of two pages."""
    rng = random.Random(2)
    lines = []
    for i in range(REWRITES):
        first, second = rng.sample(range(pages), 2)
        lines += ["write 1 %d=%02x %d=%02x" % (first, i & 255, second, i & 255), "finish 1"]
    return lines


def halves(pages: int) -> List[str]:
    """Transactions of two pages that are given up after the first."""
    rng = random.Random(3)
    lines = []
    for _ in range(REWRITES):
        lines += ["write 1 %d=01 %d=02" % tuple(rng.sample(range(pages), 2)), "step 1", "abort 1"]
    return lines


def reads(pages: int) -> List[str]:
    """Single pages."""
    rng = random.Random(4)
    return ["read %d" % rng.randrange(pages) for _ in range(3 * REWRITES)]


def collections(pages: int) -> List[str]:
    """A rewrite, and a block that is won back."""
    rng = random.Random(5)
    lines = []
    for i in range(REWRITES):
        lines += ["write 1 %d=%02x" % (rng.randrange(pages), i & 255), "finish 1", "collect"]
    return lines


def cuts(pages: int) -> List[str]:
    """A hundred power cuts, after each of which the device is opened anew."""
    rng = random.Random(6)
    lines = []
    for _ in range(100):
        lines += ["cut 1 all", "write 1 %d=01" % rng.randrange(pages), "finish 1"]
    return lines


WORK: Dict[str, Callable[[int], List[str]]] = {
    "20000 rewrites of single pages": rewrites,
    "20000 transactions of two pages": pairs,
    "20000 transactions given up half-way": halves,
    "20000 rewrites, with a `collect` after each": collections,
    "60000 reads": reads,
    "100 power cuts": cuts,
}


def make_image(bench: Bench, protocol: str, slots: int) -> str:
    """Makes a device of so many slots, all of whose pages are written, and answers the name of its image."""
    name = "%d.img" % slots
    words = [protocol, 16, PAGES, slots // PAGES // DIES, DIES, logical(slots), PENDING]
    expect(bench.call("format", name, *map(str, words)))
    bench.serve("run", name, filling(logical(slots)))
    return name


def least(bench: Bench, image: str, lines: List[str]) -> Optional[Run]:
    """The least of some runs of these commands on copies of an image; none where one took too long."""
    return bench.least("run", COPY, bench.write_commands(lines), image=image)


def row(name: str, runs: List[Optional[Run]], opened: List[Optional[Run]], limit: float) -> str:
    """A line of the table. What opening takes is taken from both, where there is something to take it from."""
    told = ["over %d" % limit if one is None else "%.3f" % one.processor for one in runs]
    factors = ["", ""]
    small, large = runs
    if small and large:
        factors[0] = "%.1f" % (large.processor / small.processor)
        if all(opened):
            rest = [one.processor - first.processor for one, first in zip(runs, opened)]
            factors[1] = "%.1f" % (rest[1] / rest[0]) if min(rest) > 0 else ""
    peak = "%.0f" % (large.peak / 1024) if large else ""
    return "| %s |" % " | ".join([name, *told, *factors, peak])


def print_table(bench: Bench, protocol: str) -> None:
    images = [make_image(bench, protocol, slots) for slots in SLOTS]
    opened = [least(bench, image, []) for image in images]
    print("| Work, %s | %d slots | %d slots | times | times, but for opening | peak, MiB |" % (protocol, *SLOTS))
    print("|---|---|---|---|---|---|")
    print(row("no command: opening and saving", opened, [None, None], bench.limit), flush=True)
    for name, lines in WORK.items():
        runs = [least(bench, image, lines(logical(slots))) for image, slots in zip(images, SLOTS)]
        print(row(name, runs, opened, bench.limit), flush=True)
    print(row("`explain`", [bench.least("explain", image) for image in images], [None, None], bench.limit))


def main() -> None:
    words = argparse.ArgumentParser(description="The same work on two sizes of a device.")
    words.add_argument("exe")
    words.add_argument("--protocol", choices=("scc", "bpcc"), default="scc")
    words.add_argument("--repeat", type=int, default=3)
    words.add_argument("--limit", type=float, default=120.0)
    words.add_argument("--folder", default=MEMORY)
    said = words.parse_args()
    with tempfile.TemporaryDirectory(dir=said.folder) as folder:
        print_table(Bench(said.exe, folder, said.repeat, said.limit), said.protocol)


if __name__ == "__main__":
    main()
