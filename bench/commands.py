#!/usr/bin/env python3
"""Each command by itself on a device of 4096 slots and on one of 65536, as a table.

    commands.py EXE [--protocol scc|bpcc] [--instructions] [--only WORDS] [--repeat N] [--limit SECONDS]
                [--folder FOLDER]

EXE is `crates/txflash/out/txflash`, which `./txflash` builds. The devices have pages of 16 bytes, those of keys of 128,
and blocks of 4 slots on 4 dies. A blank one has no record. A half stale one has half as many pages as slots: each was
written once, and half of them, as they were drawn, again. So a third of the records are stale, and a quarter of the
blocks blank. A full one has as many pages as fit, each written once. Of keys there are as many as pages; a page may
have several or none.

A time is in microseconds of processor time, user and system: that of a run with many of the command less that of a run
with none, by their number. A command that cannot stand alone is measured with those that it needs, and the run that is
taken off has these without it, as the row says. The least of N runs counts. `times` is how often the time on 4096 slots
goes into that on 65536, where a time below a tenth of a microsecond is taken for that. The last line says what takes
more than twice as long on the larger device. Of a mount and of `explain` that is wanted: they look at each record.

With `--instructions` they are counted in place of the time, by `valgrind`: one run of fewer commands is enough, also on
a machine that is at other work. What waits for memory does not show then. `--only` is for the rows with these words.
"""
from __future__ import annotations

import argparse
import random
import re
import shutil
import subprocess
import sys
import tempfile
from dataclasses import dataclass, field
from typing import Callable, Dict, List, Optional, Set, Tuple

from runs import COPY, MEMORY, Bench, expect

PAGES = 4  # slots of a block
DIES = 4
PENDING = 256
SLOTS = (4096, 65536)
HOWS = ("blank", "half stale", "full")
PROTOCOLS = ("scc", "bpcc")
MANY = 20000  # how often a command is given
FEW = 2000  # where its instructions are counted
LEAST = 0.1  # microseconds that are taken for the least
LEAST_COUNT = 300.0  # and instructions
TWICE = 2.0
COUNTS = ["valgrind", "--tool=callgrind", "--callgrind-out-file=/dev/null"]


@dataclass(frozen=True)
class Device:
    """A device that commands are measured on, and how many of them."""

    protocol: str
    slots: int
    how: str
    keys: bool = False
    many: int = MANY

    @property
    def name(self) -> str:
        return "%s-%d-%s%s.img" % (self.protocol, self.slots, self.how[:4], "-keys" if self.keys else "")

    @property
    def word(self) -> str:
        """The word of the program that serves its commands."""
        return "keys" if self.keys else "run"

    @property
    def logical(self) -> int:
        return self.slots // 2 if self.how == "half stale" else self.slots - PAGES - PENDING - 1

    @property
    def blocks(self) -> int:
        return self.slots // PAGES

    @property
    def records(self) -> int:
        """How many records there are at first."""
        return {"blank": 0, "half stale": self.logical + self.logical // 2, "full": self.logical}[self.how]

    def key(self, number: int) -> str:
        return "%08x" % (number * 2654435761 % 2**32)


@dataclass
class Work:
    """Lines of commands: some that come first, those that are measured, and those that are taken off."""

    many: List[str]
    count: int
    less: List[str] = field(default_factory=list)
    before: List[str] = field(default_factory=list)


@dataclass(frozen=True)
class Row:
    """What is measured: the lines for a device, and on which devices."""

    name: str
    lines: Callable[[Device], Work]
    hows: Tuple[str, ...] = HOWS
    keys: bool = False
    grows: bool = False  # whether it is wanted to take longer on a larger device


def draws(device: Device, count: int, most: Optional[int] = None) -> List[int]:
    """So many numbers of pages."""
    rng = random.Random(count)
    return [rng.randrange(min(most or device.logical, device.logical)) for _ in range(count)]


def pairs(device: Device, count: int) -> List[Tuple[int, int]]:
    """So many pairs of different pages."""
    rng = random.Random(count)
    return [(a, (a + rng.randrange(1, device.logical)) % device.logical) for a in draws(device, count)]


def repetitions(line: str, count: int) -> Work:
    return Work([line] * count, count)


def reads(device: Device) -> Work:
    return Work(["read %d" % page for page in draws(device, device.many)], device.many)


def blank_reads(device: Device) -> Work:
    return Work(["read 0"] * device.many, device.many, before=["write 1 0=~", "finish 1"])


def single_writes(pages: List[int], last: str) -> List[str]:
    """A write of each page by itself, and its last command."""
    return [line for page in pages for line in ("write 1 %d=01" % page, last)]


def aborted_writes(device: Device) -> Work:
    return Work(single_writes(draws(device, device.many), "abort 1"), device.many)


def finishes(device: Device) -> Work:
    pages = draws(device, device.many)
    return Work(single_writes(pages, "finish 1"), device.many, single_writes(pages, "abort 1"))


def large_finishes(device: Device) -> Work:
    rng = random.Random(256)
    batches = [rng.sample(range(device.logical), 256) for _ in range(device.many // 300)]
    writes = ["write 1 " + " ".join("%d=01" % page for page in batch) for batch in batches]
    return Work(
        [line for write in writes for line in (write, "finish 1")],
        len(writes),
        [line for write in writes for line in (write, "abort 1")],
    )


def steps(device: Device) -> Work:
    writes = ["write 1 %d=01 %d=02" % pair for pair in pairs(device, device.many)]
    return Work(
        [line for write in writes for line in (write, "step 1", "abort 1")],
        device.many,
        [line for write in writes for line in (write, "abort 1")],
    )


def steps_together(device: Device) -> Work:
    """Where a die has no room, a `stepall` takes fewer: all are done after four."""
    rng = random.Random(4)
    many, less = [], []
    for _ in range(device.many // 5):
        writes = ["write %d %d=01" % (tag, page) for tag, page in enumerate(rng.sample(range(device.logical), DIES))]
        many += writes + ["stepall"] * DIES
        less += writes + ["abort %d" % tag for tag in range(DIES)]
    return Work(many, device.many // 5, less)


def collections(device: Device) -> Work:
    return repetitions("collect", device.blocks // 4)


def idle_collections(device: Device) -> Work:
    """Once all is collected: of a full device that is what its last opening shut."""
    first = {"blank": 0, "half stale": device.blocks, "full": 4 * DIES}[device.how]
    return Work(["collect"] * (device.many // 10), device.many // 10, before=["collect"] * first)


def arms(device: Device) -> Work:
    return Work(["cut 60000 none", "fault 60000 all", "badread 60000"] * (device.many // 2), 3 * (device.many // 2))


def mounts(device: Device) -> Work:
    count = device.many // 1000 + 1
    lines = [("cut 1 none", "write 1 %d=01" % page, "finish 1") for page in draws(device, count)]
    return Work([line for mount in lines for line in mount], count)


def mounts_by_record(device: Device) -> Work:
    work = mounts(device)
    return Work(work.many, work.count * device.records)


def known_keys(device: Device) -> int:
    return 64 if device.how == "blank" else device.logical


def puts(device: Device) -> Work:
    numbers = draws(device, device.many, known_keys(device))
    return Work(["put %s=02" % device.key(number) for number in numbers], device.many)


def gets(device: Device) -> Work:
    return Work(["get %s" % device.key(number) for number in draws(device, device.many)], device.many)


def absent_gets(device: Device) -> Work:
    return Work(["get %s" % device.key(device.slots + number) for number in draws(device, device.many)], device.many)


WRITTEN = ("half stale", "full")
ROWS = (
    Row("`read`, the same page", lambda device: repetitions("read 0", device.many), WRITTEN),
    Row("`read`, one of all pages", reads, WRITTEN),
    Row("`read` of a blank page", blank_reads),
    Row("`write` of a page and its `abort`", aborted_writes),
    Row("`finish` of a page, less an `abort`", finishes),
    Row("`finish` of 256 pages, less an `abort`", large_finishes),
    Row("`step`, and what an `abort` then takes more", steps),
    Row("four `stepall` of four pages, less four `abort`", steps_together),
    Row("`stepall` of none", lambda device: repetitions("stepall", device.many)),
    Row("`collect`, `collected`", collections, ("half stale",)),
    Row("`collect`, `nothing`", idle_collections),
    Row("`stats`", lambda device: repetitions("stats", device.many // 4)),
    Row("`cut`, `fault` or `badread`", arms),
    Row("a mount", mounts, grows=True),
    Row("a mount, for each record", mounts_by_record, WRITTEN),
    Row("`explain`", lambda _: repetitions("explain", 5), grows=True),
    Row("`put` of a key", puts, keys=True),
    Row("`get`, the same key", lambda device: repetitions("get %s" % device.key(1), device.many), WRITTEN, keys=True),
    Row("`get`, one of all keys", gets, WRITTEN, keys=True),
    Row("`get` of an absent key", absent_gets, keys=True),
)


def count_instructions(words: List[str], folder: str, limit: float) -> Optional[float]:
    """The instructions of a run; none where it took too long."""
    try:
        done = subprocess.run(COUNTS + words, cwd=folder, stdin=subprocess.DEVNULL, capture_output=True, timeout=limit)
    except subprocess.TimeoutExpired:
        return None
    told = re.search(rb"Collected : (\d+)", done.stderr)
    if done.returncode != 0 or told is None:
        sys.exit("%s: status %d: %s" % (" ".join(words), done.returncode, done.stderr.decode("ascii", "replace")))
    return float(told[1])


class Costs:
    """What commands cost, on images that are made once."""

    def __init__(self, bench: Bench, counts: bool) -> None:
        self.bench = bench
        self.counts = counts
        self.made: Set[Device] = set()
        self.bare: Dict[Tuple[Device, Tuple[str, ...]], Optional[float]] = {}

    def make_image(self, device: Device) -> None:
        """Makes the image of a device, if it is not made yet."""
        if device not in self.made:
            words = [device.protocol, 128 if device.keys else 16, PAGES, device.slots // PAGES // DIES, DIES]
            expect(self.bench.call("format", device.name, *map(str, [*words, device.logical, PENDING])))
            self.bench.serve(device.word, device.name, lines_to_make(device))
            self.made.add(device)

    def least(self, device: Device, lines: List[str]) -> Optional[float]:
        """The least cost of some runs with these commands, on copies of an image; none where one took too long."""
        self.make_image(device)
        bench, words = self.bench, [device.word, COPY, self.bench.write_commands(lines)]
        if self.counts:
            shutil.copyfile(bench.path(device.name), bench.path(COPY))
            return count_instructions([bench.exe, *words], bench.folder, bench.limit)
        one = bench.least(*words, image=device.name)
        return None if one is None else 1e6 * one.processor

    def cost_without(self, device: Device, lines: List[str]) -> Optional[float]:
        """The same, which is measured once: other rows may have it too."""
        key = (device, tuple(lines))
        if key not in self.bare:
            self.bare[key] = self.least(device, lines)
        return self.bare[key]

    def of_one(self, device: Device, work: Work) -> Optional[float]:
        """The cost of one command, in microseconds or instructions; none where a run took too long."""
        less = self.cost_without(device, work.before + work.less)
        many = self.least(device, work.before + work.many)
        return None if less is None or many is None else (many - less) / work.count


def lines_to_make(device: Device) -> List[str]:
    """What makes a device half stale or full."""
    if device.how == "blank":
        return []
    numbers = list(range(device.logical))
    if device.how == "half stale":
        numbers += random.Random(2).sample(numbers, device.logical // 2)
    if device.keys:
        return ["put %s=01" % device.key(number) for number in numbers]
    return single_writes(numbers, "finish 1")


def growth(costs: List[Optional[float]], least: float) -> Optional[float]:
    """How often the first cost goes into the second, where what is below the least is taken for that."""
    small, large = costs
    return None if small is None or large is None else max(large, least) / max(small, least)


def cells(found: List[Optional[float]], factor: Optional[float], costs: Costs) -> List[str]:
    """Both costs in words, and how often the first goes into the second."""
    form = "%.0f" if costs.counts else "%.2f"
    told = ["over %d s" % costs.bench.limit if cost is None else form % cost for cost in found]
    return told + ["" if factor is None else "%.1f" % factor]


def print_table(costs: Costs, protocols: Tuple[str, ...], only: str) -> None:
    heads = [head for one in protocols for head in ["%s, %d" % (one, slots) for slots in SLOTS] + ["times"]]
    print("| Command | Device | %s |" % " | ".join(heads))
    print("|%s" % ("---|" * (len(heads) + 2)))
    grown, wanted = [], []
    for row in ROWS:
        for how in row.hows:
            if only not in row.name:
                continue
            line = [row.name, how]
            for protocol in protocols:
                many = FEW if costs.counts else MANY
                devices = [Device(protocol, slots, how, row.keys, many) for slots in SLOTS]
                found = [costs.of_one(device, row.lines(device)) for device in devices]
                factor = growth(found, LEAST_COUNT if costs.counts else LEAST)
                if factor is None or factor > TWICE:
                    (wanted if row.grows else grown).append("%s (%s, %s)" % (row.name, how, protocol))
                line += cells(found, factor, costs)
            print("| %s |" % " | ".join(line), flush=True)
    print()
    said = "; ".join(grown) or "none", "; ".join(wanted) or "none"
    print("More than twice as long: %s. Of %s that is wanted." % said)


def main() -> None:
    words = argparse.ArgumentParser(description="Each command by itself on two sizes of a device.")
    words.add_argument("exe")
    words.add_argument("--protocol", choices=PROTOCOLS)
    words.add_argument("--repeat", type=int, default=5)
    words.add_argument("--limit", type=float, default=120.0)
    words.add_argument("--folder", default=MEMORY)
    words.add_argument("--only", default="", help="the rows whose name has this")
    words.add_argument("--instructions", action="store_true", help="count instructions, by valgrind")
    said = words.parse_args()
    with tempfile.TemporaryDirectory(dir=said.folder) as folder:
        costs = Costs(Bench(said.exe, folder, said.repeat, said.limit), said.instructions)
        print_table(costs, (said.protocol,) if said.protocol else PROTOCOLS, said.only)


if __name__ == "__main__":
    main()
