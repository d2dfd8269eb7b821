#!/usr/bin/env python3
"""What commits of SQLite cost in a live device, beside SQLite's own log and journal, on one disk in one run.

    cost.py [--rounds N] [--room FOLDER] [--print] [--also EXE WORDS]..

In each round each way makes commits that change 1, 3 and 8 pages of a table, and of all rounds the median counts. The
numbers go into README.md between its two marks, and the picture into cost.svg; with --print they go to the output
alone. FOLDER is where the files are made: a memory disk is refused. EXE is another flash_serve, which gets a row, and
WORDS say which: that of an older commit, in a copy of this repository, say."""
from __future__ import annotations

import argparse
import os
import platform
import subprocess
import statistics
import sys
import tempfile
import textwrap
import time
from dataclasses import dataclass
from typing import Dict, List, NamedTuple, Optional, Sequence, Tuple, Union

HERE = os.path.dirname(os.path.abspath(__file__))
sys.path.insert(0, os.path.join(HERE, "..", "python"))

from bars import Group, Panel, svg  # noqa: E402
from images import write_blank  # noqa: E402
from txflash import NoProgram, found_program  # noqa: E402

COMMITS, BARE = os.path.join(HERE, "out", "commits"), os.path.join(HERE, "out", "bare")
README, PICTURE = os.path.join(HERE, "README.md"), os.path.join(HERE, "cost.svg")
BEGIN, END = "<!-- cost.py writes from here -->", "<!-- to here -->"
MEMORY_DISKS = ("tmpfs", "ramfs", "devtmpfs")
# How many commits that change so many pages a round has. The log comes to two checkpoints at least.
COUNTS = {1: 2100, 3: 700, 8: 270}


class Way(NamedTuple):
    """A way to make commits last, the device that it takes, and the program of that, if it is another one."""

    name: str
    word: str
    device: Optional[Tuple[int, int, int, int, int, int]] = None
    program: Optional[str] = None
    command: str = COMMITS


# A database of some 410 pages on 1024 and on 512 slots, in blocks of 32.
LESS, MORE = (4096, 32, 32, 1, 420, 32), (4096, 32, 16, 1, 420, 32)
LOG, DEVICE = Way("write-ahead log", "log"), Way("device, 40 % full", "device", LESS)
LINES = Way("the same, by its lines alone", "lines", LESS, command=BARE)
CALLS = Way("the calls of that alone", "calls", command=BARE)
WAYS = (LOG, Way("rollback journal", "journal"), DEVICE, LINES, CALLS, Way("device, 80 % full", "device", MORE))


@dataclass
class Measured:
    """The commits of a round, by one way and of one number of pages: microseconds for the reading of a page before
    them, and for each of them, and the bytes that both processes wrote for all."""

    reading: float
    taken: List[float]
    written: int

    def part(self, percent: int) -> float:
        """So many percent of the commits took no longer, in milliseconds."""
        return sorted(self.taken)[min(len(self.taken) * percent // 100, len(self.taken) - 1)] / 1000

    def each_second(self) -> float:
        return 1e6 * len(self.taken) / sum(self.taken)

    def numbers(self) -> List[float]:
        """As in the columns of the table."""
        return [self.each_second(), self.part(50), self.part(99), self.written / len(self.taken) / 1024]


def measured_round(lines: Sequence[str]) -> Measured:
    """What the program of commits says of a round."""
    return Measured(float(lines[0].split()[1]), [float(it) for it in lines[1:-1]], int(lines[-1].split()[1]))


Rounds = Dict[Tuple[Way, int], List[Measured]]
Results = Dict[Tuple[Way, int], List[float]]
COLUMNS = ("commits a second", "median, ms", "99 %, ms", "KiB written")
FORMATS = ("{:.0f}", "{:.3f}", "{:.2f}", "{:.1f}")


def say(way: Way, *words: str) -> List[str]:
    """What the program of a way says."""
    around = {**os.environ, **({"FLASH_SERVE_PROGRAM": way.program} if way.program else {})}
    done = subprocess.run([way.command, *words], stdout=subprocess.PIPE, stderr=subprocess.PIPE, text=True, env=around)
    if done.returncode:
        raise SystemExit(f"cost: {' '.join(words)}: {done.stdout.strip()} {done.stderr.strip()}")
    return done.stdout.splitlines()


def disk_of(folder: str) -> Tuple[str, str]:
    """The device and the kind of the file system that has a folder."""
    folder, best = os.path.realpath(folder), ("", "", "")
    with open("/proc/mounts", encoding="utf-8") as file:
        for line in file:
            device, place, kind = line.split(" ")[:3]
            if (folder + "/").startswith(place.rstrip("/") + "/") and len(place) >= len(best[0]):
                best = (place, device, kind)
    return best[1], best[2]


def processor() -> str:
    with open("/proc/cpuinfo", encoding="utf-8") as file:
        names = [line.split(":", 1)[1].strip() for line in file if line.startswith("model name")]
    return f"{len(names)} processors {names[0]}" if names else platform.machine()


def sync_time(folder: str) -> float:
    """The median of what it takes to change a page of a file and to sync that, in milliseconds."""
    taken = []
    with open(os.path.join(folder, "sync"), "wb", buffering=0) as file:
        file.write(bytes(1 << 20))
        os.fsync(file.fileno())
        for place in range(256):
            begun = time.perf_counter()
            os.pwrite(file.fileno(), b"x" * 4096, 4096 * place)
            os.fdatasync(file.fileno())
            taken.append(time.perf_counter() - begun)
    return 1000 * statistics.median(taken)


def make_image(path: str, device: Tuple[int, int, int, int, int, int]) -> None:
    """An image that was written a page at a time. What is written in one call the system may keep in one piece of
    memory, and then each sync of a page looks at all of that."""
    write_blank(path + ".whole", "scc", *device)
    with open(path + ".whole", "rb") as whole, open(path, "wb", buffering=0) as file:
        for page in iter(lambda: whole.read(4096), b""):
            file.write(page)
        os.fsync(file.fileno())
    os.unlink(path + ".whole")


def measure(ways: Sequence[Way], folder: str, rounds: int) -> Rounds:
    """All ways by turns, so that what the disk does meanwhile meets them alike."""
    results: Rounds = {(way, pages): [] for way in ways for pages in COUNTS}
    files = {way: os.path.join(folder, f"{place}.{way.word}") for place, way in enumerate(ways)}
    for way, file in files.items():
        if way.device:
            make_image(file, way.device)
        say(way, "fill", way.word, file)
        # Until the device collects as often as it will from here on.
        say(way, "measure", way.word, file, "4", "300")
    for number in range(rounds):
        for pages, count in COUNTS.items():
            for place in range(len(ways)):
                way = ways[(place + number) % len(ways)]
                said = say(way, "measure", way.word, files[way], str(pages), str(count))
                results[way, pages].append(measured_round(said))
    return results


def median_of(rounds: Rounds) -> Results:
    """Of each number of a row the median."""
    return {which: [statistics.median(it) for it in zip(*(one.numbers() for one in each))]
            for which, each in rounds.items()}


def reading_time(rounds: Rounds, way: Way) -> float:
    """The least that reading a page took, in microseconds."""
    return min(it.reading for pages in COUNTS for it in rounds[way, pages])


def times_beside_log(results: Results, ways: Sequence[Way], column: int) -> str:
    """How many times as long as with the log, for each size of commits."""
    def times(way: Way, pages: int) -> float:
        mine, other = results[way, pages][column], results[LOG, pages][column]
        return other / mine if column == 0 else mine / other

    return "; ".join(f"{way.name} {' / '.join(f'{times(way, pages):.2f}' for pages in COUNTS)}" for way in ways)


def pages_in_words(pages: int) -> str:
    return f"{pages} page{'s' if pages > 1 else ''}"


def table(results: Results, ways: Sequence[Way]) -> List[str]:
    """A row for each way. A cell has a number for each size of commits."""
    lines = [f"| way | {' | '.join(COLUMNS)} |", f"|{'---|' * (1 + len(COLUMNS))}"]
    for way in ways:
        sizes = [results[way, pages] for pages in COUNTS]
        cells = [" / ".join(map(form.format, column)) for form, column in zip(FORMATS, zip(*sizes))]
        lines.append(f"| {way.name} | {' | '.join(cells)} |")
    return lines


def panels(results: Results, ways: Sequence[Way]) -> List[Panel]:
    def groups(column: int) -> List[Group]:
        return [Group(pages_in_words(pages), [results[way, pages][column] for way in ways]) for pages in COUNTS]

    return [Panel(COLUMNS[0], groups(0)), Panel("KiB written for a commit", groups(3))]


def wrapped_lines(words: str) -> List[str]:
    return textwrap.wrap(words, 120, break_on_hyphens=False)


def report(rounds: Rounds, ways: Sequence[Way], folder: str, sync: float, load: float) -> List[str]:
    device, kind = disk_of(folder)
    number, results = len(rounds[DEVICE, 1]), median_of(rounds)
    commits = ", ".join(f"{count} of {pages_in_words(pages)}" for pages, count in COUNTS.items())
    priority = ", at real-time priority" if os.sched_getscheduler(0) in (os.SCHED_RR, os.SCHED_FIFO) else ""
    shared = ", with all on one of them" if len(os.sched_getaffinity(0)) == 1 else ""
    devices = [way for way in ways if way.word in ("device", "lines")]
    own = " / ".join(f"{results[DEVICE, pages][1] - results[CALLS, pages][1]:.2f}" for pages in COUNTS)
    return [
        *wrapped_lines(
            f"Measured on {processor()}{shared}, {kind} on {device}, SQLite {say(LOG, 'version')[0]}. A sync of a page "
            f"took {sync:.2f} ms there. A cell has commits of {', '.join(map(str, COUNTS))} pages, each the median of "
            f"{number} rounds, a round with {commits}. The load of the machine was {load:.1f} before, and "
            f"{os.getloadavg()[0]:.1f} after{priority}. A page that is not in SQLite's cache takes "
            f"{reading_time(rounds, LOG):.0f} µs from a file in the memory of the system, and "
            f"{reading_time(rounds, DEVICE):.0f} µs from the device."
        ),
        "",
        *table(results, ways),
        "",
        *wrapped_lines(
            f"Median times beside the log's: {times_beside_log(results, devices, 1)}. With checkpoints and "
            f"collections, by commits a second: {times_beside_log(results, devices, 0)}. Of the device's median the "
            f"VFS and flash_serve take {own} ms, and the writes and the sync the rest."
        ),
        "",
        "![The table as a picture](cost.svg)",
    ]


def put_into_readme(lines: Sequence[str]) -> None:
    with open(README, encoding="utf-8") as file:
        before, rest = file.read().split(BEGIN)
    after = rest.split(END)[1]
    with open(README, "w", encoding="utf-8") as file:
        file.write("\n".join([before + BEGIN, "", *lines, "", END + after]))


def main() -> Union[int, str]:
    parser = argparse.ArgumentParser(description=__doc__, formatter_class=argparse.RawDescriptionHelpFormatter)
    parser.add_argument("--rounds", type=int, default=5)
    parser.add_argument("--room", default=os.path.join(HERE, "out"))
    parser.add_argument("--print", action="store_true", dest="is_printed")
    parser.add_argument("--also", nargs=2, action="append", default=[], metavar=("EXE", "WORDS"))
    args = parser.parse_args()
    also = [Way(f"device, 40 % full, {words}", "device", LESS, os.path.abspath(exe)) for exe, words in args.also]
    ways = (*WAYS[:2], *also, *WAYS[2:])
    try:
        found_program(None)
    except NoProgram as problem:
        return f"cost: {problem}"
    if not (os.access(COMMITS, os.X_OK) and os.access(BARE, os.X_OK)):
        return f"cost: there is no program {COMMITS} or {BARE}: give make first"
    if disk_of(args.room)[1] in MEMORY_DISKS:
        return f"cost: {args.room} is on a memory disk, where a sync costs nothing: name a --room on a disk"
    with tempfile.TemporaryDirectory(prefix="cost-", dir=args.room) as folder:
        load, sync = os.getloadavg()[0], sync_time(folder)
        rounds = measure(ways, folder, args.rounds)
        lines = report(rounds, ways, folder, sync, load)
    print("\n".join(lines))
    if not args.is_printed:
        put_into_readme(lines)
        with open(PICTURE, "w", encoding="utf-8") as file:
            shown = [way for way in ways if way.command == COMMITS]
            file.write(svg("Commits of SQLite", [way.name for way in shown], panels(median_of(rounds), shown)))
    return 0


if __name__ == "__main__":
    sys.exit(main())
