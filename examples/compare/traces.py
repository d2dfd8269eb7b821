#!/usr/bin/env python3
"""Says the commands of a block trace: a transaction for each request that writes or trims.

    traces.py TRACE [--page BYTES] [--pending N] [--action LETTER]

TRACE is the text that blkparse makes of a trace of blktrace, or an iolog of fio of version 2 or 3. A page of the trace
is so many BYTES of a disk or file, 4096 where that is left out. The pages that it names get numbers of the device in
the order in which they come. A request of more than N pages, 64 where that is left out, becomes several transactions.
Of blktrace's events those with the LETTER count, Q (a request is queued) where that is left out. Reads are left out,
since they change nothing on a flash. A line that is none of such a trace is named, and nothing is said.
"""
from __future__ import annotations

import argparse
import re
import sys
from dataclasses import dataclass, field
from typing import Dict, Iterable, Iterator, List, NamedTuple, Optional, Tuple

# Nothing is written beside the output.
sys.dont_write_bytecode = True

from shape import Problem  # noqa: E402

SECTOR = 512
MOST_PENDING = 256
WRITE, DISCARD = "write", "discard"
# Device, processor, number, seconds, process, action, kind, and then what the action tells.
EVENT = re.compile(r"\s*(\d+,\d+)\s+\d+\s+\d+\s+\d+\.\d+\s+\d+\s+([A-Z]{1,2})\s+([A-Z]+|N)\b\s*(.*)")
PLACE = re.compile(r"(\d+) \+ (\d+)\b")
# What blkparse says after the events.
SUMMARY = re.compile(r"(CPU\d+|Total) \(\S+\):")
FILE_ACTIONS = ("add", "open", "close")
OTHER_ACTIONS = ("read", "wait", "sync", "datasync", "sync_file_range")
ACTIONS = {"write": WRITE, "trim": DISCARD}


class Request(NamedTuple):
    """So many bytes of a disk or file that are written or discarded."""

    kind: str
    file: str
    start: int
    bytes: int


def bad_line(number: int, line: str, what: str) -> Problem:
    return Problem(f"line {number} is {what}: {line.strip()[:80]}")


def read_event(number: int, line: str, action: str) -> Optional[Request]:
    """The request of an event of blktrace, None where it is no write, no discard or another action."""
    found = EVENT.match(line)
    if not found:
        raise bad_line(number, line, "no event of blktrace")
    disk, letter, kind, rest = found.groups()
    # F before W is a flush alone, which has no place. D is a discard, and is told before W.
    wanted = DISCARD if "D" in kind else WRITE if "W" in kind else None
    if letter != action or wanted is None:
        return None
    place = PLACE.match(rest)
    if place is None:
        if kind.startswith("F"):
            return None
        raise bad_line(number, line, "a write of blktrace without a place")
    start, sectors = map(int, place.groups())
    return Request(wanted, disk, start * SECTOR, sectors * SECTOR)


def blktrace_requests(lines: Iterable[str], action: str) -> Iterator[Request]:
    """The requests of the text that blkparse makes. Its summary ends them."""
    for number, line in enumerate(lines, 1):
        if SUMMARY.match(line):
            return
        if line.strip():
            request = read_event(number, line, action)
            if request and request.bytes:
                yield request


def read_io(number: int, line: str, words: List[str]) -> Optional[Request]:
    """The request of a line of an iolog, without its time."""
    if len(words) == 2 and words[1] in FILE_ACTIONS:
        return None
    if len(words) == 4 and words[1] in OTHER_ACTIONS or len(words) in (2, 3) and words[1] in OTHER_ACTIONS[1:]:
        return None
    if len(words) != 4 or words[1] not in ACTIONS or not (words[2].isdigit() and words[3].isdigit()):
        raise bad_line(number, line, "no line of an iolog of fio")
    return Request(ACTIONS[words[1]], words[0], int(words[2]), int(words[3]))


def iolog_requests(lines: Iterable[str]) -> Iterator[Request]:
    """The requests of an iolog. In version 3 each line begins with a time."""
    version = 0
    for number, line in enumerate(lines, 1):
        words = line.split()
        if number == 1:
            version = int(words[2])
            continue
        if not words:
            continue
        if version == 3:
            if not words[0].isdigit():
                raise bad_line(number, line, "no line of an iolog of version 3, which begins with a time")
            words = words[1:]
        request = read_io(number, line, words)
        if request and request.bytes:
            yield request


def requests_of(text: str, action: str = "Q") -> List[Request]:
    """The requests of a trace of either kind, which its first line tells."""
    lines = text.splitlines()
    if not lines:
        raise Problem("the trace is empty")
    if re.fullmatch(r"fio version [23] iolog", lines[0].strip()):
        return list(iolog_requests(lines))
    if lines[0].startswith("fio version"):
        raise bad_line(1, lines[0], "no version of an iolog that this reads, which are 2 and 3")
    return list(blktrace_requests(lines, action))


@dataclass
class Numbers:
    """The pages of a trace, numbered in the order in which they come."""

    page_bytes: int
    found: Dict[Tuple[str, int], int] = field(default_factory=dict)

    def __post_init__(self) -> None:
        if self.page_bytes < 1:
            raise Problem("a page of a trace has at least one byte")

    def pages(self, request: Request) -> List[int]:
        """The pages that a request touches, the first and the last of them in part perhaps."""
        first = request.start // self.page_bytes
        last = (request.start + request.bytes - 1) // self.page_bytes
        return [self.found.setdefault((request.file, page), len(self.found)) for page in range(first, last + 1)]


def transactions_of(requests: Iterable[Request], numbers: Numbers, pending: int) -> Iterator[List[str]]:
    """The commands of each request."""
    if not 1 <= pending <= MOST_PENDING:
        raise Problem(f"a transaction has 1 to {MOST_PENDING} pages")
    tag = 0
    for request in requests:
        pages = numbers.pages(request)
        for start in range(0, len(pages), pending):
            tag = tag % 4294967295 + 1
            contents = "~" if request.kind == DISCARD else f"{tag % 255 + 1:02x}"
            entries = " ".join(f"{page}={contents}" for page in pages[start : start + pending])
            yield [f"write {tag} {entries}", f"finish {tag}"]


def load_trace(path: str, action: str = "Q") -> List[Request]:
    with open(path, encoding="utf-8", errors="replace") as file:
        return requests_of(file.read(), action)


def main(words: List[str]) -> int:
    parser = argparse.ArgumentParser(description=(__doc__ or "").split("\n")[0])
    parser.add_argument("trace", metavar="TRACE", help="the text of blkparse, or an iolog of fio")
    parser.add_argument("--page", type=int, default=4096, metavar="BYTES")
    parser.add_argument("--pending", type=int, default=64, metavar="N")
    parser.add_argument("--action", default="Q", metavar="LETTER")
    options = parser.parse_args(words)
    try:
        numbers = Numbers(options.page)
        for lines in list(transactions_of(load_trace(options.trace, options.action), numbers, options.pending)):
            print("\n".join(lines))
    except (Problem, OSError) as problem:
        print(f"traces: {options.trace}: {problem}", file=sys.stderr)
        return 1
    return 0


if __name__ == "__main__":
    sys.exit(main(sys.argv[1:]))
