#!/usr/bin/env python3
"""Starts two runs at once on one image, and looks at what they leave.

    pairs.py [EXE] [--pairs N] [--seed S] [--room FOLDER]

Each of the two writes a page of its own. The second is started with the first one or while that runs. By turns both are
given the image by its name, one of them by a symbolic link from another folder, and both as a file with two names,
which is saved in place. Every fourth pair formats two devices at a name at which nothing is.

A run that answers `done`, with status 0, has its page in the image that is left. A run that says `desk fault`, with
status 5, has changed nothing, and one of the two is done. While a file is written in place, a run may load a part of
it: then it may also refuse it, and has changed nothing either. What both leave is a sound image, and no new file beside
it. Of two that format, one is done, and what is left is the device of one that is. Where no pair met, nothing was
shown: that counts as a fault, and so it does if there are many that format and none of these met."""
import argparse
import collections
import os
import random
import sys
import time
from typing import Counter, Dict, List, NamedTuple, Optional

from kills import DEVICE, IMAGE, LINK, SECOND, SINGLE, make_images
from program import (Ended, Program, exit_code, found_program, new_folder, program_argument, read_file,
                     write_file)

FREE = "images/free.img"
DEVICES = (DEVICE, [*DEVICE[:-2], "99", DEVICE[-1]])
REFUSED_IN_PLACE = {3, 7}


class Way(NamedTuple):
    """How two runs are given an image: their words, and whether it is saved in place."""
    name: str
    first: str
    second: str
    in_place: bool


WAYS = (Way("by its name", SINGLE, SINGLE, False), Way("by a link", SINGLE, LINK, False),
        Way("in place", IMAGE, SECOND, True))
FREE_NAME = "at a free name"


class Pairs:
    """The folder in which pairs of runs are made."""

    def __init__(self, program: Program, seed: int) -> None:
        self.program, self.draw = program, random.Random(seed)
        self.counts: Counter[str] = collections.Counter()
        self.faults: List[str] = []
        make_images(program)
        self.pages: Dict[str, List[int]] = {image: self.write_both(image) for image in (SINGLE, IMAGE)}
        self.longest = self.program.run(["run", SINGLE, "read.txt"]).seconds
        self.devices = [self.format_alone(device) for device in DEVICES]

    def write_both(self, image: str) -> List[int]:
        """Writes 0 to both pages, and the files of commands that are the same for each pair."""
        write_file("read.txt", b"read 0\nread 1\n")
        for page in (0, 1):
            self.write_commands(page, 0)
            if self.program.run(["run", image, commands_of(page)]).status:
                raise SystemExit("pairs: a run alone was not done")
        return [0, 0]

    def write_commands(self, page: int, number: int) -> None:
        write_file(commands_of(page), b"write 1 %d=%08x\nfinish 1\n" % (page, number))

    def format_alone(self, device: List[str]) -> bytes:
        """The image of a device that is formatted at a name at which nothing is, which is free again then."""
        if self.program.run(["format", FREE, *device]).status:
            raise SystemExit("pairs: a format alone was not done")
        return take_file(FREE)

    def start(self, page: int, words: List[str]) -> int:
        output = os.open(said_by(page), os.O_WRONLY | os.O_CREAT | os.O_TRUNC, 0o600)
        process = self.program.start(words, output)
        os.close(output)
        return process

    def run_both(self, first: List[str], second: List[str]) -> List[Ended]:
        """Two runs, of which the second begins with the first or while that is at work."""
        begun = time.monotonic()
        processes = [self.start(0, first)]
        time.sleep(max(0.0, self.draw.uniform(-0.5, 0.5) * self.longest))
        processes.append(self.start(1, second))
        return [wait_for(process, page, begun) for page, process in enumerate(processes)]

    def format_both(self, number: int) -> None:
        """Two devices that are formatted at one free name, and what is left there."""
        ends = self.run_both(*(["format", FREE, *device] for device in DEVICES))
        wrong = [f"format {at + 1} ended with status {end.status}, {end.said[:80]!r}" for at, end in enumerate(ends)
                 if end.status and not is_refused(end, False)]
        done = [device for device, end in zip(self.devices, ends) if not end.status]
        self.counts[f"{FREE_NAME} {'both done' if len(done) == 2 else 'one refused' if done else 'none done'}"] += 1
        if take_file(FREE) not in done:
            wrong.append("what is left is no device of one that was done")
        self.faults += [f"pair {number}, {FREE_NAME}: {it}" for it in wrong + left_beside()]

    def read_pages(self, word: str) -> Optional[List[int]]:
        """The numbers in both pages, if the image can be read."""
        ended = self.program.run(["run", word, "read.txt"])
        lines = ended.said.split(b"\n")
        if ended.status or len(lines) != 3 or any(not line.startswith(b"page ") for line in lines[:2]):
            return None
        return [int(line.split()[2][:8], 16) for line in lines[:2]]

    def write_in_both(self, number: int, way: Way) -> None:
        """A pair, and what it leaves."""
        image = IMAGE if way.in_place else SINGLE
        for page in (0, 1):
            self.write_commands(page, number)
        ends = self.run_both(*(["run", word, commands_of(page)] for page, word in enumerate((way.first, way.second))))
        old, wanted = self.pages[image], list(self.pages[image])
        wrong: List[str] = []
        for page, end in enumerate(ends):
            if end.status == 0 and end.said.endswith(b"done 1\n"):
                wanted[page] = number
            elif not is_refused(end, way.in_place):
                wrong.append(f"run {page + 1} ended with status {end.status}, {end.said[:80]!r}")
        done = sum(new != before for new, before in zip(wanted, old))
        self.counts[f"{way.name} {'both done' if done == 2 else 'one refused' if done else 'none done'}"] += 1
        if not done:
            wrong.append("none of both was done")
        found = self.read_pages(image)
        if found != wanted:
            wrong.append(f"the pages have {found} and not {wanted}")
        self.pages[image] = found or wanted
        self.faults += [f"pair {number}, {way.name}: {it}" for it in wrong + left_beside()]


def take_file(name: str) -> bytes:
    """Removes a file, and answers its bytes, none where it is not there."""
    found = read_file(name)
    if found is not None:
        os.remove(name)
    return found or b""


def left_beside() -> List[str]:
    """What is wrong where new files are left beside an image."""
    beside = [name for name in os.listdir("images") if ".saving" in name]
    return [f"left {beside}"] if beside else []


def commands_of(page: int) -> str:
    return f"commands{page}.txt"


def said_by(page: int) -> str:
    return f"said{page}.txt"


def wait_for(process: int, page: int, begun: float) -> Ended:
    _, status = os.waitpid(process, 0)
    return Ended(exit_code(status), read_file(said_by(page)) or b"", time.monotonic() - begun)


def is_refused(end: Ended, in_place: bool) -> bool:
    """Whether a run says that it has changed nothing."""
    return end.status == 5 and end.said == b"desk fault\n" or in_place and end.status in REFUSED_IN_PLACE


def pair_often(program: Program, pairs: int, seed: int, room: Optional[str]) -> int:
    """Starts so many pairs, and answers how many faults there were."""
    with new_folder("pairs-", room):
        work = Pairs(program, seed)
        for number in range(1, pairs + 1):
            if number % 4:
                work.write_in_both(number, WAYS[number % len(WAYS)])
            else:
                work.format_both(number)
    for it in work.faults:
        print(f"pairs: {it}")
    met = sum(count for name, count in work.counts.items() if name.endswith("refused"))
    never = pairs >= 100 and not work.counts[f"{FREE_NAME} one refused"]
    counts = ", ".join(f"{count} {name}" for name, count in sorted(work.counts.items()))
    print(f"pairs: seed {seed}: {pairs} pairs, of which {met} met: {counts}: {len(work.faults)} faults", flush=True)
    return len(work.faults) + (not met) + never


def main() -> int:
    parser = argparse.ArgumentParser(description=__doc__, formatter_class=argparse.RawDescriptionHelpFormatter)
    program_argument(parser)
    parser.add_argument("--pairs", type=int, default=200)
    parser.add_argument("--seed", type=int, default=1)
    parser.add_argument("--room")
    args = parser.parse_args()
    return 1 if pair_often(Program(found_program(args.program)), args.pairs, args.seed, args.room) else 0


if __name__ == "__main__":
    sys.exit(main())
