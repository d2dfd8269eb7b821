#!/usr/bin/env python3
"""Kills the program while it saves an image on real files, and looks at what each kill left.

    kills.py [EXE] [--kills N] [--seed S] [--room FOLDER]

A kill counts only between the first byte of what is saved and the end of the run. By turns the run is given the image
by its name, by a symbolic link from another folder, and as a file with two names, which is saved in place.

After each kill the image must be, byte for byte, the old one or the one that the whole run makes, which a run on a copy
has told before. In place it may also be torn: then the next run must refuse it as `bad image: magic`. The links must
stand as they were, and the next run over whatever the killed ones left must succeed. A kill is no power cut, so nothing
is learned of what the system has yet to bring to its disk."""
import argparse
import collections
import os
import random
import signal
import sys
import time
from typing import Callable, Counter, List, NamedTuple, Optional, Set

from program import Program, exit_code, found_program, new_folder, program_argument, read_file, write_file

# 1024 slots of 4096 bytes, so that an image has some 4 MB and a save takes some milliseconds. Each transaction goes
# round eight of the dies, so the old image and the new one differ all over the file.
DEVICE = "scc 4096 64 1 16 100 8".split()
IMAGE, LINK, SECOND, COPY, COMMANDS = "images/disk.img", "links/disk", "names/second", "copies/disk.img", "commands.txt"
SINGLE = "images/single.img"
MAGIC = b"TXFLASH1"


class Way(NamedTuple):
    """How a run is given an image: its word, the file behind it, and whether that is saved in place."""
    name: str
    word: str
    file: str
    in_place: bool


WAYS = (Way("by its name", SINGLE, SINGLE, False), Way("through a link", LINK, SINGLE, False),
        Way("in place", SECOND, IMAGE, True))


def make_images(program: Program) -> None:
    """Makes an image to which a link leads from another folder, and one with two names."""
    for folder in ("images", "links", "names"):
        os.mkdir(folder)
    for image in (IMAGE, SINGLE):
        ended = program.run(["format", image, *DEVICE])
        if ended.status:
            raise SystemExit(f"no image was made: status {ended.status}")
    os.link(IMAGE, SECOND)
    os.symlink("../" + SINGLE, LINK)


class Kills:
    """The folder in which the program is killed."""

    def __init__(self, program: Program, seed: int) -> None:
        self.program, self.draw = program, random.Random(seed)
        self.counts: Counter[str] = collections.Counter()
        self.faults: List[str] = []
        make_images(program)
        os.mkdir("copies")
        self.times = {way: self.time(way) for way in WAYS}

    def links_stand(self) -> bool:
        """Whether the links are as they were."""
        return os.path.islink(LINK) and os.readlink(LINK) == "../" + SINGLE and os.path.samefile(IMAGE, SECOND)

    def new_files(self) -> Set[str]:
        """The files beside the images and links."""
        found = {f"{folder}/{name}" for folder in ("images", "links", "names") for name in os.listdir(folder)}
        return found - {IMAGE, SINGLE, LINK, SECOND}

    def whole_run(self, old: bytes) -> bytes:
        """What a whole run makes of the old image."""
        write_file(COPY, old)
        status = self.program.run(["run", COPY, COMMANDS]).status
        new = read_file(COPY)
        if status or new is None or new == old:
            raise SystemExit(f"kills: a run on a copy ended with status {status}")
        return new

    def has_begun(self, way: Way, earlier: Set[str]) -> Callable[[], bool]:
        """Whether the first byte of what is saved is there."""
        if way.in_place:
            return lambda: first_bytes(way.file) != MAGIC
        return lambda: any(size(it) > 0 for it in self.new_files() - earlier)

    def start(self, way: Way) -> int:
        nowhere = os.open(os.devnull, os.O_WRONLY)
        process = self.program.start(["run", way.word, COMMANDS], nowhere)
        os.close(nowhere)
        return process

    def time(self, way: Way) -> float:
        """How long a run goes on after the first byte of what it saves."""
        write_file(COMMANDS, b"write 1 0=01\nfinish 1\n")
        begun, process = self.has_begun(way, self.new_files()), self.start(way)
        first = None
        while os.waitpid(process, os.WNOHANG) == (0, 0):
            first = first or (time.monotonic() if begun() else None)
        return time.monotonic() - first if first else 0.002

    def kill(self, way: Way) -> bool:
        """Starts a run and kills it at a random moment of its save; whether it came to that."""
        begun, process = self.has_begun(way, self.new_files()), self.start(way)
        ended = 0
        while not ended and not begun():
            ended, status = os.waitpid(process, os.WNOHANG)
        end = time.monotonic() + self.draw.uniform(0, 1.1 * self.times[way])
        while not ended and time.monotonic() < end:
            ended, status = os.waitpid(process, os.WNOHANG)
        if not ended:
            os.kill(process, signal.SIGKILL)
            _, status = os.waitpid(process, 0)
        return exit_code(status) == -signal.SIGKILL

    def turn(self, number: int, way: Way) -> bool:
        """One kill with what follows it; whether it counts."""
        entries = b" ".join(b"%d=%08x" % (it, number) for it in range(8))
        write_file(COMMANDS, b"write 1 %s\nfinish 1\nread 1\n" % entries)
        old = read_file(way.file) or b""
        new = self.whole_run(old)
        killed = self.kill(way)
        left = read_file(way.file)
        wrong = self.look(way, old, new, left) if killed else [] if left == new else ["ended and left another image"]
        if not self.links_stand():
            wrong.append("the links are not as they were")
        self.faults += [f"run {number}, {way.name}: {it}" for it in wrong]
        if wrong:
            write_file(way.file, old)
        if killed and number % 10 == 0:
            for it in self.new_files():
                os.remove(it)
        return killed

    def look(self, way: Way, old: bytes, new: bytes, left: Optional[bytes]) -> List[str]:
        """What is wrong with what a kill left, and with the next run over it."""
        what = "old" if left == old else "new" if left == new else "torn" if way.in_place else "neither"
        self.counts[f"{way.name} {what}"] += 1
        next_run = self.program.run(["run", way.word, COMMANDS])
        wrong = []
        if what == "neither":
            wrong.append(f"left neither image, but {'no file' if left is None else f'{len(left)} bytes'}")
            write_file(way.file, old)
        elif what == "torn":
            if next_run.status != 3 or next_run.said != b"bad image: magic\n" or read_file(way.file) != left:
                wrong.append(f"a torn image: status {next_run.status}, {next_run.said[:80]!r}")
            write_file(way.file, old)
        elif next_run.status or read_file(way.file) != (new if what == "old" else self.whole_run(left or b"")):
            wrong.append(f"the next run ended with status {next_run.status}, or left another image")
        return wrong


def size(name: str) -> int:
    try:
        return os.lstat(name).st_size
    except FileNotFoundError:
        return 0


def first_bytes(name: str) -> bytes:
    with open(name, "rb") as file:
        return file.read(len(MAGIC))


def kill_often(program: Program, kills: int, seed: int, room: Optional[str]) -> int:
    """Kills so often, and answers how many faults there were."""
    with new_folder("kills-", room):
        work = Kills(program, seed)
        counted = number = 0
        while counted < kills and number < 10 * kills:
            number += 1
            counted += work.turn(number, WAYS[counted % len(WAYS)])
    for it in work.faults:
        print(f"kills: {it}")
    counts = ", ".join(f"{count} {name}" for name, count in sorted(work.counts.items()))
    faults = len(work.faults)
    print(f"kills: seed {seed}: {counted} kills in a save of {number} runs: {counts}: {faults} faults", flush=True)
    return faults + (counted < kills)


def main() -> int:
    parser = argparse.ArgumentParser(description=__doc__, formatter_class=argparse.RawDescriptionHelpFormatter)
    program_argument(parser)
    parser.add_argument("--kills", type=int, default=200)
    parser.add_argument("--seed", type=int, default=1)
    parser.add_argument("--room")
    args = parser.parse_args()
    return 1 if kill_often(Program(found_program(args.program)), args.kills, args.seed, args.room) else 0


if __name__ == "__main__":
    sys.exit(main())
