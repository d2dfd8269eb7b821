#!/usr/bin/env python3
"""Loses power at every moment of real sessions of flash_serve, on paper, and looks at what each loss left.

    losses.py [EXE] [--losses N] [--seed S] [--room FOLDER] [--leave-out N]

A session serves drawn lines under `strace`, which writes down what it asked of the system. These calls are laid into
the image that it began with: what was written since the last sync may be there or not, each write by itself, each
sector of 512 bytes, and each byte; and until its folder is synced the name may lead to each file that it led to since
then. So many images are looked at under each protocol, each another one than all before of its session. Each must be a
file that a session opens, with the array of a state in which a run over what was said may end, the command in hand done
or not. Some are opened by the program. Sessions begin on some, and on what a session had written that was killed, of
which a loss may still take what was not synced.

Then each session is laid out again with every N-th sync left out (3), from each of the first N on. That must be noticed
where eight syncs or more are left out: of a few each may be one that nothing needed. The status is 1 where a loss left
something else, or where that was not noticed."""
import argparse
import collections
import copy
import random
import shutil
import sys
from typing import Counter, Dict, Iterator, List, NamedTuple, Optional, Set, Tuple

import commands as drawn_commands
import images as drawn_images
from calls import STRACE, Event, events
from grammar import Command
from image import BPCC, PROTOCOLS, SCC, Image
from in_use import read_in_use
from judge import Wrong, need
from laws import Pages, Reading, read
from live import BUILT, Heard, Session, Talk, arrays_of, give_all
from machine import Run
from program import found_program, new_folder, program_argument, read_file, write_file

IMAGE, TRACE = "d.img", "trace.txt"
SYNCS = ("sync", "kept", "named")
SECTOR = 512
# How often losses are drawn where syncs are left out, and of how many something must be noticed.
TRIES, MANY = 240, 8
Draw = random.Random
Piece = Tuple[int, bytes]


class Disk:
    """What a disk may hold of a file: the bytes that were synced, and what was written since then, in order."""

    def __init__(self, data: bytes) -> None:
        self.synced, self.newest = bytearray(data), bytearray(data)
        self.waiting: List[Piece] = []

    def write(self, place: int, data: bytes) -> None:
        there = slice(place, place + len(data))
        if self.synced[there] != data or self.newest[there] != data:
            self.waiting.append((place, data))
            put(self.newest, place, data)

    def sync(self) -> None:
        self.synced, self.waiting = bytearray(self.newest), []

    def losses(self, draw: Draw) -> Iterator[bytes]:
        """What a loss may leave."""
        for pieces in choices(draw, self.waiting):
            data = bytearray(self.synced)
            for place, piece in pieces:
                put(data, place, piece)
            yield bytes(data)


def put(data: bytearray, place: int, piece: bytes) -> None:
    """Writes bytes at a place, behind zeros where there was no such place."""
    data.extend(bytes(max(0, place - len(data))))
    data[place:place + len(piece)] = piece


class Folder:
    """The image, the new file beside it, and the files to which the name may still lead after a loss."""

    def __init__(self, data: bytes) -> None:
        self.disk, self.beside = Disk(data), Disk(b"")
        self.older: List[Disk] = []

    def take(self, event: Event) -> bool:
        """Whether this was a call of these files."""
        if event.kind == "write":
            self.disk.write(event.place, event.data)
        elif event.kind == "sync":
            self.disk.sync()
        elif event.kind == "begun":
            self.beside = Disk(b"")
        elif event.kind == "laid":
            self.beside.write(event.place, event.data)
        elif event.kind == "kept":
            self.beside.sync()
        elif event.kind == "put":
            self.older.append(self.disk)
            self.disk = self.beside
        elif event.kind == "named":
            self.older = []
        else:
            return False
        return True

    def losses(self, draw: Draw) -> Iterator[bytes]:
        """What a loss may leave at the name of the image."""
        for it in (self.disk, *self.older):
            yield from it.losses(draw)


def choices(draw: Draw, waiting: List[Piece]) -> Iterator[List[Piece]]:
    """Which pieces of what waits are there: all, none, one, all but one, some; whole, in sectors, or by bytes."""
    yield waiting
    if not waiting:
        return
    yield []
    for it in draw.sample(waiting, min(5, len(waiting))):
        yield [it]
        yield [other for other in waiting if other is not it]
    place, data = waiting[-1]
    yield [*waiting[:-1], (place, data[:draw.randrange(len(data))])]
    for size in (None, None, None, SECTOR, SECTOR, 1, 1, 1):
        chance = draw.choice((0.1, 0.5, 0.9))
        yield [it for it in cut_up(waiting, size) if draw.random() < chance]


def cut_up(waiting: List[Piece], size: Optional[int]) -> Iterator[Piece]:
    """The pieces of these writes that lie in one sector of this size, in order."""
    for place, data in waiting:
        end = place + len(data)
        while size and place + size - place % size < end:
            after = place + size - place % size
            yield place, data[:after - place]
            place, data = after, data[after - place:]
        yield place, data


class Moment(NamedTuple):
    """What was said so far, and what may be there after a loss."""
    number: int
    arrays: Set[Pages]


class Course:
    """How a session went, by what was heard and said."""

    def __init__(self, talk: Talk, before: Reading) -> None:
        self.run = Run(talk.config, before.records)
        self.rest: List[Heard] = list(talk.heard)
        self.said_bytes, self.heard_bytes = -len("serving\n"), 0
        self.said_end = self.heard_end = 0
        self.moment: Optional[Moment] = None
        self.number = 0

    def take(self, event: Event) -> None:
        self.said_bytes += event.place if event.kind == "said" else 0
        self.heard_bytes += event.place if event.kind == "heard" else 0
        self.moment = None
        while self.rest and self.said_bytes >= self.said_end + length_of(self.rest[0]):
            it = self.rest[0]
            if not it.said and self.heard_bytes < self.heard_end + len(it.line):
                break
            self.rest.pop(0)
            self.said_end += length_of(it)
            self.heard_end += len(it.line)
            if it.command:
                self.number += 1
                need(self.run.take(it.command, it.said), f"no run is answered {it.said[:200]!r}")

    def in_hand(self) -> List[Command]:
        """The command that was heard and has no reply, if there is one."""
        if self.rest and self.heard_bytes >= self.heard_end + len(self.rest[0].line):
            return [self.rest[0].command] if self.rest[0].command else []
        return []

    def now(self) -> Moment:
        if self.moment is None:
            self.moment = Moment(self.number, arrays_of(self.run, self.in_hand()))
        return self.moment


def length_of(it: Heard) -> int:
    """How many bytes were said of a line."""
    return len(it.said) + 1 if it.said else 0


class Begun(NamedTuple):
    """What a session begins with: what the disk may hold, and the arrays of that."""
    folder: Folder
    arrays: Set[Pages]


class Traced(NamedTuple):
    """A session: what it began with, and what it read there, what was heard and said, and what it asked of the
    system."""
    begun: Begun
    before: Reading
    talk: Talk
    trace: List[Event]


class Losses:
    """The folder in which the program is traced."""

    def __init__(self, program: str, args: argparse.Namespace) -> None:
        self.program, self.draw, self.apart = program, Draw(args.seed), args.leave_out
        self.counts: Counter[str] = collections.Counter()
        self.faults: List[str] = []
        self.lost: Optional[bytes] = None
        self.killed: Optional[Begun] = None

    def draw_begun(self, protocol: int) -> Begun:
        """A sound image under a protocol, what a loss has left, or what a session has that was killed."""
        how = self.draw.random()
        if self.killed and how < 0.4:
            self.counts[f"{PROTOCOLS[protocol]} sessions after a kill"] += 1
            return self.killed
        if self.lost is not None and how < 0.7:
            return Begun(Folder(self.lost), set())
        while True:
            data = drawn_images.sound_image(self.draw)
            if data[8] == protocol:
                return Begun(Folder(data), set())

    def lines(self, talk: Talk) -> Iterator[bytes]:
        for _ in range(self.draw.choice((3, 5, 8))):
            for it in drawn_commands.script_in_grammar(self.draw, talk.config).splitlines(keepends=True):
                if it.endswith(b"\n"):
                    yield it

    def serve_session(self, protocol: int, most: int) -> int:
        """Serves an image, loses power, and answers how many images a loss left."""
        begun = self.draw_begun(protocol)
        data = bytes(begun.folder.disk.newest)
        write_file(IMAGE, data)
        before = read_in_use(data, IMAGE)
        config = before.image.config if before.image else None
        assert config
        talk = Talk(Session(STRACE[0], [*STRACE[1:], "-o", TRACE, self.program, IMAGE]), config, before)
        talk.begin()
        give_all(talk, self.lines(talk))
        status = talk.session.end()
        talk.check_closed(status, read_file(IMAGE) or b"")
        with open(TRACE, encoding="ascii") as file:
            traced = Traced(begun, before, talk, list(events(file.read().split("\n"), IMAGE)))
        left: Dict[bytes, Pages] = {}
        self.lose(traced, left, most)
        self.kill(traced)
        self.open_some(list(left), protocol)
        self.leave_out(traced, dict(left), protocol)
        return len(left)

    def lose(self, traced: Traced, left: Dict[bytes, Pages], most: int) -> None:
        """Goes through a session and loses power wherever something waits, until so many images are left."""
        folder, course = copy.deepcopy(traced.begun.folder), Course(traced.talk, traced.before)
        before = traced.begun.arrays
        for event in traced.trace:
            if not folder.take(event):
                course.take(event)
            # From here on what was there before is no more.
            before = set() if event.kind == "said" else before
            moment = course.now()
            for lost in folder.losses(self.draw):
                if lost not in left and len(left) >= most:
                    return
                self.look(lost, traced.before.image, moment._replace(arrays=moment.arrays | before), left)
        need(not course.rest, "the trace says less than was heard")

    def kill(self, traced: Traced) -> None:
        """Ends a session at a moment, most often once another file has the name. What it wrote the next one finds."""
        puts = [at + 1 for at, it in enumerate(traced.trace) if it.kind == "put"]
        end = self.draw.choice(puts) if puts and self.draw.random() < 0.6 else self.draw.randrange(len(traced.trace))
        folder, course = copy.deepcopy(traced.begun.folder), Course(traced.talk, traced.before)
        arrays = set(traced.begun.arrays)
        for event in traced.trace[:end]:
            if not folder.take(event):
                course.take(event)
            arrays = set() if event.kind == "said" else arrays
        self.killed = Begun(folder, course.now().arrays | arrays)

    def look(self, lost: bytes, image: Optional[Image], moment: Moment, left: Dict[bytes, Pages]) -> None:
        """Looks whether what a loss left is a file that a session opens, with an array of this moment."""
        assert image
        if lost not in left:
            reading = read_in_use(lost, IMAGE)
            need(reading.status == 0, f"after {moment.number} commands a loss leaves: {reading.said[:100]}")
            assert reading.image and reading.records
            need(reading.image.config == image.config and reading.image.extras == image.extras, "another header")
            left[lost] = reading.records.array()
        need(left[lost] in moment.arrays, f"after {moment.number} commands a loss leaves an array that no run has")

    def open_some(self, left: List[bytes], protocol: int) -> None:
        """Some of what losses left is opened by the program, and closed."""
        for lost in self.draw.sample(left, min(len(left), 8)):
            write_file(IMAGE, lost)
            session = Session(self.program, [IMAGE])
            status = session.end()
            need(status == 0 and session.said == b"serving\n", f"status {status}, {session.said[:80]!r} after a loss")
            after = read(read_file(IMAGE) or b"", IMAGE)
            need(after.image == read_in_use(lost, IMAGE).image, "opened and closed it is another image")
            self.counts[f"{PROTOCOLS[protocol]} opened"] += 1
        self.lost = self.draw.choice(left)

    def leave_out(self, traced: Traced, left: Dict[bytes, Pages], protocol: int) -> None:
        """The same with syncs left out. Of a few each may be one that nothing needed, but not of many."""
        for first in range(self.apart):
            fewer = traced._replace(trace=list(trace_without(traced.trace, self.apart, first)))
            gone = len(traced.trace) - len(fewer.trace)
            if gone:
                noticed = any(self.is_noticed(fewer, left) for _ in range(TRIES))
                said = f"{MANY} or more" if gone >= MANY else "fewer"
                self.counts[f"{PROTOCOLS[protocol]} with {said} syncs left out {'' if noticed else 'not '}noticed"] += 1
                need(noticed or gone < MANY, f"nothing is wrong without {gone} of its syncs, from number {first} on")

    def is_noticed(self, traced: Traced, left: Dict[bytes, Pages]) -> bool:
        """Whether a loss leaves something that is wrong."""
        try:
            self.lose(traced, left, sys.maxsize)
            return False
        except Wrong:
            return True


def trace_without(trace: List[Event], apart: int, first: int) -> Iterator[Event]:
    """What was done, without the syncs whose numbers leave this rest."""
    number = 0
    for it in trace:
        number += it.kind in SYNCS
        if it.kind not in SYNCS or number % apart != first:
            yield it


def lose_often(program: str, args: argparse.Namespace) -> int:
    """Looks at so many losses, and answers how many faults there were."""
    work = Losses(program, args)
    with new_folder("losses-", args.room):
        for protocol in (SCC, BPCC):
            lose_under(work, protocol, args.losses)
    for it in work.faults:
        print(f"losses: {it}")
    for name, count in sorted(work.counts.items()):
        print(f"losses: {count} {name}")
    print(f"losses: seed {args.seed}: {len(work.faults)} faults", flush=True)
    return len(work.faults)


def lose_under(work: Losses, protocol: int, losses: int) -> None:
    """Looks at so many losses under a protocol, in as many sessions as they take."""
    name, count, sessions = PROTOCOLS[protocol], 0, 0
    work.lost = work.killed = None
    while count < losses and sessions < losses:
        sessions += 1
        try:
            count += work.serve_session(protocol, losses - count)
        except Wrong as why:
            work.faults.append(f"{name}, session {sessions}: {why}")
    work.counts[f"{name} losses"], work.counts[f"{name} sessions"] = count, sessions


def main() -> int:
    parser = argparse.ArgumentParser(description=__doc__, formatter_class=argparse.RawDescriptionHelpFormatter)
    program_argument(parser, BUILT)
    parser.add_argument("--losses", type=int, default=20000)
    parser.add_argument("--seed", type=int, default=1)
    parser.add_argument("--room")
    parser.add_argument("--leave-out", type=int, default=3, metavar="N")
    args = parser.parse_args()
    if not shutil.which("strace"):
        raise SystemExit("losses: there is no strace: apt-get install strace")
    return 1 if lose_often(found_program(args.program), args) else 0


if __name__ == "__main__":
    sys.exit(main())
