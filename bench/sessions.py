#!/usr/bin/env python3
"""How long flash_serve takes to answer a line, and to open and to close an image, as two tables.

    sessions.py EXE [--rounds N] [--openings N] [--folder FOLDER]..

EXE is `crates/flash_serve/out/flash_serve`, which `./flash_serve` makes. Files are made in each FOLDER: by default in
/dev/shm, where a sync costs nothing, and in the folder of temporary files.

A line is given through a pipe, and its reply is taken from another one. A time is the median of N rounds, and the one
that 99 of 100 stay below, in microseconds by the clock. It has what this script and two changes of process take, which
the row of `cat` has alone. The last column is the median of the processor time that the program took for a line, its
calls of the system with it, by the system's count (`/proc/PID/schedstat`). The row of the calls alone has what a
`finish` of one page asks of the file, a write and a sync, made by this script on a file beside it, in turn with the
lines. The rows of 16 pages of 4096 bytes are a line of 131 KB and its `finish`, and what that asks of the file: a write
for each of two dies, of 8 slots, and a sync.
`taskset` and `chrt` before all this keep other work away.

An opening is from the start of the program to `serving`, of images of 128 MB, and a closing from the end of the input
to that of the program. Beside them is how long this script takes to read the file, and to save it: to write a new file,
to sync and to rename it, and to sync the folder. Each is the least of N, in seconds, with the file in memory.
"""
from __future__ import annotations

import argparse
import os
import subprocess
import sys
import tempfile
import time
from typing import Callable, Dict, List, NamedTuple, Tuple

sys.path.insert(0, os.path.join(os.path.dirname(os.path.abspath(__file__)), "..", "clients", "python"))

from images import SPARE, blank  # noqa: E402

Numbers = Tuple[int, int, int, int, int, int]
# Bytes of a page, slots of a block, blocks of a die, dies, logical pages, and pages that may be pending.
SMALL: Numbers = (16, 4, 4, 2, 20, 7)
MANY: Numbers = (16, 4, 4096, 4, 32768, 256)
WIDE: Numbers = (4096, 64, 8, 2, 256, 64)
# How many pages a line of whole pages writes.
PAGES = 16
LARGE: Numbers = (2048, 64, 248, 4, 60000, 256)
PROTOCOLS = ("scc", "bpcc")


class Taken(NamedTuple):
    """What a line took until it was answered, in microseconds by the clock and of the program's own."""
    clock: float
    own: float


class Session:
    """A program that takes lines from a pipe and answers each."""

    def __init__(self, words: List[str]) -> None:
        self.process = subprocess.Popen(words, stdin=subprocess.PIPE, stdout=subprocess.PIPE, bufsize=0)
        assert self.process.stdin and self.process.stdout
        self.input, self.output = self.process.stdin.fileno(), self.process.stdout.fileno()

    def hear(self) -> bytes:
        """Waits for what is said next, up to the end of a line."""
        said = b""
        while not said.endswith(b"\n"):
            part = os.read(self.output, 1 << 16)
            if not part:
                raise SystemExit(f"sessions: the program ended after {said[:80]!r}")
            said += part
        return said

    def own_nanoseconds(self) -> int:
        """How many nanoseconds of a processor the program has had."""
        with open(f"/proc/{self.process.pid}/schedstat", encoding="ascii") as file:
            return int(file.read().split()[0])

    def ask(self, line: bytes) -> Taken:
        """Gives a line and waits for its reply."""
        before, begun = self.own_nanoseconds(), time.perf_counter_ns()
        os.write(self.input, line)
        self.hear()
        ended = time.perf_counter_ns()
        return Taken((ended - begun) / 1000, (self.own_nanoseconds() - before) / 1000)

    def end(self) -> None:
        self.process.communicate()


def quantile(times: List[float], part: float) -> float:
    """The time that this part of them stays below."""
    return sorted(times)[min(int(part * len(times)), len(times) - 1)]


def print_row(name: str, where: str, taken: List[Taken]) -> None:
    clock, own = [it.clock for it in taken], [it.own for it in taken]
    times = quantile(clock, 0.5), quantile(clock, 0.99), quantile(own, 0.5)
    print("| %s | %s | %.1f | %.1f | %.1f |" % (name, where, *times), flush=True)


def open_both(exe: str, folder: str, image: bytes) -> Tuple[Session, int]:
    """A session on this image, which is open, and an open file of the same bytes beside it."""
    path, beside = os.path.join(folder, "device.img"), os.path.join(folder, "beside.img")
    for it in (path, beside):
        with open(it, "wb") as file:
            file.write(image)
    session = Session([exe, path])
    session.hear()
    return session, os.open(beside, os.O_RDWR)


def time_replies(exe: str, where: str, folder: str, name: str, image: bytes, rounds: int) -> None:
    """Prints a row for each command on a device."""
    session, bare = open_both(exe, folder, image)
    times: Dict[str, List[Taken]] = {}
    for number in range(rounds):
        page = number % 16
        write = "write 1 %d=%04x" % (page, number % 65536)
        for line in (write, "finish 1", "read %d" % page, "write 2 0=01", "abort 2"):
            times.setdefault("`%s`" % line.split(" ")[0], []).append(session.ask(line.encode() + b"\n"))
        times.setdefault("the calls alone", []).append(bare_calls(bare, number, len(image)))
    for what, found in times.items():
        print_row("%s, %s" % (what, name), where, found)
    session.end()
    os.close(bare)


def bare_calls(file: int, number: int, size: int, page: int = 16, pages: int = 1, dies: int = 1) -> Taken:
    """What a `finish` of pages asks of a file of about this size: a write of the slots of each die, and a sync."""
    own, run = page + SPARE + 4, pages // dies
    runs = (size - 64) // (own * pages)
    places = [64 + own * run * (runs * it + number % runs) for it in range(dies)]
    data = bytes([number % 256]) * own * run
    before, begun = time.thread_time_ns(), time.perf_counter_ns()
    for place in places:
        os.pwrite(file, data, place)
    os.fdatasync(file)
    return Taken((time.perf_counter_ns() - begun) / 1000, (time.thread_time_ns() - before) / 1000)


def time_whole_pages(exe: str, where: str, folder: str, rounds: int) -> None:
    """Prints rows of a write of 16 whole pages of 4096 bytes, and of its finish."""
    image = blank("scc", *WIDE)
    session, bare = open_both(exe, folder, image)
    times: Dict[str, List[Taken]] = {"`write`": [], "`finish`": [], "the calls alone": []}
    for number in range(rounds):
        pages = ["%d=%s" % (page, ("%02x%02x" % (page, number % 256)) * (WIDE[0] // 2)) for page in range(PAGES)]
        times["`write`"].append(session.ask(("write 1 %s\n" % " ".join(pages)).encode()))
        times["`finish`"].append(session.ask(b"finish 1\n"))
        times["the calls alone"].append(bare_calls(bare, number, len(image), WIDE[0], PAGES, WIDE[3]))
    for what, found in times.items():
        print_row("%s, %d pages of %d bytes" % (what, PAGES, WIDE[0]), where, found)
    session.end()
    os.close(bare)


def time_echoes(rounds: int) -> None:
    """Prints the row of a program that only repeats lines."""
    session = Session(["cat"])
    print_row("`cat`", "", [session.ask(b"read 0\n") for _ in range(rounds)])
    session.end()


def fill(exe: str, path: str, logical: int) -> None:
    """Writes each page of a device."""
    session = Session([exe, path])
    session.hear()
    for first in range(0, logical, 256):
        pages = range(first, min(first + 256, logical))
        session.ask(("write 1 " + " ".join("%d=%08x" % (page, page) for page in pages) + "\n").encode())
        session.ask(b"finish 1\n")
    session.end()


def least(work: Callable[[], float], count: int) -> float:
    return min(work() for _ in range(count))


def least_of_both(exe: str, path: str, count: int) -> List[float]:
    """The least opening and the least closing of some."""
    return [min(it) for it in zip(*(time_session(exe, path) for _ in range(count)))]


def time_session(exe: str, path: str) -> Tuple[float, float]:
    """What an opening and a closing take."""
    begun = time.perf_counter()
    session = Session([exe, path])
    session.hear()
    opened = time.perf_counter()
    session.end()
    return opened - begun, time.perf_counter() - opened


def time_reading(path: str) -> float:
    """What it takes to read a file."""
    begun = time.perf_counter()
    with open(path, "rb", buffering=0) as file:
        room = bytearray(os.path.getsize(path))
        file.readinto(room)
    return time.perf_counter() - begun


def time_saving(path: str) -> float:
    """What it takes to save a file."""
    with open(path, "rb") as file:
        data = file.read()
    begun = time.perf_counter()
    with open(path + ".new", "wb", buffering=0) as out:
        for place in range(0, len(data), 1 << 16):
            out.write(data[place:place + (1 << 16)])
        os.fsync(out.fileno())
    os.rename(path + ".new", path)
    folder = os.open(os.path.dirname(path), os.O_RDONLY)
    os.fsync(folder)
    os.close(folder)
    return time.perf_counter() - begun


def time_openings(exe: str, where: str, folder: str, count: int) -> None:
    """Prints a row for each image."""
    for protocol in PROTOCOLS:
        for how in ("blank", "full"):
            path = os.path.join(folder, "large.img")
            with open(path, "wb") as file:
                file.write(blank(protocol, *LARGE))
            if how == "full":
                fill(exe, path, LARGE[4])
            opened, closed = least_of_both(exe, path, count)
            read, saved = least(lambda: time_reading(path), count), least(lambda: time_saving(path), count)
            told = protocol, how, where, opened, closed, read, saved
            print("| %s, %s | %s | %.3f | %.3f | %.3f | %.3f |" % told, flush=True)
            os.remove(path)


def main() -> None:
    words = argparse.ArgumentParser(description=__doc__, formatter_class=argparse.RawDescriptionHelpFormatter)
    words.add_argument("exe")
    words.add_argument("--rounds", type=int, default=4000)
    words.add_argument("--openings", type=int, default=5)
    words.add_argument("--folder", action="append")
    said = words.parse_args()
    exe = os.path.abspath(said.exe)
    folders = said.folder or ["/dev/shm", tempfile.gettempdir()]
    rooms = [(it, tempfile.mkdtemp(prefix="live-", dir=it)) for it in folders]
    try:
        print("| Line | Folder | median | 99 of 100 | of its own |\n|---|---|---|---|---|")
        time_echoes(said.rounds)
        for where, room in rooms:
            for name, numbers in (("32 slots", SMALL), ("65536 slots", MANY)):
                time_replies(exe, where, room, name, blank("scc", *numbers), said.rounds)
            time_whole_pages(exe, where, room, said.rounds)
        print("\n| Image | Folder | to `serving` | to close it | to read it | to save it |")
        print("|---|---|---|---|---|---|")
        for where, room in rooms:
            time_openings(exe, where, room, said.openings)
    finally:
        for _, room in rooms:
            for name in os.listdir(room):
                os.remove(os.path.join(room, name))
            os.rmdir(room)


if __name__ == "__main__":
    main()
