"""Runs of a program that are measured, and the folder of its files."""
from __future__ import annotations

import os
import shutil
import subprocess
import sys
from dataclasses import dataclass
from typing import List, Optional

MEASURED = os.path.join(os.path.dirname(os.path.abspath(__file__)), "measured.py")
# Where files cost no disk, if there is such a place.
MEMORY = "/dev/shm" if os.path.isdir("/dev/shm") else None
FILE_COMMANDS = 65536  # the most commands of a file
COPY = "copy.img"


@dataclass
class Run:
    seconds: float  # by the clock
    processor: float  # seconds of processor time, user and system
    peak: int  # the most memory held at once, in KiB
    status: Optional[int]  # None where it took too long and was stopped
    said: bytes


def run(words: List[str], folder: str, limit: float) -> Run:
    """Runs a program in a folder, for at most so many seconds."""
    starts = [sys.executable, "-I", "-S", MEASURED, str(limit), *words]
    done = subprocess.run(starts, cwd=folder, stdin=subprocess.DEVNULL, capture_output=True, check=True)
    seconds, processor, peak, status = done.stderr.split()[-4:]
    ended = None if status == b"none" else int(status)
    return Run(float(seconds), float(processor), int(peak), ended, done.stdout)


class Bench:
    """The program that is measured, with a folder for its files. Of several runs the one with the least time counts."""

    def __init__(self, exe: str, folder: str, repeat: int, limit: float) -> None:
        self.exe = os.path.abspath(exe)
        self.folder = folder
        self.repeat = repeat
        self.limit = limit

    def path(self, name: str) -> str:
        return os.path.join(self.folder, name)

    def write_commands(self, lines: List[str]) -> str:
        """Writes a file of commands, and answers its name."""
        if len(lines) > FILE_COMMANDS:
            sys.exit("too many commands for a file")
        with open(self.path("commands.txt"), "w", encoding="ascii") as out:
            out.write("".join(line + "\n" for line in lines))
        return "commands.txt"

    def call(self, *words: str) -> Optional[Run]:
        """A run, none where it took too long. One that fails ends the script."""
        one = run([self.exe, *words], self.folder, self.limit)
        if one.status:
            sys.exit("%s: status %d: %s" % (" ".join(words), one.status, one.said[:200].decode("ascii", "replace")))
        return None if one.status is None else one

    def least(self, *words: str, image: str = "") -> Optional[Run]:
        """The least of some runs, none where one took too long. Each has a copy of the image, if one is named."""
        runs = []
        for _ in range(self.repeat):
            if image:
                shutil.copyfile(self.path(image), self.path(COPY))
            one = self.call(*words)
            if one is None:
                return None
            runs.append(one)
        return min(runs, key=lambda one: one.processor)

    def serve(self, word: str, image: str, lines: List[str]) -> None:
        """Serves commands on an image, in as many runs as their files take."""
        for start in range(0, len(lines), FILE_COMMANDS):
            expect(self.call(word, image, self.write_commands(lines[start : start + FILE_COMMANDS])))


def expect(one: Optional[Run]) -> Run:
    """A run that has to end in time. Where it did not, this ends the script."""
    if one is None:
        sys.exit("a run took too long")
    return one


def filling(pages: int) -> List[str]:
    """Commands that write each page once, by a transaction of its own."""
    return [line for page in range(pages) for line in ("write 1 %d=%02x" % (page, page & 255), "finish 1")]
