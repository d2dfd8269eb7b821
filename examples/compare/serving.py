"""Runs of the built program. Images and commands are kept in memory, so no run writes to a disk."""
from __future__ import annotations

import os
import subprocess
import sys
from typing import Dict, Iterable, Iterator, List, Tuple

sys.path.append(os.path.join(os.path.dirname(os.path.abspath(__file__)), "..", "database"))

from command_files import Piece, files_of  # noqa: E402

from shape import Problem, Shape  # noqa: E402


def built_program(path: str) -> str:
    """The program that this path starts. The script `txflash` proves and builds it first, and is asked once."""
    done = subprocess.run([path, "try", os.devnull], stdout=subprocess.PIPE, check=False)
    if done.returncode:
        said = done.stdout.decode("ascii", "replace").strip()
        raise Problem(f"{path} ended with status {done.returncode} and said: {said or 'nothing'}")
    built = os.path.join(os.path.dirname(os.path.realpath(path)), "crates", "txflash", "out", "txflash")
    return built if os.path.exists(built) else path


class Memory:
    """A file without a name in any folder."""

    def __init__(self) -> None:
        self.number = os.memfd_create("txflash")
        self.path = f"/proc/self/fd/{self.number}"

    def put(self, data: bytes) -> None:
        os.ftruncate(self.number, 0)
        os.lseek(self.number, 0, os.SEEK_SET)
        with os.fdopen(os.dup(self.number), "wb") as out:
            out.write(data)

    def get(self) -> bytes:
        size = os.fstat(self.number).st_size
        return os.pread(self.number, size, 0)

    def close(self) -> None:
        os.close(self.number)


class Flash:
    """A device on the program, and its image."""

    def __init__(self, program: str, shape: Shape, protocol: str) -> None:
        self.program = program
        self.shape = shape
        self.image, self.commands = Memory(), Memory()
        self.say("format", self.image.path, *shape.words(protocol))
        self.blank = self.image.get()

    def __enter__(self) -> Flash:
        return self

    def __exit__(self, *_: object) -> None:
        self.image.close()
        self.commands.close()

    def say(self, *words: str) -> List[str]:
        """The lines that the program says to these words."""
        files = (self.image.number, self.commands.number)
        done = subprocess.run([self.program, *words], stdout=subprocess.PIPE, pass_fds=files, check=False)
        lines = done.stdout.decode("ascii").splitlines()
        if done.returncode:
            said = lines[0] if lines else "nothing"
            raise Problem(f"{self.program} {words[0]} ended with status {done.returncode} and said: {said}")
        return lines

    def run(self, lines: Iterable[str]) -> List[str]:
        """The replies to these commands, which go on from the image as it is."""
        self.commands.put("".join(line + "\n" for line in lines).encode("ascii"))
        return self.say("run", self.image.path, self.commands.path)

    def run_from_blank(self, lines: Iterable[str]) -> Tuple[List[str], bytes]:
        """The replies to these commands on a blank device, and the image that they leave."""
        self.image.put(self.blank)
        return self.run(lines), self.image.get()


def runs_of(parts: Iterable[List[str]]) -> Iterator[List[str]]:
    """The parts in their order as commands of as few runs as a file's limits ask. No part is divided."""
    for file in files_of(map(Piece, parts)):
        yield [line for piece in file for line in piece.lines]


def text_numbers(line: str) -> Dict[str, int]:
    """The numbers of a reply of `stats`, each by the word before it."""
    words = line.split()[1:]
    return {name: int(number) for name, number in zip(words[::2], words[1::2])}
