"""What a database needs to know of a device: three numbers of its image, and the words that run it."""
from __future__ import annotations

import os
import struct
import subprocess
from dataclasses import dataclass
from typing import List, Sequence

from problems import Problem

NUMBERS = struct.Struct("<8s7I")
MAGIC = b"TXFLASH1"


@dataclass(frozen=True)
class Device:
    page_bytes: int
    logical: int
    """How many pages its host has."""
    pending: int
    """How many pages a transaction may have."""


# No device has larger pages, takes larger transactions, has more slots or a longer image.
LARGEST_PAGE, MOST_PENDING, MOST_SLOTS, LONGEST_IMAGE = 4096, 256, 65536, 134217728


def read_device(head: bytes) -> Device:
    """The device of an image file that begins so."""
    if len(head) < 64 or not head.startswith(MAGIC):
        raise Problem("the image is none: make one with the program's word format")
    _, _, page_bytes, _, _, _, logical, pending = NUMBERS.unpack_from(head)
    return Device(page_bytes, logical, pending)


def load_device(image: str) -> Device:
    with open(image, "rb") as file:
        return read_device(file.read(64))


def largest_device(page_bytes: int) -> Device:
    """A device of that page size that takes as much as any.

    An image has 64 bytes, and for each slot its page and 65 more. A block of two slots at least, one slot more and the
    pending pages are no logical pages.
    """
    slots = min(MOST_SLOTS, (LONGEST_IMAGE - 64) // (page_bytes + 65))
    return Device(page_bytes, slots - 4, MOST_PENDING)


class Program:
    """The built program."""

    def __init__(self, path: str) -> None:
        self.path = path

    def say(self, *words: str) -> List[str]:
        """The lines that it says to these words."""
        done = subprocess.run([self.path, *words], stdout=subprocess.PIPE, check=False)
        lines = done.stdout.decode("ascii", "replace").splitlines()
        if done.returncode:
            said = lines[0] if lines else "nothing"
            raise Problem(f"{self.path} {words[0]} ended with status {done.returncode} and said: {said}")
        return lines

    def build(self) -> None:
        """Nothing is asked of it, so that `./txflash`, in its place, builds it where it is not built yet."""
        self.say("try", os.devnull)

    def format(self, image: str, numbers: Sequence[str]) -> None:
        self.say("format", image, *numbers)
        if not os.path.exists(image):
            raise Problem(f"{self.path} has written no image: name the built program or ./txflash")

    def run(self, image: str, commands: str) -> List[str]:
        return self.say("run", image, commands)
