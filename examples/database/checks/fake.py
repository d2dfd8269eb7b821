"""A device that is an array, and devices that are not what they say, in the program's place."""
from __future__ import annotations

import struct
from typing import Dict, List, Optional, Sequence, Tuple

from device import Program

Pages = Dict[int, str]


class Machine:
    """Commands and replies of a device without collections. A lie is a way in which it is no such device."""

    def __init__(self, lie: str) -> None:
        self.lie = lie
        self.array: Pages = {}
        self.before: Pages = {}
        self.open: Dict[str, Tuple[Pages, List[int]]] = {}
        self.whole: Dict[str, bool] = {}
        self.arms: Dict[str, Tuple[int, str]] = {}

    def due(self, verb: str) -> Optional[str]:
        """What a break of this kind leaves, where it comes now."""
        if verb not in self.arms:
            return None
        place, outcome = self.arms.pop(verb)
        if place == 1:
            return outcome
        self.arms[verb] = (place - 1, outcome)
        return None

    def power_cut(self) -> str:
        if self.lie == "torn":
            for pages, left in self.open.values():
                self.array.update({page: pages[page] for page in pages if page not in left})
        if self.lie == "forgetful":
            self.array = dict(self.before)
        self.open.clear()
        self.whole.clear()
        return "cut"

    def done(self, tag: str) -> None:
        self.before = dict(self.array)
        if self.lie != "lost":
            self.array.update(self.open[tag][0])

    def step(self, tag: str) -> str:
        if tag not in self.open:
            return f"unknown {tag}"
        pages, left = self.open[tag]
        if self.whole.pop(tag, False):
            left.clear()
        else:
            cut, fault = self.due("cut"), self.due("fault")
            there = len(left) == 1 and "all" in (cut, fault)
            if there and cut:
                self.done(tag)
            if cut:
                return self.power_cut()
            if fault:
                self.whole[tag] = there
                return "fault"
            left.pop()
        if left:
            return f"wrote {tag} {len(pages) - len(left)} {len(pages)}"
        self.done(tag)
        del self.open[tag]
        return f"done {tag}"

    def finish(self, tag: str) -> str:
        reply = self.step(tag)
        while reply.startswith("wrote"):
            reply = self.step(tag)
        return reply

    def abort(self, tag: str) -> str:
        if tag not in self.open:
            return f"unknown {tag}"
        late = self.whole.pop(tag, False)
        if late:
            self.done(tag)
        del self.open[tag]
        return f"late {tag}" if late else f"aborted {tag}"

    def write(self, tag: str, entries: Sequence[str]) -> str:
        pages = {int(page): digits for page, digits in (word.split("=") for word in entries)}
        self.open[tag] = (pages, list(pages))
        return f"open {tag} {len(pages)}"

    def read(self, page: str) -> str:
        if self.due("badread"):
            return "fault"
        digits = self.array.get(int(page))
        return f"blank {page}" if digits is None else f"page {page} {digits.replace('-', '').ljust(1024, '0')}"

    def serve(self, line: str) -> str:
        verb, tag, *rest = line.split()
        if verb in ("cut", "fault", "badread"):
            self.arms[verb] = (int(tag), rest[0] if rest else "fault")
            return "armed"
        if verb == "write":
            return self.write(tag, rest)
        return {"step": self.step, "finish": self.finish, "abort": self.abort, "read": self.read}[verb](tag)


class Fake(Program):
    def __init__(self, lie: str = "") -> None:
        super().__init__("fake")
        self.machine = Machine(lie)

    def format(self, image: str, numbers: Sequence[str]) -> None:
        with open(image, "wb") as out:
            out.write(b"TXFLASH1" + struct.pack("<7I", 1, *map(int, numbers[1:])) + bytes(28))

    def run(self, image: str, commands: str) -> List[str]:
        with open(commands, encoding="ascii") as file:
            return [self.machine.serve(line) for line in file]
