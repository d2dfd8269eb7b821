"""A commit that is served, broken or not: its commands, and whether the replies are right."""
from __future__ import annotations

from dataclasses import dataclass
from typing import Dict, List, NamedTuple, Optional, Sequence

from breaks import Break
from command_files import Piece, transaction
from history import State
from plan import device_pages
from problems import Problem
from replies import database_of, pages_read, reads
from wal_log import Commit

# A new arm takes the place of an older one of its kind, and these never come due.
DISARM = ["cut 4294967295 none", "fault 4294967295 none"]


class Difference(Exception):
    """Its text says what is not as it has to be."""


class Finding(NamedTuple):
    """What is left of a broken commit."""

    replies: str
    verdict: str
    file: bytes
    """The database that was read."""
    cuts: int
    faults: int
    """How many of each were answered."""


@dataclass(frozen=True)
class Trial:
    number: int
    commit: Commit
    before: State
    after: State
    broken: Optional[Break] = None

    def plain_commands(self) -> List[str]:
        """The commands of the commit without a break."""
        return transaction(self.number, device_pages(self.commit.pages))

    def pages(self) -> int:
        """How many pages are read to see what is left of the commit."""
        return max(len(self.before.pages), len(self.after.pages))

    def piece(self) -> Piece:
        """The commands. After a break all pages are read, and the commit is given again, which is right in any case."""
        plain = self.plain_commands()
        if self.broken is None:
            return Piece(plain)
        tries = [f"{verb} {self.number}" for verb in self.broken.tries]
        # Where a read fails, the second time it does not.
        looks = list(reads(self.pages())) * (1 + len(self.broken.places("badread")))
        steps = [f"step {self.number}"] * self.broken.steps
        return Piece([plain[0], *steps, *self.broken.arms, *tries, *DISARM, *looks, *plain])

    def expect(self, said: Sequence[str], wanted: Sequence[str]) -> None:
        if list(said) != list(wanted):
            raise Difference(f"commit {self.number} was answered {', '.join(said)}, and not {', '.join(wanted)}")

    def opening_replies(self, steps: int = 0) -> List[str]:
        """The replies of the write and of so many steps."""
        number, changed = self.number, len(self.commit.pages)
        return [f"open {number} {changed}", *(f"wrote {number} {step} {changed}" for step in range(1, steps + 1))]

    def check_plain(self, said: Sequence[str]) -> None:
        """Whether the commit was served without a break."""
        self.expect(said, [*self.opening_replies(), f"done {self.number}"])

    def check_broken(self, broken: Break, said: Sequence[str]) -> Finding:
        """What is left of the commit, where all replies are right."""
        begun = [*self.opening_replies(broken.steps), *["armed"] * len(broken.arms)]
        tried = len(begun) + len(broken.tries)
        looked = tried + len(DISARM)
        tries = said[len(begun) : tried]
        self.expect(said[: len(begun)], begun)
        self.expect(said[tried:looked], ["armed"] * len(DISARM))
        left = left_by(self.number, tries)
        check_counts(broken, len(self.commit.pages) - broken.steps, said[:-2])
        file = self.read(said[looked:-2])
        verdict = self.verdict(file)
        if left not in ("either", verdict):
            raise Difference(f"commit {self.number} is {verdict}, and was answered {', '.join(tries)}")
        self.check_plain(said[-2:])
        replies = label(broken, tries, said[looked:-2])
        return Finding(replies, verdict, file, said.count("cut"), said.count("fault"))

    def read(self, said: Sequence[str]) -> bytes:
        """The database of these replies of reads."""
        told = pages_read(said)
        for turn, reply in enumerate(said):
            page = turn % self.pages()
            if reply != "fault" and pages_read([reply]) != {page: told.get(page)}:
                raise Difference(f"commit {self.number}: read {page} was answered {reply[:40]}")
        return read_back(told, f"commit {self.number}")

    def verdict(self, file: bytes) -> str:
        """Whether the commit is whole or absent in a database file."""
        if file == self.after.file():
            return "whole"
        if file == self.before.file():
            return "absent"
        raise Difference(f"commit {self.number} is neither whole nor absent")


def read_back(pages: Dict[int, Optional[bytes]], what: str) -> bytes:
    """The database of these pages of the device."""
    try:
        return database_of(pages)
    except Problem as problem:
        raise Difference(f"{what}: {problem}") from None


def check_counts(broken: Break, pages: int, said: Sequence[str]) -> None:
    """Whether each break that had to come while so many pages were written has come, and none twice."""
    cuts, faults, reads_armed = (broken.places(verb) for verb in ("cut", "fault", "badread"))
    # A read that fails in the mount after a cut has no reply of its own.
    certain = sum(place <= pages for place in faults) + (0 if cuts else len(reads_armed))
    if not sum(place <= pages for place in cuts) <= said.count("cut") <= len(cuts):
        raise Difference(f"armed was {', '.join(broken.arms)}, and cut was answered {said.count('cut')} times")
    if not certain <= said.count("fault") <= len(faults) + len(reads_armed):
        raise Difference(f"armed was {', '.join(broken.arms)}, and fault was answered {said.count('fault')} times")


def left_by(number: int, said: Sequence[str]) -> str:
    """What these replies of finish and abort leave of a transaction: whole, absent, or either."""
    ends = {f"done {number}": "whole", f"late {number}": "whole", f"aborted {number}": "absent", "cut": "either"}
    left = ""
    for reply in said:
        if not left and reply in ends:
            left = ends[reply]
        elif reply != "fault" and (not left or reply != f"unknown {number}"):
            raise Difference(f"transaction {number} was answered {', '.join(said)}")
    if not left:
        raise Difference(f"transaction {number} has not ended: {', '.join(said)}")
    return left


def label(broken: Break, tries: Sequence[str], looks: Sequence[str]) -> str:
    """The replies to tries and looks, without numbers and refusals, and with what a cut left."""
    cuts = [arm.split()[2] for arm in broken.arms if arm.startswith("cut ")]
    words = [reply.split()[0] for reply in tries if not reply.startswith("unknown")]
    named = [f"cut ({cuts[0]})" if word == "cut" else word for word in words]
    if "fault" in looks:
        named.append("fault of a read")
    return ", ".join(named) if named != ["done"] else "done: no break came"
