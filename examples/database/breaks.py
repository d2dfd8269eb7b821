"""What goes wrong in a commit: power cuts, faults and bad reads, at places that chance chooses."""
from __future__ import annotations

import random
from dataclasses import dataclass
from typing import Callable, List, Sequence

OUTCOMES = ("none", "all", "bad")


@dataclass(frozen=True)
class Break:
    """So many pages are written in steps. Then it is armed, and the host tries these words to end its transaction."""

    steps: int
    arms: List[str]
    tries: List[str]

    def places(self, verb: str) -> List[int]:
        """Where breaks of a kind are armed."""
        return [int(arm.split()[1]) for arm in self.arms if arm.startswith(f"{verb} ")]


class Chance(random.Random):
    """What chance chooses for a commit."""

    def steps(self, changed: int) -> int:
        """A break of two comes while the last page is written, which decides of the transaction."""
        return self.choice((0, changed - 1))

    def place(self, pages: int) -> int:
        """A program or erase while so many pages are written.

        Each page takes a program at least. Where a block is collected for it there are more programs, and an erase. So
        a place up to the number of pages comes for certain, and the one behind by chance.
        """
        return self.randint(1, pages + 1)

    def outcome(self) -> str:
        return self.choice(OUTCOMES)

    def bad_read(self) -> str:
        return f"badread {self.randint(1, 20)}"


def cut(chance: Chance, changed: int) -> Break:
    steps = chance.steps(changed)
    return Break(steps, [f"cut {chance.place(changed - steps)} {chance.outcome()}"], ["finish"] * 2)


def fault_then_finish(chance: Chance, changed: int) -> Break:
    steps = chance.steps(changed)
    return Break(steps, [f"fault {chance.place(changed - steps)} {chance.outcome()}"], ["finish"] * 2)


def fault_then_abort(chance: Chance, changed: int) -> Break:
    steps = chance.steps(changed)
    return Break(steps, [f"fault {chance.place(changed - steps)} {chance.outcome()}"], ["finish", "abort"])


def fault_then_cut(chance: Chance, changed: int) -> Break:
    steps = chance.steps(changed)
    first = chance.place(changed - steps)
    second = first + chance.place(changed - steps)
    return Break(steps, [f"fault {first} {chance.outcome()}", f"cut {second} {chance.outcome()}"], ["finish"] * 3)


def bad_read(chance: Chance, changed: int) -> Break:
    return Break(chance.steps(changed), [chance.bad_read()], ["finish"] * 2)


def cut_and_bad_read(chance: Chance, changed: int) -> Break:
    steps = chance.steps(changed)
    return Break(steps, [f"cut {chance.place(changed - steps)} {chance.outcome()}", chance.bad_read()], ["finish"] * 3)


KINDS: Sequence[Callable[[Chance, int], Break]] = (
    cut, cut, cut, fault_then_finish, fault_then_abort, fault_then_cut, bad_read, cut_and_bad_read,
)  # fmt: skip


def breaks(chance: Chance, sizes: Sequence[int]) -> List[Break]:
    """A break for each commit, in turn of each kind. The sizes are the numbers of pages that they change."""
    return [KINDS[number % len(KINDS)](chance, changed) for number, changed in enumerate(sizes)]
