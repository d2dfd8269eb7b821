"""A small device under both protocols, looked at after each command: erases by block, and what is cleared first."""
from __future__ import annotations

from dataclasses import replace
from functools import partial
from typing import Dict, List, NamedTuple, Sequence, Tuple

from pictures import Chart, Series
from progress import all_of
from serving import Flash
from shape import PROTOCOLS, Shape, shape_of
from sheets import Cell, Table
from watching import Watched, in_steps, watch
from work import Work, fill, transactions

TRANSACTIONS = 250
EVERY = 50
WORKS: Dict[str, Dict[str, float]] = {
    "even": {"aborts": 0.0, "zipf": 0.0},
    "even, 20 % aborts": {"aborts": 0.2, "zipf": 0.0},
    "skewed, 20 % aborts": {"aborts": 0.2, "zipf": 1.2},
}


class Seen(NamedTuple):
    work: str
    protocol: str
    watched: Watched
    erases: List[int]
    """By block, from the first to the last."""


def small_shape() -> Shape:
    return shape_of(64, 4, 2, 0.6, 8)


def see(program: str, base: Work, name: str, protocol: str) -> Seen:
    shape = small_shape()
    work = replace(base, least=1, most=4, transactions=TRANSACTIONS, **WORKS[name])
    first = [line for part in fill(shape.logical, shape.pending) for line in part]
    with Flash(program, shape, protocol) as flash:
        watched = watch(flash, first, in_steps(transactions(work, shape)), EVERY)
    return Seen(name, protocol, watched, [watched.erases.get(block, 0) for block in range(shape.slots // shape.block)])


def cleared_table(all_seen: List[Seen]) -> Table:
    head = (
        "work", "protocol", "steps", "had to clear", "records cleared", "named records that stayed", "erases",
        "to clear", "of a block least", "most", "erases told by stats",
    )  # fmt: skip
    rows: List[Sequence[Cell]] = []
    for name, protocol, seen, erases in all_seen:
        rows.append([
            name, protocol, seen.steps, seen.blocked, seen.cleared, seen.stayed, sum(erases), seen.clearing,
            min(erases), max(erases), seen.told,
        ])  # fmt: skip
    title = f"What is cleared first, and erases by block: {TRANSACTIONS} transactions on 64 slots in blocks of 4"
    return Table("cleared", title, head, rows)


def erases_table(all_seen: List[Seen]) -> Table:
    head = ("erases of block", *map(str, range(len(all_seen[0].erases))))
    return Table("erases", "Erases by block", head, [[f"{one.work}, {one.protocol}", *one.erases] for one in all_seen])


def points_table(all_seen: List[Seen]) -> Table:
    head = ("work", "protocol", "commands", "erases", "of a block least", "most", "records cleared", "loose records")
    rows: List[Sequence[Cell]] = [[one.work, one.protocol, *point] for one in all_seen for point in one.watched.points]
    return Table("cleared_over_time", f"The same over time, {EVERY} commands to a point", head, rows)


def charts_of(all_seen: List[Seen]) -> List[Chart]:
    under = "64 slots in blocks of 4 on 2 dies, 60 % full, 1 to 4 pages"
    by_block = [Series(f"{one.protocol}, {one.work}", list(enumerate(one.erases))) for one in all_seen]
    broken = [one for one in all_seen if one.work != "even"]
    cleared = [
        Series(f"{one.protocol}, {one.work}", [(point.commands, point.cleared) for point in one.watched.points])
        for one in broken
    ]
    return [
        Chart("erases", "Erases by block", under, "block", "erases", by_block),
        Chart("cleared", "Leftover records that were cleared first", under, "commands", "records so far", cleared),
    ]


def wear(program: str, base: Work) -> Tuple[List[Table], List[Chart]]:
    """The tables that are said, and the pictures."""
    cells = [(name, protocol) for name in WORKS for protocol in PROTOCOLS]
    all_seen = all_of("wear", [partial(see, program, base, name, protocol) for name, protocol in cells])
    return [cleared_table(all_seen), erases_table(all_seen), points_table(all_seen)], charts_of(all_seen)
