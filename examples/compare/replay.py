"""A trace as the work of both protocols."""
from __future__ import annotations

import argparse
from functools import partial
from typing import Iterator, List, Sequence, Tuple

from counts import Count, points
from pictures import Chart, Series
from progress import all_of
from serving import Flash
from shape import MOST_SLOTS, PROTOCOLS, Problem, Shape
from sheets import Cell, Table
from studies import HEAD, PROGRAMMED, Base, numbers_of, windows
from traces import Numbers, load_trace, transactions_of

POINTS = 40


def shape_for(pages: int, base: Base) -> Shape:
    """A device of which the pages of a trace are the share that is asked for."""
    least = pages + base.pending + 1 + base.block
    blocks = -(-max(round(pages / base.full), least) // (base.block * base.dies))
    shape = Shape(16, base.block, blocks, base.dies, pages, base.pending)
    if shape.slots > MOST_SLOTS:
        raise Problem(
            f"the trace names {pages} pages, which takes {shape.slots} slots, and a device has at most {MOST_SLOTS}: "
            "give larger pages with --page, a greater share with --full, or a part of the trace"
        )
    return shape


def count_points(program: str, shape: Shape, parts: List[List[str]], every: int, protocol: str) -> List[Count]:
    """The counts of one protocol after each so many parts, on a blank device."""
    with Flash(program, shape, protocol) as flash:
        return points(flash, [], parts, every)


def replay(program: str, options: argparse.Namespace, base: Base) -> Iterator[Tuple[Table, Chart]]:
    """The counts over time. The device is blank at first: a trace does not tell what was there before it."""
    numbers = Numbers(options.page)
    requests = load_trace(options.trace, options.action)
    parts = list(transactions_of(requests, numbers, base.pending))
    if not parts:
        raise Problem("the trace has no request that writes or trims: choose other events with --action")
    shape = shape_for(len(numbers.found), base)
    every = -(-len(parts) // POINTS)
    tasks = [partial(count_points, program, shape, parts, every, protocol) for protocol in PROTOCOLS]
    rows: List[Sequence[Cell]] = []
    series: List[Series] = []
    for protocol, found in zip(PROTOCOLS, all_of("trace", tasks)):
        ends = [min(every * number, len(parts)) for number in range(1, len(found) + 1)]
        rows += [[end, protocol, *numbers_of(part)] for end, part in zip(ends, windows(found))]
        rows.append(["all", protocol, *numbers_of(found[-1])])
        series.append(Series(protocol, [(end, part.amplification) for end, part in zip(ends, windows(found))]))
    title = f"A trace of {len(requests)} requests on {len(numbers.found)} pages"
    under = f"{shape.slots} slots in blocks of {shape.block} on {shape.dies} dies, {every} transactions to a point"
    table = Table("trace", f"{title}, {under}", ("transactions", *HEAD), rows)
    yield table, Chart("trace", title, under, "transactions", PROGRAMMED, series)
