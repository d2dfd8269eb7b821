"""The tables and pictures of the ways to make a commit last: on one flash for all, and on a flash for each."""
from __future__ import annotations

from functools import partial
from typing import Dict, List, NamedTuple, Optional, Sequence, Tuple

from pictures import Chart, Series
from progress import all_of, tell
from same_flash import BANKS, BLOCK, Way, load_ways, programs_by_commit
from sheets import Cell, Table

SLOTS = (600, 800, 1200, 1600, 2400, 4000)
PERCENT = (50, 80, 95)

Numbers = List[Optional[float]]


class Results(NamedTuple):
    tables: List[Table]
    charts: List[Chart]
    notes: List[str]


def own_slots(way: Way, percent: int) -> int:
    """The slots of a device of which what a way needs is so many percent, or the least on which it fits."""
    least = way.logical + way.pending + 1 + BLOCK
    return BLOCK * max(round(100 * way.logical / percent / BLOCK), -(-least // BLOCK))


def won_by_log(table: Sequence[Tuple[Way, Numbers]], columns: Sequence[str]) -> List[str]:
    """Where a log programs fewer pages than a transaction under the better protocol."""
    best = [
        min(number for way, numbers in table if way.whole for number in [numbers[column]] if number is not None)
        for column in range(len(columns))
    ]
    return [
        f"a {way.name.split(', ')[1]} on {columns[column]}: {number:.1f} to {best[column]:.1f}"
        for way, numbers in table
        if way.name.startswith("log")
        for column, number in enumerate(numbers)
        if number is not None and number < best[column]
    ]


def note(what: str, wins: List[str]) -> str:
    """One sentence, or one and the places."""
    return f"{what}: the log wins {'with ' + '; with '.join(wins) if wins else 'nowhere'}."


def on_one_flash(program: str, page_bytes: int, ways: List[Way]) -> Tuple[Table, Chart, str]:
    tasks = [partial(programs_by_commit, program, way, slots, page_bytes) for way in ways for slots in SLOTS]
    found = all_of(f"one flash for all, pages of {page_bytes} bytes", tasks)
    rows = [(way, found[len(SLOTS) * row : len(SLOTS) * (row + 1)]) for row, way in enumerate(ways)]
    name = f"one_flash_{page_bytes}"
    title = f"Pages programmed for each commit, {ways[0].database} pages of {page_bytes} bytes, by slots of the flash"
    head = ("way", "handed over", *map(str, SLOTS))
    table = Table(name, title, head, [[way.name, way.handed, *numbers] for way, numbers in rows])
    series = [
        Series(way.name, [(slots, number) for slots, number in zip(SLOTS, numbers) if number is not None])
        for way, numbers in rows
    ]
    commits, database = len(ways[0].commits), ways[0].database
    under = f"{commits} commits of SQLite on a database of {database} pages, blocks of {BLOCK} slots"
    heading = f"One flash for all, pages of {page_bytes} bytes"
    chart = Chart(name, heading, under, "slots of the flash", "pages programmed for each commit", series)
    columns = [f"{slots} slots" for slots in SLOTS]
    return table, chart, note(f"One flash for all, pages of {page_bytes} bytes", won_by_log(rows, columns))


def on_own_flash(program: str, page_bytes: int, ways: List[Way]) -> Tuple[Table, str]:
    """The same where each way has a flash of its own, as large as what it needs asks."""
    cells = [(way, own_slots(way, percent)) for way in ways for percent in PERCENT]
    tasks = [partial(programs_by_commit, program, way, slots, page_bytes) for way, slots in cells]
    found = all_of(f"a flash for each, pages of {page_bytes} bytes", tasks)
    rows = [(way, found[len(PERCENT) * row : len(PERCENT) * (row + 1)]) for row, way in enumerate(ways)]
    head = ("way", "logical pages", *(word for percent in PERCENT for word in ("slots", f"{percent} % full")))
    title = f"The same, each way on a flash of its own that its logical pages fill so far, pages of {page_bytes} bytes"
    lines: List[List[Cell]] = []
    for way, numbers in rows:
        pairs = zip([own_slots(way, percent) for percent in PERCENT], numbers)
        lines.append([way.name, way.logical, *(cell for pair in pairs for cell in pair)])
    table = Table(f"own_flash_{page_bytes}", title, head, lines)
    columns = [f"a flash that it fills to {percent} %" for percent in PERCENT]
    return table, note(f"A flash for each, pages of {page_bytes} bytes", won_by_log(rows, columns))


def all_ways(program: str, folder: str, seed: int) -> Results:
    """Both comparisons, for both sizes of pages."""
    results = Results([], [], [])
    loaded: Dict[int, List[Way]] = {}
    for page_bytes in BANKS:
        tell(f"a history of SQLite with pages of {page_bytes} bytes")
        loaded[page_bytes] = load_ways(page_bytes, folder, seed)
    for page_bytes, ways in loaded.items():
        table, chart, words = on_one_flash(program, page_bytes, ways)
        own, more = on_own_flash(program, page_bytes, ways)
        results.tables.extend([table, own])
        results.charts.append(chart)
        results.notes.extend([words, more])
    return results
