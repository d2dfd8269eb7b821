"""How long a device takes to open, by the records on its flash. These are times, and differ from run to run."""
from __future__ import annotations

import time
from typing import List, Optional, Sequence

from progress import tell
from serving import Flash
from shape import PROTOCOLS, Shape
from sheets import Cell, Table
from work import fill

SHAPE = Shape(16, 16, 1024, 4, 60000, 256)
RECORDS = (0, 1000, 10000, 30000, 60000)
REPEATS = 5


def seconds(flash: Flash) -> float:
    """The least time of a run that opens the image, reads one page and saves it again."""
    times = []
    for _ in range(REPEATS):
        begun = time.perf_counter()
        flash.run(["read 0"])
        times.append(time.perf_counter() - begun)
    return min(times)


def openings(program: str) -> Table:
    """The times of an opening beyond those of a blank device, which are loading and saving the image."""
    tell(f"openings: {len(RECORDS) * len(PROTOCOLS)} parts")
    rows: List[Sequence[Cell]] = []
    for protocol in PROTOCOLS:
        blank: Optional[float] = None
        for records in RECORDS:
            with Flash(program, SHAPE, protocol) as flash:
                flash.run(line for part in fill(records, SHAPE.pending) for line in part)
                taken = seconds(flash)
            blank = taken if blank is None else blank
            rows.append([protocol, records, 1000 * taken, 1000 * max(0.0, taken - blank)])
    head = ("protocol", "records", "ms of a run", "ms more than on a blank device")
    return Table("openings", f"Opening a device of {SHAPE.slots} slots, by its records (times differ)", head, rows)
