"""Tables as CSV and as text."""
from __future__ import annotations

import csv
import os
from dataclasses import dataclass
from typing import List, Sequence, Union

Cell = Union[str, int, float, None]


@dataclass(frozen=True)
class Table:
    name: str
    """The name of its file, without the ending."""
    title: str
    head: Sequence[str]
    rows: Sequence[Sequence[Cell]]


def cell_text(cell: Cell, nothing: str = "--") -> str:
    """A cell as text: a fraction with two digits behind the point, and `--` for what does not fit."""
    if cell is None:
        return nothing
    return f"{cell:.2f}" if isinstance(cell, float) else str(cell)


def text_lines(table: Table) -> List[str]:
    """The title, and lines with the first column to the left and the others to the right."""
    lines = [list(table.head), *([cell_text(cell) for cell in row] for row in table.rows)]
    widths = [max(len(line[column]) for line in lines) for column in range(len(table.head))]
    return [
        table.title,
        *(
            "  ".join([line[0].ljust(widths[0]), *(word.rjust(width) for word, width in zip(line[1:], widths[1:]))])
            for line in lines
        ),
    ]


def save_table(folder: str, table: Table) -> str:
    """Writes the table as CSV, and answers its path. What does not fit is an empty cell."""
    path = os.path.join(folder, table.name + ".csv")
    with open(path, "w", encoding="utf-8", newline="") as out:
        writer = csv.writer(out, lineterminator="\n")
        writer.writerow(table.head)
        writer.writerows([cell_text(cell, "") for cell in row] for row in table.rows)
    return path
