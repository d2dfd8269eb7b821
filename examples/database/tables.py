"""Tables and charts of text."""
from __future__ import annotations

from typing import List, Sequence


def table(head: Sequence[str], rows: Sequence[Sequence[str]]) -> List[str]:
    """Lines with the first column to the left and the others to the right."""
    lines = [head, *rows]
    first, *widths = [max(len(line[column]) for line in lines) for column in range(len(head))]
    return [
        "  ".join([line[0].ljust(first), *(word.rjust(width) for word, width in zip(line[1:], widths))])
        for line in lines
    ]


def bars(names: Sequence[str], numbers: Sequence[float], width: int) -> List[str]:
    """One bar to a number, the greatest of them as wide as that."""
    margin = max(len(name) for name in names)
    most = max(numbers)
    return [
        f"{name.ljust(margin)}  {'#' * round(width * number / most)} {number:.1f}"
        for name, number in zip(names, numbers)
    ]
