"""Work in parts, as many at a time as there are processors, and its progress on standard error."""
from __future__ import annotations

import os
import sys
import time
from concurrent.futures import ThreadPoolExecutor
from typing import Callable, List, Sequence, TypeVar

Result = TypeVar("Result")
BEGUN = time.monotonic()


def tell(words: str) -> None:
    print(f"compare: {time.monotonic() - BEGUN:5.1f} s  {words}", file=sys.stderr, flush=True)


def all_of(what: str, tasks: Sequence[Callable[[], Result]]) -> List[Result]:
    """The results of the tasks in their order."""
    tell(f"{what}: {len(tasks)} parts")
    with ThreadPoolExecutor(os.cpu_count()) as pool:
        pending = [pool.submit(task) for task in tasks]
        try:
            return [each.result() for each in pending]
        except BaseException:
            for each in pending:
                each.cancel()
            raise
