#!/usr/bin/env python3
"""What the largest image takes: time, and memory against the size of its file.

    largest.py EXE [--repeat N]

EXE is `crates/txflash/out/txflash`, which `./txflash` builds. The image has 65024 slots of 1968 bytes and their spare
areas, 132 MB: once blank, and once with each of its 60000 pages written. The least of N runs is told, in seconds of
processor time, user and system; and the most memory that was held at once, in MiB and as a multiple of the file.
"""
from __future__ import annotations

import argparse
import os
import tempfile
from typing import Dict

from runs import MEMORY, Bench, Run, expect, filling

IMAGE = "a.img"
CONFIG = ["scc", "1968", "256", "254", "1", "60000", "256"]
PAGES = 60000
LIMIT = 600.0


def rows_of(bench: Bench) -> Dict[str, Run]:
    """What each call takes, on the blank image and on the written one."""
    rows = {"`format`": expect(bench.least("format", IMAGE, *CONFIG))}
    for how in ("blank", "written"):
        if how == "written":
            bench.serve("run", IMAGE, filling(PAGES))
        rows["`run`, no command, %s" % how] = expect(bench.least("run", IMAGE, bench.write_commands([])))
        rows["`explain`, %s" % how] = expect(bench.least("explain", IMAGE))
    return rows


def main() -> None:
    words = argparse.ArgumentParser(description="What the largest image takes.")
    words.add_argument("exe")
    words.add_argument("--repeat", type=int, default=3)
    said = words.parse_args()
    with tempfile.TemporaryDirectory(dir=MEMORY) as folder:
        bench = Bench(said.exe, folder, said.repeat, LIMIT)
        rows = rows_of(bench)
        size = os.path.getsize(bench.path(IMAGE))
    print("| %d bytes, scc | seconds | peak, MiB | times the file |" % size)
    print("|---|---|---|---|")
    for name, one in rows.items():
        print("| %s | %.2f | %.0f | %.2f |" % (name, one.processor, one.peak / 1024, one.peak * 1024 / size))


if __name__ == "__main__":
    main()
