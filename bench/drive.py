#!/usr/bin/env python3
"""The time of `drive START COUNT PROTOCOL` by COUNT, as a table: the least of some runs, in seconds of processor time.

    drive.py EXE [--repeat N]
"""
from __future__ import annotations

import argparse

from runs import Bench, expect

COUNTS = (2500, 5000, 10000, 20000, 100000)
LIMIT = 600.0


def main() -> None:
    words = argparse.ArgumentParser(description="The time of `drive` by its count.")
    words.add_argument("exe")
    words.add_argument("--repeat", type=int, default=3)
    said = words.parse_args()
    print("| COUNT | %s |" % " | ".join(map(str, COUNTS)))
    print("|---%s|" % ("|---" * len(COUNTS)))
    bench = Bench(said.exe, ".", said.repeat, LIMIT)
    for protocol in ("scc", "bpcc"):
        runs = [expect(bench.least("drive", "1", str(count), protocol)) for count in COUNTS]
        print("| `%s` | %s |" % (protocol, " | ".join("%.3f" % one.processor for one in runs)), flush=True)


if __name__ == "__main__":
    main()
