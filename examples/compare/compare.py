#!/usr/bin/env python3
"""Compares both commit protocols, and transactions with a journal and a log, by what the flash has to do.

    compare.py PROGRAM [--out FOLDER] [--seed N] [--trace TRACE] [numbers of the work and the device]

PROGRAM is the built program, or ./txflash. The tables go to FOLDER as CSV and the pictures as SVG, and the tables are
said too. FOLDER is ./compare-out where it is left out; nothing else is written. One seed gives the same numbers each
time, but for the times of `openings`. With TRACE (see traces.py) the requests of that trace are the work, and no other
is served.
"""
from __future__ import annotations

import argparse
import os
import sys
from typing import List

# Nothing is written beside the output.
sys.dont_write_bytecode = True

from openings import openings  # noqa: E402
from pictures import Chart, save_chart  # noqa: E402
from progress import tell  # noqa: E402
from replay import replay  # noqa: E402
from serving import built_program  # noqa: E402
from shape import Problem  # noqa: E402
from sheets import Table, save_table, text_lines  # noqa: E402
from studies import STUDIES, Base, Counted, brief_of, chart_of, count_study, note_on, over_time, table_of  # noqa: E402
from wear import wear  # noqa: E402
from ways import all_ways  # noqa: E402
from work import Work  # noqa: E402

EVERY = 100
NUMBERS = (
    ("least", int, 1, "the least pages of a transaction"),
    ("most", int, 4, "the most pages of a transaction"),
    ("aborts", float, 0.1, "the share of transactions that are given up"),
    ("cuts", float, 0.0, "the share of transactions in which power fails"),
    ("discards", float, 0.0, "the share of entries that discard their page"),
    ("zipf", float, 0.0, "the exponent of Zipf's law by which pages are drawn, 0 for evenly"),
    ("slots", int, 1024, "the slots of the device"),
    ("block", int, 16, "the slots of a block"),
    ("dies", int, 2, "the dies"),
    ("full", float, 0.7, "the share of the slots that are logical pages"),
    ("pending", int, 32, "the pages that may be pending at once"),
    ("pages", int, 7500, "about how many pages the work writes"),
)


def parser() -> argparse.ArgumentParser:
    """The words of a call."""
    made = argparse.ArgumentParser(description=(__doc__ or "").split("\n")[0])
    made.add_argument("program", metavar="PROGRAM", help="the built program, or ./txflash")
    made.add_argument("--out", default="compare-out", metavar="FOLDER")
    made.add_argument("--seed", type=int, default=1, metavar="N")
    made.add_argument("--trace", metavar="TRACE", help="the text of blkparse, or an iolog of fio")
    made.add_argument("--page", type=int, default=4096, metavar="BYTES", help="a page of the trace (4096)")
    made.add_argument("--action", default="Q", metavar="LETTER", help="the events of blktrace that count (Q)")
    for name, kind, number, what in NUMBERS:
        made.add_argument(f"--{name}", type=kind, default=number, metavar="N", help=f"{what} ({number})")
    return made


def base_of(options: argparse.Namespace) -> Base:
    """The work from which each table varies one number."""
    work = Work(
        least=options.least, most=options.most, aborts=options.aborts, cuts=options.cuts,
        discards=options.discards, zipf=options.zipf, seed=options.seed,
    )  # fmt: skip
    base = Base(work, options.slots, options.block, options.dies, options.full, options.pending, options.pages)
    base.varied({}).work.check(base.shape())
    return base


class Output:
    """The folder, and what is said."""

    def __init__(self, folder: str) -> None:
        self.folder = folder
        os.makedirs(folder, exist_ok=True)

    def add_table(self, table: Table) -> None:
        """Saves a table, and says it."""
        save_table(self.folder, table)
        self.say(text_lines(table))

    def say(self, lines: List[str]) -> None:
        print("\n".join(lines) + "\n", flush=True)

    def add_chart(self, chart: Chart) -> None:
        """Saves a picture."""
        save_chart(self.folder, chart)


def compare_protocols(program: str, base: Base, output: Output) -> None:
    """Both protocols by what is varied, over time, and on a small device."""
    all_counted: List[Counted] = []
    for study in STUDIES:
        counted = count_study(program, study, base)
        if not counted:
            continue
        save_table(output.folder, table_of(study, counted))
        output.say(text_lines(brief_of(study, counted)))
        output.add_chart(chart_of(study, base, counted))
        all_counted += counted
    output.say([note_on(all_counted)])
    table, chart = over_time(program, base, EVERY)
    save_table(output.folder, table)
    output.add_chart(chart)
    tables, charts = wear(program, base.work)
    for table in tables:
        output.add_table(table)
    for chart in charts:
        output.add_chart(chart)


def compare(program: str, base: Base, output: Output) -> None:
    """All tables and pictures."""
    compare_protocols(program, base, output)
    results = all_ways(program, output.folder, base.work.seed)
    for table in results.tables:
        output.add_table(table)
    for chart in results.charts:
        output.add_chart(chart)
    output.say(results.notes)
    output.add_table(openings(program))


def main(words: List[str]) -> int:
    options = parser().parse_args(words)
    try:
        base = base_of(options)
        program = built_program(options.program)
        output = Output(options.out)
        if options.trace:
            for table, chart in replay(program, options, base):
                output.add_table(table)
                output.add_chart(chart)
        else:
            compare(program, base, output)
    except (Problem, OSError) as problem:
        print(f"compare: {problem}", file=sys.stderr)
        return 1
    tell(f"tables and pictures are in {options.out}")
    return 0


if __name__ == "__main__":
    sys.exit(main(sys.argv[1:]))
