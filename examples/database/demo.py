#!/usr/bin/env python3
"""A bank's database on a device, over power cuts and faults.

    demo.py PROGRAM [SEED]

PROGRAM is the built program, or ./txflash. SQLite makes a history of accounts and transfers. Its commits are served on
a fresh image under each protocol, and seeded breaks come in the middle of some. After each break the database is read
back: it has to be that before the commit or that after it, byte for byte. SQLite opens it without any journal, finds it
sound, and the sum of all accounts is what it was.

The status is 1 where anything differs or fails, and 2 where the words are others.
"""
from __future__ import annotations

import collections
import sys
import tempfile
import time
from dataclasses import dataclass, field
from itertools import islice
from typing import Counter, Dict, Iterator, List, Tuple

from bank import PAGE_BYTES, SMALL, Audit, audit
from bench import Bench
from breaks import Break, Chance, breaks
from command_files import Limits, Piece, files_of
from device import Program, load_device
from history import History, record
from plan import check, load
from problems import Problem
from replies import pages_read, reads
from tables import table
from trials import Difference, Trial, read_back

BREAKS, SEED = 240, 2
# PAGES, BLOCKS, DIES, LOGICAL and PENDING: 112 slots, of which the database fills some 80.
NUMBERS = "4 14 2 84 16".split()
# The image is saved and opened again between two runs.
RUN = Limits(commands=5000)
PROTOCOLS = ("scc", "bpcc")


@dataclass
class Counts:
    """How many commits had these replies and this verdict, and how many cuts and faults there were."""

    verdicts: Counter[Tuple[str, str]] = field(default_factory=collections.Counter)
    cuts: int = 0
    faults: int = 0


def audit_file(bench: Bench, file: bytes) -> Audit:
    """What SQLite finds in a database that was read back."""
    path = bench.path("back.db")
    with open(path, "wb") as out:
        out.write(file)
    return audit(path)


def check_audit(found: Audit) -> None:
    if found.integrity != "ok":
        raise Difference(f"PRAGMA integrity_check says {found.integrity}")
    if found.sum != SMALL.money():
        raise Difference(f"the sum of all accounts is {found.sum}, and was {SMALL.money()}")


def chosen_breaks(history: History, seed: int) -> Dict[int, Break]:
    """The commits that are broken, by their numbers, and how. All come after the accounts were opened."""
    chance = Chance(seed)
    commits = history.log.commits
    numbers = sorted(chance.sample(range(history.opened + 1, len(commits) + 1), BREAKS))
    return dict(zip(numbers, breaks(chance, [len(commits[number - 1].pages) for number in numbers])))


def trials(history: History, broken: Dict[int, Break]) -> Iterator[Trial]:
    before = history.begun
    for number, (commit, after) in enumerate(zip(history.log.commits, history.states()), 1):
        yield Trial(number, commit, before, after, broken.get(number))
        before = after


def judge(bench: Bench, trial: Trial, said: List[str], counts: Counts) -> None:
    """Whether the replies of a commit are right, and its database is, where it was broken."""
    if trial.broken is None:
        trial.check_plain(said)
        return
    finding = trial.check_broken(trial.broken, said)
    check_audit(audit_file(bench, finding.file))
    counts.verdicts[finding.replies, finding.verdict] += 1
    counts.cuts += finding.cuts
    counts.faults += finding.faults


def serve_trials(bench: Bench, image: str, all_trials: List[Trial]) -> Counts:
    """Serves the commits, in several runs."""
    counts = Counts()
    rest = iter(all_trials)
    for file in files_of((trial.piece() for trial in all_trials), RUN):
        said = iter(bench.serve(image, file))
        for piece, trial in zip(file, rest):
            judge(bench, trial, list(islice(said, len(piece.lines))), counts)
    return counts


def serve_history(bench: Bench, protocol: str, history: History, seed: int) -> Counts:
    """The whole history on a fresh image, and at the end the database as it has to be."""
    image = bench.path(f"{protocol}.img")
    bench.program.format(image, [protocol, str(PAGE_BYTES), *NUMBERS])
    device = load_device(image)
    check(history.begun.pages, history.log.commits, history.log.page_bytes, device)
    bench.serve(image, list(load(history.begun.pages, device)))
    counts = serve_trials(bench, image, list(trials(history, chosen_breaks(history, seed))))
    *_, last = history.states()
    said = bench.serve(image, [Piece(list(reads(device.logical)))])
    file = read_back(pages_read(said), "at the end")
    if file != last.file():
        raise Difference("at the end the database is another than SQLite's")
    check_audit(audit_file(bench, file))
    return counts


def report(counts: Dict[str, Counts]) -> List[str]:
    """How many commits were whole and how many absent, by what they were answered."""
    names = sorted({name for protocol in PROTOCOLS for name, _ in counts[protocol].verdicts})
    columns = [(protocol, word) for protocol in PROTOCOLS for word in ("whole", "absent")]
    rows = [[name, *(str(counts[protocol].verdicts[name, word]) for protocol, word in columns)] for name in names]
    return table(["the commit was answered", *(f"{protocol} {word}" for protocol, word in columns)], rows)


def work(program: Program, seed: int) -> None:
    program.build()
    begun = time.monotonic()
    with tempfile.TemporaryDirectory() as folder:
        bench = Bench(program, folder)
        history = record(folder, SMALL, PAGE_BYTES)
        counts = {protocol: serve_history(bench, protocol, history, seed) for protocol in PROTOCOLS}
    commits = len(PROTOCOLS) * len(history.log.commits)
    cuts, faults = (sum(getattr(count, kind) for count in counts.values()) for kind in ("cuts", "faults"))
    print("\n".join(report(counts)))
    print(f"{commits} commits met {cuts} power cuts and {faults} faults. Each commit was whole or absent.")
    print(f"After each break SQLite found the database sound, and {SMALL.money()} in all accounts, as before.")
    print(f"That took {time.monotonic() - begun:.0f} seconds.")


def main(words: List[str]) -> int:
    if len(words) not in (1, 2) or not all(word.isdigit() for word in words[1:]):
        print((__doc__ or "").strip(), file=sys.stderr)
        return 2
    try:
        work(Program(words[0]), int(words[1]) if words[1:] else SEED)
    except (Difference, Problem, OSError) as problem:
        print(f"demo: {problem}", file=sys.stderr)
        return 1
    return 0


if __name__ == "__main__":
    sys.exit(main(sys.argv[1:]))
