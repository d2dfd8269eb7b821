#!/usr/bin/env python3
"""Gives drawn statements to a database in a device and to one in memory, and compares the two after each transaction.

    drawn.py [--seed S] [--seconds N] [--room FOLDER]

The cache has a few pages at times, so that changes leave it early, and commits may be too large for the device, or the
database too large: then SQLite must have taken back all of it. Tables, indexes and rows come and go; there are
savepoints, rollbacks, VACUUM and new openings, in each journal mode and with each kind of lock. After each transaction
both databases have the same content, and that in the device is sound. The module sqlite3 must use the library of the
system, into which this loads the VFS."""
from __future__ import annotations

import argparse
import collections
import ctypes
import os
import random
import sqlite3
import sys
import tempfile
import time
from typing import Counter, List, Optional, Union

HERE = os.path.dirname(os.path.abspath(__file__))
sys.path.insert(0, os.path.join(HERE, "..", "python"))

from images import write_blank  # noqa: E402
from txflash import NoProgram, found_program  # noqa: E402

EXTENSION = os.path.join(HERE, "out", "txflash_vfs")
LOGICAL = 150
# Above so many characters of a dump the rows go, so that not all commits are too large.
LONGEST = 600000


def load_extension() -> bool:
    """Whether the VFS is known to SQLite from here on."""
    library, handle = ctypes.CDLL("libsqlite3.so.0"), ctypes.c_void_p()
    library.sqlite3_open(b":memory:", ctypes.byref(handle))
    library.sqlite3_enable_load_extension(handle, 1)
    return bool(library.sqlite3_load_extension(handle, EXTENSION.encode(), None, None) == 0)


def hush() -> None:
    """What the VFS says of each refusal goes nowhere; what Python says of an error stays."""
    sys.stderr = os.fdopen(os.dup(2), "w")
    os.dup2(os.open(os.devnull, os.O_WRONLY), 2)


class Statements:
    """Statements on three tables and an index, of which not all are there."""

    def __init__(self, draw: random.Random, page_bytes: int) -> None:
        self.draw, self.page_bytes = draw, page_bytes

    def table(self) -> str:
        return self.draw.choice(("t0", "t0", "t0", "t1", "t2"))

    def blob(self) -> str:
        return f"zeroblob({self.draw.choice((5, 10, 300, self.page_bytes // 2, 2 * self.page_bytes))})"

    def insert(self) -> str:
        first = self.draw.randrange(300)
        last = first + self.draw.choice((1, 1, 5, 40))
        return (f"WITH r(n) AS (VALUES({first}) UNION ALL SELECT n + 1 FROM r WHERE n < {last}) INSERT OR REPLACE INTO "
                f"{self.table()} SELECT n, {self.draw.randrange(100)}, {self.blob()} FROM r")

    def update(self) -> str:
        return f"UPDATE {self.table()} SET v = v + 1 WHERE n % {self.draw.choice((1, 2, 7, 31))} = 0"

    def lengthen(self) -> str:
        return f"UPDATE {self.table()} SET w = {self.blob()} WHERE n < {self.draw.randrange(60)}"

    def delete(self) -> str:
        return f"DELETE FROM {self.table()} WHERE n % {self.draw.choice((1, 2, 3, 9))} = 0"

    def schema(self) -> str:
        return self.draw.choice((
            "CREATE TABLE IF NOT EXISTS t1(n INTEGER PRIMARY KEY, v, w)", "DROP TABLE IF EXISTS t1",
            "CREATE TABLE IF NOT EXISTS t2(n INTEGER PRIMARY KEY, v, w)", "DROP TABLE IF EXISTS t2",
            "CREATE INDEX IF NOT EXISTS i0 ON t0(v, n)", "DROP INDEX IF EXISTS i0"))

    def any(self) -> str:
        kinds = (self.insert, self.update, self.lengthen, self.delete, self.schema)
        return self.draw.choices(kinds, (35, 20, 15, 15, 15))[0]()


class Wrong(Exception):
    """The two databases differ."""


class Pair:
    """The same database in a device and in memory."""

    def __init__(self, draw: random.Random, image: str) -> None:
        self.draw, self.image = draw, image
        page_bytes = draw.choice((512, 1024, 4096))
        write_blank(image, draw.choice(("scc", "bpcc")), page_bytes, 16, 20, 1, LOGICAL, draw.choice((20, 60)))
        self.statements = Statements(draw, page_bytes)
        self.counts: Counter[str] = collections.Counter()
        self.memory = sqlite3.connect(":memory:", isolation_level=None)
        self.device = self.open_device()
        self.device.execute(f"PRAGMA page_size={page_bytes}")
        self.device.execute(f"PRAGMA auto_vacuum={draw.randrange(3)}")
        self.give_both("CREATE TABLE t0(n INTEGER PRIMARY KEY, v, w)")

    def open_device(self) -> sqlite3.Connection:
        """Opens the database in the device, with other pragmas each time."""
        device = sqlite3.connect(f"file:{self.image}?vfs=txflash", uri=True, isolation_level=None)
        for name, values in (("cache_size", (2, 5, 50, 2000)), ("synchronous", ("off", "normal", "full")),
                             ("journal_mode", ("delete", "truncate", "persist", "memory")),
                             ("locking_mode", ("normal", "normal", "exclusive"))):
            device.execute(f"PRAGMA {name}={self.draw.choice(values)}")
        return device

    def give_both(self, sql: str) -> bool:
        """Whether the device had room for it. What both refuse alike is none of its business."""
        found: List[Optional[sqlite3.Error]] = []
        for it in (self.memory, self.device):
            try:
                it.execute(sql).fetchall()
                found.append(None)
            except sqlite3.Error as error:
                found.append(error)
        if found[1] and not found[0] and "full" not in str(found[1]):
            raise Wrong(f"{sql}: {found[1]}")
        return not found[1] or bool(found[0])

    def transaction(self) -> bool:
        """Begins and ends one; whether the device took all of it."""
        self.give_both("BEGIN")
        for _ in range(self.draw.choice((1, 1, 3, 8))):
            if self.draw.random() < 0.15:
                if not (self.give_both("SAVEPOINT s") and self.give_both(self.statements.any())):
                    return False
                self.give_both(self.draw.choice(("ROLLBACK TO s", "RELEASE s")))
            if not self.give_both(self.statements.any()):
                return False
        if self.draw.random() < 0.25:
            self.counts["rolled back"] += 1
            return self.give_both("ROLLBACK")
        return self.give_both("COMMIT")

    def take_back(self, before: List[str]) -> None:
        """Puts both to where they were before a transaction that the device refused."""
        self.counts["refused"] += 1
        if self.device.in_transaction:
            self.device.execute("ROLLBACK")
        self.memory.close()
        self.memory = sqlite3.connect(":memory:", isolation_level=None)
        self.memory.executescript("\n".join(before))

    def turn(self) -> None:
        before = list(self.memory.iterdump())
        self.counts["transactions"] += 1
        if not self.transaction():
            self.take_back(before)
        if self.draw.random() < 0.1:
            self.counts["vacuumed"] += self.give_both(self.draw.choice(("VACUUM", "PRAGMA incremental_vacuum")))
        if self.draw.random() < 0.15:
            self.counts["opened again"] += 1
            self.device.close()
            self.device = self.open_device()
        if self.compare() > LONGEST:
            before = list(self.memory.iterdump())
            if not self.give_both("DELETE FROM t0"):
                self.take_back(before)

    def compare(self) -> int:
        """How many characters a dump has, which is the same of both."""
        sound = self.device.execute("PRAGMA integrity_check").fetchall()
        own, other = sorted(self.device.iterdump()), sorted(self.memory.iterdump())
        if sound != [("ok",)] or own != other:
            raise Wrong(f"the database in the device has {len(own)} lines, that in memory {len(other)}: {sound}")
        return sum(map(len, own))


def compare_for(seconds: float, seed: int, folder: str) -> int:
    """How many seeds were wrong, from this one on."""
    end, wrong = time.monotonic() + seconds, 0
    while time.monotonic() < end:
        pair = Pair(random.Random(seed), os.path.join(folder, f"{seed}.img"))
        try:
            while pair.counts["transactions"] < 200 and time.monotonic() < end:
                pair.turn()
        except Wrong as problem:
            wrong += 1
            print(f"drawn: seed {seed}: {problem}")
        pair.device.close()
        counts = ", ".join(f"{count} {name}" for name, count in pair.counts.items())
        print(f"drawn: seed {seed}: {counts}", flush=True)
        seed += 1
    return wrong


def main() -> Union[int, str]:
    parser = argparse.ArgumentParser(description=__doc__, formatter_class=argparse.RawDescriptionHelpFormatter)
    parser.add_argument("--seed", type=int, default=1)
    parser.add_argument("--seconds", type=float, default=60)
    parser.add_argument("--room")
    args = parser.parse_args()
    try:
        found_program(None)
    except NoProgram as problem:
        return f"drawn: {problem}"
    if not load_extension():
        return f"drawn: {EXTENSION} cannot be loaded: give make first"
    hush()
    with tempfile.TemporaryDirectory(prefix="drawn-", dir=args.room) as folder:
        return 1 if compare_for(args.seconds, args.seed, folder) else 0


if __name__ == "__main__":
    sys.exit(main())
