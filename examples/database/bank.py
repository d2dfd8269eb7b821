#!/usr/bin/env python3
"""A bank with accounts, whose money is moved by transfers and never made or lost.

    bank.py DB          makes a database with a history of transfers, and leaves its log there
    bank.py --audit DB  says what SQLite finds in a database that has no log any more
"""
from __future__ import annotations

import argparse
import os
import random
import sqlite3
import sys
from dataclasses import dataclass
from typing import Iterator

TABLES = """
    CREATE TABLE account (id INTEGER PRIMARY KEY, owner TEXT NOT NULL, balance INTEGER NOT NULL);
    CREATE TABLE transfer (id INTEGER PRIMARY KEY, payer INTEGER NOT NULL, payee INTEGER NOT NULL, amount INTEGER);
    CREATE INDEX payments ON transfer (payer);
"""
OPENING_BALANCE = 1000


@dataclass(frozen=True)
class Bank:
    accounts: int
    transfers: int
    kept: int
    """About how many transfers are kept in the table."""
    seed: int = 1

    def money(self) -> int:
        return self.accounts * OPENING_BALANCE


# Some 80 pages of 512 bytes.
SMALL = Bank(accounts=1000, transfers=2000, kept=600)
PAGE_BYTES = 512


def connect(path: str) -> sqlite3.Connection:
    """A connection on which each transaction is begun and committed by hand."""
    return sqlite3.connect(path, isolation_level=None)


def begin(path: str, page_bytes: int, mode: str) -> sqlite3.Connection:
    """A new database, empty, which keeps its log until it is closed."""
    connection = connect(path)
    connection.execute(f"PRAGMA page_size={page_bytes}")
    connection.execute("PRAGMA auto_vacuum=incremental")
    connection.execute(f"PRAGMA journal_mode={mode}")
    connection.execute("PRAGMA wal_autocheckpoint=0")
    # No sync is needed to see what is written. The pages are the same.
    connection.execute("PRAGMA synchronous=off")
    return connection


def open_accounts(connection: sqlite3.Connection, bank: Bank) -> None:
    """The tables and the accounts, some accounts to a commit."""
    connection.executescript(TABLES)
    for start in range(1, bank.accounts + 1, 100):
        connection.execute("BEGIN")
        for number in range(start, min(start + 100, bank.accounts + 1)):
            row = (number, f"owner {number}", OPENING_BALANCE)
            connection.execute("INSERT INTO account VALUES (?, ?, ?)", row)
        connection.execute("COMMIT")


def transfer(connection: sqlite3.Connection, number: int, payer: int, payee: int, amount: int) -> None:
    """One transaction: the amount goes from one account to the other, and a row says so."""
    connection.execute("BEGIN")
    connection.execute("UPDATE account SET balance = balance - ? WHERE id = ?", (amount, payer))
    connection.execute("UPDATE account SET balance = balance + ? WHERE id = ?", (amount, payee))
    connection.execute("INSERT INTO transfer VALUES (?, ?, ?, ?)", (number, payer, payee, amount))
    connection.execute("COMMIT")


def transfers(connection: sqlite3.Connection, bank: Bank) -> Iterator[int]:
    """Makes one transfer after another, and says its number after each transaction.

    The oldest transfers are forgotten, some at a time, and now and then the database is made shorter by free pages.
    """
    chance = random.Random(bank.seed)
    for number in range(1, bank.transfers + 1):
        payer, payee = chance.sample(range(1, bank.accounts + 1), 2)
        transfer(connection, number, payer, payee, chance.randrange(1, 100))
        yield number
        if number > bank.kept and number % 5 == 0:
            connection.execute("DELETE FROM transfer WHERE id <= ?", (number - bank.kept,))
            yield number
        if number > bank.kept and number % 100 == 0:
            # A script runs to its end. A call of execute ends at the first page in some versions of Python.
            connection.executescript("PRAGMA incremental_vacuum(2);")
            yield number


@dataclass(frozen=True)
class Audit:
    integrity: str
    sum: int
    last: int
    """The number of the last transfer."""

    def __str__(self) -> str:
        return f"integrity_check {self.integrity}, sum of all accounts {self.sum}, last transfer {self.last}"


def look(connection: sqlite3.Connection) -> Audit:
    """What SQLite finds, without any journal."""
    connection.execute("PRAGMA synchronous=off")
    connection.execute("PRAGMA journal_mode=off").fetchall()
    integrity = connection.execute("PRAGMA integrity_check").fetchone()[0]
    total = connection.execute("SELECT sum(balance) FROM account").fetchone()[0]
    last = connection.execute("SELECT max(id) FROM transfer").fetchone()[0]
    return Audit(integrity, total or 0, last or 0)


def audit(path: str) -> Audit:
    """What SQLite finds in a database file alone."""
    connection = connect(path)
    try:
        return look(connection)
    except sqlite3.DatabaseError as error:
        return Audit(f"failed: {error}", 0, 0)
    finally:
        connection.close()


def main() -> int:
    parser = argparse.ArgumentParser(description=(__doc__ or "").split("\n")[0])
    parser.add_argument("database", metavar="DB")
    parser.add_argument("--audit", action="store_true", help="say what SQLite finds in DB")
    options = parser.parse_args()
    if options.audit:
        print(audit(options.database))
        return 0
    if os.path.exists(options.database):
        print(f"bank: {options.database} is there already: take another name", file=sys.stderr)
        return 1
    connection = begin(options.database, PAGE_BYTES, "wal")
    open_accounts(connection, SMALL)
    for _ in transfers(connection, SMALL):
        pass
    # The process ends as in a crash: SQLite would remove the log where the connection is closed.
    os._exit(0)


if __name__ == "__main__":
    sys.exit(main())
