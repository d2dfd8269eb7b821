"""What SQLite wrote while a bank was at work."""
from __future__ import annotations

import os
from dataclasses import dataclass
from typing import Dict, Iterator, List

from bank import Bank, begin, open_accounts, transfers
from database_file import read_pages
from problems import Problem
from wal_log import Commit, Log, read_log


@dataclass(frozen=True)
class State:
    """The pages of a database, by their numbers from 1."""

    pages: Dict[int, bytes]

    def after(self, commit: Commit) -> State:
        pages = {page: contents for page, contents in self.pages.items() if page <= commit.size}
        return State({**pages, **commit.pages})

    def file(self) -> bytes:
        return b"".join(self.pages[page] for page in sorted(self.pages))


@dataclass(frozen=True)
class History:
    begun: State
    """The database file as it was when the log began."""
    opened: int
    """How many commits there are before the first transfer."""
    log: Log

    def opening_commits(self) -> List[Commit]:
        return self.log.commits[: self.opened]

    def later_commits(self) -> List[Commit]:
        """Those after the accounts were opened."""
        return self.log.commits[self.opened :]

    def states(self) -> Iterator[State]:
        """The database after each commit."""
        state = self.begun
        for commit in self.log.commits:
            state = state.after(commit)
            yield state

    def largest(self) -> int:
        """The most pages that the database has."""
        return max(commit.size for commit in self.log.commits)

    def widest(self) -> int:
        """The most pages that a commit changes."""
        return max(len(commit.pages) for commit in self.log.commits)


def contents_of(path: str) -> bytes:
    with open(path, "rb") as file:
        return file.read()


def record(folder: str, bank: Bank, page_bytes: int) -> History:
    """The history of a bank, read from its log. What the log gives is compared with what SQLite makes of it itself."""
    path = os.path.join(folder, "bank.db")
    connection = begin(path, page_bytes, "wal")
    try:
        open_accounts(connection, bank)
        opened = len(read_log(contents_of(f"{path}-wal")).commits)
        for _ in transfers(connection, bank):
            pass
        log = read_log(contents_of(f"{path}-wal"))
        begun = State(read_pages(contents_of(path)))
    finally:
        connection.close()
    history = History(begun, opened, log)
    *_, last = history.states()
    if log.left_out or last.file() != contents_of(path):
        raise Problem("the commits that were read from the log do not give the file that SQLite makes of it")
    return history
