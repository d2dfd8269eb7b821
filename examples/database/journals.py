"""What SQLite writes for the same commits with a rollback journal, and with a write-ahead log."""
from __future__ import annotations

import os
from dataclasses import dataclass
from typing import List, Sequence, Set

from bank import Bank, begin, open_accounts, transfers
from wal_log import FRAME, HEADER, Commit


@dataclass(frozen=True)
class Written:
    """What is written for one commit: bytes of the journal or log, and pages of the database file."""

    start: int
    end: int
    database: List[int]

    def pages(self, page_bytes: int) -> range:
        """The pages of the journal or log that bytes stand in."""
        return range(self.start // page_bytes, -(-self.end // page_bytes))

    def bytes(self, page_bytes: int) -> int:
        return self.end - self.start + len(self.database) * page_bytes


def journal_lengths(folder: str, bank: Bank, page_bytes: int) -> List[int]:
    """The length of the journal of each transaction of a bank after its accounts were opened.

    In the mode `persist` the journal keeps its length at the end of a transaction, so that it can be read off the file.
    """
    path = os.path.join(folder, "journal.db")
    journal = f"{path}-journal"
    connection = begin(path, page_bytes, "persist")
    lengths = []
    try:
        open_accounts(connection, bank)
        os.truncate(journal, 0)
        for _ in transfers(connection, bank):
            lengths.append(os.path.getsize(journal))
            os.truncate(journal, 0)
    finally:
        connection.close()
    # A transaction that found nothing to change has no journal, and no commit.
    return [length for length in lengths if length]


def journal_writes(commits: Sequence[Commit], lengths: Sequence[int]) -> List[Written]:
    """The database file gets the pages that changed, and page 1 with its count of changes.

    Left out are the 28 bytes by which a journal is ended, or the change of the folder where it is removed.
    """
    return [Written(0, length, sorted({1, *commit.pages})) for commit, length in zip(commits, lengths)]


def log_writes(commits: Sequence[Commit], page_bytes: int, checkpoint: int) -> List[Written]:
    """A log gets a frame for each page that changed.

    After so many frames a checkpoint writes the last frame of each page to the database file, and the log begins anew.
    """
    written = []
    frame = FRAME.size + page_bytes
    end = 0
    changed: Set[int] = set()
    for commit in commits:
        start = end
        end = (start or HEADER.size) + len(commit.pages) * frame
        changed |= commit.pages.keys()
        if end < HEADER.size + checkpoint * frame:
            written.append(Written(start, end, []))
        else:
            written.append(Written(start, end, sorted(page for page in changed if page <= commit.size)))
            end, changed = 0, set()
    return written
