"""A SQLite database and its log as transactions of a device. Page N of the database is page N - 1 of the device."""
from __future__ import annotations

from typing import Dict, Iterator, List, Sequence

from command_files import Piece, transaction
from database_file import page_count
from device import LARGEST_PAGE, MOST_PENDING, Device
from problems import Problem
from wal_log import Commit


def device_pages(pages: Dict[int, bytes]) -> Dict[int, bytes]:
    """The same pages by their numbers on the device."""
    return {page - 1: contents for page, contents in pages.items()}


def check_page_size(page_bytes: int, device: Device) -> None:
    if page_bytes > LARGEST_PAGE:
        raise Problem(
            f"the database has pages of {page_bytes} bytes, and those of a device have at most {LARGEST_PAGE}: give it "
            "smaller ones (PRAGMA journal_mode=delete; PRAGMA page_size=4096; VACUUM)"
        )
    if page_bytes != device.page_bytes:
        raise Problem(
            f"the database has pages of {page_bytes} bytes, and the device of {device.page_bytes}: format an image "
            f"with PAGE {page_bytes}"
        )


def check_size(what: str, size: int, device: Device) -> None:
    if size > device.logical:
        raise Problem(
            f"{what} has {size} pages, and the device {device.logical}: format an image with LOGICAL {size} or more, "
            "or remove rows and give VACUUM before the log begins"
        )


def check_commit(number: int, commit: Commit, device: Device) -> None:
    """Whether the device can take a commit in one transaction."""
    check_size(f"the database after commit {number}", commit.size, device)
    changed = len(commit.pages)
    if changed > MOST_PENDING:
        raise Problem(
            f"commit {number} changes {changed} pages, and a transaction has at most {MOST_PENDING}: divide it into "
            "smaller ones, each with its own COMMIT"
        )
    if changed > device.pending:
        raise Problem(
            f"commit {number} changes {changed} pages, and a transaction of the device has at most {device.pending}: "
            f"format an image with PENDING {changed} or more"
        )


def check_told_size(number: int, commit: Commit, first_page: bytes) -> None:
    """Whether page 1 says the size that the commit says: the size is read back from there."""
    told = page_count(first_page)
    if told != commit.size:
        raise Problem(
            f"after commit {number} the database has {commit.size} pages, and page 1 says {told}: its log is not that "
            "of this file, or a checkpoint came between; make both anew"
        )


def check(database: Dict[int, bytes], commits: Sequence[Commit], page_bytes: int, device: Device) -> None:
    """Whether the device can take the database and then the commits."""
    check_page_size(page_bytes, device)
    check_size("the database file", len(database), device)
    first_page = database.get(1, b"")
    for number, commit in enumerate(commits, 1):
        check_commit(number, commit, device)
        first_page = commit.pages.get(1, first_page)
        if first_page:
            check_told_size(number, commit, first_page)


def load(database: Dict[int, bytes], device: Device) -> Iterator[Piece]:
    """The database file, in as few transactions as the device takes. Until the last one is done it has no database."""
    pages: List[int] = sorted(database)
    for start in range(0, len(pages), device.pending):
        part = {page: database[page] for page in pages[start : start + device.pending]}
        yield Piece(transaction(0, device_pages(part)))


def replay(commits: Sequence[Commit]) -> Iterator[Piece]:
    """The commits, one transaction each, with their numbers from 1 as tags."""
    for number, commit in enumerate(commits, 1):
        if commit.pages:
            yield Piece(transaction(number, device_pages(commit.pages)))
