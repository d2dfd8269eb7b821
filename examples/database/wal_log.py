"""The write-ahead log of a SQLite database, read commit by commit.

The format is 'The Write-Ahead Log' of https://www.sqlite.org/fileformat2.html: a header of 32 bytes, and frames of 24
bytes and one page. A frame counts where it has the header's salts, and its checksum goes on from that of the frame
before it, and where all frames before it count. A frame with a database size other than 0 ends a commit.
"""
from __future__ import annotations

import struct
from dataclasses import dataclass
from typing import Dict, Iterator, List, NamedTuple, Tuple

from problems import Problem

HEADER = struct.Struct(">IIII8sII")
FRAME = struct.Struct(">II8sII")
# The last bit of the magic number tells in which order the checksums take the bytes of a word.
BYTE_ORDERS = {0x377F0682: "<", 0x377F0683: ">"}
VERSION = 3007000
PAGE_SIZES = [1 << power for power in range(9, 17)]

Sums = Tuple[int, int]


@dataclass(frozen=True)
class Commit:
    """The pages that a transaction changed, by their numbers from 1, and how many the database has from then on."""

    pages: Dict[int, bytes]
    size: int


@dataclass(frozen=True)
class Log:
    page_bytes: int
    salts: bytes
    commits: List[Commit]
    frames: int
    """How many frames the commits have. It is more than their pages where a commit wrote a page twice."""
    left_out: int
    """How many bytes behind the last commit belong to none."""


class Header(NamedTuple):
    order: str
    page_bytes: int
    salts: bytes
    sums: Sums


class Frame(NamedTuple):
    page: int
    size: int
    contents: bytes


def checksum(data: bytes, order: str, sums: Sums = (0, 0)) -> Sums:
    """The checksum of a list of 8 byte pieces, going on from another."""
    first, second = sums
    words = iter(struct.unpack(f"{order}{len(data) // 4}I", data))
    for one, other in zip(words, words):
        first = (first + one + second) & 0xFFFFFFFF
        second = (second + other + first) & 0xFFFFFFFF
    return first, second


def read_header(data: bytes) -> Header:
    """The header of a log."""
    if len(data) < HEADER.size:
        raise Problem(
            f"the log has {len(data)} bytes, and its header alone has {HEADER.size}: change the database in WAL mode, "
            "and read the log while the connection is open"
        )
    magic, version, page_bytes, _, salts, *sums = HEADER.unpack_from(data)
    if magic not in BYTE_ORDERS:
        raise Problem("this is no write-ahead log: it begins with other bytes. Name the database; its log is NAME-wal")
    order = BYTE_ORDERS[magic]
    if checksum(data[:24], order) != tuple(sums):
        raise Problem("the log's header does not have its checksum: take a copy, and open the database with SQLite")
    if version != VERSION:
        raise Problem(f"the log has format {version}, and this reads {VERSION}: make it with another SQLite")
    if page_bytes not in PAGE_SIZES:
        raise Problem(f"the log has pages of {page_bytes} bytes, which SQLite never makes: take a copy of it")
    return Header(order, page_bytes, salts, (sums[0], sums[1]))


def frames_of(data: bytes, header: Header) -> Iterator[Frame]:
    """The frames that count."""
    length = FRAME.size + header.page_bytes
    sums = header.sums
    for start in range(HEADER.size, len(data) - length + 1, length):
        page, size, salts, *stored = FRAME.unpack_from(data, start)
        contents = data[start + FRAME.size : start + length]
        sums = checksum(data[start : start + 8] + contents, header.order, sums)
        if page == 0 or salts != header.salts or sums != tuple(stored):
            return
        yield Frame(page, size, contents)


def read_log(data: bytes) -> Log:
    """The commits of a log. What stands behind the last whole one is left out."""
    header = read_header(data)
    commits: List[Commit] = []
    pages: Dict[int, bytes] = {}
    read = counted = 0
    for frame in frames_of(data, header):
        read += 1
        # Of two frames for one page the later one counts.
        pages[frame.page] = frame.contents
        if frame.size > 0:
            # Pages past the new end may have been written before the transaction came to its end.
            kept = {page: contents for page, contents in pages.items() if page <= frame.size}
            commits.append(Commit(kept, frame.size))
            counted, pages = read, {}
    used = HEADER.size + counted * (FRAME.size + header.page_bytes)
    return Log(header.page_bytes, header.salts, commits, counted, len(data) - used)


def checkpointed_frames(index: bytes, salts: bytes) -> int:
    """How many frames of the log with these salts the file NAME-shm says to stand in the database file already."""
    if len(index) < 100 or index[32:40] != salts:
        return 0
    return struct.unpack_from("=I", index, 96)[0]
