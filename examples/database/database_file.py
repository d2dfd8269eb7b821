"""The file of a SQLite database: its pages, and the two numbers of page 1 that this needs."""
from __future__ import annotations

import struct
from typing import Dict

from problems import Problem

MAGIC = b"SQLite format 3\0"


def page_size(first_page: bytes) -> int:
    """The bytes of a page, as page 1 says them."""
    if len(first_page) < 100 or not first_page.startswith(MAGIC):
        raise Problem("page 1 is not that of a SQLite database: name the database that the log belongs to")
    size = struct.unpack_from(">H", first_page, 16)[0]
    return 65536 if size == 1 else size


def page_count(first_page: bytes) -> int:
    """How many pages the database has, as page 1 says it."""
    page_size(first_page)
    return struct.unpack_from(">I", first_page, 28)[0]


def read_pages(data: bytes) -> Dict[int, bytes]:
    """The pages of a database file, by their numbers from 1."""
    if not data:
        return {}
    size = page_size(data[:100])
    if len(data) % size:
        raise Problem(f"the database file has {len(data)} bytes and pages of {size}: its last page was cut off")
    return {1 + start // size: data[start : start + size] for start in range(0, len(data), size)}
