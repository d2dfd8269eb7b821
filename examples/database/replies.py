"""Replies of `read`, and the database file that they make."""
from __future__ import annotations

from typing import Dict, Iterable, Iterator, Optional

from database_file import page_count, page_size
from problems import Problem


def reads(pages: int) -> Iterator[str]:
    """The commands that read so many pages."""
    return (f"read {page}" for page in range(pages))


def pages_read(lines: Iterable[str]) -> Dict[int, Optional[bytes]]:
    """The pages of the device that the replies tell, None for a blank one. Of two replies for one the later counts."""
    pages: Dict[int, Optional[bytes]] = {}
    for line in lines:
        words = line.split()
        try:
            if len(words) == 3 and words[0] == "page":
                pages[int(words[1])] = bytes.fromhex(words[2])
            elif len(words) == 2 and words[0] == "blank":
                pages[int(words[1])] = None
        except ValueError:
            raise Problem(f"this is no reply of the program: {line[:60]}") from None
    return pages


def page_of(pages: Dict[int, Optional[bytes]], number: int, page_bytes: int) -> bytes:
    """Page N of the database, which is page N - 1 of the device."""
    place = number - 1
    if place not in pages:
        raise Problem(f"no reply tells page {place} of the device: read it (again, where a read was answered fault)")
    contents = pages[place]
    if contents is None:
        raise Problem(f"page {place} of the device is blank: serve all files of commands first, in their order")
    if len(contents) != page_bytes:
        raise Problem(f"page {place} has {len(contents)} bytes, and page 0 says {page_bytes}: read one device")
    return contents


def database_of(pages: Dict[int, Optional[bytes]]) -> bytes:
    """The database file of these pages of the device. Page 1 of the database says how many belong to it."""
    first = pages.get(0) or b""
    if not first:
        raise Problem("no reply tells page 0 of the device, where the database begins: serve its files, and read it")
    size = page_size(first)
    return b"".join(page_of(pages, number, size) for number in range(1, page_count(first) + 1))
