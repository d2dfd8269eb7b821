"""Pages and logs by hand."""
from __future__ import annotations

import struct
from typing import Sequence, Tuple

PAGE = 512
SALTS = b"saltSALT"
LITTLE, BIG = 0x377F0682, 0x377F0683


def page(byte: int) -> bytes:
    return bytes([byte]) * PAGE


def first_page(pages: int, page_bytes: int = PAGE) -> bytes:
    """A page 1 that says how many pages there are."""
    head = bytearray(b"SQLite format 3\0" + bytes(84))
    struct.pack_into(">H", head, 16, 1 if page_bytes == 65536 else page_bytes)
    struct.pack_into(">I", head, 28, pages)
    return bytes(head) + bytes(page_bytes - 100)


def sums_of(data: bytes, order: str, sums: Tuple[int, int] = (0, 0)) -> Tuple[int, int]:
    """The checksum once more, word by word, as the format has it."""
    first, second = sums
    for start in range(0, len(data), 8):
        first = (first + int.from_bytes(data[start : start + 4], order) + second) % 2**32  # type: ignore[arg-type]
        second = (second + int.from_bytes(data[start + 4 : start + 8], order) + first) % 2**32  # type: ignore[arg-type]
    return first, second


def log_header(magic: int = LITTLE, version: int = 3007000, page_bytes: int = PAGE) -> bytes:
    head = struct.pack(">IIII", magic, version, page_bytes, 0) + SALTS
    return head + struct.pack(">II", *sums_of(head, order_of(magic)))


def order_of(magic: int) -> str:
    return "big" if magic == BIG else "little"


def log_of(frames: Sequence[Tuple[int, int, bytes]], magic: int = LITTLE) -> bytes:
    """A log: of each frame the page, the size of the database at a commit or else 0, and the contents."""
    data = log_header(magic)
    sums = struct.unpack(">II", data[24:])
    for number, size, contents in frames:
        begun = struct.pack(">II", number, size)
        sums = sums_of(begun + contents, order_of(magic), (sums[0], sums[1]))
        data += begun + SALTS + struct.pack(">II", *sums) + contents
    return data
