"""What a device can take, the files of commands, and what comes back."""
from __future__ import annotations

import struct
import unittest
from typing import Dict, List

from command_files import Limits, Piece, entry, files_of, transaction
from database_file import page_count, page_size, read_pages
from device import Device, largest_device, read_device
from handmade import PAGE, first_page, page
from plan import check, device_pages, load
from problems import Problem
from replies import database_of, pages_read
from tables import bars, table
from wal_log import Commit

SMALL = Device(PAGE, 4, 2)


class Plans(unittest.TestCase):
    def assert_refused(self, words: str, commit: Commit, device: Device = SMALL, page_bytes: int = PAGE) -> None:
        with self.assertRaisesRegex(Problem, words):
            check({}, [commit], page_bytes, device)

    def test_what_a_device_cannot_take(self) -> None:
        three = {number: page(1) for number in (2, 3, 4)}
        many = {number: page(1) for number in range(2, 259)}
        self.assert_refused("commit 1 changes 3 pages.*at most 2: format an image with PENDING 3", Commit(three, 4))
        large = Device(PAGE, 300, 256)
        self.assert_refused("commit 1 changes 257 pages.*at most 256: divide", Commit(many, 300), large)
        self.assert_refused("after commit 1 has 5 pages, and the device 4", Commit({1: first_page(5)}, 5))
        self.assert_refused("8192 bytes.*at most 4096", Commit({1: b""}, 1), largest_device(8192), 8192)
        self.assert_refused("1024 bytes, and the device of 512", Commit({1: b""}, 1), page_bytes=1024)
        self.assert_refused("page 1 says 3", Commit({1: first_page(3)}, 2))
        with self.assertRaisesRegex(Problem, "database file has 5 pages"):
            check({number: page(1) for number in range(1, 6)}, [], PAGE, SMALL)

    def test_what_it_takes(self) -> None:
        commits = [Commit({1: first_page(4), 2: page(2)}, 4), Commit({4: page(4)}, 4)]
        check({1: first_page(1)}, commits, PAGE, SMALL)
        # The device has the database already, and no commit changed page 1.
        check({}, commits[1:], PAGE, SMALL)

    def test_page_1_is_page_0(self) -> None:
        self.assertEqual(device_pages({1: page(1), 7: page(7)}), {0: page(1), 6: page(7)})
        pieces = load({1: page(1), 2: bytes(PAGE), 3: page(3)}, SMALL)
        lines = [f"write 0 0={'01' * PAGE} 1=-", "finish 0", f"write 0 2={'03' * PAGE}", "finish 0"]
        self.assertEqual([line for piece in pieces for line in piece.lines], lines)

    def test_device_of_an_image(self) -> None:
        head = b"TXFLASH1" + struct.pack("<7I", 1, 512, 4, 15, 2, 84, 24) + bytes(28)
        self.assertEqual(read_device(head), Device(512, 84, 24))
        for bad in (head[:63], b"txflash1" + head[8:]):
            with self.assertRaisesRegex(Problem, "word format"):
                read_device(bad)
        self.assertEqual(largest_device(512), Device(512, 65532, 256))
        # 32256 slots of 4096 + 65 bytes have 134217216 bytes, and 64 come on top.
        self.assertEqual(largest_device(4096), Device(4096, 32252, 256))


class Commands(unittest.TestCase):
    def test_entries(self) -> None:
        self.assertEqual(entry(3, b"\x00\x0a\x00\x00"), "3=000a")
        self.assertEqual(entry(0, bytes(4)), "0=-")
        self.assertEqual(transaction(5, {2: b"\x01", 1: b"\xff"}), ["write 5 1=ff 2=01", "finish 5"])

    def test_limits(self) -> None:
        piece = Piece(["write 1 0=00 1=00", "finish 1"])
        self.assertEqual((piece.entries(), piece.bytes()), (2, 27))
        for limits in (Limits(commands=5), Limits(entries=5), Limits(bytes=80)):
            self.assertEqual([len(file) for file in files_of([piece] * 5, limits)], [2, 2, 1])
        for limits in (Limits(commands=4), Limits(entries=4), Limits(bytes=54)):
            self.assertEqual([len(file) for file in files_of([piece] * 5, limits)], [2, 2, 1])
        self.assertEqual([len(file) for file in files_of([piece] * 40000)], [32768, 7232])
        self.assertEqual(list(files_of([])), [])


class Replies(unittest.TestCase):
    def lines(self, pages: Dict[int, bytes]) -> List[str]:
        return ["open 1 2", "done 1", *(f"page {number} {contents.hex()}" for number, contents in pages.items())]

    def test_a_database_comes_back(self) -> None:
        file = first_page(2) + page(2)
        lines = self.lines({0: first_page(2), 1: page(2), 2: page(3)})
        self.assertEqual(database_of(pages_read([f"page 1 {page(9).hex()}", *lines, "blank 3"])), file)
        self.assertEqual(b"".join(read_pages(file).values()), file)

    def test_what_is_missing(self) -> None:
        one = self.lines({0: first_page(2)})
        cases = [
            ([], "page 0"), (one, "page 1 of"), ([*one, "fault"], "again"), ([*one, "blank 1"], "blank"),
            (["page 0 00"], "SQLite database"), (["page 0 0g"], "no reply"),
            ([f"page 0 {first_page(1, 1024)[:512].hex()}"], "1024"), ([*one, "page 1 00"], "page 1 has 1 bytes"),
        ]  # fmt: skip
        for lines, words in cases:
            with self.assertRaisesRegex(Problem, words):
                database_of(pages_read(lines))

    def test_numbers_of_page_1(self) -> None:
        self.assertEqual((page_size(first_page(3, 65536)), page_count(first_page(3))), (65536, 3))
        with self.assertRaisesRegex(Problem, "cut off"):
            read_pages(first_page(1) + b"\0")


class Tables(unittest.TestCase):
    def test_table_and_bars(self) -> None:
        self.assertEqual(table(["a", "b"], [["long", "1"], ["x", "22"]]), ["a      b", "long   1", "x     22"])
        self.assertEqual(bars(["a", "bb"], [1.0, 4.0], 8), ["a   ## 1.0", "bb  ######## 4.0"])
