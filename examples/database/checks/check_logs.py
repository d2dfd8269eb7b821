"""Reading a log: handmade ones, and those of SQLite."""
from __future__ import annotations

import os
import struct
import tempfile
import unittest
from typing import List

from bank import begin
from database_file import read_pages
from handmade import BIG, LITTLE, PAGE, SALTS, first_page, log_header, log_of, page
from history import State, contents_of
from problems import Problem
from wal_log import FRAME, HEADER, Commit, checkpointed_frames, checksum, read_log

TWO = [(1, 0, first_page(2)), (2, 2, page(2)), (2, 2, page(3))]
ONE = log_of(TWO[:2])
FRAME_BYTES = FRAME.size + PAGE


def spoilt(data: bytes, place: int) -> bytes:
    return data[:place] + bytes([data[place] ^ 1]) + data[place + 1 :]


class Logs(unittest.TestCase):
    def commits(self, data: bytes) -> List[Commit]:
        return read_log(data).commits

    def test_both_byte_orders(self) -> None:
        self.assertNotEqual(log_of(TWO)[24:32], log_of(TWO, BIG)[24:32])
        for magic in (LITTLE, BIG):
            log = read_log(log_of(TWO, magic))
            self.assertEqual(log.commits, [Commit({1: first_page(2), 2: page(2)}, 2), Commit({2: page(3)}, 2)])
            self.assertEqual((log.frames, log.left_out, log.page_bytes), (3, 0, PAGE))

    def test_checksum_of_some_words(self) -> None:
        # 0 + 1 + 0 = 1 and 0 + 2 + 1 = 3; then 1 + 1 + 3 = 5 and 3 + 2 + 5 = 10.
        self.assertEqual(checksum(struct.pack("<4I", 1, 2, 1, 2), "<"), (5, 10))
        # 1 + 4294967295 + 1 = 1 and 1 + 2 + 1 = 4, modulo 2^32.
        self.assertEqual(checksum(struct.pack(">2I", 0xFFFFFFFF, 2), ">", (1, 1)), (1, 4))

    def test_cut_off_anywhere(self) -> None:
        data = log_of(TWO)
        ends = [HEADER.size, len(ONE), len(data)]
        for length in range(HEADER.size, len(data) + 1):
            log = read_log(data[:length])
            whole = [end for end in ends if end <= length]
            self.assertEqual((len(log.commits), log.left_out), (len(whole) - 1, length - whole[-1]))

    def test_a_commit_without_its_last_frame(self) -> None:
        self.assertEqual(self.commits(log_of([*TWO[:2], (1, 0, first_page(3)), (3, 0, page(9))])), self.commits(ONE))

    def test_wrong_salt_or_checksum_ends_it(self) -> None:
        data = log_of(TWO)
        # Spoilt are the page, the size, both salts, both checksums and the contents of the last frame.
        for place in (3, 7, 8, 15, 19, 23, 24, FRAME_BYTES - 1):
            self.assertEqual(self.commits(spoilt(data, len(ONE) + place)), self.commits(ONE), place)
        self.assertEqual(self.commits(spoilt(data, HEADER.size + 30)), [])

    def test_frames_of_an_older_log_are_left_out(self) -> None:
        older = log_of(TWO)[HEADER.size :].replace(SALTS, b"olderold")
        log = read_log(ONE + older)
        self.assertEqual((len(log.commits), log.left_out), (1, 3 * FRAME_BYTES))

    def test_page_0_ends_it(self) -> None:
        self.assertEqual(self.commits(log_of([(0, 1, page(1))])), [])

    def test_the_later_of_two_frames_counts(self) -> None:
        log = read_log(log_of([(2, 0, page(7)), (1, 0, first_page(2)), (2, 2, page(8))]))
        self.assertEqual((log.commits, log.frames), ([Commit({1: first_page(2), 2: page(8)}, 2)], 3))

    def test_pages_past_the_end_are_dropped(self) -> None:
        log = log_of([(3, 0, page(7)), (1, 1, first_page(1))])
        self.assertEqual(self.commits(log), [Commit({1: first_page(1)}, 1)])

    def test_no_log(self) -> None:
        cases = [
            (b"", "0 bytes"), (ONE[:31], "31 bytes"), (b"SQLite format 3\0" * 2, "no write-ahead log"),
            (spoilt(ONE, 13), "checksum"), (spoilt(ONE, 31), "checksum"),
            (log_header(version=3007001), "format 3007001"),
            (log_header(page_bytes=528), "528 bytes"), (log_header(page_bytes=256), "256 bytes"),
        ]  # fmt: skip
        for data, words in cases:
            with self.assertRaisesRegex(Problem, words):
                read_log(data)

    def test_checkpointed(self) -> None:
        index = bytes(32) + SALTS + bytes(56) + struct.pack("=I", 7) + bytes(20)
        self.assertEqual(checkpointed_frames(index, SALTS), 7)
        self.assertEqual(checkpointed_frames(index, b"SALTsalt"), 0)
        self.assertEqual(checkpointed_frames(b"", SALTS), 0)


class LogsOfSqlite(unittest.TestCase):
    def test_shrinking_and_spilling(self) -> None:
        """A database grows, in one commit past SQLite's cache, and VACUUM makes it shorter."""
        with tempfile.TemporaryDirectory() as folder:
            path = os.path.join(folder, "some.db")
            connection = begin(path, PAGE, "wal")
            connection.execute("PRAGMA cache_size=10")
            begun = State(read_pages(contents_of(path)))
            connection.execute("CREATE TABLE row (id INTEGER PRIMARY KEY, text TEXT)")
            connection.execute("BEGIN")
            for number in range(400):
                connection.execute("INSERT INTO row VALUES (?, ?)", ((7 * number) % 400, "x" * 100))
            connection.execute("COMMIT")
            connection.execute("DELETE FROM row WHERE id % 3 > 0")
            connection.execute("VACUUM")
            log = read_log(contents_of(f"{path}-wal"))
            connection.close()
            sizes = [commit.size for commit in log.commits]
            self.assertLess(sizes[-1], max(sizes))
            state = begun
            for commit in log.commits:
                state = state.after(commit)
            self.assertEqual((state.file(), log.left_out), (contents_of(path), 0))
