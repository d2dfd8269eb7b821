"""The two tools as they are called, and what SQLite hands to the system."""
from __future__ import annotations

import os
import shutil
import subprocess
import sys
import tempfile
import unittest

from bank import PAGE_BYTES, SMALL, Bank, audit, begin, open_accounts, transfers
from fake import Fake
from handmade import first_page, log_of, page
from history import record
from journals import Written, journal_lengths, journal_writes, log_writes
from wal_log import Commit

TOOLS = os.path.dirname(os.path.dirname(os.path.abspath(__file__)))
COUNTS = "/proc/self/io"


class Tools(unittest.TestCase):
    def setUp(self) -> None:
        self.folder = tempfile.mkdtemp()
        self.addCleanup(shutil.rmtree, self.folder)

    def path(self, name: str) -> str:
        return os.path.join(self.folder, name)

    def save(self, name: str, data: bytes) -> None:
        with open(self.path(name), "wb") as out:
            out.write(data)

    def say(self, tool: str, *words: str) -> "subprocess.CompletedProcess[bytes]":
        call = [sys.executable, os.path.join(TOOLS, tool), *words]
        return subprocess.run(call, cwd=self.folder, stdout=subprocess.PIPE, stderr=subprocess.PIPE, check=False)

    def assert_refused(self, words: str, tool: str, *call: str) -> None:
        files = sorted(os.listdir(self.folder))
        done = self.say(tool, *call)
        self.assertRegex(done.stderr.decode(), words)
        self.assertEqual((done.returncode, done.stdout, sorted(os.listdir(self.folder))), (1, b"", files))
        self.assertEqual(done.stderr.count(b"\n"), 1)

    def test_there_and_back(self) -> None:
        self.assertEqual(self.say("bank.py", "bank.db").returncode, 0)
        fake = Fake()
        fake.format(self.path("bank.img"), ["scc", "512", "4", "14", "2", "84", "16"])
        done = self.say("wal.py", "--image", "bank.img", "--to", "bank", "bank.db")
        self.assertRegex(done.stdout.decode(), r"^bank-1.txt [0-9]+ transactions\n$")
        fake.run("", self.path("bank-1.txt"))
        self.save("reads.txt", self.say("back.py", "--reads", "bank.img").stdout)
        self.save("replies.txt", "\n".join(fake.run("", self.path("reads.txt"))).encode())
        self.assertEqual(self.say("back.py", "replies.txt", "back.db").stderr, b"")
        found = audit(self.path("back.db"))
        self.assertEqual((found.integrity, found.sum, found.last), ("ok", SMALL.money(), SMALL.transfers))
        self.assert_refused("exists", "back.py", "replies.txt", "back.db")
        self.assert_refused("exists", "wal.py", "--image", "bank.img", "--to", "bank", "bank.db")

    def test_what_wal_refuses(self) -> None:
        self.save("some.db", first_page(1))
        self.assert_refused("no log some.db-wal", "wal.py", "some.db")
        self.save("some.db-wal", first_page(1))
        self.assert_refused("no write-ahead log", "wal.py", "some.db")
        self.save("some.db-wal", log_of([(1, 3, first_page(3))]))
        self.assert_refused("image is none", "wal.py", "--image", "some.db", "some.db")
        self.assert_refused("No such file", "wal.py", "--image", "none.img", "some.db")
        self.assert_refused("No such file", "wal.py", "--to", "none/some", "some.db")
        Fake().format(self.path("some.img"), ["scc", "512", "4", "14", "2", "2", "16"])
        self.assert_refused("3 pages, and the device 2", "wal.py", "--image", "some.img", "some.db")
        self.save("some.db", b"text")
        self.assert_refused("not that of a SQLite database", "wal.py", "some.db")

    def test_a_log_alone(self) -> None:
        self.save("some.db", first_page(1))
        self.save("some.db-wal", log_of([(1, 2, first_page(2)), (2, 2, page(2)), (2, 0, page(3))]))
        lines = self.say("wal.py", "--log-only", "some.db").stdout.decode().splitlines()
        self.assertEqual([line[:10] for line in lines], ["write 1 0=", "finish 1", "write 2 1=", "finish 2"])
        done = self.say("wal.py", "some.db")
        self.assertEqual((len(done.stdout.splitlines()), done.returncode), (6, 0))
        self.assertRegex(done.stderr.decode(), "536 bytes behind the last whole commit")

    def test_after_a_checkpoint(self) -> None:
        connection = begin(self.path("some.db"), PAGE_BYTES, "wal")
        connection.execute("CREATE TABLE row (id INTEGER PRIMARY KEY)")
        connection.execute("PRAGMA wal_checkpoint").fetchall()
        self.assert_refused("checkpoint has brought . frames", "wal.py", "some.db")
        self.assertEqual(self.say("wal.py", "--log-only", "some.db").returncode, 0)
        connection.close()

    def test_what_back_refuses(self) -> None:
        self.save("replies.txt", b"page 0 00\n")
        self.assert_refused("not that of a SQLite database", "back.py", "replies.txt", "back.db")
        self.save("replies.txt", b"\xff\xfe")
        self.assert_refused("no reply tells page 0", "back.py", "replies.txt", "back.db")
        self.assert_refused("No such file", "back.py", "none.txt", "back.db")
        self.assertEqual(self.say("back.py", "replies.txt").returncode, 2)


class Journals(unittest.TestCase):
    def test_a_log_by_hand(self) -> None:
        commits = [Commit({1: b"", 2: b""}, 2), Commit({2: b""}, 2), Commit({2: b"", 3: b""}, 2), Commit({1: b""}, 2)]
        # A frame has 536 bytes, and the header 32. The checkpoint comes with the third frame.
        wanted = [Written(0, 1104, []), Written(1104, 1640, [1, 2]), Written(0, 1104, []), Written(1104, 1640, [1, 2])]
        self.assertEqual(log_writes(commits, 512, 3), wanted)
        self.assertEqual(wanted[1].bytes(512), 536 + 1024)


@unittest.skipUnless(os.path.exists(COUNTS), "the system does not count what a process writes")
class JournalsOfSqlite(unittest.TestCase):
    bank = Bank(accounts=300, transfers=400, kept=200)

    def count_written(self, mode: str) -> int:
        """The bytes that this process hands to the system for the transfers of a bank, as the system counts them."""
        with tempfile.TemporaryDirectory() as folder:
            connection = begin(os.path.join(folder, "bank.db"), PAGE_BYTES, mode)
            open_accounts(connection, self.bank)
            connection.execute("PRAGMA wal_checkpoint(truncate)").fetchall()
            connection.execute("PRAGMA wal_autocheckpoint=100")
            before = self.written_so_far()
            for _ in transfers(connection, self.bank):
                pass
            after = self.written_so_far()
            connection.close()
            return after - before

    def written_so_far(self) -> int:
        with open(COUNTS, encoding="ascii") as file:
            return next(int(line.split()[1]) for line in file if line.startswith("wchar:"))

    def test_counts(self) -> None:
        with tempfile.TemporaryDirectory() as folder:
            history = record(folder, self.bank, PAGE_BYTES)
            lengths = journal_lengths(folder, self.bank, PAGE_BYTES)
        commits = history.later_commits()
        self.assertEqual(len(commits), len(lengths))
        journal = sum(written.bytes(PAGE_BYTES) for written in journal_writes(commits, lengths))
        # At the end of each transaction the journal's first 28 bytes are made zeros.
        self.assertEqual(self.count_written("persist"), journal + 28 * len(commits))
        log = sum(written.bytes(PAGE_BYTES) for written in log_writes(commits, PAGE_BYTES, 100))
        self.assertEqual(self.count_written("wal"), log)
