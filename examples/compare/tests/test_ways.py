"""The ways to make a commit last: what SQLite writes becomes pages of a device."""
import os
import sys
import unittest

sys.path.insert(0, os.path.join(os.path.dirname(os.path.abspath(__file__)), ".."))

from same_flash import Commit, Way, device_for, written_commits  # noqa: E402
from journals import Written  # noqa: E402
from shape import Shape  # noqa: E402
from ways import note, own_slots, won_by_log  # noqa: E402

WHOLE = Way("transactions, scc", "scc", 3, [Commit([0, 2]), Commit([1])], True)
SINGLE = Way("log, checkpoint at 100", "scc", 3, [Commit([3, 4]), Commit([4, 0])], False)


class Ways(unittest.TestCase):
    def test_bytes_behind_the_database_become_pages(self) -> None:
        written = [Written(0, 512, []), Written(500, 1100, [1, 3])]
        self.assertEqual(written_commits(written, 10, 512), [Commit([10]), Commit([10, 11, 12, 0, 2])])

    def test_commands(self) -> None:
        self.assertEqual(list(WHOLE.parts()), [["write 0 0=01 2=01", "finish 0"], ["write 0 1=01", "finish 0"]])
        self.assertEqual(list(SINGLE.parts())[0], ["write 0 3=01", "finish 0", "write 0 4=01", "finish 0"])
        self.assertEqual([line[0] for line in WHOLE.load()], ["write 0 0=01 1=01", "write 0 2=01"])

    def test_what_does_not_fit(self) -> None:
        self.assertEqual(device_for(SINGLE, 16, 512), Shape(512, 8, 2, 1, 5, 1))
        self.assertIsNone(device_for(SINGLE, 8, 512))
        self.assertGreaterEqual(own_slots(SINGLE, 95), 5 + 1 + 1 + 8)

    def test_where_the_log_wins(self) -> None:
        wins = won_by_log([(SINGLE, [None, 4.0, 5.0]), (WHOLE, [1.0, 4.5, 4.5])], ["a", "b", "c"])
        self.assertEqual(wins, ["a checkpoint at 100 on b: 4.0 to 4.5"])
        self.assertEqual(note("On one flash", []), "On one flash: the log wins nowhere.")


if __name__ == "__main__":
    unittest.main()
