"""Traces: what becomes of a line, and which lines are named as bad."""
import os
import sys
import unittest

sys.path.insert(0, os.path.join(os.path.dirname(os.path.abspath(__file__)), ".."))

from shape import Problem  # noqa: E402
from traces import Numbers, Request, requests_of, transactions_of  # noqa: E402

BLKTRACE = """\
  8,0    3        1     0.000000000   697  Q   W 16 + 8 [kjournald]
  8,0    3        2     0.000001000   697  G   W 16 + 8 [kjournald]
  8,0    3        3     0.000002000   697  P   N [kjournald]
  8,0    3        4     0.000003000   697  Q   R 800 + 8 [cat]
  8,0    3        5     0.000004000   697  Q FWS [jbd2/sda1-8]
  8,0    3        6     0.000005000   697  Q  DS 24 + 16 [fstrim]
  8,0    3        7     0.000006000   697  I   W 16 + 8 [kjournald]
  8,0    3        8     0.000007000   697  D   W 16 + 8 [kjournald]
  8,0    3        9     0.000008000     0  C   W 16 + 8 [0]
  8,0    3       10     0.000009000   697 UT   N [kworker] 1
CPU3 (8,0):
 Reads Queued:           1,        4KiB	 Writes Queued:           1,        4KiB
"""
IOLOG = """\
fio version 2 iolog
/dev/sda add
/dev/sda open
/dev/sda write 4096 4096
/dev/sda read 0 4096
/dev/sda wait 100
/dev/sda datasync 0 0
/dev/sda trim 8192 8192
/dev/sda close
"""
IOLOG_3 = """\
fio version 3 iolog
0 /dev/sda add
1 /dev/sda open
5 /dev/sda write 4096 100
9 /dev/sda close
"""


class Requests(unittest.TestCase):
    def test_events_of_one_action(self) -> None:
        writes = [Request("write", "8,0", 8192, 4096), Request("discard", "8,0", 12288, 8192)]
        self.assertEqual(requests_of(BLKTRACE), writes)
        self.assertEqual(requests_of(BLKTRACE, "C"), writes[:1])

    def test_iologs(self) -> None:
        first = Request("write", "/dev/sda", 4096, 4096)
        self.assertEqual(requests_of(IOLOG), [first, Request("discard", "/dev/sda", 8192, 8192)])
        self.assertEqual(requests_of(IOLOG_3), [Request("write", "/dev/sda", 4096, 100)])

    def test_the_first_bad_line_is_named(self) -> None:
        for text, words in (
            ("", "the trace is empty"),
            (BLKTRACE.replace("  Q   R 800", "  Q   W x"), "line 4 is a write of blktrace without a place"),
            (BLKTRACE.replace("  G   W", "  ?"), "line 2 is no event of blktrace"),
            (IOLOG.replace("write 4096 4096", "write 4096"), "line 4 is no line of an iolog of fio"),
            (IOLOG.replace("trim", "trims"), "line 8 is no line of an iolog of fio"),
            (IOLOG_3.replace("5 /dev", "/dev"), "line 4 is no line of an iolog of version 3"),
            (IOLOG.replace("version 2", "version 1"), "line 1 is no version of an iolog"),
        ):
            with self.assertRaises(Problem, msg=words) as caught:
                requests_of(text)
            self.assertIn(words, str(caught.exception))


class Commands(unittest.TestCase):
    def commands(self, requests: list, pending: int = 64) -> list:
        return list(transactions_of(requests, Numbers(4096), pending))

    def test_pages_are_numbered_as_they_come(self) -> None:
        requests = [
            Request("write", "a", 40960, 8192),
            Request("discard", "a", 45056, 4096),
            Request("write", "b", 45056, 1),
        ]
        self.assertEqual(
            self.commands(requests),
            [["write 1 0=02 1=02", "finish 1"], ["write 2 1=~", "finish 2"], ["write 3 2=04", "finish 3"]],
        )

    def test_a_part_of_a_page_is_a_page(self) -> None:
        self.assertEqual(self.commands([Request("write", "a", 4095, 2)]), [["write 1 0=02 1=02", "finish 1"]])

    def test_a_large_request_is_divided(self) -> None:
        opened = [lines[0] for lines in self.commands([Request("write", "a", 0, 5 * 4096)], 2)]
        self.assertEqual(opened, ["write 1 0=02 1=02", "write 2 2=03 3=03", "write 3 4=04"])


if __name__ == "__main__":
    unittest.main()
