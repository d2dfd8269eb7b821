"""How answers in the manual are told from commands."""
import unittest

import examples

CALLS = {
    ("call", "try examples/first.txt"): [["open 1 1", "done 1", "page 0 41000000000000000000000000000000"]],
    ("call", "retire worn.img 0"): [["retired 0"]],
}
FIRST = ("call", "try examples/scripts/first.txt")
BESIDE = [
    "# One page is written, and read back.",
    "write 1 0=41    open 1 1",
    "finish 1        done 1",
    "read 0          page 0 41000000000000000000000000000000",
]


class Answers(unittest.TestCase):
    def test_an_answer_stands_behind_its_command(self) -> None:
        block = ["cp a.img b.img", "./txflash retire b.img 0", "retired 0", "./txflash explain b.img > r.txt"]
        self.assertEqual(examples.turns(block), [
            ("cp a.img b.img", []), ("./txflash retire b.img 0", ["retired 0"]),
            ("./txflash explain b.img > r.txt", [])])

    def test_replies_stand_beside_their_commands(self) -> None:
        lines, replies = examples.sides(["# A report  of two lines.", "write 1 0=41  open 1 1", "explain  verdict 0",
                                         "         explained 1", "read 0"])
        self.assertEqual(lines, ["# A report  of two lines.", "write 1 0=41", "explain", "read 0"])
        self.assertEqual(replies, ["open 1 1", "verdict 0", "explained 1"])
        self.assertTrue(examples.is_beside(BESIDE))
        self.assertFalse(examples.is_beside(["# One page is written, and read back.", "write 1 0=41"]))

    def test_replies_beside_are_compared(self) -> None:
        self.assertIsNone(examples.differs_beside(BESIDE, FIRST, CALLS))
        self.assertIn("this is not", examples.differs_beside(BESIDE[:2] + BESIDE[3:], FIRST, CALLS))
        self.assertIn("no case says", examples.differs_beside(BESIDE[:3] + ["read 0  blank 0"], FIRST, CALLS))
        self.assertIn("no call", examples.differs_beside(BESIDE, ("call", "try"), CALLS))
        self.assertIn("no call", examples.differs_beside(BESIDE, None, CALLS))

    def test_a_session_is_that_of_the_crate(self) -> None:
        block = ["# A session.", "write 1 0=0a 1=0b 2=0c    open 1 3", "finish 1    done 1"]
        self.assertEqual(examples.asked_in("./flash_serve live.img </dev/null"), ("live", "live.img"))
        self.assertIsNone(examples.differs_beside(block, ("live", "live.img"), CALLS))
        self.assertIn("begins otherwise", examples.differs_in_session([*block[:2], "finish 1    done 2"]))

    def test_answers_are_compared(self) -> None:
        self.assertIsNone(examples.differs_in_answer(["retired 0"], ("call", "retire worn.img 0"), CALLS))
        self.assertIn("no case says", examples.differs_in_answer(["x"], ("call", "retire worn.img 0"), CALLS))
        self.assertIn("no case calls", examples.differs_in_answer(["x"], ("call", "retire worn.img 1"), CALLS))


if __name__ == "__main__":
    unittest.main()
