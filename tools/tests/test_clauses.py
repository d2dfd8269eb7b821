"""That the lemmas of clauses are read off answers."""
import pathlib
import unittest
from unittest import mock

import clauses
from tests.rooms import Room

ANSWERS = """-- answers
use Rattle.one.proofs.Goals.{returns-clause-stays}
use Rattle.one.proofs.Facts.{it_stays}

pub stays : goal.stays
stays = it_stays
"""


class Clauses(Room):
    def put_tree(self, answers: str, facts: bool) -> pathlib.Path:
        """Writes a crate with one file of answers, and answers the folder of its tree."""
        self.put("crates/one/proofs/Thing/act/Answers.antt", answers.encode())
        if facts:
            self.put("crates/one/proofs/Facts.antt", b"-- facts\n")
        self.put("crates.txt", b"# 1. all\none: two # which has no proofs\ntwo:\n")
        return pathlib.Path(self.room)

    def test_lemmas_are_named(self) -> None:
        with mock.patch.object(clauses, "ROOT", self.put_tree(ANSWERS, facts=True)):
            self.assertEqual(list(clauses.mistakes()), [])
            self.assertIn("| `Thing::act` | `loops and conditions` | `it_stays` | `Facts.antt` |", clauses.document())

    def test_a_file_that_is_not_there_is_told(self) -> None:
        with mock.patch.object(clauses, "ROOT", self.put_tree(ANSWERS, facts=False)):
            self.assertEqual([what for _, what in clauses.mistakes()], ["no one.proofs.Facts"])

    def test_a_file_without_goals_is_told(self) -> None:
        with mock.patch.object(clauses, "ROOT", self.put_tree("-- nothing\n", facts=True)):
            self.assertEqual([what for _, what in clauses.mistakes()], ["no goal"])

    def test_all_answers_here_are_read(self) -> None:
        self.assertEqual(list(clauses.mistakes()), [])


if __name__ == "__main__":
    unittest.main()
