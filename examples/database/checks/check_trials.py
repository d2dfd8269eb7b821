"""The demo can fail: it passes over a device by an array, and ends with a difference over one that tears or loses."""
from __future__ import annotations

import tempfile
import unittest
from typing import Dict, List, Optional

from bank import PAGE_BYTES, SMALL
from bench import Bench
from breaks import Break
from demo import serve_history
from fake import Fake
from handmade import first_page, page
from history import State, record
from trials import Difference, Trial, label, left_by
from wal_log import Commit


class Demo(unittest.TestCase):
    def serve(self, lie: str) -> None:
        with tempfile.TemporaryDirectory() as folder:
            history = record(folder, SMALL, PAGE_BYTES)
            counts = serve_history(Bench(Fake(lie), folder), "scc", history, 1)
            words = {verdict for replies, verdict in counts.verdicts if replies == "cut (all)"}
            self.assertEqual(words, {"whole", "absent"})

    def test_an_array(self) -> None:
        self.serve("")

    def test_lies(self) -> None:
        for lie, words in (("torn", "neither"), ("forgetful", "neither"), ("lost", "")):
            with self.subTest(lie), self.assertRaisesRegex(Difference, words):
                self.serve(lie)


class Judging(unittest.TestCase):
    broken = Break(0, ["cut 1 all"], ["finish"] * 2)
    before = State({1: first_page(2), 2: page(2)})
    commit = Commit({1: first_page(3), 3: page(3)}, 3)
    trial = Trial(7, commit, before, before.after(commit), broken)

    def reads(self, state: State) -> List[str]:
        pages: Dict[int, Optional[bytes]] = {**{number: None for number in range(1, 4)}, **state.pages}
        return [f"page {number - 1} {c.hex()}" if c else f"blank {number - 1}" for number, c in pages.items()]

    def said(self, tries: List[str], state: State) -> List[str]:
        return ["open 7 2", "armed", *tries, "armed", "armed", *self.reads(state), "open 7 2", "done 7"]

    def verdict(self, tries: List[str], state: State) -> str:
        return self.trial.check_broken(self.broken, self.said(tries, state)).verdict

    def test_verdicts(self) -> None:
        self.assertEqual(len(self.trial.piece().lines), len(self.said(["cut", "unknown 7"], self.before)))
        self.assertEqual(self.verdict(["cut", "unknown 7"], self.before), "absent")
        self.assertEqual(self.verdict(["cut", "unknown 7"], self.trial.after), "whole")
        torn = State({**self.before.pages, 3: page(3)})
        torn_too = State({**self.before.pages, 1: first_page(3), 3: page(4)})
        self.assertEqual(self.verdict(["cut", "unknown 7"], torn), "absent")
        for tries, state in (
            (["cut", "unknown 7"], torn_too), (["done 7", "unknown 7"], self.before), (["cut", "cut"], self.before),
            (["cut", "done 7"], self.trial.after), (["done 7", "unknown 7"], self.trial.after),
            (["fault", "fault"], self.before),
        ):  # fmt: skip
            with self.assertRaises(Difference):
                self.verdict(tries, state)

    def test_ends(self) -> None:
        rows = [
            (["done 1", "unknown 1"], "whole"), (["cut", "fault", "unknown 1"], "either"),
            (["fault", "aborted 1"], "absent"), (["fault", "late 1"], "whole"),
            (["fault", "cut", "unknown 1"], "either"),
        ]  # fmt: skip
        for said, left in rows:
            self.assertEqual(left_by(1, said), left)
        for said in (["fault"], ["unknown 1"], ["done 2"], ["done 1", "done 1"], ["cut", "aborted 1"]):
            with self.assertRaises(Difference):
                left_by(1, said)

    def test_label(self) -> None:
        self.assertEqual(label(self.broken, ["fault", "cut", "unknown 7"], ["blank 0"]), "fault, cut (all)")
        self.assertEqual(label(self.broken, ["done 7", "unknown 7"], ["fault"]), "done, fault of a read")
