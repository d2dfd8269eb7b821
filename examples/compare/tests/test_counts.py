"""Counts from replies, work from a seed, images and charts, without the program."""
import os
import sys
import unittest
from typing import List

sys.path.insert(0, os.path.join(os.path.dirname(os.path.abspath(__file__)), ".."))

from counts import Count, Counter, marked_parts, points  # noqa: E402
from images import BLANK, COMPLETE, DAMAGED, RECORD, Record, Slot, erased_blocks, read_slots  # noqa: E402
from pictures import Axis, Chart, Series, svg  # noqa: E402
from serving import runs_of  # noqa: E402
from shape import Problem, Shape, shape_of  # noqa: E402
from sheets import Table, text_lines  # noqa: E402
from watching import Look, Watched, count_step, current_versions, in_steps  # noqa: E402
from work import Work, fill, transactions  # noqa: E402

STATS = "stats written 1 open 0 pending 0 programs {} erases {} garbage 0"
SMALL = Shape(16, 2, 3, 1, 1, 1)


class FakeFlash:
    """Answers each run from a list."""

    def __init__(self, replies: List[List[str]]) -> None:
        self.replies = replies
        self.runs: List[List[str]] = []

    def run(self, lines: List[str]) -> List[str]:
        self.runs.append(list(lines))
        return self.replies[len(self.runs) - 1]


class Counts(unittest.TestCase):
    def test_each_reply_counts(self) -> None:
        counter = Counter()
        for reply in (
            "open 1 3", "wrote 1 1 3", "done 1", "open 2 2", "wrote 2 1 2", "aborted 2", "refused empty",
            "open 3 2", "wrote 3 1 2", "armed", "cut", "unknown 3", STATS.format(9, 2),
        ):  # fmt: skip
            counter.take(reply)
        self.assertEqual(counter.count, Count(9, 2, own=5, written=3, done=1, aborted=1, cut=1, refused=1))
        self.assertEqual(counter.count.copies, 4)
        self.assertEqual(counter.count.amplification, 3.0)

    def test_stats_of_a_later_run_begin_anew(self) -> None:
        counter = Counter()
        counter.take(STATS.format(5, 1))
        counter.next_run()
        counter.take(STATS.format(2, 3))
        self.assertEqual((counter.count.programs, counter.count.erases), (7, 4))

    def test_points_count_from_the_end_of_what_comes_first(self) -> None:
        parts = [["write 1 0=01", "finish 1"], ["write 2 0=02", "finish 2"], ["write 3 0=03", "finish 3"]]
        first, second, third, fourth = ([f"open {tag} 1", f"done {tag}"] for tag in range(4))
        ends = [STATS.format(6, 2)] * 2
        flash = FakeFlash([[*first, STATS.format(1, 0), *second, *third, STATS.format(4, 1), *fourth, *ends]])
        found = points(flash, [["write 0 0=01", "finish 0"]], parts, 2)
        self.assertEqual(found, [Count(3, 1, 2, 2, 2), Count(5, 2, 3, 3, 3)])
        self.assertEqual(flash.runs[0].count("stats"), 4)

    def test_marks_stand_behind_the_last_part_too(self) -> None:
        self.assertEqual(list(marked_parts([["a"], ["b"], ["c"]], 2)), [["a"], ["b", "stats"], ["c"], ["stats"]])
        self.assertEqual(list(marked_parts([["a"], ["b"]], 2)), [["a"], ["b", "stats"]])

    def test_a_run_keeps_the_limits_of_a_file(self) -> None:
        runs = list(runs_of([["write 1 " + " ".join(["0=1"] * 200000), "finish 1"]] * 2 + [["stats"] * 65000] * 2))
        self.assertEqual([len(run) for run in runs], [2, 65002, 65000])


class Drawn(unittest.TestCase):
    shape = shape_of(256, 8, 2, 0.7, 8)

    def lines(self, **numbers: float) -> List[str]:
        return [line for part in transactions(Work(transactions=400, **numbers), self.shape) for line in part]

    def test_one_seed_gives_one_work(self) -> None:
        self.assertEqual(self.lines(seed=3, zipf=1.0, aborts=0.2), self.lines(seed=3, zipf=1.0, aborts=0.2))
        self.assertNotEqual(self.lines(seed=3), self.lines(seed=4))

    def test_shares(self) -> None:
        lines = self.lines(aborts=0.25, cuts=0.25, discards=0.5)
        entries = [word for line in lines for word in line.split() if "=" in word]
        for verb in ("abort", "cut"):
            self.assertAlmostEqual(sum(line.startswith(verb) for line in lines) / 400, 0.25, delta=0.08)
        self.assertAlmostEqual(sum(entry.endswith("~") for entry in entries) / len(entries), 0.5, delta=0.08)

    def test_skewed_pages(self) -> None:
        def most(lines: List[str]) -> int:
            pages = [word.split("=")[0] for line in lines for word in line.split() if "=" in word]
            return max(map(pages.count, set(pages)))

        self.assertGreater(most(self.lines(zipf=1.2)), 4 * most(self.lines()))

    def test_the_filling_writes_each_page_once(self) -> None:
        parts = fill(self.shape.logical, self.shape.pending)
        pages = [word.split("=")[0] for part in parts for word in part[0].split() if "=" in word]
        self.assertEqual(pages, [str(page) for page in range(self.shape.logical)])

    def test_what_no_device_takes_is_refused(self) -> None:
        with self.assertRaises(Problem):
            shape_of(100000, 16, 2, 0.7, 8)
        with self.assertRaises(Problem):
            Work(most=9).check(self.shape)


def cell(state: int, record: Record = Record(0, 1, 0, 1)) -> Slot:
    return Slot(state, record if state == COMPLETE else None)


class Images(unittest.TestCase):
    def test_slots_of_an_image(self) -> None:
        record = Record(4, 2, 5, 3)
        spare = RECORD.pack(b"TXFR", 2, 1, 0, *[4, 5, 2, 3]).ljust(64, b"\0")
        image = bytes(64) + bytes([1, 2, 0, 0, 0, 0]) + bytes(16) + spare + bytes(80) + b"\xff" * 320
        self.assertEqual(read_slots(image, SMALL)[:3], [Slot(COMPLETE, record), cell(DAMAGED), cell(BLANK)])

    def test_erased_blocks(self) -> None:
        old = [cell(COMPLETE), cell(COMPLETE), cell(COMPLETE), cell(BLANK), cell(BLANK), cell(BLANK)]
        new = [cell(BLANK), cell(BLANK), cell(COMPLETE), cell(COMPLETE), cell(COMPLETE), cell(BLANK)]
        self.assertEqual(erased_blocks(old, new, SMALL), [0])
        self.assertEqual(erased_blocks(old, [*old[:2], cell(COMPLETE, Record(0, 2, 0, 2)), *old[3:]], SMALL), [1])

    def test_mentions(self) -> None:
        record = Record(4, 2, 5, 3)
        self.assertEqual([record.mentions_below(page, 3) for page in (4, 5, 6)], [True, False, False])
        self.assertTrue(record.mentions_below(5, 4))

    def test_what_is_cleared_first(self) -> None:
        left, written = Record(0, 2, 1, 2), Record(0, 3, 0, 3)
        before = Look([Slot(COMPLETE, left), cell(BLANK)], {0: 1}, 1, 0)
        watched = Watched()
        count_step(before, Look([cell(BLANK), Slot(COMPLETE, written)], {0: 3}, 2, 1), "step 1", set(), watched)
        self.assertEqual((watched.cleared, watched.stayed, watched.clearing, watched.blocked), (1, 0, 1, 1))
        after = Look([Slot(COMPLETE, left), Slot(COMPLETE, written)], {0: 3}, 2, 1)
        count_step(before, after, "step 1", set(), watched)
        self.assertEqual((watched.cleared, watched.stayed), (1, 1))

    def test_reports(self) -> None:
        report = [
            "verdict 0 newest 3 uncommitted straddled 4 current 1 walk 1:2",
            "verdict 7 newest 2 committed cycle current 2 walk 7:2",
            "explained 2",
        ]
        self.assertEqual(current_versions(report), {0: 1, 7: 2})

    def test_a_finish_becomes_steps(self) -> None:
        self.assertEqual(in_steps([["write 1 0=01 1=02", "finish 1"]]), ["write 1 0=01 1=02", "step 1", "step 1"])


class Shown(unittest.TestCase):
    def test_ticks_are_round(self) -> None:
        self.assertEqual(Axis(0, 9.7, 0, 1).ticks(), [0, 2, 4, 6, 8])
        self.assertEqual(Axis(0.3, 0.95, 0, 1).ticks(), [0.3, 0.4, 0.5, 0.6, 0.7, 0.8, 0.9])

    def test_a_picture_names_its_lines(self) -> None:
        chart = Chart("name", "Title", "under", "x", "y", [Series("a < b", [(0, 1), (1, 2)]), Series("c", [(0, 1)])])
        drawn = svg(chart)
        self.assertIn("a &lt; b", drawn)
        self.assertEqual(drawn.count("<polyline"), 2)

    def test_a_table_is_aligned(self) -> None:
        table = Table("name", "Title", ("way", "number"), [["a", 1.0], ["longer", None]])
        self.assertEqual(text_lines(table), ["Title", "way     number", "a         1.00", "longer      --"])


if __name__ == "__main__":
    unittest.main()
