#!/usr/bin/env python3
"""Refuses each allocation of the program in turn, and looks at the status and at the image.

    allocations.py [EXE] [--room FOLDER]

For each row of words the status must be 6, with the old image, or with the new one only where the saying was refused
after the save. Where a page that was read is not kept it is 0, with the text and the image as ever. Then each is
refused with all behind it. refuse.c is built with `cc` first; it sees what a program asks of the C library."""
import argparse
import collections
import os
import subprocess
import sys
from typing import Counter, List, NamedTuple, Optional, Tuple

from image import DEFAULT
from program import Ended, Program, found_program, new_folder, program_argument, read_file, write_file

HERE = os.path.dirname(os.path.abspath(__file__))
IMAGE, COMMANDS, LONG, COUNT = "d.img", "c.txt", "long.txt", "count.txt"
FILES = sorted([IMAGE, COMMANDS, LONG, COUNT, "refuse.so"])
SCRIPT = b"""write 1 0=01 1=02 2=03
finish 1
read 0
read 1
write 2 0=04 3=05
step 2
cut 1 all
finish 2
read 0
write 3 4=06
fault 1 bad
finish 3
finish 3
write 4 5=07 6=08
step 4
abort 4
collect
read 4
stats
explain
"""


class Row(NamedTuple):
    """Words, whether they save, and whether they read pages that may be kept."""
    words: Tuple[str, ...]
    saves: bool
    keeps: bool


ROWS = (
    Row(("run", IMAGE, COMMANDS), True, True),
    Row(("run", IMAGE, LONG), True, True),
    Row(("try", COMMANDS), False, True),
    Row(("explain", IMAGE), False, False),
    Row(("format", IMAGE, *DEFAULT.words()), True, False),
    Row(("drive", "1", "3", "scc"), False, True),
    Row(("drive", "1", "3", "bpcc"), False, True),
)


class Allocations:
    def __init__(self, path: str, old: bytes) -> None:
        self.path, self.old = path, old

    def run(self, row: Row, at: int, refuses_all: bool) -> Ended:
        write_file(IMAGE, self.old)
        environment = {"LD_PRELOAD": os.path.abspath("refuse.so"), "REFUSE_AT": str(at), "REFUSE_COUNT": COUNT}
        if refuses_all:
            environment["REFUSE_ALL"] = "1"
        return Program(self.path, environment).run(list(row.words))

    def try_row(self, row: Row, refuses_all: bool) -> List[str]:
        """What is wrong with a row of words."""
        whole = self.run(row, 0, False)
        new = read_file(IMAGE)
        count = int(read_file(COUNT) or b"0")
        kinds: Counter[str] = collections.Counter()
        wrong, seen_new = [], False
        if whole.status or count == 0 or (new != self.old) != row.saves:
            return [f"{' '.join(row.words)}: status {whole.status} with all memory, {count} allocations"]
        for at in range(1, count + 1):
            ended = self.run(row, at, refuses_all)
            left = read_file(IMAGE)
            kind = kind_of(row, whole, ended, self.old, new, left)
            kinds[kind] += 1
            seen_new = seen_new or kind.startswith("6 new")
            if kind == "other" or (seen_new and kind.startswith("6 old")) or sorted(os.listdir(".")) != FILES:
                what = "old" if left == self.old else "new" if left == new else "other"
                wrong.append(f"{' '.join(row.words)}: allocation {at} of {count}: status {ended.status}, "
                             f"{ended.said[:60]!r}, {what} image")
        how = "each and all behind it" if refuses_all else "each"
        counts = ", ".join(f"{kinds[it]} times {it}" for it in sorted(kinds))
        print(f"allocations: {' '.join(row.words)}: {count} allocations, {how} refused: {counts}", flush=True)
        return wrong


def kind_of(row: Row, whole: Ended, ended: Ended, old: bytes, new: Optional[bytes], left: Optional[bytes]) -> str:
    """How a run ended whose allocation was refused, `other` where that is wrong."""
    if ended.status == 6 and ended.said in (b"no memory\n", b""):
        said = "" if ended.said else " and nothing said"
        if left == old:
            return "6 old" + said
        return "6 new" + said if row.saves and left == new else "other"
    if ended.status == 0 and row.keeps and ended.said == whole.said and left == new:
        return "0 as ever"
    return "other"


def refuse_each(path: str, room: Optional[str]) -> int:
    """Answers how many faults there were."""
    with new_folder("allocations-", room):
        build = ["cc", "-shared", "-fPIC", "-O2", "-o", "refuse.so", os.path.join(HERE, "refuse.c")]
        subprocess.run(build, check=True)
        write_file(COMMANDS, SCRIPT)
        # Replies of some 80 kB.
        write_file(LONG, SCRIPT + b"explain\n" * 300)
        write_file(COUNT, b"")
        config = DEFAULT._replace(logical=19)
        if Program(path).run(["format", IMAGE, *config.words()]).status:
            raise SystemExit("allocations: no image was made")
        work = Allocations(path, read_file(IMAGE) or b"")
        wrong = [it for everything in (False, True) for row in ROWS for it in work.try_row(row, everything)]
    for it in wrong:
        print(f"allocations: {it}")
    print(f"allocations: {len(wrong)} faults", flush=True)
    return len(wrong)


def main() -> int:
    parser = argparse.ArgumentParser(description=__doc__, formatter_class=argparse.RawDescriptionHelpFormatter)
    program_argument(parser)
    parser.add_argument("--room")
    args = parser.parse_args()
    return 1 if refuse_each(found_program(args.program), args.room) else 0


if __name__ == "__main__":
    sys.exit(main())
