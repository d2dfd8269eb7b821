#!/usr/bin/env python3
"""Plants mistakes in copies of this folder, one at a time, and sees that a sweep notices each.

    plants.py [EXE] [--seed S] [--number N]

A sweep with a wrong rule has to differ from a program with the right one. The status is 1 where one does not."""
import argparse
import os
import shutil
import subprocess
import sys
import tempfile
from typing import NamedTuple

from program import found_program, program_argument

HERE = os.path.dirname(os.path.abspath(__file__))


class Plant(NamedTuple):
    """A mistake: what stands in a file, and what is put there."""
    file: str
    old: str
    new: str


PLANTS = (
    Plant("image.py", "MAX_FILE),\n        (\"logical\"", "MAX_FILE and config.dies > 1),\n        (\"logical\""),
    Plant("image.py", "(back >= version)", "(back > version)"),
    Plant("laws.py", "it.back < version < it.version", "it.back <= version < it.version"),
    Plant("laws.py", "straddled {max(", "straddled {min("),
    Plant("laws.py", "it.equals(other)", "it.record == other.record"),
    Plant("laws.py", "current == 0 or records.present(page, current)", "True"),
    Plant("laws.py", "return version <= records.current(page) and", "return version <= records.newest(page) and"),
    Plant("laws.py", "it.record.back != records.current(it.record.page) or version == current", "version == current"),
    Plant("laws.py", "version > current or records.responsible(it.record) is not None", "True"),
    Plant("laws.py", "not records.is_loose(it.record) or records.comes_to_absent(it.record)", "True"),
    Plant("laws.py", "[it.record for it in self.placed if self.is_current(it.record) or it.record in held]",
          "[it.record for it in self.placed if self.is_current(it.record)]"),
    Plant("laws.py", "records.returns_after(record) in (0, record.count)", "True"),
    Plant("laws.py", "other.record.name == record.link and other.record.count != record.count", "False"),
    Plant("laws.py", "None if it.record.discard else it.contents", "it.contents"),
    Plant("laws.py", "links[:16]", "links[:17]"),
    Plant("grammar.py", "MAX_COMMANDS:", "MAX_COMMANDS + 1:"),
    Plant("grammar.py", "return [it[:-1] if it.endswith(b\"\\r\") else it for it in lines]", "return lines"),
    Plant("machine.py", "return self.put(it.writes).having(it._replace(mark=WHOLE))",
          "return self.having(it._replace(mark=PLAIN))"),
    Plant("machine.py", "mark = DOUBT_THERE if settled.fault == \"all\" else DOUBT_ABSENT", "mark = DOUBT_ABSENT"),
    Plant("machine.py", "whole = [settled.put(it.writes) for it in at_last] if settled.cut == \"all\" else []",
          "whole = []"),
    Plant("machine.py", "closed = it._replace(open=(), cut=\"\")", "closed = it._replace(cut=\"\")"),
    Plant("machine.py", "elif twice:", "elif twice and not state.find(tag):"),
    Plant("machine.py", "self.most[page] >= LAST_VERSION", "self.most[page] > LAST_VERSION"),
    Plant("judge.py", "len(whole) <= programs + broken", "len(whole) < programs + broken"),
    Plant("judge.py", "len(erased) <= erases + broken", "len(erased) <= broken"),
    Plant("judge.py", "it.state != DAMAGED for it in image.slots", "it.state == DAMAGED for it in image.slots"),
    Plant("counts.py", "self.calls + command.number", "self.calls + command.number + 1"),
    Plant("findings.py", "[^\\n]*\\n|[^\\n]+$", "[^\\n]+"),
    Plant("findings.py", "enumerate(pairs, 1)", "enumerate(pairs)"),
    Plant("findings.py", "it.status in (2, 3, 9)", "it.status in (2, 3, 7, 9)"),
    Plant("findings.py", "enumerate(zip(here, there)) if", "enumerate(zip(here, there), 1) if"),
)


def is_noticed(program: str, plant: Plant, seed: int, number: int) -> bool:
    """Whether a sweep with this mistake differs from the program."""
    with tempfile.TemporaryDirectory(prefix="plants-") as folder:
        copy = os.path.join(folder, "hostile")
        shutil.copytree(HERE, copy, ignore=shutil.ignore_patterns("__pycache__", "differ"))
        name = os.path.join(copy, plant.file)
        with open(name) as file:
            text = file.read()
        if text.count(plant.old) != 1:
            raise SystemExit(f"plants: stands {text.count(plant.old)} times in {plant.file}: {plant.old}")
        with open(name, "w") as file:
            file.write(text.replace(plant.old, plant.new))
        words = ["--images", str(number), "--commands", str(number), "--findings", str(number), "--seed", str(seed),
                 "--stop"]
        sweep = [sys.executable, os.path.join(copy, "sweep.py"), program, "--processes", "1",
                 "--keep", os.path.join(folder, "differ")]
        ended = subprocess.run([*sweep, *words], stdout=subprocess.PIPE, stderr=subprocess.STDOUT, text=True)
        # a rule that cannot answer at all is noticed too
        return ended.returncode != 0 and ("differs: " in ended.stdout or "Traceback" in ended.stdout)


def main() -> int:
    parser = argparse.ArgumentParser(description=__doc__, formatter_class=argparse.RawDescriptionHelpFormatter)
    program_argument(parser)
    parser.add_argument("--seed", type=int, default=1)
    parser.add_argument("--number", type=int, default=3000)
    args = parser.parse_args()
    program, missed = found_program(args.program), 0
    for plant in PLANTS:
        noticed = is_noticed(program, plant, args.seed, args.number)
        missed += not noticed
        said = "noticed" if noticed else "MISSED"
        print(f"plants: {said}: {plant.file}: {plant.old!r} became {plant.new!r}", flush=True)
    print(f"plants: {len(PLANTS)} mistakes, {missed} missed")
    return 1 if missed else 0


if __name__ == "__main__":
    sys.exit(main())
