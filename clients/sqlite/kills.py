#!/usr/bin/env python3
"""Kills processes in the middle of commits, and looks at the database that each kill leaves.

    kills.py [--kills N] [--seed S] [--room FOLDER]

A program moves money between the accounts of a database in a device. By turns the process that serves the device is
killed, or the one with SQLite in it, or both at once. A kill counts if it came between the call of a commit and its
return. Then the database is opened again: SQLite must find it sound, no money may be lost, and the last turn that is
there is the last one that was done, or the one in the middle of whose commit the kill came. So many kills count under
each protocol. A kill is no loss of power, so nothing is learned of what the system has yet to bring to its disk."""
from __future__ import annotations

import argparse
import collections
import os
import random
import signal
import subprocess
import sys
import tempfile
import time
from typing import Counter, Dict, List, Tuple, Union

HERE = os.path.dirname(os.path.abspath(__file__))
sys.path.insert(0, os.path.join(HERE, "..", "python"))

from images import write_blank  # noqa: E402
from txflash import NoProgram, found_program  # noqa: E402

COMMITS = os.path.join(HERE, "out", "commits")
# Half of the 160 slots are in use, so that there are collections.
DEVICE = (4096, 8, 20, 1, 90, 48)
MONEY = 20000
VICTIMS = ("the device", "SQLite", "both")


class Worker:
    """The program at work, and what it has said."""

    def __init__(self, image: str, seed: int) -> None:
        self.process = subprocess.Popen([COMMITS, "work", image, str(seed)], stdout=subprocess.PIPE,
                                        stderr=subprocess.DEVNULL, text=True)
        self.said: List[str] = []

    def hear(self) -> bool:
        assert self.process.stdout
        line = self.process.stdout.readline()
        if line:
            self.said.append(line.strip())
        return bool(line)

    def servers(self) -> List[int]:
        """The process that serves the device, if it runs."""
        with open(f"/proc/{self.process.pid}/task/{self.process.pid}/children", encoding="ascii") as file:
            return [int(it) for it in file.read().split()]

    def kill(self, victim: str) -> None:
        for it in self.servers() if victim != "SQLite" else []:
            os.kill(it, signal.SIGKILL)
        if victim != "the device":
            self.process.kill()

    def last_done(self, before: int) -> int:
        done = [int(line.split()[1]) for line in self.said if line.startswith("done ")]
        return done[-1] if done else before

    def refusals(self) -> List[str]:
        """What SQLite has refused, but for a device that is not there."""
        return [line for line in self.said if line.startswith("failed ") and "disk I/O error" not in line]

    def was_in_commit(self) -> bool:
        """Whether the last commit that was called has not returned."""
        turns = [line for line in self.said if line.startswith(("commit ", "done "))]
        return bool(turns) and turns[-1].startswith("commit ")


def audit(image: str) -> Dict[str, str]:
    """What the database says, once a server that is still at its end has let the image go."""
    end = time.monotonic() + 20
    while True:
        done = subprocess.run([COMMITS, "audit", image], stdout=subprocess.PIPE, stderr=subprocess.PIPE, text=True)
        if "(in use" not in done.stderr or time.monotonic() > end:
            break
        time.sleep(0.01)
    words = dict(line.partition(" ")[::2] for line in done.stdout.splitlines())
    return words if done.returncode == 0 else {"failed": f"{done.stdout.strip()} {done.stderr.strip()}"}


class Kills:
    def __init__(self, image: str, seed: int) -> None:
        self.image, self.draw = image, random.Random(seed)
        self.counts: Counter[str] = collections.Counter()
        self.wrong: List[str] = []
        self.turn = 0
        self.seconds = 0.01

    def run(self, victim: str) -> bool:
        """Lets the program work, and kills it or its device; whether that counts."""
        worker = Worker(self.image, self.draw.randrange(1 << 30))
        target = 2 * self.draw.randint(1, 20) - 1
        begun = time.monotonic()
        while len(worker.said) < target and worker.hear():
            pass
        if target > 1:
            self.seconds = 2 * (time.monotonic() - begun) / target
        time.sleep(self.draw.uniform(0, self.seconds))
        worker.kill(victim)
        while worker.hear():
            pass
        worker.process.wait()
        return self.judge(worker, victim)

    def judge(self, worker: Worker, victim: str) -> bool:
        last, is_in_commit = worker.last_done(self.turn), worker.was_in_commit()
        found = audit(self.image)
        turn = int(found.get("turn", "-1"))
        if found.get("integrity") != "ok" or found.get("money") != str(MONEY):
            self.wrong.append(f"after turn {last}, {victim} killed: {found}")
        elif turn != last and not (is_in_commit and turn == last + 1):
            self.wrong.append(f"turn {turn} is there after turn {last}, {victim} killed")
        self.wrong += worker.refusals()
        self.turn = turn
        if is_in_commit:
            self.counts[f"{victim} {'whole' if turn > last else 'absent'}"] += 1
        return is_in_commit


def make_bank(image: str) -> None:
    """One turn at least, so that there is a database."""
    worker = Worker(image, 1)
    while worker.hear() and worker.last_done(0) < 1:
        pass
    worker.kill("SQLite")
    worker.process.wait()


def kill_often(protocol: str, kills: int, seed: int, folder: str) -> Tuple[int, int]:
    """How many kills counted, and after how many something was wrong."""
    image = os.path.join(folder, f"{protocol}.img")
    write_blank(image, protocol, *DEVICE)
    make_bank(image)
    work = Kills(image, seed)
    found = audit(image)
    work.turn = int(found.get("turn", "0"))
    counted = number = 0
    while counted < kills and number < 20 * kills and len(work.wrong) < 10:
        counted += work.run(VICTIMS[number % len(VICTIMS)])
        number += 1
    for it in work.wrong:
        print(f"kills: {protocol}: {it}")
    counts = ", ".join(f"{count} {name}" for name, count in sorted(work.counts.items()))
    print(f"kills: {protocol}, seed {seed}: {counted} kills in the middle of a commit, of {number}: {counts}; "
          f"{work.turn} commits; {len(work.wrong)} wrong", flush=True)
    return counted, len(work.wrong)


def main() -> Union[int, str]:
    parser = argparse.ArgumentParser(description=__doc__, formatter_class=argparse.RawDescriptionHelpFormatter)
    parser.add_argument("--kills", type=int, default=200)
    parser.add_argument("--seed", type=int, default=1)
    parser.add_argument("--room")
    args = parser.parse_args()
    try:
        found_program(None)
    except NoProgram as problem:
        return f"kills: {problem}"
    if not os.access(COMMITS, os.X_OK):
        return f"kills: there is no program {COMMITS}: give make first"
    with tempfile.TemporaryDirectory(prefix="kills-", dir=args.room) as folder:
        ended = [kill_often(protocol, args.kills, args.seed, folder) for protocol in ("scc", "bpcc")]
    return 0 if all(counted >= args.kills and not wrong for counted, wrong in ended) else 1


if __name__ == "__main__":
    sys.exit(main())
