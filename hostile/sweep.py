#!/usr/bin/env python3
"""Sweeps the built program with hostile images and commands, and compares each run with what the documents say.

    sweep.py [EXE] [--images N] [--commands N] [--findings N] [--keys N] [--retirements N] [--words N] [--seed S]
                 [--processes N] [--keep FOLDER] [--room FOLDER] [--edges] [--kills N] [--disk] [--allocations]
    sweep.py [EXE] --quick [--seed S]

N images are given to `explain` and `run`, N command files to `try` and `run`, N images with a report or with another
image to `check` and `compare`, N images and key scripts to `keys`, N images to `retire`, and N lists of words to the
program. Each run that differs has a line, its files are kept, and the status is 1. --quick draws some of each, in a
minute or two. The README beside this says what is compared, and what the last four do."""
import argparse
import collections
import multiprocessing
import os
import random
import re
import shutil
import sys
import time
from typing import Counter, List, NamedTuple, Optional

import allocations
import commands as drawn_commands
import disk
import edges
import findings as drawn_findings
import images as drawn_images
import keys as drawn_keys
import kills
import words as drawn_words
from image import DEFAULT, PROTOCOLS, blank_image, spell_image
from judge import Wrong, check_end, check_explain, check_retire, check_run, check_said, check_try, need
from laws import Reading, read
from program import (MEMORY, Ended, Program, found_program, new_folder, program_argument, read_file,
                     write_file)

IMAGE, COMMANDS, REPORT, OTHER = "d.img", "c.txt", "r.txt", "e.img"
WANTED, TOLD = 100, 20
# What --quick draws.
QUICK = {"images": 600, "commands": 600, "findings": 150, "keys": 200, "retirements": 100, "words": 100}


class Job(NamedTuple):
    program: str
    seed: int
    first: int
    step: int
    images: int
    commands: int
    findings: int
    keys: int
    retirements: int
    words: int
    stops: bool
    room: str
    keep: str


class Found(NamedTuple):
    """What one process counted."""
    counts: Counter[str]
    differ: int
    slowest: float


class Sweeper:
    """What one process draws, runs, compares and counts."""

    def __init__(self, job: Job) -> None:
        self.job, self.program = job, Program(job.program)
        self.counts: Counter[str] = collections.Counter()
        self.differ, self.slowest = 0, 0.0

    def run(self, words: List[str]) -> Ended:
        ended = self.program.run(words)
        self.slowest = max(self.slowest, ended.seconds)
        self.counts["runs"] += 1
        return ended

    def count_replies(self, replies: List[str]) -> None:
        """Counts replies by their first words."""
        for it in replies:
            words = it.split(" ")
            self.counts[f"reply {' '.join(words[:2]) if words[0] == 'refused' else words[0]}"] += 1

    def tell_difference(self, what: str, number: int, why: str, files: List[str]) -> None:
        """Tells what differs, and keeps the files of it. Of many only the first are told."""
        self.differ += 1
        if self.differ > TOLD:
            return
        folder = os.path.join(self.job.keep, f"{what}-{number}")
        os.makedirs(folder, exist_ok=True)
        for name in files:
            shutil.copyfile(name, os.path.join(folder, os.path.basename(name)))
        print(f"sweep: {what} {number} of seed {self.job.seed} differs: {why}; see {folder}", flush=True)

    def try_image(self, number: int) -> None:
        """An image of any kind, which `explain` and `run` are given."""
        drawn = drawn_images.draw_image(self.job.seed, number)
        draw = random.Random(f"{self.job.seed} image commands {number}")
        reading = read(drawn.data, IMAGE)
        self.counts[f"image {drawn.kind}"] += 1
        self.counts[outcome(reading)] += 1
        script = image_commands(draw, reading)
        put_image(drawn.data)
        if script is None:
            remove(COMMANDS)
        else:
            write_file(COMMANDS, script)
        try:
            check_explain(reading, self.run(["explain", IMAGE]), drawn.data, read_file(IMAGE))
            ended = self.run(["run", IMAGE, COMMANDS])
            self.count_replies(check_run(reading, drawn.data, script, COMMANDS, ended, read_file(IMAGE)))
            need_files(script is not None)
        except Wrong as wrong:
            files = ["old/" + IMAGE, *([COMMANDS] if script is not None else [])]
            self.tell_difference("image", number, str(wrong), files)

    def try_command_file(self, number: int) -> None:
        """A file of commands, on a fresh device or on a sound image."""
        draw = random.Random(f"{self.job.seed} commands {number}")
        if draw.random() < 0.5:
            self.serve_by_try(number, draw)
        else:
            self.serve_by_run(number, draw)

    def serve_by_try(self, number: int, draw: random.Random) -> None:
        drawn = drawn_commands.draw_commands(draw, DEFAULT, number)
        self.counts[f"commands {drawn.kind}"] += 1
        write_file(COMMANDS, drawn.data)
        remove(IMAGE)
        try:
            ended = self.run(["try", COMMANDS])
            self.counts[f"commands status {ended.status}"] += 1
            self.count_replies(check_try(drawn.data, COMMANDS, ended))
            need(sorted(os.listdir(".")) == [COMMANDS, "old"], "other files are there")
        except Wrong as wrong:
            self.tell_difference("commands", number, str(wrong), [COMMANDS])

    def serve_by_run(self, number: int, draw: random.Random) -> None:
        data = drawn_images.sound_image(draw)
        reading = read(data, IMAGE)
        assert reading.image
        drawn = drawn_commands.draw_commands(draw, reading.image.config, number)
        self.counts[f"commands {drawn.kind}"] += 1
        put_image(data)
        write_file(COMMANDS, drawn.data)
        try:
            ended = self.run(["run", IMAGE, COMMANDS])
            self.counts[f"commands status {ended.status}"] += 1
            self.count_replies(check_run(reading, data, drawn.data, COMMANDS, ended, read_file(IMAGE)))
            need_files(True)
        except Wrong as wrong:
            self.tell_difference("commands", number, str(wrong), ["old/" + IMAGE, COMMANDS])

    def try_finding(self, number: int) -> None:
        """An image with a report, or with another image; each of the two files stays as it is."""
        draw = random.Random(f"{self.job.seed} finding {number}")
        any_kind = draw.random() < 0.3
        data = drawn_images.draw_image(self.job.seed, number).data if any_kind else drawn_images.sound_image(draw)
        reading = read(data, IMAGE)
        if draw.random() < 0.5:
            name, second = REPORT, drawn_findings.draw_report(draw, reading)
            words, wanted = ["check", IMAGE, name], drawn_findings.wanted_check(reading, second, name)
        else:
            name = OTHER
            second, kind = drawn_findings.draw_pair(draw, data, reading)
            words = draw.choice((["compare", IMAGE, name], ["compare", name, IMAGE]))
            readings = {IMAGE: reading, name: drawn_findings.reading_of(second, name)}
            wanted = drawn_findings.wanted_compare(*(readings[it] for it in words[1:]))
            self.counts[f"pair {kind}"] += 1
        files = {IMAGE: data, **({name: second} if second is not None else {})}
        remove(COMMANDS)
        for it, held in files.items():
            write_file(it, held)
        try:
            ended = self.run(words)
            check_end(ended)
            self.counts[f"{words[0]}: {re.sub('[0-9]+', 'N', wanted.said.strip())}"] += 1
            check_said(ended, wanted.status, wanted.said)
            need(all(read_file(it) == held for it, held in files.items()), "a file has changed")
            need(sorted(os.listdir(".")) == sorted([*files, "old"]), "other files are there")
        except Wrong as wrong:
            self.tell_difference("finding", number, f"{words}: {wrong}", list(files))
        for it in (IMAGE, REPORT, OTHER):
            remove(it)

    def try_key_script(self, number: int) -> None:
        """A key script on an image with pages of keys, or nearly so."""
        draw = random.Random(f"{self.job.seed} keys {number}")
        keys = drawn_keys.draw_keys(draw)
        data, script = drawn_keys.draw_image(draw, keys), drawn_keys.draw_script(draw, keys)
        put_image(data)
        write_file(COMMANDS, script)
        try:
            ended = self.run(["keys", IMAGE, COMMANDS])
            check_end(ended)
            said = ended.said.decode("latin-1")
            kind = drawn_keys.check_keys(data, script, ended.status, said, read_file(IMAGE) or b"")
            self.counts[f"keys {kind}"] += 1
            if ended.status == 0:
                for it in said.split("\n")[:-1]:
                    self.counts[f"keys {re.sub(r' [0-9a-f]+(?![a-z])| -', '', it)}"] += 1
            need_files(True)
        except Wrong as wrong:
            self.tell_difference("keys", number, str(wrong), ["old/" + IMAGE, COMMANDS])

    def try_retirement(self, number: int) -> None:
        """A block of an image, of which it may have no such block, or may not retire it."""
        draw = random.Random(f"{self.job.seed} retirement {number}")
        any_kind = draw.random() < 0.3
        data = drawn_images.draw_image(self.job.seed, number).data if any_kind else drawn_images.retiring_image(draw)
        reading = read(data, IMAGE)
        blocks = reading.image.config.blocks_per_die * reading.image.config.dies if reading.image else 8
        block = draw.choice((*(draw.randrange(blocks) for _ in range(8)), blocks, blocks + 1, 2 ** 32 - 1))
        put_image(data)
        remove(COMMANDS)
        try:
            ended = self.run(["retire", IMAGE, str(block)])
            self.counts[f"retire {check_retire(reading, data, block, ended, read_file(IMAGE))}"] += 1
            need_files(False)
        except Wrong as wrong:
            self.tell_difference("retirement", number, f"block {block}: {wrong}", ["old/" + IMAGE])

    def try_words(self, number: int) -> None:
        """The words of a call, or nearly so."""
        draw = random.Random(f"{self.job.seed} words {number}")
        how = draw.random()
        remove(IMAGE)
        remove(COMMANDS)
        try:
            if how < 0.6:
                words = ["format", *drawn_words.draw_format(draw, IMAGE)]
                self.check_words(words, drawn_words.wanted_format(words[1:]))
            elif how < 0.9:
                words = ["drive", *drawn_words.draw_drive(draw)]
                self.check_drive(words)
            else:
                words = drawn_words.draw_other(draw)
                self.check_words(words, drawn_words.BAD_WORDS)
        except Wrong as wrong:
            self.tell_difference("words", number, f"{words}: {wrong}", [])

    def check_words(self, words: List[str], wanted: drawn_words.Wanted) -> None:
        """Looks at what the program says to words, and at the image that it leaves."""
        ended = self.run(words)
        check_end(ended)
        self.counts[f"words status {ended.status}"] += 1
        check_said(ended, wanted.status, wanted.said)
        need(read_file(IMAGE) == wanted.image, "the image differs")

    def check_drive(self, words: List[str]) -> None:
        """The summary must be that of the replies to the same commands on a blank device."""
        generated = drawn_words.read_drive(words[1:])
        if generated is None:
            self.check_words(words, drawn_words.BAD_WORDS)
            return
        lines = drawn_words.generated_commands(generated)
        data, blank = "".join(f"{it}\n" for it in lines).encode(), spell_image(blank_image(generated.config()))
        write_file(COMMANDS, data)
        write_file(IMAGE, blank)
        ended = self.run(["run", IMAGE, COMMANDS])
        replies = check_run(read(blank, IMAGE), blank, data, COMMANDS, ended, read_file(IMAGE))
        remove(IMAGE)
        self.check_words(words, drawn_words.Wanted(0, drawn_words.summary(generated, len(lines), replies)))


def image_commands(draw: random.Random, reading: Reading) -> Optional[bytes]:
    """Commands for an image: in the grammar, but for a few that are none or are not there."""
    how = draw.random()
    if how < 0.02:
        return None
    config = reading.image.config if reading.image else DEFAULT
    if how < 0.06:
        return drawn_commands.spoiled_script(draw, config)
    return drawn_commands.draw_script(draw, config)


def need_files(has_commands: bool) -> None:
    """Looks whether the folder has the files of a run alone, and removes others."""
    wanted = sorted([IMAGE, "old", *([COMMANDS] if has_commands else [])])
    found = sorted(os.listdir("."))
    for name in set(found) - set(wanted):
        os.remove(name)
    need(found == wanted, f"the folder holds {found}")


def put_image(data: bytes) -> None:
    """Writes an image, and a copy of it that stays."""
    write_file("old/" + IMAGE, data)
    write_file(IMAGE, data)


def remove(name: str) -> None:
    if os.path.lexists(name):
        os.remove(name)


def outcome(reading: Reading) -> str:
    """The rule or the law that an image breaks, if it is not sound."""
    words = reading.said.split(" ")
    if reading.status == 7:
        assert reading.image
        return f"law {words[2]} {PROTOCOLS[reading.image.config.protocol]}"
    return f"rule {words[2].strip()}" if reading.status == 3 else "sound"


def work(job: Job) -> Found:
    """What one process does, in a folder of its own."""
    os.nice(10)
    sweeper = Sweeper(job)
    with new_folder("sweep-", job.room):
        os.mkdir("old")
        for try_one, most in ((sweeper.try_image, job.images), (sweeper.try_command_file, job.commands),
                              (sweeper.try_finding, job.findings), (sweeper.try_key_script, job.keys),
                              (sweeper.try_retirement, job.retirements), (sweeper.try_words, job.words)):
            for number in range(job.first, most, job.step):
                if not (job.stops and sweeper.differ):
                    try_one(number)
    return Found(sweeper.counts, sweeper.differ, sweeper.slowest)


RULES = ("short", "magic", "protocol", "reserved", "allowance", "config", "length", "state", "bytes")
LAWS = [f"law {law} {protocol}" for protocol, laws in (("scc", (1, 2, 3, 5, 8)), ("bpcc", range(1, 9))) for law in laws]


def rare_kinds(counts: Counter[str]) -> List[str]:
    """The rules and laws that were met too seldom."""
    return [it for it in [*(f"rule {it}" for it in RULES), *LAWS] if counts[it] < WANTED]


def sweep(args: argparse.Namespace) -> int:
    begun = time.monotonic()
    program = found_program(args.program)
    jobs = [Job(program, args.seed, it, args.processes, args.images, args.commands, args.findings, args.keys,
                args.retirements, args.words, args.stop, args.room, os.path.abspath(args.keep))
            for it in range(args.processes)]
    with multiprocessing.Pool(args.processes) as pool:
        found = pool.map(work, jobs, 1)
    counts: Counter[str] = sum((it.counts for it in found), collections.Counter())
    differ, slowest = sum(it.differ for it in found), max((it.slowest for it in found), default=0.0)
    for name in sorted(counts):
        print(f"{counts[name]:9} {name}")
    seldom = rare_kinds(counts) if args.images and not args.quick else []
    if seldom:
        print(f"sweep: met fewer than {WANTED} times: {', '.join(seldom)}")
    seconds = time.monotonic() - begun
    print(f"sweep: seed {args.seed}: {args.images} images, {args.commands} command files, {args.findings} "
          f"findings, {args.keys} key scripts, {args.retirements} retirements, {args.words} lists of words, "
          f"{counts['runs']} runs in {seconds:.0f} s, the slowest {slowest:.2f} s: {differ} differ", flush=True)
    faults = 0
    if args.edges:
        faults += edges.try_edges(Program(program), args.room)
    if args.kills:
        faults += kills.kill_often(Program(program), args.kills, args.seed, None)
    if args.disk:
        faults += disk.try_disk(program)
    if args.allocations:
        faults += allocations.refuse_each(program, args.room)
    return 1 if differ or seldom or faults else 0


def main() -> int:
    parser = argparse.ArgumentParser(description=__doc__, formatter_class=argparse.RawDescriptionHelpFormatter)
    program_argument(parser)
    parser.add_argument("--images", type=int, default=1000)
    parser.add_argument("--commands", type=int, default=1000)
    parser.add_argument("--findings", type=int, default=0)
    parser.add_argument("--keys", type=int, default=0)
    parser.add_argument("--retirements", type=int, default=0)
    parser.add_argument("--words", type=int, default=0)
    parser.add_argument("--seed", type=int, default=1)
    parser.add_argument("--processes", type=int, default=2)
    parser.add_argument("--quick", action="store_true", help="some of each, and no rule or law is wanted so often")
    parser.add_argument("--stop", action="store_true", help="each process ends at its first difference")
    parser.add_argument("--keep", default="differ")
    parser.add_argument("--edges", action="store_true")
    parser.add_argument("--kills", type=int, default=0)
    parser.add_argument("--disk", action="store_true")
    parser.add_argument("--allocations", action="store_true")
    parser.add_argument("--room", default=MEMORY)
    args = parser.parse_args()
    if args.quick:
        vars(args).update(QUICK)
    return sweep(args)


if __name__ == "__main__":
    sys.exit(main())
