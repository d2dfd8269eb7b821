#!/usr/bin/env python3
"""The edges of sizes and of files: a few fixed runs, compared like those of the sweep.

    edges.py [EXE] [--room FOLDER]

Files of 134217728 bytes and one byte more, the largest devices, transactions of 2000 pages, names that are no files."""
import argparse
import os
import sys
from typing import Callable, List, NamedTuple, Optional

from image import BPCC, HEADER, MAX_FILE, SCC, Config, Record, blank_image, complete, spell_header, spell_image
from judge import Wrong, check_end, check_explain, check_run, check_said, check_try
from laws import read
from program import (MEMORY, Ended, Program, found_program, new_folder, program_argument, read_file,
                     write_file)

IMAGE, COMMANDS = "d.img", "c.txt"
# What is read here line by line or word by word has fewer bytes.
FEWER = 8000000
LARGEST = Config(SCC, 1968, 256, 256, 1, 60000, 256)
LONG = Config(BPCC, 16, 16, 70, 2, 2100, 16)


def linked_pages(config: Config, count: int, is_whole: bool) -> bytes:
    """A transaction over so many pages, whole or without its last page's last record."""
    slots = list(blank_image(config).slots)
    for page in range(count):
        version = 1 if is_whole or page < count - 1 else 2
        slots[page] = complete(config, bytes([page % 256]), Record(page, 1, (page + 1) % count, version, 0))
    return spell_image(blank_image(config)._replace(slots=slots))


COMMAND_FILES = {
    "one comment of the greatest size": lambda: b"#" * (MAX_FILE - 1) + b"\n",
    "one byte too many": lambda: b"#" * MAX_FILE + b"\n",
    "blank lines": lambda: b"\n" * FEWER,
    "one line of words": lambda: b"read " * (FEWER // 5),
    "the digits of one entry": lambda: b"write 1 0=" + b"0" * (MAX_FILE - 10),
    "the digits of one number": lambda: b"read " + b"0" * (MAX_FILE - 5),
    "a bad last line": lambda: b"#" * (MAX_FILE - 2) + b"\nx",
    "no byte": lambda: b"",
}

IMAGES = {
    "the largest device": lambda: spell_image(blank_image(LARGEST)),
    "the largest device with one page fewer in its header": lambda: spell_header(LARGEST._replace(page_bytes=1952)) +
    spell_image(blank_image(LARGEST))[HEADER.size:],
    "one byte too many": lambda: spell_header(LARGEST).ljust(MAX_FILE + 1, b"\xff"),
    "the greatest size": lambda: spell_header(LARGEST).ljust(MAX_FILE, b"\xff"),
    "a cycle of 2000 pages, bpcc": lambda: linked_pages(LONG, 2000, True),
    "a cycle of 500 pages, scc": lambda: linked_pages(LONG._replace(protocol=SCC), 500, True),
    "a chain of 500 pages, bpcc": lambda: linked_pages(LONG, 500, False),
    "a chain of 2000 pages, scc": lambda: linked_pages(LONG._replace(protocol=SCC), 2000, False),
}


class Named(NamedTuple):
    """Words that name what is no plain file of this folder, and what is said."""
    words: List[str]
    status: int
    said: str


NAMED = (
    Named(["try", "absent"], 2, "no file absent\n"),
    Named(["explain", "absent"], 2, "no file absent\n"),
    Named(["run", "absent", "absent.txt"], 2, "no file absent\n"),
    Named(["run", IMAGE, "absent.txt"], 2, "no file absent.txt\n"),
    Named(["explain", "folder"], 5, "desk fault\n"),
    Named(["run", "folder", COMMANDS], 5, "desk fault\n"),
    Named(["run", IMAGE, "folder"], 5, "desk fault\n"),
    Named(["explain", f"{IMAGE}/x"], 5, "desk fault\n"),
    Named(["explain", "/dev/null"], 3, "bad image: short\n"),
    Named(["try", "/dev/null"], 0, ""),
    Named(["format", "folder", *LONG.words()], 5, "desk fault\n"),
    Named(["format", "absent/x", *LONG.words()], 5, "desk fault\n"),
    Named(["explain", "n" * 300], 5, "desk fault\n"),
    Named(["check", IMAGE, "absent"], 2, "no file absent\n"),
    Named(["check", IMAGE, "folder"], 5, "desk fault\n"),
    Named(["check", IMAGE, "/dev/null"], 12, "wrong line 1\n"),
    Named(["check", IMAGE, IMAGE], 12, "wrong line 1\n"),
    Named(["compare", IMAGE, IMAGE], 0, f"same {LONG.logical}\n"),
    Named(["compare", IMAGE, "folder"], 5, "desk fault\n"),
    Named(["compare", "folder", "absent"], 5, "desk fault\n"),
    Named(["compare", "/dev/null", "absent"], 3, "bad image: short\n"),
)


def try_edge(name: str, work: Callable[[], None]) -> int:
    """Does what tries an edge, and answers how many faults there were."""
    try:
        work()
    except Wrong as wrong:
        print(f"edges: {name}: {wrong}", flush=True)
        return 1
    return 0


class Edges:
    def __init__(self, program: Program) -> None:
        self.program, self.slowest, self.slow = program, 0.0, ""

    def run(self, name: str, words: List[str]) -> Ended:
        ended = self.program.run(words)
        if ended.seconds > self.slowest:
            self.slowest, self.slow = ended.seconds, name
        return ended

    def try_commands(self, name: str, data: bytes) -> None:
        """A file of commands, on a fresh device."""
        write_file(COMMANDS, data)
        check_try(data, COMMANDS, self.run(name, ["try", COMMANDS]))

    def try_image(self, name: str, data: bytes) -> None:
        """An image, which `explain` and `run` are given."""
        write_file(IMAGE, data)
        script = b"write 1 0=01 1=02\ncut 2 all\nfinish 1\nread 0\nread 1\nstats\n"
        write_file(COMMANDS, script)
        reading = read(data, IMAGE)
        check_explain(reading, self.run(name, ["explain", IMAGE]), data, read_file(IMAGE))
        check_run(reading, data, script, COMMANDS, self.run(name, ["run", IMAGE, COMMANDS]), read_file(IMAGE))

    def try_name(self, it: Named) -> None:
        """Words with a name that is none of a plain file."""
        ended = self.run(" ".join(it.words)[:80], it.words)
        check_end(ended)
        check_said(ended, it.status, it.said)

    def try_all(self) -> int:
        """Answers how many faults there were."""
        faults = sum(try_edge(name, lambda: self.try_commands(name, make())) for name, make in COMMAND_FILES.items())
        faults += sum(try_edge(name, lambda: self.try_image(name, make())) for name, make in IMAGES.items())
        write_file(IMAGE, spell_image(blank_image(LONG)))
        write_file(COMMANDS, b"read 0\n")
        os.mkdir("folder")
        faults += sum(try_edge(" ".join(it.words)[:80], lambda: self.try_name(it)) for it in NAMED)
        return faults


def try_edges(program: Program, room: Optional[str]) -> int:
    """Answers how many faults there were."""
    work = Edges(program)
    with new_folder("edges-", room):
        faults = work.try_all()
    count = len(COMMAND_FILES) + len(IMAGES) + len(NAMED)
    print(f"edges: {count} edges, the slowest run {work.slowest:.2f} s ({work.slow}): {faults} faults", flush=True)
    return faults


def main() -> int:
    parser = argparse.ArgumentParser(description=__doc__, formatter_class=argparse.RawDescriptionHelpFormatter)
    program_argument(parser)
    parser.add_argument("--room", default=MEMORY)
    args = parser.parse_args()
    return 1 if try_edges(Program(found_program(args.program)), args.room) else 0


if __name__ == "__main__":
    sys.exit(main())
