#!/usr/bin/env python3
"""transcripts.py [EXE [FLASH_VIEW [FLASH_SERVE]]]: gives all calls of docs/manual.md, in the order in which they stand
and from an empty folder, to the built programs, and compares what they print with the manual. It prints a line for each
thing that differs, and then the status is 1. Where there is no FLASH_VIEW or FLASH_SERVE, its calls are left out.
`examples.py` compares the manual with the cases, without a program."""
import os
import re
import shlex
import subprocess
import sys
import tempfile
from typing import Dict, Iterator, List, Optional

from examples import MANUAL, SCRIPTS, asked_in, blocks, is_beside, is_command, read_lines, sides, turns
from prove import TOP, path_of


class Reader:
    """Reads the manual as a user does, in a folder with links to the scripts."""

    def __init__(self, folder: str, programs: Dict[str, str]) -> None:
        self.folder = folder
        self.environment = {**os.environ, **programs}
        self.missing = [it for it in ("flash_view", "flash_serve") if f"{it.upper()}_PROGRAM" not in programs]
        self.answer: Optional[List[str]] = None
        self.compared = self.left = 0
        for name in ("txflash", "flash_view", "flash_serve", "examples"):
            os.symlink(f"{TOP}/{name}", f"{folder}/{name}")

    def give(self, command: str) -> None:
        """Gives a command to a shell, and keeps what it says."""
        if any(f"./{it}" in command or it == "flash_view" and "story.py" in command for it in self.missing):
            self.answer, self.left = None, self.left + 1
            return
        done = subprocess.run(["sh", "-c", command], cwd=self.folder, env=self.environment, stdin=subprocess.DEVNULL,
                              stdout=subprocess.PIPE, stderr=subprocess.DEVNULL, check=False)
        self.answer = done.stdout.decode("utf-8", "replace").splitlines()

    def differs(self, number: int, block: List[str]) -> Iterator[str]:
        """A line, if a block is not what the last command said."""
        if self.answer is not None:
            self.compared += 1
            if self.answer != block:
                yield f"{MANUAL}, line {number}: this was said: {' / '.join(self.answer)[:200] or 'nothing'}"

    def read(self) -> Iterator[str]:
        """A line for each answer in the manual that is not what is said."""
        asked, after_command = None, False
        for number, before, block in blocks(read_lines(MANUAL)):
            inline = asked_in(before)
            asked = inline or asked
            if is_command(block[0]):
                # A command with a bracket tells what may be called.
                given = [it for it in turns(block) if "[" not in it[0]]
                for command, answer in given:
                    self.give(command)
                    if answer:
                        yield from self.differs(number, answer)
                after_command = bool(given)
                continue
            beside = is_beside(block)
            if beside and asked[0] == "live":
                self.give(session(sides(block)[0], asked[1]))
                yield from self.differs(number, ["serving", *sides(block)[1]])
                continue
            block = sides(block)[1] if beside else block
            is_file = not beside and block[0].startswith("#") and re.search(rf"`({SCRIPTS}/)?[\w-]+\.txt`", before)
            if not is_file and (inline or before == "It says"):
                self.give(f"./{'txflash' if asked[0] == 'call' else 'flash_view'} {asked[1]}")
                yield from self.differs(number, block)
            elif after_command and before == "":
                yield from self.differs(number, block)
            after_command = False


def session(lines: List[str], image: str) -> str:
    """The command that gives these lines to a live device."""
    return f"printf '%s\\n' {' '.join(map(shlex.quote, lines))} | ./flash_serve {image}"


def main() -> int:
    named = [os.path.abspath(it) for it in sys.argv[1:4]]
    programs = {"TXFLASH_PROGRAM": named[0] if named else path_of("txflash")}
    for place, name in enumerate(("flash_view", "flash_serve"), 1):
        if len(named) > place or os.path.exists(path_of(name)):
            programs[f"{name.upper()}_PROGRAM"] = named[place] if len(named) > place else path_of(name)
    if not os.access(programs["TXFLASH_PROGRAM"], os.X_OK):
        print(f"There is no program {programs['TXFLASH_PROGRAM']}: ./txflash builds it, or name another one.")
        return 1
    with tempfile.TemporaryDirectory(prefix="transcripts-") as folder:
        reader = Reader(folder, programs)
        found = list(reader.read())
    for line in found:
        print(line)
    print(f"transcripts: {reader.compared} answers, {reader.left} calls left out: {len(found)} differ")
    return 1 if found else 0


if __name__ == "__main__":
    sys.exit(main())
