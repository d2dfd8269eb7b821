"""Calls on copies of the files that they name: by the proved program where it is built, and else by rt try."""
import os
import shutil
import signal
import subprocess
import sys
import tempfile
from typing import Dict, NamedTuple, Optional, Sequence

from notes import tell, tell_text
from programs import NOT_STARTED, TOP, proved_program

# One byte more than a file may have shows the program that it is too long.
LONGEST_COPY = 134217728 + 1


def copy_file(name: str, copy: str) -> bool:
    """Makes a copy of a file, if it is there. Answers whether it could be read."""
    try:
        with open(name, "rb") as file, open(copy, "wb") as made:
            left = LONGEST_COPY
            while left and (part := file.read(min(left, 1 << 20))):
                left -= made.write(part)
        return True
    except OSError as error:
        if os.path.lexists(copy):
            os.remove(copy)
        return isinstance(error, FileNotFoundError)


class Copies:
    """The copies of the files of a call, in a folder of their own. In the place of a file that cannot be read the
    program gets a folder, which it cannot read either."""

    def __init__(self, room: str) -> None:
        self.room = room
        self.names: Dict[str, str] = {}

    def take(self, kind: str, name: str, is_read: bool = True) -> str:
        """The word for a file of this kind, which is copied if the call reads it."""
        copy = f"{self.room}/{kind}"
        self.names[copy] = name
        if not name or is_read and not copy_file(name, copy):
            return name and "/"
        return copy

    def restore(self, said: bytes) -> bytes:
        """What was said, with the names as they were given."""
        line, feed, rest = said.partition(b"\n")
        for copy, name in self.names.items():
            line = line.replace(os.fsencode(copy), os.fsencode(name))
        return line + feed + rest

    def keep(self, kind: str) -> Optional[str]:
        """Puts the copy of this kind in the place of its file. Answers why not, if it cannot."""
        copy = f"{self.room}/{kind}"
        target = os.path.realpath(self.names[copy])
        beside = f"{target}.keeping"
        try:
            shutil.copyfile(copy, beside)
            if os.path.exists(target):
                shutil.copymode(target, beside)
            os.replace(beside, target)
        except OSError as error:
            return f"{self.names[copy]} was not kept: {error.strerror}"
        return None


class Ended(NamedTuple):
    """The status of a program and what it said."""
    status: int
    said: bytes


def said_by_try(program: str, words: Sequence[str]) -> Ended:
    """What a program says to these words unproved. Where rt try has no answer, this ends the script."""
    if not shutil.which("rt"):
        tell(program, "no rt on the path; README.md says what this needs")
        sys.exit(NOT_STARTED)
    tell(program, "running unproved, checked by rt try: this takes a minute or two")
    child = subprocess.Popen(["rt", "try", "--", *words], cwd=f"{TOP}/crates/{program}", stdin=subprocess.DEVNULL,
                             stdout=subprocess.PIPE, stderr=subprocess.PIPE, start_new_session=True)
    try:
        said, notes = child.communicate()
    except BaseException:
        os.killpg(child.pid, signal.SIGTERM)
        raise
    lines = notes.decode("utf-8", "replace").splitlines()
    if lines and lines[-1].startswith(f"run=ended status={child.returncode} "):
        return Ended(child.returncode, said)
    if any(it.startswith("checked: no-answer: the program ") for it in lines):
        tell(program, "no answer within a minute or 1 MiB of output")
    else:
        tell_text("".join(f"{it}\n" for it in lines))
        tell(program, "the program gave no answer: see above")
    sys.exit(NOT_STARTED)


def run_on_copies(program: str, words: Sequence[str]) -> Ended:
    """What a program says to words that name copies."""
    path = proved_program(program)
    if path is None:
        return said_by_try(program, words)
    tell(program, "the proved program works on copies of the files")
    done = subprocess.run([path, *words], stdin=subprocess.DEVNULL, stdout=subprocess.PIPE, check=False)
    return Ended(done.returncode, done.stdout)


def new_room() -> "tempfile.TemporaryDirectory[str]":
    """A folder for copies, which goes at the end."""
    return tempfile.TemporaryDirectory(prefix="txflash-")


def say(said: bytes) -> None:
    """Writes to standard output, if somebody reads it."""
    try:
        if sys.stdout is not None:
            sys.stdout.buffer.write(said)
            sys.stdout.flush()
    except OSError:
        os.dup2(os.open(os.devnull, os.O_WRONLY), 1)
