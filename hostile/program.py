"""Runs of the built program: its words, its status, what it said, and how long it took. And files for them."""
import argparse
import contextlib
import os
import select
import signal
import tempfile
import time
from typing import Dict, Iterator, List, NamedTuple, Optional

TOP = os.path.dirname(os.path.dirname(os.path.abspath(__file__)))
BUILT = os.path.join(TOP, "crates", "txflash", "out", "txflash")
LONGEST = 10.0
KILLED_AFTER = 60.0
# Where files cost no disk, if there is such a place.
MEMORY = "/dev/shm" if os.path.isdir("/dev/shm") else None


def program_argument(parser: argparse.ArgumentParser, built: str = BUILT) -> None:
    """Lets the words name the built program. Where they do not, it is that of this repository."""
    parser.add_argument("program", metavar="EXE", nargs="?", default=built)


def found_program(path: str) -> str:
    """The whole path of a program. Where there is none, this ends the script with a sentence."""
    if not os.access(path, os.X_OK) or os.path.isdir(path):
        raise SystemExit(f"There is no program {path}: ./txflash and ./flash_serve build theirs, or name another one.")
    return os.path.abspath(path)


class Ended(NamedTuple):
    """`status` is below 0 where a signal ended the program. What it wrote to standard error is in `said` too."""
    status: int
    said: bytes
    seconds: float


class Program:
    def __init__(self, path: str, environment: Optional[Dict[str, str]] = None) -> None:
        self.path, self.environment = path, {**os.environ, **(environment or {})}

    def start(self, words: List[str], output: int) -> int:
        """Starts a run that writes to this open file, and answers its process."""
        actions = [(os.POSIX_SPAWN_OPEN, 0, os.devnull, os.O_RDONLY, 0),
                   (os.POSIX_SPAWN_DUP2, output, 1), (os.POSIX_SPAWN_DUP2, output, 2)]
        return os.posix_spawn(self.path, [self.path, *words], self.environment, file_actions=actions)

    def run(self, words: List[str]) -> Ended:
        begun = time.monotonic()
        reader, writer = os.pipe()
        process = self.start(words, writer)
        os.close(writer)
        said = read_all(reader, begun + KILLED_AFTER, process)
        os.close(reader)
        _, status = os.waitpid(process, 0)
        return Ended(exit_code(status), said, time.monotonic() - begun)


def read_all(reader: int, end: float, process: int) -> bytes:
    """All that is said, until the program ends or is killed at this time."""
    parts = []
    while True:
        ready, _, _ = select.select([reader], [], [], max(0.0, end - time.monotonic()))
        if not ready:
            os.kill(process, signal.SIGKILL)
            end = float("inf") if time.monotonic() > end + 5 else time.monotonic() + 5
            continue
        part = os.read(reader, 1 << 20)
        if not part:
            return b"".join(parts)
        parts.append(part)


def exit_code(status: int) -> int:
    return -os.WTERMSIG(status) if os.WIFSIGNALED(status) else os.WEXITSTATUS(status)


def read_file(name: str) -> Optional[bytes]:
    """The bytes of a file, none where it is not there."""
    try:
        with open(name, "rb") as file:
            return file.read()
    except FileNotFoundError:
        return None


def write_file(name: str, data: bytes) -> None:
    with open(name, "wb") as file:
        file.write(data)


@contextlib.contextmanager
def new_folder(prefix: str, room: Optional[str] = None) -> Iterator[str]:
    """Goes into a new folder, which is removed at the end."""
    with tempfile.TemporaryDirectory(prefix=prefix, dir=room) as folder:
        os.chdir(folder)
        try:
            yield folder
        finally:
            os.chdir("/")
