#!/usr/bin/env python3
"""prove.py PROGRAM: proves the crates that a program of crates.txt stands on, and builds the program.

rt ci proves them side by side, on a copy of these crates without their edits. What it has proved it keeps beside the
toolchain, also where this is stopped: neither this nor the gate proves the same files again on this machine, in this
clone or another. Where it can keep nothing there, as beside the toolchain of another user, rt check proves them, and
what is proved stays in the folders crates/NAME/out. Notes go to standard error, in the name of the program. The status
is 0 where the program is built, 125 where it is not, and 129, 130 or 143 where a signal ended this.
"""

import os
import re
import shutil
import signal
import subprocess
import sys
import tempfile
import time
from typing import IO, Dict, Iterator, List, Optional, Set

from notes import tell, tell_text

TOP = os.path.dirname(os.path.dirname(os.path.abspath(__file__)))

# Bytes of memory that one crate may take while it is proved.
NEEDED = 3 << 30

# Words with which a program ends at once and changes nothing.
WORDS = {"txflash": ["try", "/dev/null"], "flash_view": ["/nowhere/at/all"], "flash_serve": ["/nowhere/at/all"]}


def path_of(program: str) -> str:
    """Where a program stands once it is built."""
    return f"{TOP}/crates/{program}/out/{program}"


def read_crates() -> Dict[str, List[str]]:
    """The crates of crates.txt, each with the crates of this repository that it lists."""
    listed = {}
    with open(f"{TOP}/crates.txt", encoding="utf-8") as file:
        for line in file:
            name, colon, below = line.partition("#")[0].partition(":")
            if colon:
                listed[name.split()[0]] = below.split()
    return {name: [it for it in below if it in listed] for name, below in listed.items()}


def stands_on(program: str) -> Set[str]:
    """The program and all crates below it."""
    crates, found, waiting = read_crates(), set(), [program]
    while waiting:
        name = waiting.pop()
        if name not in found:
            found.add(name)
            waiting += crates[name]
    return found


def sources_of(name: str) -> Iterator[str]:
    """The files of source, definitions and proofs of a crate."""
    for at, folders, files in os.walk(f"{TOP}/crates/{name}"):
        folders[:] = [it for it in folders if it not in ("out", "data", "must-fail")]
        yield from (f"{at}/{it}" for it in files if it.endswith((".rt", ".antt")))


def copy_crates(names: Set[str], to: str) -> None:
    """Copies crates without their edits to a folder, which is then the top of a repository."""
    os.mkdir(f"{to}/.git")
    for name in names:
        left_out = shutil.ignore_patterns("out", "must-fail")
        shutil.copytree(f"{TOP}/crates/{name}", f"{to}/crates/{name}", ignore=left_out)
    shutil.copy(f"{TOP}/HANDLES", to)
    with open(f"{TOP}/crates.txt", encoding="utf-8") as file, open(f"{to}/crates.txt", "w", encoding="utf-8") as copy:
        copy.writelines(line for line in file if {*line.partition(":")[0].split()[:1]} <= names)


def can_keep() -> bool:
    """Whether rt ci can keep what it proves: in a folder beside the toolchain, for the owner of that folder alone."""
    beside = os.path.dirname(os.path.dirname(os.path.dirname(os.path.realpath(shutil.which("rt") or "/"))))
    try:
        return os.stat(f"{beside}/rattle-kept").st_uid == os.geteuid()
    except OSError:
        return os.access(beside, os.W_OK)


def free_bytes() -> int:
    """Bytes of memory that can be had now."""
    with open("/proc/meminfo", encoding="utf-8") as file:
        return int(re.search(r"MemAvailable:\s*(\d+)", file.read())[1]) << 10


def at_once() -> int:
    """How many crates are proved side by side. rt counts those that wait for others too, so these are a few more than
    the processors."""
    processors = len(os.sched_getaffinity(0))
    return max(1, min(processors + processors // 2, free_bytes() // NEEDED))


class Proofs:
    """The proofs of a program, and how far they are."""

    def __init__(self, program: str) -> None:
        self.program = program
        self.names = stands_on(program)
        self.stamp = f"{path_of(program)}.proved"
        self.begun = time.time()
        self.done = 0
        self.child: "Optional[subprocess.Popen[str]]" = None
        self.room = ""

    def tell(self, text: str) -> None:
        """Says a line."""
        tell(self.program, text)

    def tell_progress(self, text: str) -> None:
        """Says a line, with how far the proofs are."""
        minutes = int(time.time() - self.begun) // 60
        self.tell(f"{text} ({self.done} of {len(self.names)} crates, {minutes} min so far)")

    def is_current(self) -> bool:
        """Whether the program is built, and no source that it stands on is newer than its stamp."""
        if not (os.path.exists(self.stamp) and os.path.exists(path_of(self.program))):
            return False
        made = os.stat(self.stamp).st_mtime
        paths = [f"{TOP}/crates.txt", *(path for name in self.names for path in sources_of(name))]
        return all(os.stat(path).st_mtime <= made for path in paths)

    def note(self, name: str) -> None:
        """Says that a crate is done, if the program stands on it."""
        if name in self.names:
            self.done += 1
            self.tell_progress(f"{name} is done")

    def lines_of(self, folder: str, *words: str) -> IO[str]:
        """Starts rt in a folder, and answers the lines that it says, as they come."""
        self.child = subprocess.Popen(
            ["rt", *words],
            cwd=folder,
            stdin=subprocess.DEVNULL,
            stdout=subprocess.PIPE,
            stderr=subprocess.STDOUT,
            errors="replace",
            start_new_session=True,
        )
        return self.child.stdout

    def make(self) -> bool:
        """Proves the crates and builds the program by rt ci, in a copy. Answers whether it is built; what rt says where
        it is not is said."""
        with tempfile.TemporaryDirectory(prefix="txflash-") as self.room:
            copy_crates(self.names, self.room)
            said: List[str] = []
            block: List[str] = []
            for line in self.lines_of(self.room, "ci"):
                block.append(line)
                if found := re.match(r"rt: (\w+) (proved$|is kept\b|NOT PROVED)", line):
                    if found[2] == "NOT PROVED":
                        said += block
                    else:
                        self.note(found[1])
                    block = []
            if self.child.wait() != 0:
                tell_text("".join(said + block))
                return False
            os.makedirs(os.path.dirname(self.stamp), exist_ok=True)
            made = f"{path_of(self.program)}.new"
            shutil.copy(f"{self.room}/crates/{self.program}/out/{self.program}", made)
            os.replace(made, path_of(self.program))
        return True

    def prove(self) -> bool:
        """Proves the crates by rt check. Answers whether all are proved; what rt says of the others is said."""
        said, name = {}, None
        for line in self.lines_of(f"{TOP}/crates/{self.program}", "all", "check", "--jobs", str(at_once())):
            if found := re.match(r"== (\w+)$", line):
                name = found[1]
                self.note(name)
            said.setdefault(name, []).append(line)
        if self.child.wait() == 0:
            return True
        for line in said.get("summary", said.get(None, [])):
            failed = re.match(r"(\w+): failed", line)
            tell_text("".join(said.get(failed[1], []) if failed else []))
            tell_text(line)
        return False

    def build(self) -> bool:
        """Builds the program of crates that rt check proved. Answers whether it is built: rt makes its stamp then."""
        said = list(self.lines_of(f"{TOP}/crates/{self.program}", "run", "--", *WORDS[self.program]))
        self.child.wait()
        if os.path.exists(f"{path_of(self.program)}.stamp"):
            return True
        tell_text("".join(said))
        return False

    def run(self) -> int:
        """Proves and builds. Answers the status."""
        self.tell("proving and building the program first; README.md says how long that takes")
        if not (self.make() if can_keep() else self.prove() and self.build()):
            self.tell("the program was not built: see above")
            return 125
        # A source that has changed since this began is newer than the stamp, so that the next call builds again.
        with open(self.stamp, "w", encoding="utf-8"):
            os.utime(self.stamp, (self.begun, self.begun))
        self.tell_progress("the program is built")
        return 0

    def end(self, number: int, _frame: object) -> None:
        """Ends what runs, at a signal."""
        if self.child:
            try:
                os.killpg(self.child.pid, signal.SIGTERM)
            except ProcessLookupError:
                pass
            self.child.wait()
        shutil.rmtree(self.room, ignore_errors=True)
        self.tell_progress("stopped; what is proved is kept for the next call")
        os._exit(128 + number)


def build(program: str) -> int:
    """Proves and builds a program where it is not built, or a source is newer. Answers the status."""
    proofs = Proofs(program)
    if proofs.is_current():
        return 0
    for number in (signal.SIGHUP, signal.SIGINT, signal.SIGTERM):
        signal.signal(number, proofs.end)
    return proofs.run()


def main() -> int:
    if len(sys.argv) != 2 or sys.argv[1] not in WORDS:
        tell_text(f"usage: prove.py {'|'.join(WORDS)}\n")
        return 125
    return build(sys.argv[1])


if __name__ == "__main__":
    sys.exit(main())
