#!/usr/bin/env python3
"""Fills the disk, takes rights and the output away, and looks at what each save left.

    disk.py [EXE]

A small tmpfs is mounted, so this is for the superuser; the runs without rights are those of the user 65534. After each
run the image is the old one (status 5) or the new one (status 0), and no new file stands beside it. A file that is
saved in place, as one with two names, may be torn too, and is refused then (`bad image: magic`)."""
import argparse
import os
import shutil
import stat
import subprocess
import sys
from typing import Callable, List, NamedTuple, Optional

from image import DEFAULT, blank_image, spell_image
from program import Ended, exit_code, found_program, new_folder, program_argument, read_file, write_file

NOBODY = 65534
# 64 slots of 4096 bytes: some 266 kB.
DEVICE = "scc 4096 16 4 1 20 7".split()
SCRIPT = b"write 1 0=0102\nfinish 1\n"
DESK_FAULT = b"desk fault\n"
PAGE = 4096


class Case(NamedTuple):
    """What is changed before a run, who runs it, and the status that is wanted."""
    name: str
    change: Callable[[], None]
    status: int
    words: str = "run d/d.img c.txt"


def run_as(program: str, words: List[str], user: int) -> Ended:
    """Runs the program as this user."""
    reader, writer = os.pipe()
    child = os.fork()
    if child == 0:
        os.dup2(writer, 1)
        os.dup2(writer, 2)
        if user:
            os.setgroups([])
            os.setgid(user)
            os.setuid(user)
        os.execv(program, [program, *words])
    os.close(writer)
    with open(reader, "rb") as pipe:
        said = pipe.read()
    return Ended(exit_code(os.waitpid(child, 0)[1]), said, 0.0)


def own(name: str, mode: int, user: int = NOBODY) -> Callable[[], None]:
    """A change that gives a file to a user, with these rights."""
    def change() -> None:
        os.chown(name, user, user, follow_symlinks=False)
        os.chmod(name, mode)
    return change


def both(*changes: Callable[[], None]) -> Callable[[], None]:
    def change() -> None:
        for it in changes:
            it()
    return change


# Rights. At first the folder d and the file d/d.img are of the user who runs.
CASES = (
    Case("all rights", lambda: None, 0),
    Case("the image may only be read", own("d/d.img", 0o444), 5),
    Case("the image may not be read", own("d/d.img", 0o200), 5),
    Case("another's image, which may only be read", own("d/d.img", 0o644, 0), 5),
    Case("another's image, which may be written (in place)", own("d/d.img", 0o666, 0), 0),
    Case("the folder may not be written (in place)", own("d", 0o555), 0),
    Case("folder and image may only be read", both(own("d", 0o555), own("d/d.img", 0o444)), 5),
    Case("the folder may be written and not read (in place)", own("d", 0o300), 0),
    Case("the folder may not be entered", own("d", 0o600), 5),
    Case("another's folder where each may remove only what is his (in place)",
         both(own("d", 0o1777, 0), own("d/d.img", 0o666, 0)), 0),
    Case("through a link from a folder that may not be written", own("l", 0o555), 0, "run l/link c.txt"),
    Case("through a link to an image that may only be read", own("d/d.img", 0o444), 5, "run l/link c.txt"),
    Case("the commands may not be read", own("c.txt", 0o200), 5),
    Case("a new image in a folder that may not be written", own("d", 0o555), 5, "format d/new.img " + " ".join(DEVICE)),
    Case("format over an image that may only be read", own("d/d.img", 0o444), 5, "format d/d.img " + " ".join(DEVICE)),
)


def lay_out(image: bytes) -> None:
    """Puts the image and the commands to their places anew."""
    for name in ("d", "l"):
        shutil.rmtree(name, ignore_errors=True)
        os.mkdir(name)
        own(name, 0o755)()
    write_file("d/d.img", image)
    os.symlink("../d/d.img", "l/link")
    write_file("c.txt", SCRIPT)
    for name, mode in (("d/d.img", 0o644), ("c.txt", 0o644)):
        own(name, mode)()


def try_rights(program: str, old: bytes, new: bytes) -> List[str]:
    """What is wrong where rights are taken away."""
    wrong = []
    for case in CASES:
        lay_out(old)
        case.change()
        before = {it: stat_of(it) for it in ("d/d.img",)}
        ended = run_as(program, case.words.split(" "), NOBODY)
        left, files = read_file("d/d.img"), sorted(os.listdir("d"))
        holds = ended.status == case.status and left == (new if case.status == 0 else old)
        holds = holds and files == ["d.img"] and os.path.islink("l/link") and stat_of("d/d.img") == before["d/d.img"]
        if not holds or (case.status == 5 and ended.said != DESK_FAULT):
            what = "old" if left == old else "new" if left == new else "other"
            wrong.append(f"{case.name}: status {ended.status}, {ended.said[:60]!r}, image {what}, files {files}, "
                         f"{before['d/d.img']} became {stat_of('d/d.img')}")
    print(f"disk: {len(CASES)} ways to take rights away: {len(wrong)} faults", flush=True)
    return wrong


def stat_of(name: str) -> str:
    it = os.stat(name)
    return f"{it.st_uid}:{it.st_gid} {stat.S_IMODE(it.st_mode):o}"


# An output that takes nothing.

def run_unheard(program: str, words: List[str], output: str) -> int:
    """The status of a run whose output is full, is closed, or has nobody who reads it."""
    child = os.fork()
    if child == 0:
        if output == "full":
            os.dup2(os.open("/dev/full", os.O_WRONLY), 1)
        elif output == "unread":
            reader, writer = os.pipe()
            os.dup2(writer, 1)
            os.close(reader)
        elif output == "closed":
            os.close(1)
        else:
            for it in (0, 1, 2):
                os.close(it)
        os.execv(program, [program, *words])
    return exit_code(os.waitpid(child, 0)[1])


def try_outputs(program: str, old: bytes, new: bytes) -> List[str]:
    """The image is saved before anything is said: so it is the new one, and the status is 5."""
    wrong, count = [], 0
    rows = (("run d/d.img c.txt", new), ("explain d/d.img", old), ("try c.txt", old),
            ("format d/d.img " + " ".join(DEVICE), old))
    for output in ("full", "unread", "closed", "all closed"):
        for second in (False, True):
            for words, wanted in rows:
                lay_out(old)
                if second:
                    os.link("d/d.img", "l/second")
                count += 1
                status = run_unheard(program, words.split(" "), output)
                if status != 5 or read_file("d/d.img") != wanted or os.listdir("d") != ["d.img"]:
                    wrong.append(f"{words}, output {output}: status {status}, or the image is another one")
    print(f"disk: {count} runs with an output that takes nothing: {len(wrong)} faults", flush=True)
    return wrong


# A full disk.

def fill(leaves: int) -> None:
    """Fills the disk but for so many pages."""
    free = os.statvfs(".").f_bavail
    if free > leaves:
        with open("filler", "wb") as file:
            file.truncate(0)
            file.write(bytes(PAGE) * (free - leaves))


def save_on_full(program: str, words: List[str], leaves: int, old: Optional[bytes], new: bytes) -> str:
    """Saves where so many pages are free; `old`, `new` or `torn` as it left the image, or what is wrong."""
    fill(leaves)
    earlier = sorted(os.listdir("."))
    ended = run_as(program, words, 0)
    left, files = read_file("d.img"), sorted(os.listdir("."))
    if ended.status == 0 and left == new and set(files) <= {*earlier, "d.img"}:
        return "new"
    if ended.status == 5 and ended.said == DESK_FAULT and files == earlier:
        if left == old:
            return "old"
        if os.path.exists("second") and is_torn(program):
            return "torn"
    what = "old" if left == old else "new" if left == new else "other"
    return f"{words[0]}, {leaves} pages free: status {ended.status}, {ended.said[:60]!r}, image {what}, files {files}"


def is_torn(program: str) -> bool:
    ended = run_as(program, ["explain", "d.img"], 0)
    return ended.status == 3 and ended.said == b"bad image: magic\n"


def clear() -> None:
    """Removes all files but the commands."""
    for name in os.listdir("."):
        if name != "c.txt":
            os.remove(name)


def write_with_two_names(old: bytes) -> None:
    write_file("d.img", old)
    os.link("d.img", "second")


def try_full(program: str, old: bytes, new: bytes, blank: bytes) -> List[str]:
    """Each number of free pages up to those of the image and some more: for `run` and `format`, and for files with two
    names, of which the last is a small image that becomes a large one."""
    left: List[str] = []
    small = spell_image(blank_image(DEFAULT))
    serve, make = ["run", "d.img", "c.txt"], ["format", "d.img", *DEVICE]
    for leaves in range(len(new) // PAGE + 4):
        clear()
        write_file("d.img", old)
        left.append(save_on_full(program, serve, leaves, old, new))
        clear()
        left.append(save_on_full(program, make, leaves, None, blank))
        clear()
        write_with_two_names(old)
        left.append(save_on_full(program, serve, leaves, old, new))
        clear()
        write_with_two_names(small)
        left.append(save_on_full(program, make, leaves, small, blank))
    wrong = [it for it in left if it not in ("old", "new", "torn")]
    counts = ", ".join(f"{left.count(it)} {it}" for it in ("old", "new", "torn"))
    print(f"disk: {len(left)} saves on a disk that is full, or nearly: {counts}: {len(wrong)} faults", flush=True)
    return wrong


def work_on_small_disk(folder: str, work: Callable[[], List[str]]) -> List[str]:
    """Does this work in a folder that is a disk of 2 MB."""
    subprocess.run(["mount", "-t", "tmpfs", "-o", "size=2m,mode=0755", "tmpfs", folder], check=True)
    try:
        os.chdir(folder)
        write_file("c.txt", SCRIPT)
        return work()
    finally:
        os.chdir("/")
        subprocess.run(["umount", folder], check=True)


def try_disk(path: str) -> int:
    """Answers how many faults there were."""
    if os.getuid():
        print("disk: not tried: this is for the superuser")
        return 0
    with new_folder("disk-") as folder:
        os.chmod(folder, 0o755)
        shutil.copy(path, "program")
        os.chmod("program", 0o755)
        program = os.path.abspath("program")
        write_file("c.txt", SCRIPT)
        run_as(program, ["format", "d.img", *DEVICE], 0)
        old = read_file("d.img") or b""
        run_as(program, ["run", "d.img", "c.txt"], 0)
        new = read_file("d.img") or b""
        blank = old
        if not old or old == new:
            raise SystemExit("disk: no image was made")
        wrong = try_rights(program, old, new) + try_outputs(program, old, new)
        os.mkdir("small")
        wrong += work_on_small_disk(os.path.abspath("small"), lambda: try_full(program, old, new, blank))
    for it in wrong:
        print(f"disk: {it}")
    return len(wrong)


def main() -> int:
    parser = argparse.ArgumentParser(description=__doc__, formatter_class=argparse.RawDescriptionHelpFormatter)
    program_argument(parser)
    return 1 if try_disk(found_program(parser.parse_args().program)) else 0


if __name__ == "__main__":
    sys.exit(main())
