"""Why a call of txflash may have ended with `desk fault`, as far as that can be seen afterwards."""
import errno
import fcntl
import os
import select
import stat
from typing import Iterator, Optional, Sequence

from mistakes import FORMS, NAMES

SAVING = ("format", "run", "keys", "retire")


def why_not_read(name: str) -> Optional[str]:
    """Why a file cannot be read, if it is there and cannot."""
    try:
        if stat.S_ISDIR(os.stat(name).st_mode):
            return f"{name} is a folder"
        if os.path.isfile(name):
            with open(name, "rb") as file:
                file.read(1)
    except FileNotFoundError:
        return None
    except OSError as error:
        return f"{name} cannot be read: {error.strerror}"
    return None


def why_not_locked(name: str, begun: float) -> Optional[str]:
    """Whether another run saves a file, or has saved it since this time."""
    with open(name, "rb") as file:
        try:
            fcntl.flock(file, fcntl.LOCK_EX | fcntl.LOCK_NB)
        except OSError as error:
            return f"another program has the lock of {name}" if error.errno == errno.EWOULDBLOCK else None
    if os.stat(name).st_mtime > begun:
        return f"{name} was written while this call worked: look what it holds, and give the call again"
    return None


def why_no_room(folder: str, needed: int) -> Optional[str]:
    """Why a file of so many bytes has no room in a folder, if it has none."""
    free = os.statvfs(folder)
    room = free.f_bavail * free.f_frsize
    return f"{room} bytes are free in {folder}, and a second copy needs {needed}" if room < needed else None


def why_not_saved(name: str, begun: float) -> Optional[str]:
    """Why an image cannot be saved, if that can be seen."""
    target = os.path.realpath(name)
    folder = os.path.dirname(target)
    if not os.path.isdir(folder):
        return f"there is no folder {folder}"
    if not os.path.exists(target):
        return None if os.access(folder, os.W_OK | os.X_OK) else f"no file may be made in {folder}"
    if not os.access(target, os.W_OK):
        return f"{name} may not be written"
    if not os.path.isfile(target):
        return None
    taken = (f"{target}.saving{number or ''}" for number in (0, *range(2, 100)))
    if all(os.path.lexists(it) for it in taken):
        return f"all names from {name}.saving to {name}.saving99 are taken: remove what a killed run left"
    return why_not_locked(target, begun) or why_no_room(folder, os.path.getsize(target))


def why_not_said(output: int = 1) -> Optional[str]:
    """Why an output takes nothing, if that can be seen."""
    try:
        kind = os.fstat(output)
    except OSError:
        return "standard output is closed"
    if stat.S_ISCHR(kind.st_mode) and kind.st_rdev == os.makedev(1, 7):
        return "standard output is /dev/full"
    if stat.S_ISFIFO(kind.st_mode):
        poll = select.poll()
        poll.register(output, 0)
        if any(event & select.POLLERR for _, event in poll.poll(0)):
            return "nobody reads standard output any more"
    if stat.S_ISREG(kind.st_mode) and os.fstatvfs(output).f_bavail == 0:
        return "the disk of standard output is full"
    return None


def reasons(words: Sequence[str], begun: float) -> Iterator[Optional[str]]:
    """What can be seen, in the order of a call's steps."""
    named = [word for kind, word in zip(FORMS[words[0]].split(), words[1:]) if kind in NAMES]
    if words[0] != "format":
        yield from (why_not_read(name) for name in named)
    yield why_not_said()
    if words[0] in SAVING:
        yield why_not_saved(named[0], begun)


def why_fault(words: Sequence[str], begun: float) -> str:
    """Why a call that began at this time ended with a fault of files or outputs."""
    try:
        found = next((it for it in reasons(words, begun) if it), None)
    except OSError as error:
        found = f"{error.filename}: {error.strerror}"
    return found or "what failed cannot be seen any more; docs/manual.md has 'After status 5'"
