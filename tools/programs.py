"""What the three scripts share: where a built program is, how one is started, and what is said beside it."""
import os
import shutil
import signal
import sys
from typing import List, NoReturn, Optional, Sequence

import prove
from notes import tell

TOP = prove.TOP
MANUAL = f"{TOP}/docs/manual.md"
# The status where no program was started.
NOT_STARTED = 125
SIGNALS = (signal.SIGHUP, signal.SIGINT, signal.SIGTERM)


def version() -> str:
    """The version of this repository."""
    with open(f"{TOP}/VERSION", encoding="utf-8") as file:
        return file.read().strip()


def named_program(program: str) -> Optional[str]:
    """The built program that the environment names, as TXFLASH_PROGRAM, FLASH_VIEW_PROGRAM or
    FLASH_SERVE_PROGRAM, if it does. The script is none, and would start itself for ever."""
    named = os.environ.get(f"{program.upper()}_PROGRAM")
    is_script = named and os.path.exists(named) and os.path.samefile(named, f"{TOP}/{program}")
    return None if is_script else named


def proved_program(program: str) -> Optional[str]:
    """The program, if it is proved and built and no source is newer, or the one that the environment names."""
    named = named_program(program)
    if named:
        return named
    return prove.path_of(program) if prove.Proofs(program).is_current() else None


def built_program(program: str) -> str:
    """The program, which is proved and built first where that is needed. Where it cannot be, this ends the script."""
    found = proved_program(program)
    if found:
        return found
    if not shutil.which("rt"):
        tell(program, "no rt on the path; README.md says what this needs")
        sys.exit(NOT_STARTED)
    status = prove.build(program)
    if status:
        sys.exit(status)
    return prove.path_of(program)


def stop_at_signals() -> None:
    """Lets a signal end this script as an exit does, so that copies go and children are told."""
    for number in SIGNALS:
        signal.signal(number, lambda it, _: sys.exit(128 + it))


def forward(child: int) -> None:
    """Lets signals that come to this script go to a program that it has started."""
    def send(number: int, _frame: object) -> None:
        try:
            os.kill(child, number)
        except ProcessLookupError:
            pass
    for number in SIGNALS:
        signal.signal(number, send)


def start(path: str, words: Sequence[str]) -> int:
    """Runs a program on this script's own input, outputs and open files. The status, or a signal below 0."""
    try:
        child = os.posix_spawn(path, [path, *words], os.environ, setsigdef=(signal.SIGPIPE, signal.SIGXFSZ))
    except OSError as error:
        tell(os.path.basename(path), f"{path}: {error.strerror}")
        sys.exit(NOT_STARTED)
    forward(child)
    _, status = os.waitpid(child, 0)
    return -os.WTERMSIG(status) if os.WIFSIGNALED(status) else os.WEXITSTATUS(status)


def end(status: int) -> NoReturn:
    """Ends as a program ended."""
    if status < 0:
        if -status != signal.SIGKILL:
            signal.signal(-status, signal.SIG_DFL)
        os.kill(os.getpid(), -status)
    sys.exit(status)


def options_of(words: List[str], known: Sequence[str]) -> List[str]:
    """Takes the leading options of a script off its words, and answers them."""
    found = []
    while words and words[0] in known:
        found.append(words.pop(0))
    return found
