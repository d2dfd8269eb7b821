"""./txflash [OPTIONS] WORDS: runs the proved program with these words, in the folder where you stand.

Where the program is not built yet, or a source is newer than it, this proves and builds it first. What the program
says is its own; what this says of a mistake goes to standard error. Without words it says which there are. The status
is the program's, or 125 where no program was started. TXFLASH_PROGRAM may name a built program."""
import os
import sys
import time
from typing import List, Optional, Sequence

import copies
import faults
import mistakes
from notes import tell, tell_text
from programs import (MANUAL, NOT_STARTED, built_program, end, options_of, proved_program, start, stop_at_signals,
                      version)

OPTIONS = ("--help", "--version", "--unproved", "--keep", "--replace")
MAGICS = (b"TXFLASH1", b"TXFLASH2")
# Above this many bytes a file is not read once more for the reason of its bad line.
MOST_READ = 1 << 24

TABLE = f"""txflash is a flash disk on which several pages change at once, all or none, whatever breaks: an image file
holds its flash, and a file of commands has what its host asks for.

    ./txflash [OPTIONS] WORDS        options first; the words are one of

{{rows}}

    --unproved    works on copies of the files, and needs no proof where the program is not built
    --keep        with --unproved: keeps the image that the call leaves
    --replace     with format: also replaces a file that is no image
    --version, --help

The manual is {MANUAL}
"""


def table() -> str:
    """The table of words and options."""
    rows = []
    for verb, form, does in mistakes.ROWS:
        call = f"    {verb} {form}"
        rows += [f"{call:32}{does}"] if len(call) < 32 else [call, f"{'':32}{does}"]
    return TABLE.format(rows="\n".join(rows))


def is_no_image(name: str) -> bool:
    """Whether a name is that of a plain file with bytes that is no image."""
    try:
        if not os.path.isfile(name) or os.path.getsize(name) == 0:
            return False
        with open(name, "rb") as file:
            return file.read(8) not in MAGICS
    except OSError:
        return False


def page_bytes(words: Sequence[str]) -> int:
    """The bytes of a page of the device that a call serves commands on."""
    if words[0] != "run":
        return 16
    with open(words[1], "rb") as file:
        return int.from_bytes(file.read(16)[12:], "little")


def tell_bad_line(words: Sequence[str]) -> None:
    """Says which line of a call's file is bad, and why."""
    name = words[-1]
    forms = mistakes.KEY_COMMANDS if words[0] == "keys" else mistakes.COMMANDS
    try:
        if not all(map(os.path.isfile, words[1:])) or os.path.getsize(name) > MOST_READ:
            tell("txflash", f"{name} is not read once more; {MANUAL} has 'Common mistakes'")
            return
        with open(name, "rb") as file:
            found = mistakes.first_mistake(file.read(), forms, page_bytes(words))
    except OSError:
        return
    if found:
        tell("txflash", f"line {found.number} of {name} is {mistakes.shown_text(found.line)}")
        tell("txflash", found.why)


def explain(status: int, words: Sequence[str], begun: float) -> None:
    """Says why a call ended with this status, where a user may have made a mistake."""
    if status == 1:
        tell("txflash", mistakes.why_words(words) or "see ./txflash --help")
    elif status == 4:
        tell_bad_line(words)
    elif status == 5:
        tell("txflash", faults.why_fault(words, begun))


def run_on_copies(words: Sequence[str], keep: bool) -> int:
    """Runs a call on copies of its files, and answers its status."""
    saves = words[0] in faults.SAVING
    with copies.new_room() as room:
        held = copies.Copies(room)
        given = [words[0], *words[1:]]
        for at, (kind, word) in enumerate(zip(mistakes.FORMS[words[0]].split(), words[1:]), 1):
            if kind in mistakes.NAMES:
                given[at] = held.take(kind, word, words[0] != "format")
        if saves and not keep:
            tell("txflash", "no image is written or changed; with --keep it would be")
        ended = copies.run_on_copies("txflash", given)
        copies.say(held.restore(ended.said))
        why = held.keep("IMAGE") if saves and keep and ended.status == 0 else None
    if why:
        tell("txflash", why)
        return NOT_STARTED
    return ended.status


def refusal(words: Sequence[str], options: Sequence[str]) -> Optional[str]:
    """Why this script does not start the program, if it does not."""
    if "--keep" in options and "--unproved" not in options:
        return "--keep is for --unproved: without that a call keeps its image"
    writes = words[0] == "format" and ("--unproved" not in options or "--keep" in options)
    if writes and "--replace" not in options and is_no_image(words[1]):
        return f"{words[1]} is there and is no image. To replace it: ./txflash --replace format .."
    return None


def main() -> int:
    stop_at_signals()
    words: List[str] = sys.argv[1:]
    options = options_of(words, OPTIONS)
    if "--version" in options:
        print(f"txflash {version()}")
        return 0
    if "--help" in options or "--help" in words and words[0] in mistakes.FORMS:
        print(table(), end="")
        return 0
    if not words:
        tell_text(table())
        return 1
    bad = mistakes.why_words(words)
    if bad and ("--unproved" in options or proved_program("txflash") is None):
        # Nothing is proved for words that the program refuses.
        tell("txflash", f"bad words: {bad}; ./txflash --help has the table of words")
        return 1
    why = None if bad else refusal(words, options)
    if why:
        tell("txflash", why)
        return NOT_STARTED
    begun = time.time()
    if "--unproved" in options:
        status = run_on_copies(words, "--keep" in options)
    else:
        status = start(built_program("txflash"), words)
    explain(status, words, begun)
    end(status)
