"""./flash_serve [OPTIONS] IMAGE: serves the lines of standard input on the device of an image file, which stays open.

Where the program is not built yet, or a source is newer than it, this proves and builds it first. Then this process
becomes the program, so that a signal to it is one to the program: its statuses are the program's own, or 125 where none
was started. FLASH_SERVE_PROGRAM may name a built program."""
import os
import signal
import sys
from typing import List, NoReturn

from notes import tell, tell_text
from programs import MANUAL, NOT_STARTED, built_program, options_of, version

USAGE = f"""flash_serve is a live flash disk: an image file stays open, and each line of the input is answered at once.

    ./flash_serve [OPTIONS] IMAGE      prints `serving`, and then the reply to each line that asks for one

    --version, --help

The lines are those of a command file. What was answered is durable. The end of the input closes the image; where a
session was killed, ./flash_serve IMAGE </dev/null makes an image file of it again.
The manual is {MANUAL}, 'A live device'.
"""
OPTIONS = ("--help", "--version", "--unproved")


def become(path: str, words: List[str]) -> NoReturn:
    """Goes on as a program, on this script's own input, outputs and open files."""
    for number in (signal.SIGPIPE, signal.SIGXFSZ):
        signal.signal(number, signal.SIG_DFL)
    try:
        os.execv(path, [path, *words])
    except OSError as error:
        tell("flash_serve", f"{path}: {error.strerror}")
    sys.exit(NOT_STARTED)


def main() -> int:
    words = sys.argv[1:]
    options = options_of(words, OPTIONS)
    if "--version" in options:
        print(f"flash_serve {version()}")
        return 0
    if "--help" in options:
        print(USAGE, end="")
        return 0
    if "--unproved" in options:
        tell("flash_serve", "there is no --unproved: rt try reads all input before it starts a program")
        return NOT_STARTED
    if not words:
        tell_text(USAGE)
        return 1
    if len(words) != 1 or not words[0]:
        tell("flash_serve", f"one image is wanted, and {len(words)} named; ./flash_serve --help has the words")
        return 1
    become(built_program("flash_serve"), words)
