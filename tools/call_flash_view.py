"""./flash_view [OPTIONS] IMAGE: draws the flash of an image file as text, or in SVG, with the program flash_view.

Where the program is not built yet, or a source is newer than it, this proves and builds it first. With --color auto,
which is what holds where nothing is said, text has colours on a terminal alone; a picture in SVG has its own, and a
refusal has none. The status is the program's, 1 without an image, or 125 where no program was started.
FLASH_VIEW_PROGRAM may name a built program."""
import os
import re
import subprocess
import sys
from typing import List, NamedTuple, Optional, Sequence

import copies
import faults
from notes import tell, tell_text
from programs import MANUAL, built_program, end, proved_program, start, stop_at_signals, version

USAGE = f"""flash_view draws the flash of an image file of txflash: a row for each block, and why its newest records
count or do not.

    ./flash_view [OPTIONS] IMAGE

    --svg                       draws in SVG, for a browser
    --block N, --page N         lists the slots of a block, or those with records of a page, in place of a picture
    --loose                     lists those with loose records, and with records that are held for them
    --unsound                   also draws an image whose records contradict each other
    --color always|never|auto   colours in text; auto, as without it, on a terminal alone
    --unproved                  needs no proof where the program is not built
    --version, --help

Options stand in any order; what stands behind -- is a name. The manual is {MANUAL}, 'A picture of a flash'.
"""

# What is coloured in a row of cells, and in any line, by the escape for it.
CELLS = ((r"(?<= )current\b", "32"), (r"(?<= )loose\b", "33"), (r"(?<= )stale\b", "2"), (r"(?<= )held\b", "36"),
         (r"(?<=\|)blank\b", "2"), (r"(?<=\|)damaged\b", "31"), (r"(?<= )!", "1;31"))
STARTS = ((r"^spare", "34"), (r"^unsound", "1;31"))

# A row of letters, and the escapes for these.
ROW = re.compile(r"((?:block|spare) [0-9 ]{5}| {11})([.!xclsCLS]+)\n?")
LETTERS = {"c": "32", "l": "33", "s": "2", "x": "31", "!": "1;31"}


class Asked(NamedTuple):
    """What the words ask for. `form` has the words for a form of its own, and `wrong` says what is wrong."""
    options: List[str]
    names: List[str]
    color: str = "auto"
    wrong: Optional[str] = None
    form: Sequence[str] = ()


def asked_for(words: Sequence[str]) -> Asked:
    """Reads the words: options in any order, and names."""
    options: List[str] = []
    names: List[str] = []
    forms: List[List[str]] = []
    color = "auto"
    rest = list(words)
    while rest:
        word = rest.pop(0)
        if word == "--":
            names += rest
            break
        if word == "--color" or word.startswith("--color="):
            color = word[8:] if "=" in word else rest.pop(0) if rest else ""
            if color not in ("always", "never", "auto"):
                return Asked(options, names, color, "--color wants always, never or auto")
        elif word in ("--svg", "--loose"):
            forms.append([word])
        elif word in ("--block", "--page") or word.startswith(("--block=", "--page=")):
            option, behind, number = word.partition("=")
            forms.append([option, number if behind else rest.pop(0) if rest else ""])
        elif word in ("--unsound", "--unproved", "--version", "--help"):
            options.append(word)
        elif word.startswith("--"):
            return Asked(options, names, color, f"there is no option {word}; a name may stand behind --")
        else:
            names.append(word)
    wrong = None if len(names) == 1 else f"one image is wanted, and {len(names) or 'none'} named"
    if len(forms) > 1:
        wrong = "one of --svg, --block, --page and --loose is wanted at most"
    return Asked(options, names, color, wrong, sum(forms[:1], []))


def painted_text(text: str) -> str:
    """A picture as text with colours."""
    def paint_letters(found: "re.Match[str]") -> str:
        return f"\x1b[{LETTERS[found[0][0].lower()]}m{found[0]}\x1b[0m"

    def paint(line: str) -> str:
        row = ROW.fullmatch(line)
        if row:
            line = row[1] + re.sub(r"[cC]+|[lL]+|[sS]+|x+|!", paint_letters, row[2]) + line[row.end(2):]
        for pattern, code in (CELLS if "|" in line else ()) + STARTS:
            line = re.sub(pattern, lambda it, code=code: f"\x1b[{code}m{it[0]}\x1b[0m", line)
        return line
    return "".join(map(paint, text.splitlines(keepends=True)))


def is_on_terminal() -> bool:
    """Whether colours are wanted where nothing is said."""
    return sys.stdout is not None and sys.stdout.isatty() and not os.environ.get("NO_COLOR")


def draw(asked: Asked, words: Sequence[str]) -> int:
    """Runs the program, and answers its status."""
    colored = "--svg" not in asked.form and (asked.color == "always" or asked.color == "auto" and is_on_terminal())
    if "--unproved" in asked.options and proved_program("flash_view") is None:
        with copies.new_room() as room:
            held = copies.Copies(room)
            ended = copies.said_by_try("flash_view", [*words[:-1], held.take("IMAGE", words[-1])])
            said = held.restore(ended.said)
        status = ended.status
    elif colored:
        done = subprocess.run([built_program("flash_view"), *words], stdout=subprocess.PIPE, check=False)
        status, said = done.returncode, done.stdout
    else:
        return start(built_program("flash_view"), words)
    copies.say(painted_text(said.decode("latin-1")).encode("latin-1") if colored and status == 0 else said)
    return status


def main() -> int:
    stop_at_signals()
    asked = asked_for(sys.argv[1:])
    if "--version" in asked.options:
        print(f"flash_view {version()}")
        return 0
    if "--help" in asked.options:
        print(USAGE, end="")
        return 0
    if not sys.argv[1:]:
        tell_text(USAGE)
        return 1
    if asked.wrong:
        tell("flash_view", f"{asked.wrong}; ./flash_view --help has the words")
        return 1
    status = draw(asked, [*asked.form, *(it for it in ["--unsound"] if it in asked.options), *asked.names])
    if status == 5:
        tell("flash_view", faults.why_not_read(asked.names[0]) or faults.why_not_said() or
             "what failed cannot be seen any more")
    end(status)
