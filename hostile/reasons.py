#!/usr/bin/env python3
"""The reasons that ./txflash gives for a bad line or bad words, against the built program.

    reasons.py [EXE] [--files N] [--words N] [--seed S] [--alone] [--room FOLDER]

N files of commands or key scripts, and N lists of words, are drawn by seed; many have one of the mistakes that users
make. `tools/mistakes.py` must name the line that the program names, and has a reason exactly where the program says
`bad line` or `bad words`. With --alone no program is asked: lines are compared with `grammar.py` and `keys.py` only."""
import argparse
import os
import random
import sys
from typing import Callable, Dict, List, NamedTuple, Optional, Tuple

import commands
import grammar
import keys
import words as drawn_words
from image import DEFAULT, SCC, Config, blank_image, spell_image
from program import MEMORY, TOP, Program, found_program, new_folder, program_argument, write_file

sys.path.append(os.path.join(TOP, "tools"))

import mistakes  # noqa: E402

IMAGE, COMMANDS = "d.img", "c.txt"
WIDE = Config(SCC, 64, 4, 4, 2, 20, 7)
Draw = random.Random

# Mistakes that users make, each in the bytes of a file.
USUAL: Tuple[Callable[[bytes], bytes], ...] = (
    lambda it: b"\xef\xbb\xbf" + it,
    lambda it: it.decode("latin-1").encode("utf-16"),
    lambda it: it.decode("latin-1").encode("utf-16-le"),
    lambda it: it.replace(b"\n", b"\r"),
    lambda it: it.replace(b"\n", b"\r\n"),
    lambda it: it.replace(b"\n", b"\n\r\r\n", 1),
    lambda it: it.replace(b" ", b"\xc2\xa0", 1),
    lambda it: it.replace(b"\n", b" # a comment\n", 1),
    lambda it: it.replace(b"=", b" = ", 1),
    lambda it: it.replace(b"=", b"= ", 1),
    lambda it: it.replace(b"=", b"=0x", 1),
    lambda it: it.replace(b" ", b" 0x", 1),
    lambda it: it.replace(b" ", b",", 1),
    lambda it: it.replace(b"\n", b";\n", 1),
    lambda it: it.upper(),
    lambda it: it + b"cut 0 all\n",
    lambda it: b"put 61=62\n" + it,
    lambda it: b"write 1 0=41\n" + it,
    lambda it: b"get 616\n" + it,
    lambda it: b"\x89PNG\r\n" + it,
    lambda it: spell_image(blank_image(DEFAULT)) + it,
)


class Call(NamedTuple):
    """A call that reads a file of lines, and what they mean to it."""
    words: List[str]
    forms: Dict[str, str]
    page_bytes: int
    wanted: Optional[int]


def draw_file(draw: Draw, number: int) -> Tuple[bytes, Call]:
    """A file of lines, and a call that reads it. `wanted` is its first bad line for the readings of this folder."""
    how = draw.random()
    if how < 0.3:
        data = keys.draw_script(draw, keys.draw_keys(draw))
    elif how < 0.31:
        data = commands.script_at_limits(draw, DEFAULT)
    else:
        data = commands.draw_commands(draw, DEFAULT, number + 12).data
    if draw.random() < 0.6:
        data = draw.choice(USUAL)(data)
    if how < 0.3 or draw.random() < 0.05:
        parsed: object = keys.parse(data)
        call = Call(["keys", IMAGE, COMMANDS], mistakes.KEY_COMMANDS, WIDE.page_bytes, None)
    else:
        words, page_bytes = draw.choice(((["try", COMMANDS], 16), (["run", IMAGE, COMMANDS], WIDE.page_bytes)))
        parsed = grammar.parse(data, page_bytes)
        call = Call(words, mistakes.COMMANDS, page_bytes, None)
    return data, call._replace(wanted=parsed.number if isinstance(parsed, grammar.BadLine) else None)


def line_said(program: Program, call: Call) -> Optional[int]:
    """The bad line that the program names, if it names one."""
    ended = program.run(call.words)
    said = ended.said.decode("latin-1").split("\n")[0].split(" ")
    return int(said[2]) if ended.status == 4 and said[:2] == ["bad", "line"] else None


def try_files(program: Optional[Program], count: int, seed: int) -> List[str]:
    """Compares the first bad line of so many files, and says what differs."""
    differ = []
    for number in range(count):
        data, call = draw_file(random.Random(f"{seed} reasons {number}"), number)
        write_file(IMAGE, spell_image(blank_image(WIDE)))
        write_file(COMMANDS, data)
        mistake = mistakes.first_mistake(data, call.forms, call.page_bytes)
        line = mistake.number if mistake else None
        said = line_said(program, call) if program else call.wanted
        if not line == said == call.wanted:
            differ.append(f"file {number}, {call.words[0]}: line {line} here, {said} said, {call.wanted} wanted")
    return differ


SOME_WORDS = ("d.img", "c.txt", "", "0", "1", "7", "scc", "bpcc", "SCC", "16", "16k", "0x10", "-1", "100001", "--help",
              "4294967296", "00000000001", "try", "format", "1.0", "18446744073709551616")


def draw_words(draw: Draw) -> List[str]:
    """The words of a call, or nearly so. No file that they name is there."""
    how = draw.random()
    if how < 0.3:
        return ["format", *drawn_words.draw_format(draw, IMAGE)]
    if how < 0.5:
        return ["drive", *drawn_words.draw_drive(draw)]
    if how < 0.7:
        return drawn_words.draw_other(draw)
    verb = draw.choice((*mistakes.FORMS, "Try", "help", " run"))
    count = draw.choice((len(mistakes.FORMS.get(verb, "A").split()),) * 3 + (0, 1, 2, 3, 10))
    return [verb, *(draw.choice(SOME_WORDS) for _ in range(count))]


def try_words(program: Program, count: int, seed: int) -> List[str]:
    """Compares whether so many lists of words are refused, and says what differs."""
    differ = []
    for number in range(count):
        for name in os.listdir("."):
            os.remove(name)
        words = draw_words(random.Random(f"{seed} words {number}"))
        ended, why = program.run(words), mistakes.why_words(words)
        if (ended.status == 1) != (why is not None) or ended.status == 1 and ended.said != b"bad words\n":
            differ.append(f"words {words}: status {ended.status}, and the reason {why}")
    return differ


def main() -> int:
    parser = argparse.ArgumentParser(description=__doc__, formatter_class=argparse.RawDescriptionHelpFormatter)
    program_argument(parser)
    parser.add_argument("--files", type=int, default=3000)
    parser.add_argument("--words", type=int, default=1000)
    parser.add_argument("--seed", type=int, default=1)
    parser.add_argument("--alone", action="store_true")
    parser.add_argument("--room", default=MEMORY)
    args = parser.parse_args()
    program = None if args.alone else Program(found_program(args.program))
    with new_folder("reasons-", args.room):
        differ = try_files(program, args.files, args.seed)
        differ += try_words(program, args.words, args.seed) if program else []
    for line in differ[:20]:
        print(f"reasons: {line}")
    count = args.words if program else 0
    print(f"reasons: seed {args.seed}: {args.files} files, {count} lists of words: {len(differ)} differ")
    return 1 if differ else 0


if __name__ == "__main__":
    sys.exit(main())
