#!/usr/bin/env python3
"""examples.py: compares the files of examples/scripts, and what docs/manual.md shows of calls, with the cases of the
program `cases`, which has the files under the names examples/NAME. It prints a line for each thing that differs, and
then the status is 1. `transcripts.py` gives the calls of the manual to the built program.

In the manual an answer stands behind its command, in the same indented block or in the next one. The replies to a file
of the examples may stand beside its commands (`sides`)."""

import os
import re
import sys
from typing import Dict, Iterator, List, Optional, Set, Tuple

TOP = os.path.dirname(os.path.dirname(os.path.abspath(__file__)))
CASES = "crates/cases/data/cases.txt"
MANUAL = "docs/manual.md"
SCRIPTS = "examples/scripts"
SESSION = "crates/flash_serve"

Lines = List[str]
# A call by its kind and its words, and what it says in each place where the cases have it.
Call = Tuple[str, str]
Calls = Dict[Call, List[Lines]]


def read_lines(name: str) -> Lines:
    """The lines of a file of the repository."""
    with open(f"{TOP}/{name}", encoding="utf-8") as file:
        return file.read().splitlines()


def whole_line(text: str) -> str:
    """What a line of a case says: `..` at its end stands for thirty zeros."""
    return text[:-2] + "0" * 30 if text.endswith("..") else text


def read_cases() -> Tuple[Dict[str, List[Lines]], Calls]:
    """The files of the cases, each with the texts that it has there, and the calls, each with the texts it says."""
    files: Dict[str, List[Lines]] = {}
    calls: Calls = {}
    told: Lines = []
    for line in read_lines(CASES):
        kind, _, rest = line.partition(" ")
        if kind == "file":
            told = []
            files.setdefault(rest, []).append(told)
        elif kind in ("call", "view"):
            told = []
            words = rest.partition(" ")[2]
            calls.setdefault((kind, words), []).append(told)
        elif kind == ">" or kind.startswith("<"):
            told.append(rest if kind == ">" else whole_line(rest))
    return files, calls


def compare_examples(files: Dict[str, List[Lines]]) -> Iterator[str]:
    """A line for each file of the examples that is not in the cases as it is."""
    for name in sorted(os.listdir(f"{TOP}/{SCRIPTS}")):
        in_cases = f"examples/{name}"
        if in_cases not in files:
            yield f"{SCRIPTS}/{name}: no case has this file"
        elif any(text != read_lines(f"{SCRIPTS}/{name}") for text in files[in_cases]):
            yield f"{SCRIPTS}/{name}: a case has another text"


def blocks(lines: Lines) -> Iterator[Tuple[int, str, Lines]]:
    """The indented blocks of a document: the number of the first line, the text since the block before, the block."""
    before: Lines = []
    block: Lines = []
    for number, line in enumerate([*lines, "end"]):
        if line.startswith("    "):
            block.append(line[4:])
        elif block:
            yield number - len(block) + 1, " ".join(before).strip(), block
            before, block = [line], []
        else:
            before.append(line)


def asked_in(text: str) -> Optional[Call]:
    """The last call that a text or a command asks for, if there is one."""
    found = re.findall(r"\./(txflash|flash_view|flash_serve) ([^`<>\n]+)", text)
    if found:
        program, words = found[-1]
        return {"txflash": "call", "flash_view": "view", "flash_serve": "live"}[program], words.strip()
    found = re.findall(rf"Example, `({SCRIPTS}/[\w-]+\.txt)`", text)
    return ("call", f"try {found[-1]}") if found else None


def in_cases(asked: Optional[Call]) -> Optional[Call]:
    """A call as the cases make it."""
    return asked and (asked[0], asked[1].replace(f"{SCRIPTS}/", "examples/"))


def is_command(line: str) -> bool:
    """Whether a line of the manual is one for a shell."""
    return re.match(r"\./|cp |printf |python3 ", line) is not None


def turns(block: Lines) -> List[Tuple[str, Lines]]:
    """The commands of a block for a shell, each with the lines behind it, which it prints."""
    found: List[Tuple[str, Lines]] = []
    for line in block:
        if is_command(line):
            found.append((line, []))
        else:
            found[-1][1].append(line)
    return found


def sides(block: Lines) -> Tuple[Lines, Lines]:
    """The lines of a file of the examples, and the replies beside them. A reply stands two blanks or more behind its
    command. A reply of several lines goes on in lines that begin with two blanks."""
    lines: Lines = []
    replies: Lines = []
    for line in block:
        command, _, reply = (line, "", "") if line.startswith("#") else line.partition("  ")
        lines += [command] if command else []
        replies += [reply.strip()] if reply else []
    return lines, replies


def is_beside(block: Lines) -> bool:
    """Whether a block is a file of the examples with replies beside its commands."""
    return block[0].startswith("#") and sides(block)[1] != []


def differs_in_answer(answer: Lines, asked: Optional[Call], calls: Calls) -> Optional[str]:
    """What is not so of an answer to a call, if anything. No case has a live device."""
    if asked and asked[0] == "live":
        return None
    asked = in_cases(asked)
    if asked not in calls:
        return f"no case calls {' '.join(asked or ['it'])}"
    return None if answer in calls[asked] else f"no case says this after {' '.join(asked)}"


def differs_in_session(block: Lines) -> Optional[str]:
    """What is not so of a session with a live device, if anything: the crate of the program has one that begins so."""
    lines, replies = sides(block)
    wanted = read_lines(f"{SESSION}/stdin")[1:len(lines)], read_lines(f"{SESSION}/stdout")[1:len(replies) + 1]
    return None if wanted == (lines[1:], replies) else f"the session of {SESSION} begins otherwise"


def differs_beside(block: Lines, asked: Optional[Call], calls: Calls) -> Optional[str]:
    """What is not so of a file of the examples with replies beside its commands, if anything."""
    if asked and asked[0] == "live":
        return differs_in_session(block)
    name = asked[1].split()[-1] if asked else ""
    if not os.path.isfile(f"{TOP}/{name}"):
        return "no call that serves these commands stands before"
    lines, replies = sides(block)
    return f"this is not {name}" if read_lines(name) != lines else differs_in_answer(replies, asked, calls)


def differs(block: Lines, before: str, asked: Optional[Call], is_answer: bool, calls: Calls,
            said: Set[str]) -> Optional[str]:
    """What is not so of a block, if anything: that it is a file of the examples, or an answer."""
    if is_beside(block):
        return differs_beside(block, asked, calls)
    named = re.findall(rf"`(?:{SCRIPTS}/)?([\w-]+\.txt)`", before)
    if block[0].startswith("#") and named:
        name = f"{SCRIPTS}/{named[-1]}"
        return None if read_lines(name) == block else f"this is not {name}"
    if is_answer:
        return differs_in_answer(block, asked, calls)
    # What the script says of a mistake is no word of the program.
    missing = [line for line in block if line not in said and not line.startswith("txflash: ")]
    return f"no case says {missing[0]}" if missing else None


def compare_manual(calls: Calls) -> Iterator[str]:
    """A line for each answer and file of the manual that the cases do not have."""
    said = {line for texts in calls.values() for text in texts for line in text}
    asked, command = None, ""
    for number, before, block in blocks(read_lines(MANUAL)):
        inline = asked_in(before)
        asked = inline or asked
        if is_command(block[0]):
            for command, answer in turns(block):
                asked = asked_in(command)
                wrong = answer and not command.startswith("python3 ") and differs_in_answer(answer, asked, calls)
                if wrong:
                    yield f"{MANUAL}, line {number}: {wrong}"
            command = "" if answer else command
            continue
        # What a script of another folder prints is no answer of the programs.
        if inline is None and command.startswith("python3 "):
            continue
        is_answer = inline is not None or before == "It says" or command != "" and before == ""
        wrong = differs(block, before, asked, is_answer, calls, said)
        if wrong:
            yield f"{MANUAL}, line {number}: {wrong}"
        command = ""


def main() -> int:
    files, calls = read_cases()
    found = [*compare_examples(files), *compare_manual(calls)]
    for line in found:
        print(line)
    return 1 if found else 0


if __name__ == "__main__":
    sys.exit(main())
