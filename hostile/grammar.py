"""The command file of docs/formats.md: the commands of a file, or the number of its first bad line."""
from typing import List, NamedTuple, Optional, Tuple, Union

MAX_COMMANDS = 65536
MAX_ENTRIES = 262144
MAX_NUMBER = 2 ** 32 - 1
OUTCOMES = ("none", "all", "bad")
TAGGED = ("step", "finish", "abort")
BARE = ("stepall", "collect", "stats", "explain")

# A page and its contents, none where it is discarded.
Entry = Tuple[int, Optional[bytes]]
Entries = Tuple[Entry, ...]


class Command(NamedTuple):
    """`number` is the page, the tag or the count of the command, 0 where it has none."""
    verb: str
    number: int = 0
    entries: Entries = ()
    outcome: str = ""


class BadLine(NamedTuple):
    number: int


def split_lines(data: bytes) -> List[bytes]:
    lines = data.split(b"\n")
    if lines[-1] == b"":
        lines.pop()
    return [it[:-1] if it.endswith(b"\r") else it for it in lines]


def split_words(line: bytes) -> List[bytes]:
    return [it for it in line.replace(b"\t", b" ").split(b" ") if it]


def read_number(word: bytes) -> Optional[int]:
    if not 1 <= len(word) <= 10 or not word.isdigit():
        return None
    number = int(word)
    return number if number <= MAX_NUMBER else None


def read_contents(word: bytes, page_bytes: int) -> Optional[bytes]:
    if word == b"-":
        return bytes(page_bytes)
    if len(word) % 2 or not 2 <= len(word) <= 2 * page_bytes:
        return None
    if word.translate(None, b"0123456789abcdefABCDEF"):
        return None
    return bytes.fromhex(word.decode("ascii")).ljust(page_bytes, b"\0")


def read_entry(word: bytes, page_bytes: int) -> Optional[Entry]:
    parts = word.split(b"=")
    if len(parts) != 2:
        return None
    page = read_number(parts[0])
    if parts[1] == b"~":
        return None if page is None else (page, None)
    contents = read_contents(parts[1], page_bytes)
    return None if page is None or contents is None else (page, contents)


def read_command(words: List[bytes], page_bytes: int) -> Optional[Command]:
    """The command of a line that has words and is no comment."""
    verb, rest = words[0].decode("latin-1"), words[1:]
    if verb in BARE:
        return None if rest else Command(verb)
    number = read_number(rest[0]) if rest else None
    if number is None:
        return None
    if verb == "write":
        entries = [read_entry(it, page_bytes) for it in rest[1:]]
        return None if None in entries else Command(verb, number, tuple(it for it in entries if it))
    if verb == "read" or verb in TAGGED:
        return Command(verb, number) if len(rest) == 1 else None
    if number == 0:
        return None
    if verb == "badread":
        return Command(verb, number) if len(rest) == 1 else None
    if verb in ("cut", "fault") and len(rest) == 2 and rest[1].decode("latin-1") in OUTCOMES:
        return Command(verb, number, (), rest[1].decode("latin-1"))
    return None


def parse(data: bytes, page_bytes: int) -> Union[List[Command], BadLine]:
    commands, entries = [], 0
    for number, line in enumerate(split_lines(data), 1):
        words = split_words(line)
        if not words or words[0].startswith(b"#"):
            continue
        command = read_command(words, page_bytes)
        if command is None or len(commands) == MAX_COMMANDS:
            return BadLine(number)
        entries += len(command.entries)
        if entries > MAX_ENTRIES:
            return BadLine(number)
        commands.append(command)
    return commands
