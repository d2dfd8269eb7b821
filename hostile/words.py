"""Hostile words of the command line by seed, and what the program must say to them (docs/manual.md, docs/formats.md).

`format` is compared byte for byte; `drive` with the summary of the replies that `run` or `try` gives to the same
commands, which are drawn here once more."""
import random
from typing import List, NamedTuple, Optional

from grammar import read_number
from image import BPCC, DEFAULT, MOST_ALLOWED, SCC, Config, Extras, blank_image, broken_rule, spell_image

Draw = random.Random
MAX_COUNT, MAX_START = 100000, 2 ** 64 - 1
PROTOCOLS = {"scc": SCC, "bpcc": BPCC}


class Wanted(NamedTuple):
    """Status and text, and what the image file holds afterwards where it is written."""
    status: int
    said: str
    image: Optional[bytes] = None


BAD_WORDS = Wanted(1, "bad words\n")


def wanted_format(words: List[str]) -> Wanted:
    """What `format IMAGE ..` must do; `words` are those behind `format`."""
    if len(words) not in (8, 9) or not words[0] or words[1] not in PROTOCOLS:
        return BAD_WORDS
    numbers = [read_number(it.encode()) for it in words[2:]]
    found = [it for it in numbers if it is not None]
    if len(found) != len(numbers):
        return BAD_WORDS
    config, allowance = Config(PROTOCOLS[words[1]], *found[:6]), sum(found[6:])
    rule = broken_rule(config) or ("allowance" if allowance > MOST_ALLOWED else None)
    if rule:
        return Wanted(8, f"bad configuration: {rule}\n")
    image = blank_image(config)._replace(extras=Extras(allowance))
    return Wanted(0, f"formatted {words[0]} {config.slots}\n", spell_image(image))


def near(draw: Draw, value: int, edges: List[int]) -> int:
    return max(0, draw.choice([value] * 8 + [value - 1, value + 1, draw.choice(edges)]))


def draw_format(draw: Draw, image: str) -> List[str]:
    """The numbers of a device near the limits of each rule."""
    page = near(draw, 16 * draw.choice((1, 1, 2, 8)), [0, 8, 4096, 4112, 2 ** 32 - 1])
    pages = near(draw, draw.choice((2, 3, 4, 16)), [0, 1, 256, 257])
    blocks = near(draw, draw.randint(1, 8), [0, 32768, 32769, 2 ** 31])
    dies = near(draw, draw.randint(1, 4), [0, 16, 17, 2 ** 32 - 1])
    room = max(2, pages * (blocks * dies - 1) - 1)
    pending = near(draw, draw.randint(1, min(room, 8)), [0, 256, 257])
    logical = near(draw, draw.choice((max(1, room - pending), 1)), [0, 1, 65536, 2 ** 32 - 1])
    more = [near(draw, draw.choice((0, 1, 5, MOST_ALLOWED)), [MOST_ALLOWED + 1, 2 ** 32 - 1])] * draw.choice((0, 0, 1))
    words = [draw.choice(("scc", "bpcc")), *map(str, (page, pages, blocks, dies, logical, pending, *more))]
    return [image, *spoiled_words(draw, words)]


def spoiled_words(draw: Draw, words: List[str]) -> List[str]:
    """The same words, or one of them another, one more, or one fewer."""
    how, place = draw.random(), draw.randrange(len(words))
    if how < 0.7:
        return words
    if how < 0.8:
        return words[:place] + [words[place].zfill(draw.randint(9, 21))] + words[place + 1:]
    other = draw.choice(("", "-1", "+1", "x", "4294967295", "4294967296", "SCC", "scc ", "0x10", "1.0", "100001",
                         "--help", "18446744073709551615", "18446744073709551616", "\u0661"))
    before, behind = words[:place], words[place + 1:]
    return draw.choice((before + [other] + behind, words + [other], before + behind))


def long_number(word: str, digits: int, most: int) -> Optional[int]:
    if not 1 <= len(word) <= digits or not word.isascii() or not word.isdigit():
        return None
    return int(word) if int(word) <= most else None


class Generated(NamedTuple):
    start: int
    count: int
    protocol: str

    def config(self) -> Config:
        return DEFAULT._replace(protocol=PROTOCOLS[self.protocol])


def read_drive(words: List[str]) -> Optional[Generated]:
    if len(words) != 3 or words[2] not in PROTOCOLS:
        return None
    start, count = long_number(words[0], 20, MAX_START), long_number(words[1], 10, MAX_COUNT)
    return None if start is None or count is None else Generated(start, count, words[2])


def draw_drive(draw: Draw) -> List[str]:
    start = draw.choice((0, 1, MAX_START, draw.randrange(2 ** 64), draw.randrange(1000)))
    return spoiled_words(draw, [str(start), str(draw.choice((0, 1, 2, 10, 50, 200))), draw.choice(("scc", "bpcc"))])


class Numbers:
    """The numbers that a START gives."""

    def __init__(self, start: int) -> None:
        self.state = start

    def draw(self, below: int) -> int:
        self.state = (self.state * 6364136223846793005 + 1442695040888963407) % 2 ** 64
        return (self.state >> 33) % below


def generated_commands(it: Generated) -> List[str]:
    config, numbers = it.config(), Numbers(it.start)
    pages = config.logical
    lines = [line for page in range(pages) for line in (f"write 0 {page}={(page + 1) % 256:02x}", "finish 0")]
    for tag in range(1, it.count + 1):
        count = 1 + numbers.draw(min(3, config.pending, pages))
        first = numbers.draw(pages)
        entries = [f"{(first + k) % pages}={numbers.draw(256):02x}" for k in range(count)]
        lines += transaction(numbers, tag, entries)
    return [*lines, *(f"read {page}" for page in range(pages)), "stats"]


def transaction(numbers: Numbers, tag: int, entries: List[str]) -> List[str]:
    kind, write = numbers.draw(50), " ".join([f"write {tag}", *entries])
    if kind == 0:
        number = 1 + numbers.draw(4)
        outcome = ("none", "all", "bad")[numbers.draw(3)]
        return [f"cut {number} {outcome}", write, f"finish {tag}"]
    if kind <= 5:
        return [write, *([f"step {tag}"] if len(entries) > 1 else []), f"abort {tag}"]
    return [write, f"finish {tag}"]


def summary(it: Generated, commands: int, replies: List[str]) -> str:
    firsts = [line.split(" ")[0] for line in replies]
    counts = " ".join(f"{word} {firsts.count(word)}" for word in ("done", "aborted", "cut", "refused", "unknown"))
    stats = [line.split(" ") for line in replies if line.startswith("stats ")]
    programs, erases = (stats[-1][8], stats[-1][10]) if stats else ("0", "0")
    total = sum(sum(bytes.fromhex(line.split(" ")[2])) for line in replies if line.startswith("page "))
    return (f"drive {it.protocol} start {it.start} count {it.count} commands {commands} {counts} "
            f"programs {programs} erases {erases} sum {total}\n")


OTHERS = (
    [], [""], ["help"], ["--help"], ["--version"], ["Try", "c.txt"], ["try"], ["try", ""], ["try", "c.txt", ""],
    ["run"], ["run", "d.img"], ["run", "", "c.txt"], ["run", "d.img", ""], ["run", "d.img", "c.txt", "x"], ["explain"],
    ["explain", ""], ["explain", "d.img", "d.img"], ["format"], ["drive"], [" try", "c.txt"], ["run", "c.txt"],
    ["save"], ["check"], ["check", "d.img"], ["check", "", "d.img"], ["check", "d.img", "d.img", "d.img"], ["compare"],
    ["compare", "d.img"], ["compare", "d.img", ""], ["compare", "d.img", "d.img", "d.img"],
    ["Compare", "d.img", "d.img"],
    ["retire"], ["retire", "d.img"], ["retire", "", "0"], ["retire", "d.img", "0", "0"], ["retire", "d.img", "x"],
    ["retire", "d.img", "4294967296"], ["retire", "d.img", "00000000000"],
)


def draw_other(draw: Draw) -> List[str]:
    """Words that are those of no row of the table."""
    return list(draw.choice(OTHERS))
