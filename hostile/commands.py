"""Hostile command files by seed: the same seed and number give the same bytes."""
import random
from typing import Dict, List, NamedTuple

from grammar import MAX_COMMANDS, MAX_ENTRIES
from image import Config

Draw = random.Random
OUTCOMES = ("none", "all", "bad")


class Drawn(NamedTuple):
    kind: str
    data: bytes


class Script:
    """Commands that a host could give, with arms among them."""

    def __init__(self, draw: Draw, config: Config) -> None:
        self.draw, self.config = draw, config
        self.open: Dict[int, List[int]] = {}
        self.lines: List[str] = []
        # Few pages in use make more rewrites and overlaps.
        self.pages = draw.sample(range(config.logical), draw.randint(1, min(6, config.logical)))
        self.arms = draw.choice((0.0, 0.05, 0.15, 0.3))
        self.errors = draw.choice((0.02, 0.02, 0.2))

    def page(self) -> int:
        if self.draw.random() < self.errors / 4:
            return self.draw.choice((self.config.logical, self.config.logical + 1, 2 ** 32 - 1))
        return self.draw.choice(self.pages)

    def tag(self) -> int:
        known = list(self.open)
        return self.draw.choice(known) if known and self.draw.random() > self.errors else self.draw.randint(0, 5)

    def contents(self) -> str:
        if self.draw.random() < 0.15:
            return "~"
        size = self.draw.choice((0, 1, 1, 1, 2, self.config.page_bytes))
        return bytes(self.draw.randrange(256) for _ in range(size)).hex() or "-"

    def write(self) -> None:
        taken = [it for pages in self.open.values() for it in pages]
        free = [it for it in self.pages if it not in taken]
        room = min(4, len(free), self.config.pending - len(taken))
        tags = [it for it in range(6) if it not in self.open]
        if room > 0 and tags and self.draw.random() > self.errors:
            tag, pages = self.draw.choice(tags), self.draw.sample(free, self.draw.randint(1, room))
            self.open[tag] = pages
        else:
            tag, pages = self.draw.randint(0, 5), [self.page() for _ in range(self.draw.randint(0, 4))]
        self.lines.append(" ".join([f"write {tag}", *(f"{it}={self.contents()}" for it in pages)]))

    def doubt(self) -> None:
        """A fault at what may be the last page, and then a command that finds out what is there."""
        if not self.open:
            return
        tag = self.tag()
        count = self.draw.randint(1, len(self.open.get(tag, [0])))
        self.lines += [f"fault {count} {self.draw.choice(OUTCOMES)}", f"finish {tag}"]
        if self.draw.random() < 0.5:
            self.command()
        self.lines.append(f"{self.draw.choice(('abort', 'finish', 'step'))} {tag}")
        self.open.pop(tag, None)

    def arm(self) -> None:
        outcome, number = self.draw.choice(OUTCOMES), self.draw.choice((1, 1, 2, 2, 3, 4, 6, 9))
        verb = self.draw.choice((f"cut {number} {outcome}", f"fault {number} {outcome}", f"badread {number}"))
        self.lines.append(verb)

    def arm_between_stats(self) -> None:
        """A break with `stats` before and behind it, so that it is known where it has to come."""
        self.lines.append("stats")
        self.arm()
        self.write()
        last = self.draw.choice((f"finish {self.tag()}", f"finish {self.tag()}", "stepall", "collect"))
        self.lines += [last, "stats"]

    def go_on(self) -> None:
        if self.draw.random() < 0.25:
            self.lines.append("stepall")
            if self.draw.random() < 0.3:
                self.open.clear()
            return
        tag, how = self.tag(), self.draw.random()
        verb = "step" if how < 0.45 else "finish" if how < 0.85 else "abort"
        self.lines.append(f"{verb} {tag}")
        if verb != "step" or self.draw.random() < 0.4:
            self.open.pop(tag, None)

    def command(self) -> None:
        draw = self.draw
        if draw.random() < self.arms:
            draw.choice((self.doubt, self.doubt, self.arm_between_stats, self.arm, self.arm, self.arm))()
            return
        how = draw.random()
        if how < 0.25 or how < 0.7 and not self.open:
            self.write()
        elif how < 0.7:
            self.go_on()
        elif how < 0.85:
            self.lines.append(f"read {self.page()}")
        elif how < 0.91:
            self.lines.append("collect")
        elif how < 0.97:
            self.lines.append("stats")
        else:
            self.lines.append("explain")

    def look(self) -> None:
        """All pages that are in use, and the device."""
        self.lines += [f"read {it}" for it in self.pages]
        self.lines += self.draw.choice(([], ["stats"], ["explain"], ["collect"], ["stats", "explain"]))


def script(draw: Draw, config: Config) -> List[str]:
    it = Script(draw, config)
    for _ in range(draw.choice((1, 4, 10, 20, 20, 40, 80))):
        it.command()
    if draw.random() < 0.7:
        it.look()
    return it.lines


def script_in_grammar(draw: Draw, config: Config) -> bytes:
    """Commands as the grammar allows them: zeros lead, blanks and comments stand between, lines end in several ways."""
    lines = script(draw, config)
    if draw.random() < 0.5:
        return "".join(f"{it}\n" for it in lines).encode()
    out = []
    for line in lines:
        words = [it if draw.random() < 0.9 else loosened_word(draw, it) for it in line.split(" ")]
        line = draw.choice((" ", " ", "\t", "  \t")).join(words)
        line = draw.choice(("", "", " ", "\t")) + line + draw.choice(("", "", " ", "\t "))
        out.append(line + draw.choice(("\n", "\n", "\r\n")))
        if draw.random() < 0.1:
            out.append(draw.choice(("\n", "\r\n", " \t\n", "# a comment\n", "#\r\n", " #write\n")))
    text = "".join(out)
    return (text[:-1] if draw.random() < 0.3 else text).encode()


def loosened_word(draw: Draw, word: str) -> str:
    """The same number or contents, written otherwise."""
    if word.isdigit():
        return word.zfill(draw.randint(len(word), 10))
    page, equals, contents = word.partition("=")
    return page.zfill(draw.randint(len(page), 10)) + equals + contents.upper() if equals else word


SPOILS = (
    lambda draw, word: word + word[:1],
    lambda draw, word: word[1:],
    lambda draw, word: word.upper(),
    lambda draw, word: word.capitalize(),
    lambda draw, word: "-" + word,
    lambda draw, word: "+" + word,
    lambda draw, word: word + "=",
    lambda draw, word: "=" + word,
    lambda draw, word: word.replace("=", "=="),
    lambda draw, word: word.replace("=", "=0"),
    lambda draw, word: word.replace("=", " = "),
    lambda draw, word: word.replace("=", "=--"),
    lambda draw, word: word.replace("=", "=~"),
    lambda draw, word: word + "g",
    lambda draw, word: word + "\0",
    lambda draw, word: word + "\x0b",
    lambda draw, word: "\r" + word,
    lambda draw, word: word + "\r\r",
    lambda draw, word: word + " 1",
    lambda draw, word: "",
    lambda draw, word: "4294967296",
    lambda draw, word: "00000000001",
    lambda draw, word: "0",
    lambda draw, word: "1e3",
    lambda draw, word: "0x10",
    lambda draw, word: draw.choice(("none", "all", "bad", "write", "drop", "fire", "#")),
    lambda draw, word: word[:-1] + chr(draw.randrange(256)),
)


def spoiled_script(draw: Draw, config: Config) -> bytes:
    lines = script(draw, config) or ["stats"]
    for _ in range(draw.choice((1, 1, 1, 2))):
        place = draw.randrange(len(lines))
        words = lines[place].split(" ")
        chosen = draw.randrange(len(words))
        words[chosen] = draw.choice(SPOILS)(draw, words[chosen])
        if draw.random() < 0.1:
            words.append("7=" + "ab" * (config.page_bytes + draw.choice((-1, 0, 1))))
        lines[place] = " ".join(words)
    return "".join(f"{it}\n" for it in lines).encode("latin-1", "replace")


def any_bytes(draw: Draw, config: Config) -> bytes:
    how, size = draw.random(), draw.choice((0, 1, 3, 10, 60, 400))
    if how < 0.4:
        return bytes(draw.randrange(256) for _ in range(size))
    if how < 0.7:
        return bytes(draw.choice(b"readwritstpfnhbocku 0123456789=-#\n\n\r\t") for _ in range(size))
    data = bytearray(script_in_grammar(draw, config))
    for _ in range(draw.choice((1, 1, 2, 4))):
        if data:
            data[draw.randrange(len(data))] = draw.choice((0, 9, 10, 13, 32, 35, 45, 61, draw.randrange(256)))
    return bytes(data)


def script_at_limits(draw: Draw, config: Config) -> bytes:
    """As many commands or entries as a file may have, one fewer, or one more."""
    more = draw.choice((-1, 0, 0, 1, 1, 40))
    if draw.random() < 0.5:
        line = draw.choice(("stats\n", "read 0\n", "write 1\n", "step 7\n", "badread 1\n", "#\nabort 0\n"))
        return (line * (MAX_COMMANDS + more) + draw.choice(("", "#\n\n", "x\n"))).encode()
    width = draw.choice((64, 256, 1024, 8192))
    line = "write 1" + " 0=00" * width + "\n"
    rest = "write 1" + " 0=-" * (width + more) + "\n"
    return (line * (MAX_ENTRIES // width - 1) + rest + draw.choice(("", "write 2\n", "write 2 0=01\n", "x\n"))).encode()


KINDS = (
    (0.50, "in the grammar", script_in_grammar),
    (0.33, "spoiled", spoiled_script),
    (0.1695, "bytes", any_bytes),
    (0.0005, "at the limits", script_at_limits),
)


def draw_commands(draw: Draw, config: Config, number: int) -> Drawn:
    """The first few are at the limits, so that a short sweep has some of these too."""
    _, kind, make = draw.choices(KINDS, [it[0] for it in KINDS])[0] if number >= 12 else KINDS[-1]
    return Drawn(kind, make(draw, config))


def draw_script(draw: Draw, config: Config) -> bytes:
    """A file in the grammar."""
    return script_in_grammar(draw, config)
