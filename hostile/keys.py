"""Key scripts and images with pages of keys by seed, and whether what `keys` prints and saves can be
(docs/formats.md)."""
import random
from typing import Dict, List, NamedTuple, Optional, Tuple, Union

import findings
import images
from grammar import MAX_COMMANDS, OUTCOMES, BadLine, read_number, split_lines, split_words
from image import LAST_VERSION, Config
from judge import need
from laws import Pages, Reading, read

Draw = random.Random
Map = Dict[bytes, bytes]
Change = Tuple[bytes, Optional[bytes]]
ENTRY, MOST = 32, 15


class KeyCommand(NamedTuple):
    """`key` is that of a get; a cut has neither changes nor a key."""
    verb: str
    changes: Tuple[Change, ...] = ()
    key: bytes = b""


# Pages of keys.

def bucket(key: bytes, logical: int) -> int:
    value = 0
    for byte in key:
        value = (value * 31 + byte) % 2 ** 32
    return value % logical


def spell_page(entries: Map, page_bytes: int) -> bytes:
    parts = [bytes([len(it)]) + it.ljust(MOST, b"\0") for key in sorted(entries) for it in (key, entries[key])]
    return b"".join(parts).ljust(page_bytes, b"\0")


def read_page(data: bytes, page: int, logical: int) -> Optional[Map]:
    """The entries of a page, which has one spelling."""
    found: Map = {}
    for at in range(0, len(data) // ENTRY * ENTRY, ENTRY):
        size, other = data[at], data[at + 16]
        if size == 0:
            break
        if size > MOST or other > MOST:
            return None
        key = data[at + 1:at + 1 + size]
        if bucket(key, logical) != page or key in found:
            return None
        found[key] = data[at + 17:at + 17 + other]
    return found if spell_page(found, len(data)) == data else None


def map_of(array: Pages, config: Config) -> Union[Map, int]:
    """The map that an array shows, or the least page that is no page of keys."""
    found: Map = {}
    for page, contents in enumerate(array):
        entries = read_page(contents or bytes(config.page_bytes), page, config.logical)
        if entries is None:
            return page
        found.update(entries)
    return found


# Scripts.

def read_digits(word: bytes) -> Optional[bytes]:
    if not 2 <= len(word) <= 2 * MOST or len(word) % 2 or word.translate(None, b"0123456789abcdefABCDEF"):
        return None
    return bytes.fromhex(word.decode())


def read_change(word: bytes) -> Optional[Change]:
    parts = word.split(b"=")
    key = read_digits(parts[0]) if len(parts) == 2 else None
    if key is None:
        return None
    if parts[1] in (b"~", b"-"):
        return key, None if parts[1] == b"~" else b""
    value = read_digits(parts[1])
    return None if value is None else (key, value)


def read_command(words: List[bytes]) -> Optional[KeyCommand]:
    verb, rest = words[0], words[1:]
    if verb == b"put":
        changes = [read_change(it) for it in rest]
        return None if None in changes else KeyCommand("put", tuple(it for it in changes if it))
    if verb == b"get" and len(rest) == 1:
        key = read_digits(rest[0])
        return None if key is None else KeyCommand("get", (), key)
    if verb == b"cut" and len(rest) == 2 and read_number(rest[0]) and rest[1].decode("latin-1") in OUTCOMES:
        return KeyCommand("cut")
    return None


def parse(data: bytes) -> Union[List[KeyCommand], BadLine]:
    commands: List[KeyCommand] = []
    for number, line in enumerate(split_lines(data), 1):
        words = split_words(line)
        if not words or words[0].startswith(b"#"):
            continue
        command = read_command(words)
        if command is None or len(commands) == MAX_COMMANDS:
            return BadLine(number)
        commands.append(command)
    return commands


# The map machine over the maps that there may be.

class Machine:
    def __init__(self, reading: Reading, entries: Map) -> None:
        assert reading.image and reading.records
        self.config, self.maps = reading.image.config, [entries]
        self.mentions = {page: reading.records.mention(page) for page in range(self.config.logical)}
        self.armed = 0

    def pages(self, changes: Tuple[Change, ...]) -> List[int]:
        return sorted({bucket(key, self.config.logical) for key, _ in changes})

    def refusal(self, entries: Map, changes: Tuple[Change, ...]) -> Optional[str]:
        """The first refusal but the last one."""
        keys = [key for key, _ in changes]
        if not keys:
            return "refused empty"
        for at, key in enumerate(keys):
            if key in keys[:at]:
                return f"refused repeated {key.hex()}"
        pages, after = self.pages(changes), put(entries, changes)
        if len(pages) > self.config.pending:
            return f"refused wide {len(pages)}"
        for page in pages:
            if ENTRY * sum(bucket(it, self.config.logical) == page for it in after) > self.config.page_bytes:
                return f"refused bucket {page}"
        return None

    def serve(self, command: KeyCommand, reply: str) -> None:
        if command.verb == "cut":
            need(reply == "armed", f"{reply} in place of armed")
            self.armed += 1
            return
        if reply == "cut":
            need(self.armed > 0, "a cut that nobody armed")
            self.armed -= 1
        left: List[Map] = []
        for entries in self.maps:
            for it in self.get(entries, command.key, reply) if command.verb == "get" else \
                    self.put(entries, command.changes, reply):
                if it not in left:
                    left.append(it)
        need(bool(left), f"{reply} after {command}")
        self.maps = left
        if command.verb == "put" and not reply.startswith("refused"):
            for page in self.pages(command.changes):
                self.mentions[page] += 1

    def get(self, entries: Map, key: bytes, reply: str) -> List[Map]:
        value = entries.get(key)
        said = f"absent {key.hex()}" if value is None else f"value {key.hex()} {value.hex() or '-'}"
        return [entries] if reply in (said, "cut") else []

    def put(self, entries: Map, changes: Tuple[Change, ...], reply: str) -> List[Map]:
        refusal = self.refusal(entries, changes)
        if refusal:
            return [entries] if reply in (refusal, "cut") else []
        if reply == "cut":
            return [entries, put(entries, changes)]
        spent = [page for page in self.pages(changes) if self.mentions[page] >= LAST_VERSION]
        if spent and reply == f"refused spent {spent[0]}":
            return [entries]
        return [put(entries, changes)] if reply == f"stored {len(changes)}" else []


def put(entries: Map, changes: Tuple[Change, ...]) -> Map:
    after = dict(entries)
    for key, value in changes:
        if value is None:
            after.pop(key, None)
        else:
            after[key] = value
    return after


# What is drawn.

def draw_bytes(draw: Draw, least: int) -> bytes:
    size = draw.choice((1, 1, 1, 2, 3, MOST)) if least else draw.choice((0, 1, 2, MOST))
    return bytes(draw.choice((0, 1, 97, 98, 255)) for _ in range(size))


def draw_keys(draw: Draw) -> List[bytes]:
    return [draw_bytes(draw, 1) for _ in range(draw.choice((draw.randint(1, 12), draw.randint(1, 12), 60)))]


def draw_pages(draw: Draw, config: Config, keys: List[bytes]) -> List[Optional[bytes]]:
    """An array that shows some of these keys; a few pages are spoiled."""
    by_page: Dict[int, Map] = {}
    for key in keys:
        held = by_page.setdefault(bucket(key, config.logical), {})
        if draw.random() < 0.6 and ENTRY * (len(held) + 1) <= config.page_bytes:
            held[key] = draw_bytes(draw, 0)
    pages: List[Optional[bytes]] = []
    for page in range(config.logical):
        held = by_page.get(page, {})
        blank = not held and draw.random() < 0.7
        pages.append(None if blank else spell_page(held, config.page_bytes))
    if draw.random() < 0.25:
        page = draw.randrange(config.logical)
        data = bytearray(pages[page] or bytes(config.page_bytes))
        data[draw.choice((0, 1, 15, 16, 17, 31, len(data) - 1, draw.randrange(len(data)))) % len(data)] ^= draw.choice(
            (1, 2, 16, 255))
        pages[page] = bytes(data)
    return pages


def draw_image(draw: Draw, keys: List[bytes]) -> bytes:
    if draw.random() < 0.1:
        return images.draw_image(draw.randrange(10 ** 9), 0).data
    config = images.small_config(draw)._replace(page_bytes=draw.choice((16, 32, 64, 64, 96)))
    return findings.with_array(draw, config, tuple(draw_pages(draw, config, keys)))


def draw_script(draw: Draw, keys: List[bytes]) -> bytes:
    lines = []
    for _ in range(draw.randint(0, 14)):
        how = draw.random()
        if how < 0.15:
            lines.append(f"cut {draw.randint(1, 6)} {draw.choice(OUTCOMES)}")
        elif how < 0.45:
            lines.append(f"get {draw.choice(keys).hex()}")
        else:
            put_keys = [draw.choice(keys) for _ in range(draw.choice((0, 1, 1, 2, 2, 3, 5)))]
            if draw.random() < 0.1:  # many, of which at most one comes twice
                put_keys = draw.sample(sorted(set(keys)), len(set(keys))) + draw.sample(keys, draw.choice((0, 0, 1)))
            words = [f"{it.hex()}={draw.choice(('~', '~', '-', draw_bytes(draw, 1).hex()))}" for it in put_keys]
            lines.append(" ".join(["put", *words]))
        if draw.random() < 0.03:
            last = lines[-1]
            lines[-1] = draw.choice((last + " x", last.upper(), last[:-1], "get " + "00" * 16, "put 61=1", "get ",
                                     "# " + last, "", "fault 1 all", last.replace("=", "==")))
    return ("\n".join(lines) + draw.choice(("", "\n", "\r\n"))).encode()


# What is wrong with a run.

def check_keys(data: bytes, script: bytes, status: int, said: str, left: bytes) -> str:
    """What kind of run it is; `Wrong` where it can't be."""
    reading, commands = read(data, "d.img"), parse(script)
    wanted: Optional[Tuple[int, str]] = None
    shown: Union[Map, int] = {}
    if reading.status == 3:
        wanted = 3, reading.said
    elif isinstance(commands, BadLine):
        wanted = 4, f"bad line {commands.number}\n"
    elif reading.status:
        wanted = reading.status, reading.said
    else:
        assert reading.image and reading.records
        shown = map_of(reading.records.array(), reading.image.config)
        if isinstance(shown, int):
            wanted = 11, f"bad bucket {shown}\n"
    if wanted:
        need((status, said) == wanted, f"{status} {said!r} in place of {wanted}")
        need(left == data, "the image has changed")
        return f"status {status}"
    assert isinstance(shown, dict) and not isinstance(commands, BadLine)
    replies = said.split("\n")[:-1]
    need(status == 0 and len(replies) == len(commands), f"status {status}, {len(replies)} replies")
    machine = Machine(reading, shown)
    for command, reply in zip(commands, replies):
        machine.serve(command, reply)
    after = read(left, "d.img")
    need(after.status == 0 and after.image is not None, f"the saved image: {after.said}")
    assert after.image and after.records and reading.image
    need(after.image.config == reading.image.config, "another configuration is saved")
    need(after.image.extras == reading.image.extras, "other retired blocks are saved")
    need(map_of(after.records.array(), after.image.config) in machine.maps, "another map is saved")
    return "status 0"
