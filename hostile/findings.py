"""Hostile reports and pairs of images by seed, and what `check` and `compare` must say to them (docs/manual.md,
docs/formats.md)."""
import itertools
import random
import re
from typing import Callable, List, NamedTuple, Optional, Tuple

import images
from image import BPCC, MAX_FILE, SCC, Config, Image, Record, blank_image, complete, spell_image
from laws import Broken, Pages, Placed, Reading, Records, read, report, scan

Draw = random.Random


class Finding(NamedTuple):
    status: int
    said: str


# A report and an image.

def lines_of(text: bytes) -> List[bytes]:
    """A line ends with its line feed, which is part of it; bytes behind the last one are a line."""
    return re.findall(rb"[^\n]*\n|[^\n]+$", text)


def first_wrong_line(wanted: bytes, given: bytes) -> int:
    pairs = itertools.zip_longest(lines_of(wanted), lines_of(given))
    return next((number for number, (one, other) in enumerate(pairs, 1) if one != other), 0)


def load_refusal(data: Optional[bytes], name: str) -> Optional[Finding]:
    """Why a file is not loaded."""
    if data is None:
        return Finding(2, f"no file {name}\n")
    return Finding(9, f"file too long {name}\n") if len(data) > MAX_FILE else None


def wanted_check(reading: Reading, text: Optional[bytes], name: str) -> Finding:
    """What `check` says of an image and a report, both of which are loaded before either is read."""
    if reading.status == 9:
        return Finding(9, reading.said)
    refused = load_refusal(text, name)
    if refused or reading.status:
        return refused or Finding(reading.status, reading.said)
    assert text is not None
    if text == reading.said.encode():
        return Finding(0, f"good {len(lines_of(text)) - 1}\n")
    return Finding(12, f"wrong line {first_wrong_line(reading.said.encode(), text)}\n")


WORDS = (b"committed", b"uncommitted", b"cycle", b"passed", b"absent", b"straddled 1", b"straddled 2", b"current",
         b"newest", b"walk", b"verdict", b"explained", b"more 1", b"")


def other_word(draw: Draw, text: bytes) -> bytes:
    """One word is another; a number is often one near it, or spelled in another way."""
    words = re.split(rb"([ \n:])", text)
    at = 2 * draw.randrange((len(words) + 1) // 2)
    word = words[at]
    if word.isdigit() and draw.random() < 0.8:
        near = max(0, int(word) + draw.choice((-1, 1, 10, 2 ** 32)))
        words[at] = draw.choice((b"%d" % near, b"0" + word, b"+" + word, word + b" "))
    else:
        words[at] = draw.choice(WORDS)
    return b"".join(words)


def other_lines(draw: Draw, text: bytes) -> bytes:
    """A line more, one fewer, one twice, or two in the wrong order."""
    lines = lines_of(text)
    one, two = draw.randrange(len(lines)), draw.randrange(len(lines))
    how = draw.randrange(4)
    if how == 0:
        del lines[one]
    elif how == 1:
        lines.insert(two, lines[one])
    elif how == 2:
        lines[one], lines[two] = lines[two], lines[one]
    else:
        lines.insert(one, draw.choice((b"\n", b"\r\n", b"# a comment\n", b"explained 0\n")))
    return b"".join(lines)


def other_bytes(draw: Draw, text: bytes) -> bytes:
    at, byte = draw.randrange(len(text)), bytes([draw.choice((0, 9, 10, 13, 32, 48, 255, draw.randrange(256)))])
    return text[:at] + draw.choice((b"", byte, byte + text[at:at + 1])) + text[at + 1:]


def other_end(draw: Draw, text: bytes) -> bytes:
    how = draw.randrange(4)
    if how == 0:
        return text[:draw.randrange(len(text))]
    if how == 1:
        return text[:-1]
    if how == 2:
        return text + draw.choice((b"\n", b" ", b"\0", b"explained 0\n", text))
    return draw.choice((b"", text.replace(b"\n", b"\r\n"), text.rstrip(b"\n") + b" \n"))


CHANGES: Tuple[Callable[[Draw, bytes], bytes], ...] = (other_word, other_word, other_word, other_lines, other_bytes,
                                                      other_end)


def true_report(image: Image, protocol: int) -> bytes:
    """The report on the records of an image under a protocol, nothing where law 1 or a walk has none."""
    records = scan(image)
    if isinstance(records, Broken):
        return b""
    try:
        return report(Records(protocol, records.logical, records.placed)).encode()
    except ValueError:
        return b""


def draw_report(draw: Draw, reading: Reading) -> Optional[bytes]:
    """The report of this image or of another one, or what is nearly that; a few are not there."""
    how = draw.random()
    if how < 0.02:
        return None
    if reading.image and 0.1 < how < 0.2:
        return true_report(reading.image, SCC + BPCC - reading.image.config.protocol)
    text = reading.said.encode() if reading.status == 0 else b"explained 0\n"
    if how < 0.1:
        other = read(images.sound_image(draw), "")
        return other.said.encode()
    for _ in range(draw.choice((0, 1, 1, 1, 2))):
        text = draw.choice(CHANGES)(draw, text) if text else text
    return text


# Two images.

def wanted_compare(first: Reading, second: Reading) -> Finding:
    """What `compare` says: the first image is read before the second is loaded, and both before one is opened."""
    for it in (first, second):
        if it.status in (2, 3, 9):
            return Finding(it.status, it.said)
    for it in (first, second):
        if it.status == 7:
            return Finding(7, it.said)
    assert first.image and first.records and second.image and second.records
    one, two = first.image.config, second.image.config
    if (one.page_bytes, one.logical) != (two.page_bytes, two.logical):
        return Finding(13, "differ shape\n")
    for page, (here, there) in enumerate(zip(first.records.array(), second.records.array())):
        if here != there:
            return Finding(13, f"differ page {page} {where_differ(here, there)}\n")
    return Finding(0, f"same {one.logical}\n")


def where_differ(here: Optional[bytes], there: Optional[bytes]) -> str:
    if here is None or there is None:
        return "blank"
    return f"at {next(at for at, (a, b) in enumerate(zip(here, there)) if a != b)}"


def reading_of(data: Optional[bytes], name: str) -> Reading:
    return Reading(2, f"no file {name}\n", None, None) if data is None else read(data, name)


def with_array(draw: Draw, config: Config, array: Pages) -> bytes:
    """An image whose array is this one: each page was written by itself, some of them more than once."""
    placed = []
    for page, contents in enumerate(array):
        if contents is not None:
            version = draw.choice((1, 1, 2, 5))
            back = draw.randrange(version) if config.protocol == BPCC else 0
            placed.append(Placed(0, Record(page, version, page, version, back), contents))
    slots = list(blank_image(config).slots)
    free = config.slots - config.pages_per_block
    for slot, it in zip(draw.sample(range(free), len(placed)), placed):
        slots[slot] = complete(config, it.contents, it.record)
    return spell_image(Image(config, slots))


def changed_array(draw: Draw, array: Pages, page_bytes: int) -> Pages:
    """The same array, or one in which a page or two are blank, or hold other bytes."""
    pages = list(array)
    for _ in range(draw.choice((0, 1, 1, 2))):
        page, at = draw.randrange(len(pages)), draw.choice((0, page_bytes - 1, draw.randrange(page_bytes)))
        old = pages[page] or bytes(page_bytes)
        other = old[:at] + bytes([old[at] ^ draw.randrange(1, 256)]) + old[at + 1:]
        pages[page] = draw.choice((None, other, other, bytes(page_bytes)))
    return tuple(pages)


def other_shape(draw: Draw, config: Config) -> Config:
    """Another device: of another protocol or more blocks, a few with one page fewer or greater pages."""
    how = draw.random()
    if how < 0.1 and config.logical > 1:
        return config._replace(logical=config.logical - 1)
    if how < 0.2:
        return config._replace(page_bytes=config.page_bytes + 16)
    return config._replace(protocol=draw.choice((SCC, BPCC)), blocks_per_die=config.blocks_per_die + draw.randrange(3))


def draw_pair(draw: Draw, data: bytes, reading: Reading) -> Tuple[Optional[bytes], str]:
    """An image to compare this one with, and how it was drawn; a few are not there."""
    how = draw.random()
    if how < 0.02:
        return None, "absent"
    if how < 0.1 or not (reading.image and reading.records):
        return images.draw_image(draw.randrange(10 ** 9), 0).data, "any"
    if how < 0.2:
        return data, "itself"
    config = other_shape(draw, reading.image.config)
    array = changed_array(draw, reading.records.array(), reading.image.config.page_bytes)[:config.logical]
    if config.page_bytes != reading.image.config.page_bytes:
        array = tuple(it and it.ljust(config.page_bytes, b"\0") for it in array)
    return with_array(draw, config, array), "written anew"
