"""Hostile images by seed: the same seed and number give the same bytes."""
import random
from typing import Callable, List, NamedTuple, Optional, Tuple

from image import (BLANK, BPCC, COMPLETE, DAMAGED, EXTRAS, HEADER, LAST_VERSION, MOST_ALLOWED, SCC, SPARE, Config,
                   Extras, Image, Record, Slot, blank_image, complete, empty_cell, spell_header, spell_image)
from laws import Placed, Records, read_records, scan

Draw = random.Random


class Drawn(NamedTuple):
    """An image file and the kind of drawing that made it."""
    kind: str
    data: bytes


def small_config(draw: Draw, protocol: Optional[int] = None) -> Config:
    """A device of at most 64 slots, half of the time with no page to spare."""
    while True:
        pages, blocks, dies = draw.randint(2, 4), draw.randint(1, 6), draw.choice((1, 1, 2, 3))
        room = pages * (blocks * dies - 1) - 1
        if room < 2 or pages * blocks * dies > 64:
            continue
        pending = draw.randint(1, min(room - 1, 8))
        logical = room - pending if draw.random() < 0.5 else draw.randint(1, room - pending)
        size = draw.choice((16, 16, 16, 32, 48))
        return Config(protocol or draw.choice((SCC, BPCC)), size, pages, blocks, dies, logical, pending)


def contents(draw: Draw, config: Config) -> bytes:
    return bytes(draw.randrange(256) for _ in range(draw.randint(1, 3))).ljust(config.page_bytes, b"\0")


# A device's history, record by record.

class History:
    """Records as transactions leave them, each written, given up at some page, or done."""

    def __init__(self, draw: Draw, config: Config, done: float = 0.6) -> None:
        self.draw, self.config, self.done = draw, config, done
        self.placed: List[Placed] = []

    def records(self) -> Records:
        return Records(self.config.protocol, self.config.logical, self.placed)

    def transaction(self) -> None:
        draw, config = self.draw, self.config
        count = draw.randint(1, min(4, config.logical, config.pending))
        pages = draw.sample(range(config.logical), count)
        seen = self.records()
        step = draw.choice((1, 1, 1, 2, 3))
        versions = [seen.mention(page) + step for page in pages]
        written = count if draw.random() < self.done else draw.randint(0, count - 1)
        counted = count if draw.random() < 0.7 else 0
        for i in range(written):
            after = (i + 1) % count
            self.clear(pages[i], versions[i])
            back = self.records().current(pages[i]) if config.protocol == BPCC else 0
            discard = counted > 0 and draw.random() < 0.2
            record = Record(pages[i], versions[i], pages[after], versions[after], back, counted, discard)
            self.placed.append(Placed(len(self.placed), record, contents(draw, config)))

    def clear(self, page: int, version: int) -> None:
        """Under Simple Cyclic Commit what must go goes."""
        if self.config.protocol == BPCC:
            return
        seen = self.records()

        def must_go(it: Record) -> bool:
            own = it.page == page and it.version < version
            named = it.link_page == page and it.link_version < version
            return seen.is_loose(it) and (own or named)

        self.placed = [it for it in self.placed if not must_go(it.record)]

    def forget(self) -> None:
        """Some records that are neither current nor held go; some that are loose too."""
        wanted = set(self.records().wanted())
        self.placed = [it for it in self.placed if it.record in wanted or self.draw.random() < 0.6]


def lay_out(draw: Draw, config: Config, placed: List[Placed], copies: float = 0.2, damage: float = 0.1) -> Image:
    """Puts records into random slots, some of them twice, and damages some of the others."""
    items = [it for it in placed for _ in range(2 if draw.random() < copies else 1)]
    order = list(range(config.slots))
    how = draw.random()
    if how < 0.5:
        draw.shuffle(order)
    elif how < 0.6:
        blocks = config.slots // config.pages_per_block
        order.sort(key=lambda slot: (slot % config.pages_per_block, slot // config.pages_per_block % blocks))
    slots = list(blank_image(config).slots)
    for slot, it in zip(order, items):
        slots[slot] = complete(config, it.contents, it.record)
    for slot in order[len(items):]:
        if draw.random() < damage:
            slots[slot] = Slot(DAMAGED, empty_cell(config, DAMAGED))
    return Image(config, slots)


def history_image(draw: Draw) -> Image:
    history = History(draw, small_config(draw))
    for _ in range(draw.choice((0, 1, 2, 4, 7, 10))):
        history.transaction()
        if draw.random() < 0.3:
            history.forget()
    return lay_out(draw, history.config, history.placed)


def changed_record(draw: Draw, config: Config, it: Record) -> Record:
    field = draw.choice(("page", "version", "link_page", "link_version", "link_version", "back", "count", "discard"))
    if field in ("page", "link_page"):
        value = draw.choice((draw.randrange(config.logical), config.logical - 1, config.logical, 2 ** 32 - 1))
    elif field == "count":
        value = draw.choice((it.count + 1, max(1, it.count - 1), 2 * it.count, 1, 256, 257))
    elif field == "discard":
        value = not it.discard
    elif field == "back":
        value = max(0, draw.choice((it.back - 1, it.back + 1, it.version - 1, it.version, 0)))
    else:
        value = max(0, getattr(it, field) + draw.choice((-2, -1, 1, 2)))
    return it._replace(**{field: value})


def broken_history(draw: Draw) -> Image:
    """A history's image with a few records changed, doubled under other bytes, or gone."""
    image = history_image(draw)
    config, slots = image.config, list(image.slots)
    placed = scan_all(image)
    for _ in range(draw.randint(1, 2)):
        if not placed:
            break
        it = draw.choice(placed)
        other = draw.randrange(config.slots)
        how = draw.random()
        if how < 0.6:
            slots[it.slot] = complete(config, it.contents, changed_record(draw, config, it.record))
        elif how < 0.7:
            slots[other] = complete(config, contents(draw, config), it.record)
        elif how < 0.8:
            slots[other] = complete(config, it.contents, changed_record(draw, config, it.record))
        else:
            slots[it.slot] = Slot(DAMAGED, empty_cell(config, DAMAGED))
    return Image(config, slots)


def scan_all(image: Image) -> List[Placed]:
    """The records, none where one does not read."""
    found = scan(image)
    return found.placed if isinstance(found, Records) else []


def near_current(draw: Draw) -> Image:
    """A history's image in which records that are loose or current ask for other links and back versions."""
    while True:
        config = small_config(draw, draw.choice((BPCC, BPCC, SCC)))
        history = History(draw, config._replace(logical=min(config.logical, draw.randint(2, 5))), done=0.35)
        for _ in range(draw.randint(2, 10)):
            history.transaction()
        records = history.records()
        loose = [i for i, it in enumerate(history.placed) if records.is_loose(it.record)]
        current = [i for i, it in enumerate(history.placed) if records.is_current(it.record)]
        if loose and current:
            break
    config, chosen = history.config, draw.choice(loose if draw.random() < 0.6 else current)
    it = history.placed[chosen].record
    page = draw.choice((it.link_page, draw.randrange(config.logical)))
    current, newest = records.current(page), records.newest(page)
    link = {"link_page": page, "link_version": max(1, draw.choice((current, newest, newest + 1, current - 1)))}
    back = {"back": draw.randrange(it.version)} if config.protocol == BPCC else link
    changed = it._replace(**draw.choice((link, link, back)))
    history.placed[chosen] = history.placed[chosen]._replace(record=changed)
    return lay_out(draw, config, history.placed)


# Small sets of records drawn at random.

def wild_image(draw: Draw) -> Image:
    config = small_config(draw)
    pages, versions = draw.randint(1, min(4, config.logical)), draw.randint(1, 4)
    placed: List[Placed] = []
    for _ in range(draw.randint(1, 5)):
        version = draw.randint(1, versions)
        back = draw.randrange(version) if config.protocol == BPCC else 0
        record = Record(draw.randrange(pages), version, draw.randrange(pages), draw.randint(1, versions), back,
                        draw.choice((0, 0, 1, 1, 2, 2, 3)))
        placed.append(Placed(0, record, bytes([draw.choice((0, 0, 0, 1))]).ljust(config.page_bytes, b"\0")))
    if draw.random() < 0.7:
        placed = list({it.record.name: it for it in placed}.values())
    if draw.random() < 0.7:
        placed = list({it.record.link: it for it in placed}.values())
    return lay_out(draw, config, placed, copies=0.1)


def looping_image(draw: Draw) -> Image:
    """Loose records whose links go round: each cycle is broken by a record that straddles it, or nearly so."""
    while True:
        config = small_config(draw, BPCC)
        if config.logical >= 2 and config.slots - config.pages_per_block >= 6:
            break
    count = draw.randint(2, min(4, config.logical))
    pages, version = draw.sample(range(config.logical), count), draw.randint(1, 5)
    records = [Record(pages[i], version, pages[(i + 1) % count], version, draw.choice((0, 0, version - 1)))
               for i in range(count)]
    back = draw.choice((0, version - 1, version - 1, version))
    records.append(Record(pages[-1], version + 1, pages[-1], version + 1, min(back, version)))
    if draw.random() < 0.3:
        records.append(Record(pages[-1], version + 2, pages[0], version + 2, version + 1))
    draw.shuffle(records)
    return lay_out(draw, config, [Placed(0, it, contents(draw, config)) for it in records])


def crowded_image(draw: Draw) -> Image:
    """A record that is wanted in each block, so that none is removable, or all but one of them."""
    while True:
        config = small_config(draw)
        blocks = config.slots // config.pages_per_block
        if config.logical >= blocks:
            break
    chosen = draw.sample(range(config.logical), blocks)
    slots = list(blank_image(config).slots)
    for block, page in enumerate(chosen):
        slot = block * config.pages_per_block + draw.randrange(config.pages_per_block)
        version = draw.randint(1, 3)
        slots[slot] = complete(config, contents(draw, config), Record(page, version, page, version, 0))
    if draw.random() < 0.3:
        source, target = draw.randrange(config.slots), draw.randrange(config.slots)
        if slots[source].state == COMPLETE and slots[target].state == BLANK:
            slots[target] = slots[source]
    return Image(config, slots)


def held_image(draw: Draw) -> Image:
    """A record that is wanted only because it is held, in a block of its own; each other block has a current one."""
    while True:
        config = small_config(draw, BPCC)
        blocks = config.slots // config.pages_per_block
        if 3 <= blocks <= config.logical:
            break
    slots, size = list(blank_image(config).slots), config.pages_per_block
    loose, written, *others = draw.sample(range(config.logical), blocks)
    low, back = draw.randint(1, 4), draw.choice((0, 0, 1))
    held = Record(written, low + 1, written, low + 1, max(0, low - 1 - back))
    order = draw.sample(range(blocks), blocks)
    records = [Record(it, 1, it, 1, 0) for it in others]
    records.append(Record(written, low + 2, written, low + 2, draw.choice((low + 1, low + 1, low))))
    for block, record in zip(order[1:], records):
        slots[block * size + draw.randrange(size)] = complete(config, contents(draw, config), record)
    first = order[0] * size + draw.randrange(size - 1)
    slots[first] = complete(config, contents(draw, config), held)
    slots[first + 1] = complete(config, contents(draw, config), Record(loose, low, written, low, 0))
    free = [i for i, it in enumerate(slots) if it.state == BLANK]
    if draw.random() < 0.3 and free:
        slots[draw.choice(free)] = slots[first]
    return Image(config, slots)


# Changes of bytes.

def base_image(draw: Draw) -> Image:
    return history_image(draw) if draw.random() < 0.8 else wild_image(draw)


def changed_bytes(draw: Draw) -> bytes:
    image = base_image(draw)
    data = bytearray(spell_image(image))
    slots = image.config.slots
    for _ in range(draw.choice((1, 1, 1, 2, 5))):
        where = draw.random()
        if where < 0.2:
            place = draw.randrange(HEADER.size)
        elif where < 0.45:
            place = HEADER.size + draw.randrange(slots)
        elif where < 0.75:
            size = image.config.page_bytes + SPARE
            cell = HEADER.size + slots + draw.randrange(slots) * size
            place = cell + image.config.page_bytes + draw.randrange(SPARE)
        else:
            place = draw.randrange(len(data))
        data[place] = draw.choice((0, 1, 2, 3, 255, data[place] ^ 1 << draw.randrange(8), draw.randrange(256)))
    return bytes(data)


def changed_number(draw: Draw) -> bytes:
    """One of the numbers of the header is another; sometimes the length follows it."""
    image = base_image(draw)
    field = draw.randrange(7)
    numbers = list(image.config)
    near = numbers[field] + draw.choice((-1, 1, 16, -16))
    numbers[field] = max(0, draw.choice((near, 0, 1, draw.randrange(300), 4096, 32768, 2 ** 31, 2 ** 32 - 1))) % 2 ** 32
    config = Config(*numbers)
    data = HEADER.pack(b"TXFLASH1", *numbers, bytes(28)) + spell_image(image)[HEADER.size:]
    if draw.random() < 0.5 and config.file_bytes < 20000:
        data = data[:config.file_bytes].ljust(config.file_bytes, draw.choice((b"\0", b"\xff")))
    return data


def second_magic(draw: Draw) -> bytes:
    """The header says how many blocks may be retired and how many are, sometimes too many or none."""
    data = spell_image(base_image(draw))
    numbers = HEADER.unpack_from(data)[1:-1]
    allowance = draw.choice((0, 1, 2, 515, MOST_ALLOWED, MOST_ALLOWED + 1, draw.randrange(1, MOST_ALLOWED),
                             2 ** 32 - 1))
    retired = draw.choice((0, 0, 1, allowance, allowance, (allowance + 1) % 2 ** 32, draw.randrange(allowance + 1)))
    rest = bytearray(20)
    if draw.random() < 0.15:
        rest[draw.randrange(20)] = draw.choice((1, 255))
    return HEADER.pack(b"TXFLASH2", *numbers, EXTRAS.pack(allowance, retired, bytes(rest))) + data[HEADER.size:]


def retiring_image(draw: Draw) -> bytes:
    """A sound image of which a few blocks may be retired, and none, a few or all of those are."""
    data = sound_image(draw)
    allowance = draw.choice((0, 1, 2, 3, MOST_ALLOWED))
    retired = draw.choice((0, allowance, draw.randrange(allowance + 1)))
    return spell_header(Config(*HEADER.unpack_from(data)[1:-1]), Extras(allowance, retired)) + data[HEADER.size:]


def other_length(draw: Draw) -> bytes:
    data = spell_image(base_image(draw))
    how = draw.random()
    if how < 0.3:
        return data[:draw.randrange(HEADER.size)]
    if how < 0.7:
        return data[:draw.randrange(len(data))]
    return data + bytes(draw.randrange(256) for _ in range(draw.choice((1, 1, 16, 80))))


# The edges of numbers and sizes.

def last_versions(draw: Draw) -> Image:
    """Versions near the last one, and records that name one above it."""
    config = small_config(draw)
    pages = list(range(min(config.logical, 4)))
    placed: List[Placed] = []
    for page in pages:
        version = LAST_VERSION - draw.choice((0, 0, 1, 2, -1 if draw.random() < 0.2 else 3))
        back = draw.choice((0, max(0, version - 1))) if config.protocol == BPCC else 0
        link = draw.choice((page, page, draw.choice(pages)))
        record = Record(page, version, link, draw.choice((version, LAST_VERSION)), back)
        placed.append(Placed(0, record, contents(draw, config)))
    return lay_out(draw, config, placed)


def long_walk(draw: Draw) -> Image:
    """A cycle or a chain of up to 256 pages, for the report's `more`."""
    count = draw.choice((15, 16, 17, 18, 40, 100, 256))
    config = Config(draw.choice((SCC, BPCC)), 16, draw.choice((4, 16)), 40, draw.choice((1, 2)), 300, 16)
    config = config._replace(blocks_per_die=-(-(300 + 16 + 1) // config.pages_per_block // config.dies) + 2)
    config = config._replace(logical=draw.randint(count, 300))
    pages = draw.sample(range(config.logical), count)
    end = draw.choice((1, 1, 2))
    records = [Record(pages[i], 1, pages[(i + 1) % count], 1 if i < count - 1 else end, 0) for i in range(count)]
    if draw.random() < 0.5:
        page = draw.choice(pages)
        records.append(Record(page, 2, page, 2, draw.choice((0, 1)) if config.protocol == BPCC else 0))
    return lay_out(draw, config, [Placed(0, it, contents(draw, config)) for it in records], copies=0.02, damage=0.02)


KINDS: List[Tuple[float, str, Callable[[Draw], object]]] = [
    (0.20, "history", history_image),
    (0.02, "held", held_image),
    (0.18, "broken history", broken_history),
    (0.10, "near current", near_current),
    (0.15, "wild", wild_image),
    (0.03, "looping", looping_image),
    (0.02, "crowded", crowded_image),
    (0.17, "changed bytes", changed_bytes),
    (0.05, "changed number", changed_number),
    (0.08, "second magic", second_magic),
    (0.05, "other length", other_length),
    (0.028, "last versions", last_versions),
    (0.002, "long walk", long_walk),
]


def draw_image(seed: int, number: int) -> Drawn:
    draw = Draw(f"{seed} image {number}")
    weights = [it[0] for it in KINDS]
    _, kind, make = draw.choices(KINDS, weights)[0]
    made = make(draw)
    return Drawn(kind, made if isinstance(made, bytes) else spell_image(made))


def sound_image(draw: Draw) -> bytes:
    """A sound image, for commands."""
    while True:
        image = history_image(draw) if draw.random() < 0.95 else last_versions(draw)
        if isinstance(read_records(image), Records):
            return spell_image(image)
