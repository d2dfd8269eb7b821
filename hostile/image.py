"""The image file and the record of docs/formats.md, both ways."""
import struct
from typing import List, NamedTuple, Optional, Tuple, Union

SCC, BPCC = 1, 2
PROTOCOLS = {SCC: "scc", BPCC: "bpcc"}
BLANK, COMPLETE, DAMAGED = 0, 1, 2
LAST_VERSION = 2 ** 62
MAX_FILE = 134217728
MAX_SLOTS = 65536
SPARE = 64
HEADER = struct.Struct("<8s7I28s")
EXTRAS = struct.Struct("<2I20s")
MOST_ALLOWED = 1024
RECORD = struct.Struct("<4sBBHIIQQQI20s")
MOST_PAGES = 256


class Config(NamedTuple):
    protocol: int
    page_bytes: int
    pages_per_block: int
    blocks_per_die: int
    dies: int
    logical: int
    pending: int

    @property
    def slots(self) -> int:
        return self.pages_per_block * self.blocks_per_die * self.dies

    @property
    def file_bytes(self) -> int:
        return 64 + self.slots * (65 + self.page_bytes)

    def words(self) -> List[str]:
        return [PROTOCOLS[self.protocol], *map(str, self[1:])]


DEFAULT = Config(SCC, 16, 4, 4, 2, 20, 7)


class Record(NamedTuple):
    page: int
    version: int
    link_page: int
    link_version: int
    back: int
    count: int = 0
    discard: bool = False

    @property
    def name(self) -> Tuple[int, int]:
        return self.page, self.version

    @property
    def link(self) -> Tuple[int, int]:
        return self.link_page, self.link_version


class Slot(NamedTuple):
    """What a slot holds; `cell` is its contents and its spare area."""
    state: int
    cell: bytes


class Extras(NamedTuple):
    """How many blocks may be retired, and how many are."""
    allowance: int = 0
    retired: int = 0


class Image(NamedTuple):
    config: Config
    slots: List[Slot]
    extras: Extras = Extras()


class Refused(NamedTuple):
    """The words behind `bad image: `."""
    words: str


def broken_rule(config: Config) -> Optional[str]:
    """The first rule that a configuration breaks, as the word behind `bad configuration: `."""
    rules = (
        ("page", config.page_bytes % 16 == 0 and 16 <= config.page_bytes <= 4096),
        ("pages", 2 <= config.pages_per_block <= 256),
        ("blocks", 1 <= config.blocks_per_die <= 32768),
        ("dies", 1 <= config.dies <= 16),
        ("slots", config.slots <= MAX_SLOTS and config.file_bytes <= MAX_FILE),
        ("logical", config.logical >= 1),
        ("pending", 1 <= config.pending <= 256),
        ("space", config.logical + config.pending + 1 <= config.slots - config.pages_per_block),
    )
    return next((word for word, holds in rules if not holds), None)


def read_extras(magic: bytes, rest: bytes) -> Union[Extras, Refused]:
    """What the rest of a header says of retired blocks."""
    if magic == b"TXFLASH1":
        return Refused("reserved") if any(rest) else Extras()
    allowance, retired, reserved = EXTRAS.unpack(rest)
    if any(reserved):
        return Refused("reserved")
    if not 1 <= allowance <= MOST_ALLOWED or retired > allowance:
        return Refused("allowance")
    return Extras(allowance, retired)


def read_header(data: bytes) -> Union[Tuple[Config, Extras], Refused]:
    if len(data) < HEADER.size:
        return Refused("short")
    magic, *numbers, rest = HEADER.unpack_from(data)
    config = Config(*numbers)
    if magic not in (b"TXFLASH1", b"TXFLASH2"):
        return Refused("magic")
    if config.protocol not in PROTOCOLS:
        return Refused("protocol")
    extras = read_extras(magic, rest)
    if isinstance(extras, Refused):
        return extras
    if broken_rule(config):
        return Refused("config")
    if len(data) != config.file_bytes:
        return Refused("length")
    return config, extras


def read_image(data: bytes) -> Union[Image, Refused]:
    """The image, or the first rule that is broken."""
    header = read_header(data)
    if isinstance(header, Refused):
        return header
    config, extras = header
    states = data[HEADER.size:HEADER.size + config.slots]
    for slot, state in enumerate(states):
        if state not in (BLANK, COMPLETE, DAMAGED):
            return Refused(f"state {slot}")
    size, begin = config.page_bytes + SPARE, HEADER.size + config.slots
    slots = [Slot(state, data[begin + i * size:begin + (i + 1) * size]) for i, state in enumerate(states)]
    for slot, (state, cell) in enumerate(slots):
        if state != COMPLETE and cell != empty_cell(config, state):
            return Refused(f"bytes {slot}")
    return Image(config, slots, extras)


def empty_cell(config: Config, state: int) -> bytes:
    return (b"\xff" if state == BLANK else b"\x00") * (config.page_bytes + SPARE)


def spell_image(image: Image) -> bytes:
    return (spell_header(image.config, image.extras) + bytes(it.state for it in image.slots)
            + b"".join(it.cell for it in image.slots))


def spell_header(config: Config, extras: Extras = Extras()) -> bytes:
    if extras.allowance == 0:
        return HEADER.pack(b"TXFLASH1", *config, bytes(28))
    return HEADER.pack(b"TXFLASH2", *config, EXTRAS.pack(*extras, bytes(20)))


def blank_image(config: Config) -> Image:
    return Image(config, [Slot(BLANK, empty_cell(config, BLANK))] * config.slots)


def read_spare(spare: bytes, protocol: int) -> Union[Record, str]:
    """The record of a spare area, or the first error of the table."""
    mark, form, of, flags, page, link_page, version, link_version, back, count, rest = RECORD.unpack(spare)
    if mark != b"TXFR":
        return "Mark"
    if form not in (1, 2):
        return "Format"
    if of != protocol:
        return "Protocol"
    if flags > form - 1:
        return "Flags"
    if not (1 <= version <= LAST_VERSION and 1 <= link_version <= LAST_VERSION):
        return "Version"
    if (back != 0) if protocol == SCC else (back >= version):
        return "Back"
    if form == 2 and not 1 <= count <= MOST_PAGES:
        return "Count"
    if any(rest) or (form == 1 and count != 0):
        return "Rest"
    return Record(page, version, link_page, link_version, back, count, flags == 1)


def spell_spare(record: Record, protocol: int) -> bytes:
    return RECORD.pack(b"TXFR", 2 if record.count else 1, protocol, int(record.discard), record.page, record.link_page,
                       record.version, record.link_version, record.back, record.count, bytes(20))


def complete(config: Config, contents: bytes, record: Record) -> Slot:
    padded = contents + bytes(config.page_bytes - len(contents))
    return Slot(COMPLETE, padded + spell_spare(record, config.protocol))
