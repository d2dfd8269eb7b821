#!/usr/bin/env python3
"""The laws of a sound image by their definitions (docs/design.md, 'Sound lists'), and what `explain` must say.

    laws.py IMAGE

says it and ends with the status that the program must end with. Each law is tried over all records and all pairs of
records as its sentence says; nothing is kept in tables but what a definition names."""
import sys
from typing import Dict, Iterator, List, NamedTuple, Optional, Tuple, Union

from image import BPCC, COMPLETE, MAX_FILE, Image, Record, Refused, read_image, read_spare

Pages = Tuple[Optional[bytes], ...]


class Placed(NamedTuple):
    """A record with its slot and the bytes of its page."""
    slot: int
    record: Record
    contents: bytes

    def equals(self, other: "Placed") -> bool:
        return self.record == other.record and self.contents == other.contents


class Verdict(NamedTuple):
    committed: bool
    reason: str
    links: List[Tuple[int, int]]


class Broken(NamedTuple):
    law: int
    slot: int


class Records:
    """A list of records that keeps law 1, under a protocol, with what the definitions name."""

    def __init__(self, protocol: int, logical: int, placed: List[Placed]) -> None:
        self.protocol, self.logical, self.placed = protocol, logical, placed
        self.by_page: Dict[int, List[Record]] = {}
        for it in placed:
            self.by_page.setdefault(it.record.page, []).append(it.record)
        self.tops = {page: max(it.version for it in records) for page, records in self.by_page.items()}
        self.currents: Dict[int, int] = {}

    def of_page(self, page: int) -> List[Record]:
        return self.by_page.get(page, [])

    def newest(self, page: int) -> int:
        return self.tops.get(page, 0)

    def present(self, page: int, version: int) -> bool:
        return any(it.version == version for it in self.of_page(page))

    def record(self, page: int, version: int) -> Record:
        return next(it for it in self.of_page(page) if it.version == version)

    def next_older(self, page: int, version: int) -> int:
        return max((it.version for it in self.of_page(page) if it.version < version), default=0)

    def mention(self, page: int) -> int:
        own = [it.record.version for it in self.placed if it.record.page == page]
        named = [it.record.link_version for it in self.placed if it.record.link_page == page]
        return max(own + named, default=0)

    def straddlers(self, page: int, version: int) -> List[Record]:
        return [it for it in self.of_page(page) if it.back < version < it.version]

    def verdict(self, page: int) -> Verdict:
        """The walk from the newest record of a page that has one."""
        start = page, self.newest(page)
        record, links = self.record(*start), []
        for _ in range(self.logical + 1):
            links.append(record.link)
            page, version = record.link
            newest = self.newest(page)
            if version > newest:
                return Verdict(False, "absent", links)
            if version < newest:
                straddlers = self.straddlers(page, version) if self.protocol == BPCC else []
                if straddlers:
                    return Verdict(False, f"straddled {max(it.version for it in straddlers)}", links)
                return Verdict(True, "passed", links)
            if record.link == start:
                return Verdict(True, "cycle", links)
            record = self.record(page, version)
        raise ValueError("a walk without an end, which law 3 excludes")

    def current(self, page: int) -> int:
        if page not in self.currents:
            self.currents[page] = self.find_current(page)
        return self.currents[page]

    def find_current(self, page: int) -> int:
        newest = self.newest(page)
        if newest == 0 or self.verdict(page).committed:
            return newest
        return self.record(page, newest).back if self.protocol == BPCC else self.next_older(page, newest)

    def is_current(self, record: Record) -> bool:
        return record.version == self.current(record.page)

    def is_loose(self, record: Record) -> bool:
        return record.version > self.current(record.page)

    def responsible(self, loose: Record) -> Optional[Record]:
        """The record with the greatest version up to the current one that straddles the link of a loose record."""
        page, version = loose.link
        current = self.current(page)
        if version >= current:
            return None
        found = [it for it in self.straddlers(page, version) if it.version <= current]
        return max(found, key=lambda it: it.version, default=None)

    def held(self) -> List[Record]:
        if self.protocol != BPCC:
            return []
        return [it for it in (self.responsible(r.record) for r in self.placed if self.is_loose(r.record)) if it]

    def comes_to_absent(self, record: Record) -> bool:
        """Whether following links over present records comes to an absent name."""
        met = set()
        while self.present(*record.link):
            if record.link in met:
                return False
            met.add(record.link)
            record = self.record(*record.link)
        return True

    def returns_after(self, record: Record) -> int:
        """After how many links over present records a record's name comes back first, 0 for never."""
        start, links, met = record.name, 1, set()
        while record.link != start:
            if record.link in met or not self.present(*record.link):
                return 0
            met.add(record.link)
            record, links = self.record(*record.link), links + 1
        return links

    def wanted(self) -> List[Record]:
        """The current and the held records."""
        held = set(self.held())
        return [it.record for it in self.placed if self.is_current(it.record) or it.record in held]

    def array(self) -> Pages:
        found: Dict[int, Optional[bytes]] = {}
        for it in self.placed:
            if self.is_current(it.record):
                found.setdefault(it.record.page, None if it.record.discard else it.contents)
        return tuple(found.get(page) for page in range(self.logical))


def first_slot(slots: Iterator[int]) -> Optional[int]:
    return min(slots, default=None)


def keeps_law_2(it: Placed, earlier: List[Placed], records: Records) -> bool:
    return all(it.equals(other) for other in earlier if other.record.name == it.record.name)


def keeps_law_3(it: Placed, earlier: List[Placed], records: Records) -> bool:
    return all(other.record.name == it.record.name for other in earlier if other.record.link == it.record.link)


def keeps_law_4(it: Placed, earlier: List[Placed], records: Records) -> bool:
    page, version = it.record.name
    current = records.current(page)
    return version != records.newest(page) or current == 0 or records.present(page, current)


def keeps_law_5(it: Placed, earlier: List[Placed], records: Records) -> bool:
    page, version = it.record.link
    if not records.is_current(it.record):
        return True
    return version <= records.current(page) and not (records.protocol == BPCC and records.straddlers(page, version))


def keeps_law_6(it: Placed, earlier: List[Placed], records: Records) -> bool:
    if records.protocol != BPCC or not records.is_loose(it.record):
        return True
    page, version = it.record.link
    current = records.current(page)
    if it.record.back != records.current(it.record.page) or version == current:
        return False
    return version > current or records.responsible(it.record) is not None


def keeps_law_7(it: Placed, earlier: List[Placed], records: Records) -> bool:
    return records.protocol != BPCC or not records.is_loose(it.record) or records.comes_to_absent(it.record)


def keeps_law_9(it: Placed, records: Records) -> bool:
    record = it.record
    if any(other.record.name == record.link and other.record.count != record.count for other in records.placed):
        return False
    return record.count == 0 or records.returns_after(record) in (0, record.count)


LAWS = {2: keeps_law_2, 3: keeps_law_3, 4: keeps_law_4, 5: keeps_law_5, 6: keeps_law_6, 7: keeps_law_7}


def scan(image: Image) -> Union[Records, Broken]:
    """Law 1, and the records where it is kept."""
    config, placed = image.config, []
    for slot, (state, cell) in enumerate(image.slots):
        if state != COMPLETE:
            continue
        record = read_spare(cell[config.page_bytes:], config.protocol)
        if isinstance(record, str) or record.page >= config.logical or record.link_page >= config.logical:
            return Broken(1, slot)
        placed.append(Placed(slot, record, cell[:config.page_bytes]))
    return Records(config.protocol, config.logical, placed)


def is_removable(records: Records, wanted: List[Record], block: int, pages_per_block: int) -> bool:
    outside = {it.record for it in records.placed if it.slot // pages_per_block != block}
    return all(it in outside for it in wanted)


def read_records(image: Image) -> Union[Records, Broken]:
    """The records of a sound image, or the first law that is broken."""
    records = scan(image)
    if isinstance(records, Broken):
        return records
    for law, keeps in LAWS.items():
        for place, it in enumerate(records.placed):
            if not keeps(it, records.placed[:place], records):
                return Broken(law, it.slot)
    config, wanted = image.config, records.wanted()
    blocks = range(config.blocks_per_die * config.dies)
    if not any(is_removable(records, wanted, block, config.pages_per_block) for block in blocks):
        return Broken(8, 0)
    miscounted = first_slot(it.slot for it in records.placed if not keeps_law_9(it, records))
    return records if miscounted is None else Broken(9, miscounted)


def verdict_line(records: Records, page: int) -> str:
    verdict = records.verdict(page)
    links = [f"{q}:{k}" for q, k in verdict.links[:16]]
    more = [f"more {len(verdict.links) - 16}"] if len(verdict.links) > 16 else []
    word = "committed" if verdict.committed else "uncommitted"
    return " ".join([f"verdict {page} newest {records.newest(page)} {word} {verdict.reason}",
                     f"current {records.current(page)} walk", *links, *more])


def report(records: Records) -> str:
    lines = [verdict_line(records, page) for page in range(records.logical) if records.newest(page)]
    return "".join(f"{it}\n" for it in [*lines, f"explained {len(lines)}"])


class Reading(NamedTuple):
    """What an image is: status and text of `explain`, and its records where it is sound."""
    status: int
    said: str
    image: Optional[Image]
    records: Optional[Records]


def read(data: bytes, name: str) -> Reading:
    if len(data) > MAX_FILE:
        return Reading(9, f"file too long {name}\n", None, None)
    image = read_image(data)
    if isinstance(image, Refused):
        return Reading(3, f"bad image: {image.words}\n", None, None)
    records = read_records(image)
    if isinstance(records, Broken):
        return Reading(7, f"unsound law {records.law} slot {records.slot}\n", image, None)
    return Reading(0, report(records), image, records)


def main() -> int:
    if len(sys.argv) != 2:
        print(__doc__, file=sys.stderr)
        return 1
    with open(sys.argv[1], "rb") as file:
        reading = read(file.read(), sys.argv[1])
    sys.stdout.write(reading.said)
    return reading.status


if __name__ == "__main__":
    sys.exit(main())
