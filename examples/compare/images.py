"""The slots of an image file, as `docs/formats.md` has it."""
from __future__ import annotations

import struct
from typing import List, NamedTuple, Optional

from shape import HEADER_BYTES, SPARE_BYTES, Problem, Shape

BLANK, COMPLETE, DAMAGED = 0, 1, 2
RECORD = struct.Struct("<4sBBHIIQQ")


class Record(NamedTuple):
    """What a spare area says: the version of a page, and the version of the page that it links to."""

    page: int
    version: int
    link_page: int
    link_version: int

    def mentions_below(self, page: int, version: int) -> bool:
        """Whether one of its two mentions is of the page, below that version."""
        return (self.page == page and self.version < version) or (
            self.link_page == page and self.link_version < version
        )


class Slot(NamedTuple):
    state: int
    record: Optional[Record]
    """None where the slot is blank or does not read."""


def record_of(spare: bytes) -> Optional[Record]:
    mark, _, _, _, page, link_page, version, link_version = RECORD.unpack_from(spare)
    return Record(page, version, link_page, link_version) if mark == b"TXFR" else None


def read_slots(image: bytes, shape: Shape) -> List[Slot]:
    """The slots of an image of a device of this shape."""
    if len(image) != shape.image_bytes:
        raise Problem(f"the image has {len(image)} bytes, and that of such a device {shape.image_bytes}")
    cell = shape.page_bytes + SPARE_BYTES
    states = image[HEADER_BYTES : HEADER_BYTES + shape.slots]
    first = HEADER_BYTES + shape.slots + shape.page_bytes
    spares = (image[first + slot * cell : first + slot * cell + SPARE_BYTES] for slot in range(shape.slots))
    return [Slot(state, record_of(spare) if state == COMPLETE else None) for state, spare in zip(states, spares)]


def erased_blocks(before: List[Slot], after: List[Slot], shape: Shape) -> List[int]:
    """The blocks in which a slot that was written is blank or holds another record."""
    return sorted(
        {
            slot // shape.block
            for slot, (old, new) in enumerate(zip(before, after))
            if old.state != BLANK and new != old and new.state != DAMAGED
        }
    )
