"""The shape of a device: the numbers that `format` takes."""
from __future__ import annotations

from dataclasses import dataclass
from typing import List

MOST_SLOTS = 65536
HEADER_BYTES, SPARE_BYTES = 64, 64
PROTOCOLS = ("scc", "bpcc")


class Problem(Exception):
    """What is wrong with an input, in a sentence that tells what to do."""


@dataclass(frozen=True)
class Shape:
    page_bytes: int
    block: int
    """The slots of a block."""
    blocks: int
    """The blocks of a die."""
    dies: int
    logical: int
    """The pages that a host has."""
    pending: int
    """The pages that may be pending at once."""

    @property
    def slots(self) -> int:
        return self.block * self.blocks * self.dies

    @property
    def image_bytes(self) -> int:
        return HEADER_BYTES + self.slots * (1 + self.page_bytes + SPARE_BYTES)

    @property
    def fits(self) -> bool:
        """Whether the slots outside one block hold the logical pages, the pending ones and one more."""
        return 1 <= self.logical and self.logical + self.pending + 1 <= self.slots - self.block

    def words(self, protocol: str) -> List[str]:
        """The words of `format` behind the name of the image."""
        numbers = (self.page_bytes, self.block, self.blocks, self.dies, self.logical, self.pending)
        return [protocol, *map(str, numbers)]


def shape_of(slots: int, block: int, dies: int, full: float, pending: int, page_bytes: int = 16) -> Shape:
    """A device of so many slots, or a few less, whose logical pages are the share `full` of them."""
    blocks = slots // max(1, block * dies)
    shape = Shape(page_bytes, block, blocks, dies, round(full * block * blocks * dies), pending)
    if min(block - 1, dies, pending) < 1 or not shape.fits or shape.slots > MOST_SLOTS:
        raise Problem(
            f"no device has {slots} slots in blocks of {block} on {dies} dies with {pending} pages pending, where "
            f"{100 * full:g} % of the slots are logical pages"
        )
    return shape
