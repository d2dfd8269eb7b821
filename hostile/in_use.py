"""What a session opens beside an image file: a live image file, and an image file in use, as sessions leave them."""
import random
from typing import List, Union

from image import (BLANK, COMPLETE, DAMAGED, EXTRAS, HEADER, MAX_SLOTS, SPARE, Config, Image, Refused, Slot,
                   read_header, spell_image)
from laws import Reading, read

Draw = random.Random
LIVE = b"TXFLASH3"
NUMBER = 4
DAMAGE = 0x80


def filled_image(data: bytes) -> bytes:
    """An image file in use, with the own bytes of blank and of damaged slots as an image file has them."""
    header = read_header(data)
    if isinstance(header, Refused):
        return data
    config, size = header[0], header[0].page_bytes + SPARE
    states, begin = data[64:64 + config.slots], 64 + config.slots
    cells = (data[begin + i * size:begin + (i + 1) * size] if state == COMPLETE else
             (b"\xff" if state == BLANK else b"\0") * size for i, state in enumerate(states))
    return data[:begin] + b"".join(cells)


def zeros_of(own: bytes) -> int:
    """How many bits of these bytes are 0."""
    return 8 * len(own) - bin(int.from_bytes(own, "little")).count("1")


def number_of(slot: bytes) -> int:
    return int.from_bytes(slot[-NUMBER:], "little")


def state_of(slot: bytes) -> int:
    """How a slot of a live image file reads."""
    if zeros_of(slot[:-NUMBER]) >= number_of(slot):
        return COMPLETE
    return DAMAGED if slot[-1] == DAMAGE else BLANK


def live_slot(config: Config, slot: Slot) -> bytes:
    if slot.state == COMPLETE:
        return slot.cell + zeros_of(slot.cell).to_bytes(NUMBER, "little")
    return b"\xff" * (config.page_bytes + SPARE + NUMBER - 1) + (b"\x80" if slot.state == DAMAGED else b"\xff")


def spell_live(image: Image) -> bytes:
    """The live image file as a session begins with it."""
    header = HEADER.pack(LIVE, *image.config, EXTRAS.pack(*image.extras, bytes(20)))
    return header + b"".join(live_slot(image.config, it) for it in image.slots)


def slots_in(data: bytes) -> List[bytes]:
    """The slots behind the header of a live image file, none where they are not whole or too many."""
    size = int.from_bytes(data[12:16], "little") + SPARE + NUMBER
    count, rest = divmod(len(data) - HEADER.size, size)
    return [] if rest or count > MAX_SLOTS else [data[at:at + size] for at in range(HEADER.size, len(data), size)]


def as_image(data: bytes) -> Union[bytes, Refused]:
    """The image file in use with the slots of a live image file, or the first rule that is broken."""
    if len(data) < HEADER.size:
        return Refused("short")
    slots = slots_in(data)
    image = ((b"TXFLASH2" if any(data[36:40]) else b"TXFLASH1") + data[8:HEADER.size] + bytes(map(state_of, slots))
             + b"".join(it[:-NUMBER] for it in slots))
    header = read_header(image)
    if isinstance(header, Refused):
        return header
    over = (at for at, it in enumerate(slots) if zeros_of(it[:-NUMBER]) > number_of(it))
    return next((Refused(f"count {at}") for at in over), image)


def read_in_use(data: bytes, name: str) -> Reading:
    """What a session finds in a file that another one may have left."""
    image = as_image(data) if data.startswith(LIVE) else data
    if isinstance(image, Refused):
        return Reading(3, f"bad image: {image.words}\n", None, None)
    return read(filled_image(image), name)


# What is drawn.

def torn_slot(draw: Draw, over: bytes, slot: bytes) -> bytes:
    """What a loss may leave of a slot that is written over another one."""
    chance = draw.choice((0.1, 0.5, 0.9))
    if draw.random() < 0.5:
        return bytes(new if draw.random() < chance else old for old, new in zip(over, slot))
    at = draw.randrange(len(slot) + 1)
    return slot[:at] + over[at:] if draw.random() < 0.5 else over[:at] + slot[at:]


def torn_live(draw: Draw, image: Image) -> bytes:
    """A live image file of these slots, some of whose blank ones are torn programs or erases."""
    erased, some = Slot(BLANK, b""), [it for it in image.slots if it.state == COMPLETE]
    cells = []
    for it in image.slots:
        cell = live_slot(image.config, it)
        if it.state == BLANK and some and draw.random() < 0.3:
            left = torn_slot(draw, live_slot(image.config, erased), live_slot(image.config, draw.choice(some)))
            cell = left if state_of(left) == BLANK else cell
        cells.append(cell)
    return spell_live(image)[:HEADER.size] + b"".join(cells)


def any_in_use(draw: Draw, image: Image) -> bytes:
    """An image file in use of these slots."""
    cells = [it.cell if it.state == COMPLETE else bytes(draw.choice((0, 255, draw.randrange(256))) for _ in it.cell)
             for it in image.slots]
    begin = HEADER.size + len(cells)
    return spell_image(image)[:begin] + b"".join(cells)


def changed_live(draw: Draw, image: Image) -> bytes:
    """A live image file of which some bytes are others, or of another length."""
    data, size = bytearray(torn_live(draw, image)), image.config.page_bytes + SPARE + NUMBER
    for _ in range(draw.choice((0, 1, 1, 2, 5))):
        slot, how = HEADER.size + size * draw.randrange(image.config.slots), draw.random()
        if how < 0.3:
            place = draw.randrange(HEADER.size)
        elif how < 0.6:
            place = slot + size - 1 - draw.randrange(NUMBER)
        else:
            place = slot + draw.randrange(size)
        data[place] = draw.choice((0, 1, 2, DAMAGE, 255, data[place] ^ 1 << draw.randrange(8), draw.randrange(256)))
    if draw.random() < 0.1:
        end = draw.choice((0, 8, 63, 64, len(data) - 1, len(data) - size, draw.randrange(len(data))))
        return bytes(data[:end])
    return bytes(data) + draw.choice((b"", b"", b"", b"", b"", b"", b"", b"", b"\xff", b"\xff" * size))
