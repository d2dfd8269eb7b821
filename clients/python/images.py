#!/usr/bin/env python3
"""Image files of blank devices, as `./txflash format` makes them.

    images.py IMAGE PROTOCOL PAGE PAGES BLOCKS DIES LOGICAL PENDING

docs/manual.md has the rules of these numbers; flash_serve refuses an image that breaks one. No file is replaced."""
from __future__ import annotations

import os
import struct
import sys
from typing import Union

HEADER, HEAD_BYTES, SPARE = struct.Struct("<8s7I"), 64, 64
NUMBERS = {"scc": 1, "bpcc": 2}
MOST_BYTES = 134217728


def blank(protocol: str, page_bytes: int, pages: int, blocks: int, dies: int, logical: int, pending: int) -> bytes:
    """The image of a blank device."""
    head = HEADER.pack(b"TXFLASH1", NUMBERS[protocol], page_bytes, pages, blocks, dies, logical, pending)
    slots = pages * blocks * dies
    size = HEAD_BYTES + slots * (1 + page_bytes + SPARE)
    if size > MOST_BYTES:
        raise ValueError(f"{size} bytes, and an image has at most {MOST_BYTES}")
    return head.ljust(HEAD_BYTES, b"\0") + bytes(slots) + b"\xff" * (slots * (page_bytes + SPARE))


def write_blank(path: str, protocol: str, *numbers: int) -> None:
    """A new file with the image of a blank device, durable when this returns. The numbers are those of `blank`."""
    image = blank(protocol, *numbers)
    with open(path, "xb") as file:
        file.write(image)
        file.flush()
        os.fsync(file.fileno())


def main() -> Union[int, str]:
    words = sys.argv[1:]
    if len(words) != 8 or words[1] not in NUMBERS or not all(it.isdecimal() for it in words[2:]):
        return str(__doc__)
    try:
        write_blank(words[0], words[1], *map(int, words[2:]))
    except OSError as error:
        return f"images: {words[0]}: {error.strerror}"
    except ValueError as error:
        return f"images: {words[0]}: {error}"
    except struct.error:
        return "images: a number is too large"
    return 0


if __name__ == "__main__":
    sys.exit(main())
