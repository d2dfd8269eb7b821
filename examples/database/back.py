#!/usr/bin/env python3
"""Makes the file of a SQLite database again from the replies of `read`.

    back.py --reads IMAGE      says the commands that read all pages of the device
    back.py REPLIES DB         makes DB, which may not be there yet, from a file of replies

Page 1 of the database, which is page 0 of the device, says how many pages there are. A problem is one line on standard
error, with status 1.
"""
from __future__ import annotations

import argparse
import sys
from typing import List

from device import load_device
from problems import Problem
from replies import database_of, pages_read, reads


def arguments() -> argparse.Namespace:
    parser = argparse.ArgumentParser(description=(__doc__ or "").split("\n")[0])
    parser.add_argument("--reads", metavar="IMAGE", help="say the commands that read all pages of this device")
    parser.add_argument("files", metavar="REPLIES DB", nargs="*", help="a file of replies, and the database to make")
    options = parser.parse_args()
    if len(options.files) != (0 if options.reads else 2):
        parser.error("give --reads IMAGE, or REPLIES and DB")
    return options


def make(replies: str, database: str) -> None:
    """The database from a file of replies."""
    with open(replies, encoding="ascii", errors="replace") as file:
        data = database_of(pages_read(file))
    with open(database, "xb") as out:
        out.write(data)


def work(reads_of: str, files: List[str]) -> None:
    if reads_of:
        for command in reads(load_device(reads_of).logical):
            print(command)
    else:
        make(*files)


def main() -> int:
    options = arguments()
    try:
        work(options.reads, options.files)
    except (Problem, OSError) as problem:
        print(f"back: {problem}", file=sys.stderr)
        return 1
    return 0


if __name__ == "__main__":
    sys.exit(main())
