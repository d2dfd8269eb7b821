#!/usr/bin/env python3
"""Says the commands that bring a SQLite database to a device, with one transaction for each commit of its log.

    wal.py [--image IMAGE] [--to NAME] [--log-only] DB

It reads the database file DB and its write-ahead log DB-wal: first come the pages of the file, then the commits. All is
checked before anything is said, against the device of IMAGE where that is given. A problem is one line on standard
error, with status 1.
"""
from __future__ import annotations

import argparse
import os
import sys
from typing import Dict, List

import plan
from command_files import Piece, files_of, text_of
from database_file import read_pages
from device import largest_device, load_device
from problems import Problem
from wal_log import Log, checkpointed_frames, read_log


def arguments() -> argparse.Namespace:
    parser = argparse.ArgumentParser(description=(__doc__ or "").split("\n")[0])
    parser.add_argument("database", metavar="DB", help="a SQLite database in WAL mode, whose log DB-wal is there")
    parser.add_argument("--image", help="the image of the device that is to have it")
    parser.add_argument("--to", metavar="NAME", help="write files NAME-1.txt, NAME-2.txt and so on")
    parser.add_argument("--log-only", action="store_true", help="the device has the database as it was before the log")
    return parser.parse_args()


def load_log(database: str) -> Log:
    """The log of a database."""
    try:
        with open(f"{database}-wal", "rb") as file:
            data = file.read()
    except FileNotFoundError:
        raise Problem(
            f"there is no log {database}-wal: set PRAGMA journal_mode=wal and PRAGMA wal_autocheckpoint=0, and read "
            "the log while the connection is open, since SQLite removes it at the end"
        ) from None
    return read_log(data)


def load_database(database: str, log: Log) -> Dict[int, bytes]:
    """The pages of the database file, which has to be as it was when the log began."""
    try:
        with open(f"{database}-shm", "rb") as file:
            frames = checkpointed_frames(file.read(), log.salts)
    except FileNotFoundError:
        frames = 0
    if frames:
        raise Problem(
            f"a checkpoint has brought {frames} frames of the log to {database}, so the file is not what the log began "
            "with: set PRAGMA wal_autocheckpoint=0 first, or take --log-only where the device has what it began with"
        )
    with open(database, "rb") as file:
        return read_pages(file.read())


def pieces_of(options: argparse.Namespace, log: Log) -> List[Piece]:
    """All transactions, checked."""
    device = load_device(options.image) if options.image else largest_device(log.page_bytes)
    database = load_database(options.database, log) if not options.log_only else {}
    plan.check(database, log.commits, log.page_bytes, device)
    return [*plan.load(database, device), *plan.replay(log.commits)]


def write_files(name: str, files: List[List[Piece]]) -> None:
    """Writes the files, none of which may be there yet. Where one cannot be written, none is left."""
    made: List[str] = []
    try:
        for number, file in enumerate(files, 1):
            path = f"{name}-{number}.txt"
            with open(path, "x", encoding="ascii") as out:
                made.append(path)
                out.write(text_of(file))
    except OSError:
        for path in made:
            os.remove(path)
        raise
    for path, file in zip(made, files):
        print(f"{path} {len(file)} transactions")


def work(options: argparse.Namespace) -> None:
    log = load_log(options.database)
    files = list(files_of(pieces_of(options, log)))
    if options.to:
        write_files(options.to, files)
    elif len(files) > 1:
        raise Problem(f"the commands take {len(files)} files: give --to NAME")
    else:
        sys.stdout.writelines(map(text_of, files))
    if log.left_out:
        print(f"wal: {log.left_out} bytes behind the last whole commit were left out", file=sys.stderr)


def main() -> int:
    try:
        work(arguments())
    except (Problem, OSError) as problem:
        print(f"wal: {problem}", file=sys.stderr)
        return 1
    return 0


if __name__ == "__main__":
    sys.exit(main())
