"""Files of commands for a device: transactions as text, and as many files as the program's limits ask."""
from __future__ import annotations

from dataclasses import dataclass
from typing import Dict, Iterable, Iterator, List

MOST_COMMANDS, MOST_ENTRIES, MOST_BYTES = 65536, 262144, 134217728


@dataclass(frozen=True)
class Limits:
    commands: int = MOST_COMMANDS
    entries: int = MOST_ENTRIES
    bytes: int = MOST_BYTES


@dataclass(frozen=True)
class Piece:
    """Commands that stay together in one file, one line each."""

    lines: List[str]

    def entries(self) -> int:
        return sum(line.count("=") for line in self.lines)

    def bytes(self) -> int:
        return sum(len(line) + 1 for line in self.lines)


def entry(page: int, contents: bytes) -> str:
    """One page of a write. The device fills up with zeros."""
    digits = contents.rstrip(b"\0").hex() or "-"
    return f"{page}={digits}"


def transaction(tag: int, pages: Dict[int, bytes]) -> List[str]:
    """The commands of a transaction that writes these pages of the device."""
    entries = " ".join(entry(page, pages[page]) for page in sorted(pages))
    return [f"write {tag} {entries}", f"finish {tag}"]


def files_of(pieces: Iterable[Piece], limits: Limits = Limits()) -> Iterator[List[Piece]]:
    """The pieces in order, as many to a file as the limits let in. No piece alone passes them."""
    file: List[Piece] = []
    commands = entries = size = 0
    for piece in pieces:
        commands += len(piece.lines)
        entries += piece.entries()
        size += piece.bytes()
        if file and (commands > limits.commands or entries > limits.entries or size > limits.bytes):
            yield file
            file, commands, entries, size = [], len(piece.lines), piece.entries(), piece.bytes()
        file.append(piece)
    if file:
        yield file


def text_of(file: Iterable[Piece]) -> str:
    return "".join(line + "\n" for piece in file for line in piece.lines)
