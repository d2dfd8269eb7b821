"""The program, with a folder for its files."""
from __future__ import annotations

import os
from typing import Iterable, List

from command_files import Piece, files_of, text_of
from device import Program


class Bench:
    def __init__(self, program: Program, folder: str) -> None:
        self.program = program
        self.folder = folder

    def path(self, name: str) -> str:
        return os.path.join(self.folder, name)

    def serve(self, image: str, pieces: Iterable[Piece]) -> List[str]:
        """The replies of a run of these commands."""
        commands = self.path("commands.txt")
        with open(commands, "w", encoding="ascii") as out:
            out.write(text_of(pieces))
        return self.program.run(image, commands)

    def programs(self, image: str, pieces: Iterable[Piece]) -> int:
        """How many pages the device programs for these commands, in as many runs as they take."""
        count = 0
        for file in files_of(pieces):
            said = self.serve(image, [*file, Piece(["stats"])])
            count += int(said[-1].split()[said[-1].split().index("programs") + 1])
        return count
