"""Turns with the program flash_serve: what each begins with, and what is looked at behind it."""
import collections
import os
import random
import shutil
from typing import Callable, Counter, Dict, List, Optional, Tuple

import commands as drawn_commands
import images as drawn_images
from image import Config, Image, Refused, read_header, read_image
from in_use import any_in_use, read_in_use, spell_live, torn_live
from judge import Wrong, check_explain, check_run, need
from laws import read
from live import Session, Talk, give_all
from program import Program, read_file, write_file

IMAGE, COMMANDS = "d.img", "c.txt"
# Calls of which a session makes few, and about how many.
CALLS = {"fsync": 4, "rename": 2, "flock": 3, "openat": 9, "fchmod": 2, "lchown": 2, "statx": 24, "close": 8}


def config_of(data: bytes) -> Config:
    header = read_header(data)
    assert not isinstance(header, Refused)
    return header[0]


def image_of(data: bytes) -> Image:
    image = read_image(data)
    assert isinstance(image, Image)
    return image


class Turns:
    """The folder in which the program is talked with."""

    def __init__(self, program: str, txflash: Optional[str], seed: int) -> None:
        self.program, self.draw = program, random.Random(seed)
        self.txflash = Program(txflash) if txflash else None
        self.counts: Counter[str] = collections.Counter()
        self.faults: List[str] = []
        self.number = 0

    def put_image(self, protocol: Optional[int] = None) -> bytes:
        """Draws a sound image and answers its file. The one that is written may be as a session leaves it."""
        data = drawn_images.sound_image(self.draw)
        while protocol and config_of(data).protocol != protocol:
            data = drawn_images.sound_image(self.draw)
        how, image = self.draw.random(), image_of(data)
        write_file(IMAGE, data if how < 0.6 else torn_live(self.draw, image) if how < 0.9 else
                   any_in_use(self.draw, image))
        return data

    def new_files(self) -> Dict[str, bytes]:
        """The files that have names of new ones."""
        return {it: read_file(it) or b"" for it in os.listdir(".") if it.startswith(IMAGE + ".saving")}

    def lines(self, config: Config) -> List[bytes]:
        """Lines for a session, some of them bad."""
        kinds = (drawn_commands.script_in_grammar, drawn_commands.script_in_grammar, drawn_commands.spoiled_script,
                 drawn_commands.any_bytes)
        draw = self.draw.choice(kinds)
        return [it for _ in range(self.draw.choice((1, 1, 4))) for it in
                draw(self.draw, config).splitlines(keepends=True) if it.endswith(b"\n")]

    def begin_talk(self, setup: Optional[Callable[[], None]] = None, protocol: Optional[int] = None) -> Talk:
        """Starts a session on an image, and looks at the file that it makes of it."""
        data = self.put_image(protocol)
        talk = Talk(Session(self.program, [IMAGE], setup), config_of(data), read(data, IMAGE))
        talk.begin()
        need(read_file(IMAGE) == spell_live(talk.image), "the file of the session is not the live image file")
        return talk

    def break_in(self, call: str, what: str, protocol: Optional[int] = None) -> Tuple[int, Talk]:
        """Serves lines under strace, which does this at some call of the system."""
        data = self.put_image(protocol)
        number = 1 + self.draw.randrange(CALLS.get(call) or self.draw.choice((4, 20, 60)))
        words = ["-o", os.devnull, "-e", f"trace={call}", "-e", f"inject={call}:{what}:when={number}"]
        talk = Talk(Session("strace", [*words, self.program, IMAGE]), config_of(data), read(data, IMAGE))
        said = talk.session.hear_line()
        if said == "serving":
            give_all(talk, [it for _ in range(4) for it in self.lines(talk.config)])
        else:
            talk.session.said = said.encode() + b"\n" if said else b""
            need(read_in_use(read_file(IMAGE) or b"", IMAGE).image == talk.image, "the image has changed")
        status = talk.session.end()
        if status in (0, 4):
            talk.check_closed(status, read_file(IMAGE) or b"")
        return status, talk

    def close_left(self, talk: Talk) -> str:
        """Looks at what a session left that was not closed, and has it closed."""
        left = read_file(IMAGE) or b""
        talk.check_in_use(left)
        strict, in_use = read(left, IMAGE), read_in_use(left, IMAGE)
        if self.txflash:
            check_explain(strict, self.txflash.run(["explain", IMAGE]), left, read_file(IMAGE))
            if strict.status:
                commands = self.write_commands()
                ended = self.txflash.run(["run", IMAGE, COMMANDS])
                check_run(strict, left, commands, COMMANDS, ended, read_file(IMAGE))
        beside = self.new_files()
        closed = Session(self.program, [IMAGE])
        status = closed.end()
        need(status == 0 and closed.said == b"serving\n", f"opened again: status {status}, {closed.said[:80]!r}")
        after = read(read_file(IMAGE) or b"", IMAGE)
        need(after.image == in_use.image, "opened and closed it is another image")
        need(self.new_files() == beside, "a file beside the image has changed")
        for it in beside:
            os.remove(it)
        what = "at rest" if talk.in_hand is None else "in a command"
        return f"{what}, {'an image file' if strict.status == 0 else 'in use'}{', a file beside it' if beside else ''}"

    def write_commands(self) -> bytes:
        """Writes a file of commands for the programs that read image files, and answers its bytes."""
        data = b"write 1 0=01\nfinish 1\n"
        write_file(COMMANDS, data)
        return data

    def take_turn(self, kind: str) -> None:
        """Does what the method of this name does, in an empty folder."""
        self.number += 1
        for it in os.listdir("."):
            (os.remove if os.path.islink(it) or not os.path.isdir(it) else shutil.rmtree)(it)
        try:
            self.counts[f"{kind.replace('_', ' ')}: {getattr(self, kind)()}"] += 1
            need(not self.new_files(), "a file beside the image is left")
        except Wrong as why:
            self.faults.append(f"turn {self.number}, {kind}: {why}")
