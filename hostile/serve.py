#!/usr/bin/env python3
"""Talks with the program flash_serve over two pipes, kills it, takes its file and its output away, and looks at what it
said and left.

    serve.py [EXE] [--turns N] [--kills N] [--seed S] [--room FOLDER] [--txflash EXE2]

N turns, by kind in turn, and N kills under each protocol. A turn draws a sound image, as a file that a session leaves
or as an image file, and lines, some of which are bad. Each reply must be one that `machine.py` allows, and comes before
the next line is given, or all are given at once. A session begins with the live image file to the byte, and one whose
input ends leaves the image file to the byte, with status 0, or 4 where a line was bad. One that is killed, or whose
file fails, leaves the one or the other: its array is one after the replies that were said, with the command in hand
done or not, and of lines that were given at once any first ones behind it. The programs that read image files refuse a
live one; a session without lines makes an image file of it. No file beside the image is touched, and only a kill leaves
one. Where EXE2 is there, the program txflash is run beside sessions and on what they leave."""
import argparse
import os
import resource
import shutil
import signal
import subprocess
import sys
import time
from typing import Optional

import images as drawn_images
from image import BPCC, DEFAULT, MAX_FILE, SCC, Image, blank_image, read_image, spell_image
from in_use import changed_live, filled_image, read_in_use, spell_live
from judge import need
from laws import read
from live import BUILT, Session, Talk, give_all
from program import BUILT as TXFLASH
from program import found_program, new_folder, program_argument, read_file, write_file
from turns import CALLS, COMMANDS, IMAGE, Turns, config_of, image_of

PAGE = 4096
MOVED = "moved.img"
DESK_FAULT = b"desk fault\n"


def ignore_limit() -> None:
    """A write past the limit of a file is then an error, and no signal."""
    signal.signal(signal.SIGXFSZ, signal.SIG_IGN)


def blank_file() -> bytes:
    return spell_image(blank_image(DEFAULT))


class Kinds(Turns):
    """What each kind of turn does, and what came of it."""

    def end_input(self) -> str:
        """Ends its input, behind a line feed or not."""
        talk = self.begin_talk()
        lines = self.lines(talk.config)
        part = self.draw.choice((b"", b"", b"stats", b"#", b" ", b"finish 1"))
        if self.draw.random() < 0.3 and sum(map(len, lines)) < 30000:
            need(talk.session.give(b"".join(lines) + part), "the program went")
            for it in lines:
                need(talk.hear(it), "the program went")
        else:
            give_all(talk, lines)
            need(talk.session.give(part), "the program went")
        talk.session.input.close()
        need(not part or talk.hear(part) and talk.had_bad, "a part of a line was served")
        status = talk.session.end()
        need(talk.session.said == b"", f"{talk.session.said[:80]!r} is said at the end")
        talk.check_closed(status, read_file(IMAGE) or b"")
        return "with a bad line" if talk.had_bad else "without a bad line"

    def kill_scc(self) -> str:
        return self.kill(SCC)

    def kill_bpcc(self) -> str:
        return self.kill(BPCC)

    def kill(self, protocol: int) -> str:
        """Kills it, mostly while it is at work. Where it ended before that, another one is begun."""
        found = ""
        while not found:
            how = self.draw.choice((*[self.kill_at_work] * 3, *[self.kill_in_call] * 3, self.kill_in_opening,
                                    self.kill_in_closing))
            found = how(protocol)
        return found

    def kill_in_call(self, protocol: int) -> str:
        """Kills it when it asks for something of the system."""
        call = self.draw.choice(("pwrite64", "fdatasync", "write", *CALLS))
        status, talk = self.break_in(call, "signal=SIGKILL", protocol)
        if status in (0, 4):
            return ""
        need(status == -signal.SIGKILL and not talk.session.said, f"status {status}, {talk.session.said[:80]!r}")
        return f"at {call if call in ('fsync', 'rename') else 'another call'}, {self.close_left(talk)}"

    def fail_call(self) -> str:
        """Has a call of the file, of the new one, or of their folder fail."""
        call, error = self.draw.choice((("pwrite64", "ENOSPC"), ("pwrite64", "EIO"), ("fdatasync", "EIO"),
                                        ("fsync", "EIO"), ("rename", "EIO"), ("rename", "EXDEV"), ("fchmod", "EPERM"),
                                        ("lchown", "EPERM")))
        status, talk = self.break_in(call, f"error={error}")
        if status in (0, 4):
            return "never"
        need(status == 5 and talk.session.said == DESK_FAULT, f"status {status}, {talk.session.said[:80]!r}")
        need(not self.new_files(), "a file is left beside the image")
        return f"{call}, {self.close_left(talk)}"

    def kill_in_opening(self, protocol: int) -> str:
        """Kills it soon after it was started."""
        data = self.put_image(protocol)
        talk = Talk(Session(self.program, [IMAGE]), config_of(data), read(data, IMAGE))
        time.sleep(self.draw.uniform(0, 0.003))
        talk.session.kill()
        status = talk.session.end()
        need(status == -signal.SIGKILL, f"status {status}")
        need(read_in_use(read_file(IMAGE) or b"", IMAGE).image == read(data, IMAGE).image, "the image has changed")
        self.close_left(talk)
        return "in its opening, or before a line"

    def kill_in_closing(self, protocol: int) -> str:
        """Kills it soon after its input ended."""
        talk = self.begin_talk(protocol=protocol)
        give_all(talk, self.lines(talk.config))
        talk.session.input.close()
        time.sleep(self.draw.uniform(0, 0.001))
        talk.session.kill()
        status = talk.session.end()
        if status == -signal.SIGKILL:
            return f"in its closing, {', '.join(self.close_left(talk).split(', ')[1:])}"
        talk.check_closed(status, read_file(IMAGE) or b"")
        return ""

    def kill_at_work(self, protocol: int) -> str:
        """Kills it on one line, or on lines that were given all at once."""
        talk = self.begin_talk(protocol=protocol)
        lines = [it for _ in range(6) for it in self.lines(talk.config)] or [b"stats\n"]
        first = self.draw.randrange(len(lines))
        give_all(talk, lines[:first])
        last = lines[first:first + self.draw.choice((1, 20, 100, 100))]
        talk.session.give(b"".join(last))
        time.sleep(self.draw.uniform(0, self.draw.choice((0.0005, 0.003, 0.01))))
        talk.session.kill()
        talk.hear_all(last)
        status = talk.session.end()
        need(status == -signal.SIGKILL, f"status {status}")
        return self.close_left(talk)

    def close_output(self) -> str:
        """Takes nothing that it says any more. The command is done, and the file is closed."""
        talk = self.begin_talk()
        give_all(talk, self.lines(talk.config))
        talk.session.output.close()
        page = self.draw.randrange(talk.config.logical)
        contents = bytes(self.draw.randrange(256) for _ in range(4))
        talk.session.give(b"write 4294967295 %d=%s\n" % (page, contents.hex().encode()))
        status = talk.session.end()
        need(status == 5, f"status {status}")
        talk.in_hand = None
        left = read(read_file(IMAGE) or b"", IMAGE)
        need(left.status == 0 and left.records is not None and left.records.array() in talk.arrays(),
             f"what is left is refused or another array: {left.said[:80]}")
        return "and closed"

    def limit_file(self) -> str:
        """Limits from some moment on how far the file can be written."""
        talk = self.begin_talk(ignore_limit)
        lines = [it for _ in range(3) for it in self.lines(talk.config)]
        first = self.draw.randrange(len(lines) + 1)
        give_all(talk, lines[:first])
        most = self.draw.choice((0, 64, self.draw.randrange(2 * talk.config.file_bytes)))
        resource.prlimit(talk.session.process.pid, resource.RLIMIT_FSIZE, (most, resource.RLIM_INFINITY))
        give_all(talk, lines[first:])
        status = talk.session.end()
        if status != 5:
            talk.check_closed(status, read_file(IMAGE) or b"")
            return "and nothing failed"
        need(talk.session.said == DESK_FAULT, f"{talk.session.said[:80]!r} is said at the end")
        return self.close_left(talk)

    def fill_disk(self) -> str:
        """Fills its disk, which has room for the new file then, or not."""
        if os.getuid():
            return "not tried: this is for the superuser"
        os.makedirs("disk", exist_ok=True)
        subprocess.run(["mount", "-t", "tmpfs", "-o", "size=1m", "tmpfs", "disk"], check=True)
        try:
            return self.serve_on_full(self.put_image(), "disk/" + IMAGE)
        finally:
            subprocess.run(["umount", "disk"], check=True)

    def serve_on_full(self, data: bytes, name: str) -> str:
        """Serves an image on a disk of which some pages are free."""
        write_file(name, data)
        wanted = -(-len(spell_live(image_of(data))) // PAGE)
        left = self.draw.randrange(2 * wanted)
        write_file("disk/filler", bytes(PAGE * (os.statvfs("disk").f_bavail - left)))
        talk = Talk(Session(self.program, [name]), config_of(data), read(data, name))
        if left >= wanted:
            talk.begin()
            give_all(talk, self.lines(talk.config))
            status = talk.session.end()
            talk.check_closed(status, read_file(name) or b"")
            return "with room"
        status = talk.session.end()
        need(status == 5 and talk.session.said == DESK_FAULT, f"status {status}, {talk.session.said[:80]!r}")
        need(read_file(name) == data and sorted(os.listdir("disk")) == [IMAGE, "filler"], "the folder has changed")
        os.remove("disk/filler")
        again = Session(self.program, [name])
        need(again.end() == 0 and again.said == b"serving\n", f"with room it says {again.said[:80]!r}")
        need(read_file(name) == data, "the file has changed")
        return "without room"

    def take_names(self) -> str:
        """Takes names of new files, some or all, by a file, a folder or a link: each stays as it is."""
        data, last = self.put_image(), self.draw.choice((1, 2, 5, 98, 99))
        names = [f"{IMAGE}.saving{number if number > 1 else ''}" for number in range(1, last + 1)]
        for it in names:
            self.draw.choice((os.mkdir, lambda name: os.symlink("nothing", name), lambda name: os.symlink(IMAGE, name),
                              lambda name: write_file(name, b"mine")))(it)
        before, stand = read_file(IMAGE), [os.lstat(it) for it in names]
        talk = Talk(Session(self.program, [IMAGE]), config_of(data), read(data, IMAGE))
        if last < 99:
            talk.begin()
            give_all(talk, self.lines(talk.config))
        status = talk.session.end()
        if last < 99:
            talk.check_closed(status, read_file(IMAGE) or b"")
        else:
            need(status == 5 and talk.session.said == DESK_FAULT, f"status {status}, {talk.session.said[:80]!r}")
            need(read_file(IMAGE) == before, "the file has changed")
        need([os.lstat(it)[:9] for it in names] == [it[:9] for it in stand], "a file with a taken name has changed")
        for it in names:
            (os.rmdir if os.path.isdir(it) and not os.path.islink(it) else os.remove)(it)
        need(not os.path.lexists("nothing"), "a link was followed")
        return "all" if last == 99 else "some"

    def move_file(self) -> str:
        """Gives the file another name meanwhile, or a second one, and may put another file at its own: the session goes
        on, touches no other file, and leaves its own where it went."""
        talk, put = self.begin_talk(), self.draw.choice((None, b"another file", blank_file(), "linked"))
        lines = self.lines(talk.config)
        half = self.draw.randrange(len(lines) + 1)
        give_all(talk, lines[:half])
        os.link(IMAGE, MOVED)
        if put != "linked":
            os.remove(IMAGE)
        if isinstance(put, bytes):
            write_file(IMAGE, put)
        give_all(talk, lines[half:])
        status = talk.session.end()
        need(status == 5 and talk.session.said == DESK_FAULT, f"status {status}, {talk.session.said[:80]!r}")
        need(put == "linked" or read_file(IMAGE) == put, "another file has changed")
        need(not self.new_files(), "a file is left beside the image")
        os.replace(MOVED, IMAGE)
        if os.path.exists(MOVED):
            os.remove(MOVED)
        said = "a second name" if put == "linked" else "another file" if put else "no file"
        return f"{said}, {self.close_left(talk)}"

    def link_image(self) -> str:
        """Names the image by a link, or gives it a second name: the link stays, and two names are refused."""
        data = self.put_image()
        before = read_file(IMAGE)
        os.makedirs("links", exist_ok=True)
        if self.draw.random() < 0.5:
            os.symlink("../" + IMAGE, "links/disk")
            talk = Talk(Session(self.program, ["links/disk"]), config_of(data), read(data, IMAGE))
            talk.begin()
            give_all(talk, self.lines(talk.config))
            status = talk.session.end()
            need(os.readlink("links/disk") == "../" + IMAGE and os.listdir("links") == ["disk"], "the link has changed")
            talk.check_closed(status, read_file(IMAGE) or b"")
            os.remove("links/disk")
            return "by a link"
        os.link(IMAGE, "links/second")
        session = Session(self.program, [IMAGE])
        need(session.end() == 5 and session.said == DESK_FAULT, f"two names: {session.said[:80]!r}")
        need(read_file(IMAGE) == before and os.path.samefile(IMAGE, "links/second"), "the file has changed")
        os.remove("links/second")
        return "twice"

    def start_second(self) -> str:
        """Starts a second session, and a run, while the first is at work: both are refused, and change nothing."""
        talk = self.begin_talk()
        lines = self.lines(talk.config)
        half = len(lines) // 2
        give_all(talk, lines[:half])
        before = read_file(IMAGE)
        second = Session(self.program, [IMAGE])
        status = second.end()
        need(status == 15 and second.said == b"in use\n", f"a second session: status {status}, {second.said[:80]!r}")
        if self.txflash:
            self.write_commands()
            ended = self.txflash.run(["run", IMAGE, COMMANDS])
            need(ended.status == 3 and ended.said == b"bad image: magic\n",
                 f"a run beside it: status {ended.status}, {ended.said[:80]!r}")
        need(read_file(IMAGE) == before, "the file has changed")
        give_all(talk, lines[half:])
        status = talk.session.end()
        talk.check_closed(status, read_file(IMAGE) or b"")
        return "refused"

    def open_any(self) -> str:
        """Opens any image, or any live image file. It is refused as `explain` refuses an image, but for the own bytes
        of empty slots, and then its file stays; or it is served. One that is not sound is an image file then."""
        data = drawn_images.draw_image(self.draw.randrange(1 << 30), self.number).data
        image = read_image(filled_image(data))
        is_live = isinstance(image, Image) and self.draw.random() < 0.5
        data = changed_live(self.draw, image) if is_live else data
        write_file(IMAGE, data)
        reading = read_in_use(data, IMAGE)
        session = Session(self.program, [IMAGE])
        status = session.end()
        said = "serving\n" if reading.status == 0 else reading.said
        need(status == reading.status and session.said == said.encode(),
             f"status {status} and {session.said[:80]!r}, wanted {reading.status} and {said[:80]!r}")
        left = read_file(IMAGE) or b""
        need(read_image(left) == reading.image if reading.image else left == data, "the file has changed")
        return f"{'live ' if is_live else ''}status {status}"

    def give_longest(self) -> str:
        """Gives lines of the greatest length and of a byte more, and a last one of more without a line feed."""
        talk = self.begin_talk()
        lines = [b"#" * more + b"\n" for more in (MAX_FILE, MAX_FILE + 1)]
        give_all(talk, [*lines, b"stats\n", b" " * MAX_FILE + b"stats\n", b"write 1 0=01\n", b"finish 1\n"])
        need(len(talk.heard) == 6 and talk.commands == 3, "a long line ended the session")
        need(talk.session.give(b"#" * (MAX_FILE + 2)), "the program went")
        talk.session.input.close()
        need(talk.hear(b"#") and talk.had_bad, "a part of a long line was served")
        talk.check_closed(talk.session.end(), read_file(IMAGE) or b"")
        return "lines"

    def give_words(self) -> str:
        """Gives words that are not those of the program, and files that are not there."""
        words, status, said = self.draw.choice((
            ([], 1, b"bad words\n"), ([""], 1, b"bad words\n"), ([IMAGE, IMAGE], 1, b"bad words\n"),
            (["nothing"], 2, b"no file nothing\n"), (["."], 5, DESK_FAULT), (["/dev/null/x"], 5, DESK_FAULT)))
        session = Session(self.program, words)
        ended = session.end()
        need(ended == status and session.said == said, f"{words}: status {ended}, {session.said[:80]!r}")
        return f"status {status}"


KINDS = ("end_input", "end_input", "close_output", "limit_file", "fail_call", "fail_call", "start_second", "open_any",
         "open_any", "give_words", "fill_disk", "take_names", "move_file", "link_image")


def talk_often(program: str, txflash: Optional[str], args: argparse.Namespace) -> int:
    """Takes so many turns, and answers how many faults there were."""
    turns = Kinds(program, txflash, args.seed)
    with new_folder("serve-", args.room):
        if args.turns:
            turns.take_turn("give_longest")
        for number in range(args.turns):
            turns.take_turn(KINDS[number % len(KINDS)])
        for _ in range(args.kills):
            turns.take_turn("kill_scc")
            turns.take_turn("kill_bpcc")
    for it in turns.faults:
        print(f"serve: {it}")
    for name, count in sorted(turns.counts.items()):
        print(f"serve: {count} {name}")
    print(f"serve: seed {args.seed}: {turns.number} turns: {len(turns.faults)} faults", flush=True)
    return len(turns.faults)


def main() -> int:
    parser = argparse.ArgumentParser(description=__doc__, formatter_class=argparse.RawDescriptionHelpFormatter)
    program_argument(parser, BUILT)
    parser.add_argument("--turns", type=int, default=400)
    parser.add_argument("--kills", type=int, default=200)
    parser.add_argument("--seed", type=int, default=1)
    parser.add_argument("--room")
    parser.add_argument("--txflash", metavar="EXE2", default=TXFLASH)
    args = parser.parse_args()
    if not shutil.which("strace"):
        raise SystemExit("serve: there is no strace: apt-get install strace")
    txflash = os.path.abspath(args.txflash) if os.access(args.txflash, os.X_OK) else None
    return 1 if talk_often(found_program(args.program), txflash, args) else 0


if __name__ == "__main__":
    sys.exit(main())
