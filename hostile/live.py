"""A session of the program flash_serve over two pipes, and what is wrong with it, if anything."""
import os
import select
import signal
import subprocess
import time
from itertools import combinations
from typing import Callable, Iterable, Iterator, List, NamedTuple, Optional, Set, Union

from grammar import BadLine, Command, parse
from image import MAX_FILE, Config
from in_use import read_in_use
from judge import Served, need
from laws import Pages, Reading
from machine import PLAIN, Run, State
from program import LONGEST, TOP

BUILT = os.path.join(TOP, "crates", "flash_serve", "out", "flash_serve")


def read_line(line: bytes, page_bytes: int) -> Union[Command, BadLine, None]:
    """The command of a line of a session, nothing where it has none, or that it is bad."""
    if not line.endswith(b"\n") or len(line) > MAX_FILE + 1:
        return BadLine(1)
    commands = parse(line, page_bytes)
    if isinstance(commands, BadLine):
        return commands
    return commands[0] if commands else None


class Session:
    """The program at work on an image. What it says is read as it comes."""

    def __init__(self, program: str, words: List[str], setup: Optional[Callable[[], None]] = None) -> None:
        self.process = subprocess.Popen([program, *words], stdin=subprocess.PIPE, stdout=subprocess.PIPE, bufsize=0,
                                        preexec_fn=setup)
        assert self.process.stdin and self.process.stdout
        self.input, self.output = self.process.stdin, self.process.stdout
        self.said = b""

    def give(self, data: bytes) -> bool:
        """Whether the program takes these bytes."""
        try:
            while data:
                data = data[self.input.write(data):]
        except (BrokenPipeError, ConnectionResetError):
            return False
        return True

    def read_more(self, seconds: float = LONGEST) -> bool:
        """Reads what is said next; whether there is anything before the end."""
        ready, _, _ = select.select([self.output], [], [], seconds)
        need(bool(ready), f"no answer in {seconds} seconds")
        part = os.read(self.output.fileno(), 1 << 20)
        self.said += part
        return bool(part)

    def hear_line(self) -> Optional[str]:
        """Takes the next line that is said, none where the output ends before."""
        while b"\n" not in self.said:
            if not self.read_more():
                return None
        line, _, self.said = self.said.partition(b"\n")
        return line.decode("ascii")

    def hear_reply(self, command: Command) -> Optional[str]:
        """Takes the reply to a command: that of `explain` is several lines, up to the one that counts them."""
        lines = [self.hear_line()]
        while command.verb == "explain" and lines[-1] is not None and lines[-1].startswith("verdict "):
            lines.append(self.hear_line())
        return None if lines[-1] is None else "\n".join(it for it in lines if it is not None)

    def kill(self) -> None:
        self.process.send_signal(signal.SIGKILL)

    def end(self) -> int:
        """Closes the input, reads what is said still, and answers the status, below 0 where a signal ended it."""
        if not self.input.closed:
            self.input.close()
        if not self.output.closed:
            while self.read_more():
                pass
            self.output.close()
        begun = time.monotonic()
        status = self.process.wait(LONGEST)
        need(time.monotonic() - begun <= LONGEST, "the program did not end")
        return status


class Heard(NamedTuple):
    """A line that was given, its command, if it has one, and what was said of it, empty where nothing was."""
    line: bytes
    command: Optional[Command]
    said: str


class Talk:
    """What a session was asked and said, against the machine."""

    def __init__(self, session: Session, config: Config, reading: Reading) -> None:
        self.session, self.config = session, config
        assert reading.image and reading.records
        self.image = reading.image
        self.served = Served(config, reading.records)
        self.commands = 0
        self.heard: List[Heard] = []
        self.had_bad = False
        # The command that was given and has no reply, and those that were given with it and come behind it.
        self.in_hand: Optional[Command] = None
        self.behind: List[Command] = []

    def begin(self) -> None:
        """Takes the first line, which says that the image is open."""
        said = self.session.hear_line()
        need(said == "serving", f"the session begins with {said!r}")

    def ask(self, line: bytes) -> bool:
        """Gives a line and takes what is said of it; whether the program is there still."""
        return self.session.give(line) and self.hear(line)

    def hear(self, line: bytes) -> bool:
        """Takes what is said of a line that was given."""
        command = read_line(line, self.config.page_bytes)
        said = self.hear_answer(command)
        if said is None:
            return False
        self.heard.append(Heard(line, None if isinstance(command, BadLine) else command, said))
        return True

    def hear_all(self, lines: List[bytes]) -> None:
        """Takes what is said of lines that were given at once, as far as that goes. Replies to such lines are written
        together, so a line that has none may have been served, and lines behind it."""
        for number, line in enumerate(lines, 1):
            if not self.hear(line):
                commands = [read_line(it, self.config.page_bytes) for it in lines[number:]]
                self.behind = [it for it in commands if isinstance(it, Command)]
                return

    def hear_answer(self, command: Union[Command, BadLine, None]) -> Optional[str]:
        """Takes what is said of a line with this command, none where the program is gone."""
        number = len(self.heard) + 1
        if command is None:
            return ""
        if isinstance(command, BadLine):
            said = self.session.hear_line()
            need(said in (None, f"bad line {number}"), f"line {number} is bad, and {said!r} is said")
            self.had_bad = self.had_bad or said is not None
            return said
        self.in_hand = command
        reply = self.session.hear_reply(command)
        if reply is None or reply == "desk fault":
            self.session.said = b"" if reply is None else b"desk fault\n" + self.session.said
            return None
        self.commands += 1
        self.served.take(self.commands, command, reply)
        self.in_hand = None
        return reply

    def arrays(self) -> Set[Pages]:
        """What the image may hold where the session broke off here."""
        return arrays_of(self.served.run, [self.in_hand, *self.behind] if self.in_hand else self.behind)

    def check_closed(self, status: int, data: bytes) -> None:
        """Looks whether a session that was closed may have ended with this status and left this file."""
        need(status == (4 if self.had_bad else 0), f"status {status}")
        need(self.in_hand is None, "a command has no reply")
        self.served.check_saved(data, self.image)

    def check_in_use(self, data: bytes) -> None:
        """Looks whether a session that was not closed may have left it."""
        left = read_in_use(data, "")
        need(left.status == 0, f"what is left is refused: {left.said[:100]}")
        assert left.image and left.records
        need(left.image.config == self.config and left.image.extras == self.image.extras, "the header has changed")
        need(left.records.array() in self.arrays(), "what is left has an array that no run ends with")


def arrays_of(run: Run, unanswered: List[Command]) -> Set[Pages]:
    """What an image may hold where a run broke off, and of the commands that have no reply the first ones are done, and
    the next one, if any, in part."""
    reached = set(run.states)
    arrays = {it.settled().array for it in reached}
    for command in unanswered:
        if command.verb == "stepall":
            arrays |= {it.settled().array for state in reached for it in some_done(state.settled())}
        # These two say what they saw, and leave of a state what a read leaves.
        quiet = command._replace(verb="read") if command.verb in ("stats", "explain") else command
        reached = {after for state in reached for _, after in run.answers(state, quiet, "")}
        arrays |= {it.settled().array for it in reached}
    return arrays


def some_done(state: State) -> Iterator[State]:
    """Any of the transactions that are at their last pages are done, and the others are not."""
    last = [it for it in state.open if it.mark == PLAIN and it.written == len(it.writes) - 1]
    for count in range(len(last) + 1):
        for some in combinations(last, count):
            after = state
            for it in some:
                after = after.put(it.writes).without(it.tag)
            yield after


def give_all(talk: Talk, lines: Iterable[bytes]) -> None:
    """Asks line by line, as long as the program is there."""
    for line in lines:
        if not talk.ask(line):
            return
