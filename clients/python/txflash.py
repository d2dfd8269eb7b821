"""Pages of an image file that change together, all or none, over the program flash_serve.

    with txflash.Device("disk.img") as device:
        device.write({3: b"left", 4: b"right"})  # one transaction, durable when the call returns
        device.read(3)                           # the whole page, or None where it is blank

A device starts the program, which holds the image until the device is closed. Several threads may use one device, and
one process. Where the program was killed, or a call was interrupted, the next call starts it again.
"""
from __future__ import annotations

import contextlib
import operator
import os
import shutil
import struct
import subprocess
import threading
import warnings
import weakref
from subprocess import PIPE
from typing import Any, Callable, Dict, List, Mapping, NamedTuple, NoReturn, Optional, Sequence, Tuple, Type, TypeVar

TOP = os.path.dirname(os.path.dirname(os.path.dirname(os.path.abspath(__file__))))
BUILT = os.path.join(TOP, "crates", "flash_serve", "out", "flash_serve")
HEADER = struct.Struct("<8s7I")
PROTOCOLS = {1: "scc", 2: "bpcc"}
MOST_NUMBER = 2**32 - 1
# The statuses of a program that has closed its image: the second where a line was bad.
CLOSED = (0, 4)

Answer = TypeVar("Answer")
# Pages with their new contents, which zeros fill, or None for a page that is discarded.
Entries = Mapping[int, Optional[bytes]]


class Error(Exception):
    """What a device answers in place of what was asked. Its text has the device's words."""


class NotServed(Error):
    """The device is not open, and nothing was written."""


class NoProgram(NotServed):
    """There is no program to start."""


class NoImage(NotServed):
    """There is no file of that name."""


class BadImage(NotServed):
    """The file is no image, or one that is not sound."""


class InUse(NotServed):
    """Another session or run holds the image."""


class Refused(Error):
    """A call that changed nothing: the class says why, and `page` which page it is about, if one."""

    def __init__(self, words: str, page: Optional[int] = None) -> None:
        super().__init__(words)
        self.page = page


class RefusedEmpty(Refused):
    """A write without pages."""


class RefusedRange(Refused):
    """The device has no such page."""


class RefusedOverlap(Refused):
    """An open transaction has the page."""


class RefusedSpent(Refused):
    """The page has no version left."""


class RefusedFull(Refused):
    """Out of room: the write has more pages than the `free` ones that may still be pending."""

    def __init__(self, words: str, free: int) -> None:
        super().__init__(words)
        self.free = free


class Fault(Error):
    """An operation of the flash failed. Nothing is lost: a transaction is still open, to go on with or to abort."""


class Gone(Error):
    """The transaction is not open, since it ended, or since the program or power did. Then nothing of it is there."""


class InDoubt(Error):
    """It is not known what became of the call. Each transaction that was in hand is whole or absent, and a read of its
    pages tells which. All their pages are in `pages`. All other transactions that were open are absent."""

    def __init__(self, words: str, pages: Sequence[int] = ()) -> None:
        super().__init__(words)
        self.pages = tuple(pages)


class PowerCut(InDoubt):
    """A cut that was armed came due."""


class Dropped(InDoubt):
    """A fault came in `step_all`."""


class DeskFault(InDoubt):
    """A call of the file failed: the disk is full or broken, or memory ran out."""


class NotOpened(NotServed, DeskFault):
    """The same at the opening, where nothing is in doubt: also a file, or a folder, that may not be written."""


class Stats(NamedTuple):
    """The numbers of a device; `programs` and `erases` count from the start of the program."""

    written: int
    open: int
    pending: int
    programs: int
    erases: int
    garbage: int


class Moved(NamedTuple):
    """How many transactions `step_all` brought on by a page, and those of them that are done by it."""

    moved: int
    finished: Tuple[Transaction, ...]


class Transaction:
    """Pages that change at once when the last of them is written. As a context it is finished at the end, or aborted
    where that is an exception."""

    def __init__(self, device: Device, tag: int, entries: Entries) -> None:
        self.device, self.tag, self.pages = device, tag, tuple(entries)
        self.state = "open"
        """`open`, `done`, `aborted`, `in doubt` or `lost`."""
        self.written: Optional[int] = 0
        """How many of its pages are written, None where a fault hides that."""
        self.may_be_whole = False
        """Whether a fault hides if its last page is there."""

    def step(self) -> bool:
        """Writes the next page; whether that was the last one."""
        return self.device._alone(lambda: self.device._go_on(self, "step"))

    def finish(self) -> None:
        """Writes the pages that are left."""
        self.device._alone(lambda: self.device._go_on(self, "finish"))

    def abort(self) -> bool:
        """Gives it up; False where all its pages have changed already, which a fault may have hidden."""
        return self.device._alone(lambda: self.device._abort(self))

    def __enter__(self) -> Transaction:
        return self

    def __exit__(self, kind: Any, *_: Any) -> None:
        if self.state == "open":
            if kind is None:
                self.finish()
            else:
                with contextlib.suppress(Error):
                    self.device._give_up(self)

    def _is_at_last(self) -> bool:
        return self.written is None or self.written == len(self.pages) - 1


class Device:
    """A device that is served. The program is the one that is named here or in FLASH_SERVE_PROGRAM, or that of this
    repository, or the one on the path."""

    def __init__(self, image: str, program: Optional[str] = None) -> None:
        self.image, self.program = os.path.abspath(image), found_program(program)
        self._lock = threading.RLock()
        self._process: Optional[subprocess.Popen[bytes]] = None
        self._is_closed, self._was_killed, self._is_asking = True, False, False
        self._open: Dict[int, Transaction] = {}
        self._in_hand: Sequence[Transaction] = ()
        self._tag = 0
        DEVICES.add(self)
        self._start()
        self._is_closed = False

    def read(self, page: int) -> Optional[bytes]:
        """The contents of a page, None where it is blank."""
        words = self._ask(f"read {number(page)}").split(" ")
        return bytes.fromhex(words[2]) if words[0] == "page" else None

    def write(self, entries: Entries) -> None:
        """One transaction over these pages, which is durable when this returns. After a `Fault` nothing of it is
        there."""
        words = self._words(entries)
        self._alone(lambda: self._write(words, entries))

    def discard(self, *pages: int) -> None:
        """Makes these pages blank, all at once."""
        self.write({page: None for page in pages})

    def begin(self, entries: Entries) -> Transaction:
        """Opens a transaction, which writes nothing yet."""
        words = self._words(entries)
        return self._alone(lambda: self._begin(words, entries))

    def step_all(self) -> Moved:
        """Writes the next page of several transactions together, as durably as a `step` and at the cost of one."""
        return self._alone(self._step_all)

    def collect(self) -> bool:
        """Frees a block of the flash; whether one could be freed."""
        return self._ask("collect") == "collected"

    def stats(self) -> Stats:
        return Stats(*map(int, self._ask("stats").split(" ")[2::2]))

    def arm(self, kind: str, count: int, outcome: str = "none") -> None:
        """Lets the count-th operation from now on break, to try what a program makes of that: a `cut` of power or a
        `fault` that leaves `none`, `all` or `bad` of it, or a `badread`."""
        if kind not in ("cut", "fault", "badread") or outcome not in ("none", "all", "bad") or not number(count):
            raise ValueError(f"{kind} {count} {outcome}: arm a cut, fault or badread, from 1, with none, all or bad")
        self._ask(f"badread {count}" if kind == "badread" else f"{kind} {count} {outcome}")

    def close(self) -> None:
        """Ends the program, which leaves an image for all words of txflash. What is open is lost. Where the program was
        killed, another one closes the image."""
        with self._lock:
            self._check_idle()
            if self._is_closed:
                return
            self._is_closed = True
            self._lose()
            said, status = self._reap() if self._process else ("", 0)
            if self._was_killed:
                self._start()
                said, status = self._reap()
            if status not in CLOSED:
                raise DeskFault(f"{said}, status {status}: not closed, but what was acknowledged is there: see to the "
                                "disk, then open and close it again")

    def __enter__(self) -> Device:
        return self

    def __exit__(self, kind: Any, *_: Any) -> None:
        try:
            self.close()
        except Error:
            if kind is None:
                raise

    def __del__(self) -> None:
        """A device that nobody has closed is closed with the last reference to it, or when Python ends."""
        if not getattr(self, "_is_closed", True):
            with contextlib.suppress(Exception):
                self.close()
            warnings.warn(f"{self.image} was not closed", ResourceWarning, source=self)

    # The process and its lines.

    def _start(self) -> None:
        """Starts the program, and reads the numbers of the device once the image is held."""
        words = [self.program, self.image]
        # A script that FLASH_SERVE_PROGRAM names, as ./flash_serve, would start itself for ever.
        others = {name: value for name, value in os.environ.items() if name != "FLASH_SERVE_PROGRAM"}
        try:
            self._process = subprocess.Popen(words, stdin=PIPE, stdout=PIPE, start_new_session=True, env=others)
        except OSError as error:
            raise NoProgram(f"{self.program} cannot be started: {error.strerror}") from error
        try:
            said = self._hear()
            if said == "serving":
                self._read_numbers()
        except BaseException:
            self._reap()
            raise
        if said != "serving":
            rest, status = self._reap()
            raise not_served(self.image, said or rest, status)
        self._was_killed = False

    def _read_numbers(self) -> None:
        with open(self.image, "rb") as file:
            _, protocol, self.page_bytes, _, _, _, self.logical, self.pending = HEADER.unpack(file.read(HEADER.size))
        self.protocol = PROTOCOLS[protocol]

    def _reap(self) -> Tuple[str, int]:
        """Closes the pipes and waits for the program: what it still says, and its status, below 0 for a signal."""
        process, self._process = self._process, None
        assert process
        said = process.communicate()[0].decode("ascii", "replace").strip()
        self._was_killed |= process.returncode < 0
        return said or "nothing said", process.returncode

    def _leave(self) -> None:
        """Leaves the device to the process that opened it: in this one, a fork of that, it is closed."""
        self._lock, self._is_closed, self._is_asking = threading.RLock(), True, False
        self._lose()
        process, self._process = self._process, None
        if process and process.stdin and process.stdout:
            null = os.open(os.devnull, os.O_RDWR)
            for pipe in (process.stdin, process.stdout):
                os.dup2(null, pipe.fileno(), inheritable=False)
            os.close(null)
            process.returncode = 0
            LEFT.append(process)

    def _hear(self) -> str:
        """A line of the program, empty where it has ended."""
        assert self._process and self._process.stdout
        line = self._process.stdout.readline()
        return line[:-1].decode("ascii", "replace") if line.endswith(b"\n") else ""

    def _exchange(self, line: str) -> str:
        """The reply to a line, empty where the program has ended."""
        if self._is_closed:
            raise NotServed(f"{self.image} is closed, in this process")
        if not self._process:
            self._start()
        assert self._process and self._process.stdin
        try:
            self._process.stdin.write(line.encode("ascii") + b"\n")
            self._process.stdin.flush()
        except BrokenPipeError:
            pass
        return self._hear()

    def _alone(self, call: Callable[[], Answer]) -> Answer:
        """Lets one thread in. Where its call is interrupted the program ends, so that no other call takes its reply for
        its own, and the program and this device know the same transactions."""
        with self._lock:
            self._check_idle()
            try:
                return call()
            except Error:
                raise
            except BaseException:
                self._drop()
                raise

    def _check_idle(self) -> None:
        """Sees that the call comes from no signal handler that has interrupted one, whose reply it would take."""
        if self._is_asking:
            raise RuntimeError("a call of this device is under way: let a signal handler raise an exception")

    def _ask(self, line: str, in_hand: Optional[Sequence[Transaction]] = None) -> str:
        """The reply, where it is no error. `in_hand` are the transactions whose last page the line may write. A line
        without any changes nothing that lasts, and is given again where the program was killed."""
        return self._alone(lambda: self._reply(line, in_hand))

    def _reply(self, line: str, in_hand: Optional[Sequence[Transaction]]) -> str:
        self._in_hand, self._is_asking = in_hand or (), True
        try:
            reply = self._exchange(line)
            if not reply and in_hand is None:
                self._check_killed()
                reply = self._exchange(line)
        finally:
            self._is_asking = False
        word = reply.split(" ", 1)[0]
        if word in ("", "desk", "no", "unsound"):
            self._stop(reply)
        if word == "refused":
            raise refusal(reply)
        if word == "fault":
            raise Fault("fault: give the call again, or abort")
        if word in ("cut", "dropped"):
            raise (PowerCut if word == "cut" else Dropped)(word, self._lose(self._in_hand))
        if word == "bad":
            raise Error(f"{reply}: this client and the program speak different lines")
        return reply

    def _drop(self) -> None:
        """Ends the program where a call was interrupted."""
        if self._process:
            self._process.kill()
        self._lose(self._in_hand)
        if self._process:
            self._reap()

    def _check_killed(self) -> None:
        """Sees that a signal has ended the program. What was open is lost."""
        said, status = self._reap()
        pages = self._lose()
        if status >= 0:
            raise DeskFault(f"{said}, status {status}", pages)

    def _stop(self, reply: str) -> NoReturn:
        """The program has ended before its reply, or says why it ends."""
        said, status = self._reap()
        pages = self._lose(self._in_hand)
        advice = "what was in hand is whole or absent: read it" if pages else "what was open is absent"
        if status >= 0:
            raise DeskFault(f"{reply or said}, status {status}: {advice}", pages)
        words = f"signal {-status} ended the program: {advice}"
        raise InDoubt(words, pages) if pages else Gone(words)

    def _lose(self, in_hand: Sequence[Transaction] = ()) -> List[int]:
        """Nothing is open any more. The pages of the transactions that are in doubt."""
        doubtful = [it for it in self._open.values() if it.may_be_whole or it in in_hand]
        for it in list(self._open.values()):
            self._end(it, "in doubt" if it in doubtful else "lost")
        return [page for it in doubtful for page in it.pages]

    # Transactions.

    def _words(self, entries: Entries) -> List[str]:
        """The entries as a line has them. Far too many are more than a line may have, and are refused without one."""
        words = [f"{number(page)}={spelled(contents, self.page_bytes)}" for page, contents in entries.items()]
        if len(words) > self.pending:
            beyond = [page for page in entries if page >= self.logical]
            if beyond:
                raise RefusedRange(f"refused range {beyond[0]}", beyond[0])
            free = self.pending - self.stats().pending
            raise RefusedFull(f"refused full {free}", free)
        return words

    def _begin(self, words: Sequence[str], entries: Entries) -> Transaction:
        tag = self._next_tag()
        self._ask(" ".join([f"write {tag}", *words]))
        self._open[tag] = Transaction(self, tag, entries)
        return self._open[tag]

    def _write(self, words: Sequence[str], entries: Entries) -> None:
        transaction = self._begin(words, entries)
        try:
            transaction.finish()
        except Fault:
            if self._give_up(transaction):
                raise

    def _next_tag(self) -> int:
        self._tag = (self._tag + 1) % (MOST_NUMBER + 1)
        return self._tag if self._tag not in self._open else self._next_tag()

    def _end(self, transaction: Transaction, state: str) -> None:
        transaction.state = state
        self._open.pop(transaction.tag, None)
        self._in_hand = [it for it in self._in_hand if it is not transaction]

    def _go_on(self, transaction: Transaction, verb: str) -> bool:
        check_open(transaction)
        may_finish = verb == "finish" or transaction._is_at_last()
        try:
            words = self._ask(f"{verb} {transaction.tag}", [transaction] if may_finish else []).split(" ")
        except Fault:
            transaction.may_be_whole |= may_finish
            if verb == "finish":
                transaction.written = None
            raise
        if words[0] == "done":
            self._end(transaction, "done")
        else:
            transaction.written = int(words[2])
        return words[0] == "done"

    def _give_up(self, transaction: Transaction) -> bool:
        """Aborts, also where a fault comes in that."""
        while True:
            try:
                return transaction.abort()
            except Fault:
                continue

    def _abort(self, transaction: Transaction) -> bool:
        check_open(transaction)
        is_aborted = self._ask(f"abort {transaction.tag}", []).startswith("aborted")
        self._end(transaction, "aborted" if is_aborted else "done")
        return is_aborted

    def _step_all(self) -> Moved:
        words = self._ask("stepall", [it for it in self._open.values() if it._is_at_last()]).split(" ")
        return self._moved(int(words[1]), int(words[3]))

    def _moved(self, moved: int, finished: int) -> Moved:
        """Those are done that had one page left. Of those whose place a fault hides all are, or none, or it is not
        known which."""
        went_on = list(self._open.values())[:moved]
        done = [it for it in went_on if it.written is not None and it._is_at_last()]
        hidden = [it for it in went_on if it.written is None]
        if finished == len(done) + len(hidden):
            done += hidden
        elif finished > len(done):
            for it in hidden:
                self._end(it, "in doubt")
        for it in went_on:
            if it in done:
                self._end(it, "done")
            elif it.written is not None:
                it.written += 1
        return Moved(moved, tuple(done))


# Those of this process, and what serves those of the one that it was forked from. That is kept, since a thread which
# this process does not have may have been at its pipes.
DEVICES: weakref.WeakSet[Device] = weakref.WeakSet()
LEFT: List[subprocess.Popen[bytes]] = []


def leave_all() -> None:
    """What a process does first that was forked from one with devices. Else both would take each other's replies, and
    the image would be held until both have ended."""
    for device in list(DEVICES):
        device._leave()


os.register_at_fork(after_in_child=leave_all)


def check_open(transaction: Transaction) -> None:
    if transaction.state != "open":
        raise Gone(f"unknown {transaction.tag}: the transaction is {transaction.state}")


def number(value: int) -> int:
    """A number that a line may have."""
    plain = int(operator.index(value))
    if not 0 <= plain <= MOST_NUMBER:
        raise ValueError(f"{value} is no number from 0 to {MOST_NUMBER}")
    return plain


def spelled(contents: Optional[bytes], page_bytes: int) -> str:
    """Contents as an entry of a write has them."""
    if contents is None:
        return "~"
    if isinstance(contents, int):
        raise TypeError(f"{contents} is no contents of a page, which are bytes")
    whole = bytes(contents)
    if len(whole) > page_bytes:
        raise ValueError(f"{len(whole)} bytes for a page of {page_bytes}")
    return whole.hex() or "-"


def found_program(named: Optional[str]) -> str:
    """The whole path of the program."""
    named = named or os.environ.get("FLASH_SERVE_PROGRAM")
    found = shutil.which(named) if named else shutil.which(BUILT) or shutil.which("flash_serve")
    if not found:
        raise NoProgram(f"no program {named or BUILT}: build it by ./flash_serve, or name it in FLASH_SERVE_PROGRAM")
    return os.path.abspath(found)


def not_served(image: str, said: str, status: int) -> Error:
    """Why a program did not begin to serve, and what to do."""
    kinds: Dict[int, Tuple[Type[Error], str]] = {
        1: (NotServed, "give it a name in UTF-8, and name flash_serve in FLASH_SERVE_PROGRAM"),
        2: (NoImage, "make an image with ./txflash format"),
        3: (BadImage, "take an image of a device"),
        5: (NotOpened, "see that it and its folder may be written, and look at its disk"),
        6: (NotServed, "free some memory"),
        7: (BadImage, "take a good copy of it"),
        9: (BadImage, "take an image of a device"),
        15: (InUse, "end the session or run that holds it first"),
    }
    advice = "a signal ended it, so try again" if status < 0 else "name flash_serve in FLASH_SERVE_PROGRAM"
    kind, advice = kinds.get(status, (NotServed, advice))
    return kind(f"{image} is not served ({said}, status {status}): {advice}")


def refusal(reply: str) -> Refused:
    """The exception for `refused WORD NUMBERS`."""
    kind, *numbers = reply.split(" ")[1:]
    if kind == "full":
        return RefusedFull(reply, int(numbers[0]))
    kinds = {"empty": RefusedEmpty, "range": RefusedRange, "overlap": RefusedOverlap, "spent": RefusedSpent}
    return kinds.get(kind, Refused)(reply, int(numbers[0]) if numbers else None)
