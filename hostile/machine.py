"""The array machine of docs/design.md over sets of states: is there a run with these replies?

A state is an array, the open transactions, and what is armed. Where the documents leave open what a break hit, there is
a state for each answer, and a reply keeps those states that may give it. A run is refused where none is left."""
from typing import Dict, FrozenSet, Iterable, Iterator, List, NamedTuple, Optional, Set, Tuple

from grammar import Command, Entries
from image import LAST_VERSION, Config
from laws import Pages, Records

# What is known of an open transaction: the program of its last page failed (and was done all the same, or not), or it
# turned out to be whole.
PLAIN, DOUBT_THERE, DOUBT_ABSENT, WHOLE = "plain", "doubt there", "doubt absent", "whole"
ARMS = ("cut", "fault", "badread")


class Open(NamedTuple):
    tag: int
    writes: Entries
    written: int
    mark: str


class State(NamedTuple):
    """`cut` and `fault` are the outcomes that are armed, empty where none is."""
    array: Pages
    open: Tuple[Open, ...] = ()
    mounted: bool = True
    cut: str = ""
    fault: str = ""
    badread: bool = False

    def find(self, tag: int) -> Optional[Open]:
        return next((it for it in self.open if it.tag == tag), None)

    def without(self, tag: int) -> "State":
        return self._replace(open=tuple(it for it in self.open if it.tag != tag))

    def having(self, other: Open) -> "State":
        return self._replace(open=tuple(other if it.tag == other.tag else it for it in self.open))

    def put(self, writes: Entries) -> "State":
        array = list(self.array)
        for page, contents in writes:
            array[page] = contents
        return self._replace(array=tuple(array))

    def settled(self) -> "State":
        """What is in doubt is looked at."""
        for it in self.open:
            if it.mark == DOUBT_THERE:
                return self.put(it.writes).having(it._replace(mark=WHOLE))
            if it.mark == DOUBT_ABSENT:
                return self.having(it._replace(mark=PLAIN))
        return self


Answer = Tuple[str, State]


class Spending:
    """Bounds on the greatest mention of each page, for `refused spent`."""

    def __init__(self, logical: int, records: Optional[Records]) -> None:
        pages = range(logical)
        self.most = [records.mention(it) if records else 0 for it in pages]
        self.least = list(self.most)
        self.current = [records.current(it) if records else 0 for it in pages]

    def note_open(self, writes: Entries) -> None:
        for page, _ in writes:
            self.most[page] += 1

    def note_done(self, writes: Entries) -> None:
        for page, _ in writes:
            self.least[page] += 1
            self.current[page] += 1

    def note_loss(self) -> None:
        """A loose record may have gone before, and its mention with it."""
        self.least = list(self.current)

    def may_be_spent(self, page: int) -> bool:
        return self.most[page] >= LAST_VERSION

    def must_be_spent(self, page: int) -> bool:
        return self.least[page] >= LAST_VERSION


# What each command may be answered. None of these looks at the replies.

def refusals(state: State, command: Command, config: Config, spending: Spending) -> Iterator[str]:
    """The refusals of a write, the first that holds; of pages that may be spent there may be several."""
    pages, tag = [page for page, _ in command.entries], command.number
    beyond = [it for it in pages if it >= config.logical]
    twice = [it for i, it in enumerate(pages) if it in pages[:i]]
    owners = {page: it.tag for it in state.open for page, _ in it.writes}
    free = config.pending - len(owners)
    overlapping = [it for it in pages if it in owners]
    if not pages:
        yield "refused empty"
    elif beyond:
        yield f"refused range {beyond[0]}"
    elif twice:
        yield f"refused repeated {twice[0]}"
    elif state.find(tag):
        yield f"refused tag {tag}"
    elif overlapping:
        yield f"refused overlap {overlapping[0]} {owners[overlapping[0]]}"
    elif len(pages) > free:
        yield f"refused full {free}"
    else:
        yield from spent_refusals(pages, spending)


def spent_refusals(pages: List[int], spending: Spending) -> Iterator[str]:
    for page in pages:
        if spending.may_be_spent(page):
            yield f"refused spent {page}"
        if spending.must_be_spent(page):
            return


def write_answers(state: State, command: Command, config: Config, spending: Spending) -> Iterator[Answer]:
    refused = list(refusals(state, command, config, spending))
    for reply in refused:
        yield reply, state
    spent = [page for page, _ in command.entries if page < config.logical and spending.must_be_spent(page)]
    if not spent and all(it.startswith("refused spent") for it in refused):
        opened = Open(command.number, command.entries, 0, PLAIN)
        yield f"open {command.number} {len(command.entries)}", state._replace(open=(*state.open, opened))


def read_answers(state: State, page: int) -> Iterator[Answer]:
    if page >= len(state.array):
        yield f"refused range {page}", state
    elif state.array[page] is None:
        yield f"blank {page}", state
    else:
        yield f"page {page} {state.array[page].hex()}", state
        yield from bad_read(state, [state])


def bad_read(armed: State, left: Iterable[State]) -> Iterator[Answer]:
    """A read of the flash fails, and one of these states is left."""
    if armed.badread:
        for it in left:
            yield "fault", it._replace(badread=False)


def cut_answers(state: State, arrays: Iterable[State]) -> Iterator[Answer]:
    """Power is cut. A fault may have come due at the same operation; a bad read may come in the mount."""
    if not state.cut:
        return
    for it in arrays:
        closed = it._replace(open=(), cut="")
        for other in {closed, closed._replace(fault="")}:
            yield "cut", other
            if other.badread:
                yield "cut", other._replace(badread=False, mounted=False)


def writing_answers(state: State, command: Command) -> Iterator[Answer]:
    """`step` and `finish`."""
    tag = command.number
    if not state.find(tag):
        yield f"unknown {tag}", state
        return
    settled = state.settled()
    it = settled.find(tag)
    assert it is not None
    yield from bad_read(state, [state, settled])
    if it.mark == WHOLE:
        yield f"done {tag}", settled.without(tag)
        return
    pages = len(it.writes)
    last = it.written if command.verb == "step" else pages - 1
    if last == pages - 1:
        yield f"done {tag}", settled.put(it.writes).without(tag)
    else:
        yield f"wrote {tag} {last + 1} {pages}", settled.having(it._replace(written=last + 1))
    yield from broken_writing(settled, [it._replace(written=k) for k in range(it.written, last + 1)])


def broken_writing(settled: State, places: List[Open]) -> Iterator[Answer]:
    """A break in a `step` or `finish` that had come to one of these places."""
    left = [settled.having(it) for it in places]
    at_last = [it for it in places if it.written == len(it.writes) - 1]
    yield from bad_read(settled, left)
    if settled.fault:
        mark = DOUBT_THERE if settled.fault == "all" else DOUBT_ABSENT
        for it in [*left, *(settled.having(it._replace(mark=mark)) for it in at_last)]:
            yield "fault", it._replace(fault="")
    whole = [settled.put(it.writes) for it in at_last] if settled.cut == "all" else []
    yield from cut_answers(settled, [settled, *whole])


def step_all_answers(state: State, dies: int) -> Iterator[Answer]:
    """The first so many go on by a page each. A fault leaves none open."""
    settled = state.settled()
    for moved in range(min(1, len(settled.open)), min(dies, len(settled.open)) + 1):
        after, finished = settled, 0
        for it in settled.open[:moved]:
            if it.mark == WHOLE:
                after, finished = after.without(it.tag), finished + 1
            elif it.written == len(it.writes) - 1:
                after, finished = after.put(it.writes).without(it.tag), finished + 1
            else:
                after = after.having(it._replace(written=it.written + 1))
        yield f"moved {moved} finished {finished}", after
    if state.badread:
        for it in (state, settled):
            yield from dropped_answers(it._replace(badread=False))
    if settled.fault:
        for it in broken_together(settled, dies, settled.fault):
            yield from dropped_answers(it._replace(fault=""))
    if settled.cut:
        yield from cut_answers(settled, broken_together(settled, dies, settled.cut))


def broken_together(settled: State, dies: int, outcome: str) -> Set[State]:
    """What the array may have taken: nothing, or what was at its last page and was written all the same."""
    left, first = {settled}, {"none": len(settled.open), "all": 0, "bad": 1}[outcome]
    for moved in range(1, min(dies, len(settled.open)) + 1):
        after = settled
        for it in settled.open[first:moved]:
            if it.mark == PLAIN and it.written == len(it.writes) - 1:
                after = after.put(it.writes)
        left.add(after)
    return left


def dropped_answers(state: State) -> Iterator[Answer]:
    """The device is mounted again, where a bad read may come."""
    closed = state.settled()._replace(open=())
    yield "dropped", closed
    if closed.badread:
        yield "dropped", closed._replace(badread=False, mounted=False)


def abort_answers(state: State, tag: int) -> Iterator[Answer]:
    if not state.find(tag):
        yield f"unknown {tag}", state
        return
    settled = state.settled()
    it = settled.find(tag)
    assert it is not None
    yield f"{'late' if it.mark == WHOLE else 'aborted'} {tag}", settled.without(tag)
    yield from bad_read(state, [state, settled])


def collect_answers(state: State) -> Iterator[Answer]:
    settled = state.settled()
    yield "collected", settled
    yield "nothing", settled
    yield from bad_read(state, [state, settled])
    if settled.fault:
        yield "fault", settled._replace(fault="")
    yield from cut_answers(settled, [settled])


def stats_answer(state: State, reply: str) -> Iterator[Answer]:
    """The numbers of the array; those of the flash may be any."""
    words = reply.split(" ")
    written = sum(it is not None for it in state.array)
    pending = sum(len(it.writes) for it in state.open)
    wanted = f"stats written {written} open {len(state.open)} pending {pending} programs".split(" ")
    names = words[7:8] + words[9:10] + words[11:12]
    numbers = words[8:9] + words[10:11] + words[12:]
    if words[:8] == wanted and names == ["programs", "erases", "garbage"] and all(map(is_decimal, numbers)):
        if len(numbers) == 3:
            yield reply, state


def is_decimal(word: str) -> bool:
    return word.isascii() and word.isdigit() and (word == "0" or not word.startswith("0"))


def explain_answer(state: State, reply: str) -> Iterator[Answer]:
    """A page that has bytes has a line that names a current version. One that was discarded may have one too."""
    *lines, last = reply.split("\n")
    currents: Dict[int, str] = {}
    for line in lines:
        words = line.split(" ")
        if len(words) < 8 or words[0] != "verdict" or "current" not in words:
            return
        currents[int(words[1])] = words[words.index("current") + 1]
    pages = list(currents)
    shown = {page for page, version in currents.items() if version != "0"}
    if last == f"explained {len(lines)}" and pages == sorted(pages) and len(pages) == len(lines):
        if shown >= {page for page, it in enumerate(state.array) if it is not None}:
            yield reply, state


def arm_answers(state: State, command: Command) -> Iterator[Answer]:
    armed = {"cut": command.outcome, "fault": command.outcome, "badread": True}[command.verb]
    yield "armed", state._replace(**{command.verb: armed})


class Run:
    """The states that a run over the replies so far may be in."""

    def __init__(self, config: Config, records: Optional[Records]) -> None:
        self.config = config
        array = records.array() if records else (None,) * config.logical
        self.states: Set[State] = {State(array)}
        self.spending = Spending(config.logical, records)

    def answers(self, state: State, command: Command, reply: str) -> Iterator[Answer]:
        verb = command.verb
        if verb in ARMS:
            yield from arm_answers(state, command)
            return
        if not state.mounted:
            yield from bad_read(state, [state])
            state = state._replace(mounted=True)
        if verb == "read":
            yield from read_answers(state, command.number)
        elif verb == "write":
            yield from write_answers(state, command, self.config, self.spending)
        elif verb in ("step", "finish"):
            yield from writing_answers(state, command)
        elif verb == "stepall":
            yield from step_all_answers(state, self.config.dies)
        elif verb == "abort":
            yield from abort_answers(state, command.number)
        elif verb == "collect":
            yield from collect_answers(state)
        elif verb == "stats":
            yield from stats_answer(state, reply)
        else:
            yield from explain_answer(state, reply)

    def take(self, command: Command, reply: str) -> bool:
        """Goes on by this reply; whether any state is left."""
        before = next(iter(self.states))
        self.states = {left for state in self.states for said, left in self.answers(state, command, reply)
                       if said == reply}
        word = reply.split(" ")[0]
        if word == "open":
            self.spending.note_open(command.entries)
        elif word in ("cut", "dropped"):
            self.spending.note_loss()
        elif word == "moved":
            for it in before.open[:int(reply.split(" ")[1])]:
                if it.written == len(it.writes) - 1:
                    self.spending.note_done(it.writes)
        elif word in ("done", "late"):
            done = before.find(command.number)
            self.spending.note_done(done.writes if done else ())
        return bool(self.states)

    def open_pages(self) -> FrozenSet[int]:
        return frozenset(page for it in next(iter(self.states)).open for page, _ in it.writes)

    def last_arrays(self) -> Set[Pages]:
        """What the image may hold when the run ends here."""
        return {it.settled().array for it in self.states}
