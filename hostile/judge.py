"""What is wrong with one run of the program, if anything: its status, what it said, and what it left of its files."""
from typing import FrozenSet, List, Optional

from counts import Counts
from grammar import BadLine, Command, parse
from image import BLANK, COMPLETE, DAMAGED, DEFAULT, MAX_FILE, Config, Image
from laws import Reading, Records, read
from machine import Run
from program import LONGEST, Ended


class Wrong(Exception):
    """What is wrong, in words."""


def need(holds: bool, why: str) -> None:
    if not holds:
        raise Wrong(why)


def split_replies(said: str, commands: List[Command]) -> List[str]:
    """One reply for each command; that of `explain` is several lines, up to the one that counts them."""
    need(said == "" or said.endswith("\n"), "the last line does not end")
    lines, replies, at = said.split("\n")[:-1], [], 0
    for command in commands:
        end = at + 1
        while command.verb == "explain" and end <= len(lines) and lines[end - 1].startswith("verdict "):
            end += 1
        need(end <= len(lines), "fewer replies than commands")
        replies.append("\n".join(lines[at:end]))
        at = end
    need(at == len(lines), "more replies than commands")
    return replies


class Served:
    """A run that was served, reply by reply."""

    def __init__(self, config: Config, records: Optional[Records]) -> None:
        self.run, self.counts = Run(config, records), Counts()
        self.is_whole = True
        self.report: Optional[str] = None
        self.tidy = False
        self.open_pages: FrozenSet[int] = frozenset()

    def take(self, number: int, command: Command, reply: str) -> None:
        """Goes on by a reply, which has to be one that a run may have."""
        need(self.run.take(command, reply), f"command {number}, {command.verb}: no run is answered {reply[:200]!r}")
        wrong = self.counts.take(command, reply)
        need(wrong is None, f"command {number}, {command.verb}: {wrong}")
        if command.verb in ("step", "finish", "stepall", "collect"):
            self.report, self.tidy = None, reply == "nothing"
            self.open_pages = self.run.open_pages()
        if reply in ("fault", "dropped"):
            self.is_whole = False
        elif command.verb == "explain" and self.is_whole:
            self.report = reply

    def check_saved(self, data: bytes, old: Image) -> None:
        """Looks whether this image may be the one that is saved at the end."""
        left = read(data, "")
        need(left.status == 0, f"the saved image is refused: {left.said[:100]}")
        assert left.image and left.records
        need(left.image.config == old.config, "the saved image has another configuration")
        need(left.image.extras == old.extras, "the saved image has other retired blocks")
        need(self.counts.calls is None or self.counts.broken is None or
             is_moved(old, left.image, self.counts.programs, self.counts.erases, self.counts.broken,
                      self.counts.broken_together * old.config.dies),
             "more slots have changed than the programs and erases of `stats` can change")
        need(left.records.array() in self.run.last_arrays(), "the saved image has an array that no run ends with")
        need(self.report in (None, left.said[:-1]), "a report is not that of the records that were saved")
        need(not self.tidy or is_tidy(left.image, left.records, self.open_pages), "`nothing` over an untidy image")


def is_moved(old: Image, new: Image, programs: int, erases: int, broken: int, more: int) -> bool:
    """Whether so many programs and erases, and so many broken ones, may lead from one image to the other. So many more
    programs may have been done together with broken ones."""
    size = old.config.pages_per_block
    changed = [slot for slot, (it, other) in enumerate(zip(old.slots, new.slots)) if it != other]
    erased = {slot // size for slot in changed if old.slots[slot].state != BLANK}
    programmed = [slot for slot in changed if slot // size not in erased]
    lost = {slot // size for slot in programmed if new.slots[slot].state == DAMAGED}
    whole = [slot for slot in programmed if new.slots[slot].state == COMPLETE]
    return len(erased) <= erases + broken and len(whole) <= programs + broken + more and len(lost) <= broken


def is_tidy(image: Image, records: Records, open_pages: FrozenSet[int]) -> bool:
    """What `nothing` tells: no damaged slot, no record twice, and each one is wanted or of an open transaction."""
    wanted, found = set(records.wanted()), [it.record for it in records.placed]
    kept = [it in wanted or (it.page in open_pages and it.version == records.newest(it.page)) for it in found]
    return all(it.state != DAMAGED for it in image.slots) and len({it.name for it in found}) == len(found) and all(kept)


def serve(config: Config, records: Optional[Records], commands: List[Command], said: str) -> Served:
    """The run that was answered so."""
    served = Served(config, records)
    for number, (command, reply) in enumerate(zip(commands, split_replies(said, commands)), 1):
        served.take(number, command, reply)
    return served


def check_end(ended: Ended) -> None:
    need(ended.status >= 0, f"ended by signal {-ended.status}")
    need(ended.seconds <= LONGEST, f"took {ended.seconds:.1f} seconds")


def check_said(ended: Ended, status: int, said: str) -> None:
    need(ended.status == status and ended.said == said.encode(),
         f"status {ended.status} and {ended.said[:200]!r}, wanted {status} and {said[:200]!r}")


def check_explain(reading: Reading, ended: Ended, before: bytes, after: Optional[bytes]) -> None:
    check_end(ended)
    check_said(ended, reading.status, reading.said)
    need(before == after, "the image has changed")


def refusal(reading: Reading, commands: Optional[bytes], name: str) -> Optional[Reading]:
    """The first reason for which a `run` serves nothing; where the commands are good, `unsound` is the last."""
    if reading.status == 9:
        return reading
    if commands is None:
        return Reading(2, f"no file {name}\n", None, None)
    if len(commands) > MAX_FILE:
        return Reading(9, f"file too long {name}\n", None, None)
    if reading.status == 3:
        return reading
    assert reading.image
    parsed = parse(commands, reading.image.config.page_bytes)
    if isinstance(parsed, BadLine):
        return Reading(4, f"bad line {parsed.number}\n", None, None)
    return reading if reading.status else None


def check_run(reading: Reading, before: bytes, commands: Optional[bytes], name: str, ended: Ended,
              after: Optional[bytes]) -> List[str]:
    """Answers the replies, none where the run is refused."""
    check_end(ended)
    refused = refusal(reading, commands, name)
    if refused:
        check_said(ended, refused.status, refused.said)
        need(before == after, "the image has changed")
        return []
    need(ended.status == 0, f"status {ended.status} and {ended.said[:200]!r}, wanted 0")
    assert reading.image and reading.records and commands is not None
    config = reading.image.config
    parsed = parse(commands, config.page_bytes)
    assert isinstance(parsed, list)
    served = serve(config, reading.records, parsed, ended.said.decode("ascii"))
    need(after is not None, "there is no image any more")
    served.check_saved(after or b"", reading.image)
    return split_replies(ended.said.decode("ascii"), parsed)


def refused_block(reading: Reading, block: int) -> Optional[Reading]:
    """Why a `retire` of this block is refused, if it is."""
    if reading.status:
        return reading
    assert reading.image
    config, extras = reading.image.config, reading.image.extras
    if block >= config.blocks_per_die * config.dies:
        return Reading(14, f"refused block {block}\n", None, None)
    return Reading(14, f"refused worn {extras.allowance}\n", None, None) if extras.retired == extras.allowance else None


def check_retire(reading: Reading, before: bytes, block: int, ended: Ended, after: Optional[bytes]) -> str:
    """Answers what came of it, in two words."""
    check_end(ended)
    refused = refused_block(reading, block)
    if refused:
        check_said(ended, refused.status, refused.said)
        need(before == after, "the image has changed")
        return " ".join(refused.said.split()[:2])
    check_said(ended, 0, f"retired {block}\n")
    left = read(after or b"", "")
    need(left.status == 0, f"the saved image is refused: {left.said[:100]}")
    assert reading.image and reading.records and left.image and left.records
    config, extras = reading.image.config, reading.image.extras
    need(left.image.config == config, "the saved image has another configuration")
    need(left.image.extras == extras._replace(retired=extras.retired + 1), "the saved image has other retired blocks")
    need(left.records.array() == reading.records.array(), "the saved image has another array")
    slots = left.image.slots[block * config.pages_per_block:(block + 1) * config.pages_per_block]
    need(all(it.state == BLANK for it in slots), "the block is not blank")
    return "one block"


def check_try(commands: bytes, name: str, ended: Ended) -> List[str]:
    """Answers the replies, none where the commands are refused."""
    check_end(ended)
    if len(commands) > MAX_FILE:
        check_said(ended, 9, f"file too long {name}\n")
        return []
    parsed = parse(commands, DEFAULT.page_bytes)
    if isinstance(parsed, BadLine):
        check_said(ended, 4, f"bad line {parsed.number}\n")
        return []
    need(ended.status == 0, f"status {ended.status} and {ended.said[:200]!r}, wanted 0")
    said = ended.said.decode("ascii")
    serve(DEFAULT, None, parsed, said)
    return split_replies(said, parsed)
