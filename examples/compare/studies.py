"""Both protocols under the same work, of which one number is varied at a time."""
from __future__ import annotations

from dataclasses import dataclass, field, fields, replace
from functools import partial
from typing import Any, Dict, List, NamedTuple, Sequence, Set, Tuple, Union

from counts import Count, points, total
from pictures import Chart, Series
from progress import all_of, tell
from serving import Flash
from shape import PROTOCOLS, Problem, Shape, shape_of
from sheets import Cell, Table
from work import Work, fill, transactions

Number = Union[int, float]
PROGRAMMED = "pages programmed for each page written"
HEAD = (
    "protocol", "pages written", "pages programmed", "copies", "blocks erased",
    "programmed for a page written", "erased for 100 pages written", "done", "aborted", "cut",
)  # fmt: skip


@dataclass(frozen=True)
class Base:
    """A work and the device that it comes to."""

    work: Work = field(default_factory=Work)
    slots: int = 1024
    block: int = 16
    dies: int = 2
    full: float = 0.7
    """The share of the slots that are logical pages."""
    pending: int = 32
    pages: int = 7500
    """About how many pages the work writes."""

    def shape(self) -> Shape:
        return shape_of(self.slots, self.block, self.dies, self.full, self.pending)

    def varied(self, changes: Dict[str, Any]) -> Base:
        """The same with other numbers. As many transactions are drawn as write so many pages."""
        names = {one.name for one in fields(Work)}
        work = replace(self.work, **{name: value for name, value in changes.items() if name in names})
        base = replace(self, work=work, **{name: value for name, value in changes.items() if name not in names})
        return replace(base, work=replace(work, transactions=round(2 * self.pages / (work.least + work.most))))


class Study(NamedTuple):
    name: str
    title: str
    number: str
    """The name of the number that is varied."""
    axis: str
    """The same in words."""
    values: Sequence[Number]
    variants: Sequence[Tuple[str, Dict[str, Any]]] = (("base", {}),)
    """For each two lines of the picture what else differs from the base."""

    def changes(self, value: Number) -> Dict[str, Any]:
        return {"least": value, "most": value} if self.name == "sizes" else {self.number: value}

    def varied_names(self) -> Set[str]:
        """The names of the numbers that are those of the base nowhere."""
        return {*self.changes(0), *set.intersection(*(set(more) for _, more in self.variants))}


FULL = [("half full", {"full": 0.5}), ("80 % full", {"full": 0.8})]
ABORTS = [("no aborts", {"aborts": 0.0}), ("20 % aborts", {"aborts": 0.2})]
HARD = ("skewed, 80 % full, cuts", {"zipf": 0.99, "full": 0.8, "aborts": 0.08, "cuts": 0.04})
SHARE = "share of the transactions"
STUDIES = (
    Study(
        "fullness", "By fullness", "full", "logical pages, as a share of the slots",
        (0.3, 0.4, 0.5, 0.6, 0.7, 0.8, 0.85, 0.9, 0.95), ABORTS,
    ),
    Study("aborts", "By transactions given up", "aborts", SHARE, (0.0, 0.02, 0.05, 0.1, 0.2, 0.3, 0.5), FULL),
    Study("cuts", "By transactions that a power cut ends", "cuts", SHARE, (0.0, 0.01, 0.02, 0.04, 0.08), FULL),
    Study("sizes", "By the size of a transaction", "most", "pages", (1, 2, 4, 8, 16, 32)),
    Study("discards", "By discards", "discards", "share of the pages written", (0.0, 0.1, 0.2, 0.4)),
    Study("skew", "By skew", "zipf", "exponent of Zipf's law", (0.0, 0.5, 0.8, 0.99, 1.2, 1.5), ABORTS),
    Study("blocks", "By the size of a block", "block", "slots", (2, 4, 8, 16, 32, 64), [*ABORTS, HARD]),
    Study("dies", "By dies", "dies", "dies", (1, 2, 4, 8)),
)  # fmt: skip


class Counted(NamedTuple):
    value: Number
    variant: str
    protocol: str
    result: Count

    @property
    def line(self) -> str:
        return self.protocol if self.variant == "base" else f"{self.protocol}, {self.variant}"


def count_base(program: str, base: Base) -> List[Count]:
    """What each protocol did for the same work, from the end of the first filling."""
    shape = base.shape()
    first, parts = list(fill(shape.logical, shape.pending)), list(transactions(base.work, shape))
    counts = []
    for protocol in PROTOCOLS:
        with Flash(program, shape, protocol) as flash:
            counts.append(total(flash, first, parts))
    return counts


def is_possible(study: Study, value: Number, base: Base) -> bool:
    """Whether there is such a device, and such work for it. What is not is told and left out."""
    try:
        base.work.check(base.shape())
    except Problem as problem:
        tell(f"{study.name}: {value} is left out: {problem}")
        return False
    return True


def count_study(program: str, study: Study, base: Base) -> List[Counted]:
    """All that is possible from this base."""
    drawn = [
        (value, variant, base.varied({**more, **study.changes(value)}))
        for variant, more in study.variants
        for value in study.values
    ]
    cells = [(value, variant, own) for value, variant, own in drawn if is_possible(study, value, own)]
    all_counts = all_of(study.name, [partial(count_base, program, own) for _, _, own in cells])
    return [
        Counted(value, variant, protocol, count)
        for (value, variant, _), counts in zip(cells, all_counts)
        for protocol, count in zip(PROTOCOLS, counts)
    ]


def numbers_of(count: Count) -> List[Union[int, float]]:
    return [
        count.written, count.programs, count.copies, count.erases,
        count.amplification, count.erases_by_page, count.done, count.aborted, count.cut,
    ]  # fmt: skip


def table_of(study: Study, counted: Sequence[Counted]) -> Table:
    """All that was counted."""
    rows = [[one.variant, one.value, one.protocol, *numbers_of(one.result)] for one in counted]
    return Table(study.name, study.title, ("work", study.number, *HEAD), rows)


def brief_of(study: Study, counted: Sequence[Counted]) -> Table:
    """Both protocols side by side."""
    rows: List[Sequence[Cell]] = []
    for one, other in zip(counted[::2], counted[1::2]):
        scc, bpcc = one.result, other.result
        rows.append([
            one.variant, one.value, scc.amplification, bpcc.amplification, scc.erases_by_page, bpcc.erases_by_page,
            scc.copies, bpcc.copies,
        ])  # fmt: skip
    head = ("work", study.number, "programmed/page scc", "bpcc", "erased/100 pages scc", "bpcc", "copies scc", "bpcc")
    return Table(study.name, study.title, head, rows)


def subtitle(base: Base, left_out: Set[str]) -> str:
    """The work and the device in words, but for the numbers that are varied."""
    work = base.work
    words = [
        ({"slots"}, f"{base.slots} slots"),
        ({"block"}, f"blocks of {base.block}"),
        ({"dies"}, f"{base.dies} dies"),
        ({"full"}, f"{100 * base.full:g} % full"),
        ({"least", "most"}, f"{work.least} to {work.most} pages"),
        ({"aborts"}, f"{100 * work.aborts:g} % aborts"),
        ({"cuts"}, f"{100 * work.cuts:g} % cuts"),
        ({"zipf"}, f"Zipf {work.zipf:g}" if work.zipf else "drawn evenly"),
    ]
    return ", ".join(said for names, said in words if not names & left_out)


def chart_of(study: Study, base: Base, counted: Sequence[Counted]) -> Chart:
    """Pages programmed for each page written: a line for each protocol and variant."""
    lines: Dict[str, List[Tuple[float, float]]] = {}
    for one in counted:
        lines.setdefault(one.line, []).append((one.value, one.result.amplification))
    series = [Series(name, places) for name, places in lines.items()]
    return Chart(study.name, study.title, subtitle(base, study.varied_names()), study.axis, PROGRAMMED, series)


def note_on(all_counted: Sequence[Counted]) -> str:
    """How many pages Back Pointer Cyclic Commit programs beside the other, at least and at most."""
    shares = [
        100 * other.result.programs / one.result.programs - 100
        for one, other in zip(all_counted[::2], all_counted[1::2])
        if one.result.programs
    ]
    fewer, same = sum(share < 0 for share in shares), sum(share == 0 for share in shares)
    return (
        f"Of {len(shares)} works bpcc programs fewer pages than scc in {fewer}, as many in {same}: "
        f"from {min(shares):+.1f} % to {max(shares):+.1f} %."
    )


def windows(found: Sequence[Count]) -> List[Count]:
    """What was counted from each point to the next."""
    return [after.since(before) for before, after in zip([Count(), *found], found)]


def count_over_time(program: str, base: Base, every: int, protocol: str) -> List[Count]:
    """The counts of one protocol after each so many transactions."""
    shape = base.shape()
    with Flash(program, shape, protocol) as flash:
        return points(flash, fill(shape.logical, shape.pending), transactions(base.work, shape), every)


def over_time(program: str, base: Base, every: int) -> Tuple[Table, Chart]:
    """Pages programmed for each page written, from each so many transactions to the next."""
    cells = [(name, base.varied(more), protocol) for name, more in ABORTS for protocol in PROTOCOLS]
    tasks = [partial(count_over_time, program, own, every, protocol) for _, own, protocol in cells]
    rows: List[Sequence[Cell]] = []
    series: List[Series] = []
    for (name, _, protocol), counts in zip(cells, all_of("over_time", tasks)):
        parts = windows(counts)
        rows += [[name, every * number, protocol, *numbers_of(part)] for number, part in enumerate(parts, 1)]
        places = [(every * number, part.amplification) for number, part in enumerate(parts, 1)]
        series.append(Series(f"{protocol}, {name}", places))
    title = f"Over time, {every} transactions to a point"
    table = Table("over_time", title, ("work", "transactions", *HEAD), rows)
    return table, Chart("over_time", title, subtitle(base, {"aborts"}), "transactions", PROGRAMMED, series)
