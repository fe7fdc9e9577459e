"""The changes since last year that somebody accepted: the rows of a copy of the table of what changed that have 1 in a
column accepted, each with its figures; and what is left to look at.

    marks = Marks(paths)                        who accepted what
    judged(comparison, marks, before)           how many changes there are, how many nobody accepted, and lines of them
"""

from __future__ import annotations

from collections.abc import Iterable, Iterator
from dataclasses import dataclass, field

from ..formats import guarded_csv
from ..preparation import decisions
from ..source import spreadsheets
from ..system.printing import counted, escaped
from ..system.trouble import Trouble
from .year_comparison import COLUMNS, Comparison, Row

WANTED = COLUMNS[:5]
MARK = "accepted"
COPY = "it is no copy of the table of what changed, with a column accepted"
NOTHING = "nothing changed beyond the bounds"
MOST_TOLD = 20
EPSILON = 0.0011  # the last digit of a figure, as the table has it


class Marks:
    """The rows that somebody accepted, each with its figures."""

    def __init__(self, paths: Iterable[str]):
        self.rows: dict[tuple, list[Mark]] = {}
        self.tables = decisions.Tables()
        for path in paths:
            self.read(path)

    def read(self, path: str) -> None:
        sheet = spreadsheets.read(path)
        records = [{name.lower(): (value or "").strip() for name, value in row.items()} for row in sheet.records]
        lacking = [name for name in (*WANTED, MARK) if name not in map(str.lower, sheet.columns)]
        faults = [f"{path}: {fault.words}" for fault in sheet.faults]
        faults += [f"{path}: no column {' and '.join(lacking)}: {COPY}"] if lacking else []
        if faults:
            raise Trouble(*faults)
        digest = self.tables.add(path)
        for number, record in enumerate(records, 1):
            if record[MARK] not in ("", "0", "1"):
                raise Trouble(f"{path} row {number}: {MARK} is {record[MARK]!r}, and not 1, 0 or empty")
            if record[MARK] == "1":
                self.add(record, f"{path} row {number}", self.tables.decision(digest, record))

    def add(self, record: dict, place: str, decision: decisions.Decision) -> None:
        try:
            figures = tuple(guarded_csv.number(record[name]) for name in ("before", "after"))
        except ValueError:
            raise Trouble(f"{place}: a figure is no number, in a row that is accepted") from None
        key = record["kind"], record["of"], guarded_csv.plain(record["identifier"]).strip()
        self.rows.setdefault(key, []).append(Mark(*figures, decision, place))

    def takes(self, row: Row) -> bool:
        return self.decision(row) is not None

    def decision(self, row: Row) -> decisions.Decision | None:
        """Who accepted a row with its figures; None where nobody did."""
        near = [mark for mark in self.rows.get(row.key(), ()) if mark.is_for(row)]
        for mark in near:
            mark.is_used = True
        return near[0].decision if near else None

    def unused(self) -> Iterator[str]:
        """What is said of marks that no row took so far."""
        for (kind, of, name), marks in self.rows.items():
            for mark in marks:
                if not mark.is_used:
                    yield (
                        f"{mark.place}: {kind} of {f'{of} {escaped(name)}'.strip()} is accepted there, and nothing has"
                        " changed so by these figures"
                    )


@dataclass
class Mark:
    """A row that somebody accepted, with its figures, who did, and where that stands."""

    before: float
    after: float
    decision: decisions.Decision
    place: str
    is_used: bool = False

    def is_for(self, row: Row) -> bool:
        return is_near(self.before, row.before) and is_near(self.after, row.after)


def is_near(one: float, other: float) -> bool:
    return abs(one - other) <= EPSILON


@dataclass
class Judged:
    """How many rows there are, and how many of them nobody accepted; lines for people."""

    count: int = 0
    left: int = 0
    lines: list = field(default_factory=list)


def judged(found: Comparison, marks: Marks, before: object) -> Judged:
    """`before` names the year before."""
    told = Judged()
    for row in found.rows():
        told.count += 1
        if not marks.takes(row):
            told.left += 1
            if told.left <= MOST_TOLD:
                told.lines.append(f"  {row.line()}")
    if told.left > MOST_TOLD:
        told.lines.append(f"  and {told.left - MOST_TOLD} more")
    accepted = f", {told.count - told.left} of them accepted" if told.count > told.left else ""
    changes = f"{counted(told.count, 'change')} to look at{accepted}" if told.count else NOTHING
    told.lines.insert(0, f"against {before}: {changes}")
    unused = list(marks.unused())
    told.lines += unused[:MOST_TOLD]
    told.lines += [f"and {len(unused) - MOST_TOLD} more marks that fit no change"] if len(unused) > MOST_TOLD else []
    told.lines += found.lacking
    return told
