"""findings.csv, the table of what stops or is settled, which lives from run to run and from year to year: a row a
finding, with a number that holds while its kind and its place hold, although its row was renamed. What comes of a
finding stands below it. A row is open, new since the last run, accepted, told, or gone; what somebody wrote beside it
stays.

    table = Table(folder, standing, previous, accept, say)
    table.take(found)          who accepted what, and the numbers; `accept` takes then what comes of what it accepts
    table.write()              findings.csv of the folder, and the tables of marks beside it
"""

from __future__ import annotations

import os
from dataclasses import dataclass, field
from functools import cached_property
from typing import Any, Callable, Iterable, Iterator

from ..system import files
from ..system.progress import Note
from . import consequences, decisions, outlines
from .acceptance import Accepting, Left
from .decisions import ACCEPTED, FILE, GONE, NEW, OPEN, PLACE, TOLD, Decision
from .finding_numbers import Known


@dataclass
class Row:
    """A finding that stops, or a loss, with what the table tells of it."""

    found: Any
    causes: list[int] = field(default_factory=list)  # places of other rows
    number: int = 0
    state: str = OPEN
    comes_from: str = ""  # the numbers of its causes
    decision: Decision | None = None
    notes: dict[str, str] = field(default_factory=dict)  # what somebody wrote beside it
    kept: dict[str, str] = field(default_factory=dict)  # columns of the source

    def __post_init__(self) -> None:
        one = self.found
        self.kind, self.words, self.area, self.key_words, self.at = one.kind, one.words, one.area, one.key_words, one.at

    @cached_property
    def blob(self) -> bytes | None:
        """Its polygons, worked out once."""
        return self.found.polygons()

    def polygons(self) -> bytes | None:
        return self.blob

    @cached_property
    def place(self) -> str:
        return outlines.text_of(self.blob) if self.blob else ""

    def outline(self) -> str:
        return self.place

    def is_own(self) -> bool:
        """Whether it is to be decided, and does not go with what it comes of."""
        return not self.causes or self.kind == decisions.ON_ITS_OWN

    def told(self) -> tuple:
        """Its values in the last columns of findings.gpkg."""
        return self.number, self.state, self.comes_from

    def record(self) -> dict:
        """Its row of the table."""
        kind, layer, row, names = self.key_words()
        sizes = {"width_m": self.found.width, "area_m2": self.area}
        sizes.update(zip("xy", self.at() or (None, None)))
        return {
            **self.notes,
            **decisions.decided(self.decision),
            **self.kept,
            **{name: "" if value is None else f"{value:.{3 if name in 'xy' else 4}f}" for name, value in sizes.items()},
            "number": str(self.number),
            "state": self.state,
            "kind": kind,
            "layer": layer,
            "row": str(row),
            "identifiers": names,
            "comes_from": self.comes_from,
            "words": self.words,
            PLACE: self.place,
        }


class Table:
    """The table of a run in a folder. `standing` is the folder that has the table of the last run, `previous` last
    year's."""

    def __init__(
        self,
        folder: str,
        standing: str,
        previous: str | None,
        accept: Accepting,
        say: Callable,
    ) -> None:
        self.folder, self.accept, self.say = folder, accept, say
        self.kept: Any = None  # the columns of the source that go with rows of its layers
        self.has_row: Callable | None = None  # whether the source has a row of a layer and a name
        self.rows: list[Row] = []
        self.settled: list[Row] = []
        self.is_whole = True
        before = [place for place in (standing, previous) if place and os.path.isfile(os.path.join(place, FILE))]
        self.is_later = bool(before)
        if before:
            set_aside(before[0], accept, say)
        self.known = Known(
            row for row in (decisions.records(before[0]) if before else ()) if row.get("layer") != decisions.CHANGE
        )

    def take(self, found: Iterable, is_whole: bool = True, settled: Iterable = ()) -> None:
        """Takes what stops, and what is settled without asking. Of a run that stopped at once (not whole) the other
        rows stay as they were."""
        self.rows, self.is_whole = [Row(one) for one in found], is_whole
        self.settled = [Row(one, state=TOLD) for one in settled]
        for at, causes in consequences.causes_of(self.rows).items():
            self.rows[at].causes = causes
        self.accept.bind(self.rows)
        for row in self.rows:
            row.decision = None if is_hopeless(row.found) else self.accept.decision(row)
        self.follow()
        if is_whole:
            self.tell_unfit()
        before = self.known.take([*self.rows, *self.settled], self.has_row)
        for at in self.order():
            self.tell(self.rows[at], before.get(at))
        for at, row in enumerate(self.settled, len(self.rows)):
            self.tell(row, before.get(at))
        for row in self.rows:
            row.comes_from = " ".join(str(number) for number in sorted(self.rows[at].number for at in row.causes))
        if self.kept:
            every = [*self.rows, *self.settled]
            for row, values in zip(every, self.kept.of_rows([row.key_words()[1:3] for row in every])):
                row.kept = values

    def tell_unfit(self) -> None:
        """Says which marks are for nothing that was found."""
        told = list(self.accept.unfit([*self.rows, *self.settled]))
        for words in told[: decisions.MOST_TOLD]:
            self.say(Note(words))
        if len(told) > decisions.MOST_TOLD:
            self.say(Note(f"and {len(told) - decisions.MOST_TOLD} more marks that are for nothing that was found"))

    def follow(self) -> None:
        """What comes of rows that are all accepted is accepted."""
        for row in self.rows:
            if row.decision is None and not row.is_own() and self.is_accepted(row.causes):
                row.decision = Decision(decisions.BY_OTHERS)
                self.accept.follow(row)

    def is_accepted(self, causes: list[int]) -> bool:
        """Whether all causes are: they, or what they come of themselves."""
        return all(
            row.decision or (not row.is_own() and self.is_accepted(row.causes))
            for row in (self.rows[at] for at in causes)
        )

    def order(self) -> list[int]:
        """The places of the rows by number, where they have one; what comes of one stands below it."""
        below: dict[int, list[int]] = {}
        for at in sorted(range(len(self.rows)), key=lambda at: (self.rows[at].number, at), reverse=True):
            below.setdefault(min(self.rows[at].causes, default=-1), []).append(at)
        waiting, made = below.get(-1, [])[:], []
        while waiting:
            made.append(waiting.pop())
            waiting += below.get(made[-1], [])
        return made

    def tell(self, row: Row, before: dict | None) -> None:
        """Gives a row its number, its state and its notes."""
        is_new = before is None or before.get("state") in (GONE, TOLD)
        row.number = int(before["number"]) if before else self.known.next
        self.known.next += before is None
        if row.state != TOLD:
            row.state = ACCEPTED if row.decision else NEW if is_new and self.is_later else OPEN
        columns = self.kept.columns if self.kept else ()
        noted = self.accept.notes_of(row.number, row.kind) or decisions.notes_of(before or {})
        row.notes = {name: value for name, value in noted.items() if name not in columns}

    def write(self) -> None:
        """Writes the table, and the tables of marks beside it."""
        self.accept.tables.keep(self.folder)
        rows = [self.rows[at].record() for at in self.order()] + [row.record() for row in self.settled]
        decisions.write(
            self.folder, [*rows, *map(self.left, self.known.left())], self.kept.columns if self.kept else ()
        )

    def left(self, record: dict) -> dict:
        """A row of before that was not found: gone, where all was looked for."""
        if not self.is_whole:
            return record
        return {**record, "state": GONE, "accepted": "", "accepted_by": "", "file": "", "sha256": ""}

    # What it says.

    def told(self) -> Iterator[tuple]:
        """The last columns of findings.gpkg, of each row that stops as they were taken."""
        return (row.told() for row in self.rows)

    def told_settled(self) -> Iterator[tuple]:
        """The same of each that is settled without asking."""
        return (row.told() for row in self.settled)

    def left_open(self) -> Left:
        """What is to be decided and is not accepted, or cannot be."""
        return Left(row for row in self.rows if row.is_own() and not row.decision)

    def count(self) -> int:
        """How many there are to decide."""
        return sum(row.is_own() for row in self.rows)

    def following(self) -> str:
        """How many come of others, in words behind a count."""
        count = sum(not row.is_own() for row in self.rows)
        return f", and {count} that {'comes' if count == 1 else 'come'} from others" if count else ""


def is_hopeless(found: Any) -> bool:
    """Whether it stops whatever is accepted."""
    return hasattr(found, "is_hopeless") and found.is_hopeless()


def set_aside(folder: str, accept: Accepting, say: Callable) -> None:
    """Keeps a table in which somebody marked rows, and which no run was asked to take."""
    path = os.path.join(folder, FILE)
    marked = (row.get("accepted") == "1" and row.get("state") != ACCEPTED for row in decisions.records(folder))
    if any(marked) and files.digest(path) not in accept.tables.paths:
        say(Note(f"{path} has marks, and --accept-from does not name it: it is kept as {files.aside(path)}"))
