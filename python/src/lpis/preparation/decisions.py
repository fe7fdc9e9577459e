"""Who accepted what stops a run: findings.csv has a row for each finding that stops, and where it is accepted every
column of the table of marks that accepted it (who, why, when, any other). That table is kept beside it, byte for byte,
under its sha256. So a year's folder says who accepted what; the log has the digests of all of it.

    decisions.add_changes(folder, rows, marks)  the changes since last year that were accepted, behind its rows
    decisions.counts(folder)                    how many rows each accepted, by name
    decisions.faults_of(folder, digests)        accepted rows whose table is not there as it was
"""

from __future__ import annotations

import csv
import os
import re
import shutil
from collections import Counter
from collections.abc import Iterable, Iterator
from dataclasses import dataclass, field

from ..formats import guarded_csv
from ..system import files
from ..system.printing import escaped

FILE = "findings.csv"
OPEN, NEW, ACCEPTED, GONE = "open", "new", "accepted", "gone"  # states
TOLD = "told"  # the state of what was settled without asking, since it is too narrow to stop
BY_OPTION, BY_OTHERS = "--accept", "its cause"  # who accepted a row that no table of marks has
WHO = "who"  # the column of a table of marks that names who accepted
COLUMNS = [
    "number",
    "state",
    "accepted",
    "who",
    "why",
    "kind",
    "layer",
    "row",
    "identifiers",
    "comes_from",
    "width_m",
    "area_m2",
    "x",
    "y",
    "words",
    "accepted_by",
    "file",
    "sha256",
]
PLACE = "place"
# What a table of marks has beside what somebody wrote into it: columns of findings, of reports, and of changes since
# last year.
OWN = {*COLUMNS, PLACE, "identifier", "stops", "done", "of", "before", "after", "difference", "percent"} - {
    "who",
    "why",
}
NUMBERS = ("width_m", "area_m2", "x", "y")  # no texts: a minus before one makes no formula
ON_ITS_OWN = "lost"  # it stands below its cause, and is to be decided all the same: an identifier goes
WHOLE = ("system", "table", "degrees", "previous", "rows")  # of a layer or of the source: pages show these first
CHANGE = "change since last year"  # the layer of such a row
KEPT = re.compile(r"accepted-[0-9a-f]{12}\.csv")
MOST_TOLD = 20

csv.field_size_limit(1 << 30)


def name_of(digest: str) -> str:
    """The name under which a table of marks is kept."""
    return f"accepted-{digest[:12]}.csv"


@dataclass(frozen=True)
class Decision:
    """Who accepted a row; of a table of marks its name, its sha256, and what else it has of the row."""

    by: str
    file: str = ""
    digest: str = ""
    more: dict[str, str] = field(default_factory=dict)


class Tables:
    """The tables of marks of a run."""

    def __init__(self) -> None:
        self.paths: dict[str, str] = {}  # by their digests

    def add(self, path: str) -> str:
        """Takes a table; its digest."""
        digest = files.digest(path)
        self.paths[digest] = path
        return digest

    def decision(self, digest: str, record: dict[str, str]) -> Decision:
        """That of a row of a table: who it names, or who accepted the row in a table that a run wrote."""
        name, more = os.path.basename(self.paths[digest]), notes_of(record)
        before = guarded_csv.plain(record.get("accepted_by") or "")
        by = more.get(WHO) or (before if before not in (BY_OPTION, BY_OTHERS) else "") or name
        return Decision(by, name, digest, more)

    def keep(self, folder: str) -> None:
        """Puts a copy of each into a folder."""
        for digest, path in self.paths.items():
            place = os.path.join(folder, name_of(digest))
            if not (os.path.isfile(place) and files.digest(place) == digest):
                with files.anew(place, "wb") as file, open(path, "rb") as source:
                    shutil.copyfileobj(source, file)


# The table.


def notes_of(record: dict[str, str]) -> dict[str, str]:
    """What somebody wrote beside a row."""
    return {key: guarded_csv.plain(value) for key, value in record.items() if key not in OWN and value}


def fields_of(record: dict, columns: Iterable[str]) -> list:
    return [record.get(name) if name in NUMBERS else guarded_csv.text(record.get(name)) for name in columns]


def decided(decision: Decision | None) -> dict[str, str]:
    """The columns that tell of a decision; a row without one is open."""
    if decision is None:
        return {"state": OPEN}
    return {
        **decision.more,
        "state": ACCEPTED,
        "accepted": "1" if decision.digest else "",
        "accepted_by": decision.by,
        "file": decision.file,
        "sha256": decision.digest,
    }


def write(folder: str, rows: list[dict], more: Iterable[str] = ()) -> None:
    """Writes the table of these rows; `more` are columns of the source."""
    others = dict.fromkeys(name for row in rows for name, value in row.items() if value)
    at, more = COLUMNS.index("words"), [name for name in more if name not in COLUMNS and name != PLACE]
    columns = [*COLUMNS[:at], *more, *COLUMNS[at:]]
    columns += [*(name for name in others if name not in columns and name != PLACE), PLACE]
    with files.anew(os.path.join(folder, FILE), newline="") as file:
        table = guarded_csv.Writer(file)
        table.writerow(columns)
        table.writerows(fields_of(row, columns) for row in rows)


def records(folder: str) -> Iterator[dict[str, str]]:
    """The rows of a folder's table; none where it has none."""
    path = os.path.join(folder, FILE)
    if not os.path.isfile(path):
        return
    with open(path, newline="", encoding="utf-8", errors="replace") as file:
        try:
            for row in csv.DictReader(file):
                yield {
                    name: guarded_csv.plain(value)
                    for name, value in row.items()
                    if isinstance(name, str) and isinstance(value, str)
                }
        except csv.Error as error:
            raise OSError(f"{path} cannot be read to its end: {error}") from None


def kept_columns(folder: str) -> tuple[list[str], dict[int, list[str]]]:
    """The columns of the source that a folder's table has, and their values by the numbers of its rows."""
    columns: list[str] = []
    values = {}
    for row in records(folder):
        names = list(row)
        if "number" not in row or "words" not in row:
            return [], {}
        columns = names[names.index("y") + 1 : names.index("words")] if "y" in row else []
        if row["number"].isdecimal():
            values[int(row["number"])] = [row[name] for name in columns]
    return columns, values


def add_changes(folder: str, rows: Iterable, marks) -> None:
    """Adds the changes since last year that marks accept, in place of those of a run before."""
    taken = [(row, marks.decision(row)) for row in rows]
    taken = [(row, decision) for row, decision in taken if decision]
    if not taken and not os.path.isfile(os.path.join(folder, FILE)):
        return
    marks.tables.keep(folder)
    before = [row for row in records(folder) if row.get("layer") != CHANGE]
    changes = [
        {
            "kind": row.kind,
            "layer": CHANGE,
            "identifiers": f"{row.of} {row.identifier}".strip(),
            "words": row.line(),
            **decided(decision),
        }
        for row, decision in taken
    ]
    write(folder, [*before, *changes])


# What it says.


def names_in(folder: str) -> list[str]:
    """The table and the tables of marks that its rows name, where they are there."""
    named = {name_of(row["sha256"]) for row in records(folder) if row.get("sha256")}
    return [name for name in (FILE, *sorted(named)) if os.path.isfile(os.path.join(folder, name))]


def left_over(folder: str) -> list[str]:
    """Tables of marks of earlier runs, which no row names."""
    named = names_in(folder)
    return [name for name in sorted(os.listdir(folder)) if KEPT.fullmatch(name) and name not in named]


def counts(folder: str) -> Counter:
    """How many rows each accepted; rows that no one accepted for themselves come last."""
    found = Counter(row.get("accepted_by") or BY_OPTION for row in records(folder) if row.get("state") == ACCEPTED)
    order = sorted(found, key=lambda name: (name == BY_OTHERS, name == BY_OPTION, -found[name], name))
    return Counter({name: found[name] for name in order})


def states(folder: str) -> dict[str, int]:
    """How many findings of each state there are."""
    found = Counter(row.get("state") for row in records(folder) if row.get("layer") != CHANGE)
    return {state: found[state] for state in (OPEN, NEW, ACCEPTED, GONE, TOLD) if found[state]}


def in_words(found: dict[str, int]) -> str:
    """accepted by NAME: 12, by --accept: 77."""
    told = [f"by {escaped(name)}: {count}" for name, count in found.items() if name != BY_OTHERS]
    told += [f"with {BY_OTHERS}: {found[BY_OTHERS]}"] if found.get(BY_OTHERS) else []
    return f"accepted {', '.join(told)}" if told else ""


def faults_of(folder: str, digests: dict[str, str]) -> list[str]:
    """What is not there as it was when a year was published: the table, and of each accepted row the table of marks."""
    wrong = [
        f"{os.path.join(folder, name)} {'changed since' if os.path.isfile(os.path.join(folder, name)) else 'is gone'}:"
        " it says who accepted what"
        for name, digest in digests.items()
        if not is_there(folder, name, digest)
    ]
    lacking, known = [], {}
    for number, row in enumerate(records(folder), 1):
        digest = row.get("sha256") or ""
        if row.get("state") == ACCEPTED and (digest or row.get("accepted_by") not in (BY_OPTION, BY_OTHERS)):
            if digest not in known:
                known[digest] = bool(digest) and is_there(folder, name_of(digest), digest)
            if not known[digest]:
                lacking.append(
                    f"{os.path.join(folder, FILE)} row {number}:"
                    f" {row.get('kind')} {escaped(row.get('identifiers') or '')} was accepted by"
                    f" {escaped(row.get('accepted_by') or 'nobody')}, and the table that says so is not there"
                    f" ({escaped(row.get('file') or 'no file')}, sha256 {digest or 'none'})"
                )
    more = (
        [f"and {len(lacking) - MOST_TOLD} more rows of {os.path.join(folder, FILE)} without their table"]
        if len(lacking) > MOST_TOLD
        else []
    )
    return [*wrong, *lacking[:MOST_TOLD], *more]


def is_there(folder: str, name: str, digest: str) -> bool:
    path = os.path.join(folder, name)
    return os.path.isfile(path) and files.digest(path) == digest
