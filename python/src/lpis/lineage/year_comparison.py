"""A year against the one before it: percentages of classes, areas and eligible areas of all, of classes and of
parcels, and identifiers that moved. What passes a bound has a row, which stops a publication until somebody accepts it,
with its figures.

    with Comparison(folder, jump, workers) as found:
        found.compare(register, previous)   the shapes of the year before are the register's, else those of the folder
        found.rows()                        what passes a bound, in the order of ORDER
        found.lacking                       what could not be compared, in words

Of an identifier that is new or gone the sums speak alone: lineage says what became of it. A kept parcel into which
others were merged is compared with all of them together. Sums are whole numbers: doubled square millimetres, and these
times the percentage.
"""

from __future__ import annotations

import argparse
import os
from collections import Counter
from collections.abc import Iterable, Iterator, Sequence
from dataclasses import dataclass, field
from itertools import islice

from ..formats import guarded_csv, polygons, table_streams
from . import parcel_questions, two_years
from ..report import release_report
from ..system import files, progress, shapely_there
from ..formats.square_metres import hectares
from ..system.printing import counted, escaped

OF_SUMS, OF_PARCELS = 1.0, 20.0  # percent
LEAST = 100  # square metres: less of a class or a parcel is a border that moved, or a parcel of some metres
AREA, ELIGIBLE = 2_000_000, 200_000_000  # parts of a square metre
COLUMNS = ["kind", "of", "identifier", "before", "after", "difference", "percent", "words"]
HEAD = ",".join(COLUMNS) + "\n"
NAMED = {"eligible": "eligible area", "area": "area"}
NO_SHAPELY = "parcels that moved are found by their boxes alone: Shapely is not there (Debian: python3-shapely)"
NO_TABLES = "percentages of classes and eligible areas are not compared: {}; --previous FOLDER names last year's tables"
NO_SHAPES = "the area of all, and {} are not compared: the register keeps no shape of them"
FOUND = "CREATE TABLE found (kind TEXT, of_what TEXT, name TEXT, before REAL, after REAL, words TEXT)"
SHARE = "CREATE TABLE share (name TEXT PRIMARY KEY, eligible INTEGER) WITHOUT ROWID"
SHARES = """SELECT name, its.eligible, share.eligible FROM share JOIN past.share AS its USING (name)
            WHERE abs(share.eligible - its.eligible) > ?
              AND name NOT IN (SELECT name FROM found WHERE kind = 'area' AND of_what = 'parcel') ORDER BY name"""
ORDER = """CASE kind WHEN 'percent' THEN 0 WHEN 'moved' THEN 3
           ELSE CASE of_what WHEN 'all' THEN 1 WHEN 'class' THEN 2 ELSE 4 END END"""
HELP = "what a sum, and a parcel, may change since last year without being looked at (default 1,20)"
HELP_OF_MARKS = "accept the rows of a copy of the table of what changed that have 1 in a column accepted"


@dataclass(frozen=True)
class Jump:
    """What may change without a row, in percent of what was there before."""

    sums: float = OF_SUMS
    parcels: float = OF_PARCELS

    def passes(self, of: str, before: int, after: int, least: int) -> bool:
        """Whether a sum (`least` is 100 square metres of its unit) jumps; that of all has no least."""
        bound = self.parcels if of == "parcel" else self.sums
        return abs(after - before) * 100 > bound * abs(before) and (of == "all" or abs(after - before) > least)


def jump_of(text: str) -> Jump:
    """`PERCENT`, of sums, or `PERCENT,PERCENT`, of sums and of parcels."""
    sums, _, parcels = text.partition(",")
    values = float(sums), float(parcels) if parcels else OF_PARCELS
    if not all(0 <= value < float("inf") for value in values):
        raise ValueError
    return Jump(*values)


def add_options(parser: argparse.ArgumentParser) -> None:
    parser.add_argument("--jump", metavar="PERCENT[,PERCENT]", type=jump_of, default=Jump(), help=HELP)
    parser.add_argument("--accept-from", metavar="FILE", action="append", default=[], help=HELP_OF_MARKS)


@dataclass(frozen=True)
class Row:
    """A thing that changed by more than it may; square metres or a percentage before and now."""

    kind: str
    of: str  # all, class or parcel
    identifier: str
    before: float
    after: float
    words: str = ""

    def fields(self) -> list[str]:
        figures = [f"{value:.3f}" for value in (self.before, self.after, self.after - self.before)]
        return [
            self.kind,
            self.of,
            guarded_csv.text(self.identifier),
            *figures,
            self.percent(),
            guarded_csv.text(self.words),
        ]

    def percent(self) -> str:
        return f"{100 * (self.after - self.before) / self.before:.2f}" if self.before else ""

    def key(self) -> tuple[str, str, str]:
        return self.kind, self.of, self.identifier.strip()

    def line(self) -> str:
        """For people."""
        name = f"{self.of} {escaped(self.identifier)}" if self.identifier else "all"
        words = self.words and f": {self.words}"
        if self.kind == "moved":
            return f"moved {escaped(self.identifier)}{words}"
        if self.kind == "percent":
            return f"percentage of {name}: {self.before:g} before, {self.after:g} now{words}"
        before, after = (hectares(f"{value:.3f}") for value in (self.before, self.after))
        change = f" ({float(self.percent()):+.1f} %)" if self.before else ""
        return f"{NAMED[self.kind]} of {name}: {before} before, {after} now{change}{words}"


@dataclass
class Side:
    """A year: its parcels, and where there is a folder of tables, its classes."""

    shapes: two_years.Shapes
    folder: str | None
    percents: dict = field(default_factory=dict)
    areas: Counter = field(default_factory=Counter)  # of pieces, by class

    def read_classes(self) -> None:
        """Sums by class, and the eligible area of each parcel."""
        self.percents = release_report.percents(self.folder)
        self.shapes.base.execute(SHARE)
        regions, what = two_years.regions_of(self.folder), f"reading the pieces of {self.folder}"
        for region in progress.each(regions, progress.Quiet.tool, what, len(regions), "regions", 1):
            self.read_region(region)
        self.shapes.base.commit()

    def read_region(self, region: str) -> None:
        """The pieces of the parcels of which this is the first region."""
        base, source = self.shapes.base, table_streams.Folder(os.path.join(self.folder, region))
        own = base.execute("SELECT name FROM parcel WHERE region = ?", (region,))
        shares = dict.fromkeys((name for (name,) in own), 0)
        for _, (name, land_class, text), _ in table_streams.Stream(source, "covers", ["parcel", "class", "wkt"]):
            found = table_streams.measured(text) if name in shares else None
            if found:
                land_class = table_streams.shown(land_class)
                self.areas[land_class] += found[1]
                shares[name] += found[1] * (self.percents.get(land_class) or 0)
        base.executemany("INSERT OR IGNORE INTO share VALUES (?, ?)", shares.items())

    def eligible(self, land_class: str | None = None) -> int:
        """Of a class, or of all."""
        counted_in = ((name, area) for name, area in self.areas.items() if land_class in (None, name))
        return sum(area * (self.percents.get(name) or 0) for name, area in counted_in)

    def share(self, name: str) -> int:
        found = self.shapes.base.execute("SELECT eligible FROM share WHERE name = ?", (name,)).fetchone()
        return found[0] if found else 0

    def size(self, name: str) -> int:
        """The area of a parcel; 0 where no shape of it is kept."""
        return size_of(self.shapes.text(name)) if name in self.shapes else 0

    def whole(self) -> tuple[int, int]:
        """The area of all parcels, and of how many no shape is kept."""
        total = lacking = 0
        for (text,) in self.shapes.base.execute("SELECT wkt FROM parcel"):
            total, lacking = total + size_of(text), lacking + (text is None)
        return total, lacking


def size_of(text: str | None) -> int:
    found = table_streams.measured(text) if text else None
    return found[1] if found else 0


class Comparison:
    """Of a folder of tables, or a country, with the year before it. Both years lie in files of a folder of its own."""

    def __init__(self, folder: str, jump: Jump = Jump(), workers: int = 1):
        self.folder, self.jump, self.lacking = folder, jump, []
        self.ask = parcel_questions.Asking(workers)

    def __enter__(self):
        self.ask.__enter__()
        return self

    def __exit__(self, *whatever):
        for side in (getattr(self, name, None) for name in ("old", "new")):
            if side:
                side.shapes.base.close()
        self.ask.__exit__(*whatever)

    def compare(self, register: str | None, previous: str | None, why: str = "") -> None:
        """Finds all rows. One of the two may be None; `why` there is no folder of last year."""
        old = (
            self.ask.year(0, two_years.of_register, register)
            if register
            else self.ask.year(0, two_years.of_folder, previous)
        )
        new = self.ask.year(1, two_years.of_folder, self.folder)
        self.ask.take(old, new)
        self.old, self.new = Side(old.shapes, previous), Side(new.shapes, self.folder)
        if previous and register:
            self.regions_of_old(previous)
        self.merged = merged_into(self.folder, old.shapes, new.shapes)
        new.shapes.base.execute(FOUND)
        self.of_area()
        if previous and has_classes(previous):
            self.of_classes()
        elif previous:
            self.lacking.append(NO_TABLES.format(f"{previous} has not all tables of pieces and classes"))
        else:
            self.lacking.append(NO_TABLES.format(why or "there are no tables of the year before"))
        self.of_moves()

    def regions_of_old(self, previous: str) -> None:
        """The regions of last year's country, in place of none, which a register knows."""
        base = self.old.shapes.base
        for region in filter(None, two_years.regions_of(previous)):
            rows = table_streams.Stream(
                table_streams.Folder(os.path.join(previous, region)), "parcels", ["parcel", "parcel"]
            )
            pairs = ((region, name) for _, (name, _), _ in rows)
            base.executemany("UPDATE parcel SET region = ? WHERE name = ? AND region = ''", pairs)
        base.commit()

    def add(self, *fields):
        self.new.shapes.base.execute("INSERT INTO found VALUES (?, ?, ?, ?, ?, ?)", fields)

    def add_where(self, kind, of, name, before, after, unit, words=""):
        """Adds a row where a sum jumps; whether it does."""
        if not self.jump.passes(of, before, after, LEAST * unit):
            return False
        self.add(kind, of, name, before / unit, after / unit, words)
        return True

    def differing(self) -> Iterator[str]:
        return self.old.shapes.differing(self.new.shapes)

    def of_area(self) -> None:
        """The area of all, and of each parcel that both years have."""
        before, lacking = self.old.whole()
        if lacking:
            self.lacking.append(NO_SHAPES.format(counted(lacking, "parcel")))
        else:
            self.add_where("area", "all", "", before, self.new.whole()[0], AREA)
        for name in self.differing():
            others = self.merged.get(name, ())
            before = self.old.size(name) + sum(map(self.old.size, others))
            self.add_where("area", "parcel", name, before, self.new.size(name), AREA, merged_words(others))

    def of_classes(self) -> None:
        for side in (self.old, self.new):
            side.read_classes()
        old, new = self.old, self.new
        for name in sorted(set(old.percents) & set(new.percents)):
            if old.percents[name] != new.percents[name]:
                before, after = (hectares(f"{side.areas[name] / AREA:.3f}") for side in (old, new))
                words = f"{before} of it before, {after} now"
                self.add("percent", "class", name, old.percents[name] or 0, new.percents[name] or 0, words)
        self.add_where("eligible", "all", "", old.eligible(), new.eligible(), ELIGIBLE)
        for name in sorted({*old.areas, *new.areas}):
            words = self.words_of_class(name)
            shares = old.eligible(name), new.eligible(name)
            if not self.add_where("eligible", "class", name, *shares, ELIGIBLE, words):
                self.add_where("area", "class", name, old.areas[name], new.areas[name], AREA, words)
        self.of_shares()

    def words_of_class(self, name: str) -> str:
        if not self.old.areas[name]:
            return "a class that last year had not"
        return "" if self.new.areas[name] else "a class that is gone"

    def of_shares(self) -> None:
        """Parcels whose eligible area jumps, and whose area does not."""
        base = self.new.shapes.base
        base.commit()
        base.execute("ATTACH ? AS past", (self.ask.path(parcel_questions.YEARS[0]),))
        for name, before, after in base.execute(SHARES, (LEAST * ELIGIBLE,)).fetchall():
            others = self.merged.get(name, ())
            before += sum(map(self.old.share, others))
            self.add_where("eligible", "parcel", name, before, after, ELIGIBLE, merged_words(others))
        base.commit()
        base.execute("DETACH past")

    def of_moves(self) -> None:
        """Identifiers that were kept for other land."""
        self.new.shapes.base.commit()
        if shapely_there.is_there():
            lines = self.ask.answers("moved", self.differing(), "comparing parcels that changed")
        else:
            self.lacking.append(NO_SHAPELY)
            lines = (f"{name}: its old and its new shape have no place together" for name in self.apart())
        moves = [line.split(": ", 1) for line in lines if line]
        land = {frozenset(polygons.points(self.old.shapes[name])): name for name, _ in moves}
        for name, words in moves:
            other = land.get(frozenset(polygons.points(self.new.shapes[name])))
            words += f"; it has the land that {other} had" if other else ""
            self.add("moved", "parcel", name, self.old.size(name) / AREA, self.new.size(name) / AREA, words)

    def apart(self) -> Iterator[str]:
        """Parcels whose old and new boxes do not overlap."""
        for name in self.differing():
            one, other = (polygons.box([side.shapes[name]]) for side in (self.old, self.new))
            if one and other and any(one[axis] >= other[axis + 2] or other[axis] >= one[axis + 2] for axis in (0, 1)):
                yield name

    def rows(self) -> Iterator[Row]:
        """What passes a bound: percentages first, then sums, classes, and parcels that moved."""
        for row in self.new.shapes.base.execute(f"SELECT * FROM found ORDER BY {ORDER}, rowid"):
            yield Row(*row)


def merged_into(folder: str, old: two_years.Shapes, new: two_years.Shapes) -> dict[str, list[str]]:
    """Kept parcels into which dropped ones were merged, each with those of these that have no other successor."""
    rows = [row for row in two_years.rows_of_folder(folder) if row.new] if has_lineage(folder) else []
    counts, found = Counter(row.old for row in rows), {}
    for row in rows:
        if counts[row.old] == 1 and row.new in old and row.new in new and row.old in old:
            found.setdefault(row.new, []).append(row.old)
    return found


def has_lineage(folder: str) -> bool:
    return all(os.path.isfile(os.path.join(folder, region, "lineage.csv")) for region in two_years.regions_of(folder))


def has_classes(folder: str) -> bool:
    names = ["classes.csv", *(os.path.join(region, "covers.csv") for region in two_years.regions_of(folder))]
    return all(os.path.isfile(os.path.join(folder, name)) for name in names)


def merged_words(others: Sequence[str]) -> str:
    return f"with {' '.join(islice(others, 5))}{' ..' if len(others) > 5 else ''}, merged into it" if others else ""


def write(path: str, rows: Iterable[Row]) -> None:
    """The table; what somebody wrote into the one that is there is kept under a name with a number."""
    if os.path.isfile(path):
        with open(path, encoding="utf-8", errors="replace") as file:
            if file.readline() != HEAD:
                files.aside(path)
    with files.anew(path, newline="") as file:
        table = guarded_csv.Writer(file)
        table.writerow(COLUMNS)
        table.writerows(row.fields() for row in rows)
