"""The tables of regions after a correction: of those that have a row which changed the lines are taken over but for
these rows; the others are not touched. Each new table is read again, and has the rows and bytes of the one before, less
what went and more what came. Where a row comes that was not there, or a parcel lies in other regions, or a region grows
over its limits, the country is split as a whole."""

from __future__ import annotations

import csv
import io
import os
import zlib
from collections import defaultdict
from dataclasses import dataclass, field

from . import cell_results, region_split
from ..formats import square_metres, table_streams, tile_plan
from ..source import land
from ..system import files

KINDS = {"piece": "covers", "parcel": "parcels"}
FIELDS = "SELECT name, parcel, class FROM row WHERE is_cover = ? AND name = ? AND is_kept"
WKT = b',"MULTI'  # where the text of a row begins


def texts_of(path):
    """The texts of a cell's file by kind and name."""
    found = {}
    with open(path, "rb") as file:
        for line in file:
            if line.startswith((b'["piece"', b'["parcel"')):
                text = line[line.index(cell_results.TEXT_OF) + 3 : line.rindex(b'"')].decode("ascii")
                found[cell_results.named(line)] = text
    return found


def line_of(fields):
    """The line of a table."""
    made = io.StringIO()
    csv.writer(made, lineterminator="\n").writerow(fields)
    return made.getvalue().encode()


@dataclass
class Counts:
    """The rows of a table, a sum that each of their bytes changes, and their points."""

    rows: int = 0
    bytes: int = 0
    points: int = 0

    def add(self, line, sign=1):
        self.rows += sign
        self.bytes = (self.bytes + sign * zlib.crc32(line)) & region_split.MASK
        if (at := line.find(WKT)) >= 0:
            self.points += sign * line.count(b",", at + 1) + sign


@dataclass
class Change:
    """A row of a table that is another one now: its lines, and the regions of its parcel."""

    before: bytes
    now: bytes | None
    regions: list
    count: int = 0  # in how many regions it was met


@dataclass
class Changes:
    """The rows of tables that changed, by table and name; `doubled` is what the parcels' area grew by."""

    rows: dict = field(default_factory=lambda: {"parcels": {}, "covers": {}})
    gone: dict = field(default_factory=lambda: {"parcels": 0, "covers": 0})
    doubled: int = 0
    is_whole: bool = True  # whether tables can be made by it


def changes_of(gathered, before, cells, rows, tiling):
    """The changes of tables by the files of the cells that are others now; `before` has the names of all then. `rows`
    changed in the source."""
    made, fields_before = Changes(), {}
    for row in rows:
        fields_before["piece" if row.before["is_cover"] else "parcel", row.before["name"]] = row.before
    for cell in cells:
        old, new = texts_of(os.path.join(gathered.folder, before[cell])), texts_of(gathered.path(cell))
        names = [name for name in {**old, **new} if old.get(name) != new.get(name)]
        for key in [*names, *(key for key in fields_before if key in old and key not in names)]:
            put_change(made, gathered.base, key, (old, new), fields_before.get(key), tiling)
    return made


def put_change(made, base, key, texts, before, tiling):
    """Adds a row that changed. A text of a row that had none, and a parcel in other regions, are for a whole split."""
    (kind, name), (old, new) = key, texts
    found = base.execute(FIELDS, (kind == "piece", name)).fetchone()
    if key not in old or not found:
        made.is_whole = False
        return
    parcel = "parcel", found[1]
    boxes = [
        table_streams.measured(some[parcel]) if parcel in some else None
        for some in (old, new if parcel in new else old)
    ]
    if None in boxes or tiling.met(boxes[0][0]) != tiling.met(boxes[1][0]):
        made.is_whole = False
        return
    then = (before["name"], before["parcel"], before["class"]) if before else found
    if kind == "parcel":
        made.doubled += boxes[1][1] - boxes[0][1]
    lines = [
        line_of([*(fields if kind == "piece" else fields[:1]), some[key]]) if key in some else None
        for fields, some in ((then, old), (found, new))
    ]
    if lines[0] != lines[1]:
        made.rows[KINDS[kind]][name] = Change(*lines, tiling.met(boxes[0][0]))
        made.gone[KINDS[kind]] += lines[1] is None


class Regions:
    """The tables of the regions of a folder, where `made` gets the new ones."""

    def __init__(self, out, made, tiling, most):
        self.out, self.made, self.tiling, self.most = out, made, tiling, most

    def write(self, changes):
        """Writes the tables that have a row which changed; answers their names, or None where that does not do."""
        regions, names = defaultdict(set), []
        for name, rows in changes.rows.items():
            for change in rows.values():
                for region in change.regions:
                    regions[region].add(name)
        for region in sorted(regions):
            folder, counts = self.tiling.folders[region], {}
            for name in region_split.NAMES[:2]:
                place = os.path.join(folder, f"{name}.csv")
                if name in regions[region]:
                    counts[name] = self.spliced(place, changes.rows[name], region)
                    names.append(place)
                else:
                    counts[name] = counted(os.path.join(self.out, place))
            found = counts["parcels"].rows, counts["covers"].rows, counts["covers"].points
            if any(count > region_split.GROWN * limit for count, limit in zip(found, self.most.all)):
                return None
        rows = [change for some in changes.rows.values() for change in some.values()]
        return names if all(change.count == len(change.regions) for change in rows) else None

    def spliced(self, place, changes, region):
        """Writes a table with its rows as they are now; its counts."""
        wanted, path = Counts(), os.path.join(self.made, place)
        os.makedirs(os.path.dirname(path), exist_ok=True)
        with open(os.path.join(self.out, place), "rb") as file, files.anew(path, "wb") as new:
            new.write(file.readline())
            for line in file:
                change = changes.get(line[: line.index(b",")].decode("ascii", "replace"))
                if change is not None and region in change.regions and line == change.before:
                    change.count += 1
                    line = change.now
                if line is not None:
                    wanted.add(line)
                    new.write(line)
        found = counted(path)
        if found != wanted:
            raise land.Trouble(f"{path} has other rows than were written: nothing was changed, run it again")
        return found


def counted(path):
    """The counts of a table as it stands."""
    found = Counts()
    with open(path, "rb") as file:
        file.readline()
        for line in file:
            found.add(line)
    return found


def counts_line(folder, changes):
    """The first line of split.txt with what changed."""
    with open(os.path.join(folder, region_split.COUNTS), encoding="utf-8") as file:
        _, parcels, _, pieces, _, area = file.readline().split()
    factor, decimals = square_metres.AREA
    doubled = int(area.replace(".", "")) // factor + changes.doubled
    return (
        f"parcels {int(parcels) - changes.gone['parcels']} pieces {int(pieces) - changes.gone['covers']} area"
        f" {square_metres.decimal(doubled, (factor, decimals))}"
    )


def tiling_of(folder):
    """The tiling that stands, or None."""
    try:
        return tile_plan.of_folder(folder)
    except (FileNotFoundError, tile_plan.Unreadable):
        return None
