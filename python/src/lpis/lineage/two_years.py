"""Two years of parcels, each in a database of its own without a name, so that a country of any size takes little
memory: SQLite puts it into TMPDIR, and takes it away. The older year is that of a folder's tables or of a register's
kept shapes, the newer one that of a folder's tables. A folder may be a country."""

import os
import pathlib
import sqlite3
from dataclasses import dataclass, field

from ..formats import polygons, register_rows, table_streams, tile_plan
from ..system import databases, progress
from ..system.printing import counted
from ..formats.byte_tables import Table, is_identifier, path_of, shown
from ..system.trouble import Trouble

CACHED = 64_000  # kilobytes of a year
TABLES = """
PRAGMA journal_mode = OFF; PRAGMA synchronous = OFF;
CREATE TABLE parcel (id INTEGER PRIMARY KEY, name TEXT NOT NULL UNIQUE, wkt TEXT, region TEXT);
CREATE TABLE used (name TEXT PRIMARY KEY, until INTEGER) WITHOUT ROWID;
CREATE VIRTUAL TABLE box USING rtree(id, left, right, low, high);
BEGIN;
"""


class Rows:
    """A column of a database by a name, as a dictionary has it, in the order in which rows were added."""

    def __init__(self, base, table, column):
        self.base, self.one, self.all = (
            base,
            f"SELECT {column} FROM {table} WHERE name = ?",
            f"SELECT name FROM {table}",
        )

    def value(self, name):
        """The row with this name, or None."""
        return self.base.execute(self.one, (name,)).fetchone()

    def __contains__(self, name):
        return self.value(name) is not None

    def __getitem__(self, name):
        return self.value(name)[0]

    def __iter__(self):
        return (name for (name,) in self.base.execute(self.all))

    def __len__(self):
        return self.base.execute(f"SELECT count(*) FROM ({self.all})").fetchone()[0]


class Shapes(Rows):
    """The parcels of a year: identifier to members, or to None where no shape of it is kept. In a file, where one is
    named, which others may read when it is made."""

    def __init__(self, path="", is_there=False):
        base = sqlite3.connect(f"file:{path}?mode=ro", uri=True) if is_there else sqlite3.connect(path)
        base.executescript(f"PRAGMA cache_size = -{CACHED};{'' if is_there else TABLES}")
        super().__init__(base, "parcel", "wkt")
        self.all += " ORDER BY id"

    def __getitem__(self, name):
        text = self.text(name)
        return None if text is None else polygons.read(text.encode())

    def get(self, name, other=None):
        return self[name] if name in self else other

    def text(self, name):
        return super().__getitem__(name)

    def region(self, name):
        """The first region that has a parcel."""
        return self.base.execute("SELECT region FROM parcel WHERE name = ?", (name,)).fetchone()[0]

    def add(self, name, text, members, region=""):
        """Adds a parcel; the region that has it already, or None."""
        added = self.base.execute(
            "INSERT OR IGNORE INTO parcel (name, wkt, region) VALUES (?, ?, ?)", (name, text, region)
        )
        if not added.rowcount:
            return self.region(name)
        found = polygons.box([members]) if members else None
        if found:
            left, low, right, high = found
            self.base.execute("INSERT INTO box VALUES (?, ?, ?, ?, ?)", (added.lastrowid, left, right, low, high))
        return None

    def near(self, box):
        """The names of parcels whose boxes meet a box, or nearly so."""
        left, low, right, high = box
        asked = "SELECT name FROM box JOIN parcel USING (id) WHERE left <= ? AND right >= ? AND low <= ? AND high >= ?"
        return [name for (name,) in self.base.execute(asked, (right, left, high, low))]

    def differing(self, other):
        """The names, ascending, that another year has too with another text, where this one has a text."""
        found = self.base.execute("SELECT name, wkt FROM parcel WHERE wkt IS NOT NULL ORDER BY name")
        return (name for name, text in found if (there := other.value(name)) and there[0] != text)


@dataclass
class Year:
    """The parcels of a year. `used` has the last year of each identifier that an earlier release had and this one
    has not."""

    where: str
    shapes: Shapes = field(default_factory=Shapes)
    is_first: bool = False  # a register without a release

    def __post_init__(self):
        self.used = Rows(self.shapes.base, "used", "until")


@dataclass(frozen=True)
class Row:
    """A row of a lineage table; an empty `new` is an ending. Of a country `number` has the region too."""

    number: object
    old: str
    new: str
    is_marked: bool


def regions_of(folder):
    """The regions of a country; of a release one without a name."""
    if not os.path.isfile(os.path.join(folder, "country.txt")):
        return [""]
    try:
        return tile_plan.of_folder(folder).folders
    except (tile_plan.Unreadable, OSError) as error:
        raise Trouble(str(error)) from None


def of_folder(folder, path="", parts_of=lambda folder, regions: None):
    """The parcels of a folder. `parts_of` may read regions by themselves: their files, or None."""
    year, regions = Year(folder, Shapes(path)), regions_of(folder)
    parts = parts_of(folder, regions)
    for number, region in enumerate(
        progress.each(regions, progress.Quiet.tool, f"reading {folder}", len(regions), "regions", 1)
    ):
        if parts:
            take_region(year, parts[number], path_of(os.path.join(folder, region), "parcels"))
        else:
            add_region(year, os.path.join(folder, region), region)
    return year


def take_region(year, part, path):
    """As `add_region`, of a region that was read into a file by itself."""
    base = year.shapes.base
    base.commit()
    base.execute("ATTACH ? AS part", (part,))
    unlike = base.execute(
        "SELECT its.id, name, ours.region FROM part.parcel AS its JOIN main.parcel AS ours USING (name) WHERE ours.wkt"
        " <> its.wkt ORDER BY its.id LIMIT 1"
    ).fetchone()
    if unlike:
        raise Trouble(
            f"{path} row {unlike[0]}: {table_streams.shown(unlike[1])}: the region {unlike[2]} has another shape of it:"
            " `lpis country` reports it"
        )
    (last,) = base.execute("SELECT coalesce(max(id), 0) FROM main.parcel").fetchone()
    new = "FROM part.parcel WHERE name NOT IN (SELECT name FROM main.parcel WHERE id <= ?2)"
    base.execute(
        (
            f"INSERT INTO main.box SELECT ?1 + box.id, left, right, low, high FROM part.box JOIN (SELECT id {new})"
            " USING (id)"
        ),
        (last, last),
    )
    base.execute(f"INSERT INTO main.parcel SELECT ?1 + id, name, wkt, region {new} ORDER BY id", (last, last))
    base.commit()
    base.execute("DETACH part")


def add_region(year, folder, region):
    path = path_of(folder, "parcels")
    try:
        for row, (name, text), _ in table_streams.Stream(table_streams.Folder(folder), "parcels", ["parcel", "wkt"]):
            members = polygons.read(text.encode("latin-1"))
            before = (
                ""
                if members is None or not is_identifier(name.encode("latin-1"))
                else year.shapes.add(name, text, members, region)
            )
            if before is not None and (before == region or members is None):
                raise Trouble(
                    f"{path} row {row}: {table_streams.shown(name)}: `lpis cut` reports what is wrong with it"
                )
            if before is not None and year.shapes.text(name) != text:
                raise Trouble(
                    f"{path} row {row}: {table_streams.shown(name)}: the region {before} has another shape of it: `lpis"
                    " country` reports it"
                )
    except OSError as error:
        if isinstance(error, NotADirectoryError):  # of a file in place of a folder: it is told what it is
            raise
        raise Trouble(f"{path}: {error.strerror}") from None
    except table_streams.Trouble as trouble:
        raise Trouble(f"{path}: {trouble}") from None


def of_register(path, place="", _=None):
    """The last release that a register has, with the shapes that it keeps; a parcel without one has None."""
    base, tables, last = opened(path)
    year = Year(path, Shapes(place), is_first=last is None)
    texts = "LEFT JOIN lpis_text USING (id)" if "lpis_text" in tables else "JOIN (SELECT NULL AS wkt)"
    try:
        for name, until, text in base.execute(f"SELECT id, until, wkt FROM lpis_span {texts}"):
            if not (isinstance(name, str) and isinstance(until, int) and isinstance(text, (str, type(None)))):
                raise Trouble(strange(path))
            if until:
                year.shapes.base.execute("INSERT OR REPLACE INTO used VALUES (?, ?)", (name, until))
            else:
                year.shapes.add(name, text, None)
    except (sqlite3.Error, UnicodeError) as error:
        raise Trouble(f"{path}: {databases.why(error)}") from None
    finally:
        base.close()
    return year


def last_year(path):
    """The last year of a register, 0 where it has none."""
    base, _, last = opened(path)
    base.close()
    return last or 0


def opened(path):
    """A register, the names of its tables, and its last year."""
    if not pathlib.Path(path).is_file():
        raise Trouble(f"{path}: no such register")
    try:
        base = register_rows.opened(path)
    except sqlite3.Error as error:
        raise Trouble(f"{path}: {error}") from None
    try:
        tables = {name for (name,) in base.execute("SELECT name FROM sqlite_schema WHERE type = 'table'")}
        if not {"lpis_release", "lpis_span"} <= tables:
            is_older = any(name.startswith("lpis_") for name in tables)
            raise Trouble(
                f"{path} is no register of version 2 or 3: "
                + (
                    "`lpis trace` opens and moves an older one"
                    if is_older
                    else "it has no table of one; name the file that `publish` writes"
                )
            )
        last = base.execute("SELECT max(year) FROM lpis_release").fetchone()[0]
        if not isinstance(last, (int, type(None))):
            raise Trouble(strange(path))
    except (sqlite3.Error, UnicodeError, Trouble) as error:
        base.close()
        raise error if isinstance(error, Trouble) else Trouble(f"{path}: {databases.why(error)}") from None
    return base, tables, last


def strange(path):
    return f"{path}: it has texts where years are wanted, or the other way round: `lpis` did not write it so"


def rows_of_folder(folder):
    """The rows of a release's or a country's table of lineage."""
    for region in regions_of(folder):
        yield from rows_of(path_of(os.path.join(folder, region), "lineage"), region)


def rows_of(path, region=""):
    """The rows of a lineage table."""
    try:
        table = Table(path, "lineage")
    except OSError as error:
        if isinstance(error, NotADirectoryError):  # of a file in place of a folder: it is told what it is
            raise
        raise Trouble(f"{path}: {error.strerror}") from None
    missing = table.missing() or table.doubled()
    if missing:
        raise Trouble(f"{path}: a column {missing[0]} is wanted, once")
    rows = []
    for number, record in table.rows():
        if len(record) != len(table.header):
            raise Trouble(
                f"{path} row {number}: {counted(len(record), 'field')}, and the header has {len(table.header)}"
            )
        old, new, mark = (table.field(record, name) for name in ("old", "new", "exact"))
        if not is_identifier(old) or (new and not is_identifier(new)) or mark not in (b"", b"0", b"1"):
            raise Trouble(
                f"{path} row {number}: an old identifier, a new one or none, and a mark 1, 0 or none are needed"
            )
        rows.append(Row(f"{number} region {region}" if region else number, shown(old), shown(new), mark == b"1"))
    return rows
