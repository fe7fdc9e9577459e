"""All faults of a release's rows, and the parcels and pieces that can be read."""

from __future__ import annotations

import tempfile
from dataclasses import dataclass, field

from . import trial_cuts
from ..formats import guarded_csv, polygons, refusal_line
from ..formats.byte_tables import COLUMNS, KEYS, Table, path_of, shown

NAMES = ("parcels", "covers", "classes")
MOST_ROWS = 200_000
ROWS_A_CALL = 50_000
NO_ROW = ("", None, None)
MOST_FAULTS = 1_000  # of one table: where a whole column is wrong, listing more would take an hour


@dataclass
class RowFault:
    code: str
    line: str
    table: str
    row: int
    file_line: int
    names: list
    members: list | None = None  # of its shape, where that can be read


@dataclass
class Release:
    faults: list = field(default_factory=list)
    parcels: list = field(default_factory=list)
    incomplete: set = field(default_factory=set)  # parcels of which a piece's row is faulty
    # (parcel or piece, identifier) to (members, (table, row, line of the file))
    shapes: dict = field(default_factory=dict)
    is_sound: bool = False
    is_cut_off: bool = False  # more faults of rows than are looked for: shapes are not looked at

    def shape_of(self, kind, name):
        return self.shapes.get((kind.rstrip("s"), name), (None, NO_ROW))


def read_release(command, folder, shower):
    """The release of a folder with the faults of its rows. Where its header is refused, or it is sound, nothing more
    is looked for."""
    release = Release()
    ended = trial_cuts.run_on(command, folder)
    tables = {name: Table(path_of(folder, name), name) for name in NAMES}
    refused = refusal_line.read(ended[1])
    if refused is None:
        release.is_sound = ended[0] == 0
    elif refused.table and refused.row == 0:
        release.faults.append(RowFault(refused.code, ended[1], refused.table, 0, 1, []))
        release.is_sound = True
    if release.is_sound:
        release.parcels = tables["parcels"].records[1:]
        return release
    bad = {name: set() for name in NAMES}
    for name in NAMES:
        faults_of_rows(command, tables[name], release, bad[name], shower(f"rows of {name}"))
    release.is_cut_off = any(len(rows) >= MOST_FAULTS for rows in bad.values())
    if not release.is_cut_off:
        join(tables, release, bad)
    release.faults.sort(key=lambda fault: (NAMES.index(fault.table), fault.row))
    return release


def add(release, bad, table, row, code, line=None):
    record = table.record(row)
    names = [
        shown(table.field(record, name))
        for name in COLUMNS[table.name]
        if name not in ("wkt", "percent", "eligible", "class")
    ]
    members = polygons.read(table.field(record, "wkt")) if "wkt" in COLUMNS[table.name] else None
    release.faults.append(
        RowFault(
            code,
            line or f"refused {code} {table.name} row {row}",
            table.name,
            row,
            table.line(row),
            names,
            members or None,
        )
    )
    bad.add(row)


def faults_of_rows(command, table, release, bad, progress):
    """Rows that `lpis` refuses for themselves, then identifiers that stood before."""
    rows = list(range(1, min(len(table.records), MOST_ROWS + 1)))
    parts = [rows[i : i + ROWS_A_CALL] for i in range(0, len(rows), ROWS_A_CALL)]
    for row, code, line in trial_cuts.search(
        parts, lambda part: ask(command, table, part), len(rows), progress, MOST_FAULTS
    ):
        add(release, bad, table, row, code, line)
    if len(table.records) > MOST_ROWS + 1:
        add(release, bad, table, MOST_ROWS + 1, "3a")
    seen = set()
    for row in rows:
        key = table.field(table.record(row), KEYS[table.name])
        if row not in bad and key in seen:
            add(release, bad, table, row, "34")
        seen.add(key)


def ask(command, table, rows):
    """The first of some rows that `lpis` refuses, with the code and the line as for the whole table; None where it
    reads them all."""
    with tempfile.TemporaryDirectory() as folder:
        for name in NAMES:
            with open(path_of(folder, name), "w", newline="", encoding="latin-1") as file:
                out = guarded_csv.Writer(file)
                if name == table.name:
                    out.writerows(
                        [f.decode("latin-1") for f in record] for record in [table.header, *map(table.record, rows)]
                    )
                else:
                    out.writerow(COLUMNS[name])
        _, line = trial_cuts.run_on(command, folder)
    refused = refusal_line.read(line)
    if refused is None or refused.table != table.name or refused.code in ("35", "36", "37"):
        return None
    row = rows[refused.row - 1]
    return refused.row - 1, (row, refused.code, line.replace(f"row {refused.row}", f"row {row}", 1))


def join(tables, release, bad):
    """Pieces of unknown parcels and classes, parcels without pieces; and what can be read of the rest."""
    parcels, covers, classes = (tables[name] for name in NAMES)
    known = {
        table.name: {table.field(record, KEYS[table.name]) for _, record in table.rows()} for table in tables.values()
    }
    pieces, named = {}, set()
    for row, record in covers.rows():
        parcel, piece = covers.field(record, "parcel"), covers.field(record, "piece")
        named.add(parcel)
        if row in bad["covers"]:
            release.incomplete.add(shown(parcel))
            continue
        if parcel not in known["parcels"]:
            add(release, bad["covers"], covers, row, "35")
            continue
        if covers.field(record, "class") not in known["classes"]:
            add(release, bad["covers"], covers, row, "36")
        members = members_of(covers, record)
        pieces.setdefault(parcel, []).append((shown(piece), members))
        release.shapes["piece", shown(piece)] = members, ("covers", row, covers.line(row))
    for row, record in parcels.rows():
        if row in bad["parcels"]:
            continue
        name = parcels.field(record, "parcel")
        if name not in named:
            add(release, bad["parcels"], parcels, row, "37")
        members = members_of(parcels, record)
        release.parcels.append(trial_cuts.Parcel(shown(name), members, pieces.get(name, [])))
        release.shapes["parcel", shown(name)] = members, ("parcels", row, parcels.line(row))


def members_of(table, record):
    members = polygons.read(table.field(record, "wkt"))
    if members is None:
        raise trial_cuts.Trouble(f"{table.path}: lpis reads a wkt that this tool cannot")
    return members
