"""The land as an agency has it: the layers `parcels` and `covers` of a GeoPackage, of anything that ogr2ogr reads, or
of a folder with CSV tables as a spreadsheet writes them. A GeoPackage is read by sqlite3 alone."""

from __future__ import annotations

import contextlib
import difflib
import os
import re
import shutil
import sqlite3
import sys
from collections import Counter
from dataclasses import dataclass, field

from ..formats import wkb
from . import coordinate_systems, layer_guesses, spreadsheets, wkt
from ..system import databases, processes, unforeseen
from ..system.printing import readable
from ..system.trouble import Trouble

COLUMNS = {"parcels": ["parcel"], "covers": ["piece", "parcel", "class"], "classes": ["class", "percent"]}
SHAPED = ("parcels", "covers")
BETWEEN = 1.0  # metres: wider land that no parcel has is a road, or whatever else is none
PACKAGE = b"SQLite format 3\0"
USUAL = "that of most shapes"
DATABASE = r"[A-Za-z]{2,}:"  # ogr2ogr's words for one begin so, such as PG:dbname=land


class Row:
    """A row of a layer: its fields as text, and its shape, or why there is none. The number is its fid, or its place
    in a table."""

    __slots__ = ("fields", "found", "number", "place", "why")

    def __init__(self, number, fields, found=None):
        self.number, self.fields, self.found = number, fields, found
        self.why = ""  # no shape: why
        self.place = None  # where it is, known too where the shape is not

    def __getitem__(self, name):
        return self.fields.get(name) or ""


@dataclass
class Origin:
    """What is read of a layer of a GeoPackage: the table, the columns by what they are for, that of the shapes with its
    system, and the key, if there is one. Shapes are texts where a folder's tables were put into a file of their own."""

    path: str
    table: str
    chosen: dict
    shape: tuple | None
    key: str | None
    is_text: bool = False


@dataclass
class Layer:
    name: str
    rows: list = field(default_factory=list)
    system: coordinate_systems.System | None = None
    key: str = "row"  # what a row's number is: its fid, or its place in the table
    others: list = field(default_factory=list)  # columns that are not taken over
    faults: list = field(default_factory=list)  # of sheets: what keeps the table from being read
    notes: list = field(default_factory=list)  # what was met on the way, without loss
    origin: Origin | None = None  # where in a GeoPackage its rows are


def read(path, names=None, wanted=("parcels", "covers"), spare=None, outlined=()):
    """The layers of a land by their names. `names` says what a layer or column is called in it: {'parcels': 'blocks',
    'parcels.parcel': 'id'}. The layers that are to be outlined have no rows yet: `rows_of` reads them, of a folder's
    tables from a file in the spare folder. A layer that is not there by its name is the one table that fits: `names`
    has it then, and the layer a note."""
    names = {} if names is None else names
    if os.path.isdir(path) and not is_of_another_program(path):
        return read_folder(path, names, wanted, spare, outlined)
    try:
        with open(path, "rb") as file:
            start = file.read(16)
    except IsADirectoryError:
        start = b""
    except OSError as error:
        if not re.match(DATABASE, path):
            raise Trouble(f"{path}: {error.strerror}") from None
        start = b""
    if start == PACKAGE and is_package(path):
        return read_package(path, names, wanted, outlined)
    made, told = as_package(path, spare)
    own = of_made(names)
    try:
        layers = read_package(made, own, wanted, outlined)
    except Trouble as trouble:
        if not path.lower().endswith(".shp"):
            raise
        folder = os.path.dirname(path) or os.curdir
        raise Trouble(*trouble.reasons, f"{path} is one layer: name the folder that has both, {folder}") from None
    names.update(own)
    for layer in layers.values():
        layer.notes += [f"ogr2ogr reports: {words}" for words in told]
    return layers


def look(path):
    """Refuses a path at which nothing is; words for a database are ogr2ogr's to judge."""
    if os.path.exists(path) or re.match(DATABASE, path):
        return
    folder, name = os.path.split(path)
    near = difflib.get_close_matches(name, os.listdir(folder or ".") if os.path.isdir(folder or ".") else (), 1)
    raise Trouble(
        f"{path}: No such file or directory" + (f"; is {os.path.join(folder, near[0])} meant?" if near else "")
    )


def apart(path, out, what="the source"):
    """Refuses a folder that is the source, or last year's, and the place of the tables at once: they would be
    written over it."""
    if os.path.isdir(path) and os.path.realpath(path) == os.path.realpath(out):
        raise Trouble(f"{out} is {what}: name another folder for the tables")


def is_of_another_program(folder):
    """Whether a folder is a geodatabase or holds shapefiles and no tables: ogr2ogr reads either as one source."""
    endings = {os.path.splitext(name)[1].lower() for name in os.listdir(folder)}
    return folder.rstrip("/").endswith(".gdb") or (".shp" in endings and not endings & {".csv", ".txt", ".tsv"})


def connected(path):
    """A connection for reading."""
    try:
        return databases.opened(path)
    except (sqlite3.Error, UnicodeDecodeError) as error:
        raise Trouble(
            f"{path}: another program is writing it ({error})" if "locked" in str(error) else f"{path}: {error}"
        ) from None


def is_package(path):
    with contextlib.closing(connected(path)) as connection:
        return connection.execute("SELECT count(*) FROM sqlite_master WHERE name = 'gpkg_contents'").fetchone() == (1,)


def as_package(path, spare, *words):
    """The land as a GeoPackage in a spare folder, by ogr2ogr, and its warnings."""
    if shutil.which("ogr2ogr") is None or spare is None:
        raise Trouble(
            f"{path} is no GeoPackage and no folder of CSV tables: ogr2ogr reads more (Debian: gdal-bin), and is not"
            " there"
        )
    made = os.path.join(spare, f"land{len(os.listdir(spare))}.gpkg")
    run = processes.run(
        ["ogr2ogr", "-q", "-f", "GPKG", made, path, *words], capture_output=True, text=True, check=False
    )
    # without the names of drivers
    told = [
        " ".join(words.split())
        for words in re.split(r"\n(?=ERROR|FAILURE|Warning)", re.sub(r"\n *->.*", "", run.stderr))
        if words.strip()
    ]
    if run.returncode or not os.path.exists(made):
        raise Trouble(
            f"{path}: ogr2ogr cannot read it:"
            f" {next((line for line in told if line.startswith(('ERROR', 'FAILURE'))), told[-1] if told else run.returncode)}"  # noqa: E501
        )
    return made, list(dict.fromkeys(told))


def reads_as_metres(box):
    """Whether a shape lies beyond what degrees can be."""
    return max(abs(box[0]), abs(box[2])) > 180 or max(abs(box[1]), abs(box[3])) > 90


def among_metres(box):
    """What is said of a shape in degrees whose neighbours are in metres."""
    return f"it lies at {box[0]:.4f} {box[1]:.4f}, which looks like degrees among metres"


def of_made(names):
    """What columns are called in a package that ogr2ogr made: shapes have its own name there."""
    return {what: found for what, found in names.items() if not what.endswith(".wkt")}


def quoted(name):
    return '"' + name.replace('"', '""') + '"'


def columns_of(columns, name, wanted, names):
    """What a column is called in the source, compared in any mix of cases: none, one or more. What --name gives is
    taken as it is written first."""
    called = names.get(f"{name}.{wanted}")
    exact = [column for column in columns if column == called]
    return exact if len(exact) == 1 else [column for column in columns if column.lower() == (called or wanted).lower()]


def chosen_of(columns, name, wanted, names, where):
    """The columns of a layer by what they are for; and reasons and faults, where one is not there or there twice."""
    chosen, reasons, faults = {}, [], []
    for column in wanted:
        found = columns_of(columns, name, column, names)
        if not found:
            reasons.append(
                f"{where}: no column {names.get(f'{name}.{column}', column)}: there are"
                f" {', '.join(map(shown, columns)) or 'none'} (--name {name}.{column}=COLUMN says which it is)"
            )
        elif len(found) > 1:
            faults.append(spreadsheets.Fault(0, f"two columns are called {column}: {' and '.join(map(shown, found))}"))
        else:
            chosen[column] = found[0]
    return chosen, reasons, faults


def shown(name):
    return readable(name) or "''"


def text_of(column, value):
    """A field as text: whole numbers without a point, but of percentages 1.0, which may be a share."""
    if value is None:
        return None
    if isinstance(value, float) and value.is_integer() and (column != "percent" or value != 1):
        return str(int(value))
    return value.decode("utf-8", "backslashreplace") if isinstance(value, bytes) else str(value)


def opened(path):
    """A GeoPackage for reading: letters that are none stay different."""
    unforeseen.at(path)
    connection = connected(path)
    connection.text_factory = lambda text: text.decode("utf-8", "backslashreplace")
    return connection


def read_package(path, names, wanted, outlined):
    connection = opened(path)
    try:
        tables = [
            str(name) for (name,) in databases.rows(connection, "SELECT table_name FROM gpkg_contents ORDER BY rowid")
        ]
        shapes, guessed = shapes_of(connection), layer_guesses.of_package(connection, names)
        names.update(guessed)
        reasons, layers = [], {}
        for name in wanted:
            called = names.get(name, name)
            table = next((t for t in tables if t.lower() == called.lower()), None)
            if table is None:
                if name in SHAPED or name in names:
                    reasons.append(
                        f"no layer {called}: there are {there_are(connection, tables)} (--name {name}=LAYER says which"
                        " it is)"
                    )
                continue
            columns = {row[1]: row for row in connection.execute(f"PRAGMA table_xinfo({quoted(table)})")}
            chosen, lacking, _ = chosen_of(list(columns), name, COLUMNS[name], names, f"layer {table}")
            reasons += lacking
            # SQLite reads the name of a column that is not there as a text
            there = {column.lower() for column in columns}
            shape, why = chosen_shape(
                [shape for shape in shapes.get(table.lower(), []) if shape[0].lower() in there], name, names
            )
            if name in SHAPED and why:
                reasons.append(f"layer {table}: {why}")
            elif not lacking:
                key = next(
                    (
                        column
                        for column, row in columns.items()
                        if row[5] == 1 and str(row[2]).upper() in ("INTEGER", "INT")
                    ),
                    None,
                )
                layers[name] = layer = Layer(
                    name, key="fid" if key else "row", origin=Origin(path, table, chosen, shape, key)
                )
                layer.notes += [layer_guesses.words(name, names)] if name in guessed else []
                if shape:
                    layer.system = system_of(connection, layer.origin)
                if name not in outlined:
                    layer.rows += rows_of(connection, layer.origin)
                layer.others = [
                    column
                    for column in columns
                    if column not in chosen.values() and column not in (key, shape[0] if shape else "")
                ]
        if reasons:
            raise Trouble(*reasons, *layer_guesses.all_names(reasons, names))
        return layers
    except (sqlite3.Error, ValueError) as error:  # names that are no text are the second
        raise Trouble(f"{path}: {databases.why(error)}") from None
    finally:
        connection.close()


def there_are(connection, tables):
    """The layers with their columns, so that all may be named at once."""
    shapes = {column for found in shapes_of(connection).values() for column, _ in found}
    columns = {
        table: [
            row[1]
            for row in connection.execute(f"PRAGMA table_xinfo({quoted(table)})")
            if not row[5] and row[1] not in shapes
        ]
        for table in tables
    }
    return listed(columns)


def listed(columns):
    """Tables with their columns, in words."""
    return ", ".join(f"{shown(table)} ({', '.join(map(shown, found))})" for table, found in columns.items()) or "none"


def chosen_shape(shapes, name, names):
    """The column of a layer's shapes with its system, and why there is none. --name LAYER.wkt chooses among several."""
    called = names.get(f"{name}.wkt")
    found = [shape for shape in shapes if called is None or shape[0].lower() == called.lower()]
    found = [shape for shape in found if shape[0] == called] or found
    if len(found) == 1:
        return found[0], ""
    there = ", ".join(shown(column) for column, _ in shapes)
    if not shapes:
        return None, "it has no column of shapes"
    which = f"{len(found)} columns of shapes" if found else f"no column of shapes {shown(called)}"
    return None, f"{which}: there are {there} (--name {name}.wkt=COLUMN says which it is)"


def shapes_of(connection):
    """The columns of shapes of each table, by its name in small letters, with the numbers of their systems."""
    shapes = {}
    for table, column, srs in databases.rows(
        connection, "SELECT table_name, column_name, srs_id FROM gpkg_geometry_columns ORDER BY rowid"
    ):
        shapes.setdefault(str(table).lower(), []).append((str(column), srs))
    return shapes


def values_of(connection, origin, among=None):
    """The values of a layer's rows as they stand there: of all, or of those among two numbers of rows."""
    fields = [
        *([quoted(origin.key)] if origin.key else []),
        *map(quoted, origin.chosen.values()),
        *([quoted(origin.shape[0])] if origin.shape else []),
    ]
    condition = f" WHERE rowid BETWEEN {among[0]:d} AND {among[1]:d} ORDER BY rowid" if among else ""
    return databases.rows(connection, f"SELECT {', '.join(fields)} FROM {quoted(origin.table)}{condition}")


def rows_of(connection, origin, among=None, first=1):
    """The rows of a layer: all, or those among two numbers of rows. Where it has no key they are numbered from the
    first on."""
    shape, start = origin.shape, 1 if origin.key else 0
    for number, values in unforeseen.each(origin.table, values_of(connection, origin, among)):
        row = Row(
            values[0] if origin.key else number - 1 + first,
            dict(zip(origin.chosen, map(text_of, origin.chosen, values[start:]))),
        )
        if shape:
            put_shape(row, values[-1], wkt.read if origin.is_text else wkb.of_package)
            if not origin.is_text or shape[1] is not None:
                of_one_system(row, shape[1], USUAL if origin.is_text else "its layer's")
        yield row


def put_shape(row, value, reader):
    """Reads a row's shape, or says why it has none."""
    if value is None or value == "":
        row.why = "no shape (NULL)"
        return
    try:
        row.found = reader(value)
    except wkb.Unreadable as error:
        row.why, row.place = str(error), error.place
        return
    if row.found is None:
        row.why = "an empty shape"


def of_one_system(row, number, whose):
    """Takes a shape away whose own number of a system is another; 0 and -1 name none."""
    own = row.found.srid if row.found else None
    if own not in (None, 0, -1, number):
        row.why, row.found, row.place = (
            f"its own system has the number {own}, and {whose} is {number}",
            None,
            row.found.box()[:2],
        )


def system_of(connection, origin):
    """The system of a layer; None where it says that it has none."""
    srs = origin.shape[1]
    if srs in (-1, 0):
        return None
    found = connection.execute(
        "SELECT organization, organization_coordsys_id, definition FROM gpkg_spatial_ref_sys WHERE srs_id = ?", (srs,)
    ).fetchone()
    if found is None:
        return coordinate_systems.System(why=f"its number {srs} is in no row of gpkg_spatial_ref_sys")
    organization, number, definition = found
    return coordinate_systems.of_definition(
        number if str(organization).upper() == "EPSG" else None,
        str(definition or ""),
        (row.found.box() for row in rows_of(connection, origin) if row.found),
    )


def table_of(folder, name):
    """The path of a folder's table, or None."""
    return next(
        (
            path
            for ending in ("", *layer_guesses.ENDINGS)
            if os.path.isfile(path := os.path.join(folder, name + ending))
        ),
        None,
    )


def guesses_of(path, names):
    """What layers are taken for that a source has by no name, where that is told without another program."""
    if os.path.isdir(path):
        return {} if is_of_another_program(path) else layer_guesses.of_folder(path, names, table_of)
    with open(path, "rb") if os.path.isfile(path) else contextlib.nullcontext() as file:
        if file is None or file.read(16) != PACKAGE or not is_package(path):
            return {}
    with contextlib.closing(opened(path)) as connection:
        return layer_guesses.of_package(connection, names)


def read_folder(path, names, wanted, spare=None, outlined=()):
    """The tables of a folder, as a spreadsheet or another program wrote them."""
    reasons, layers = [], {}
    guessed = layer_guesses.of_folder(path, names, table_of)
    names.update(guessed)
    for name in wanted:
        called = names.get(name, name)
        table = table_of(path, called)
        if table is None:
            if name in SHAPED or name in names:
                reasons.append(
                    f"no table {called}.csv in {path}: there are"
                    f" {listed({one.name: one.columns for one in layer_guesses.tables_in(path, names)})} (--name"
                    f" {name}=TABLE says which it is)"
                )
            continue
        sheet = spreadsheets.read(table)
        columns = sheet.columns
        wanted_columns = [*COLUMNS[name], *(["wkt"] if name in SHAPED else [])]
        chosen, lacking, faults = chosen_of(columns, name, wanted_columns, names, table)
        reasons += [] if sheet.faults else lacking
        layers[name] = layer = Layer(
            name,
            faults=sheet.faults + faults,
            others=[shown(column) for column in columns if column not in chosen.values()],
        )
        layer.notes += [layer_guesses.words(name, names)] if name in guessed else []
        if not lacking and not layer.faults:
            if name in outlined:
                keep_rows(sheet, layer, chosen, os.path.join(spare, "tables.db"))
            else:
                read_rows(sheet, layer, chosen)
            tell_sheet(sheet, layer)
    if reasons:
        raise Trouble(*reasons, *layer_guesses.all_names(reasons, names))
    return layers


def read_rows(sheet, layer, chosen):
    """The rows of a table, each as long as its header."""
    places = {column: sheet.columns.index(found) for column, found in chosen.items()}
    shape = places.pop("wkt", None)
    for number, fields in sheet.rows():
        row = Row(number, {column: sys.intern(fields[place]) for column, place in places.items()})
        if shape is not None:
            put_shape(row, fields[shape].strip(" \t\r\n"), wkt.read)
        layer.rows.append(row)
    numbers = Counter(row.found.srid for row in layer.rows if row.found and row.found.srid is not None)
    usual = usual_system(layer, numbers)
    for row in layer.rows if numbers else ():
        of_one_system(row, usual, USUAL)


def keep_rows(sheet, layer, chosen, path):
    """The same into a table of a file, so that one row at a time is in memory."""
    places, numbers = {column: sheet.columns.index(found) for column, found in chosen.items()}, Counter()

    def fields_of():
        for number, fields in sheet.rows():
            texts = {column: fields[place] for column, place in places.items()}
            texts["wkt"] = texts["wkt"].strip(" \t\r\n")
            if texts["wkt"][:5].upper() == "SRID=":
                with contextlib.suppress(wkb.Unreadable):
                    found = wkt.read(texts["wkt"])
                    numbers.update([found.srid] if found and found.srid is not None else [])
            yield [number, *texts.values()]

    with contextlib.closing(sqlite3.connect(path)) as base:
        base.executescript(
            f"PRAGMA journal_mode = OFF; PRAGMA synchronous = OFF; CREATE TABLE {layer.name} (number INTEGER PRIMARY"
            f" KEY, {', '.join(map(quoted, places))})"
        )
        base.executemany(f"INSERT INTO {layer.name} VALUES (?{', ?' * len(places)})", fields_of())
        base.commit()
    layer.origin = Origin(
        path,
        layer.name,
        {column: column for column in places if column != "wkt"},
        ("wkt", usual_system(layer, numbers)),
        "number",
        True,
    )


def tell_sheet(sheet, layer):
    """What was met while a table was read."""
    layer.faults = sheet.faults
    if sheet.encoding == spreadsheets.WINDOWS:
        layer.notes.append("its text is read as Windows-1252 (CP1252): save it as UTF-8 if letters come out wrong")
    if sheet.blank:
        layer.notes.append(f"{sheet.blank} records without any field were skipped")


def usual_system(layer, numbers):
    """The system that SRID= before the shapes names: that of most, or None; the others have no shape."""
    usual = min(numbers, key=lambda number: (-numbers[number], number), default=None)
    if usual is not None:
        layer.system = coordinate_systems.of_number(usual)
    return usual
