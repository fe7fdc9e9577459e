"""Reads the rows of sources and of tables: GeoPackages by sqlite3, sheets of text, what ogr2ogr makes of other forms,
and the regions of a country; and what names and percentages of a source are in the tables. It decides nothing of land.
"""

import contextlib
import csv
import io
import json
import os
import re
import sqlite3
import subprocess
import sys
from array import array
from collections import defaultdict
from fractions import Fraction
from pathlib import Path
from typing import Any, Callable, Iterable, Iterator, Optional

from shapes import Shape, Unread, box_of, read_package, read_text, rings_of

COLUMNS = {"parcels": ["parcel"], "covers": ["piece", "parcel", "class"], "classes": ["class", "percent", "eligible"]}
ZONES = {**{25800 + zone: zone for zone in range(28, 39)}, 4647: 32, 5649: 31, 5650: 33}
ZONES.update({north + zone: zone for zone in range(1, 61) for north in (32600, 32700)})


class Trouble(Exception):
    """Why it cannot be told."""


def sheet(path: Path, separators: str = ",;\t") -> Iterator[list[str]]:
    """The records of a table of text, the header first."""
    csv.field_size_limit(1 << 30)
    with path.open("rb") as file:
        is_wide = file.read(2) in (b"\xff\xfe", b"\xfe\xff")
    for encoding in ("utf-16",) if is_wide else ("utf-8-sig", "cp1252", "iso-8859-1"):
        with contextlib.suppress(UnicodeDecodeError), path.open(encoding=encoding, newline="") as file:
            separator = max(separators, key=file.readline().count)
            while file.read(1 << 20):
                pass
            file.seek(0)
            yield from filter(None, csv.reader(file, delimiter=separator))
            return


def fields_of(records: Iterable[list], wanted: list[str]) -> Iterator[list]:
    """Of each record of a table the wanted fields; None where there is none. The first record is the header."""
    records = iter(records)
    lower = [str(field).strip().lower() for field in next(records, [])]
    places = [lower.index(name.lower()) if name.lower() in lower else None for name in wanted]
    return ([None if at is None or at >= len(record) else record[at] for at in places] for record in records)


def plain(value: Any) -> str:
    """A name as a text, without blanks around it."""
    return "" if value is None else str(value).strip()


class Names:
    """What names of the source are called in the tables. Two of them have not one name."""

    def __init__(self, out: Path) -> None:
        self.new, self.old, path = {}, defaultdict(dict), out / "identifiers.csv"
        for kind, old, new in fields_of(sheet(path, ",") if path.exists() else (), ["kind", "old", "new"]):
            self.new[kind, re.sub(r"^'(?=[=+\-@\t\r])", "", old)] = new

    def of(self, kind: str, value: Any) -> str:
        old = plain(value)
        new = self.new.get((kind, "" if value is None else str(value))) or self.new.get((kind, old)) or old
        return sys.intern(new) if self.old[kind].setdefault(new, old) == old else f"{old!r}, whose name another has"


def percentages(rows: Iterable[list], name_of: Callable[[str], str]) -> dict[str, Optional[str]]:
    """The percentage of each class, of rows (class, percent, eligible). They may all be shares of 1."""
    found: dict[str, Optional[Fraction]] = {}
    for name, percent, eligible in rows:
        word = plain(percent if percent is not None else eligible).replace("%", "").replace(",", ".").strip()
        value = Fraction(word) if re.fullmatch(r"[-+]?[0-9]*\.?[0-9]+|[0-9]+\.", word) else None
        found[name_of(name)] = value if percent is not None or value is None else value * 100
    values = [value for value in found.values() if value is not None]
    times = 100 if any(0 < value < 1 for value in values) and max(values) <= 1 else 1
    return {name: value if value is None else str(value * times) for name, value in found.items()}


def beside(land: Path) -> dict[str, str]:
    """What lpis.toml beside a source says: a text by each key, such as columns.parcels.parcel."""
    place, section, said = (land if (land / "lpis.toml").exists() else land.resolve().parent) / "lpis.toml", "", {}
    for line in place.read_text(encoding="utf-8-sig").splitlines() if place.is_file() else ():
        header = re.fullmatch(r"\s*\[\s*([\w.]+)\s*\].*", line)
        entry = re.match(r"""\s*([\w.]+)\s*=\s*("(?:[^"\\]|\\.)*"|'[^']*'|[^\s#]+)""", line)
        if header:
            section = header[1] + "."
        elif entry:
            said[section + entry[1]] = entry[2][1:-1] if entry[2][0] == "'" else str(json.loads(entry[2]))
    if "classes" in said:
        said["classes"] = str(place.parent / said["classes"])
    return said


class Source:
    """A GeoPackage, or a folder of tables of text; what has another name there has it in `names`."""

    def __init__(self, path: Any, names: dict[str, str]) -> None:
        self.path, self.names, self.systems = Path(path), names, {}
        self.base = None if self.path.is_dir() else sqlite3.connect(self.path.resolve().as_uri() + "?mode=ro", uri=True)
        if self.base:
            self.base.text_factory = lambda data: data.decode("utf-8", "replace")
            query = "SELECT lower(table_name), column_name, srs_id FROM gpkg_geometry_columns"
            self.systems = {name: (column, number) for name, column, number in self.base.execute(query)}

    def system(self, layer: str) -> tuple[str, Optional[int]]:
        """The column of a layer's shapes, and the number of its system."""
        return self.systems.get(self.names.get(layer, layer).lower(), ("wkt", None))

    def code(self, layer: str) -> Optional[int]:
        """The number in EPSG of a layer's system, or None."""
        query = "SELECT organization_coordsys_id FROM gpkg_spatial_ref_sys WHERE srs_id = ? AND srs_id > 0"
        found = self.base.execute(query, [self.system(layer)[1]]).fetchone() if self.base else None
        return found[0] if found else None

    def called(self, layer: str, *columns: str) -> list[str]:
        """What columns of a layer are called: those of a table of classes where none is named."""
        return [self.names.get(f"{layer}.{column}", column) for column in columns or COLUMNS[layer]]

    def rows(self, layer: str, columns: list[str]) -> Iterator[tuple[int, list]]:
        """The number of each row, its fields, and its shape as it stands there."""
        name = self.names.get(layer, layer)
        wanted = self.called(layer, *columns, "wkt")
        if self.base is None:
            path = self.path / f"{name}.csv"
            yield from enumerate(fields_of(sheet(path) if path.exists() else (), wanted), 1)
        elif self.base.execute("SELECT 1 FROM sqlite_master WHERE lower(name) = ?", [name.lower()]).fetchone():
            records = self.base.execute('SELECT *, rowid FROM "{}"'.format(name.replace('"', '""')))
            header = [column[0] for column in records.description[:-1]] + ["\0"]
            wanted[-1:] = [self.system(layer)[0], "\0"]
            yield from ((number, found) for *found, number in fields_of((header, *records), wanted))

    def shape(self, layer: str, data: Any) -> Shape:
        """The shape of a row's field, without its zone's number; none where it has no points of the layer's system."""
        try:
            shape, system = read_package(data) if self.base else read_text(data or "")
            if self.base and system != self.system(layer)[1]:
                raise Unread("it is in another system than its layer")
        except Unread:
            return []
        without_zone(shape, ZONES.get(self.code(layer) if self.base else system))
        return shape


def without_zone(shape: Shape, zone: Optional[int]) -> None:
    """Takes its zone's number off its eastings."""
    low, _, high, _ = box_of(shape if zone else [])
    if zone and zone * 1_000_000 <= low and high < (zone + 1) * 1_000_000:
        for values, _ in rings_of(shape):
            values[::2] = array("d", (x - zone * 1_000_000 for x in values[::2]))


def opened(land: str, names: dict[str, str], epsg: Optional[int], spare: str) -> Source:
    """The source; by ogr2ogr where it is of another form, or in another system than the parcels or --epsg."""
    if (Path(land) / f"{names.get('parcels', 'parcels')}.csv").exists():
        return Source(land, names)
    with open(land, "rb") if Path(land).is_file() else io.BytesIO() as file:
        package = Source(land, names) if file.read(16).startswith(b"SQLite format 3") else None
    target = epsg or (package.code("parcels") if package else None)
    if package and {target} >= {package.code("parcels"), package.code("covers")}:
        return package
    copy = str(Path(spare) / "land.gpkg")
    for layer in COLUMNS:
        words = ["ogr2ogr", "-q", "-f", "GPKG", copy, str(land), names.get(layer, layer), "-preserve_fid"]
        words += ["-update"] * os.path.exists(copy) + (["-t_srs", f"EPSG:{target}"] if target else [])
        done = subprocess.run(words, capture_output=True, text=True)
        if done.returncode and layer != "classes":
            raise Trouble(f"{land} is not read: {done.stderr.strip()[:200]}")
    return Source(copy, names)


def folders_of(out: Path) -> list[Path]:
    """The folder of tables, or those of a country's regions."""
    plan = out / "country.txt"
    lines = plan.read_text(encoding="ascii").split("\n") if plan.exists() else []
    return [out / line[7:] for line in lines if line.startswith("region ")] or [out]


def read_table(folder: Path, layer: str, *more: str) -> Iterator[list]:
    path = folder / f"{layer}.csv"
    if not path.exists() and layer != "classes":
        raise Trouble(f"{path} is not there")
    return fields_of(sheet(path, ",") if path.exists() else (), [*COLUMNS[layer], *more])


def members_of_text(text: str) -> list[list[list[tuple[int, int]]]]:
    """The polygons of a table's text, each of rings, in whole millimetres."""
    members: list = []
    for member in re.split(r"\)\s*\)\s*,\s*\(\s*\(", text.upper().lstrip("MULTIPOLYGON \t\r\n")):
        members.append([])
        for ring in re.split(r"\)\s*,\s*\(", member):
            flat = [round(float(word) * 1000) for word in ring.strip("() \t\r\n").replace(",", " ").split()]
            members[-1].append(list(zip(flat[::2], flat[1::2])))
    return members
