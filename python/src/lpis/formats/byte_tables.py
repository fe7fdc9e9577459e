"""Reads tables as `lpis` does: bytes, commas, double quotes, one leading byte order mark, columns by name in any case.

Fields are kept as bytes, so that the offsets that `lpis` reports fit.
"""

import csv
import errno
import io
import os

from ..system import unforeseen
from ..system.printing import escaped

COLUMNS = {
    "area": ["wkt"],
    "parcels": ["parcel", "wkt"],
    "covers": ["piece", "parcel", "class", "wkt"],
    "classes": ["class", "percent", "eligible"],
    "lineage": ["old", "new", "exact"],
    "points": ["point", "x", "y"],
}
INSTEAD = {"percent": "eligible"}  # the column that is read where there is none of the first name
FREE = {"exact"}  # columns that a table may lack
START = 72  # bytes by which a file is known
PACKAGES = (b"GPKG", b"GP10", b"GP11")  # what a GeoPackage has at byte 68
KEYS = {"parcels": "parcel", "covers": "piece", "classes": "class"}
MARK = b"\xef\xbb\xbf"
LETTERS = frozenset(b"ABCDEFGHIJKLMNOPQRSTUVWXYZabcdefghijklmnopqrstuvwxyz0123456789._:/-")

csv.field_size_limit(1 << 30)


def cut(text, most):
    return text if len(text) <= most else text[: most - 3] + "..."


def shown(field, most=60):
    """A field for people to read."""
    return cut(escaped(field.decode("utf-8", "replace")), most)


def quoted(field, most=60):
    """The same in quotation marks."""
    return repr(cut(field.decode("utf-8", "replace"), most))


def is_identifier(field):
    return 1 <= len(field) <= 40 and LETTERS.issuperset(field)


class Table:
    """A table's header and records, with the line on which each record begins. One that cannot be read to its end is
    an OSError, and no shorter table."""

    def __init__(self, path, name):
        self.path, self.name = path, name
        unforeseen.at(path)
        with open(path, "rb") as file:
            self.start = file.read(START)
            file.seek(0)
            data = file.read()
        if data.startswith(MARK):
            data = data[len(MARK) :]
        self.is_empty = not data
        reader = csv.reader(io.StringIO(data.decode("latin-1"), newline=""))
        self.records, self.lines = [], []
        line = 1
        try:
            for record in reader:
                if record:
                    self.records.append([field.encode("latin-1") for field in record])
                    self.lines.append(line)
                line = reader.line_num + 1
        except csv.Error as error:
            raise OSError(errno.EBADMSG, f"it cannot be read after line {line} ({error})", path) from None
        self.header = self.records[0] if self.records else []
        self.names = [field.decode("latin-1").lower() for field in self.header]

    def rows(self):
        """The rows with their numbers, from 1."""
        return unforeseen.each("", self.records[1:], self.path)

    def missing(self):
        """The columns that the table lacks, the first name where one of two is wanted."""
        others = INSTEAD.values()
        return [
            name
            for name in COLUMNS[self.name]
            if not {name, INSTEAD.get(name)} & set(self.names) and name not in {*others, *FREE}
        ]

    def doubled(self):
        return sorted({name for name in self.names if name in COLUMNS[self.name] and self.names.count(name) > 1})

    def column(self, name):
        return self.names.index(name) if name in self.names else None

    def field(self, record, name):
        """The field of a record in a column, or no bytes where there is none."""
        place = self.column(name)
        return record[place] if place is not None and place < len(record) else b""

    def record(self, row):
        return self.records[row] if 0 <= row < len(self.records) else None

    def line(self, row):
        return self.lines[row] if row < len(self.lines) else None

    def find(self, name, value):
        """The number of the first row that has the value in the column."""
        return next((row for row, record in self.rows() if self.field(record, name) == value), None)


def path_of(folder, name):
    return os.path.join(folder, name + ".csv")


def kind_of_file(start):
    """What a file is, by its first bytes, where it cannot be a table."""
    for head, what in (
        (b"", "empty"),
        (b"\xff\xfe", "UTF-16"),
        (b"\xfe\xff", "UTF-16"),
        (b"\x1f\x8b", "compressed by gzip"),
        (b"PK\x03\x04", "a zip archive or a spreadsheet"),
        (
            b"SQLite format 3",
            "a GeoPackage: tools/check reads it" if start[68:72] in PACKAGES else "an SQLite database, and no table",
        ),
        (b"%PDF", "a PDF"),
        (b"{", "JSON"),
        (b"<", "XML or HTML"),
    ):
        if start == head if not head else start.startswith(head):
            return what
    if b"\0" in start:
        return "not text (UTF-16 without a mark, or binary)"
    return None
