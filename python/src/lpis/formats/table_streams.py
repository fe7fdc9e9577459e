"""Tables of any size, record by record, each with its lines as they are written."""

import csv
import itertools
import operator
import os
from itertools import islice
from operator import mul

from ..system import trouble, unforeseen
from ..system.printing import counted, escaped
from .byte_tables import COLUMNS, FREE, INSTEAD

csv.field_size_limit(1 << 30)
MARK = "\xef\xbb\xbf"  # the byte order mark; bytes are letters here, one for one
FAR = 20_000_000_000


class Trouble(trouble.Trouble):
    """What a source has that can't be split, line by line."""


class Folder:
    """The tables parcels.csv, covers.csv and classes.csv of a folder, and lineage.csv where it is there."""

    ENDING = ".csv"

    def __init__(self, path):
        self.path = path

    def path_of(self, name):
        return os.path.join(self.path, f"{name}{self.ENDING}")

    def lines(self, name):
        return lines_of(self.path_of(name))

    def size(self, name):
        return os.path.getsize(self.path_of(name))

    def lineage(self):
        """The path of the table of lineage, or None."""
        path = self.path_of("lineage")
        return path if os.path.exists(path) else None


class OneFile:
    """A table that is named by its path."""

    def __init__(self, path):
        self.path = path

    def lines(self, _name):
        return lines_of(self.path)


def lines_of(path):
    with open(path, encoding="latin-1", newline="") as file:
        yield from file


def records(lines):
    """Each record that is not blank, with its lines."""
    lines, again = itertools.tee(lines)
    reader, before = csv.reader(lines), 0
    try:
        for record in reader:
            count, before = reader.line_num - before, reader.line_num
            raw = next(again) if count == 1 else "".join(itertools.islice(again, count))
            if record:
                yield record, raw
    except csv.Error as error:
        raise Trouble(f"it cannot be read after line {before}: {error}") from None


class Stream:
    """A table: its header as it is written, and then its rows: the number, from 1, the fields wanted (one, or a
    tuple), and the lines."""

    def __init__(self, source, name, wanted):
        self.name, self.wanted, self.records = name, wanted, records(source.lines(name))
        header, raw = next(self.records, ([], ""))
        if header and raw.startswith(MARK):
            raw = raw.removeprefix(MARK)
            header = next(csv.reader([raw]))
        self.header, self.width = ended(raw), len(header)
        names = [field.lower() for field in header]
        wrong = [
            f"{name}.csv: {'no column' if column not in names else 'two columns'} {column}"
            for column in columns_of(name, names)
            if names.count(column) != 1
        ]
        if wrong:
            raise Trouble(*wrong)
        self.places = [names.index(column) for column in wanted]

    def __iter__(self):
        width, fields = self.width, operator.itemgetter(*self.places)
        for row, (record, raw) in unforeseen.each("", self.records, f"{self.name}.csv"):
            if len(record) != width:
                raise Trouble(f"{self.name}.csv row {row}: {counted(len(record), 'field')}, and the header has {width}")
            yield row, fields(record), raw


def columns_of(name, names):
    """The columns that a table has to have once."""
    return [
        INSTEAD[column] if column not in names and INSTEAD.get(column) in names else column
        for column in COLUMNS[name]
        if column not in {*INSTEAD.values(), *FREE}
    ]


def shown(name):
    """An identifier, whose bytes are letters here, for people to read."""
    return escaped(name.encode("latin-1").decode("utf-8", "replace"))[:60]


def ended(raw):
    """The lines of a record with a line end."""
    return raw if raw.endswith("\n") else raw + "\n"


def measured(text):
    """The box of a polygon's text (least x and y, greatest x and y) in millimetres, and its doubled area; exact where
    it has at most three decimals. None where it is no such text."""
    head, _, body = text.partition("(")
    if head.strip().upper() not in ("POLYGON", "MULTIPOLYGON") or "_" in body:  # which Python takes in a number
        return None
    doubled, every_x, every_y = 0, [], []
    try:
        for ring in filter(is_filled, body.split(")")):
            brackets, _, points = ring.rpartition("(")
            xs, ys = millimetres(points)
            is_shell = "(" in brackets or not every_x
            doubled += (1 if is_shell else -1) * abs(
                sum(map(mul, xs, islice(ys, 1, None))) - sum(map(mul, islice(xs, 1, None), ys))
            )
            every_x += xs
            every_y += ys
    except (ValueError, OverflowError):
        return None
    box = (min(every_x), min(every_y), max(every_x), max(every_y)) if every_x else (FAR + 1,)
    return (box, doubled) if max(map(abs, box)) <= FAR else None


def is_filled(text):
    return text.strip(" \t\r\n,") != ""


def millimetres(text):
    """The numbers of a ring, x and y for themselves."""
    values = [round(float(word) * 1000) for word in text.replace(",", " ").split()]
    if len(values) % 2 or not values:
        raise ValueError
    return values[0::2], values[1::2]
