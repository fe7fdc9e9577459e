"""Tables as spreadsheets write them: UTF-8, UTF-16 or Windows' letters, a byte order mark, commas, semicolons, tabs or
bars. Read record by record; what cannot be read as it stands is a fault of the table, and never passed over."""

from __future__ import annotations

import codecs
import csv
import re
from dataclasses import dataclass
from itertools import islice

from ..system import unforeseen
from ..system.printing import counted

csv.field_size_limit(1 << 30)
WINDOWS = "cp1252"
PART = 1 << 20


@dataclass
class Fault:
    """What is wrong with a table: the record's number, from 1 behind the header, or 0 where it is the table's."""

    row: int
    words: str


class Sheet:
    """A table, whatever program wrote it."""

    def __init__(self, path):
        self.path, self.encoding, self.faults, self.blank = path, encoding_of(path), [], 0
        with self.opened() as file:
            try:
                first = file.readline()
            except UnicodeError:
                first = ""
        # a line for spreadsheets alone
        self.has_separator = re.fullmatch(r"sep=[,;\t|]", first.strip("\r\n").lower()) is not None
        self.separator = first[4] if self.has_separator else max(",;\t|", key=first.count)
        self.columns = next((fields for _, fields in self.lines()), [])
        self.columns = [name.strip() for name in self.columns]

    def opened(self):
        return open(self.path, encoding=self.encoding, newline="", errors="strict")

    def lines(self):
        """The records that are not blank lines, with the line on which each begins; a fault where they cannot be
        read on."""
        with self.opened() as file:
            before = 1 if self.has_separator else 0
            reader, line = csv.reader(islice(file, before, None), delimiter=self.separator, strict=True), 1 + before
            try:
                for fields in reader:
                    if fields:
                        yield line, fields
                    line = reader.line_num + 1 + before
            except csv.Error as error:
                self.faults.append(
                    Fault(0, f"it cannot be read after line {line}: {error} (a quotation mark that is not closed?)")
                )
            except UnicodeError as error:
                self.faults.append(
                    Fault(
                        0, f"it cannot be read after line {line}: bytes that are not {self.encoding} ({error.reason})"
                    )
                )

    def rows(self):
        """The records behind the header with their numbers. One that is as long as the header alone is told; another
        is a fault."""
        self.faults, self.blank = [], 0
        lines, width = self.lines(), len(self.columns)
        next(lines, None)
        for number, (line, fields) in unforeseen.each("", lines, self.path):
            if not any(field.strip() for field in fields):
                self.blank += 1
            elif len(fields) != width:
                self.faults.append(
                    Fault(number, f"line {line} has {counted(len(fields), 'field')}, and the header has {width}")
                )
            else:
                yield number, fields

    @property
    def records(self):
        """The rows by the names of their columns."""
        return [dict(zip(self.columns, fields)) for _, fields in self.rows()]


def read(path):
    return Sheet(path)


def encoding_of(path):
    with open(path, "rb") as file:
        data = file.read(200)
        if data.startswith((b"\xff\xfe", b"\xfe\xff")):
            return "utf-16"
        if data.count(b"\0") > len(data) // 4:
            return "utf-16-le" if data[1:2] == b"\0" else "utf-16-be"
        decoder = codecs.getincrementaldecoder("utf-8")()
        try:
            while data:
                decoder.decode(data)
                data = file.read(PART)
            decoder.decode(b"", True)
        except UnicodeDecodeError:
            return WINDOWS
    return "utf-8-sig"
