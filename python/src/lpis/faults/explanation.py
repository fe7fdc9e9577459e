"""Explains a refusal in words, from the folder of the release that was refused."""

from ..formats import codes, drawing, polygons
from .country_explanation import OfCountry
from .group_explanation import OfGroups
from ..formats.source_names import SourceNames
from ..system.printing import counted
from ..formats.refusal_line import metres_of, read
from ..formats.sentences import SENTENCES
from ..formats.byte_tables import (
    COLUMNS,
    FREE,
    INSTEAD,
    KEYS,
    LETTERS,
    MARK,
    Table,
    is_identifier,
    kind_of_file,
    path_of,
    quoted,
    shown,
)


class Explained(OfGroups, OfCountry):
    """The words about one line, the shapes concerned, the place, and the stretches of border that differ."""

    def __init__(self, line, folder, cert=None, area=None, register=None, points=None):
        self.line, self.folder, self.cert, self.register = line, folder, cert, register
        self.named_files = {"area": area, "points": points}
        self.words, self.shapes, self.place, self.stretches, self.tables = [], [], None, [], {}
        self.named = []  # identifiers of the row that is refused
        self.refusal = read(line)
        if self.refusal is None:
            self.say(
                codes.FAILURES.get(
                    "".join(line.split()[1:2]) if line.startswith("failed ") else "", "docs/FORMATS.md has no such line"
                )
            )
            return
        self.place = self.refusal.place
        self.enter(folder, self.refusal.region)
        self.say_code(self.refusal.code)
        for code in (self.refusal.text_code, self.refusal.lineage_code, self.refusal.exact_code):
            if code:
                self.say_code(code)
        self.say_country()
        if self.refusal.code not in ("90", "96"):
            self.say_what_is_named()
        self.say_source_names()

    def say_what_is_named(self):
        """The row, the line or the shapes that the refusal names, and its place."""
        if self.refusal.table and self.refusal.row is not None:
            self.say_row()
        elif self.refusal.cert_line is not None:
            self.say_cert_line()
        elif self.refusal.kind == "pair":
            self.say_pair()
        elif self.refusal.kind == "exact":
            self.say_exact()
        elif self.refusal.lineage_code == "77":
            self.say_kept()
        elif self.refusal.kind:
            self.say_shapes()
        if self.place:
            x, y = (float(value / 1000) for value in self.place)
            self.say_sentence("place", metres=metres_of(self.place), x=f"{x:.6f}", y=f"{y:.6f}")

    def say(self, text):
        self.words.append(text)

    def say_sentence(self, key, indent="", **values):
        self.say(indent + SENTENCES[key].format(**values))

    def say_code(self, code):
        if code not in codes.CODES:
            self.say(f"code {code}: see docs/FORMATS.md")
            return
        meaning, cause, remedy = codes.CODES[code]
        self.say_sentence("code", code=code, meaning=meaning)
        if not cause.startswith("see code"):
            self.say_sentence("cause", "  ", cause=cause)
            self.say_sentence("remedy", "  ", remedy=remedy)

    def say_source_names(self):
        """What the identifiers of the refusal are called in the source, where tools/prepare changed them."""
        try:
            source = SourceNames(self.folder)
        except OSError as error:
            self.say(str(error))
            return
        for identifier in dict.fromkeys([*self.refusal.names, *self.named]):
            for kind, old in source.of(identifier):
                self.say(f"{kind} {identifier} is {old!r} in the source (identifiers.csv)")

    def table(self, name):
        """The table, or None where it cannot be read; it is read once."""
        if name not in self.tables:
            path = self.named_files.get(name) or path_of(self.folder, name)
            try:
                self.tables[name] = Table(path, name)
            except OSError as error:
                self.say(f"{path}: {error.strerror}")
                self.tables[name] = None
        return self.tables[name]

    # Rows of tables.

    def say_row(self):
        name, row = self.refusal.table, self.refusal.row
        table = self.table(name)
        if table is None:
            return
        if row == 0:
            self.say_header(table)
            return
        record = table.record(row)
        if record is None:
            self.say_sentence("no row", path=table.path, row=row, count=max(len(table.records) - 1, 0))
            return
        fields = ", ".join(
            f"{n} {quoted(table.field(record, n))}" for n in COLUMNS[name] if n != "wkt" and n in table.names
        )
        self.named = [shown(table.field(record, n)) for n in COLUMNS[name] if n != "wkt"]
        self.say_sentence("row", path=table.path, row=row, line=table.line(row))
        if fields:
            self.say(f"  {fields}")
        self.say_field(table, row, record)
        members = polygons.read(table.field(record, "wkt")) if "wkt" in table.names else None
        if members:
            self.say(f"  {polygons.extent(members)}")
            self.add_shape(
                name, shown(table.field(record, KEYS.get(name, "wkt"))) if name in KEYS else f"row {row}", members
            )

    def say_header(self, table):
        start = table.start
        kind = kind_of_file(start)
        if kind:  # which says it all
            self.words.insert(0, f"{table.path} is {kind}")
            return
        self.say_sentence(
            "wanted header",
            names=",".join(name for name in COLUMNS[table.name] if name not in {*INSTEAD.values(), *FREE}),
        )
        if start.startswith(MARK + MARK):
            self.say(f"{table.path} begins with two byte order marks")
        found = ",".join(shown(f) for f in table.header)
        self.say_sentence("found header", path=table.path, names=found[:200])
        for mark, what in ((b";", "semicolons"), (b"\t", "tabs"), (b"|", "bars")):
            if len(table.header) == 1 and mark in table.header[0]:
                self.say(f"its columns are separated by {what}: write commas")
        for what, names in (("missing", table.missing()), ("doubled", table.doubled())):
            if names:
                self.say(f"{what}: {', '.join(names)}")

    def say_field(self, table, row, record):
        code = self.refusal.lineage_code or self.refusal.code
        if code == "30":
            self.say_length(table, record)
        elif code == "33":
            for name in COLUMNS[table.name]:
                field = table.field(record, name)
                ending = name == "new" and not field
                if (
                    name not in ("wkt", "percent", "eligible", "exact", "x", "y")
                    and not ending
                    and not is_identifier(field)
                ):
                    self.say_letters(name, field)
                    break
        elif code == "34":
            key = KEYS.get(table.name, "")
            first = table.find(key, table.field(record, key))
            if first is not None and first < row:
                self.say(f"  it stood first in row {first}, line {table.line(first)}")
        elif code in ("35", "36"):
            name = "parcel" if code == "35" else "class"
            self.say_absent(name, table.field(record, name), self.table("parcels" if code == "35" else "classes"))
        elif code == "38":
            self.say_text(table.field(record, "wkt"))
        elif code in ("39", "3b", "3c"):
            name = {"39": "eligible", "3b": "percent", "3c": "exact"}[code]
            self.say(f"  {name} is {quoted(table.field(record, name))}")
        elif code == "3d":
            name, number = self.refusal.column, self.refusal.number_code
            meaning = codes.NUMBERS[number][0] if number in codes.NUMBERS else "see docs/FORMATS.md"
            self.say(f"  {name} is {quoted(table.field(record, name))}; {number}: {meaning}")
        elif code == "78":
            self.say_marks(table, record)
        elif code in ("73", "74"):
            self.say_rows_beside(table, record, "")
        elif code == "3a":
            self.say(f"  the table has {counted(len(table.records) - 1, 'row')}")

    def say_marks(self, table, record):
        """The rows that share an identifier with a marked one, and which of them are marked."""
        new = table.field(record, "new")
        if not new:
            self.say("  its row is an ending, which can't be marked")
        self.say_rows_beside(table, record, new)

    def say_rows_beside(self, table, record, new):
        """The rows of the same old identifier, or of this new one where it is named; of a country those of all
        regions."""
        old, every = table.field(record, "old"), self.every_lineage(table)
        for row, other in every.rows():
            if every.field(other, "old") == old or (new and every.field(other, "new") == new):
                self.say_row_of_lineage(every, row, other)

    def say_length(self, table, record):
        if len(record) != len(table.header):
            self.say(
                f"  the header has {len(table.header)} fields, this row {len(record)}:"
                f" {', '.join(quoted(f, 24) for f in record[:8])}"
            )
            if any(
                f.upper().startswith((b"POLYGON", b"MULTIPOLYGON")) and f.count(b"(") > f.count(b")") for f in record
            ):
                self.say('  the wkt is not quoted: write "POLYGON((..))" in double quotes')
            return
        try:
            table.field(record, "wkt").decode("utf-8")
        except UnicodeDecodeError as error:
            self.say(f"  wkt is not UTF-8 at offset {error.start}: byte {error.object[error.start]:#04x}")

    def say_letters(self, name, field):
        if not field:
            self.say_sentence("empty", "  ", name=name)
        elif len(field) > 40:
            self.say_sentence("long", "  ", name=name, count=len(field), value=quoted(field))
        else:
            place = next(i for i, letter in enumerate(field) if letter not in LETTERS)
            letter = field[place:].decode("utf-8", "replace")[:1]
            self.say_sentence("letter", "  ", name=name, value=quoted(field), number=place + 1, letter=repr(letter))

    def say_absent(self, name, value, table):
        if table is None:
            return
        alike = [
            quoted(table.field(r, name))
            for _, r in table.rows()
            if table.field(r, name).strip().lower() == value.strip().lower()
        ]
        self.say(
            f"  {table.path} has {counted(len(table.records) - 1, 'row')}, none of {name} {quoted(value)}"
            + (f"; {alike[0]} differs only in case" if alike else "")
        )

    def say_text(self, text):
        offset = self.refusal.offset
        found = polygons.TOKEN.match(text, offset)
        word = found.group() if found else b""
        number = text[:offset].count(b",") + 1
        what = f"{quoted(word)}" if word else SENTENCES["end of text"]
        before = text[max(0, offset - 40) : offset].decode("utf-8", "replace")
        self.say_sentence(
            "offset", "  ", offset=offset, word=what, number=number, before=repr((".." if offset > 40 else "") + before)
        )
        self.say(f"  {extent_of_words(text)}")

    # Certificates.

    def say_cert_line(self):
        if not self.cert:
            self.say(f"line {self.refusal.cert_line} of the certificate (name it by --cert to see the line)")
            return
        lines = self.say_line_of(self.cert)
        if lines and lines[0].endswith(b"\r"):
            self.say("  its lines end with CR LF (Windows): LF alone is read")

    def say_line_of(self, path):
        """How many lines a file has, and the one that the refusal names. All of them, or None where it cannot be
        read."""
        try:
            with open(path, "rb") as file:
                lines = file.read().split(b"\n")
        except OSError as error:
            self.say(f"{path}: {error.strerror}")
            return None
        number, count = self.refusal.cert_line, len(lines) - (lines[-1] == b"")
        self.say_sentence("lines", path=path, count=count, without="" if lines[-1] == b"" else SENTENCES["without"])
        if 1 <= number <= count:
            self.say_sentence("line", "  ", number=number, text=quoted(lines[number - 1]))
        return lines

    def say_pair(self):
        numbers = [int(n) for n in self.refusal.names]
        if not self.cert:
            self.say(
                f"triangles {numbers[0]} and {numbers[1]} of the certificate (name it by --cert to see whose they are)"
            )
            return
        owners, unit = {}, 1  # millimetres; a certificate of version 1 has centimetres
        try:
            with open(self.cert, "rb") as file:
                count, piece = 0, ""
                for line in file:
                    if line.startswith(b"lpis-cert "):
                        unit = 10 if line == b"lpis-cert 1\n" else 1
                    elif line.startswith(b"piece "):
                        piece = line.split()[1].decode("ascii", "replace")
                    elif line.startswith(b"t "):
                        if count in numbers:
                            owners[count] = (piece, [unit * int(w) for w in line.split()[1:]])
                        count += 1
        except (OSError, ValueError, IndexError) as error:
            self.say(f"{self.cert} cannot be read to its end: {error}")
        pieces = []
        for number in numbers:
            piece, corners = owners.get(number, ("", []))
            if piece:
                pieces.append(piece)
                self.say(
                    f"triangle {number} is of piece {piece}: "
                    + ", ".join(
                        f"{polygons.metres(x)} {polygons.metres(y)}" for x, y in zip(corners[::2], corners[1::2])
                    )
                )
                ring = list(zip(corners[::2], corners[1::2]))
                self.add_shape("triangle", str(number), [[ring + ring[:1]]])
        for piece in dict.fromkeys(pieces):
            self.find_shape("covers", "piece", piece)

    # Parcels and pieces.

    def say_shapes(self):
        refusal = self.refusal
        table, column = ("parcels", "parcel") if refusal.kind in ("parcel", "parcels") else ("covers", "piece")
        for name in refusal.names:
            self.find_shape(table, column, name)
        found = [members for _, _, members in self.shapes]
        if refusal.code in ("43", "44", "66") and found:
            self.say_pieces_of(refusal.names[0], found[0])
        elif refusal.code in ("40", "65") and found:
            self.say_crossing(list(polygons.edges(found[0])), None, "it crosses itself")
            if not self.place and sum(polygons.doubled_area(r) for m in found[0] for r in m) == 0:
                self.say("its area is 0")
        elif refusal.code == "42" and len(found) == 2:
            self.say_crossing(list(polygons.edges(found[0])), list(polygons.edges(found[1])), "their borders cross")

    def say_crossing(self, first, other, words):
        if self.place:
            return
        place = polygons.first_crossing(first, other)
        if place:
            self.place = place
            self.say(f"{words} (found by this tool, not reported by lpis):")

    def find_shape(self, table_name, column, name):
        table = self.table(table_name)
        row = table.find(column, name.encode()) if table else None
        if row is None:
            self.say_sentence("no shape", column=column, name=name, table=table_name)
            return
        record = table.record(row)
        members = polygons.read(table.field(record, "wkt"))
        others = ", ".join(
            f"{n} {shown(table.field(record, n))}" for n in COLUMNS[table_name] if n not in ("wkt", column)
        )
        self.say_sentence(
            "shape",
            column=column,
            name=name,
            row=row,
            table=table_name,
            line=table.line(row),
            others=", " + others if others else "",
            extent=polygons.extent(members) if members else SENTENCES["no polygon"],
        )
        if members:
            self.add_shape(column, name, members)

    def say_pieces_of(self, name, whole):
        covers = self.table("covers")
        if covers is None:
            return
        parts = []
        for row, record in covers.rows():
            if covers.field(record, "parcel") == name.encode():
                members = polygons.read(covers.field(record, "wkt"))
                if members:
                    piece = shown(covers.field(record, "piece"))
                    self.say_sentence(
                        "piece", piece=piece, row=row, line=covers.line(row), extent=polygons.extent(members)
                    )
                    self.add_shape("piece", piece, members)
                    parts.append(members)
        self.stretches = polygons.residue(whole, parts)
        if self.stretches:
            self.say_stretches("the parcel's or its pieces'")

    def add_shape(self, kind, name, members):
        self.shapes.append((kind, name, members))

    def geojson(self, epsg=None):
        return drawing.geojson(self.shapes, self.place, self.line, epsg, self.stretches)

    def svg(self):
        return drawing.svg(self.shapes, self.place, self.line, self.stretches)


def extent_of_words(text):
    """The extent of whatever numbers a text has, also where it is no polygon's."""
    found = []
    for part in text.replace(b"(", b",").replace(b")", b",").split(b","):
        try:
            x, y = [float(word) for word in part.split()[:2]]
            found.append((x, y))
        except ValueError:
            continue
    if not found:
        return "it has no points"
    xs, ys = [p[0] for p in found], [p[1] for p in found]
    return f"{len(found)} points, x {min(xs):.3f} to {max(xs):.3f}, y {min(ys):.3f} to {max(ys):.3f}"
