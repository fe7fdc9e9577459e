"""`area`, `cut` and `check`, and what they answer."""

from __future__ import annotations

import functools
import importlib
import os
import re
from dataclasses import astuple, dataclass, fields
from fractions import Fraction
from pathlib import Path
from typing import Any, Iterable, Union

from .areas import Area
from .backends import Answer, chosen
from .formats import refusal_line
from .formats.codes import CODES
from .refusals import Failed, Point, Refused
from .system import installation
from .tables import Table, columns_of, records_of
from .tables import table as data_of

KEYS = {
    "parcels": ("parcel",),
    "covers": ("piece", "parcel", "class"),
    "classes": ("class",),
    "lineage": ("old", "new"),
    "points": ("point",),
}
TOTAL = re.compile(r"(?m)^total area (\S+) eligible (\S+)$")
PARCEL = re.compile(r"(?m)^parcel (\S+) area (\S+) eligible (\S+)$")
POINT = re.compile(r"[^,()]*")
COORDINATE = re.compile(r"[+-]?(?:\d+\.?\d*|\.\d+)\Z", re.ASCII)
NAMES = {"class_": "class"}  # attributes that are called otherwise than their columns


@dataclass(frozen=True)
class Certificate:
    """What shows that a release is a sound map: `cut` makes it, `check` tests it.

    Attributes:
        data: its text.
        triangles: how many it has, or None where that was not told.
        pairs: how many lines of pairs.
    """

    data: bytes
    triangles: int | None = None
    pairs: int | None = None

    def save(self, path: str | os.PathLike[str]) -> None:
        Path(path).write_bytes(self.data)


CertificateSource = Union[Certificate, str, "os.PathLike[str]", bytes, bytearray, memoryview]


@dataclass(frozen=True)
class Parcel:
    """A parcel of a release that passed: its areas in square metres, exactly."""

    parcel: str
    area: Area
    eligible: Area


@dataclass(frozen=True)
class Piece:
    """A piece of land cover of a release that passed: its parcel, its class, and its area in square metres, exactly."""

    piece: str
    parcel: str
    class_: str
    area: Area


@dataclass(frozen=True)
class LandClass:
    """A class: its percentage, how many pieces have it, and their areas together in square metres, exactly."""

    class_: str
    percent: int
    pieces: int
    area: Area
    eligible: Area


class Report:
    """A yes, and what is said with it. The areas of parcels are those that `check` proved, the areas of pieces those
    that `area` did.

    Attributes:
        text: what `lpis` printed.
        area, eligible: of all parcels together, in square metres.
    """

    def __init__(self, text: str, covers: bytes, classes: bytes) -> None:
        self.text, self._covers, self._classes = text, covers, classes
        ((area, eligible),) = TOTAL.findall(text)
        self.area, self.eligible = Area(area), Area(eligible)

    @functools.cached_property
    def parcels(self) -> tuple[Parcel, ...]:
        """A `Parcel` each, in the order of their table."""
        return tuple(Parcel(name, Area(area), Area(eligible)) for name, area, eligible in PARCEL.findall(self.text))

    @functools.cached_property
    def pieces(self) -> tuple[Piece, ...]:
        """A `Piece` each, in the order of their table."""
        rows = columns_of(records_of(self._covers), "piece", "parcel", "class")
        found = tuple(
            Piece(piece, parcel, class_, made) for (piece, parcel, class_), made in zip(rows, areas_of(self._covers))
        )
        if sum(piece.area for piece in found) != self.area:
            raise Failed("the areas of the pieces do not make up that of the parcels: this is a fault of lpis")
        return found

    @functools.cached_property
    def classes(self) -> tuple[LandClass, ...]:
        """A `LandClass` each, in the order of their table."""
        records = records_of(self._classes)
        has_percent = "percent" in [name.lower() for name in records[0]]
        found: dict[str, list[Area]] = {}
        for piece in self.pieces:
            found.setdefault(piece.class_, []).append(piece.area)
        rows = []
        for name, share in columns_of(records, "class", "percent" if has_percent else "eligible"):
            every, percent = found.get(name, []), int(share) * (1 if has_percent else 100)
            rows.append(
                LandClass(
                    name,
                    percent,
                    len(every),
                    Area.sum(every, 7),
                    Area.sum(one * Fraction(percent, 100) for one in every),
                )
            )
        return tuple(rows)

    def to_frame(self, table: str = "parcels") -> Any:
        """A table as a frame of pandas: `parcels`, `pieces` or `classes`, with areas as exact `decimal.Decimal`."""
        return frame_of(rows_of(getattr(self, {"parcels": "parcels", "pieces": "pieces", "classes": "classes"}[table])))

    def __repr__(self) -> str:
        return f"<lpis.Report: {self.text.splitlines()[0]}, area {self.area}, eligible {self.eligible}>"


def rows_of(items: Iterable[Any]) -> list[dict[str, Any]]:
    """The columns of some dataclasses."""
    return [
        {
            NAMES.get(part.name, part.name): value.decimal if isinstance(value, Area) else value
            for part, value in zip(fields(item), astuple(item))
        }
        for item in items
    ]


def frame_of(rows: Iterable[dict[str, Any]]) -> Any:
    try:
        pandas = importlib.import_module("pandas")
    except ModuleNotFoundError:
        raise ImportError(
            "pandas is not there, which a frame wants: pip install pandas, or take the rows as they are"
        ) from None
    return pandas.DataFrame(list(rows))


# Calls.


def area(table: Table) -> list[Area]:
    """The area of each row of a table, or of a list of shapes, in square metres, exactly.

    Args:
        table: a table with a column `wkt`, in metres with three decimals at most; or shapes (`lpis.tables` says what a
            table may be).

    Returns:
        An `Area` for each row. It is below 0 where holes are larger than shells.

    Raises:
        Refused: where a row is no polygon, or a coordinate finer than a millimetre.
        Failed: where there is no answer.
    """
    return areas_of(data_of(table, "area"))


def areas_of(data: bytes) -> list[Area]:
    answer = chosen().area(data)
    if answer.status:
        raise refused(answer, {"area": data})
    return [Area(line) for line in answer.text.splitlines()]


def cut(parcels: Table, covers: Table = None, classes: Table = None) -> Certificate:
    """Makes the certificate of a release.

    Args:
        parcels: a table of `parcel` and a shape, in metres with three decimals at most (`lpis.tables` says what a table
            may be); or, alone, what `prepare`
            gave.
        covers: a table of `piece`, `parcel`, `class` and a shape.
        classes: a table of `class` and `percent`, or a mapping of the one to the other.

    Raises:
        Refused: where the release is wrong, with a place where one is known.
        Failed: where there is no answer.
        ValueError: where there is no table, with what stops where `prepare` wrote none.
    """
    tables = release_of(parcels, covers, classes)
    answer, data = chosen().cut(*tables.values())
    if answer.status:
        raise refused(answer, tables)
    _, triangles, _, pairs = answer.text.split()
    return Certificate(data, int(triangles), int(pairs))


def check(
    parcels: Table, covers: Table = None, classes: Table = None, certificate: CertificateSource | None = None
) -> Report:
    """Checks a release. A report comes only if the answer of the proved code is yes.

    Args:
        parcels, covers, classes: as of `cut`.
        certificate: one that was handed over: what `cut` made, or its bytes, or the path of a file. Of none one is
            made, tested and let go.

    Raises:
        Refused: where the release is no sound map, or a certificate that was handed over does not show it.
        Failed: where there is no answer.
        ValueError: as of `cut`.
    """
    tables = release_of(parcels, covers, classes)
    answer = chosen().check(tables["parcels"], tables["covers"], tables["classes"], text_of(certificate))
    if answer.status:
        raise refused(answer, tables)
    return Report(answer.text, tables["covers"], tables["classes"])


def release_of(parcels: Table, covers: Table, classes: Table) -> dict[str, bytes]:
    """The three tables; what `prepare` gave has all of them."""
    if covers is None and classes is None and hasattr(parcels, "table_of"):
        covers = classes = parcels
    return {
        name: data_of(table, name) for name, table in (("parcels", parcels), ("covers", covers), ("classes", classes))
    }


def text_of(certificate: CertificateSource | None) -> bytes | None:
    """The bytes of a certificate, where one is named."""
    if certificate is None:
        return None
    if isinstance(certificate, Certificate):
        return certificate.data
    return (
        bytes(certificate)
        if isinstance(certificate, (bytes, bytearray, memoryview))
        else Path(certificate).read_bytes()
    )


# Refusals.


def refused(answer: Answer, tables: dict[str, bytes]) -> Refused:
    """The refusal that the last line of an answer reports, of these tables."""
    line = answer.text.rstrip("\n").rpartition("\n")[2]
    found = refusal_line.read(line)
    if found is None:
        return Refused(line)
    second = found.text_code or found.number_code or found.lineage_code or found.exact_code
    codes: tuple[str, ...] = (found.code, second) if second else (found.code,)
    names, place = tuple(found.names), Point(*(value / 1000 for value in found.place)) if found.place else None
    if found.table in tables and found.row:
        names, place = row_of(tables[found.table], found)
    return Refused(
        line, codes, tuple(filter(None, map(sentence_of, codes))), found.kind, found.table, found.row, names, place
    )


def sentence_of(code: str) -> str:
    """What a code means, its usual cause and its remedy."""
    known = CODES.get(code)
    if known is None:
        return ""
    meaning, cause, remedy = known
    named = installation.here
    return (
        f"{code}: {named(meaning)}"
        if cause.startswith("see code")
        else f"{code}: {named(meaning)}; usual cause: {named(cause)}; remedy: {named(remedy)}"
    )


def row_of(data: bytes, found: Any) -> tuple[tuple[str, ...], Point | None]:
    """The identifiers of the row that a refusal names, and the point at which its text is refused, where that has
    two numbers."""
    records = records_of(data)
    record = dict(zip((name.lower() for name in records[0]), records[found.row] if found.row < len(records) else []))
    names = tuple(
        record[name].encode("latin-1").decode("utf-8", "replace")
        for name in KEYS.get(found.table, ())
        if name in record
    )
    return names, point_at(record.get("wkt", ""), found.offset) if found.offset is not None else None


def point_at(text: str, offset: int) -> Point | None:
    """The point of a text around an offset."""
    begin = max(text.rfind(sign, 0, offset) for sign in ",(") + 1
    words = POINT.match(text, begin)
    found = words[0].split() if words else []
    if len(found) < 2 or not all(COORDINATE.match(word) for word in found[:2]):
        return None
    return Point(Fraction(found[0]), Fraction(found[1]))
