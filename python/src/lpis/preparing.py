"""From a source to tables: `lpis-prepare` as a call."""

from __future__ import annotations

import csv
import io
import os
import re
import sys
import tempfile
from dataclasses import dataclass
from pathlib import Path
from typing import Any, Iterable, Mapping

from . import tree
from .answers import frame_of
from .refusals import Failed
from .shapes import texts_of
from .source import coordinate_systems
from .tables import SHAPE, Table, columns_in, written
from .tables import table as data_of

TABLES = ("parcels", "covers", "classes")
USAGE = re.compile(r"(?ms)^usage: .*?(?=^prepare: )")


@dataclass(frozen=True, repr=False)
class Prepared:
    """What became of a source. `findings`, `settled`, `balance` and `identifiers` are the rows of prepared.csv,
    report.csv, balance.csv and identifiers.csv.

    Attributes:
        parcels, covers, classes: the tables as bytes, for `cut` and `check`; None where they were not written. `cut`
            takes the whole too, and says what stops.
        findings: what is wrong with the source, a row each.
        settled: overlaps, gaps and what was left out or changed, a row each.
        balance: the balance of land, by class.
        identifiers: the names that were changed, old and new.
        said: what the tool printed, which ends with what still stops.
    """

    parcels: bytes | None
    covers: bytes | None
    classes: bytes | None
    findings: tuple[dict[str, str], ...]
    settled: tuple[dict[str, str], ...]
    balance: tuple[dict[str, str], ...]
    identifiers: tuple[dict[str, str], ...]
    said: str

    @property
    def is_written(self) -> bool:
        """Whether there are tables."""
        return self.parcels is not None

    def table_of(self, name: str) -> bytes:
        """A table as bytes. `ValueError` says what stops where none was written."""
        found: bytes | None = self.__dict__[name] if name in TABLES else None
        if found is None:
            why = (
                "a source without a table of classes wants `classes`"
                if self.is_written
                else (self.said.splitlines() or [""])[-1]
            )
            raise ValueError(f"no {name} were written: {why}")
        return found

    def __repr__(self) -> str:
        return (
            f"<lpis.Prepared: {'tables' if self.is_written else 'no tables'}, {len(self.findings)} findings,"
            f" {len(self.settled)} settled>"
        )

    def to_frame(self, table: str = "findings") -> Any:
        """Rows as a frame of pandas: `parcels`, `covers`, `classes`, `findings`, `settled`, `balance` or
        `identifiers`."""
        found = self.table_of(table) if table in TABLES else self.__dict__[table]
        return frame_of(rows_of_text(found.decode("utf-8")) if isinstance(found, bytes) else found)


def prepare(
    parcels: Table,
    covers: Table | None = None,
    classes: Table | None = None,
    *,
    accept: bool | Iterable[str] = False,
    previous: str | os.PathLike[str] | None = None,
    identifiers: str | os.PathLike[str] | None = None,
    epsg: int | None = None,
    between: float | None = None,
    names: Mapping[str, str] | None = None,
    out: str | os.PathLike[str] | None = None,
) -> Prepared:
    """Tests a source, mends what loses no land, rounds all borders together, and gives tables and findings. It wants
    Shapely, of this Python or the system's.

    Args:
        parcels: a table, in metres with any number of decimals (`lpis.tables` says what a table may be); or, without
            `covers`, the path of a source:
            a GeoPackage, a folder, or what ogr2ogr reads. The system of a GeoPandas frame is looked at.
        covers: a table of pieces.
        classes: a table of `class` and `percent`, or a mapping; a source may have its own.
        accept: mends or leaves out what loses or changes land: all of it, or these kinds.
        previous: the folder of last year's tables, whose borders are kept where they did not change.
        identifiers: identifiers.csv of an earlier year, whose names are used again.
        epsg: the system of coordinates of the tables.
        between: up to how many metres wide land of nobody between parcels is reported.
        names: what layers and columns are called in the source, such as `{"parcels.parcel": "block_id"}`. lpis.toml
            beside the source may have them, and gets
            them where it is not there.
        out: the folder where all files stay; without it they go with the call.

    Raises:
        Failed: where the source cannot be read, or there is no Shapely.
    """
    with tempfile.TemporaryDirectory(prefix="lpis-") as spare:
        target = Path(out) if out is not None else Path(spare, "out")
        words = [sys.executable, str(tree.home() / "prepare")]
        if classes is not None:
            table = Path(spare, "classes.csv")
            table.write_bytes(data_of(classes, "classes"))
            words += ["--classes", str(table)]
        if accept:
            words.append(
                "--accept" if accept is True else f"--accept={accept if isinstance(accept, str) else ','.join(accept)}"
            )
        for option, value in (
            ("previous", previous),
            ("identifiers", identifiers),
            ("epsg", epsg),
            ("between", between),
        ):
            words += (
                [f"--{option}", os.fspath(value) if isinstance(value, os.PathLike) else str(value)]
                if value is not None
                else []
            )
        for wanted, found in (names or {}).items():
            words += ["--name", f"{wanted}={found}"]
        ended = tree.ended([*words, "--", str(source_of(Path(spare, "land"), parcels, covers)), str(target)])
        if ended.returncode not in (0, 1):
            raise Failed(USAGE.sub("", ended.stderr).strip() or f"lpis-prepare ended with status {ended.returncode}")
        return read(target, ended.returncode == 0, ended.stdout)


def source_of(folder: Path, parcels: Table, covers: Table | None) -> Path:
    """The path of a source: the one that is named, or a folder with the tables of this call."""
    if covers is None:
        if not isinstance(parcels, (str, os.PathLike)):
            raise TypeError("name the path of a source, or the tables of parcels and of pieces")
        return Path(parcels)
    folder.mkdir()
    for name, table in (("parcels", parcels), ("covers", covers)):
        Path(folder, f"{name}.csv").write_bytes(with_system(table, name))
    return folder


def with_system(table: Any, name: str) -> bytes:
    """A table as bytes, each shape with the number of the system that a GeoPandas frame has."""
    crs: Any = getattr(table, "crs", None)
    epsg = crs.to_epsg() if hasattr(crs, "to_epsg") else None
    if epsg is None:
        boxes = [table.total_bounds] if len(getattr(table, "total_bounds", ())) and len(table) else []
        system = coordinate_systems.of_definition(None, crs.to_wkt(), boxes) if hasattr(crs, "to_wkt") else None
        if system and system.why:
            raise Failed(
                f"{name}: it is in {system} ({system.why}): transform it to a system in metres, such as EPSG:25832"
            )
        return data_of(table, name)
    columns = columns_in(table, name)
    texts = texts_of(columns.values[columns.names.index(SHAPE)]) if SHAPE in columns.names else []
    marked = [f"SRID={epsg};{text}" if text else "" for text in texts]
    return written(
        columns._replace(
            values=[marked if column == SHAPE else values for column, values in zip(columns.names, columns.values)]
        ),
        name,
    )


def read(folder: Path, is_written: bool, said: str) -> Prepared:
    """What stands in the folder of a release."""
    tables = {name: Path(folder, f"{name}.csv") for name in TABLES}
    made = [path.read_bytes() if is_written and path.exists() else None for path in tables.values()]
    rows = [
        rows_of_text(path.read_text("utf-8")) if path.exists() else ()
        for path in (Path(folder, f"{name}.csv") for name in ("prepared", "report", "balance", "identifiers"))
    ]
    return Prepared(made[0], made[1], made[2], rows[0], rows[1], rows[2], rows[3], said)


def rows_of_text(text: str) -> tuple[dict[str, str], ...]:
    return tuple(dict(row) for row in csv.DictReader(io.StringIO(text, newline="")))
