"""A register: one file for all years."""

from __future__ import annotations

import contextlib
import os
import re
import sqlite3
from dataclasses import dataclass
from pathlib import Path
from typing import Any

from .answers import Certificate, CertificateSource, Report, refused, release_of, text_of
from .backends import Answer, folder_of, put, run
from .formats import polygons, register_rows
from .refusals import Failed
from .tables import Table
from .tables import table as data_of


LINEAGE = re.compile(r"(?m)^lineage (\S+) (\S+)( exact)?$")


@dataclass(frozen=True)
class Shape:
    """A shape as a register keeps it: its well-known text, in metres with three decimals."""

    wkt: str

    @property
    def __geo_interface__(self) -> dict[str, Any]:
        members = polygons.read(self.wkt.encode())
        found = tuple(tuple(tuple((x / 1000, y / 1000) for x, y in ring) for ring in member) for member in members)
        return {"type": "MultiPolygon", "coordinates": found}


@dataclass(frozen=True)
class Ending:
    """What became of an identifier that a year dropped: `split`, `merged`, `replaced`, `redrawn` or `ended`, and
    whether that is proved exact."""

    identifier: str
    kind: str
    is_exact: bool


class Publication(Report):
    """The report of a release that a register has taken, with its year, and an `Ending` for each identifier that it
    dropped."""

    def __init__(self, text: str, covers: bytes, classes: bytes) -> None:
        super().__init__(text, covers, classes)
        self.year = int(text.split()[-1])
        self.lineage = tuple(Ending(name, kind, bool(exact)) for name, kind, exact in LINEAGE.findall(text))


class Register:
    """The register of a file. The program reads and writes it: each call is a process.

    Args:
        path: of the file.
        new: begin one. The file is made by the first call that needs it.

    Raises:
        FileNotFoundError: where there is no such file, and none is to be begun.
        FileExistsError: where one is to be begun, and the file is there.
    """

    def __init__(self, path: str | os.PathLike[str], new: bool = False) -> None:
        self.path = Path(path)
        if not new and not self.path.exists():
            raise FileNotFoundError(f"{self.path} is not there: new=True begins a register")
        if new and self.path.exists():
            raise FileExistsError(f"{self.path} is there already")

    @property
    def years(self) -> tuple[int, ...]:
        """The years that were published."""
        if not self.path.exists():
            return ()
        try:
            return tuple(register_rows.facts(self.path)["years"])
        except register_rows.Unreadable as error:
            raise Failed(str(error)) from None

    def shapes(self) -> dict[str, Shape]:
        """The shapes of the last release, by the parcels' identifiers."""
        if not self.path.exists():
            return {}
        try:
            with contextlib.closing(register_rows.opened(self.path)) as connection:
                return (
                    {}
                    if register_rows.is_empty(connection)
                    else {
                        name: Shape(text)
                        for name, text in connection.execute("SELECT id, wkt FROM lpis_text ORDER BY id")
                    }
                )
        except sqlite3.Error as error:
            raise Failed(f"{self.path} has no shapes that can be read: {error}") from None

    def trace(self, identifier: str) -> tuple[str, ...]:
        """What an identifier has become: those of the last release that come of it, ascending.

        Raises:
            Refused: 83 where no release had it, 84 where the file is no register.
            Failed: where there is no answer.
        """
        return tuple(self._told({}, "trace", "--", str(self.path), identifier).text.split())

    def exact(
        self, parcels: Table, covers: Table, classes: Table, certificate: CertificateSource, lineage: Table
    ) -> Certificate:
        """The certificate with what shows that the marked splits and merges are exact: `publish` wants it where rows
        are marked.

        Args:
            parcels, covers, classes: as of `check`.
            certificate: what `cut` made of them.
            lineage: as of `publish`.

        Raises:
            Refused: where a marked split or merge is not exact, and where the tables or their lineage are wrong.
            Failed: where there is no answer.
        """
        tables = {**release_of(parcels, covers, classes), "lineage": data_of(lineage, "lineage")}
        with folder_of(**tables) as folder:
            out = Path(folder, "exact.txt")
            self._told(tables, "exact", "--", str(self.path), folder, *put(folder, text_of(certificate)), str(out))
            return Certificate(out.read_bytes())

    def publish(
        self,
        year: int,
        parcels: Table,
        covers: Table,
        classes: Table,
        certificate: CertificateSource | None = None,
        lineage: Table = (),
    ) -> Publication:
        """Takes a release into the register, where it is a sound map and no identifier is lost: all of it, or nothing.

        Args:
            year: later than all years of the register.
            parcels, covers, classes, certificate: as of `check`; where rows are marked the certificate is that of
                `exact`.
            lineage: a table of `old` and `new`, what became of each identifier that is dropped (an ending has no
                `new`), and of `exact`, 1 in each row of a
                split or merge that is to be proved exact.

        Raises:
            Refused: the register is then as it was.
            Failed: where there is no answer; a year that was published stays.
        """
        tables = {**release_of(parcels, covers, classes), "lineage": data_of(lineage, "lineage")}
        with folder_of(**tables) as folder:
            cert = put(folder, text_of(certificate))
            answer = self._told(tables, "publish", "--", str(self.path), str(year), folder, *cert)
        return Publication(answer.text, tables["covers"], tables["classes"])

    def _told(self, tables: dict[str, bytes], *words: str) -> Answer:
        answer = run(*words)
        if answer.status:
            raise refused(answer, tables)
        return answer

    def __repr__(self) -> str:
        return f"lpis.Register({str(self.path)!r})"
