"""What is raised: a refusal of the gate, and where there is no answer."""

from __future__ import annotations

from dataclasses import dataclass
from fractions import Fraction
from typing import Any


class Error(Exception):
    """What lpis raises of itself."""


class Failed(Error):
    """There is no answer: memory ran out, a file or the register could not be used, or there is no program here."""


@dataclass(frozen=True)
class Point:
    """A place, exactly.

    Attributes:
        x: east, in metres.
        y: north, in metres.
    """

    x: Fraction
    y: Fraction

    @property
    def __geo_interface__(self) -> dict[str, Any]:
        """The nearest doubles, for a map."""
        return {"type": "Point", "coordinates": (float(self.x), float(self.y))}

    def __str__(self) -> str:
        return f"POINT({float(self.x):.6f} {float(self.y):.6f})"


class Refused(Error):
    """The proved code has found a fault: the first by the order of docs/FORMATS.md.

    Attributes:
        line: the line that `lpis` prints, such as `refused 41 parcels west east at 50020 23980 1`.
        code: its code, such as `41`.
        codes: with those behind it, such as `("38", "14")` of a coordinate that is finer than a millimetre.
        words: what each of them means, its usual cause and its remedy, a sentence each.
        kind: of what the identifiers are, where no row is named: `parcel`, `parcels`, `piece`, `pieces`, `pair` or
            `exact`.
        table, row: the table, and its row from 1, where one is named; its header is 0.
        identifiers: those that are concerned, of a row those of its columns.
        place: a point that shows the fault, or None where none is known.
    """

    def __init__(
        self,
        line: str,
        codes: tuple[str, ...] = (),
        words: tuple[str, ...] = (),
        kind: str = "",
        table: str = "",
        row: int | None = None,
        identifiers: tuple[str, ...] = (),
        place: Point | None = None,
    ) -> None:
        super().__init__(line, codes, words, kind, table, row, identifiers, place)
        self.line, self.codes, self.words = line, codes, words
        self.kind, self.table, self.row, self.identifiers, self.place = kind, table, row, identifiers, place
        self.code = codes[0] if codes else ""

    def __str__(self) -> str:
        at = [f"at {self.place}"] if self.place else []
        return "\n".join([self.line, *self.words, *at])
