"""Who else has a place in conflict in a source: other parcels by their own shapes, and pieces of other parcels."""

from __future__ import annotations

from dataclasses import dataclass
from typing import Any, Callable, Iterable, Sequence

from shapely.ops import unary_union

from ..geometry.boxes import Boxes
from ..geometry.widths import ROUNDING, is_as_wide, parts_of
from ..system.printing import readable

MOST_NAMED = 3
EDGE = 0.001  # metres that rounding moves a border: so much along a border is no share
SHARE = 2 * EDGE - ROUNDING  # metres: as wide is a share somewhere


@dataclass
class Share:
    """What one has of a place."""

    name: str
    area: float
    shape: Any


def is_share(shape: Any) -> bool:
    return is_as_wide(shape, SHARE)


def fills(area: float, place: Any) -> bool:
    """Whether land in a place is all of it, but for what rounding leaves along its border."""
    return place.area - area <= place.length * EDGE


def in_words(shares: Iterable[tuple[str, float]]) -> str:
    """Names with areas, the largest first: A (2.000 m2), B (1.000 m2) and 7 others."""
    ordered = sorted(shares, key=lambda share: (-round(share[1], 3), share[0]))
    told = [f"{name} ({area:.3f} m2)" for name, area in ordered[:MOST_NAMED]]
    if more := len(ordered) - len(told):
        return f"{', '.join(told)} and {more} {'other' if more == 1 else 'others'}"
    return " and ".join(filter(None, (", ".join(told[:-1]), *told[-1:])))


class Rows:
    """The rows of a layer, which are asked what they have of a place."""

    def __init__(self, rows: Sequence, shape_of: Callable) -> None:
        self.rows, self.shape_of, self.boxes = rows, shape_of, None

    def shares(self, place: Any, parcel: str, name_of: Callable) -> list[Share]:
        """What those of other parcels than one have of a place, by name."""
        if self.boxes is None:
            self.boxes = Boxes([row.found.box() for row in self.rows])
        found: dict[str, list] = {}
        for row in (self.rows[number] for number in self.boxes.meeting(place.bounds)):
            if row["parcel"] != parcel and is_share(common := self.shape_of(row).intersection(place)):
                found.setdefault(name_of(row), []).append(common)
        lands = ((name, some[0] if len(some) == 1 else unary_union(some)) for name, some in found.items())
        return [Share(name, land.area, land) for name, land in lands]


class Holders:
    """The parcels and the pieces of a source."""

    def __init__(self, parcels: Sequence, covers: Sequence, shape_of: Callable) -> None:
        self.of_parcels, self.of_covers = Rows(parcels, shape_of), Rows(covers, shape_of)

    def parcels(self, place: Any, parcel: str) -> list[Share]:
        """What other parcels than one have of a place."""
        return self.of_parcels.shares(place, parcel, lambda row: readable(row["parcel"]))

    def pieces(self, place: Any, parcel: str) -> list[Share]:
        """What pieces of other parcels than one have of a place."""
        return self.of_covers.shares(
            place, parcel, lambda row: f"{readable(row['piece'])} of parcel {readable(row['parcel'])}"
        )

    def words_of_overlap(self, place: Any, parcel: str, others: list[Share]) -> str:
        """Of a place that a parcel has, none of its pieces, and other parcels."""
        pieces = unary_union([share.shape for share in self.pieces(place, parcel)])
        filled = (
            "whose pieces fill it"
            if fills(pieces.area, place)
            else f"whose pieces have {pieces.area:.3f} m2 of it"
            if pieces.area
            else "and no piece has it"
        )
        return (
            f"{readable(parcel)} has no piece here, and parcel{'s' * (len(others) > 1)} {told(others)}"
            f" {'have' if len(others) > 1 else 'has'} the place too, {filled}"
        )

    def words_of_gap(self, place: Any, parcel: str, others: list[Share]) -> str:
        """Of a place that a parcel has, and none of its pieces; other parcels have less than half of it."""
        words = "this place is in the parcel and in none of its pieces"
        return found_in(words, piece=self.pieces(place, parcel), parcel=others)

    def words_of_outside(self, place: Any, parcel: str) -> str:
        """Of a place that a piece has, and its parcel has not."""
        return found_in("this place is in the piece and not in its parcel", parcel=self.parcels(place, parcel))


def found_in(words: str, **others: list[Share]) -> str:
    """Words of a place, and in what else it is."""
    found = [f"in {name}{'s' * (len(some) > 1)} {told(some)}" for name, some in others.items() if some]
    return f"{words}; it is {' and '.join(found)}" if found else words


def told(shares: list[Share]) -> str:
    return in_words((share.name, share.area) for share in shares)


def apart(place: Any, others: list[Share], wide: float) -> tuple[Any, Any]:
    """What of a place others have, and the rest: both where both are as wide as a width, else the greater alone."""
    if not others:
        return None, place
    shared = unary_union([share.shape for share in others])
    rest = unary_union(parts_of(place.difference(shared)))
    if is_as_wide(shared, wide) and is_as_wide(rest, wide):
        return shared, rest
    return (place, None) if shared.area > rest.area else (None, place)
