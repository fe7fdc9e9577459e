"""The land of a fault that `lpis` names by a code, a point and identifiers: what two shapes share, what a parcel has
and none of its pieces, what a piece has and its parcel has not; else the whole shape. By Shapely, in metres: it shows
where, and decides nothing.

    places_of(code, shapes)         of the shapes that the fault names, in whole millimetres
"""

from __future__ import annotations

from dataclasses import dataclass
from typing import Iterator

from shapely.errors import ShapelyError
from shapely.ops import unary_union

from ..preparation.conflicts import enclosed_by, members_of, polygons_by
from .fault_search import kind_of
from ..geometry.widths import parts_of, width_of

OVERLAPS, DIFFERENCES, UNCUT = ("41", "42"), ("43", "44"), "40"


@dataclass
class Place:
    """A kind of finding as tools/prepare calls it, its polygons in metres, their widest place and their area."""

    kind: str
    members: list
    width: float | None
    area: float


def places_of(code: str, shapes: list, pieces: list) -> list[Place]:
    """The places of a fault. `shapes` are those that it names, `pieces` those of the parcel that it names; nothing
    where Shapely cannot work them out, or finds none that has an area."""
    try:
        return [place for place in places(code, [metres_of(one) for one in shapes if one], pieces) if place.area > 0]
    except (ShapelyError, ValueError):
        return []


def places(code: str, shapes: list, pieces: list) -> Iterator[Place]:
    if code in OVERLAPS and len(shapes) == 2:
        yield place_of("overlap", polygons_by(shapes[0]).intersection(polygons_by(shapes[1])))
    elif code in DIFFERENCES and shapes:
        parcel, land = polygons_by(shapes[0]), unary_union([polygons_by(metres_of(piece)) for piece in pieces])
        yield place_of("gap", parcel.difference(land))
        yield place_of("outside", land.difference(parcel))
    elif code == UNCUT and shapes:
        yield whole_of("invalid", enclosed_by(shapes[0]))
    elif shapes:
        yield whole_of(kind_of(code), polygons_by(shapes[0]))


def metres_of(members: list) -> list:
    return [[[(x / 1000, y / 1000) for x, y in ring] for ring in member] for member in members]


def place_of(kind: str, shape) -> Place:
    """A conflict: lines and points of it are no land."""
    land = unary_union(parts_of(shape))
    return Place(kind, members_of(land), width_of(land), land.area)


def whole_of(kind: str, shape) -> Place:
    return Place(kind, members_of(shape), None, shape.area)
