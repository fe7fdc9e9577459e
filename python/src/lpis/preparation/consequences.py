"""Which findings come of others, so that there is one to decide and the others stand below it: a row that changed where
a conflict was settled, one that is left out for what was found of it, shapes that lie far away since their layer is in
another system, and a place that another finding has already: a piece outside of its parcel, where it overlaps others;
a gap, where another parcel's piece lies outside of that; a parcel without pieces, whose piece names none."""

from __future__ import annotations

from functools import cached_property
from typing import Any, Callable, Iterable

from shapely.errors import ShapelyError
from shapely.ops import unary_union

from ..formats import wkb
from ..geometry.boxes import Boxes
from ..geometry.widths import ROUNDING, is_as_wide
from . import outlines
from .conflicts import WIDE, polygons_by

OF_ROW = ("left out", "made")  # they come of what was found of the same row
OF_PLACE = ("changed", "lost")  # they come of what was found where they are
OF_SYSTEM = ("far", "degrees", "bare")  # what comes of a layer in a wrong system
SAME_PLACE = {"outside": "overlap", "gap": "outside", "bare": "stranger"}  # the kind that has its place already
NO_CAUSE = (*OF_ROW, *OF_PLACE, "overlap", "gap", "outside")  # of a row: they are of a place, or come of others
ROOM = 2 * outlines.ABOUT  # metres: of a finding that is farther nothing is about a place
NARROW = 0.0021  # metres: what is narrower along a border is rounding, also beside last year's


class Place:
    """The land of a finding, made when it is asked for."""

    def __init__(self, number: int, blob: bytes) -> None:
        self.number, self.blob = number, blob
        self.box = wkb.Found.of_blob(blob).box()

    @cached_property
    def shape(self) -> Any:
        return polygons_by(wkb.unpacked(self.blob))

    @cached_property
    def about(self) -> Any:
        """With a millimetre about it, which rounding may move a corner."""
        return self.shape.buffer(outlines.ABOUT)


class Places:
    """Findings that may be causes, by the boxes of their polygons."""

    def __init__(self, found: Iterable) -> None:
        self.found = found = list(found)
        blobs = [(number, one.polygons()) for number, one in enumerate(found) if one.kind not in OF_ROW + OF_PLACE]
        self.places = [Place(number, blob) for number, blob in blobs if blob]
        self.boxes = Boxes([place.box for place in self.places])
        self.kinds = {one.kind for one in found}

    def same(self, one: Any) -> list[int]:
        """Those that have the place of a finding already, for the same mistake."""
        kind, _, _, names = one.key_words()
        blob = one.polygons() if SAME_PLACE[kind] in self.kinds else None
        return self.causes(blob, lambda other: self.is_same(kind, names, other)) if blob else []

    @staticmethod
    def is_same(kind: str, names: str, other: Any) -> bool:
        """Whether a finding may have the place of one of a kind: of what a piece has outside of its parcel it is an
        overlap of that piece."""
        found, layer, _, others = other.key_words()
        is_of_piece = layer == "covers" and names.split()[:1] in [[name] for name in others.split()]
        return found == SAME_PLACE[kind] and (kind != "outside" or is_of_piece)

    def causes(self, blob: bytes, may_be: Callable = lambda other: True) -> list[int]:
        """The findings in whose polygons polygons lie, but for what is too narrow to stop by itself; none where some of
        them lie elsewhere."""
        one = Place(-1, blob)
        left, low, right, high = one.box
        about = left - ROOM, low - ROOM, right + ROOM, high + ROOM
        near = [self.places[number] for number in self.boxes.meeting(about)]
        near = [place for place in near if may_be(self.found[place.number])]
        if not near:
            return []
        try:
            parts = [(place, one.shape.intersection(place.about)) for place in near]
            causes = [place for place, part in parts if is_as_wide(part, NARROW)]
            rest = one.shape.difference(unary_union([place.about for place in causes]))
            return [] if is_as_wide(rest, WIDE - ROUNDING) else [place.number for place in causes]
        except (ShapelyError, ValueError):
            return []


def causes_of(found: list) -> dict[int, list[int]]:
    """The causes of each finding that comes of others, by their places in the list."""
    places = Places(found)
    systems = {one.key_words()[1]: number for number, one in enumerate(found) if one.kind == "system"}
    rows: dict[tuple, list[int]] = {}
    for number, one in enumerate(found):
        kind, layer, row, _ = one.key_words()
        if kind not in NO_CAUSE and row != "":
            rows.setdefault((layer, str(row)), []).append(number)
    causes = {}
    for number, one in enumerate(found):
        kind, layer, row, _ = one.key_words()
        if kind in OF_ROW:
            causes[number] = rows.get((layer, str(row)), [])
        elif kind in OF_PLACE and (blob := one.polygons()):
            causes[number] = places.causes(blob)
        elif kind in OF_SYSTEM and row != "" and systems:
            causes[number] = [systems.get(layer, next(iter(systems.values())))]
        elif kind in SAME_PLACE:
            causes[number] = places.same(one)
    return {number: some for number, some in causes.items() if some}
