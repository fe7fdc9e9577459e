"""What is too narrow in the change of a row to be a conflict: spikes and notches of the source, narrower than a
millimetre, that are not in the tables; and slits, which the tables have and the source has not. A crack between pieces
that is narrower than a millimetre may leave one: its two borders come to lie on neighbouring millimetres, and nobody
has what is between them."""

from __future__ import annotations

from typing import Any, Callable, Iterator

import numpy
from shapely.errors import ShapelyError
from shapely.geometry import MultiPolygon
from shapely.ops import unary_union

from ..geometry.widths import is_as_wide, parts_of
from ..rounding.border_distance import Along, edges_of
from .conflicts import LEAST, Loss, Source

ROUNDED = 0.001  # metres: what a border moves by rounding, at most
ALONG = 1.5 * ROUNDED  # metres from a border to what lies along it
SLIT = 0.003  # metres: what is narrower than a millimetre in the source is narrower than that in the tables
MOST = 1_000  # of a row that are told one by one


SPIKES = ("a spike", "is not in the tables"), ("a notch", "is not in the tables")  # of what went, of what came
SLITS = ("a slit", "is cut out of it in the tables"), ("a strip", "is added to it in the tables")
MORE = {
    "spike": "spikes and notches of this row are not in the tables",
    "slit": "slits and strips of this row are in the tables, and not in the source",
}


def found(name: str, row: Any, before: Any, after: Any, gone: Any, come: Any, told: Callable) -> Iterator[Loss]:
    """The losses of a row's change: its shape before and after, what went and what came. `told` gives the row's
    conflicts near a part: their places have rows already."""
    of_row = row[Source.KEYS[name]], name, row.number
    narrow = [(part, which) for which, change in enumerate((gone, come)) for part in narrow_parts(change)]
    are_away = lead_away(after, [part for part, _ in narrow])
    spikes = [(part, which) for (part, which), is_away in zip(narrow, are_away) if is_away]
    spikes = [(part, SPIKES[which]) for part, which in spikes if 2 * part.area < LEAST * part.length]
    yield from each_told("spike", *of_row, spikes, LEAST)
    along = [one for one, is_away in zip(narrow, are_away) if not is_away]
    are_away = lead_away(before, [part for part, _ in along])
    away = [one for one, is_away in zip(along, are_away) if is_away]
    slits = [(slit, SLITS[which]) for part, which in away for slit in untold(part, before, told)]
    yield from each_told("slit", *of_row, slits, SLIT)


def narrow_parts(change: Any) -> list:
    """The parts of a change that may be spikes or slits."""
    return [part for part in parts_of(change) if 2 * part.area < SLIT * part.length and part.length > 4 * ROUNDED]


def each_told(kind: str, who: str, layer: str, number: Any, parts: list, width: float) -> Iterator[Loss]:
    """A loss for each part that is nowhere as wide as that; past so many the rest are one."""
    for part, (what, became) in parts[:MOST]:
        if not is_as_wide(part, width):
            words = f"{what} of {part.length / 2:.3f} m, narrower than a millimetre, {became}"
            yield Loss(kind, [who], words, part, None, part.area, layer, [number])
    if rest := [part for part, _ in parts[MOST:]]:
        words = f"{len(rest)} more {MORE[kind]}: they are reported together"
        yield Loss(kind, [who], words, MultiPolygon(rest), None, sum(part.area for part in rest), layer, [number])


def untold(part: Any, before: Any, told: Callable) -> list:
    """What of a part of a change lies neither along the border that the row had, nor in a place of a conflict."""
    try:
        near = [loss.shape for loss in told(part) if loss.shape.intersects(part)]
        known = unary_union([before.boundary.intersection(part.envelope.buffer(1)), *near]).buffer(ALONG)
        return [one for one in parts_of(part.difference(known)) if one.length > 4 * ROUNDED]
    except (ShapelyError, ValueError):
        return [part]


def lead_away(after: Any, parts: list) -> list[bool]:
    """Which narrow parts of a change lead away from the border of a shape: some edge of such a part does not lie along
    it. Its edges stand for what is between them, which is narrow."""
    if not parts:
        return []
    edges, owner = edges_of(parts)
    is_along = Along(edges, edges_of(parts_of(after))[0], ALONG).are()
    return (numpy.bincount(owner[~is_along], minlength=len(parts)) > 0).tolist()
