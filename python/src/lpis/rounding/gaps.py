"""Land that nobody has between parcels, up to a width: faces of the rounded map that are so narrow, whole; and where a
wider one, a road or what is around the land, has a narrow arm, the land over a border at right angles up to the
border that faces it. A yes does not speak of them."""

from __future__ import annotations

import math
from dataclasses import dataclass

import numpy
from shapely.geometry import Polygon
from shapely.ops import unary_union

from ..geometry import widths
from . import overlay
from .facing_borders import TINY, Facing, straightened

DEEP = 10  # times the width: strips up to this depth cross a few of the other side
HAIR = 0.000_05  # metres that parts of one gap may be apart, of doubles


@dataclass
class Gap:
    """Land that nobody has, with the parcels beside it, the two with the longest borders first."""

    names: list
    # in metres; None: `unsearched` borders of a parcel lie in heaps, beside which nothing was looked for
    shape: Polygon | None
    unsearched: int = 0


class Between:
    """The gaps of a map, up to a width in metres. `is_nobody` says of each cycle whether nobody has its face,
    `names_of` of half edges which parcels lie behind them."""

    def __init__(self, made, is_nobody, names_of, width):
        self.faces, self.points, self.width, self.names_of = made, made.network.points, width, names_of
        # a line within nobody's land parts nothing
        self.face = made.joined(is_nobody[made.cycle[0::2]] & is_nobody[made.cycle[1::2]])
        rings = overlay.Rings(made, numpy.where(is_nobody, 0, overlay.NOBODY))
        # borders, with nobody to their left
        self.halves, self.following, self.is_clear = rings.halves, rings.following, rings.is_clear
        outer = [self.face[root] for root, around in zip(made.outer, made.around) if around == overlay.NOBODY]
        self.inner = is_nobody & (self.face != outer[0]) if outer else is_nobody

    def find(self):
        """The gaps, in the order of the map."""
        if not len(self.halves):
            return []
        gaps = self.narrow()
        return [*gaps.values(), *self.arms(~numpy.isin(self.face[self.faces.cycle[self.halves]], list(gaps)))]

    def narrow(self):
        """The faces that are narrow, by their numbers, as gaps."""
        shapes, rings = {}, {}
        for owner, member, ring in overlay.Rings(
            self.faces, numpy.where(self.inner, self.face, overlay.NOBODY)
        ).walked():
            rings.setdefault(owner, []).append((member, ring))
        for owner, found in rings.items():
            members = [
                [self.points[ring] / 1000 for ring in member] for member in overlay.members_of(found, self.points)
            ]
            shape = unary_union([Polygon(shell, holes) for shell, *holes in members])
            if is_narrow(shape, self.width):
                shapes[owner] = shape
        beside = {owner: {} for owner in shapes}
        face = self.face[self.faces.cycle[self.halves]]
        mine = self.halves[numpy.isin(face, list(shapes))]
        a, b = self.ends(mine)
        for owner, name, length in zip(
            self.face[self.faces.cycle[mine]].tolist(),
            self.names_of(mine),
            numpy.hypot(*(b - a).T.astype(float)).tolist(),
        ):
            beside[owner][name] = beside[owner].get(name, 0.0) + length
        return {owner: Gap(in_order(beside[owner]), shape) for owner, shape in shapes.items()}

    def ends(self, halves):
        """The places where half edges begin and end."""
        start = self.faces.start
        return self.points[start[halves]], self.points[start[halves ^ 1]]

    def arms(self, is_wide):
        """The narrow arms between two parcels, among borders that nobody's wider land lies beside."""
        halves, number = self.halves[is_wide], numpy.cumsum(is_wide) - 1
        names = Names(self.names_of(halves))
        # not past a line's end: a cell may know a thin parcel as a line
        following = numpy.where(self.is_clear, number[self.following], -1)[is_wide]
        a, b, whose = straightened(*self.ends(halves), names.numbers, following)
        return arms(a, b, [names.all[number] for number in whose.tolist()], self.width)


class Names:
    """Names, and the number of each in their order."""

    def __init__(self, names):
        self.all = sorted(set(names))
        numbers = {name: number for number, name in enumerate(self.all)}
        self.numbers = numpy.array([numbers[name] for name in names], int)


def arms(a, b, names, width, own=None):
    """The narrow arms between two parcels, up to a width in metres, of borders from a to b in millimetres, with nobody
    to their left and a parcel to their right. `own`: those alone of which the parcel with the lesser name is one of
    these."""
    names, strips = Names(names), {}
    facing = Facing(a.astype(float), b.astype(float), names.numbers)
    for one, other, *strip in facing.strips(millimetres(width)):
        if own is None or names.all[min(one, other)] in own:
            strips.setdefault((min(one, other), max(one, other)), {}).setdefault(one, []).append(strip)
    gaps = []
    for pair, sides in sorted(strips.items()):
        whole = (
            land_of([side for _, side in sorted(sides.items())]).buffer(HAIR, join_style=2).buffer(-HAIR, join_style=2)
        )
        gaps += [
            Gap([names.all[number] for number in pair], part)
            for part in getattr(whole, "geoms", [whole])
            if part.area > 0
        ]
    unsearched = [(names.all[number], count) for number, count in sorted(facing.unsearched.items())]
    return gaps + [Gap([name], None, count) for name, count in unsearched if own is None or name in own]


def millimetres(width):
    return width * 1000 + TINY


def is_narrow(shape, width):
    return not widths.is_as_wide(shape, width + widths.ROUNDING)


def land_of(sides):
    """The land over the borders of two parcels, of strips and how often the depth of each has its width. Where strips
    are deep, those of one side cross many of the other's: then the land over that one whose borders have more of it,
    from which the land over both cannot be told."""
    shapes = [[Polygon(strip) for strip, _ in side] for side in sides]
    deep = math.fsum(depth for side in sides for _, depth in side)
    if deep <= DEEP * sum(map(len, shapes)):
        return unary_union([shape for side in shapes for shape in side])
    return max(map(unary_union, shapes), key=lambda land: land.area)


def in_order(lengths):
    """Names, the two with the longest borders first: by name among these, and by length to the millimetre among all."""
    names = sorted(lengths, key=lambda name: (-round(lengths[name]), name))
    return sorted(names[:2]) + names[2:]
