"""Small lands that are hard to round, by a seed: cells with parts of generated lands (lands_parts.py), from slivers of
a millionth of a millimetre to heaps of overlaps, and needles over many others. The rows are as the tools have them
when they have read them."""

import random

from lpis_helpers import lands_land
from lpis_helpers.lands_parts import (
    closed,
    comb,
    gap,
    grains,
    heap,
    junctions,
    moved_fan,
    needles,
    on_pixels,
    pond,
    sliver,
    twins,
    two_parts,
)
from lpis.formats import wkb
from lpis.source.land import Row

CORNERS = ((550000.0, 5400000.0), (0.0, 0.0), (-3000.0, 12345678.0))  # of lands, in metres


def long(land, a, b, c, d):
    """A needle from its corner to any other of the land."""
    far = land.random.choice(sorted(land.nodes.values()))
    land.parcel([closed(a, b, c, d)])
    land.parcel([closed(a, far, land.moved(far))])


PARTS = (comb, gap, grains, heap, junctions, long, moved_fan, needles, on_pixels, pond, sliver, twins, two_parts)


class Land(lands_land.Land):
    """`parcels` and `covers` are rows; cells of `step` metres, about the square root of `count` in a row."""

    def __init__(self, seed, count, step):
        self.random, self.step, self.parcels, self.covers = random.Random(seed), step, [], []
        side, (x, y) = max(2, int(count**0.5)), self.random.choice(CORNERS)
        self.nodes = {
            (i, j): self.near((x + i * step, y + j * step), 0.2 * step)
            for i in range(side + 1)
            for j in range(side + 1)
        }
        for i in range(side):
            for j in range(side):
                self.hair = 10 ** self.random.uniform(-9, -1)
                self.random.choice(PARTS)(
                    self, *(self.nodes[i + k, j + m] for k, m in ((0, 0), (1, 0), (1, 1), (0, 1)))
                )

    def add(self, members, pieces, form=None):
        """A parcel and its pieces, whose names are in no order."""
        name = f"P{len(self.parcels)}"
        self.parcels.append(Row(len(self.parcels), {"parcel": name}, wkb.Found(members)))
        for piece in pieces:
            number = len(self.covers)
            fields = {
                "piece": f"K{self.random.randrange(10**9):09}-{number}",
                "parcel": name,
                "class": self.random.choice("AB"),
            }
            self.covers.append(Row(number, fields, wkb.Found(piece)))
