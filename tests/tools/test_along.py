"""Tests of what lies along a border: cases by hand, webs of edges with Shapely's buffer as the judge, and that crowds
and bundles cost no square of them. Wants Shapely and numpy."""

import math
import random

import pytest
from lpis.system import shapely_there

if shapely_there.is_there():
    import numpy
    from lpis.preparation import narrow_changes
    from lpis.rounding.border_distance import Along
    from shapely.geometry import LineString, MultiLineString, Polygon

WIDTH = 0.0015
EAST, NORTH = 550_000.0, 5_400_000.0
NEAR = 128  # pairs looked at for each line, and how often it is put into a cell


def moved(line, turn, east, north):
    """A line (in millimetres) turned about the origin, in metres from a place."""
    c, s = math.cos(turn), math.sin(turn)
    return [
        value
        for x, y in (line[:2], line[2:])
        for value in (east + (c * x - s * y) / 1000, north + (s * x + c * y) / 1000)
    ]


# In millimetres an edge, the segments of a border, and whether the edge lies along within one and a half.
CASES = {
    "on a segment": ((0, 0, 50, 0), [(0, 0, 50, 0)], True),
    "on a part of a segment, the other way": ((40, 0, 10, 0), [(0, 0, 50, 0)], True),
    "beside a segment": ((0, 1.4, 50, 1.4), [(0, 0, 50, 0)], True),
    "too far beside a segment": ((0, 1.6, 50, 1.6), [(0, 0, 50, 0)], False),
    "too far beside it, and across its ends": ((-9, 1.6, 59, 1.6), [(0, 0, 50, 0)], False),
    "up to a disc's side": ((0, 0, 51.4, 0), [(0, 0, 50, 0)], True),
    "beyond a disc's side": ((0, 0, 51.6, 0), [(0, 0, 50, 0)], False),
    "into a disc, aslant": ((50, 0, 51, 1), [(0, 0, 50, 0)], True),
    "out of a disc, aslant": ((50, 0, 51.1, 1.1), [(0, 0, 50, 0)], False),
    "past a sharp corner": ((-1, 0.9, 1.2, 0), [(-45, 21, 0, 0), (0, 0, -45, -21)], True),
    "away from a segment, up to the width": ((20, 0, 20, 1.4), [(0, 0, 50, 0)], True),
    "away from a segment, a spike": ((20, 0, 20, 2), [(0, 0, 50, 0)], False),
    "across a segment": ((20, -1.4, 20, 1.4), [(0, 0, 50, 0)], True),
    "over a gap that two discs close": ((0, 0, 50, 0), [(0, 0, 20, 0), (22.9, 0, 50, 0)], True),
    "over a gap that two discs leave": ((0, 0, 50, 0), [(0, 0, 20, 0), (23.1, 0, 50, 0)], False),
    "from one segment to another": ((0, 1, 50, 1), [(0, 0, 26, 0), (24, 2, 50, 2)], True),
    "over a border of many corners": ((0, 0, 50, 0), [(k, k % 2, k + 1, (k + 1) % 2) for k in range(50)], True),
    "in a crossing of many, but for a place": (
        (-10, 0, 10, 0),
        [(3 * k, -9, 3 * k, 9) for k in range(-3, 4) if k],
        False,
    ),
    "in a crossing of many": ((-10, 0, 10, 0), [(2.9 * k, -9, 2.9 * k, 9) for k in range(-4, 5)], True),
    "beside a needle": ((0, 1, 9e7, 1), [(0, 0, 9e7, 0)], True),
    "beside a needle that leaves it": ((0, 0, 9e7, 0), [(0, 1.4, 9e7, 1.6)], False),
    "a short one beside a needle": ((4e7, 1, 4e7 + 2, -1), [(0, 0, 9e7, 0)], True),
    "a needle beside short ones": ((0, 0, 9e7, 0), [(k, 0, k + 1, 0) for k in range(100)], False),
    "without length": ((7, 7, 7, 7), [(0, 0, 50, 0)], True),
    "beside a segment without length": ((0, 0, 1, 0), [(0, 0, 0, 0)], False),
    "beside nothing": ((0, 0, 1, 0), [], False),
}


def webs(draw):
    """Edges and segments, in metres near the origin: of a web, of which some are moved a little, some are parts, and
    some lie anywhere."""
    for count, size in ((12, 6), (12, 60), (30, 60), (30, 1000)):
        corners = [(draw.randint(0, size), draw.randint(0, size)) for _ in range(count)]
        border = [(*draw.choice(corners), *draw.choice(corners)) for _ in range(count)]
        border = [line for line in border if line[:2] != line[2:]]
        edges = []
        for line in border:
            a, b = sorted(draw.choice((0, 1, draw.random())) for _ in range(2))
            way, apart = (line[2] - line[0], line[3] - line[1]), [
                draw.choice((0, 0.7, 1.5, 2)) * draw.uniform(-1, 1) for _ in range(4)
            ]
            edges.append(tuple(line[k % 2] + way[k % 2] * (a, b)[k // 2] + apart[k] for k in range(4)))
        edges += [tuple(draw.uniform(0, size) for _ in range(4)) for _ in range(count // 4)]
        yield [[value / 1000 for value in line] for line in edges], [
            [value / 1000 for value in line] for line in border
        ]


def bundle(count, apart, length, turn=0.0):
    """Edges side by side, in millimetres apart and of a length, in a direction."""
    return [moved((0, apart * k, length, apart * k), turn, 0, 0) for k in range(count)]


def crowds(count):
    """Many edges that are near to few others each, in metres."""
    draw, side = random.Random(3), 30 * math.ceil(count**0.5)
    heap = [
        [value / 1000 for value in (x, y, x + draw.uniform(-5, 5), y + draw.uniform(-5, 5))]
        for x, y in ((draw.uniform(0, side), draw.uniform(0, side)) for _ in range(count))
    ]
    yield "a heap", heap
    yield "a heap with needles", heap + bundle(20, 10, 9e7, 0.3)
    yield "a heap, and one of all in a spot far away", heap + [[value + 90_000 for value in line] for line in heap]
    for turn in (0.0, 0.3, math.pi / 4, 1.6):
        yield f"a bundle turned by {turn}", bundle(count, 5, 60_000, turn)
        yield f"needles turned by {turn}", bundle(count, 5, 9e7, turn)
    yield "a ring", [
        [
            2 * math.cos(way) if k % 2 == 0 else 2 * math.sin(way)
            for k, way in enumerate((turn, turn, turn + 2 * math.pi / count, turn + 2 * math.pi / count))
        ]
        for turn in (2 * math.pi * number / count for number in range(count))
    ]


@pytest.mark.skipif(not shapely_there.is_there(), reason=shapely_there.LACKING)
class TestEdges:
    """What lies along, and how much is looked at for it."""

    def along(self, edges, border, width=WIDTH):
        return (
            Along(numpy.array(edges, float).reshape(-1, 4), numpy.array(border, float).reshape(-1, 4), width)
            .are()
            .tolist()
        )

    def test_cases(self):
        for name, (edge, border, wanted) in CASES.items():
            for turn in (0.0, 0.3, math.pi / 2, 2.5):
                for east, north in ((0.0, 0.0), (EAST, NORTH)):
                    lines = [moved(line, turn, east, north) for line in (edge, *border)]
                    assert self.along(lines[:1], lines[1:]) == [wanted], (name, turn, east)

    def test_webs(self):
        """As a buffer of Shapely has it, where a hundredth of the width more or less makes no difference."""
        draw, told = random.Random(1), {True: 0, False: 0, None: 0}
        for _ in range(4):
            for edges, border in webs(draw):
                found = self.along(
                    [[value + (EAST, NORTH)[k % 2] for k, value in enumerate(line)] for line in edges],
                    [[value + (EAST, NORTH)[k % 2] for k, value in enumerate(line)] for line in border],
                )
                less, more = (
                    MultiLineString([(line[:2], line[2:]) for line in border]).buffer(WIDTH * part, 16)
                    for part in (0.99, 1.01)
                )
                for line, lies in zip(edges, found):
                    way = LineString([line[:2], line[2:]])
                    wanted = True if less.contains(way) else None if more.contains(way) else False
                    told[wanted] += 1
                    assert wanted in (lies, None), (line, border)
        assert told[None] < 100
        assert told[True] > 100 and told[False] > 100, told

    @pytest.mark.parametrize("count", (500, 2_000))
    def test_crowds(self, count):
        """However many edges there are, a number of pairs is looked at for each."""
        for name, edges in crowds(count):
            lines = numpy.array(edges)
            along = Along(lines + numpy.array([0, 0.0004, 0, 0.0004]), lines, WIDTH)
            assert along.are().all(), (name, count)
            assert along.looked < NEAR * len(edges), (name, count)

    def test_pairs(self):
        """All of one place are near to each other: their intervals are joined while they are found."""
        lines = numpy.array(bundle(600, 0.001, 50))
        assert Along(lines, lines, WIDTH).are().all()

    def test_parts(self):
        """Parts of a change beside the shape that came of it: what leads away, and what lies along its border or a
        hole's."""
        ring = [(0, 0), (10, 0), (10, 10), (0, 10)]
        after = Polygon(ring, [[(4, 4), (6, 4), (6, 6), (4, 6)]])
        parts = {
            "a spike": ([(5, 10), (5.0004, 10), (5.0002, 12)], True),
            "a spike in a hole": ([(5, 4), (5.0004, 4), (5.0002, 5)], True),
            "a sliver": ([(0, 10), (10, 10), (5, 10.0007)], False),
            "a sliver of a hole": ([(4, 4), (6, 4), (5, 4.0007)], False),
            "a sliver that goes on": ([(0, 10), (11, 10), (5, 10.0007)], True),
            "a sliver round a corner": (
                [(9, 10.0005), (10.0005, 10.0005), (10.0005, 9), (10, 9), (10, 10), (9, 10)],
                False,
            ),
        }
        assert narrow_changes.lead_away(after, [Polygon(way) for way, _ in parts.values()]) == [
            wanted for _, wanted in parts.values()
        ]
        assert narrow_changes.lead_away(after, []) == []
