"""Tests of the faces of a network: the next edge to the left of a place against exact fractions, the members of what
one has, and that shapes of 25,000 members or holes take little room. Wants Shapely and numpy."""

import os
import random
import subprocess
import sys
import time
from fractions import Fraction

import pytest
from lpis_helpers import places
from lpis.system import shapely_there

if shapely_there.is_there():
    import numpy
    from lpis.formats import polygons, wkb
    from lpis.geometry import noding
    from lpis.rounding import coverage, left_edges
    from lpis.source import land
    from shapely import wkt
MOST_MEGABYTES = 300
MANY = """
import sys
sys.path.insert(0, {tools!r})
from lpis.source import land; from lpis.rounding import coverage as rounding; from lpis.formats import wkb
members = {members}
rows = [land.Row(1, dict(parcel="A", piece="1", **{{"class": "GRASS"}}), wkb.Found(members)) for _ in range(2)]
made = rounding.Map(rows[:1], rows[1:], lambda words: None)
((_, text),) = made.polygons(made.pieces)
members = text.count("((")
with open("/proc/self/status") as file:
    peak = next(int(line.split()[1]) // 1024 for line in file if line.startswith("VmHWM"))  # ru_maxrss has what pytest takes, too
print(members, text.count("(") - 1 - members, peak)
"""  # noqa: E501
SQUARE = "[({x}, {y}), ({x} + 2, {y}), ({x} + 2, {y} + 2), ({x}, {y} + 2), ({x}, {y})]".format(
    x="4.0 * (k % 158)", y="4.0 * (k // 158)"
)


def place_of(edge, place):
    """Where an edge passes a little above the level of a place, left of it, as what the greatest of is the next one;
    None where it does not."""
    (ax, ay, bx, by), (x, y) = (edge if edge[1] <= edge[3] else (*edge[2:], *edge[:2])), place
    if not ay <= y < by:
        return None
    slope = Fraction(bx - ax, by - ay)
    at = ax + (y - ay) * slope
    return (at, slope) if at < x else None


@pytest.mark.skipif(not shapely_there.is_there(), reason=shapely_there.LACKING)
class TestFaces:
    def test_leftward(self):
        """Stars of edges around random corners, near and far from one another, and at the ends of what the tables
        may have."""
        draw = random.Random(1)
        for scale in (3, 40, 5_000, 10**6, 2 * 10**10):
            for _ in range(30):
                centre = [draw.randint(-scale, scale) for _ in range(2)]
                edges = [
                    [*centre, *(value + draw.randint(-scale, scale) // draw.choice((1, 7, 100)) for value in centre)]
                    for _ in range(12)
                ]
                edges += [
                    [value - (1 if end % 2 else draw.choice((0, 1, 3))) for end, value in enumerate(edge)]
                    for edge in edges
                ]
                asked = [
                    [
                        draw.randint(-2 * scale, 2 * scale),
                        draw.choice([edge[1] for edge in edges] + [draw.randint(-scale, scale)]),
                    ]
                    for _ in range(40)
                ]
                found = left_edges.Leftward(numpy.array(edges)).next_to(numpy.array(asked))
                for number, place in zip(found.tolist(), asked):
                    best = max((told for edge in edges if (told := place_of(edge, place))), default=None)
                    assert (None if number < 0 else place_of(edges[number], place)) == best, (edges, place)

    def test_leftward_of_heaps(self):
        """Edges in heaps of a few millimetres beside edges of many kilometres, and rows of places that have nothing to
        their left for long: a number of edges is looked at for each, however many there are, and the answer is that
        of all edges."""
        draw = random.Random(2)
        for count in (200, 800):
            heap = [(draw.randrange(400) * 5, draw.randrange(400) * 5) for _ in range(count)]
            heap = [(x, y) for x, y in dict.fromkeys(heap)]
            small = [
                edge
                for x, y in heap
                for edge in ((x, y, x + 2, y + 1), (x + 2, y + 1, x + 1, y + 3), (x, y, x + 1, y + 3))
            ]
            far = [(-(10**8) * k, -5, -(10**8) * k - 10**7, 10**9) for k in range(1, 2 * count)]
            flat = [
                (10**7 * k, (k * 7919) % 10**6 - 10**7, 10**7 * k + 10**6, (k * 7919) % 10**6 - 10**7 + 1)
                for k in range(count)
            ]
            for edges, asked in ((small + far, heap), (flat, [edge[:2] for edge in flat])):
                left = left_edges.Leftward(numpy.array(edges))
                found = left.next_to(numpy.array(asked)).tolist()
                assert left.looked <= 32 * (len(edges) + len(asked) + left_edges.TURN)
                for number, place in list(zip(found, asked))[:: count // 40]:
                    best = max((told for edge in edges if (told := place_of(edge, place))), default=None)
                    assert (None if number < 0 else place_of(edges[number], place)) == best, place

    def test_swept(self):
        """The line that goes upward answers as the cells do: over grids with holes, edges of one corner, and places
        on the level of corners."""
        draw = random.Random(3)
        for size in (1, 3, 10, 10**9):
            for _ in range(20):
                corners = [
                    [
                        (x * 10 * size + draw.randrange(4 * size), y * 10 * size + draw.randrange(4 * size))
                        for x in range(7)
                    ]
                    for y in range(7)
                ]
                edges = [
                    (*corners[y][x], *corners[y + dy][x + dx])
                    for y in range(6)
                    for x in range(6)
                    for dx, dy in ((1, 0), (0, 1), draw.choice(((1, 1), (0, 1))))
                    if draw.random() < 0.8
                ]
                edges = numpy.array(edges)
                asked = numpy.array(
                    [place for row in corners for place in row]
                    + [(draw.randrange(80 * size), draw.randrange(80 * size)) for _ in range(20)]
                )
                left = left_edges.Leftward(edges)
                by_cells, by_line = left.next_to(asked).tolist(), left_edges.swept(left.edges, asked).tolist()
                for *numbers, place in zip(by_cells, by_line, asked.tolist()):
                    found, swept = (
                        None if number < 0 else place_of(edges[number].tolist(), place) for number in numbers
                    )
                    assert found == swept, place

    def test_turns(self):
        """Which way a ring goes is exact, also where it is a hair that doubles take for a line."""
        draw, rings = random.Random(4), []
        for _ in range(3000):
            x, y = draw.uniform(4e5, 9e5), draw.uniform(5e6, 6e6)
            far, hair = draw.choice((1e-3, 10.0, 9e4)), draw.choice((1e-3, 1e-9, 1e-10, 0.0))
            a, b = (x, y), (x + draw.uniform(-far, far), y + draw.uniform(-far, far))
            part = draw.random()
            rings.append(
                [
                    a,
                    b,
                    (
                        a[0] + part * (b[0] - a[0]) + draw.uniform(-hair, hair),
                        a[1] + part * (b[1] - a[1]) + draw.uniform(-hair, hair),
                    ),
                    a,
                ]
            )
        edges, owners = noding.Rings([wkb.Found([[ring]]) for ring in rings]).edges()
        for number, ring in enumerate(rings):
            way = [(Fraction(x), Fraction(y)) for x, y in ring]
            area = sum(ax * by - bx * ay for (ax, ay), (bx, by) in zip(way, way[1:]))
            found = [tuple(edge) for edge in edges[owners == number].tolist()]
            wanted = [(*p, *q) for p, q in zip(ring, ring[1:])]
            assert found == ([(*edge[2:], *edge[:2]) for edge in wanted] if area < 0 else wanted), ring

    def test_members(self):
        """Squares of a grid, given to a few owners at random: each owner's area is kept, and each hole lies in its
        shell."""
        draw = random.Random(2)
        for share in (0.3, 0.5, 0.8):
            cells = {(x, y): draw.choice("AB") for x in range(16) for y in range(16) if draw.random() < share}
            rows = []
            for name in "AB":
                members = [
                    [[(x + a, y + b) for a, b in ((0, 0), (1, 0), (1, 1), (0, 1), (0, 0))]]
                    for (x, y), who in cells.items()
                    if who == name
                ]
                rows.append(land.Row(1, {"parcel": name, "piece": name, "class": "GRASS"}, wkb.Found(members)))
            made = coverage.Map(rows, rows, lambda words: None)
            for (number, text), (_, corners) in zip(made.polygons(made.pieces), made.members(made.pieces)):
                assert polygons.read(text.encode()) == made.in_millimetres(corners)
                shape = wkt.loads(text)
                assert shape.is_valid, text
                assert shape.area == sum(who == "AB"[number] for who in cells.values())

    def test_heaps(self):
        """150 shapes that all overlap: each two of them, once, in little time."""
        rows = []
        for number in range(150):
            x, y = 0.37 * number, 0.53 * (number * 61 % 150)
            rows.append(
                land.Row(
                    1,
                    {"parcel": f"P{number}", "piece": f"{number:03}", "class": "GRASS"},
                    wkb.Found([[[(x, y), (x + 100, y), (x + 100, y + 100), (x, y + 100), (x, y)]]]),
                )
            )
        before = time.process_time()
        found = coverage.Map([], rows, lambda words: None).conflicts()
        assert len(found.overlaps) == 150 * 149 // 2
        assert len({(one["piece"], other["piece"]) for one, other in found.overlaps}) == 150 * 149 // 2
        assert time.process_time() - before < 30

    def test_many(self):
        """25,000 members, and as many holes, in little room."""
        hole = (
            f"[[(-1.0, -1.0), (999.0, -1.0), (999.0, 999.0), (-1.0, 999.0), (-1.0, -1.0)], *({SQUARE}[::-1] for k in"
            " range(25000))]"
        )
        for members, counts in (
            (f"[[{SQUARE}] for k in range(25000)]", ["25000", "25000"]),
            (f"[{hole}]", ["1", "25001"]),
        ):
            run = subprocess.run(
                [sys.executable, "-c", MANY.format(tools=places.PACKAGE, members=members)],
                capture_output=True,
                text=True,
                check=False,
                env={**os.environ, "PYTHONDONTWRITEBYTECODE": "1"},
            )
            assert (run.returncode, run.stdout.split()[:2]) == (0, counts), run.stderr
            assert int(run.stdout.split()[2]) < MOST_MEGABYTES
