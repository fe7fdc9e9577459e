"""`locate` of many points in polygons of many edges and in a parcel of many pieces: answers as a judge in whole numbers
has them, which walks all edges for each point. Points are on corners, on edges and on the borders of halves too."""

import itertools
import math
import random
from decimal import Decimal

from lpis_helpers import calls
from lpis_helpers.exact_map import contains
from lpis_helpers.tables import write_lines, write_release
import pytest

PARTS = 1_000_000  # of a millimetre
WIDE = 100_000  # millimetres


def star(chance):
    """A ring round the middle, in and out."""
    corners = [(2 * math.pi * k / 240, chance.randint(WIDE // 8, WIDE // 2)) for k in range(240)]
    return [
        [(WIDE // 2 + round(far * math.cos(turn)), WIDE // 2 + round(far * math.sin(turn))) for turn, far in corners]
    ]


def comb(chance):
    """High teeth side by side, on a base."""
    teeth = [
        [
            (1000 * k + 700, 1000),
            (1000 * k + 600, chance.randint(2000, WIDE)),
            (1000 * k + 400, chance.randint(2000, WIDE)),
            (1000 * k + 300, 1000),
        ]
        for k in reversed(range(100))
    ]
    return [[(0, 0), (WIDE, 0), *itertools.chain.from_iterable(teeth)]]


def sieve(chance):
    """A square with many holes."""
    spots = [
        (1000 * x + chance.randint(100, 400), 1000 * y + chance.randint(100, 400)) for x in range(12) for y in range(12)
    ]
    return [
        [(0, 0), (12_000, 0), (12_000, 12_000), (0, 12_000)],
        *([(x, y), (x, y + 500), (x + 500, y)] for x, y in spots),
    ]


def tiles(_chance):
    """Square pieces of one parcel."""
    return [
        [
            [
                (1000 * x, 1000 * y),
                (1000 * x + 1000, 1000 * y),
                (1000 * x + 1000, 1000 * y + 1000),
                (1000 * x, 1000 * y + 1000),
            ]
        ]
        for x in range(9)
        for y in range(9)
    ]


def points_beside(pieces, chance):
    """The corners, the middles of edges, and points anywhere near, in parts of a millimetre."""
    rings = [ring for piece in pieces for ring in piece]
    corners = [corner for ring in rings for corner in ring]
    middles = [
        ((a[0] + b[0]) * PARTS // 2, (a[1] + b[1]) * PARTS // 2)
        for ring in rings
        for a, b in zip(ring, ring[1:] + ring[:1])
    ]
    spans = [(min(numbers) * PARTS - 5, max(numbers) * PARTS + 5) for numbers in zip(*corners)]
    anywhere = [tuple(chance.randint(*span) for span in spans) for _ in range(600)]
    return [(x * PARTS, y * PARTS) for x, y in corners] + middles + anywhere


def answers(pieces, points):
    """What is to be printed of these points."""
    for n, (x, y) in enumerate(points):
        found = [k for k, piece in enumerate(pieces) if contains([piece], (x, y, PARTS))]
        yield f"point {n} " + (f"parcel A piece C{found[0]} class G" if found else "nowhere")


@pytest.mark.parametrize("land", [star, comb, sieve, tiles])
def test_points_are_found_as_by_walking_all_edges(tmp_path, land):
    chance = random.Random(90)
    made = land(chance)
    pieces = made if land is tiles else [made]
    whole = [[(0, 0), (9000, 0), (9000, 9000), (0, 9000)]] if land is tiles else made
    points = points_beside(pieces, chance)
    write_release(
        tmp_path, [("A", [whole])], [(f"C{k}", "A", "G", [piece]) for k, piece in enumerate(pieces)], decimals=3
    )
    write_lines(
        tmp_path,
        "points.csv",
        ["point,x,y"] + [f"{n},{Decimal(x).scaleb(-9):f},{Decimal(y).scaleb(-9):f}" for n, (x, y) in enumerate(points)],
    )
    assert calls.lpis("cut", ".", "cert.txt", cwd=tmp_path)[0] == 0
    wanted = "".join(f"{line}\n" for line in answers(pieces, points))
    assert calls.lpis("locate", ".", "cert.txt", "points.csv", cwd=tmp_path)[:2] == (0, wanted + "yes\n")
