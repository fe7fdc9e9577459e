#!/usr/bin/env python3
"""Writes a coverage as a GIS holds it, in doubles: parcels.csv and covers.csv with 17 digits, and classes.csv.

Words: the number of parcels, the seed, and a folder. Borders meet in T-junctions that hold in doubles only; one parcel
in ten has a pond, one in ten a piece of two parts. Rotated, so that no border lies along an axis.
"""

import bisect
import csv
import math
import os
import random
import sys
from pathlib import Path


def on(p, q, share):
    """The point that divides the way from p to q."""
    return p[0] + (q[0] - p[0]) * share, p[1] + (q[1] - p[1]) * share


class Row:
    """A winding line from left to right."""

    def __init__(self, numbers, base, width):
        self.xs = [0.0]
        while self.xs[-1] < width:
            self.xs.append(self.xs[-1] + numbers.uniform(30, 80))
        self.xs[-1] = width
        self.ys = [base + numbers.uniform(-20, 20) for _ in self.xs]

    def at(self, x):
        i = min(max(bisect.bisect_right(self.xs, x) - 1, 0), len(self.xs) - 2)
        part = (x - self.xs[i]) / (self.xs[i + 1] - self.xs[i])
        return self.ys[i] + part * (self.ys[i + 1] - self.ys[i])

    def way(self, left, right):
        return (
            [(left, self.at(left))]
            + [(x, y) for x, y in zip(self.xs, self.ys) if left < x < right]
            + [(right, self.at(right))]
        )


def pieces_of(numbers, low, high, left, right):
    """The pieces of a parcel between two lines: lists of members, each a list of rings."""
    kind = numbers.random()
    cut = left + (right - left) * numbers.uniform(0.3, 0.5)
    if kind < 0.1:
        end = cut + (right - cut) * numbers.uniform(0.4, 0.6)
        strips = [[low.way(a, b) + high.way(a, b)[::-1]] for a, b in ((left, cut), (cut, end), (end, right))]
        return [[strips[0], strips[2]], [strips[1]]]
    foot, head, east_foot, east_head = (
        (cut, low.at(cut)),
        (cut, high.at(cut)),
        (right, low.at(right)),
        (right, high.at(right)),
    )
    a, b = on(foot, head, numbers.uniform(0.3, 0.7)), on(east_foot, east_head, numbers.uniform(0.3, 0.7))
    first = [low.way(left, cut) + high.way(left, cut)[::-1]]
    shapes = [[first], [[low.way(cut, right) + [b, a]]], [[[a, b] + high.way(cut, right)[::-1]]]]
    if kind < 0.2:
        middle = ((left + cut) / 2, (low.at((left + cut) / 2) + high.at((left + cut) / 2)) / 2)
        pond = [
            (middle[0] + 5 * math.cos(i * math.pi / 6), middle[1] + 5 * math.sin(i * math.pi / 6)) for i in range(12)
        ]
        first.append(pond)
        shapes.append([[pond]])
    return shapes


def text(members):
    """The members' text, turned and moved to a place of a national grid."""
    turn, rings = (math.cos(0.3), math.sin(0.3)), []
    for member in members:
        rings.append(
            "("
            + ",".join(
                "("
                + ",".join(
                    f"{550000 + x * turn[0] - y * turn[1]!r} {5400000 + x * turn[1] + y * turn[0]!r}"
                    for x, y in ring + ring[:1]
                )
                + ")"
                for ring in member
            )
            + ")"
        )
    return "MULTIPOLYGON(" + ",".join(rings) + ")"


def main():
    count, seed, folder = int(sys.argv[1]), int(sys.argv[2]), sys.argv[3]
    numbers = random.Random(seed)
    os.makedirs(folder, exist_ok=True)
    across = max(1, math.isqrt(count))
    width, made = across * 120.0, 0
    low = Row(numbers, 0.0, width)
    with open(os.path.join(folder, "parcels.csv"), "w", newline="", encoding="ascii") as parcel_file, open(
        os.path.join(folder, "covers.csv"), "w", newline="", encoding="ascii"
    ) as cover_file:
        parcels, covers = csv.writer(parcel_file, lineterminator="\n"), csv.writer(cover_file, lineterminator="\n")
        parcels.writerow(["parcel", "wkt"])
        covers.writerow(["piece", "parcel", "class", "wkt"])
        base = 0.0
        while made < count:
            base += 160.0
            high = Row(numbers, base, width)
            ends = [0.0] + [(i + numbers.uniform(-0.3, 0.3)) * 120.0 for i in range(1, across)] + [width]
            for left, right in list(zip(ends, ends[1:]))[: count - made]:
                made += 1
                parcels.writerow([f"P{made:06}", text([[low.way(left, right) + high.way(left, right)[::-1]]])])
                for number, shape in enumerate(pieces_of(numbers, low, high, left, right), 1):
                    covers.writerow(
                        [
                            f"P{made:06}.{number}",
                            f"P{made:06}",
                            "WATER" if number == 4 else numbers.choice(["ARABLE", "GRASS", "TREES"]),
                            text(shape),
                        ]
                    )
            low = high
    Path(folder, "classes.csv").write_text(
        "class,percent\nARABLE,100\nGRASS,100\nTREES,30\nWATER,0\n", encoding="ascii"
    )


if __name__ == "__main__":
    main()
