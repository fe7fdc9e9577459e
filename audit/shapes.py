"""Shapes as a source has them, in well-known binary, that of a GeoPackage, or well-known text; arcs are straightened.

Written from the standards alone. A shape is a list of members, each of rings; a ring is its x and y in turns, in
metres, and a byte for each point that says whether an arc begins there, or None. What is no closed surface of places
is `Unread`: it has no points.
"""

import json
import math
import re
import struct
from array import array
from fractions import Fraction
from itertools import chain
from typing import Any, Optional

Point = tuple[Any, Any]
Ring = tuple[array, Optional[bytes]]
Shape = list[list[Ring]]

CHORD = 0.00001  # metres between an arc and the lines that it becomes
MOST_LINES = 20_000  # of an arc
FAR = 1e8  # metres: beyond is no place
WORDS = {2: "LINESTRING", 3: "POLYGON", 6: "MULTIPOLYGON", 8: "CIRCULARSTRING", 9: "COMPOUNDCURVE"}
WORDS.update({10: "CURVEPOLYGON", 12: "MULTISURFACE"})
ENVELOPES = (0, 32, 48, 48, 64)  # bytes, by the flags of a GeoPackage


class Unread(ValueError):
    """Why a shape has no points."""


def points_of(ring: Ring, unit: int = 1000, origin: tuple[int, int] = (0, 0)) -> list[Point]:
    """The points in millimetres from an origin in metres: exact differences, where it is near. A ring has values of so
    many millimetres.
    """
    values, left, low = ring[0], origin[0] * 1000 // unit, origin[1] * 1000 // unit
    return [((x - left) * unit, (y - low) * unit) for x, y in zip(values[::2], values[1::2])]


def exact(ring: Ring, unit: int = 1000) -> list[Point]:
    """The points in millimetres, as fractions."""
    values = [Fraction(value) * unit for value in ring[0]]
    return list(zip(values[::2], values[1::2]))


def rings_of(shape: Shape) -> list[Ring]:
    return [ring for member in shape for ring in member]


def box_of(shape: Shape) -> tuple[float, float, float, float]:
    """In metres; that of no points meets none."""
    sides = [(min(xs), min(ys), max(xs), max(ys)) for xs, ys in ((way[::2], way[1::2]) for way, _ in rings_of(shape))]
    left, low, right, high = zip(*sides) if sides else ([math.inf], [math.inf], [-math.inf], [-math.inf])
    return min(left), min(low), max(right), max(high)


# A shape is read as a tree: a word, and what is in it, which is trees or the number of a list of points.


def shape_of(tree: list, ways: list[list[Point]]) -> Shape:
    members = [[way_of(part, ways) for part in member] for member in members_of(*tree)]
    for points, _ in (ring for member in members for ring in member):
        if points[:1] != points[-1:]:
            raise Unread("a ring does not end where it begins")
        if any(not abs(value) <= FAR for point in points for value in point):
            raise Unread("a coordinate is no place")
    shape = [[(array("d", chain.from_iterable(way)), arcs) for way, arcs in member if way] for member in members]
    return [member for member in shape if member]


def members_of(word: str, *parts: Any) -> list[list]:
    if word in ("MULTIPOLYGON", "MULTISURFACE"):
        return [member for part in parts if part for member in members_of(part[0] or "POLYGON", *part[1:])]
    if word not in ("POLYGON", "CURVEPOLYGON") or any(isinstance(part, int) for part in parts):
        raise Unread(f"{word or 'this'} is no surface")
    return [[part for part in parts if part]]


def way_of(tree: list, ways: list[list[Point]]) -> tuple[list[Point], Optional[bytes]]:
    """The points of a ring or of a part of one, and where arcs begin."""
    word, *parts = tree
    if word == "COMPOUNDCURVE":
        points, arcs = [], b""
        for way, its_arcs in (way_of(part, ways) for part in parts):
            if points[-1:] not in ([], way[:1]):
                raise Unread("the parts of a curve do not meet")
            points, arcs = points[:-1] + way, arcs[:-1] + (its_arcs or bytes(len(way)))
        return points, arcs
    if word not in ("", "LINESTRING", "CIRCULARSTRING") or len(parts) != 1 or not isinstance(parts[0], int):
        raise Unread(f"{word or 'this'} is no ring")
    points = ways[parts[0]]
    if word != "CIRCULARSTRING":
        return points, None
    if len(points) % 2 == 0 or len(points) < 3:
        raise Unread("an arc lacks a point")
    curve = points[:1]
    for start in range(0, len(points) - 2, 2):
        curve += arc(*points[start : start + 3])
    return curve, b"\1" * len(curve)


def arc(a: Point, b: Point, c: Point) -> list[Point]:
    """The points behind a on the arc from a over b to c."""
    (ux, uy), (vx, vy) = (b[0] - a[0], b[1] - a[1]), (c[0] - a[0], c[1] - a[1])
    doubled, u, v = 2 * (ux * vy - uy * vx), ux * ux + uy * uy, vx * vx + vy * vy
    if doubled == 0 and a != c:
        return [b, c]
    x, y = (ux / 2, uy / 2) if a == c else ((vy * u - uy * v) / doubled, (ux * v - vx * u) / doubled)
    start, radius = math.atan2(-y, -x), math.hypot(x, y)
    turn = math.atan2(vy - y, vx - x) - start
    sweep = 2 * math.pi if a == c else turn % (2 * math.pi) if doubled > 0 else -(-turn % (2 * math.pi))
    step = 2 * math.acos(1 - CHORD / max(radius, CHORD))
    count = min(MOST_LINES, max(2, math.ceil(abs(sweep) / max(step, 1e-9))))
    angles = [start + sweep * number / count for number in range(1, count)]
    return [(a[0] + x + radius * math.cos(way), a[1] + y + radius * math.sin(way)) for way in angles] + [c]


def read_package(data: Any) -> tuple[Shape, int]:
    """The shape and the system of a GeoPackage's field."""
    if not isinstance(data, bytes) or len(data) < 8 or data[:2] != b"GP" or (data[3] >> 1 & 7) > 4:
        raise Unread("it is no shape of a GeoPackage")
    ways: list[list[Point]] = []
    try:
        tree, _ = binary_tree(data, 8 + ENVELOPES[data[3] >> 1 & 7], ways)
    except (struct.error, IndexError, RecursionError):
        raise Unread("its bytes end too early") from None
    return shape_of(tree, ways), struct.unpack_from("<i" if data[3] & 1 else ">i", data, 4)[0]


def binary_tree(data: bytes, at: int, ways: list[list[Point]]) -> tuple[list, int]:
    """A tree of well-known binary, and where it ends."""
    order = "<" if data[at] else ">"
    (code,) = struct.unpack_from(order + "I", data, at + 1)
    kind, size, at = code % 1000, 2 + (code // 1000 in (1, 3)) + (code // 1000 in (2, 3)), at + 5
    if kind not in WORDS or code > 3999:
        raise Unread(f"it is of the kind {code}, which is no surface")
    if kind in (2, 8):
        return [WORDS[kind], len(ways)], binary_points(data, at, order, size, ways)
    (count,), at, tree = struct.unpack_from(order + "I", data, at), at + 4, [WORDS[kind]]
    for _ in range(count):
        if kind == 3:
            tree.append(["", len(ways)])
            at = binary_points(data, at, order, size, ways)
        else:
            inner, at = binary_tree(data, at, ways)
            tree.append(inner)
    return tree, at


def binary_points(data: bytes, at: int, order: str, size: int, ways: list[list[Point]]) -> int:
    (count,) = struct.unpack_from(order + "I", data, at)
    flat = struct.unpack_from(f"{order}{min(count * size, len(data))}d", data, at + 4)
    ways.append(list(zip(flat[::size], flat[1::size])))
    return at + 4 + 8 * len(flat)


def read_text(text: str) -> tuple[Shape, Optional[int]]:
    """The shape and the system, if it says one, of a well-known text. It is written anew as a tree in JSON."""
    ways: list[list[Point]] = []

    def number(found: re.Match) -> str:
        ways.append(text_points(found[1]))
        return f"[{len(ways) - 1}]"

    head, _, body = text.upper().rpartition(";")
    system = re.fullmatch(r"\s*SRID\s*=\s*([0-9]+)\s*", head)
    body = re.sub(r"\(([-+.,0-9\s]+)\)", number, body)
    if (head and not system) or not re.fullmatch(r"(?:[A-Z]+|[(),\s]|\[[0-9]+\])*", body):
        raise Unread("it is no text of a shape, or has a word that is no number")
    body = re.sub(r"\b(?:Z|M|ZM)\b|(?<=[A-Z]{4})(?:Z|M|ZM)\b", "", body)
    body = re.sub(r"\bEMPTY\b", "(null)", body)
    body = re.sub(r"([A-Z]*)\s*[(\[]", r'["\1",', body).replace(")", "]")
    try:
        return shape_of(json.loads(body), ways), int(system[1]) if system else None
    except (json.JSONDecodeError, RecursionError, TypeError):
        raise Unread("it is no text of a shape") from None


def text_points(text: str) -> list[Point]:
    """The points of a ring's text: two numbers, and heights and measures, which are dropped."""
    try:
        points = [tuple(map(float, point.split())) for point in text.split(",")]
    except ValueError:
        raise Unread("it has a word that is no number") from None
    if not 2 <= min(map(len, points)) == max(map(len, points)) <= 4:
        raise Unread("a point has not two numbers")
    return points if len(points[0]) == 2 else [point[:2] for point in points]
