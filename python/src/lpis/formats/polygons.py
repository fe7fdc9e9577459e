"""Polygon texts as whole millimetres, and what can be said of shapes: extents, crossings, borders that do not cancel.

Everything is whole numbers or fractions: no coordinate is rounded but for drawing.
"""

import re
from fractions import Fraction
from operator import mul

from .sentences import SENTENCES

NUMBER = re.compile(rb"([+-]?)(\d*)(?:\.(\d*))?\Z")
TOKEN = re.compile(rb"[(),]|[^ \t\r\n(),]+")
MOST_DIGITS = 18  # of a number, without leading zeros: more are no coordinate, and no float either
DEEPEST = 3  # brackets of a MULTIPOLYGON
POINT = rb"-?[0-9]{1,15}\.[0-9]{3} -?[0-9]{1,15}\.[0-9]{3}"
RING = rb"\(" + POINT + rb"(?:," + POINT + rb")*\)"
BODY = rb"\(" + RING + rb"(?:," + RING + rb")*\)"
BLANKS = bytes.maketrans(b",", b" ")
WRITTEN = re.compile(rb"MULTIPOLYGON\(" + BODY + rb"(?:," + BODY + rb")*\)\Z")


def millimetres(word):
    """The number in whole millimetres, or None where the word is none."""
    found = NUMBER.match(word)
    if not found or not (found[2] or found[3]) or len((found[2] or b"").lstrip(b"0")) > MOST_DIGITS:
        return None
    decimals = found[3] or b""
    if decimals[3:].strip(b"0"):
        return None
    value = int((found[2] or b"0") + (decimals + b"000")[:3])
    return -value if found[1] == b"-" else value


def read(text):
    """The members of a polygon text, each a list of rings, each a list of points. None where it is no such text."""
    if WRITTEN.match(text):
        return [[ring_of(ring) for ring in member.split(b"),(")] for member in text[15:-3].split(b")),((")]
    tokens = TOKEN.findall(text)
    if not tokens or tokens[0].upper() not in (b"POLYGON", b"MULTIPOLYGON"):
        return None
    many = tokens[0].upper() == b"MULTIPOLYGON"
    try:
        nested, end = nest(tokens, 1)
    except (IndexError, ValueError):
        return None
    members = nested if many else [nested]
    shape_is_right = all(
        isinstance(m, list) and all(isinstance(r, list) and all(isinstance(p, tuple) for p in r) for r in m)
        for m in members
    )
    return members if end == len(tokens) and shape_is_right else None


def ring_of(text):
    """The points of a ring whose numbers have three decimals, as tools write them: quickly."""
    values = list(map(int, text.translate(BLANKS, b".").split()))
    return list(zip(values[0::2], values[1::2]))


def nest(tokens, at, depth=1):
    """What stands between the brackets that open at a token, and the place behind them."""
    if tokens[at] != b"(" or depth > DEEPEST:
        raise ValueError
    at, parts = at + 1, []
    while True:
        if tokens[at] == b"(":
            part, at = nest(tokens, at, depth + 1)
        else:
            part, at = (millimetres(tokens[at]), millimetres(tokens[at + 1])), at + 2
            if None in part:
                raise ValueError
        parts.append(part)
        if tokens[at] == b")":
            return parts, at + 1
        if tokens[at] != b",":
            raise ValueError
        at += 1


def metres(value):
    """Whole millimetres as metres with three decimals."""
    sign, value = ("-" if value < 0 else ""), abs(value)
    return f"{sign}{value // 1000}.{value % 1000:03}"


def write(members, by=(0, 0)):
    """The text of a polygon, moved by whole millimetres."""

    def ring(points):
        return "(" + ",".join(metres(x + by[0]) + " " + metres(y + by[1]) for x, y in points) + ")"

    return "MULTIPOLYGON(" + ",".join("(" + ",".join(map(ring, member)) + ")" for member in members) + ")"


def points(members):
    return [point for member in members for ring in member for point in ring]


def box(shapes):
    """Least and greatest x and y of some shapes, or None."""
    every = [point for members in shapes for point in points(members)]
    if not every:
        return None
    xs, ys = [p[0] for p in every], [p[1] for p in every]
    return min(xs), min(ys), max(xs), max(ys)


def extent(members):
    found = box([members])
    return (
        "no points"
        if found is None
        else SENTENCES["extent"].format(**dict(zip(("left", "low", "right", "high"), map(metres, found))))
    )


def doubled_area(ring):
    xs, ys = [x for x, _ in ring], [y for _, y in ring]
    return sum(map(mul, xs, ys[1:])) - sum(map(mul, xs[1:], ys))


def doubled(members):
    """The doubled area of a polygon in normal orientation, in square millimetres."""
    return sum(
        (1 if number == 0 else -1) * abs(doubled_area(ring)) for member in members for number, ring in enumerate(member)
    )


def edges(members):
    """The edges in normal orientation: shells counter-clockwise, holes clockwise, loops left out."""
    for member in members:
        for number, ring in enumerate(member):
            turned = (doubled_area(ring) < 0) == (number == 0) and doubled_area(ring) != 0
            way = ring[::-1] if turned else ring
            yield from ((a, b) for a, b in zip(way, way[1:]) if a != b)


def side(a, b, p):
    """Above 0 where p lies left of the line from a to b, 0 where on it."""
    return (b[0] - a[0]) * (p[1] - a[1]) - (b[1] - a[1]) * (p[0] - a[0])


def crossing(first, second):
    """The place where two edges cross, each inside the other, as fractions of millimetres; None where they do not."""
    (a, b), (c, d) = first, second
    to_c, to_d = side(a, b, c), side(a, b, d)
    if to_c * to_d >= 0 or side(c, d, a) * side(c, d, b) >= 0:
        return None
    part = Fraction(to_c, to_c - to_d)
    return c[0] + part * (d[0] - c[0]), c[1] + part * (d[1] - c[1])


def first_crossing(every, other=None, most=4_000_000):
    """The first place where two edges of a list cross, or one of a list and one of another; gives up after `most`
    tests."""
    marked = [(min(e[0][0], e[1][0]), e, 0) for e in every] + [(min(e[0][0], e[1][0]), e, 1) for e in other or ()]
    marked.sort()
    tests, open_edges = 0, []
    for left, edge, owner in marked:
        open_edges = [(e, o) for e, o in open_edges if max(e[0][0], e[1][0]) >= left]
        tests += len(open_edges)
        if tests > most:
            return None
        for before, other_owner in open_edges:
            if other is None or owner != other_owner:
                place = crossing(before, edge)
                if place:
                    return place
        open_edges.append((edge, owner))
    return None


def residue(whole, parts, most=2000):
    """Stretches of border that a shape and its parts do not share: net edges, split at the corners that lie on them."""

    def cancel(items):
        net = {}
        for (a, b), count in items:
            key, count = ((a, b), count) if a < b else ((b, a), -count)
            net[key] = net.get(key, 0) + count
        return {edge: count for edge, count in net.items() if count}

    left = cancel([(e, 1) for e in edges(whole)] + [(e, -1) for part in parts for e in edges(part)])
    if len(left) > most:
        return sorted(left)
    corners = sorted({p for edge in left for p in edge})
    atoms = []
    for (a, b), count in left.items():
        on = [p for p in corners if a < p < b and side(a, b, p) == 0]
        way = [a, *on, b]
        atoms += [((p, q), count) for p, q in zip(way, way[1:])]
    return sorted(cancel(atoms))
