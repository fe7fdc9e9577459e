"""A point of a convex polygon with one denominator for both coordinates, at most a million: worked out with fractions
alone.

The polygon is seen along whole directions in which it is thin. Across it lie the lines at which the direction has a
fraction's value, those of the least denominators first; on a line, the point whose parts of that denominator are
least is taken."""

from collections import deque
from fractions import Fraction
from math import floor

MOST = 1_000_000  # the greatest denominator of a point that is told
LINES, TURNS = 127, 60


def simplest(low, high):
    """The fraction of the least denominator strictly between two fractions."""
    whole = floor(low) + 1
    if whole < high:
        return Fraction(whole)
    below = whole - 1
    if low == below:
        return below + Fraction(1, floor(1 / (high - below)) + 1)
    return below + 1 / simplest(1 / (high - below), 1 / (low - below))


def slice_at(corners, across, along, value):
    """The least and the greatest value of one direction where the other has this value, within the polygon."""
    ends = []
    for p, q in zip(corners, corners[1:] + corners[:1]):
        u, v = across(p), across(q)
        if u != v and min(u, v) <= value <= max(u, v):
            part = (value - u) / (v - u)
            ends.append(along(p) + part * (along(q) - along(p)))
    return (min(ends), max(ends)) if ends else (0, 0)


def on_line(corners, across, along, value):
    """On the line the least multiple of its denominator with which a point lies in the polygon: the denominator, and
    both values times it."""
    low, high = slice_at(corners, across, along, value)
    if low >= high:
        return None
    found = simplest(low * value.denominator, high * value.denominator)
    d = value.denominator * found.denominator
    return (d, value.numerator * found.denominator, found.numerator) if d <= MOST else None


def in_frame(corners, f, g):
    """A point on one of the lines at which f has a value of a small denominator."""

    def across(p):
        return f[0] * p[0] + f[1] * p[1]

    def along(p):
        return g[0] * p[0] + g[1] * p[1]

    values = [across(p) for p in corners]
    spans = deque([(min(values), max(values))])
    for _ in range(LINES):
        if not spans:
            return None
        low, high = spans.popleft()
        if low >= high:
            continue
        value = simplest(low, high)
        if value.denominator > MOST:
            continue
        found = on_line(corners, across, along, value)
        if found:
            d, u, v = found
            return u * g[1] - v * f[1], v * f[0] - u * g[0], d
        spans += [(low, value), (value, high)]
    return None


def point_in(corners):
    """A point (x, y, d), which is (x/d, y/d), strictly inside a convex polygon of fractions; None where none is
    found."""
    corners = [tuple(map(Fraction, p)) for p in corners]
    edges = [(q[0] - p[0], q[1] - p[1]) for p, q in zip(corners, corners[1:] + corners[:1])]
    longest = sorted(edges, key=lambda e: abs(e[0]) + abs(e[1]), reverse=True)[:3]
    for x, y in longest:
        f, g, along_f, along_g = (1, 0), (0, 1), x, y
        for _ in range(TURNS):
            found = in_frame(corners, f, g)
            if found:
                return found
            if along_g == 0 or max(map(abs, f)) > 10**12:
                break
            times = floor(along_f / along_g)
            rest = (f[0] - times * g[0], f[1] - times * g[1])
            f, g, along_f, along_g = g, (-rest[0], -rest[1]), along_g, times * along_g - along_f
    return None
