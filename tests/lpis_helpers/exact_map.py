"""What is true of a release, worked out with whole numbers and fractions alone, and from the definitions alone.

The plane is cut into horizontal strips between the heights of all corners and crossings. In the middle of each strip
the edges that pass it are met from left to right; between two of them lies one face, in which containment and turns are
counted by the half-open rule. Nothing here triangulates, and no order of a sweep is kept from strip to strip.
Polygons are as in tables.py, of whole millimetres."""

from fractions import Fraction

from lpis_helpers.least_points import MOST, on_line, point_in
from lpis_helpers.tables import orient, shoelace

LIMIT = 20_000_000_000  # the range of a coordinate, in millimetres


def edges(polygon):
    """Directed edges in normal orientation."""
    for member in polygon:
        for place, ring in enumerate(member):
            area = shoelace(ring)
            walked = ring[::-1] if (area < 0 if place == 0 else area > 0) else ring
            yield from zip(walked, walked[1:] + walked[:1])


def crossing(a, b, x, y, d):
    """How the edge crosses the ray to the right of the point (x/d, y/d): 1 upwards, -1 downwards, else 0."""
    side = (b[0] - a[0]) * (y - a[1] * d) - (b[1] - a[1]) * (x - a[0] * d)
    if a[1] * d <= y < b[1] * d and side > 0:
        return 1
    return -1 if b[1] * d <= y < a[1] * d and side < 0 else 0


def contains(polygon, point):
    return sum(crossing(a, b, *point) != 0 for a, b in edges(polygon)) % 2 == 1


def is_point(x, y, d):
    return 1 <= d <= MOST and abs(x) <= LIMIT * d and abs(y) <= LIMIT * d


def crossings(segments):
    """Pairs of segments that cross at an inner point of both."""
    order = sorted(segments, key=lambda s: s[0][1])
    for place, (a, b) in enumerate(order):
        least, most = min(a[0], b[0]), max(a[0], b[0])
        for k in range(place + 1, len(order)):
            c, d = order[k]
            if c[1] >= b[1]:
                break
            if max(c[0], d[0]) > least and min(c[0], d[0]) < most:
                if orient(a, b, c) * orient(a, b, d) < 0 and orient(c, d, a) * orient(c, d, b) < 0:
                    yield (a, b), (c, d)


def meeting(s, t):
    """The point in which two segments cross."""
    (a, b), (c, d) = s, t
    part = Fraction(orient(c, d, a), orient(c, d, a) - orient(c, d, b))
    return a[0] + part * (b[0] - a[0]), a[1] + part * (b[1] - a[1])


def at_height(segment, y):
    (x0, y0), (x1, y1) = segment
    return x0 + (y - y0) * (x1 - x0) / Fraction(y1 - y0), y


def trapezoid(left, right, low, high):
    """The part of a strip between two segments that pass it."""
    low, high = Fraction(low), Fraction(high)
    return [at_height(left, low), at_height(right, low), at_height(right, high), at_height(left, high)]


def points_of(corners):
    """Points of least denominators in a trapezoid, and on its level sides, which part no face."""
    found = point_in(corners)
    if found:
        yield found
    for height in {corners[0][1], corners[2][1]}:
        if height.denominator <= MOST:
            level = on_line(corners, lambda p: p[1], lambda p: p[0], height)
            if level:
                d, y, x = level
                yield x, y, d


def area2(polygon):
    """The doubled area: shells added, holes taken off."""
    return sum(
        abs(shoelace(ring)) * (1 if place == 0 else -1) for member in polygon for place, ring in enumerate(member)
    )


def decimal(value, places):
    return f"{value // 10**places}.{value % 10**places:0{places}}"


class Truth:
    """Of a release as write_release takes it: pieces that no triangles on their corners cover, parcels whose turns are
    not those of their pieces together, and the faces in which a piece or a parcel is wrong."""

    def __init__(self, parcels, pieces):
        self.parcels, self.pieces = dict(parcels), {name: (parcel, polygon) for name, parcel, _, polygon in pieces}
        self.kinds = {name: kind for name, _, kind, _ in pieces}
        self.polygons = [polygon for _, polygon in parcels] + [polygon for _, _, _, polygon in pieces]
        places = {name: place for place, (name, _) in enumerate(parcels)}
        self.first = len(parcels)  # of the pieces, among the polygons
        self.owner = {self.first + k: places[parcel] for k, (_, parcel, _, _) in enumerate(pieces)}
        self.names = [name for name, _ in parcels] + [name for name, *_ in pieces]
        self.bad, self.with_turns, self.uneven, self.faces = set(), set(), set(), []
        self.gather()
        crossed = list(crossings(self.segments))
        self.walk(crossed)
        for s, t in crossed:
            self.look_at_crossing(s, t)
        self.bad |= set(self.owner) - self.with_turns

    def gather(self):
        """For each segment, lower end first, how often each polygon has it upwards less downwards (to the right less to
        the left), and how often in all."""
        self.segments = {}
        for number, polygon in enumerate(self.polygons):
            for a, b in edges(polygon):
                if a != b:
                    up = (a[1], a[0]) < (b[1], b[0])
                    counts = self.segments.setdefault((a, b) if up else (b, a), {})
                    net, all_of = counts.get(number, (0, 0))
                    counts[number] = (net + (1 if up else -1), all_of + 1)

    def look_at_crossing(self, s, t):
        """Two edges of a piece that cross, in none of its corners and after what cancels is gone, cannot be cut."""
        for piece in set(self.segments[s]) & set(self.segments[t]) & set(self.owner):
            point = meeting(s, t)
            corners = {corner for member in self.polygons[piece] for ring in member for corner in ring}
            if point not in corners and self.net_at(piece, s, point) != 0 and self.net_at(piece, t, point) != 0:
                self.bad.add(piece)

    def net_at(self, piece, along, point):
        """The net count of a piece's edges that lie on the line of a segment and pass the point."""
        a, b = along
        total = 0
        for (c, d), counts in self.segments.items():
            on_line = piece in counts and orient(a, b, c) == 0 and orient(a, b, d) == 0
            if on_line and (c[1], c[0]) < (point[1], point[0]) < (d[1], d[0]):
                total += counts[piece][0]
        return total

    def walk(self, crossed):
        slanted = [s for s in self.segments if s[0][1] != s[1][1]]
        heights = {point[1] for s in self.segments for point in s} | {meeting(s, t)[1] for s, t in crossed}
        order = sorted(heights)
        for low, high in zip(order, order[1:]):
            middle = Fraction(low + high) / 2
            met = {}
            for (x0, y0), (x1, y1) in slanted:
                if y0 <= low and high <= y1:
                    x = (
                        Fraction(
                            (middle.numerator - y0 * middle.denominator) * (x1 - x0), (y1 - y0) * middle.denominator
                        )
                        + x0
                    )
                    met.setdefault(x, []).append(((x0, y0), (x1, y1)))
            self.walk_strip(sorted(met.items()), middle, high - low)

    def walk_strip(self, met, height, thickness):
        turns, inside, excess = [0] * len(self.polygons), [False] * len(self.polygons), {}
        for place, (x, passed) in enumerate(met):
            changed = set()
            for segment in passed:
                for number, (net, all_of) in self.segments[segment].items():
                    turns[number] -= net
                    inside[number] ^= all_of % 2 == 1
                    changed.add(number)
                    parcel = self.owner.get(number, number)
                    excess[parcel] = excess.get(parcel, 0) + (net if number in self.owner else -net)
            for number in changed & set(self.owner):
                if turns[number] == 1:
                    self.with_turns.add(number)
                elif turns[number] != 0:
                    self.bad.add(number)
            self.uneven |= {parcel for parcel, value in excess.items() if value}
            if place + 1 < len(met) and self.is_wrong(inside):
                right, beyond = met[place + 1]
                width = right - x
                corners = trapezoid(passed[0], beyond[0], height - thickness / 2, height + thickness / 2)
                self.faces.append((width * thickness, x + width / 2, height, corners))

    def is_wrong(self, inside):
        parcels = {number for number in range(self.first) if inside[number]}
        pieces = [number for number in self.owner if inside[number]]
        return len(parcels) > 1 or len(pieces) > 1 or {self.owner[piece] for piece in pieces} != parcels

    def first_bad_piece(self):
        return self.names[min(self.bad)] if self.bad else None

    def uneven_parcels(self):
        return {self.names[parcel] for parcel in self.uneven}

    def fault_area(self):
        """Square millimetres in which a piece or a parcel is wrong."""
        return sum((face[0] for face in self.faces), Fraction(0))

    def fault_point(self):
        """A point with whole numbers, the denominator at most a million, in one of the largest wrong faces."""
        largest = sorted(self.faces, reverse=True)
        near = ((round(x * d), round(y * d), d) for _, x, y, _ in largest[:8] for d in (1, 10, 1_000, MOST))
        found = next(filter(self.shows_fault, near), None)
        return found or next(
            filter(self.shows_fault, (point for *_, corners in largest[:50] for point in points_of(corners))), None
        )

    def shows_fault(self, point):
        return is_point(*point) and self.is_wrong([contains(polygon, point) for polygon in self.polygons])

    def report(self, percents):
        """The report of the release, where it is sound: half a square millimetre is 5 / 10^7 square metres."""
        counted = [f"parcels {len(self.parcels)} pieces {len(self.pieces)}"]
        whole = [0, 0]
        for name, polygon in self.parcels.items():
            sums = [
                area2(polygon),
                sum(
                    percents[kind] * area2(self.pieces[piece][1])
                    for piece, kind in self.kinds.items()
                    if self.pieces[piece][0] == name
                ),
            ]
            whole = [a + b for a, b in zip(whole, sums)]
            counted.append(f"parcel {name} area {decimal(5 * sums[0], 7)} eligible {decimal(5 * sums[1], 9)}")
        counted.append(f"total area {decimal(5 * whole[0], 7)} eligible {decimal(5 * whole[1], 9)}")
        return "\n".join([*counted, "yes", ""])

    def both_contain(self, kind, one, other, point):
        """What `refused 41` says."""
        polygon = (lambda name: self.parcels[name]) if kind == "parcels" else (lambda name: self.pieces[name][1])
        return one != other and is_point(*point) and contains(polygon(one), point) and contains(polygon(other), point)

    def disagree(self, parcel, point):
        """What `refused 43` says."""
        pieces = any(owner == parcel and contains(polygon, point) for owner, polygon in self.pieces.values())
        return is_point(*point) and pieces != contains(self.parcels[parcel], point)
