"""Cuts a country into tiles, until each has no more rows than a release may have: cuts at quantiles of the boxes'
middles."""

from array import array
from bisect import bisect_left, bisect_right

from ..formats.tile_plan import MOST_REGIONS, Tiling

SAMPLE = 20_000  # boxes by which a cut is chosen
ROOM = 1.02  # of what is wanted: a tile has guests
STUCK = 0.9  # a cut that leaves more of the boxes on one side is looked for again, among all places


class NoCut(Exception):
    """No cut helps: the boxes of these parcels share a place."""

    def __init__(self, numbers, words):
        super().__init__(words)
        self.numbers = numbers


class Boxes:
    """Of each parcel its box, and how many rows and points its pieces have."""

    def __init__(self):
        self.sides = [array("q") for _ in range(4)]  # least x, least y, greatest x, greatest y
        self.pieces, self.points = array("q"), array("q")

    def __len__(self):
        return len(self.pieces)

    def add(self, box):
        for side, value in zip(self.sides, box):
            side.append(value)
        self.pieces.append(0)
        self.points.append(0)

    def box(self, number):
        return tuple(side[number] for side in self.sides)


class Most:
    """The most rows of parcels, rows of covers and points of covers of one region."""

    def __init__(self, parcels, covers, points):
        self.all = parcels, covers, points

    def of(self, boxes, numbers):
        """The greatest share of these limits that some parcels take: over 1 is too much."""
        counts = len(numbers), sum(map(boxes.pieces.__getitem__, numbers)), sum(map(boxes.points.__getitem__, numbers))
        return max(count / most for count, most in zip(counts, self.all))

    def weight(self, boxes, number):
        return 1 / self.all[0] + boxes.pieces[number] / self.all[1] + boxes.points[number] / self.all[2]


def sides_of(boxes, axis):
    return boxes.sides[axis], boxes.sides[axis + 2]


def by_quantile(boxes, most, numbers, parts):
    """Axis and place of a cut that leaves so many of the parts wanted on its left, chosen by a sample: the longer way
    of the land, unless many boxes lie across."""
    sample = numbers[:: max(1, len(numbers) // SAMPLE)]
    weights = [most.weight(boxes, k) for k in sample]
    share, found = (parts // 2) / parts, []
    for axis in (0, 1):
        low, high = sides_of(boxes, axis)
        middles = sorted((low[k] + high[k], weight) for k, weight in zip(sample, weights))
        left, cut = share * sum(weights), middles[-1][0] // 2
        for middle, weight in middles:
            left -= weight
            if left < 0:
                cut = middle // 2
                break
        below = sum(weight for k, weight in zip(sample, weights) if low[k] < cut)
        above = sum(weight for k, weight in zip(sample, weights) if cut < high[k])
        found.append((max(below / share, above / (1 - share)), middles[0][0] - middles[-1][0], axis, cut))
    least = min(cost for cost, *_ in found)
    return min((it[1:] for it in found if it[0] <= 1.1 * least))[1:]


def by_all_places(boxes, numbers):
    """Axis and place of the cut whose greater side has the fewest boxes, and that number."""
    found = []
    for axis in (0, 1):
        low, high = (sorted(map(side.__getitem__, numbers)) for side in sides_of(boxes, axis))
        for cut in {*low, *high}:
            found.append((max(bisect_left(low, cut), len(high) - bisect_right(high, cut)), axis, cut))
    return min(found)


def parted(boxes, numbers, axis, cut):
    low, high = sides_of(boxes, axis)
    return array("I", (k for k in numbers if low[k] < cut)), array("I", (k for k in numbers if cut < high[k]))


def best_parts(boxes, most, numbers, share):
    """A cut that helps, and the parcels on its two sides."""
    axis, cut = by_quantile(boxes, most, numbers, max(2, -int(-share * ROOM // 1)))
    left, right = parted(boxes, numbers, axis, cut)
    if max(len(left), len(right)) > STUCK * len(numbers):
        count, axis, cut = by_all_places(boxes, numbers)
        if count == len(numbers):
            raise NoCut(numbers, f"the boxes of {len(numbers)} parcels share a place, and no cut separates them")
        left, right = parted(boxes, numbers, axis, cut)
    return ("xy"[axis], cut), left, right


def part(boxes, most, tell):
    """The tiling of the boxes, each region within the limits. `tell` gets the number of each region and its parcels,
    in order."""
    nodes, waiting, count = [], [array("I", range(len(boxes)))], 0
    while waiting:
        numbers = waiting.pop()
        share = most.of(boxes, numbers)
        if share <= 1:
            count += 1
            if count > MOST_REGIONS:
                raise NoCut(numbers, f"more than {MOST_REGIONS} regions: too many bounding boxes overlap many others")
            nodes.append(("region", f"r{count:04}"))
            tell(count - 1, numbers)
        elif len(numbers) == 1:
            raise NoCut(numbers, "one parcel has more pieces or points than a region may have")
        else:
            node, left, right = best_parts(boxes, most, numbers, share)
            nodes.append(node)
            waiting += [right, left]
    return Tiling(nodes)
