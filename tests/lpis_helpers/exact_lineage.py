"""What is true of marked splits and merges, by whole numbers and from the definitions alone: which groups there are and
in what order, which of them are exact, and what `publish` says of blocks. Polygons are as in tables.py, of whole
millimetres."""

import collections

from lpis_helpers.exact_map import LIMIT, edges
from lpis_helpers.tables import orient

# A row of lineage; where it stands in a table of a region, its number there, and that region.
Row = collections.namedtuple("Row", "old new is_marked number region", defaults=(None, None))


def corners_of(polygons):
    return {point for polygon in polygons for member in polygon for ring in member for point in ring}


def net_of(counted):
    """The net counts of directed edges, each with how often it counts: by the pair with the lesser end first, none
    of them 0."""
    net = {}
    for (a, b), count in counted:
        if a != b:
            key, sign = ((a, b), 1) if a < b else ((b, a), -1)
            net[key] = net.get(key, 0) + sign * count
    return {edge: count for edge, count in net.items() if count}


def difference(whole, parts, flats=()):
    """The net counts by which the edges of a whole differ from those of its parts and flats together."""
    taken = [(edge, -1) for polygon in parts for edge in edges(polygon)] + [
        (edge, -1) for a, b, c in flats for edge in ((a, b), (b, c), (c, a))
    ]
    return net_of([(edge, 1) for edge in edges(whole)] + taken)


def passed(edge, corners):
    """The corners inside an edge, from its first end to its second."""
    a, b = edge
    return sorted((p for p in corners if min(a, b) < p < max(a, b) and orient(a, b, p) == 0), reverse=a > b)


def is_made_up(whole, parts):
    """The whole turns round each point as often as its parts together: the edges that do not cancel do so once each is
    taken from one corner on it to the next."""
    corners = corners_of([whole, *parts])
    atoms = []
    for edge, count in difference(whole, parts).items():
        way = [edge[0], *passed(edge, corners), edge[1]]
        atoms += [(step, count) for step in zip(way, way[1:])]
    return not net_of(atoms)


def flats_of(whole, parts):
    """Flats that lead each edge that does not cancel over the corners on it: where the whole is made up by its parts
    they show it."""
    corners, flats = corners_of([whole, *parts]), []
    for (a, b), count in sorted(difference(whole, parts).items()):
        first = a
        for p in passed((a, b), corners):
            flats += [(first, b, p) if count > 0 else (first, p, b)] * abs(count)
            first = p
    return flats


def is_flat(flat):
    return len(set(flat)) == 3 and orient(*flat) == 0


class Group:
    """A marked split or merge, with its whole and its parts; `olds` are the identifiers whose old shapes it asks
    for."""

    def __init__(self, is_merge, name, others, old, new):
        self.is_merge, self.name, self.others = is_merge, name, sorted(others)
        self.olds = self.others if is_merge else [name]
        self.whole, self.parts = (
            (new[name], [old[it] for it in self.others]) if is_merge else (old[name], [new[it] for it in self.others])
        )

    def block(self):
        return [self.is_merge, self.name, flats_of(self.whole, self.parts)]


def block_fault(groups, blocks):
    """The code and the identifier of the first fault of blocks, each (is a merge, identifier, flats), or None."""
    for place in range(max(len(groups), len(blocks))):
        named = [(it.is_merge, it.name) for it in groups[place : place + 1]]
        if [tuple(it[:2]) for it in blocks[place : place + 1]] != named:
            return "6a", blocks[place][1] if place < len(blocks) else groups[place].name
    for _, name, flats in blocks:
        if not all(map(is_flat, flats)):
            return "6b", name
    for group, (_, name, flats) in zip(groups, blocks):
        if not {p for flat in flats for p in flat} <= corners_of([group.whole, *group.parts]):
            return "6c", name
    for group, (_, name, flats) in zip(groups, blocks):
        if difference(group.whole, group.parts, flats):
            return "6d", name
    return None


def lines_of(blocks):
    """The lines of a certificate that have these blocks."""
    lines = []
    for is_merge, name, flats in blocks:
        lines.append(f"exact {'merge' if is_merge else 'split'} {name} {len(flats)}\n")
        lines += [f"f {' '.join(str(value) for point in flat for value in point)}\n" for flat in flats]
    return "".join(lines)


def with_blocks(cert, blocks):
    """The text of a certificate with these blocks."""
    return cert.replace("\npairs ", f"\n{lines_of(blocks)}pairs ")


def spoiled(numbers, groups, blocks):
    """The blocks with one thing wrong, mostly."""
    blocks = [[is_merge, name, list(flats)] for is_merge, name, flats in blocks]
    kind = numbers.choice(
        ["bent", "stranger", "left out", "twice", "turned", "no block", "exchanged", "other kind", "one more"]
    )
    place = numbers.randrange(len(blocks))
    flats = blocks[place][2]
    a, b = sorted({point for member in groups[place].whole for point in member[0]})[:2]
    if kind == "bent":
        flats.append((a, b, tuple(value + (step if value <= 0 else -step) for value, step in zip(a, (1, 2)))))
    elif kind == "stranger":
        ends = [tuple(2 * p - q for p, q in zip(*pair)) for pair in ((b, a), (a, b))]
        flats += [(a, b, end) for end in ends if all(abs(value) <= LIMIT for value in end)][:1]
    elif kind == "no block":
        blocks.pop(place)
    elif kind == "exchanged":
        numbers.shuffle(blocks)
    elif kind == "other kind":
        blocks[place][0] ^= True
    elif kind == "one more":
        blocks.append([numbers.random() < 0.5, numbers.choice(["A", "zz", blocks[place][1]]), []])
    elif flats:
        flat = flats.pop(numbers.randrange(len(flats)))
        flats += {"left out": [], "twice": [flat, flat], "turned": [flat[::-1]]}[kind]
    return blocks


class Change:
    """What the rows between the parcels of a year and those of the next say; both are polygons by identifier, of the
    older year where they are kept."""

    def __init__(self, last, parcels, rows, shapes):
        self.last, self.parcels, self.rows, self.shapes = last, parcels, rows, shapes
        self.after, self.before = collections.defaultdict(list), collections.defaultdict(list)
        for row in rows:
            if row.new:
                self.after[row.old].append(row.new)
                self.before[row.new].append(row.old)
        for name in parcels:
            if name in self.last:
                self.before[name].append(name)

    def kind(self, old):
        """What became of a parcel that is dropped."""
        after = self.after[old]
        if len(after) < 2:
            return "ended" if not after else "merged" if len(self.before[after[0]]) > 1 else "replaced"
        return "split" if all(len(self.before[new]) == 1 for new in after) else "redrawn"

    def dropped(self):
        return sorted(name for name in self.last if name not in self.parcels)

    def rows_of(self, is_merge, name):
        return [row for row in self.rows if (row.new if is_merge else row.old) == name and row.new]

    def marked(self):
        """The marked groups in their order: whether it is a merge, its identifier, and the others of it."""
        splits = [(False, old, self.after[old]) for old in self.dropped() if self.kind(old) == "split"]
        merges = [
            (True, new, self.before[new])
            for new in sorted(self.parcels)
            if len(self.before[new]) > 1 and all(old == new or self.after[old] == [new] for old in self.before[new])
        ]
        return [group for group in splits + merges if all(row.is_marked for row in self.rows_of(*group[:2]))]

    def groups(self):
        return [Group(*group, self.shapes, self.parcels) for group in self.marked()]

    def grouped(self):
        """The rows of the marked groups."""
        return [row for group in self.marked() for row in self.rows_of(*group[:2])]

    def first_outside(self):
        """The first marked row that belongs to no marked group, or None."""
        grouped = set(map(id, self.grouped()))
        return next((row for row in self.rows if row.is_marked and id(row) not in grouped), None)

    def lines(self):
        exact = {row.old for row in self.grouped()}
        return "".join(f"lineage {old} {self.kind(old)}{' exact' if old in exact else ''}\n" for old in self.dropped())
