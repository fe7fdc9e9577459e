"""Proposes rows of lineage from the land that dropped parcels and new ones share: of each dropped parcel by the new
ones whose boxes meet its own alone. Wants Shapely."""

import errno
import os
from dataclasses import dataclass
from functools import lru_cache

from ..formats import guarded_csv
from ..system import files, placing
from .successions import Changes
from .two_years import Row

SLIVER, CLEAR = 0.01, 0.10  # parts of the smaller of two parcels: less is a border that moved, more is a successor
WHOLE = 0.5  # of a dropped parcel that its successors have at least
MOST_KEPT = 10_000  # shapes of new parcels that are not read again
REPORT = ("old", "new", "square_metres", "of_old_percent", "of_new_percent", "kind", "exact", "row")


@dataclass(frozen=True)
class Shared:
    """The land that a dropped parcel and a new one share, in square metres, and which part of each it is."""

    old: str
    new: str
    area: float
    of_old: float
    of_new: float

    def part(self):
        return max(self.of_old, self.of_new)


@dataclass
class Fate:
    """A dropped parcel: what it shares with new ones, its successors, and why no row is proposed where none is."""

    name: str
    shared: list
    successors: list
    doubt: str = ""


class Near:
    """The shapes of new parcels near others."""

    def __init__(self, shapes):
        self.shapes, self.shape = shapes, lru_cache(MOST_KEPT)(lambda name: shape_of(shapes[name]))

    def to(self, shape):
        """Names and shapes of those whose boxes meet a shape's."""
        return [(name, self.shape(name)) for name in self.shapes.near([1000 * value for value in shape.bounds])]


def shape_of(members):
    """Polygons in metres, as Shapely has them."""
    from shapely.geometry import MultiPolygon, Polygon

    rings = [[[(x / 1000, y / 1000) for x, y in ring] for ring in member] for member in members]
    found = MultiPolygon([Polygon(member[0], member[1:]) for member in rings])
    return found if found.is_valid else found.buffer(0)


def shared_of(name, shape, near):
    """What a dropped parcel shares with new ones, the most first."""
    found = []
    for other, its in near.to(shape):
        area = shape.intersection(its).area
        if area > 0:
            found.append(Shared(name, other, area, area / shape.area, area / its.area))
    return sorted(found, key=lambda it: (-it.area, it.new))


def fate_of(name, members, near):
    """The successors of a dropped parcel, where they are clear."""
    if members is None:
        return Fate(name, [], [], "the register keeps no shape of it")
    shape = shape_of(members)
    if not shape.area > 0:
        return Fate(name, [], [], "its shape has no area")
    shared = shared_of(name, shape, near)
    successors = [it.new for it in shared if it.part() >= CLEAR]
    doubtful = [it.new for it in shared if SLIVER <= it.part() < CLEAR]
    covered = sum(it.of_old for it in shared if it.part() >= CLEAR)
    if doubtful:
        return Fate(name, shared, [], f"it shares between {SLIVER:.0%} and {CLEAR:.0%} with {' '.join(doubtful[:5])}")
    if successors and covered < WHOLE:
        return Fate(name, shared, [], f"{1 - covered:.0%} of it is in no parcel, or in slivers")
    return Fate(name, shared, sorted(successors))


def fates(old, new, ask):
    """What became of each dropped parcel, ascending."""
    return [
        Fate(name, [Shared(name, *one) for one in shared], successors, doubt)
        for name, shared, successors, doubt in ask.answers(
            "fate", sorted(name for name in old.shapes if name not in new.shapes), "looking for what became of parcels"
        )
    ]


def told(fate):
    """A fate as one process tells it to another."""
    return fate.name, [(it.new, it.area, it.of_old, it.of_new) for it in fate.shared], fate.successors, fate.doubt


def rows_of(found):
    """A row for each successor; one with none for a parcel whose land no new parcel has."""
    pairs = [(fate.name, new) for fate in found if not fate.doubt for new in fate.successors or [""]]
    return [Row(number, old, new, False) for number, (old, new) in enumerate(pairs, 1)]


def marked(rows, old, new, ask):
    """The rows, those of exact splits and merges marked."""
    changes = Changes(rows, old.shapes, new.shapes)
    groups = {row: changes.group(row) for row in rows}
    different = [group for group in dict.fromkeys(groups.values()) if group]
    exact = dict(zip(different, are_exact(different, ask)))
    return [Row(row.number, row.old, row.new, bool(groups[row] and exact[groups[row]])) for row in rows], changes


def are_exact(groups, ask):
    """Whether each split or merge is exact; None where an old shape is not kept."""
    return ask.answers(
        "exact", [(group.is_merge, group.name, group.parts) for group in groups], "comparing splits and merges"
    )


def write(path, report, found, rows, changes):
    """Both tables take their place together; one that is there by then stays, and is an error."""
    folder, names = os.path.dirname(os.path.abspath(path)), [os.path.basename(each) for each in (path, report)]
    made = files.folder(folder, ".lineage-")
    try:
        write_rows(os.path.join(made, names[0]), rows)
        write_report(os.path.join(made, names[1]), found, rows, changes)
        for there in filter(os.path.lexists, (path, report)):
            raise FileExistsError(errno.EEXIST, os.strerror(errno.EEXIST), there)
        placing.put(made, folder, names, f"{path} and {report} are written")
    finally:
        placing.clear(made)


def write_rows(path, rows):
    with files.anew(path, newline="") as file:
        writer = guarded_csv.Writer(file)
        writer.writerow(["old", "new", "exact"])
        writer.writerows([row.old, row.new, int(row.is_marked)] for row in rows)


def write_report(path, found, rows, changes):
    """All that dropped parcels share with new ones, and what is proposed of it."""
    proposed = {(row.old, row.new): row for row in rows}
    with files.anew(path, newline="") as file:
        writer = guarded_csv.Writer(file)
        writer.writerow(REPORT)
        for fate in found:
            kind = changes.kind(fate.name) or ""
            for it in fate.shared:
                row = proposed.get((it.old, it.new))
                why = fate.doubt or ("proposed" if row else "a sliver")
                writer.writerow(
                    [
                        guarded_csv.text(it.old),
                        guarded_csv.text(it.new),
                        f"{it.area:.2f}",
                        f"{100 * it.of_old:.1f}",
                        f"{100 * it.of_new:.1f}",
                        kind,
                        int(row.is_marked) if row else "",
                        why,
                    ]
                )
            if not fate.shared or (fate.name, "") in proposed:
                writer.writerow(
                    [
                        guarded_csv.text(fate.name),
                        "",
                        "0.00" if not fate.shared else "",
                        "",
                        "",
                        kind,
                        "",
                        fate.doubt or "proposed",
                    ]
                )
