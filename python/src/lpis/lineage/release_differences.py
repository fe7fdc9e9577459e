"""What became of the parcels of an older release: new, gone, of another area, moved, with the rows of lineage that
explain them."""

import os

from ..formats import polygons
from . import two_years
from ..system import progress, shapely_there
from ..formats.square_metres import AREA, decimal
from ..formats.byte_tables import Table, path_of, shown


def lineage(folder):
    """What became of each old identifier, and what each new one came from, by lineage.csv, of a country by that of
    each region."""
    to, came = {}, {}
    for region in two_years.regions_of(folder):
        try:
            table = Table(path_of(os.path.join(folder, region), "lineage"), "lineage")
        except OSError:
            continue
        for _, record in table.rows():
            old, new = (shown(table.field(record, name)) for name in ("old", "new"))
            to.setdefault(old, []).append(new)
            if new:
                came.setdefault(new, []).append(old)
    return to, came


def difference(old, land, folder):
    """Of two releases' parcels, the newer one's folder has lineage.csv."""
    differing = [
        name for name in sorted(old.parcels) if name in land.parcels and old.parcels[name] != land.parcels[name]
    ]
    return of_shapes(old.parcels, land.parcels, differing, lineage(folder))


def of_shapes(old, new, differing, rows):
    """Of two years' shapes, with the names that both have and whose shapes differ, and what the rows of lineage say."""
    (to, came), changed, others = rows, [], []
    added = [
        {"parcel": name, "area": decimal(polygons.doubled(new[name]), AREA), "from": came.get(name, [])}
        for name in sorted(name for name in new if name not in old)
    ]
    gone = [
        {
            "parcel": name,
            "area": decimal(polygons.doubled(old[name]), AREA),
            "to": [other for other in to.get(name, []) if other],
            "ended": "" in to.get(name, []),
            "explained": name in to,
        }
        for name in sorted(name for name in old if name not in new)
    ]
    for name in progress.over(differing, "comparing parcels that changed", "parcels"):
        before, after = polygons.doubled(old[name]), polygons.doubled(new[name])
        if before != after:
            changed.append(
                {
                    "parcel": name,
                    "before": decimal(before, AREA),
                    "after": decimal(after, AREA),
                    "difference": decimal(after - before, AREA),
                    "from": came.get(name, []),
                }
            )
        elif set(polygons.points(old[name])) != set(polygons.points(new[name])):
            others.append(name)
    return {
        "new": added,
        "gone": gone,
        "changed": changed,
        "other_shape_same_area": others,
        "moved": moved(differing, old, new),
        "kept": len(old) - len(gone) - len(changed) - len(others),
    }


def moved(differing, old, new):
    """Identifiers that were kept for other land, with words; None where Shapely, which finds them, is not there."""
    if not shapely_there.is_there():
        return None
    from . import moved_parcels as moves

    lines = (line.split(": ", 1) for line in moves.between(differing, old, new))
    return [{"parcel": name, "words": words} for name, words in lines]


def in_words(found):
    """The counts of what differs, in a line."""
    moves = found["moved"]
    return (
        f"new {len(found['new'])} gone {len(found['gone'])} changed {len(found['changed'])} kept {found['kept']} "
        f"moved {len(moves) if moves is not None else 'not looked for: Shapely is not there (Debian: python3-shapely)'}"
    )
