"""What was accepted and left out on the way to a country's tables, and what became of its parcels since an older year:
in all, and by tiles. Both years are read parcel by parcel."""

from __future__ import annotations

from ..lineage import release_differences, two_years
from ..preparation import origin
from ..system import progress
from ..system.printing import escaped

FINDINGS, REPORT = "prepared.csv", "report.csv"
COUNTED = ("findings", "accepted")
CHANGES = ("new", "gone", "changed", "other_shape_same_area", "moved")


def tile_at(tiling, x, y):
    """The region of a place in millimetres; what lies on a cut is in the tile from the cut on."""
    return tiling.folders[tiling.met((x, y, x + 1, y + 1))[0]]


def reported(folder, tiling):
    """Of each region how many findings of the tests lie there, and how many rows of the report stop and were accepted;
    and those without a place, which are in no region, by what was found of them: kind, rows, and the words of the
    first."""
    found, nowhere, reasons = (
        {name: dict.fromkeys(COUNTED, 0) for name in tiling.folders},
        {name: {} for name in COUNTED},
        {},
    )
    for name, column, is_counted in (
        (FINDINGS, "findings", lambda row: True),
        (REPORT, "accepted", lambda row: row.get("stops") == "1"),
    ):
        for row in filter(is_counted, origin.records(folder, name)):
            if row.get("x") and row.get("y"):
                found[tile_at(tiling, *(round(1000 * origin.number(row[axis])) for axis in "xy"))][column] += 1
                continue
            key, own = (row.get("layer"), row.get("row")), (row.get("kind") or "", row.get("words") or "")
            if name == FINDINGS:
                reasons.setdefault(key, own)
            kind, words = reasons.get(key, own) if name == REPORT and row.get("row") else own
            told = nowhere[column].setdefault(kind, {"kind": kind, "rows": 0, "words": words})
            told["rows"] += 1
    return found, {
        column: sorted(told.values(), key=lambda one: (-one["rows"], one["kind"])) for column, told in nowhere.items()
    }


def without_place(nowhere):
    """In words, a line each."""
    for column, told in nowhere.items():
        if told:
            yield f"{column} in no region, since these rows have no place: {sum(one['rows'] for one in told)}: " + ", ".join(  # noqa: E501
                f"{one['rows']} {one['kind']} (such as: {escaped(one['words'])})" for one in told
            )


def difference(old, folder, tiling):
    """What differs from an older year, as `differences.difference` has it of a release; and how much of it lies in
    each region."""
    before, after = two_years.of_folder(old), two_years.of_folder(folder)
    found = release_differences.of_shapes(
        before.shapes, after.shapes, list(before.shapes.differing(after.shapes)), release_differences.lineage(folder)
    )
    tiles = {name: dict.fromkeys(CHANGES, 0) for name in tiling.folders}
    for kind in CHANGES:
        for row in progress.over(found[kind] or [], f"places of what is {kind}"):
            name = row if kind == "other_shape_same_area" else row["parcel"]
            tiles[after.shapes.region(name) if kind != "gone" else tile_at(tiling, *before.shapes[name][0][0][0])][
                kind
            ] += 1
    return found, tiles


def in_words(row):
    """What a region's line ends with."""
    told = [f"{name} {row[name]}" for name in ("findings", "accepted", "new", "gone", "changed") if row.get(name)]
    return "".join(f" {words}" for words in told)
