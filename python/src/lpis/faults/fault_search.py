"""Finds all faults of a release by calling `lpis cut` on parts of it, and reports each as its polygons, or as a
point, with its line, code and identifiers."""

import itertools
import os
import sys

from . import row_faults, trial_cuts
from ..formats import codes, polygons
from ..system import shapely_there

MOST_PAIRS = 1_000_000  # parcels in heaps have as many as the square of their number


def shower(what):
    """Progress on standard error, in one line where that is a terminal."""
    last = [-1]

    def show(done, count, faults):
        percent = 100 * done // max(count, 1)
        if percent != last[0] and (sys.stderr.isatty() or percent // 25 != last[0] // 25 or done == count):
            last[0] = percent
            print(
                f"\rfaults: {what} {done} of {count}, faulty {faults}",
                end="" if sys.stderr.isatty() and done < count else "\n",
                file=sys.stderr,
                flush=True,
            )

    return show


def near_pairs(parcels):
    """Each two parcels whose boxes overlap in more than a border, by a sweep from left to right."""
    boxes = sorted((polygons.box([parcel.members]), number) for number, parcel in enumerate(parcels))
    open_boxes = []
    for box, number in boxes:
        open_boxes = [(b, n) for b, n in open_boxes if b[2] > box[0]]
        for other, other_number in open_boxes:
            if other[1] < box[3] and box[1] < other[3]:
                yield min(number, other_number), max(number, other_number)
        open_boxes.append((box, number))


def faults_of_shapes(command, release):
    """Faults of parcels with their pieces, then of two parcels."""
    whole = [parcel for parcel in release.parcels if parcel.pieces and parcel.name not in release.incomplete]
    faults = trial_cuts.all_faults(command, [[parcel] for parcel in whole], shower("parcels"))
    alone = [
        trial_cuts.Parcel(parcel.name, parcel.members, [(parcel.name, parcel.members)]) for parcel in release.parcels
    ]
    uncut = {
        fault.names[0] for fault in trial_cuts.all_faults(command, [[parcel] for parcel in alone], shower("borders"))
    }
    faults += [trial_cuts.Fault("40", "parcel", [name], None) for name in sorted(uncut & release.incomplete)]
    sound = [parcel for parcel in alone if parcel.name not in uncut]
    pairs = [[sound[i], sound[j]] for i, j in itertools.islice(near_pairs(sound), MOST_PAIRS)]
    if len(pairs) == MOST_PAIRS:
        print("faults: more than a million pairs of boxes overlap: the first million are looked at", file=sys.stderr)
    for fault in trial_cuts.all_faults(command, pairs, shower("pairs")):
        fault.kind = fault.kind.replace("piece", "parcel")
        faults.append(fault)
    return faults


def feature(code, line, names, row, place, exact):
    """A fault as a point, or without one. 38 comes with the code of the text's fault. `row` is its table, the number
    of the row there and its line in the file."""
    inner = line.split(" wkt ")[1].split()[0] if code == "38" and " wkt " in line else ""
    x, y = (float(value) / 1000 for value in place) if place else (None, None)
    table, number, file_line = row
    where = f"{table}.csv row {number}, line {file_line}" if table else ""
    return {
        "type": "Feature",
        "geometry": {"type": "Point", "coordinates": [x, y]} if place else None,
        "properties": {
            "code": f"{code} {inner}".strip(),
            "kind": kind_of(code),
            "line": line,
            "where": where,
            "table": table,
            "row": number,
            "file_line": file_line,
            "names": " ".join(names),
            "place": exact,
            "x": x,
            "y": y,
            "width_m": None,
            "area_m2": None,
            "meaning": codes.CODES[inner or code][0],
        },
    }


KINDS = {
    "33": "identifier",
    "34": "doubled",
    "35": "stranger",
    "36": "class",
    "37": "bare",
    "38": "shape",
    "40": "invalid",
    "41": "overlap",
    "42": "overlap",
    "43": "gap",
    "44": "gap",
}


def kind_of(code):
    """What tools/prepare calls the finding of a code, where its land is not known."""
    return KINDS.get(code, "table")


def shown(feature, places):
    """A fault as its polygons, one feature for each kind: a parcel may have a gap, and pieces that leave it. The
    point where nothing has an area."""
    for place in places:
        geometry = {"type": "MultiPolygon", "coordinates": place.members}
        yield {
            **feature,
            "geometry": geometry,
            "properties": {
                **feature["properties"],
                "kind": place.kind,
                "width_m": place.width and round(place.width, 6),
                "area_m2": round(place.area, 6),
            },
        }
    if not places:
        yield feature


def places_there():
    """What finds the polygons of a fault; without Shapely nothing does."""
    if not shapely_there.is_there():
        print("faults: points in place of polygons, since Shapely is not there", file=sys.stderr)
        return lambda *_: []
    from .fault_places import places_of

    return places_of


def features_of(release, faults):
    """Faults of rows, then those of shapes: each its polygons, or the point."""
    features, places_of = [], places_there() if release.faults or faults else None
    for fault in release.faults:
        point = fault.members[0][0][0] if fault.members else None
        one = feature(
            fault.code,
            fault.line,
            fault.names,
            (fault.table, fault.row, fault.file_line),
            point,
            "a corner" if point else "none",
        )
        features += shown(one, places_of(fault.code, [fault.members], []))
    pieces = {parcel.name: [members for _, members in parcel.pieces] for parcel in release.parcels} if faults else {}
    for fault in faults:
        shapes, rows_there = zip(*(release.shape_of(fault.kind, name) for name in fault.names))
        place, exact = (
            (fault.place, "reported") if fault.place else (shapes[0][0][0][0] if shapes[0] else None, "a corner")
        )
        features += shown(
            feature(fault.code, fault.line(), fault.names, rows_there[0], place, exact),
            places_of(fault.code, shapes, pieces.get(fault.names[0], [])),
        )
    return features


def count_of(features):
    """How many faults there are: one may have several places."""
    return len({one["properties"]["line"] for one in features})


def find(command, folder):
    """The release of a folder, and its faults as features of GeoJSON."""
    os.scandir(folder).close()  # one that is none is an OSError, which says so
    release = row_faults.read_release(command, folder, shower)
    faults = [] if release.is_sound or release.is_cut_off else faults_of_shapes(command, release)
    return release, features_of(release, faults)
