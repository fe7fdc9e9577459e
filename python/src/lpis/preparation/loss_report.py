"""The report that every run of `prepare` ends with: what is lost in the tables or was left out before, where the source
itself is in conflict (an overlap, a gap, a piece outside of its parcel), what changed, and the balance of land."""

from __future__ import annotations

import contextlib
import json
import os
from collections import Counter
from itertools import chain

from shapely.geometry import mapping

from ..formats import geopackage, guarded_csv
from . import finding_rows, land_balance
from ..system import files
from .finding_rows import readable
from ..system.printing import counted

MOST_TOLD = 20
MOST_REASONS = 3
LAYERS = "findings.gpkg"
APART = "between"  # a kind that has a file of its own, where there is any
COUNTED = (
    ("between", "places between parcels that nobody has: see report.csv"),
    ("spike", "spikes and notches narrower than a millimetre that are not in the tables: see report.csv"),
    ("slit", "slits narrower than a millimetre in the tables, which the source does not have: see findings.csv"),
)
COLUMNS = ["kind", "layer", "row", "identifiers", "width_m", "area_m2", "x", "y", "stops", "words", "place"]


def put_layers(losses, out, accept, epsg, found_before, living):
    """The layers of what was found before the tables were made, and of the report; `living` gives the last columns of
    what stops, and of what is settled, each in its order."""
    told, settled = living.told(), living.told_settled()
    with geopackage.anew(os.path.join(out, LAYERS), epsg) as package:
        finding_rows.put(found_before, accept, package, told)
        for loss in losses:
            more = next(told) if loss.stops() else next(settled) if loss.is_settled() else finding_rows.NOT_STOPPING
            package.add(loss.kind, loss.polygons(), (*loss.of_layer(accept), *more))


def write(losses, out, epsg=None):
    """The report in a folder: all rows, however many there are; and as layers, those between parcels apart. Which
    files there are."""
    write_rows(losses, os.path.join(out, "report.csv"))
    write_layer((loss for loss in losses if loss.kind != APART), os.path.join(out, "report.geojson"), epsg)
    between, path = [loss for loss in losses if loss.kind == APART], os.path.join(out, f"{APART}.geojson")
    if between:
        write_layer(between, path, epsg)
        return ["report.csv", "report.geojson", f"{APART}.geojson"]
    with contextlib.suppress(FileNotFoundError):  # of an earlier run
        os.remove(path)
    return ["report.csv", "report.geojson"]


def write_rows(losses, path):
    with files.anew(path, newline="") as file:
        table = guarded_csv.Writer(file)
        table.writerow(COLUMNS)
        for loss in losses:
            x, y = loss.place() or (None, None)
            table.writerow(
                [
                    loss.kind,
                    loss.layer,
                    " ".join(map(str, loss.rows)),
                    guarded_csv.text(" ".join(loss.names)),
                    *(("" if value is None else f"{value:.4f}") for value in (loss.width, loss.area)),
                    *(("" if value is None else f"{value:.3f}") for value in (x, y)),
                    int(loss.stops()),
                    guarded_csv.text(loss.words),
                    loss.outline(),
                ]
            )


def write_layer(losses, path, epsg):
    system = f' "crs": {{"type": "name", "properties": {{"name": "urn:ogc:def:crs:EPSG::{epsg}"}}}},\n' if epsg else ""
    with files.anew(path) as file:
        file.write(f'{{\n "type": "FeatureCollection",\n{system} "features": [')
        for number, loss in enumerate(losses):
            file.write((",\n" if number else "\n") + json.dumps(feature_of(loss)))
        file.write("\n ]\n}\n")


def feature_of(loss):
    shape = None if loss.shape is None or loss.shape.is_empty else mapping(loss.shape)
    return {
        "type": "Feature",
        "geometry": shape,
        "properties": {
            "kind": loss.kind,
            "layer": loss.layer,
            "row": " ".join(map(str, loss.rows)),
            "identifiers": " ".join(loss.names),
            "width_m": loss.width,
            "area_m2": loss.area,
            "stops": loss.stops(),
            "words": loss.words,
        },
    }


def told(losses, found, counts):
    """The report as lines for people."""
    lines = [f"parcels {found[0]} of {counts['parcels']} pieces {found[1]} of {counts['covers']}"]
    lines += first_lines((loss for loss in losses if loss.stops()), "report.csv")
    narrow = [
        (loss.area, loss.width)
        for loss in losses
        if loss.width is not None and not loss.stops() and loss.kind != "between"
    ]
    if narrow:
        lines.append(
            f"conflicts narrower than two centimetres: {len(narrow)}, together"
            f" {sum(area for area, _ in narrow):.3f} m2, the widest {max(width for _, width in narrow) * 1000:.1f} mm"
        )
    kinds = Counter(loss.kind for loss in losses)
    lines += [f"{kinds[kind]} {words}" for kind, words in COUNTED if kinds[kind]]
    lines += [
        f"the greatest change of a parcel: {loss.words} ({' '.join(map(readable, loss.names))})"
        for loss in losses
        if loss.kind == "changed" and not loss.stops()
    ]
    lines += [line_of(loss) for loss in losses if loss.kind == "column"]
    return lines


def first_lines(losses, table):
    """A line each for the first of each kind, and how many more a table has."""
    lines, seen = [], Counter()
    for loss in losses:
        seen[loss.kind] += 1
        if seen[loss.kind] <= MOST_TOLD:
            lines.append(line_of(loss))
    return lines + [
        f"  and {count - MOST_TOLD} more of kind {kind}: see {table}"
        for kind, count in seen.items()
        if count > MOST_TOLD
    ]


def line_of(loss):
    what, place = f"{loss.kind} {' '.join(map(readable, loss.names))}".strip(), loss.place()
    at = f" at {place[0]:.3f} {place[1]:.3f}" if place else ""
    if loss.width is not None:
        return f"{what} {loss.width:.3f} m wide, {loss.area:.3f} m2{at}: {loss.words}"
    layer = {"parcels": " (parcel)", "covers": " (piece)"}.get(loss.layer, "")
    area = f", {loss.area:.3f} m2" if loss.area is not None else ""
    return f"{what}{layer}{at}{area}: {loss.words}"


def why_nothing(losses, whole):
    """Why tables have no row: the commonest reasons of the source's rows."""
    found = whole.reasons() or Counter(loss.words for loss in losses if loss.kind in ("lost", "left out"))
    return (
        "; ".join(f"{counted(count, 'row')}: {words}" for words, count in found.most_common(MOST_REASONS))
        or "the tables have no row"
    )


def concluded(losses, found, counts, out, accept, epsg, whole, refusal, living, found_before=()):
    """Writes and prints what was found, the gravest first: `losses` are gone over several times. The status of the
    run."""
    living.take(
        chain((one for one in found_before if one.is_grave()), (one for one in losses if one.stops())),
        settled=(one for one in losses if one.is_settled()),
    )
    written = [*write(losses, out, epsg), LAYERS]
    put_layers(losses, out, accept, epsg, found_before, living)
    living.write()
    whole.write(out)
    for line in [
        *told(losses, found, counts),
        f"written: {', '.join(os.path.join(out, name) for name in (*written, land_balance.FILE))}",
        *whole.words(),
    ]:
        print(line)
    if not all(found):
        print(f"nothing is left: {why_nothing(losses, whole)}{refusal and '; ' + refusal}")
        return 1
    return ended(losses, living, whole, accept, refusal)


def ended(losses, living, whole, accept, refusal):
    """The last line: what is left to look at. The status."""
    left, count = living.left_open(), living.count()
    uneven = "" if whole.is_even() else "the balance does not add up"
    if not living.rows and not uneven:
        return 0
    is_refused = any(loss.kind == "overlap" and loss.is_grave for loss in losses)
    remedy = ": mend the source" if is_refused else ": mend the source, or take the tables as they are by --accept"
    is_accepted = not left.count and (not uneven or accept.is_all)
    what = (
        f"{count + bool(uneven)}, accepted{living.following()}"
        if is_accepted
        else f"{left.words(count)}{living.following()}{remedy}"
        if left.count
        else f"1 ({uneven}){remedy}"
    )
    print(
        f"to look at: {what}"
        + ("; lpis refuses these tables" if is_refused else "")
        + ("" if is_accepted or not refusal else f"; {refusal}")
    )
    return 0 if is_accepted else 1
