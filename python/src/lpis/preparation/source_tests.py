"""What may be wrong with rows of a source, each by itself, and what can be mended: the tests and the repairs before
the rounding."""

from __future__ import annotations

from shapely import wkb as shapely_wkb
from shapely.errors import ShapelyError
from shapely.validation import explain_validity

from ..formats import wkb
from ..geometry import validity
from ..source import coordinate_systems, land
from ..system import unforeseen
from .conflicts import doubtful, enclosed_by, is_on_a_map, members_of, polygons_by
from .finding_rows import NOTES, Finding
from ..geometry.ring_areas import areas_of

FAR = 20_000_000.0
ZONE = 1_000_000.0
MOST_POINTS = 100_000
KEYS = {"parcels": "parcel", "covers": "piece"}
# What may be done about a row in degrees, beside mending it.
DEGREES = {
    "parcels": (
        "; mend its shape in the source, or --accept makes the parcel of its pieces, and leaves it out where it has"
        " none"
    ),
    "covers": "; mend its shape in the source, or --accept leaves the piece out",
}


class Tests:
    """The tests of rows, one by one, and what they find."""

    def __init__(self, layers, epsg):
        self.layers, self.findings, self.epsg = layers, [], epsg
        self.shapeless = []  # parcels without a shape that can be used, each with its finding

    def find(self, kind, layer, row, words, done="left out", is_mended=False, blob=None):
        """A finding about a row, or about a layer. What is not mended without asking has its area, its place and its
        polygons, the row's own or those given."""
        name = row[KEYS[layer]] if row and layer in KEYS else ""
        area, place, own = (None, None, None) if is_mended or not row else looked_at(row)
        number, key = (row.number, self.layers[layer].key) if row else (None, "row")
        self.findings.append(
            Finding(kind, layer, number, name, words, done, is_mended, area, place, key, blob or own, row)
        )

    def test(self, name, rows, are_metres):
        """Tests rows of a layer one by one. `are_metres`: some shape of the source reads as metres."""
        for row in unforeseen.numbered(name, rows):
            if row.found is None:
                self.without_shape("shape", name, row, row.why)
                continue
            for note in sorted(row.found.notes):
                self.find(note, name, row, NOTES[note], "", True)
            self.place(name, row, are_metres)

    def without_shape(self, kind, name, row, words, remedy=""):
        self.find(kind, name, row, words + remedy, "made of its pieces" if name == "parcels" else "left out")
        if name == "parcels":
            self.shapeless.append((row, self.findings[-1]))
        row.found, row.why = None, words

    def place(self, name, row, are_metres):
        """Tests where a shape lies, and how many points it has."""
        box = row.found.box()
        zone = coordinate_systems.ZONES.get(self.epsg)
        if zone and box[2] > FAR and box[0] // ZONE == box[2] // ZONE == zone:
            row.found = wkb.Found(
                [[[(x - zone * ZONE, y) for x, y in ring] for ring in member] for member in row.found.members],
                row.found.notes,
            )
            self.find(
                "prefix",
                name,
                row,
                f"its eastings begin with the number of their zone, {zone}",
                f"taken off, {zone * ZONE:,.0f} m",
                True,
            )
            box = row.found.box()
        if are_metres and not land.reads_as_metres(box):
            self.without_shape("degrees", name, row, land.among_metres(box), DEGREES[name])
        elif max(map(abs, box)) > FAR:
            hint = (
                ""
                if self.epsg or not FAR < box[2] < 61 * ZONE
                else "; if that begins with a zone's number, name its system by --epsg, such as 25832"
            )
            self.without_shape(
                "far", name, row, f"a coordinate is beyond 20,000,000 m ({max(map(abs, box)):.10g}){hint}"
            )
        elif row.found.count() > MOST_POINTS:
            self.find("points", name, row, f"more than {MOST_POINTS} points: cut it into pieces", "")

    def make_valid(self, name, rows):
        """Mends shapes that cross themselves: a hole takes land away wherever it lies, and never becomes land.
        Answers the rows of which something is left."""
        is_valid = validity.tester()
        return [
            row
            for row in unforeseen.numbered(name, rows)
            if row.found and not is_valid(row.found.blob) and self.mend(name, row)
        ]

    def mend(self, name, row):
        """Whether anything is left of a shape that was mended."""
        why, mended = explain_validity(shapely_wkb.loads(row.found.blob)), polygons_by(row.found.members)
        if mended.is_empty:
            self.without_shape("invalid", name, row, f"{why}, and nothing of it has an area")
            return False
        members, enclosed = row.found.members, enclosed_by(row.found.members)
        row.found = wkb.Found(members_of(mended), row.found.notes)
        whole = wkb.written(members_of(doubtful(members, enclosed, mended)))
        self.find(
            "invalid",
            name,
            row,
            why,
            f"made valid: {mended.area:.3f} m2 of the {max(enclosed.area, mended.area):.3f} that its border encloses",
            blob=whole,
        )
        return True


def taken_words(row, others):
    """What a mended piece has of the places of others."""
    shape, taken = shapely_wkb.loads(row.found.blob), []
    for other in others:
        area = shape.intersection(polygons_by(other.found.members)).area
        taken += [f"{area:.3f} m2 of {other['piece']}"] if area >= 0.001 else []
    return f"; once mended it overlaps {', '.join(taken)}" if taken else ""


def take_shapes(rows, transformed):
    """Takes the shapes of rows from those of the transformed layer, row by row."""
    if [row.fields for row in transformed] != [row.fields for row in rows]:
        raise land.Trouble("ogr2ogr has other rows than the source")
    for row, new in zip(rows, transformed):
        if row.found:
            row.found, row.why, row.place = new.found, f"{new.why}, after it was transformed", None


def looked_at(row):
    """The area of a row's shape by its points, where it is known, a place in it, and its polygons as well-known
    binary: where it crosses itself those that are doubtful."""
    if row.found is None:
        return None, row.place if is_on_a_map(row.place or ()) else None, None
    box = row.found.box()
    shape = shapely_wkb.loads(row.found.blob)
    try:
        inner = shape.representative_point() if shape.is_valid else None
    except ValueError:
        inner = None
    blob = (
        row.found.blob
        if shape.is_valid
        else blob_of_doubtful(row.found.members)
        if row.found.count() <= MOST_POINTS
        else None
    )
    place = (inner.x, inner.y) if inner else ((box[0] + box[2]) / 2, (box[1] + box[3]) / 2)
    return areas_of([row.found])[0], place if is_on_a_map(box) else None, blob


def blob_of_doubtful(members):
    """Where polygons that cross themselves may have land, as well-known binary; None where that has no area, or
    cannot be worked out."""
    try:
        enclosed = enclosed_by(members)
        return wkb.written(found) if (found := members_of(doubtful(members, enclosed, polygons_by(members)))) else None
    except (ShapelyError, ValueError):
        return None
