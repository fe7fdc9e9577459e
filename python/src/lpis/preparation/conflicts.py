"""What is wrong with a source, by Shapely: shapes that cross themselves, and places that two pieces have, or a parcel
and none of its pieces, or a piece and not its parcel."""

from __future__ import annotations

from collections import Counter
from dataclasses import dataclass, field

from shapely.errors import ShapelyError
from shapely.geometry import LineString, Polygon
from shapely.ops import polygonize, unary_union
from shapely.validation import make_valid

from ..formats import wkb
from . import outlines, place_holders
from ..source import land
from ..system import progress
from ..geometry.boxes import Boxes
from ..system.printing import counted
from ..rounding.coverage import Map, shape_of
from ..geometry.widths import ROUNDING, is_as_wide, parts_of, places_of, width_of

WIDE = 0.02  # metres: a conflict that is as wide as this somewhere is a fault of the source
LEAST = 0.001  # metres: conflicts that are narrower are rounding, and no rows
SPIKE = 0.0005  # metres: narrower than twice that, a part of a shape is no place to show it
AREA = 0.000_001  # square metres: of doubles
FARTHEST = 1e12  # metres: places beyond are not told
MANY = 100  # rows of one name, from which on they are asked for by their boxes
# beyond so many in all, those of a piece that lies on more than so many others are one
MOST_OVERLAPS, OVERLAPS_EACH = 20_000, 100
ORDER = (
    "lost",
    "left out",
    "made",
    "doubled",
    "identifier",
    "stranger",
    "added",
    "class",
    "invalid",
    "overlap",
    "gap",
    "outside",
    "between",
    "spike",
    "slit",
    "changed",
    "column",
)
STOPPING = frozenset(ORDER[:9])
SETTLED = frozenset(("overlap", "gap", "outside", "spike", "slit"))


@dataclass
class Loss:
    """Something to look at."""

    kind: str  # one of ORDER
    names: list
    words: str
    shape: object = None  # of Shapely, in metres
    width: float | None = None
    area: float | None = None
    layer: str = ""
    rows: list = field(default_factory=list)  # their numbers in the layer
    is_grave: bool = False
    known_place: tuple | None = None  # once it was looked for; empty where there is none

    def is_wide(self):
        return self.kind != "between" and self.width is not None and self.width >= WIDE - ROUNDING

    def is_of_parcel(self):
        """Whether it is a place that a parcel has and none of its pieces: nobody else, or other parcels too."""
        return self.kind in ("gap", "overlap") and self.layer == "parcels"

    def is_heap(self):
        """Whether it stands for the overlaps of a piece that are too many to be measured."""
        return self.kind == "overlap" and self.width is None

    def stops(self):
        return self.kind in STOPPING or self.is_wide() or self.is_grave

    def is_settled(self):
        """Whether the tables settle a place of it that is too narrow to stop."""
        return self.kind in SETTLED and not self.stops()

    def key_words(self):
        """What a row of its table is known by: the kind, the layer, the row and the identifiers."""
        return self.kind, self.layer, " ".join(map(str, self.rows)), " ".join(self.names)

    def at(self):
        return self.place()

    def polygons(self):
        """Its polygons as well-known binary, or None where it has none."""
        members = members_of(self.shape)
        return wkb.written(members) if members else None

    def outline(self):
        """Its polygons as a text, by which a mark of its row is known; nothing where nobody has to mark it."""
        return outlines.text_of(blob) if self.stops() and (blob := self.polygons()) else ""

    def of_layer(self, accept):
        """Its values in the columns of findings.gpkg."""
        rows, names = " ".join(map(str, self.rows)), " ".join(self.names)
        done = "accepted" if self.stops() and accept.takes(self) else ""
        return (
            self.kind,
            self.layer,
            rows,
            names,
            self.width,
            self.area,
            *(self.place() or (None, None)),
            int(self.stops()),
            done,
            self.words,
        )

    def place(self):
        """A place in it, well within where it is wide enough."""
        if self.known_place is None:
            self.known_place = self.place_of_shape() or ()
        return self.known_place or None

    def place_of_shape(self):
        parts = parts_of(self.shape)
        if not parts and (self.shape is None or self.shape.is_empty) or not is_on_a_map(self.shape.bounds):
            return None
        largest = max(parts or [self.shape], key=lambda part: part.area)
        point = max(parts_of(largest.buffer(-SPIKE)) or [largest], key=lambda part: part.area).representative_point()
        return point.x, point.y


def is_on_a_map(box):
    """Whether places in a box can be told, and worked out: beyond FARTHEST, and of what is no number, there is none."""
    return all(abs(side) <= FARTHEST for side in box)


def members_of(shape):
    return [[list(map(tuple, ring.coords)) for ring in (part.exterior, *part.interiors)] for part in parts_of(shape)]


def polygons_by(members):
    """The land of polygons as a valid shape. A hole takes land away wherever it lies, and never becomes land."""
    shape = shape_of(wkb.Found(members))
    return shape if shape.is_valid else unary_union([land_of_member(rings) for rings in members])


def land_of_member(rings):
    shell, *holes = (unary_union(parts_of(make_valid(Polygon(ring)))) for ring in rings)
    return unary_union(parts_of(shell.difference(unary_union(holes)))) if holes else shell


def enclosed_by(members):
    """What the borders of polygons enclose, however often they go round it: less their holes."""
    return unary_union(
        [
            outline(shell).difference(unary_union([land_of_member([hole]) for hole in holes]))
            for shell, *holes in members
        ]
    )


def outline(ring):
    return unary_union(list(polygonize(unary_union(LineString(ring)))))


def doubtful(members, enclosed, mended):
    """Where polygons that cross themselves may have land, whoever reads them: all that their borders enclose, less the
    holes that are sound. `enclosed` is what `enclosed_by` gives of them, `mended` their land."""
    return unary_union(
        [enclosed, mended, *(outline(ring) for rings in members if not has_sound_holes(*rings) for ring in rings)]
    )


def has_sound_holes(shell, *holes):
    """Whether no reader sees land in the holes: they are valid, apart from each other, and within the land of their
    shell."""
    found = [Polygon(hole) for hole in holes]
    if not holes or Polygon(shell, holes).is_valid:
        return True
    if not all(hole.is_valid for hole in found):
        return False
    whole = unary_union(found)
    return (
        abs(whole.area - sum(hole.area for hole in found)) <= AREA
        and whole.difference(land_of_member([shell])).area <= AREA
    )


def by_geos(what, rows, operation, *shapes):
    """An operation of Shapely; where it fails the rows are named."""
    try:
        return operation(*shapes)
    except (ShapelyError, ValueError) as error:
        named = ", ".join(f"{layer} {name}" + (f" (row {row.number})" if row else "") for layer, name, row in rows)
        raise land.Trouble(
            f"{what} of {named} cannot be computed: mend the shape ({str(error).splitlines()[0][:80]})"
        ) from None


def pieces_found(kind, names, rows, shape, words="", layer="covers"):
    """A loss for each place that is wide, and one for what is thin of each connected part: that is no more than
    rounding where it is nowhere as wide as a millimetre."""
    for part in parts_of(shape) if is_as_wide(shape, LEAST - ROUNDING) else ():
        wide, thin = places_of(part, WIDE - ROUNDING)
        found = [(place, max(width_of(place), WIDE - ROUNDING)) for place in wide]
        if is_as_wide(thin, LEAST - ROUNDING):
            found.append((thin, min(width_of(thin), WIDE - 2 * ROUNDING)))
        yield from (Loss(kind, names, words, place, width, place.area, layer, rows) for place, width in found)


def by_parcel(rows):
    """Rows by the names of their parcels."""
    found = {}
    for row in rows:
        found.setdefault(row["parcel"], []).append(row)
    return found


class Source:
    """A land whose shapes are valid: `shaped` has the ids of the rows that have one."""

    KEYS = {"parcels": "parcel", "covers": "piece"}

    def __init__(self, layers):
        self.losses, self.layers, self.shapes = [], layers, {}
        self.parcels, self.covers = ([row for row in layers[name].rows if row.found] for name in self.KEYS)
        self.shaped = {id(row) for row in (*self.parcels, *self.covers)}
        self.parcels_of, self.pieces_of = by_parcel(self.parcels), by_parcel(self.covers)
        self.boxes_of, self.holders = {}, place_holders.Holders(self.parcels, self.covers, self.shape)

    def pieces_near(self, row):
        """The pieces of a parcel's name, at least those that have a place in it."""
        return self.near(self.pieces_of[row["parcel"]], row)

    def parcels_near(self, piece):
        """The parcels that have the name of a piece's parcel, at least those that have a place in it."""
        return self.near(self.parcels_of.get(piece["parcel"], []), piece)

    def near(self, rows, row):
        """Of rows of one name and layer those that meet the box of a row, where they are many."""
        if len(rows) < MANY:
            return rows
        if id(rows) not in self.boxes_of:
            self.boxes_of[id(rows)] = Boxes([one.found.box() for one in rows])
        return [rows[number] for number in self.boxes_of[id(rows)].meeting(row.found.box())]

    def shape(self, row):
        """The shape of a row, made when it is asked for and kept; None where it has no land."""
        if id(row) not in self.shaped:
            return None
        if id(row) not in self.shapes:
            self.shapes[id(row)] = shape_of(row.found)
        return self.shapes[id(row)]


def find_conflicts(source, say, found=None, between=land.BETWEEN):
    """The places in conflict, by Shapely: of the rows that have one where all borders are rounded together (`found`).
    What the rounding closes by itself is none."""
    found = found or Map(source.parcels, source.covers, say).conflicts(between)
    say(
        f"measuring what rounding may have closed: {counted(len(found.overlaps), 'overlap')},"
        f" {counted(len(found.gaps), 'gap')}, {counted(len(found.outsides), 'piece')} outside of their parcel"
    )
    overlaps, heaps = without_heaps(found.overlaps)
    source.losses += [heap_of(source, row, count) for row, count in heaps]
    for first, second in progress.over(overlaps, "measuring", "overlaps"):
        find_overlap(source, first, second)
    for row in progress.over(found.gaps, "measuring", "gaps"):
        find_gap(source, row)
    for piece, row in progress.over(found.outsides, "measuring", "outsides"):
        find_outside(source, piece, row)
    source.losses += between_all(found.between)


def without_heaps(overlaps):
    """Overlaps to be measured one by one, and pieces that lie on very many others, each with how many: where there
    are too many overlaps to measure all."""
    if len(overlaps) <= MOST_OVERLAPS:
        return overlaps, []
    firsts = [min(pair, key=lambda row: row["piece"]) for pair in overlaps]
    counts = Counter(map(id, firsts))
    heaps = {id(row): row for row in firsts if counts[id(row)] > OVERLAPS_EACH}
    return [pair for pair, row in zip(overlaps, firsts) if id(row) not in heaps], [
        (row, counts[key]) for key, row in heaps.items()
    ]


def heap_of(source, row, count):
    """A piece that lies on very many others: its whole shape is in conflict."""
    shape = source.shape(row)
    return Loss(
        "overlap",
        [row["piece"]],
        f"this piece lies on {count} others, too many to be measured one by one",
        shape,
        None,
        shape.area,
        "covers",
        [row.number],
        is_grave=True,
    )


def find_overlap(source, row, other):
    shapes = [source.shape(one) for one in (row, other)]
    both = by_geos(
        "the overlap", [("covers", one["piece"], one) for one in (row, other)], shapes[0].intersection, shapes[1]
    )
    first, second = sorted((row, other), key=lambda one: one["piece"])
    found = pieces_found(
        "overlap", [first["piece"], second["piece"]], [first.number, second.number], both, "both pieces have this place"
    )
    source.losses += by_geos(
        "the width of the overlap", [("covers", one["piece"], one) for one in (first, second)], list, found
    )


def find_gap(source, row):
    named = [("parcels", row["parcel"], row)]
    whole = by_geos("the pieces", named, unary_union, [source.shape(piece) for piece in source.pieces_near(row)])
    gap = by_geos("the gaps", named, source.shape(row).difference, whole)
    source.losses += by_geos("the width of the gap", named, list, gaps_of(source, row, gap))


def gaps_of(source, row, gap):
    """The losses of land that a parcel has and none of its pieces: a place that other parcels have too is an overlap of
    parcels."""
    parcel, rows = row["parcel"], [row.number]
    for loss in pieces_found("gap", [parcel], rows, gap, layer="parcels"):
        others = source.holders.parcels(loss.shape, parcel)
        shared, alone = place_holders.apart(loss.shape, others, WIDE - ROUNDING)
        if shared is None or alone is None:
            loss.kind = "gap" if shared is None else "overlap"
            loss.words = words_of_gap(source.holders, loss, parcel, others)
            yield loss
            continue
        for kind, place in (("overlap", shared), ("gap", alone)):
            for one in pieces_found(kind, [parcel], rows, place, layer="parcels"):
                one.words = words_of_gap(source.holders, one, parcel, source.holders.parcels(one.shape, parcel))
                yield one


def words_of_gap(holders, loss, parcel, others):
    words = holders.words_of_overlap if loss.kind == "overlap" else holders.words_of_gap
    return words(loss.shape, parcel, others)


def find_outside(source, piece, row):
    named = [("parcels", row["parcel"], row), ("covers", piece["piece"], piece)]
    shapes = [source.shape(parcel) for parcel in source.parcels_near(piece)]
    whole = shapes[0] if len(shapes) == 1 else by_geos("the parcels", named, unary_union, shapes)
    outside = by_geos("the outside", named, source.shape(piece).difference, whole)
    names, rows = [piece["piece"], row["parcel"]], [piece.number, row.number]
    source.losses += by_geos("the width of the outside", named, list, outsides_of(source, names, rows, outside))


def outsides_of(source, names, rows, outside):
    """The losses of land that a piece has and its parcel has not."""
    for loss in pieces_found("outside", names, rows, outside):
        loss.words = source.holders.words_of_outside(loss.shape, names[1])
        yield loss


def between_all(gaps):
    """A loss for each gap, but for those that are rounding."""
    return [between_of(gap) for gap in gaps if gap.shape is None or is_as_wide(gap.shape, LEAST - ROUNDING)]


def between_of(gap):
    if gap.shape is None:
        return Loss(
            "between",
            gap.names,
            (
                f"{counted(gap.unsearched, 'border')} of this parcel lie among too many others: next to them land"
                " between parcels was not looked for"
            ),
            layer="parcels",
        )
    more = f", with {len(gap.names) - 2} more parcels next to it" if len(gap.names) > 2 else ""
    return Loss(
        "between",
        gap.names[:2],
        f"nobody has this place between parcels{more}",
        gap.shape,
        width_of(gap.shape),
        gap.shape.area,
        "parcels",
    )
