"""All findings and faults as a page shows them: polygons on the map, and a table of them, what stops before the rest
and the largest first. What comes of another stands below it.

    found.of_package(path, is_settled)     of findings.gpkg, which tools/prepare writes
    found.of_features(features)            of the faults that tools/faults finds
"""

from __future__ import annotations

import contextlib
import os
import re
import sqlite3
from collections import Counter
from dataclasses import dataclass, field
from typing import Iterable, Iterator

from ..formats import codes, geopackage, wkb
from ..preparation import decisions
from ..preparation.decisions import ON_ITS_OWN, WHOLE
from . import html_page, remedies
from ..system import databases
from ..system.printing import counted

PACKAGE = "findings.gpkg"
PLACE = "place without a polygon"
MOST_TOLD = 5  # findings of a kind on the terminal
MOST_NAMED = 4  # of those that come of one
MOST_PICTURES = 12
ROOM = 15_000  # millimetres about a finding that its picture has at least
MOST_DRAWN = 1_000  # polygons of pieces that stand for a finding
MOST_TOLD_IN_ALL = 30  # findings on the terminal: so few are all told
MOST = 10_000  # on a page; the GeoPackage has all
COLUMNS = [
    "state",
    "kind",
    "layer",
    "row",
    "identifiers",
    "#area m\u00b2",
    "#width m",
    "words",
    "what to do, or what was done",
]
LAST = ["#number", "x,y: paste it into QGIS's box Coordinate to go there"]
STATE_AND_KIND = (0, 1)  # the columns by which the table and the map are narrowed
WIDTH = re.compile(r"^[0-9.]+ m wide: ")  # before the words of a conflict; it has a column of its own
STOPS, ACCEPTED, TOLD = "stops", "accepted", "told"
NOT_NUMBERED = (None, "open", "")  # of a fault of tables


@dataclass
class Found:
    """One finding, with lengths in metres. `state` is one of STOPS, ACCEPTED and TOLD; `members` are its polygons,
    or None."""

    kind: str
    layer: str
    row: str
    names: str
    words: str
    state: str
    todo: str = ""
    area: float | None = None
    width: float | None = None
    place: tuple | None = None
    members: list | None = None
    number: int | None = None
    comes_from: str = ""  # numbers of others
    kept: dict[str, str] = field(default_factory=dict)  # columns of the source

    def is_own(self) -> bool:
        """Whether it is to be decided, and does not go with what it comes of."""
        return not self.comes_from or self.kind == ON_ITS_OWN

    def order(self) -> tuple:
        is_part = self.kind not in WHOLE or bool(self.row)
        return (
            self.state != STOPS,
            self.state != ACCEPTED,
            is_part,
            -(self.area or 0.0),
            self.kind,
            self.names,
            self.row,
        )

    def is_of_map(self) -> bool:
        """Whether it is shown by itself: all but what was mended without asking and has no place, and the greatest
        change."""
        return self.state != TOLD or (bool(self.members or self.place) and self.kind != "changed")

    def title(self) -> str:
        return f"{self.kind} {self.names}".strip()

    def rows_in_words(self) -> str:
        """Its rows with their layers: of a piece outside of its parcel one is of parcels."""
        rows = self.row.split()
        if self.kind == "outside" and len(rows) == 2:
            return f" (covers {rows[0]}, parcels {rows[1]})"
        return f" ({self.layer} {self.row})" if rows else ""

    def size(self) -> str:
        """Area, width and place in words."""
        told = [f"{self.area:.3f} m\u00b2"] if self.area is not None else []
        told += [f"{self.width:.3f} m wide"] if self.width is not None else []
        return ", ".join(told + ([f"at {self.place[0]:.3f} {self.place[1]:.3f}"] if self.place else []))

    def cells(self, kept: Iterable[str] = ()) -> list:
        """Its row of a table, with these columns of the source."""
        sizes = ["" if value is None else f"{value:.3f}" for value in (self.area, self.width)]
        number = "" if self.number is None else self.number
        place = f"{self.place[0]:.3f},{self.place[1]:.3f}" if self.place else ""
        own = [self.state, self.kind, self.layer, self.row, self.names, *sizes, self.words, self.todo]
        return [*own, *(self.kept.get(name, "") for name in kept), number, place]


def of_package(path: str, is_settled: bool) -> list[Found]:
    """The findings of a GeoPackage of tools/prepare. Settled: the tables are written, so what would stop was
    accepted."""
    if not os.path.isfile(path):
        return []
    columns, values = decisions.kept_columns(os.path.dirname(path))
    with contextlib.closing(databases.opened(path)) as base:
        layers = sorted(geopackage.layers_of(base))
        found = [found_of(row, is_settled) for name in layers for row in rows_of(base, name)]
    for one in found:
        one.kept = dict(zip(columns, values.get(one.number, [""] * len(columns))))
    return found


def rows_of(base: sqlite3.Connection, layer: str) -> Iterator[tuple]:
    columns = (
        "kind, layer, row, identifiers, width_m, area_m2, x, y, stops, done, words, number, state, comes_from, geom"
    )
    return base.execute(f'SELECT {columns} FROM "{layer}"')


def found_of(row: tuple, is_settled: bool) -> Found:
    kind, layer, number, names, width, area, x, y, stops, done, words, own, decided, comes_from, shape = row
    state = TOLD if not stops else ACCEPTED if decided == ACCEPTED or is_settled else STOPS
    todo = remedies.of(kind, layer, not number) if state == STOPS else done
    words = WIDTH.sub("", words) if width is not None else words
    members = wkb.unpacked(shape[geopackage.HEAD.size :]) if shape else None
    place = None if x is None else (x, y)
    return Found(kind, layer, number, names, words, state, todo, area, width, place, members, own, comes_from or "")


def in_order(findings: list[Found]) -> list[tuple[Found, Found | None]]:
    """Findings, each with the first that it comes of, or None: those that come of one stand below it."""
    numbered = {one.number: one for one in findings if one.number is not None}
    below: dict[int, list[Found]] = {}
    tops = []
    for one in sorted(findings, key=Found.order):
        cause = next((numbered[int(word)] for word in one.comes_from.split() if int(word) in numbered), None)
        if cause:
            below.setdefault(id(cause), []).append(one)
        else:
            tops.append((one, None))
    made, waiting = [], tops[::-1]
    while waiting:
        made.append(waiting.pop())
        waiting += [(other, made[-1][0]) for other in reversed(below.get(id(made[-1][0]), []))]
    return made


def draw_by_pieces(findings: Iterable[Found], rows: Iterable) -> None:
    """Gives those without polygons that pieces show, which are parcels without a shape and classes that lack, these
    pieces: the first so many of each. `rows` are those of the pieces, with their names in the tables."""
    wanted: dict[tuple, list[Found]] = {}
    for one in findings:
        what = "class" if one.kind == "class" else "parcel" if one.layer == "parcels" else ""
        if what and one.names and not one.members:
            wanted.setdefault((what, one.names), []).append(one)
    for row in rows if wanted else ():
        for one in (some for what in ("class", "parcel") for some in wanted.get((what, row[what]), ())):
            one.members = one.members or []
            if row.found and len(one.members) < MOST_DRAWN:
                one.members += row.found.members


def of_features(features: Iterable[dict]) -> list[Found]:
    """Faults of a release, each with its code."""
    return [of_feature(one) for one in features]


def of_feature(feature: dict) -> Found:
    told, shape = feature["properties"], feature["geometry"]
    members = shape["coordinates"] if shape and shape["type"] == "MultiPolygon" else None
    row, place = "" if told["row"] is None else str(told["row"]), None if told["x"] is None else (told["x"], told["y"])
    words, todo = f"{told['code']}: {told['meaning']}", codes.CODES.get(told["code"].split()[-1], ("", "", ""))[2]
    return Found(
        told["kind"],
        told["table"],
        row,
        told["names"],
        words,
        STOPS,
        todo,
        told["area_m2"],
        told["width_m"],
        place,
        members,
    )


def add_to(path: str, features: list[dict], epsg: int | None) -> None:
    """Adds faults to the findings of a GeoPackage, which is written anew."""
    with contextlib.closing(databases.opened(path)) as base:
        layers = geopackage.layers_of(base)
        rows = [
            base.execute(f'SELECT geom, {", ".join(geopackage.COLUMNS)} FROM "{name}"').fetchall() for name in layers
        ]
    with geopackage.anew(path, epsg) as package:
        for shape, kind, *values in (row for some in rows for row in some):
            package.add(kind, shape and shape[geopackage.HEAD.size :], (kind, *values))
        for one in of_features(features):
            blob = wkb.written(one.members) if one.members else None
            place = one.place or (None, None)
            values = (one.kind, one.layer, one.row, one.names, one.width, one.area, *place, 1, "", one.words)
            package.add(one.kind, blob, (*values, *NOT_NUMBERED))


def about(members: list) -> tuple:
    """The box around a shape with room for what is beside it."""
    xs, ys = zip(*(point for member in members for ring in member for point in ring))
    room = max(ROOM, max(xs) - min(xs), max(ys) - min(ys))
    return min(xs) - room, min(ys) - room, max(xs) + room, max(ys) + room


class Picture:
    """Findings on their way to a page: sorted, and no more than it can show."""

    def __init__(self, findings: Iterable[Found]):
        ordered = in_order([*findings])
        every = [one for one, _ in ordered]
        self.all, self.stopping = every, [one for one in every if one.state == STOPS and one.is_own()]
        self.below: dict[int, list[Found]] = {}  # what comes of a finding that stops
        for one, cause in ordered:
            if cause and not one.is_own():
                one.todo = f"comes from {cause.title()}" + (f"; {one.todo}" if one.state != STOPS and one.todo else "")
                self.below.setdefault(id(cause), []).append(one)
        told = [one for one in every if one.is_of_map()]
        self.shown, self.left = told[:MOST], max(0, len(told) - MOST)
        self.others = [one for one in every if not one.is_of_map()]
        self.layer, self.marks, self.keys = html_page.Layer(words=[]), [], []
        for one in self.shown:
            self.keys.append(self.put(one))

    def put(self, one: Found) -> tuple | None:
        """Puts a finding on the map: its polygons, or a mark at its place. What a click on its row shows."""
        if one.members:
            members = [[[(x * 1000, y * 1000) for x, y in ring] for ring in member] for member in one.members]
            self.layer.add(one.title(), members, " ".join(filter(None, (one.size() + ":", one.words))), one.state)
            return "findings", len(self.layer.names) - 1
        if one.place:
            self.marks.append((one.place[0] * 1000, one.place[1] * 1000, f"{one.title()}: {one.words}"))
            return "marks", len(self.marks) - 1
        return None

    def counts(self) -> str:
        """How many stop, of which kinds."""
        kinds = Counter(one.kind for one in self.stopping)
        return ", ".join(f"{count} {kind}" for kind, count in kinds.most_common())

    def tables(self) -> list[html_page.Table]:
        more = f" (the first {MOST} of {MOST + self.left}: findings.gpkg has all)" if self.left else ""
        kept = list(next((one.kept for one in self.all if one.kept), ()))
        tables = [self.table_by(name) for name in kept]
        if self.shown:
            columns, rows = [*COLUMNS, *kept, *LAST], [one.cells(kept) for one in self.shown]
            narrowing = [*STATE_AND_KIND, *range(len(COLUMNS), len(COLUMNS) + len(kept))]
            tables.append(
                html_page.Table(
                    f"Findings{more}", columns, rows, self.keys, is_mixed=True, is_lead=True, narrowing=narrowing
                )
            )
        return tables + ([self.table_of_others()] if self.others else [])

    def table_by(self, name: str) -> html_page.Table:
        """What there is to decide, and was accepted, by a column of the source: the most that stops first."""
        groups: dict[str, list[Found]] = {}
        for one in self.all:
            if one.state != TOLD and one.is_own():
                groups.setdefault(one.kept.get(name, ""), []).append(one)
        rows = []
        for value, some in groups.items():
            stopping = sum(one.state == STOPS for one in some)
            kinds = Counter(one.kind for one in some).most_common()
            area = f"{sum(one.area or 0.0 for one in some):.3f}"
            rows.append(
                [value, stopping, len(some) - stopping, ", ".join(f"{count} {kind}" for kind, count in kinds), area]
            )
        rows.sort(key=lambda row: (-row[1], -row[2], row[0]))
        columns = [name, "#stops", "#accepted", "kinds", "#area m\u00b2"]
        return html_page.Table(f"By {name}", columns, rows, is_mixed=True, is_lead=True)

    def pictures(self) -> list[tuple[int, str]]:
        """The worst findings, by their places on the map, each with its words."""
        worst = [
            (one, key[1])
            for one, key in zip(self.shown, self.keys)
            if one.state != TOLD and one.is_own() and key and key[0] == "findings"
        ]
        return [(number, f"{one.state}: {one.title()}, {one.size()}") for one, number in worst[:MOST_PICTURES]]

    def windows(self) -> list[tuple]:
        """The surroundings of these, in millimetres: least x and y, greatest x and y."""
        return [about(self.layer.shapes[number]) for number, _ in self.pictures()]

    def cells(self, box: tuple, count: int) -> tuple[int, list]:
        """How many findings lie in each square of a box, which has so many along its longer side: for a map that is
        too small to show each."""
        side = max(box[2] - box[0], box[3] - box[1]) // count + 1
        places = [(one.place[0] * 1000, one.place[1] * 1000) for one in self.all if one.place and one.state != TOLD]
        found = Counter(((int(x) - box[0]) // side, (box[3] - int(y)) // side) for x, y in places)
        return side, [(x, y, number) for (x, y), number in sorted(found.items())]

    def table_of_others(self) -> html_page.Table:
        """What was mended without asking and has no place, by kind."""
        groups: dict[tuple, list[Found]] = {}
        for one in self.others:
            groups.setdefault((one.kind, one.layer), []).append(one)
        rows = [
            [kind, layer, len(some), some[0].names, some[0].words, some[0].todo]
            for (kind, layer), some in sorted(groups.items())
        ]
        columns = ["kind", "layer", "#rows", "the first", "words", "done"]
        return html_page.Table("Reported, and mended without asking", columns, rows, is_mixed=True)

    def todo(self) -> list[str]:
        """What to do, for each kind that stops."""
        told = dict.fromkeys(
            f"  {remedies.title(one.kind, one.layer)}: {one.todo}" for one in self.stopping if one.todo
        )
        kinds = dict.fromkeys(
            one.kind for one in self.following() if one.kind not in {one.kind for one in self.stopping}
        )
        below = [
            f"  {kind}: it comes from another finding, and is settled with it"
            + (f"; or --accept {kind}" if kind in remedies.TAKEN else "")
            for kind in kinds
        ]
        return ["what to do", *told, *below] if told else []

    def following(self) -> list[Found]:
        """What comes of findings that stop, and goes with them."""
        return [one for one in self.all if one.state == STOPS and not one.is_own()]

    def last_line(self) -> str:
        count, more = len(self.stopping), len(self.following())
        below = (
            f", and {more} that {'comes' if more == 1 else 'come'} from {'it' if count == 1 else 'them'}"
            if more
            else ""
        )
        return f"no: {counted(count, 'finding')} {'stops' if count == 1 else 'stop'} ({self.counts()}){below}"

    def lines_below(self, cause: Found) -> Iterator[str]:
        """What comes of a finding, by name, in one line."""
        below = self.below.get(id(cause), [])
        more = f" and {len(below) - MOST_NAMED} more" if len(below) > MOST_NAMED else ""
        if below:
            yield f"  this also causes: {'; '.join(one.title() for one in below[:MOST_NAMED])}{more}"

    def lines(self, most: int) -> Iterator[str]:
        """What stops, in words: so many of each kind, the largest first."""
        seen: Counter = Counter()
        most = max(most, MOST_TOLD_IN_ALL) if len(self.stopping) <= MOST_TOLD_IN_ALL else most
        for one in self.stopping:
            seen[one.kind] += 1
            if seen[one.kind] <= most:
                size = f", {one.size()}" if one.size() else ""
                yield f"{one.title()}{one.rows_in_words()}{size}: {one.words}"
                yield from self.lines_below(one)
        yield from (f"  and {count - most} more of kind {kind}" for kind, count in seen.items() if count > most)
