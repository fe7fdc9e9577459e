"""Judges a run of `tools/prepare` over a generated land, by whole numbers and fractions of its own: nothing of tools/
is used.

- the areas of the source and of the tables are those of balance.csv, whose columns add up
- a row of the source is in the tables with its area, or a row of prepared.csv or report.csv has it; what was left out
has its own area
- a point inside of a row of the source is in its row of the tables, or a row of a report has it; and the other way
round
- what another run over the same source wrote is the same"""

import csv
import math
import random
import re
from collections import defaultdict

from lpis_helpers.calls import records
from lpis_helpers.lands_land import KEYS

csv.field_size_limit(1 << 30)
RING = re.compile(r"([(,])\s*\(([^()]*)\)")
EDGE = 0.001  # metres that rounding may move a border by
NEAR = 0.5  # square metres: what a balance that adds up may miss
DEEP = 0.006  # metres from all borders of its shape: a point that rounding takes from nobody
SAMPLES = 150
GONE = ("lost", "left out")  # kinds of report.csv
# kinds that name who shares land, which is no word for a row that is changed or gone
CONFLICTS = {"overlap", "gap", "outside"}
MOST = 1e16  # square metres: of coordinates beyond the range, whose row is left out by name


def rings_of(text):
    """The rings of a table's text in whole millimetres, and whether each is a hole."""
    rings = []
    for before, ring in RING.findall(text):
        points = [tuple(millimetres(word) for word in point.split()) for point in ring.split(",")]
        rings.append((points, before != "("))
    return rings


def millimetres(word):
    whole, _, rest = word.partition(".")
    if len(rest) > 3:
        raise ValueError(f"{word} is finer than a millimetre")
    return int(whole + rest.ljust(3, "0"))


def area2(rings):
    """The doubled area, in whole square millimetres."""
    return sum(
        (-1 if is_hole else 1) * abs(sum(a[0] * b[1] - b[0] * a[1] for a, b in zip(ring, ring[1:])))
        for ring, is_hole in rings
    )


class Written:
    """A row of a table that was written."""

    def __init__(self, record, layer):
        self.layer, self.name, self.land_class = layer, record[KEYS[layer][0]], record.get("class", "")
        self.rings = [(points, is_hole) for points, is_hole in rings_of(record["wkt"])]
        self.area2 = area2(self.rings)
        self.ways = [[(x / 1000, y / 1000) for x, y in ring] for ring, _ in self.rings]
        self.box = box_of(self.ways)


class Judge:
    """The judgement of one land and the folder that a run with --accept left."""

    def __init__(self, land, out):
        self.land, self.out, self.wrong = land, out, []
        self.new_names = defaultdict(dict)
        for record in records(out, "identifiers.csv"):
            self.new_names[record["kind"]][plain(record["old"])] = record["new"]
        self.tables = {layer: [Written(record, layer) for record in records(out, f"{layer}.csv")] for layer in KEYS}
        self.told, self.told_names, self.gone_names, self.made_names = defaultdict(set), set(), set(), set()
        self.read_reports()

    def say(self, kind, words):
        self.wrong.append((kind, words))

    def name_of(self, kind, old):
        """What a name of the source is called in the tables."""
        old = old or ""
        names = self.new_names[kind]
        return names.get(old) or names.get(old.strip()) or old.strip()

    def read_reports(self):
        for record in records(self.out, "prepared.csv"):
            self.told[record["layer"], record["row"]].add(record["kind"])
            if record["kind"] in ("doubled", "nameless"):
                self.made_names |= set(record["done"].replace(",", " ").split())
            if record["kind"] == "doubled" and record["done"].endswith("joined"):
                self.gone_names.add(record["identifier"])  # the other of the two is named by its words
        for record in records(self.out, "report.csv"):
            for layer in KEYS:
                if layer == record["layer"] or record["kind"] in CONFLICTS:
                    for number in record["row"].split():
                        self.told[layer, number].add(record["kind"])
            if record["kind"] != "column":
                (self.told_names if record["kind"] in CONFLICTS else self.gone_names).update(
                    record["identifiers"].split()
                )
        self.told_names |= self.gone_names

    def judge(self):
        self.balance()
        self.rows()
        self.left_out()
        self.points()
        return self.wrong

    # The balance.

    def balance(self):
        found = {(record["layer"], plain(record["class"])): record for record in records(self.out, "balance.csv")}
        source, slack, after = self.source_areas(), self.slack(), defaultdict(float)
        for layer, rows in self.tables.items():
            sums = defaultdict(int)
            for row in rows:
                sums[row.land_class if layer == "covers" else ""] += row.area2
            for land_class, doubled in sums.items():
                after[layer, land_class] += doubled / 2_000_000
        for areas in (source, after):
            areas["covers", ""] = math.fsum(value for (layer, _), value in areas.items() if layer == "covers")
        for group in sorted({*source, *after, *found} - {("between", "")}):
            self.line(group, found.get(group), source[group], after[group], slack)
        gaps = found.get(("between", ""))
        if gaps and (
            gaps["source_m2"] != gaps["tables_m2"]
            or any(float(gaps[f"{name}_m2"]) for name in ("mended", "left_out", "settled", "unaccounted"))
        ):
            self.say("balance", f"land between parcels is none of the tables: {gaps}")
        if ("parcels", "") not in found:
            self.say("balance", "there is no balance of parcels")

    def line(self, group, record, before, after, slack):
        """One line of the balance against the judge's areas in square metres."""
        if record is None:
            if before or after:
                self.say("balance", f"no line of {group}, which has {before:.3f} and {after:.3f} m2")
            return
        columns = {name: float(record[f"{name}_m2"]) for name in ("source", "mended", "left_out", "settled", "tables")}
        if abs(columns["source"] - before) > slack:
            self.say("balance", f"source of {group}: {columns['source']:.3f}, and the judge has {before:.3f} m2")
        if abs(columns["tables"] - after) > 0.01 + 1e-12 * abs(after):
            self.say("balance", f"tables of {group}: {columns['tables']:.3f}, and the judge has {after:.3f} m2")
        parts = math.fsum(columns[name] for name in ("source", "mended", "left_out", "settled"))
        if abs(parts - columns["tables"]) > NEAR:
            self.say(
                "uneven", f"the columns of {group} make {parts:.3f}, and the tables have {columns['tables']:.3f} m2"
            )

    def source_areas(self):
        areas = defaultdict(float)
        for row in self.land.rows():
            area = row.shape.area()[0]
            group = self.name_of("class", row.fields["class"]) or "(no class)" if row.layer == "covers" else ""
            areas[row.layer, group] += area if abs(area) < MOST else 0.0
        return areas

    def slack(self):
        """How far sums of doubles, and straightened arcs, may be off."""
        slack = 0.01
        for row in self.land.rows():
            area, curved = row.shape.area()
            width = max(extent(row.shape), 1.0)
            slack += curved + (1e-15 * len(row.shape.points()) * width * width if abs(area) < MOST else 0.0)
        return slack

    # Rows.

    def rows(self):
        written = {layer: {row.name: row for row in rows} for layer, rows in self.tables.items()}
        for layer, rows in self.tables.items():
            if len(written[layer]) != len(rows):
                self.say("rows", f"{layer}: an identifier stands twice")
        known = defaultdict(set)
        for row in self.land.rows():
            name = self.name_of(KEYS[row.layer][0], row.name())
            known[row.layer].add(name)
            self.row(row, name, written[row.layer].get(name))
        for layer, rows in written.items():
            for name in set(rows) - known[layer]:
                if name not in self.told_names | self.made_names:
                    self.say("rows", f"{layer}: the tables have {name}, and the source has not")

    def row(self, row, name, found):
        kinds = self.told[row.layer, str(row.number)] - CONFLICTS
        if kinds - {"identifier", "curve", "z", "m"} or (not kinds and name in self.gone_names and found is None):
            return
        area, slack = row.shape.area()
        if found is None:
            self.say("silent", f"{row.layer} {row.number} {name!r} of {area:.6f} m2 is in no table, and no row has it")
        elif (
            abs(found.area2 / 2_000_000 - area) > EDGE * row.shape.length() + slack + 0.001
            and name not in self.gone_names
        ):
            self.say(
                "silent",
                (
                    f"{row.layer} {row.number} {name!r}: {area:.6f} m2 became {found.area2 / 2_000_000:.6f}, and no row"
                    " has it"
                ),
            )

    def left_out(self):
        """What is told as left out adds up to its column of the balance, and each of its rows has its own area."""
        shapes, sums = {(row.layer, str(row.number)): row.shape for row in self.land.rows()}, defaultdict(float)
        gone = [
            record
            for record in records(self.out, "report.csv")
            if record["kind"] in GONE and (record["layer"], record["row"]) in shapes
        ]
        for record in gone:
            told, (area, slack) = float(record["area_m2"] or 0), shapes[record["layer"], record["row"]].area()
            sums[record["layer"]] += told
            if 0.001 < area < MOST and (abs(told - area) > 0.01 + slack or not record["x"]):
                self.say(
                    "left out",
                    (
                        f"{record['layer']} {record['row']}: told with {told} m2 at {record['x']} {record['y']}, and it"
                        f" has {area:.3f}"
                    ),
                )
        for record in records(self.out, "balance.csv"):
            layer = record["layer"]
            if (
                not record["class"]
                and layer in KEYS
                and abs(float(record["left_out_m2"]) + sums[layer]) > NEAR + 0.001 * len(gone)
            ):
                self.say(
                    "left out", f"{layer}: the balance has {record['left_out_m2']}, and the rows {-sums[layer]:.3f} m2"
                )

    # Points.

    def points(self):
        """Points deep in shapes of the source against the tables, and the other way round."""
        draw = random.Random(self.land.seed)
        rows = [row for row in self.land.rows() if row.shape.is_read() and row.shape.form in ("polygon", "multi")]
        for row in draw.sample(rows, min(SAMPLES, len(rows))):
            point = deep_point([ring for ring, _ in row.shape.rings()], draw)
            if point:
                self.point(row, point)
        self.points_of_tables(draw)

    def point(self, row, point):
        name = self.name_of(KEYS[row.layer][0], row.name())
        holders = [other.name for other in self.tables[row.layer] if contains(other.ways, other.box, point)]
        if len(holders) > 1:
            self.say("twice", f"{row.layer} {' and '.join(holders)} have {point} both")
        if (
            holders != [name]
            and not self.told[row.layer, str(row.number)] - {"curve", "z", "m", "identifier"}
            and name not in self.told_names
        ):
            self.say(
                "silent",
                (
                    f"{row.layer} {row.number} {name!r} has {point}, in the tables {' and '.join(holders) or 'nobody'},"
                    " and no row has it"
                ),
            )

    def points_of_tables(self, draw):
        """A point of a row of the tables is in a row of the source of that name, or the row is told of."""
        sources = defaultdict(list)
        for row in self.land.rows():
            sources[row.layer, self.name_of(KEYS[row.layer][0], row.name())].append(row)
        for layer, rows in self.tables.items():
            for row in draw.sample(rows, min(SAMPLES, len(rows))):
                point, origins = deep_point(row.ways, draw), sources[layer, row.name]
                if (
                    not point
                    or row.name in self.told_names | self.made_names
                    or any(self.told[layer, str(origin.number)] - {"z", "m", "identifier"} for origin in origins)
                ):
                    continue
                ways = [
                    [ring for ring, _ in origin.shape.rings()]
                    for origin in origins
                    if origin.shape.form in ("polygon", "multi")
                ]
                if len(ways) == len(origins) and not any(contains(way, box_of(way), point) for way in ways):
                    self.say(
                        "won",
                        f"{layer} {row.name!r} has {point} in the tables and not in the source, and no row has it",
                    )


def plain(name):
    """A name of a table for people without the mark that keeps a spreadsheet from taking it for a formula."""
    return name[1:] if name[:1] == "'" and name[1:2] in ("=", "+", "-", "@", "\t", "\r") else name


def extent(shape):
    xs, ys = [x for x, _ in shape.points() if math.isfinite(x)], [y for _, y in shape.points() if math.isfinite(y)]
    return max(max(xs) - min(xs), max(ys) - min(ys)) if xs and ys else 0.0


def box_of(ways):
    xs, ys = [x for way in ways for x, _ in way], [y for way in ways for _, y in way]
    return (min(xs), min(ys), max(xs), max(ys)) if xs else (0, 0, 0, 0)


def contains(ways, box, point):
    """Whether a point is in an odd number of rings."""
    x, y = point
    if not (box[0] <= x <= box[2] and box[1] <= y <= box[3]):
        return False
    is_in = False
    for way in ways:
        for (ax, ay), (bx, by) in zip(way, way[1:]):
            if (ay > y) != (by > y) and x < ax + (y - ay) / (by - ay) * (bx - ax):
                is_in = not is_in
    return is_in


def deep_point(ways, draw):
    """A point in a shape that is far from all its borders, or None where none was drawn."""
    box = box_of(ways)
    if sum(map(len, ways)) > 3000 or not all(map(math.isfinite, box)) or max(box[2] - box[0], box[3] - box[1]) > 1e6:
        return None
    for _ in range(6):
        point = draw.uniform(box[0], box[2]), draw.uniform(box[1], box[3])
        if contains(ways, box, point) and all(away(point, a, b) > DEEP for way in ways for a, b in zip(way, way[1:])):
            return point
    return None


def away(p, a, b):
    """How far a point is from an edge."""
    dx, dy = b[0] - a[0], b[1] - a[1]
    length2 = dx * dx + dy * dy
    share = 0.0 if length2 == 0 else min(1.0, max(0.0, ((p[0] - a[0]) * dx + (p[1] - a[1]) * dy) / length2))
    return math.dist(p, (a[0] + share * dx, a[1] + share * dy))
