"""Small edits of the tools' code that move, drop, swap or merge land, or hide that they do, where the tools themselves
end with status 0 and tell nothing of it: what audit/source.py has to see. Each is made in a copy of the tools, which is
then run over a small land that brings it out.
"""

from __future__ import annotations

import csv
import math
import struct
from dataclasses import dataclass
from pathlib import Path
from typing import Callable

from lpis_helpers import dirty
from lpis_helpers.mutants import box, turned

LAND, SHEETS, ZONED, LATER = "land", "sheets", "zoned", "later"  # the lands, below
PREPARE, COUNTRY = "prepare", "country"


@dataclass(frozen=True)
class Mutant:
    """A text of a file of python/src/lpis that stands there once, what it becomes, and why that matters; the land over
    which the tools are run, and which of them.
    """

    file: str
    old: str
    new: str
    why: str
    land: str = LAND
    tool: str = PREPARE


MOVED = {
    "corners are rounded down": Mutant(
        "rounding/snap_rounding.py",
        "return numpy.rint(points * (1000.0 * WHOLE)).astype(numpy.int64)",
        "return (numpy.floor(points * 1000.0) * WHOLE).astype(numpy.int64)",
        "a corner moves by up to 1.4 mm, and all borders with it, so nothing is open",
    ),
    "one corner is moved by three millimetres": Mutant(
        "rounding/snap_rounding.py",
        "    *ways, network = drawn(edges)\n",
        "    *ways, network = drawn(edges)\n    network.points[0, 0] += 3\n",
        "the report takes less than a millimetre along the whole border for rounding",
    ),
    "a corner where two edges meet is taken for needless": Mutant(
        "rounding/snap_rounding.py",
        "    is_kept[hot.numbers(ends.points)] = True\n",
        "",
        "a bend of five millimetres is cut off",
    ),
    "a zone's number is taken off with a millimetre": Mutant(
        "preparation/source_tests.py",
        "[(x - zone * ZONE, y) for x, y in ring]",
        "[(x - zone * ZONE - 0.001, y) for x, y in ring]",
        "all land lies beside its place",
        ZONED,
    ),
    "coordinates of texts are read in centimetres": Mutant(
        "source/wkt.py",
        '                list(map(float, ring.replace(")", " ").replace(",", " ").split()))\n',
        (
            '                list(map(lambda word: round(float(word), 2), ring.replace(")", " ").replace(",", "'
            ' ").split()))\n'
        ),
        "the report reads the source in the same way, and sees nothing",
        SHEETS,
    ),
    "an arc is straightened coarsely": Mutant(
        "formats/wkb.py",
        "ARC = 0.0005",
        "ARC = 0.05",
        "the finding says that it lies within half a millimetre",
    ),
    "a corner between two parts of a curve is dropped": Mutant(
        "formats/wkb.py",
        "way += part[1:] if way else part",
        "way += part[2:] if way else part",
        "the next part begins later",
    ),
    "a way of last year's is taken too far aside": Mutant(
        "preparation/last_year_conflation.py",
        "WHOLE, 3 * HALF",
        "WHOLE, 8 * HALF",
        "its corners may lie beside the source's border",
        LATER,
    ),
    "a way of last year's is held to the line between its ends alone": Mutant(
        "preparation/last_year_conflation.py",
        "if (aside(before, over << BITS) > ASIDE).any():",
        "if False:",
        "both ends may be a millimetre aside already",
        LATER,
    ),
}
DROPPED = {
    "the last row of a layer is not read": Mutant(
        "country/source_parts.py",
        'return list(land.rows_of(connection, origin, part["among"], part["first"]))',
        'return list(land.rows_of(connection, origin, part["among"], part["first"]))[:-1]',
        "nobody asks for a row that was never read",
    ),
    "the last record of a table is not read": Mutant(
        "source/spreadsheets.py",
        'for number, (line, fields) in unforeseen.each("", lines, self.path):',
        'for number, (line, fields) in list(unforeseen.each("", lines, self.path))[:-1]:',
        "the same of a table of text",
        SHEETS,
    ),
    "holes of shapes with heights are dropped": Mutant(
        "formats/wkb.py",
        'self.members.append([read() for _ in range(self.take("I", order)[0])])',
        'self.members.append([read() for _ in range(self.take("I", order)[0])][:1])',
        "the parcel and its piece both get the lake",
    ),
    "holes of texts are dropped": Mutant(
        "source/wkt.py",
        "            ]\n",
        "            ][:1]\n",
        "the same of a table of text",
        SHEETS,
    ),
    "of shapes with heights the first polygon alone is read": Mutant(
        "formats/wkb.py",
        "return Found(judge_rings(reader.members), frozenset",
        "return Found(judge_rings(reader.members)[:1], frozenset",
        "half of the parcel is gone, and of its piece",
    ),
    "a piece that is lost is not told": Mutant(
        "preparation/row_outcomes.py",
        "        whole = self.before(row, shape)\n        self.add(\n",
        "        whole = self.before(row, shape)\n        (lambda *_: None)(\n",
        "it was narrower than a millimetre; no row says so",
    ),
    "the last piece of a cell is not written": Mutant(
        "country/cell_rounding.py",
        (
            "            (kind, row[kind], made_map.text(members)) for row, members in made[name] if"
            ' row["parcel"] in cell.wanted\n'
        ),
        (
            "            (kind, row[kind], made_map.text(members))\n            for row, members in made[name][: -1"
            ' if kind == "piece" else None]\n            if row["parcel"] in cell.wanted\n'
        ),
        "the report compares what the cell has made, and not what it wrote",
        tool=COUNTRY,
    ),
    "a cell forgets the polygons that a piece has beside its first": Mutant(
        "country/cell_rounding.py",
        "made_map.text(members)) for row",
        "made_map.text(members[:1])) for row",
        "the same of a part of a row",
        tool=COUNTRY,
    ),
}
SWAPPED = {
    "the shapes of the first two rows are exchanged": Mutant(
        "country/source_parts.py",
        '        return list(land.rows_of(connection, origin, part["among"], part["first"]))\n',
        (
            '        rows = list(land.rows_of(connection, origin, part["among"], part["first"]))\n'
            "        rows[0].found, rows[1].found = rows[1].found, rows[0].found\n        return rows\n"
        ),
        "two parcels lie at each other's place, with their pieces",
    ),
    "two classes are exchanged while they are read": Mutant(
        "source/land.py",
        '    return value.decode("utf-8", "backslashreplace") if isinstance(value, bytes) else str(value)\n',
        (
            '    return (\n        value.decode("utf-8", "backslashreplace")\n        if isinstance(value, bytes)\n    '
            '    else {"GRASS": "TREES", "TREES": "GRASS"}.get(value, str(value))\n    )\n'
        ),
        "in the table of classes too, so that each has a percentage",
    ),
    "percentages are written to the classes by their size": Mutant(
        "preparation/preparation_run.py",
        '            coverage.write(self.made, "classes.csv", ["class", "percent"], sorted(classes.items()))\n',
        (
            '            coverage.write(\n                self.made, "classes.csv", ["class", "percent"],'
            " zip(sorted(classes), sorted(classes.values()))\n            )\n"
        ),
        "behind the report nobody looks at them again",
    ),
    "old and new names are exchanged in identifiers.csv": Mutant(
        "preparation/identifier_passes.py",
        "            [kind, guarded_csv.text(old), guarded_csv.text(new)]\n",
        "            [kind, guarded_csv.text(new), guarded_csv.text(old)]\n",
        "who was renamed is not to be found",
    ),
    "a row gets the shape of the one before it in its cell": Mutant(
        "country/cell_results.py",
        "texts[kind].append((name, cell, at))",
        "texts[kind].append((name, cell, texts[kind][-1][2] if len(texts[kind]) == 1 else at))",
        "the second one is where the first one is too",
        tool=COUNTRY,
    ),
}
MERGED = {
    "all pieces of a country get one class": Mutant(
        "country/cell_results.py",
        (
            "                [piece, parcel, land_class, self.text_of(cell, at)] if is_cover else [parcel,"
            " self.text_of(cell, at)]\n"
        ),
        (
            '                [piece, parcel, "GRASS", self.text_of(cell, at)] if is_cover else [parcel,'
            " self.text_of(cell, at)]\n"
        ),
        "the classes are read from the store once more, behind the report",
        tool=COUNTRY,
    ),
    "a pond gets the class of the meadow around it": Mutant(
        "preparation/source_run.py",
        "        work.at(tested_source.CLASSES)\n",
        (
            '        work.at(tested_source.CLASSES)\n        self.base.execute(\n            "UPDATE row SET class ='
            " 'GRASS' WHERE id = (SELECT id FROM row WHERE is_cover ORDER BY id LIMIT 1 OFFSET 3)\"\n        )\n"
        ),
        "it was changed before the report compares classes",
    ),
    "all pieces of a country are of one parcel": Mutant(
        "country/cell_results.py",
        (
            "                [piece, parcel, land_class, self.text_of(cell, at)] if is_cover else [parcel,"
            " self.text_of(cell, at)]\n"
        ),
        (
            '                [piece, "pond", land_class, self.text_of(cell, at)] if is_cover else [parcel,'
            " self.text_of(cell, at)]\n"
        ),
        "the names of parcels too are read once more",
        tool=COUNTRY,
    ),
}
UNTOLD = {
    "conflicts narrower than a centimetre are no rows": Mutant(
        "preparation/conflicts.py", "LEAST = 0.001", "LEAST = 0.01", "a sliver goes to one of two in silence"
    ),
    "of a conflict the first place alone is told": Mutant(
        "preparation/conflicts.py",
        "    for part in parts_of(shape) if is_as_wide(shape, LEAST - ROUNDING) else ():",
        "    for part in parts_of(shape)[:1] if is_as_wide(shape, LEAST - ROUNDING) else ():",
        "two pieces share two slivers",
    ),
    "gaps are settled without a row": Mutant(
        "preparation/conflicts.py",
        "        find_gap(source, row)\n",
        "        pass\n",
        "the parcel loses what no piece of it has",
    ),
    "what lies outside of a parcel is settled without a row": Mutant(
        "preparation/conflicts.py",
        "        find_outside(source, piece, row)\n",
        "        pass\n",
        "the parcel grows by it",
    ),
    "the rows of findings.gpkg lack their polygons": Mutant(
        "preparation/loss_report.py",
        "package.add(loss.kind, loss.polygons(), (*loss.",
        "package.add(loss.kind, None, (*loss.",
        "a row says that something was settled, and not where",
    ),
    "findings.gpkg lacks the last rows of the report": Mutant(
        "preparation/loss_report.py",
        "        for loss in losses:\n            more = next(told)",
        "        for loss in [loss for loss in losses if loss.stops()]:\n            more = next(told)",
        "slivers that stop nobody are settled too",
    ),
    "the polygon of a conflict is that of its widest circle alone": Mutant(
        "country/cell_results.py",
        "        return (wkb.several(self.blob) if self.blob else None) or super().polygons()\n",
        (
            '        if self.kind == "overlap":\n            return'
            " wkb.written(conflicts.members_of(self.shape.centroid.buffer(0.001)))\n        return super().polygons()\n"
        ),
        "a row has to show all that it settles",
    ),
    "a parcel that was made of its pieces has a row without a polygon": Mutant(
        "preparation/row_outcomes.py",
        "                after,\n",
        "                None,\n",
        "the tables have land that the source has not",
    ),
    "a cell does not tell its narrow conflicts": Mutant(
        "country/cell_rounding.py",
        "    for number, loss in enumerate(source.losses):\n",
        "    for number, loss in enumerate([loss for loss in source.losses if loss.stops()]):\n",
        "the same of a country",
        tool=COUNTRY,
    ),
    "an overlap is that of neither cell": Mutant(
        "country/cell_rounding.py",
        'if min(pair, key=lambda row: row["piece"])["parcel"] in wanted]',
        'if all(row["parcel"] in wanted for row in pair)]',
        "between two parcels of other cells a sliver goes in silence",
        tool=COUNTRY,
    ),
}
GROUPS = (MOVED, DROPPED, SWAPPED, MERGED, UNTOLD)
MUTANTS = {name: mutant for group in GROUPS for name, mutant in group.items()}


# The lands.

OFF = (0.0003, 0.0007)  # metres: no corner is a whole number of millimetres
PERCENTS = (("GRASS", 100), ("TREES", 30), ("WATER", 0))
LAKE = box(10, 10, 20, 20)[::-1]


def placed(ring: list) -> list:
    """A ring of the land as the source has it."""
    return [turned(x + OFF[0], y + OFF[1]) for x, y in ring]


def shape(*rings: list, **more: float) -> bytes:
    return dirty.polygon(*map(placed, rings), **more)


def circle(x: float, y: float, radius: float) -> bytes:
    """A polygon of four arcs."""
    angles = [math.tau * at / 8 for at in range(9)]
    ring = placed([(x + radius * math.cos(angle), y + radius * math.sin(angle)) for angle in angles])
    return dirty.arc(*ring[:-1], ring[0])


def curve(*parts: list) -> bytes:
    """A polygon whose ring is a curve of lines."""
    body = b"".join(dirty.line(*placed(part)) for part in parts)
    return struct.pack("<BII", 1, 10, 1) + struct.pack("<BII", 1, 9, len(parts)) + body


def members(*rings: list) -> bytes:
    """Polygons with heights."""
    return struct.pack("<BII", 1, 1006, len(rings)) + b"".join(shape(ring, z=312.5) for ring in rings)


def land(path: Path) -> Path:
    """A GeoPackage with what each mutant needs: rows of parcels of 30 m, a kind of land in each."""
    parcels, covers = [], []

    def add(name: str, whole: bytes | None, *pieces: tuple[str, bytes]) -> None:
        parcels.append((name, whole))
        covers.extend((f"{name}.{number}", name, kind, found) for number, (kind, found) in enumerate(pieces, 1))

    for name, at in (("first", 0), ("second", 40)):
        add(name, shape(box(at, -40, at + 30, -10)), ("GRASS", shape(box(at, -40, at + 30, -10))))
    add("pond", shape(box(0, 0, 40, 30)), ("GRASS", shape(box(0, 0, 40, 30), LAKE)), ("WATER", shape(LAKE[::-1])))
    add("two", shape(box(40, 0, 80, 30)), ("TREES", shape(box(40, 0, 60, 30))), ("GRASS", shape(box(60, 0, 80, 30))))
    teeth = [(0, 30), (20.003, 30), (20.003, 40), (20, 40), (20, 50), (20.003, 50), (20.003, 60), (0, 60), (0, 30)]
    add("overlap", shape(box(0, 30, 40, 60)), ("GRASS", shape(teeth)), ("TREES", shape(box(20, 30, 40, 60))))
    halves = ("GRASS", shape(box(40, 30, 59.998, 60))), ("TREES", shape(box(60, 30, 80, 60)))
    add("gap", shape(box(40, 30, 80, 60)), *halves)
    add("outside", shape(box(80, 0, 110, 30)), ("GRASS", shape(box(80, 0, 110.003, 30))))
    add("left", shape(box(80, 30, 110.002, 60)), ("GRASS", shape(box(80, 30, 110.002, 60))))
    add("right", shape(box(110, 30, 140, 60)), ("GRASS", shape(box(110, 30, 140, 60))))
    bend = [(120, 0), (135, -0.005), (150, 0), (150, 25), (120, 25), (120, 0)]
    add("bend", shape(bend), ("GRASS", shape(bend)))
    add("arc", circle(170, 15, 12), ("GRASS", circle(170, 15, 12)))
    ways = [(190, 0), (220, 0), (220, 15)], [(220, 15), (225, 20), (220, 30)], [(220, 30), (190, 30), (190, 0)]
    add("curve", curve(*ways), ("GRASS", curve(*ways)))
    lake = [(x + 230, y) for x, y in LAKE]
    add("lake", shape(box(230, 0, 260, 30), lake, z=1.0), ("GRASS", shape(box(230, 0, 260, 30), lake, z=1.0)))
    islands = members(box(270, 0, 280, 30), box(290, 0, 300, 30))
    add("islands", islands, ("GRASS", islands))
    strip = ("TREES", shape(box(339.9996, 0, 340, 30)))
    add("thin", shape(box(310, 0, 340, 30)), ("GRASS", shape(box(310, 0, 339.9996, 30))), strip)
    add("made", None, ("GRASS", shape(box(350, 0, 380, 30))))
    add("M\u00fchle 7", shape(box(390, 0, 420, 30)), ("GRASS", shape(box(390, 0, 420, 30))))
    add("last", shape(box(430, 0, 460, 30)), ("GRASS", shape(box(430, 0, 460, 30))))
    dirty.put(path, parcels, covers, PERCENTS)
    return path


def sheets(path: Path) -> Path:
    """A folder of tables of text: a parcel with a lake that nobody has, and two more."""
    shapes = {"A": [box(0, 0, 30, 30), LAKE], "B": [box(30, 0, 60, 30)], "C": [box(60, 0, 90, 30)]}
    texts = {
        name: f"POLYGON({','.join('(' + ','.join(f'{x!r} {y!r}' for x, y in placed(ring)) + ')' for ring in rings)})"
        for name, rings in shapes.items()
    }
    path.mkdir()
    rows = {
        "parcels": [["parcel", "wkt"], *([name, text] for name, text in texts.items())],
        "covers": [["piece", "parcel", "class", "wkt"], *([name * 2, name, "GRASS", texts[name]] for name in texts)],
        "classes": [["class", "percent"], ["GRASS", "100"], ["TREES", "30"]],
    }
    for name, records in rows.items():
        with open(path / f"{name}.csv", "w", newline="", encoding="utf-8") as file:
            csv.writer(file).writerows(records)
    return path


def zoned(path: Path) -> Path:
    """A GeoPackage whose eastings have the number of their zone before them."""

    def moved(ring: list) -> bytes:
        return dirty.polygon([(32_000_000.0005 + x, y) for x, y in placed(ring)])

    rings = {"A": box(0, 0, 40, 30), "B": box(40, 0, 80, 30)}
    parcels = [(name, moved(ring)) for name, ring in rings.items()]
    covers = [(f"{name}.1", name, "GRASS", moved(ring)) for name, ring in rings.items()]
    return Path(dirty.put(path, parcels, covers, PERCENTS, system=4647))


def blocks() -> tuple[dict, dict]:
    """Two pairs of parcels with a straight border between them, in whole millimetres and a part of one; and last year's
    tables of them, which have a corner amid each border. That of the first lies 3 mm aside; that of the second 1.4 mm
    aside of the line between its ends, which lie 0.9 mm aside on the same side.
    """
    now, then, along, aside = {}, {}, (-18_000, 24_000), (24_000, 18_000)
    for number, (x, y) in enumerate(((550_000_000, 5_400_000_000), (550_100_000, 5_400_000_000))):
        ends = [(x, y), (x + along[0], y + along[1])]
        left, right = ([(a + sign * aside[0], b + sign * aside[1]) for a, b in ends] for sign in (-1, 1))
        middle = (x + along[0] // 2 + (2, 2)[number], y + along[1] // 2 + (2, 2)[number])
        middle = (middle[0], middle[1]) if number else (middle[0] + 1, middle[1])
        before = [(a + number, b + number) for a, b in ends]
        for name, side in ((f"L{number}", left), (f"R{number}", right)):
            now[name] = [(a + 0.4, b + 0.3) for a, b in (*ends, side[1], side[0], ends[0])]
            then[name] = [before[0], middle, before[1], side[1], side[0], before[0]]
    return now, then


def later(path: Path) -> Path:
    """A GeoPackage, and beside it the folder of last year's tables."""
    now, then = blocks()
    found = {name: dirty.polygon([(x / 1000, y / 1000) for x, y in ring]) for name, ring in now.items()}
    covers = [(f"{name}.1", name, "GRASS", blob) for name, blob in found.items()]
    dirty.put(path, list(found.items()), covers, PERCENTS)
    folder = path.parent / "last"
    folder.mkdir()
    for name, header in (("parcels", ["parcel", "wkt"]), ("covers", ["piece", "parcel", "class", "wkt"])):
        with open(folder / f"{name}.csv", "w", newline="", encoding="ascii") as file:
            table = csv.writer(file, lineterminator="\n")
            table.writerow(header)
            for parcel, ring in then.items():
                text = ",".join(f"{x // 1000}.{x % 1000:03} {y // 1000}.{y % 1000:03}" for x, y in ring)
                fields = [parcel] if name == "parcels" else [f"{parcel}.1", parcel, "GRASS"]
                table.writerow([*fields, f"POLYGON(({text}))"])
    return path


LANDS: dict[str, Callable[[Path], Path]] = {LAND: land, SHEETS: sheets, ZONED: zoned, LATER: later}
