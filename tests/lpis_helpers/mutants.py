"""A small land with its tables, and a list of ways in which tools might move, drop, swap or merge land of it: what the
second checker of sources has to see.

Each mutant changes the folder of tables, or of findings, and says where its point has to lie: a box of the plane of
the land (x, y, x, y in metres, before it is turned).
"""

import csv
import re
import shutil
import sqlite3
from dataclasses import dataclass
from pathlib import Path
from typing import Callable, Optional

from lpis_helpers import dirty

Box = tuple[float, float, float, float]
TURN = (0.8, 0.6)  # cosine and sine: no border lies along an axis
PLACE = (dirty.EAST, dirty.NORTH)


def turned(x: float, y: float) -> tuple[float, float]:
    """A point of the land as the source has it."""
    return PLACE[0] + TURN[0] * x - TURN[1] * y, PLACE[1] + TURN[1] * x + TURN[0] * y


def turned_back(x: float, y: float) -> tuple[float, float]:
    """A point of the source in the plane of the land."""
    x, y = x - PLACE[0], y - PLACE[1]
    return TURN[0] * x + TURN[1] * y, TURN[0] * y - TURN[1] * x


def box(left: float, low: float, right: float, high: float) -> list[tuple[float, float]]:
    """The ring of a rectangle of the land."""
    return [(left, low), (right, low), (right, high), (left, high), (left, low)]


POND = box(10, 10, 20, 20)
PIECES = {  # parcel, class, and members of rings, before they are turned
    "A1": ("A", "GRASS", [[box(0, 0, 40, 30), POND[::-1]]]),
    "A2": ("A", "WATER", [[POND]]),
    "B1": ("B", "TREES", [[box(40, 0, 60, 30)]]),
    "B2": ("B", "GRASS", [[box(60, 0, 80, 30)]]),
    "C1": ("C", "GRASS", [[box(0, 30, 17, 60)], [box(60, 30, 80, 60)]]),
    "D1": ("D", "GRASS", [[box(17, 30, 40.5, 60)]]),
    "D2": ("D", "TREES", [[box(40, 30, 60, 60)]]),
    "E1": ("E", "GRASS", [[box(80, 0, 99.7, 45)]]),
    "E2": ("E", "GRASS", [[box(100, 0, 120, 45)]]),
    "field 7": ("M\u00fchle", "GRASS", [[box(80, 45, 120, 60)]]),
    "H1": ("H", "GRASS", [[[(120, 0), (150, 0), (150, 60), (120, 60), (120, 45.123), (120, 0)]]]),
}
PARCELS = {
    "A": [[box(0, 0, 40, 30)]],
    "B": [[box(40, 0, 80, 30)]],
    "C": PIECES["C1"][2],
    "D": [[box(17, 30, 60, 60)]],
    "E": [[box(80, 0, 120, 45)]],
    "M\u00fchle": PIECES["field 7"][2],
    "H": [[box(120, 0, 150, 60)]],
}
NEW_NAMES = {("parcel", "M\u00fchle"): "Muehle-1", ("piece", "field 7"): "field-7"}
SETTLED = {  # pieces as the tables have them: D1 gets what D2 has too
    "D2": [[box(40.5, 30, 60, 60)]],
    "E": [[box(80, 0, 99.7, 45)], [box(100, 0, 120, 45)]],
}
TOLD = {"overlap": ("5 6", "D1 D2", box(40, 30, 40.5, 60)), "gap": ("5", "E", box(99.7, 0, 100, 45))}
PERCENTS = {"GRASS": 100, "TREES": 30, "WATER": 0}
WHOLE, ANYWHERE = (-1.0, -1.0, 151.0, 61.0), (-1e8, -1e8, 1e8, 1e8)


def source_of(path: Path, changed: Optional[dict] = None) -> Path:
    """The land as a GeoPackage; of pieces that are changed the members."""

    def bytes_of(members: list) -> bytes:
        polygons = [dirty.polygon(*[[turned(*point) for point in ring] for ring in member]) for member in members]
        if len(polygons) == 1:
            return polygons[0]
        return b"\1\6\0\0\0" + len(polygons).to_bytes(4, "little") + b"".join(polygons)

    found = {name: members for name, (_, _, members) in PIECES.items()} | (changed or {})
    parcels = [(name, bytes_of(members)) for name, members in PARCELS.items()]
    covers = [(name, parcel, kind, bytes_of(found[name])) for name, (parcel, kind, _) in PIECES.items()]
    dirty.put(path, parcels, covers, list(PERCENTS.items()))
    return path


class Tables:
    """The folder that a run made of the land, which a mutant changes."""

    def __init__(self, folder: Path) -> None:
        self.folder = folder

    def write(self) -> "Tables":
        """The tables without a fault, and the findings of what was settled."""
        self.folder.mkdir(parents=True, exist_ok=True)
        new = {old: name for (_, old), name in NEW_NAMES.items()}
        parcels = [[new.get(name, name), wkt(SETTLED.get(name, members))] for name, members in PARCELS.items()]
        self.put("parcels", [["parcel", "wkt"], *parcels])
        covers = [
            [new.get(name, name), new.get(parcel, parcel), kind, wkt(SETTLED.get(name, members))]
            for name, (parcel, kind, members) in PIECES.items()
        ]
        self.put("covers", [["piece", "parcel", "class", "wkt"], *covers])
        self.put("classes", [["class", "percent"], *([name, str(value)] for name, value in PERCENTS.items())])
        names = [[kind, old, name] for (kind, old), name in NEW_NAMES.items()]
        self.put("identifiers", [["kind", "old", "new"], *names])
        write_findings(self.folder / "findings.gpkg")
        return self

    def read(self, table: str) -> list[list[str]]:
        with open(self.folder / f"{table}.csv", newline="", encoding="utf-8") as file:
            return list(csv.reader(file))

    def put(self, table: str, rows: list[list[str]]) -> None:
        with open(self.folder / f"{table}.csv", "w", newline="", encoding="utf-8") as file:
            csv.writer(file, lineterminator="\n").writerows(rows)

    def change(self, table: str, name: str, column: int, value: str) -> str:
        """Writes a field of a row, and answers what it was."""
        rows = self.read(table)
        row = next(row for row in rows if row[0] == name)
        before, row[column] = row[column], value
        self.put(table, rows)
        return before

    def swap(self, table: str, one: str, two: str, column: int) -> None:
        """Exchanges a field of two rows."""
        before = self.change(table, one, column, "")
        self.change(table, one, column, self.change(table, two, column, before))

    def drop(self, table: str, name: str) -> None:
        self.put(table, [row for row in self.read(table) if row[0] != name])

    def shape(self, table: str, name: str, members: list) -> None:
        self.change(table, name, -1, wkt(members))

    def findings(self, statement: str) -> None:
        with sqlite3.connect(self.folder / "findings.gpkg") as base:
            base.execute(statement)

    def move_all(self, metres: float) -> None:
        """Moves all shapes eastwards."""
        for table in ("parcels", "covers"):
            header, *rows = self.read(table)
            moved = [[*row[:-1], re.sub(r"(?<=[(,])[0-9.]+", east(metres), row[-1])] for row in rows]
            self.put(table, [header, *moved])


def east(metres: float) -> Callable[[re.Match], str]:
    return lambda found: f"{float(found[0]) + metres:.3f}"


def wkt(members: list) -> str:
    """The text of members, turned and rounded to millimetres."""
    rings = [
        ["(" + ",".join("{:.3f} {:.3f}".format(*turned(*point)) for point in ring) + ")" for ring in member]
        for member in members
    ]
    bodies = [f"({','.join(member)})" for member in rings]
    return f"POLYGON{bodies[0]}" if len(bodies) == 1 else f"MULTIPOLYGON({','.join(bodies)})"


def country_of(tables: Tables, folder: Path) -> dict[str, Tables]:
    """A country of these tables in two regions, both of which have the parcels B and C."""
    regions = {name: Tables(folder / name) for name in ("west", "east")}
    for name, parcels in (("west", "ABCD"), ("east", ("B", "C", "E", "H", "Muehle-1"))):
        regions[name].folder.mkdir(parents=True)
        for table, column in (("parcels", 0), ("covers", 1), ("classes", None)):
            header, *rows = tables.read(table)
            regions[name].put(table, [header, *(row for row in rows if column is None or row[column] in parcels)])
    (folder / "country.txt").write_text("lpis-country 1\nx 550050000\nregion west\nregion east\n", encoding="ascii")
    for name in ("classes.csv", "identifiers.csv", "findings.gpkg"):
        shutil.copy(tables.folder / name, folder / name)
    return regions


def write_findings(path: Path, told: Optional[dict] = None) -> None:
    """The findings, a layer for each kind."""
    package = dirty.Package(path)
    columns = ["kind", "layer", "row", "identifiers"]
    for kind, (rows, names, ring) in (TOLD if told is None else told).items():
        shape = dirty.polygon([turned(*point) for point in ring])
        package.layer(kind, columns, [(kind, "covers" if kind == "overlap" else "parcels", rows, names, shape)])
    package.close()


def corner(tables: Tables) -> None:
    """The corner between A1, B1 and their neighbours."""
    tables.shape("covers", "B1", [[[(40, 0), (60.002, 0), (60, 30), (40, 30), (40, 0)]]])


def merge(tables: Tables) -> None:
    tables.shape("covers", "B1", [[box(40, 0, 80, 30)]])
    tables.drop("covers", "B2")


def give_both(tables: Tables) -> None:
    tables.shape("covers", "D2", [[box(40, 30, 60, 60)]])
    tables.findings("DELETE FROM overlap")


def close_gap(tables: Tables) -> None:
    tables.shape("covers", "E1", [[box(80, 0, 100, 45)]])
    tables.shape("parcels", "E", PARCELS["E"])
    tables.findings("DELETE FROM gap")


def drop_parcel(tables: Tables) -> None:
    tables.drop("parcels", "H")
    tables.drop("covers", "H1")


def move_border(tables: Tables) -> None:
    tables.shape("covers", "B1", [[box(40, 0, 61, 30)]])
    tables.shape("covers", "B2", [[box(61, 0, 80, 30)]])


def add_piece(tables: Tables) -> None:
    tables.put("parcels", [*tables.read("parcels"), ["Z", wkt([[box(-20, 0, -1, 30)]])]])
    tables.put("covers", [*tables.read("covers"), ["Z1", "Z", "GRASS", wkt([[box(-20, 0, -1, 30)]])]])


def shrink_finding(tables: Tables) -> None:
    (tables.folder / "findings.gpkg").unlink()
    rows, names, _ = TOLD["overlap"]
    write_findings(tables.folder / "findings.gpkg", {**TOLD, "overlap": (rows, names, box(40, 30, 40.5, 50))})


def swap_axes(tables: Tables) -> None:
    for table in ("parcels", "covers"):
        header, *rows = tables.read(table)
        tables.put(table, [header, *([*row[:-1], re.sub(r"([0-9.]+) ([0-9.]+)", r"\2 \1", row[-1])] for row in rows)])


def one_name_of_two(tables: Tables) -> None:
    """Both pieces of B get one name, and one row."""
    merge(tables)
    tables.put("identifiers", [*tables.read("identifiers"), ["piece", "B2", "B1"], ["class", "TREES", "GRASS"]])
    tables.change("covers", "B1", 2, "GRASS")


def rename_class(tables: Tables) -> None:
    tables.put("classes", [*tables.read("classes"), ["ROCK", "0"]])
    tables.change("covers", "A2", 2, "ROCK")


def dig_hole(tables: Tables) -> None:
    tables.shape("covers", "H1", [[box(120, 0, 150, 60), box(130, 10, 130.01, 10.01)[::-1]]])


def copy_parcel(tables: Tables) -> None:
    """A piece drawn a second time, under a second name."""
    tables.put("covers", [*tables.read("covers"), ["B3", "B", "TREES", wkt([[box(41, 1, 59, 29)]])]])


@dataclass
class Mutant:
    """What is done to the tables, and where the point that is told of it has to lie."""

    does: Callable[[Tables], object]
    where: Box


MUTANTS = {
    "a corner is moved by two millimetres": Mutant(corner, (59.9, -0.1, 60.1, 30.1)),
    "a piece is dropped": Mutant(lambda tables: tables.drop("covers", "A2"), (10, 10, 20, 20)),
    "a parcel is dropped, with its piece": Mutant(drop_parcel, (120, 0, 150, 60)),
    "the names of two parcels are exchanged": Mutant(
        lambda tables: tables.swap("parcels", "A", "B", 0), (0, 0, 80, 30)
    ),
    "the names of two pieces are exchanged": Mutant(
        lambda tables: tables.swap("covers", "B1", "B2", 0), (40, 0, 80, 30)
    ),
    "the classes of two pieces are exchanged": Mutant(
        lambda tables: tables.swap("covers", "B1", "B2", 2), (40, 0, 80, 30)
    ),
    "a piece is given to the neighbouring parcel": Mutant(
        lambda tables: tables.change("covers", "B1", 1, "A"), (40, 0, 60, 30)
    ),
    "two pieces are merged under one name": Mutant(merge, (40, 0, 80, 30)),
    "two pieces are merged, and identifiers.csv says so": Mutant(one_name_of_two, (40, 0, 80, 30)),
    "a hole is filled": Mutant(lambda tables: tables.shape("covers", "A1", [[box(0, 0, 40, 30)]]), (10, 10, 20, 20)),
    "a hole of a centimetre is dug": Mutant(dig_hole, (130, 10, 130.01, 10.01)),
    "a member is dropped": Mutant(lambda tables: tables.shape("covers", "C1", PIECES["C1"][2][:1]), (60, 30, 80, 60)),
    "a percentage is changed": Mutant(lambda tables: tables.change("classes", "TREES", 1, "31"), (40, 0, 60, 60)),
    "a class has another name": Mutant(rename_class, (10, 10, 20, 20)),
    "a border is moved by a metre": Mutant(move_border, (60, 0, 61, 30)),
    "all is moved by two millimetres": Mutant(lambda tables: tables.move_all(0.002), WHOLE),
    "east and north are exchanged": Mutant(swap_axes, ANYWHERE),
    "a row of findings.gpkg is deleted": Mutant(
        lambda tables: tables.findings("DELETE FROM overlap"), (40, 30, 40.5, 60)
    ),
    "its polygon is shrunk": Mutant(shrink_finding, (40, 50, 40.5, 60)),
    "identifiers.csv has two names exchanged": Mutant(
        lambda tables: tables.put(
            "identifiers", [*tables.read("identifiers"), ["parcel", "A", "B"], ["parcel", "B", "A"]]
        ),
        (0, 0, 80, 30),
    ),
    "a gap is closed without a row": Mutant(close_gap, (99.7, 0, 100, 45)),
    "an overlap is given to both": Mutant(give_both, (40, 30, 40.5, 60)),
    "a parcel that is in no source is added": Mutant(add_piece, (-20, 0, -1, 30)),
    "a piece is drawn a second time under another name": Mutant(copy_parcel, (41, 1, 59, 29)),
}
