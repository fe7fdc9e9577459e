"""Tests the second checker of sources, audit/source.py: each way in which tools might move, drop, swap or merge land
is caught by a point that is right, and lands without such a fault get a yes."""

import argparse
import csv
import math
import random
import re
import shutil
import sys
from array import array
from fractions import Fraction

import pytest
import source
from lpis_helpers import calls, dirty, lands_source, places
from lpis_helpers.lands_land import Land
from lpis_helpers.mutants import (
    MUTANTS,
    PARCELS,
    PERCENTS,
    PIECES,
    TOLD,
    WHOLE,
    Tables,
    box,
    country_of,
    source_of,
    turned_back,
    wkt,
    write_findings,
)
from shapely.geometry import LineString

POINT = re.compile(r"no at (-?[0-9.]+) (-?[0-9.]+): the source has (.*), the tables have (.*); ([0-9.]+) m from")


def answered(land, out, **more):
    """What is printed of a land and its tables."""
    words = {"name": [], "classes": None, "epsg": None, "previous": False, **more}
    return source.answer(argparse.Namespace(land=str(land), out=str(out), **words))


@pytest.fixture(scope="module")
def land(tmp_path_factory):
    return source_of(tmp_path_factory.mktemp("land") / "land.gpkg")


def test_tables_without_a_fault(land, tmp_path):
    assert answered(land, Tables(tmp_path).write().folder) == "yes"


@pytest.mark.parametrize("name", MUTANTS)
def test_mutants(name, land, tmp_path):
    """Each is caught, by a point of the place that it is about, where source and tables differ in what they say."""
    tables, mutant = Tables(tmp_path).write(), MUTANTS[name]
    mutant.does(tables)
    line = answered(land, tmp_path)
    expect(line, mutant.where)
    found = POINT.match(line)
    assert found[3] != found[4] or " and piece" in found[3], line
    assert float(found[5]) > 0.0007


def expect(line, where, said=""):
    """A no that is told of a point in a box of the land."""
    found = POINT.match(line)
    assert found and said in line, line
    x, y = turned_back(float(found[1]), float(found[2]))
    assert where[0] <= x <= where[2] and where[1] <= y <= where[3], (line, x, y)


def shifted(region):
    """Last year's tables, or others': all lies three millimetres beside."""
    region.move_all(0.003)


def widened(region):
    """A guest's copy in one region alone is another."""
    region.shape("covers", "B1", [[box(40, 0, 60.5, 30)]])


COUNTRY = {
    "a region is of another year": ("east", shifted, (40, 0, 150, 60)),
    "a guest differs in one region": ("west", widened, (60, 0, 60.5, 30)),
    "a piece is in no region": ("east", lambda region: region.drop("covers", "H1"), (120, 0, 150, 60)),
    "a region has another percentage": ("east", lambda region: region.change("classes", "GRASS", 1, "99"), WHOLE),
}


@pytest.mark.parametrize("name", [None, *COUNTRY])
def test_country(name, land, tmp_path):
    """Of a country each region's rows are held to the source, those of guests in each."""
    regions = country_of(Tables(tmp_path / "whole").write(), tmp_path / "country")
    if name is None:
        assert answered(land, tmp_path / "country") == "yes"
        return
    region, change, where = COUNTRY[name]
    change(regions[region])
    expect(answered(land, tmp_path / "country"), where)


def test_distances(land, tmp_path):
    """A corner 1.2 mm beside is within what --previous may move it by, and not without."""
    tables = Tables(tmp_path).write()
    tables.shape("covers", "B1", [[[(40, 0), (60.0012, 0), (60, 30), (40, 30), (40, 0)]]])
    tables.shape("covers", "B2", [[[(60.0012, 0), (80, 0), (80, 30), (60, 30), (60.0012, 0)]]])
    expect(answered(land, tmp_path), (59.9, -0.1, 60.1, 30.1))
    assert answered(land, tmp_path, previous=True) == "yes"


def test_rows_that_change_no_land(land, tmp_path):
    """A row of land that nobody has excuses no piece that was lost."""
    tables = Tables(tmp_path).write()
    tables.drop("covers", "A2")
    (tmp_path / "findings.gpkg").unlink()
    write_findings(tmp_path / "findings.gpkg", {**TOLD, "between": ("2", "A A", box(10, 10, 20, 20))})
    expect(answered(land, tmp_path), (10, 10, 20, 20))


def test_rows_without_points(tmp_path):
    """A row that has no point far from a border is in the tables, or a finding has it."""
    land = source_of(tmp_path / "land.gpkg", {"E2": [[box(100, 0, 100.0005, 45)]]})
    tables = Tables(tmp_path / "out").write()
    tables.drop("covers", "E2")
    tables.shape("parcels", "E", [[box(80, 0, 99.7, 45)]])
    gap = {**TOLD, "gap": ("5", "E", box(99.7, 0, 120, 45))}
    (tmp_path / "out" / "findings.gpkg").unlink()
    write_findings(tmp_path / "out" / "findings.gpkg", gap)
    line = answered(land, tmp_path / "out")
    assert line == "no: covers row 9 of the source, piece E2 of E, class GRASS at 100 percent, is in no table"
    tables.findings("UPDATE gap SET layer = 'covers', row = '9'")
    assert answered(land, tmp_path / "out") == line  # a gap is told, and no row that is gone
    tables.findings("UPDATE gap SET kind = 'lost'")
    assert answered(land, tmp_path / "out") == "yes"


def test_what_the_tools_make(tmp_path):
    """Of a land with every kind of dirt the release, the country, and last year's borders; of a coverage all
    borders."""
    land, out, country, later = (tmp_path / name for name in ("land.gpkg", "release", "country", "later"))
    dirty.make(land, dirty.ALL)
    calls.ended_with(0, calls.tool("prepare", land, out, "--accept"))
    calls.ended_with(0, calls.tool("country", "prepare", land, country, "--accept"))
    calls.ended_with(0, calls.tool("prepare", land, later, "--accept", "--previous", out))
    answers = [answered(land, out), answered(land, country), answered(land, later, previous=True)]
    assert answers == ["yes"] * 3
    calls.done(sys.executable, f"{places.TOP}/tests/lpis_helpers/make_coverage.py", "40", "1", tmp_path / "coverage")
    calls.done(f"{places.TOOLS}/prepare", tmp_path / "coverage", tmp_path / "rounded")
    assert answered(tmp_path / "coverage", tmp_path / "rounded") == "yes"


@pytest.mark.parametrize("seed", [4, 16, 17, 22, 27, 42, 44])
def test_generated_lands(seed, tmp_path):
    """Tables that tools/prepare writes of a generated land, asking nothing."""
    land, words = lands_source.write(Land(seed, most=60), str(tmp_path))
    calls.ended_with(0, calls.tool("prepare", land, tmp_path / "out", *words))
    assert answered(land, tmp_path / "out", classes=words[1] if words else None) == "yes"


SHEETS = {
    "commas": (",", "utf-8", {}),
    "semicolons and decimal commas": (";", "cp1252", {"30": "30,0 %"}),
    "tabs in UTF-16": ("\t", "utf-16", {}),
    "shares": (";", "utf-8-sig", {"100": "1", "30": "0,3"}),
}


@pytest.mark.parametrize("name", SHEETS)
def test_sheets(name, tmp_path):
    """A folder of tables as spreadsheets write them, under names of its own."""
    separator, encoding, percents = SHEETS[name]
    tables, folder = Tables(tmp_path / "out").write(), tmp_path / "land"
    folder.mkdir()
    rows = {
        "blocks": [["blk", "shape"], *([name, wkt(members)] for name, members in PARCELS.items())],
        "covers": [["piece", "blk", "class", "wkt"], *([k, p, c, wkt(m)] for k, (p, c, m) in PIECES.items())],
        "classes": [["CLASS", "percent"], *([kind, percents.get(str(v), v)] for kind, v in PERCENTS.items())],
    }
    for table, records in rows.items():
        with open(folder / f"{table}.csv", "w", newline="", encoding=encoding) as file:
            csv.writer(file, delimiter=separator).writerows(records)
    words = ["parcels=blocks", "parcels.parcel=blk", "parcels.wkt=shape", "covers.parcel=blk"]
    assert answered(folder, tmp_path / "out", name=words) == "yes"
    tables.change("classes", "TREES", 1, "29")
    expect(
        answered(folder, tmp_path / "out", name=words), (40, 0, 60, 60), "class TREES at 30 percent, the tables have"
    )


def test_arcs(tmp_path):
    """Beside an arc it is half a millimetre more, and an arc is none of its chords."""
    middle, ends = (5 - 5 * math.sqrt(0.5), 5 * math.sqrt(0.5)), [(10.0, 0.0), (5.0, 5.0), (0.0, 0.0)]
    shape = dirty.arc(ends[0], (5 + 5 * math.sqrt(0.5), middle[1]), ends[1], middle, ends[2], (5.0, -5.0), ends[0])
    dirty.put(tmp_path / "land.gpkg", [("A", shape)], [("A1", "A", "GRASS", shape)], [("GRASS", 100)])
    for count, answer in ((200, "yes"), (20, "no at")):
        angles = [math.tau * at / count for at in range(count)]
        way = [f"{5 + 5 * math.cos(angle):.3f} {5 * math.sin(angle):.3f}" for angle in angles]
        text = f"POLYGON(({','.join([*way, way[0]])}))"
        out = Tables(tmp_path)
        out.put("parcels", [["parcel", "wkt"], ["A", text]])
        out.put("covers", [["piece", "parcel", "class", "wkt"], ["A1", "A", "GRASS", text]])
        out.put("classes", [["class", "percent"], ["GRASS", "100"]])
        assert answered(tmp_path / "land.gpkg", tmp_path).startswith(answer)


def test_statuses(land, tmp_path):
    """As a process, by a Python without Shapely too: 0, 1, and 64 where it cannot be told."""
    tables, script = Tables(tmp_path / "out").write(), f"{places.TOP}/audit/source.py"
    assert calls.done("python3", script, land, tables.folder) == "yes\n"
    tables.drop("covers", "A2")
    assert calls.ended_with(1, calls.run("python3", script, land, tables.folder)).stdout.startswith("no at ")
    for words in (
        (land, tmp_path / "none"),
        (tmp_path / "none.gpkg", tables.folder),
        (tables.folder / "findings.gpkg",),
    ):
        ended = calls.run(sys.executable, script, *words)
        assert (ended.returncode, ended.stdout) == (64, ""), ended.stderr


def drawn(numbers, count, size):
    """A ring of the source, in millimetres: a star, a heap of corners that crosses itself, or one with spikes."""
    form = numbers.randrange(3)
    if form == 0:
        ways = [(math.tau * at / count, numbers.uniform(0.3, 1) * size) for at in range(count)]
        points = [(radius * math.cos(angle), radius * math.sin(angle)) for angle, radius in ways]
    else:
        points = [(numbers.uniform(-size, size), numbers.uniform(-size, size)) for _ in range(count)]
        if form == 2:
            points = [point for at, point in enumerate(points) for point in (point, points[at // 2])]
    return [*points, points[0]]


def rounded(numbers, ring):
    """A way of the tables along a ring: its corners in whole millimetres, further ones beside its edges, and sometimes
    a corner moved, dropped, doubled or exchanged."""
    way = []
    for a, b in zip(ring, ring[1:]):
        shares = [0, *sorted(numbers.random() for _ in range(numbers.randrange(3)))]
        way += [tuple(round(u + share * (v - u)) for u, v in zip(a, b)) for share in shares]
    if numbers.random() < 0.5:
        at, other = numbers.randrange(len(way)), numbers.randrange(len(way))
        kind = numbers.randrange(4)
        if kind == 0:
            way[at] = tuple(value + numbers.randrange(-2, 3) for value in way[at])
        elif kind == 1 and len(way) > 4:
            del way[at]
        elif kind == 2:
            way.insert(at, way[other])
        else:
            way[at], way[other] = way[other], way[at]
    at = numbers.randrange(len(way))
    way = way[at:] + way[:at]
    return [*way, way[0]][:: numbers.choice([1, -1])]


def test_a_quick_yes_is_right():
    """Of rings as small as what rounding moves: where a shape is taken as alike without an overlay, the overlay finds
    no place farther from its border than that. And most that are rounded are taken so."""
    numbers, alike, cases = random.Random(3), 0, 600
    for _ in range(cases):
        ring = drawn(numbers, numbers.randrange(3, 9), numbers.choice([2, 5, 20, 1000]))
        way, distance = rounded(numbers, ring), numbers.choice([source.ROUNDED, source.KEPT])
        shape = [[(array("d", [value / 1000 for point in ring for value in point]), None)]]
        if source.are_alike(shape, [[way]], distance):
            alike += 1
            apart = source.surface([[ring]]).symmetric_difference(source.surface([[way]]))
            left = apart.difference(LineString(ring).buffer(float(distance), 32))
            for part in source.parts_of(left):
                x, y = map(Fraction, part.representative_point().coords[0])
                edges = zip(source.exact(shape[0][0]), source.exact(shape[0][0])[1:])
                assert min(source.square_to((x, y), a, b) for a, b in edges) <= distance**2, (ring, way, x, y)
    assert alike > cases / 3


def test_a_union_that_geos_does_not_find(monkeypatch):
    """It gives none of some surfaces that share long borders nearly, as 13 findings of one land did: then each has a
    hair about it."""
    tried, found = [], source.unary_union

    def finds_none_at_first(surfaces):
        tried.append(surfaces)
        if len(tried) == 1:
            raise ValueError("No Shapely geometry can be created from null value")
        return found(surfaces)

    monkeypatch.setattr(source, "unary_union", finds_none_at_first)
    surfaces = [LineString([(x, 0), (x + 1000, 0)]).buffer(500, cap_style=2) for x in (0, 1000)]
    both = source.united(surfaces)
    assert len(tried) == 2 and both.geom_type == "Polygon"
    assert both.contains(surfaces[0]) and both.buffer(-2 * source.HAIR).within(found(surfaces))


def test_the_greatest_change_excuses_nothing(land, tmp_path):
    """A row of what changed tells the greatest change too, which is rounding: it excuses where it stops alone."""
    tables = Tables(tmp_path).write()
    corner = MUTANTS["a corner is moved by two millimetres"]
    corner.does(tables)
    (tmp_path / "findings.gpkg").unlink()
    write_findings(tmp_path / "findings.gpkg", {**TOLD, "changed": ("3", "B1", box(59, -1, 61, 31))})
    tables.findings("ALTER TABLE changed ADD COLUMN stops INTEGER DEFAULT 0")
    expect(answered(land, tmp_path), corner.where)
    tables.findings("UPDATE changed SET stops = 1")
    assert answered(land, tmp_path) == "yes"


def test_country_publish(tmp_path):
    """`--source` of a country's publication runs it over all regions, before anything is done."""
    source_of_it, out, register = tmp_path / "source", tmp_path / "country", tmp_path / "register.db"
    shutil.copytree(f"{places.TOP}/examples/country-years/2024", source_of_it)
    out.mkdir()
    shutil.copy(f"{places.TOP}/examples/country-years/country.txt", out)
    calls.ended_with(0, calls.tool("country", "split", source_of_it, out))
    wrong = shutil.copytree(source_of_it, tmp_path / "wrong")
    *rows, last = (wrong / "covers.csv").read_text().splitlines(keepends=True)
    (wrong / "covers.csv").write_text("".join(rows))
    words = ["country", "publish", register, "2024", out, "--new", "--year-anyway", "--source"]
    ended = calls.tool(*words, wrong)
    assert (ended.returncode, register.exists(), (out / "west" / "cert.txt").exists()) == (
        1,
        False,
        False,
    ), ended.stderr
    assert (
        re.search(f"the second checker says about {wrong} and {out}: no", ended.stderr)
        and last.split(",")[0] in ended.stderr
    )
    ended = calls.ended_with(0, calls.tool(*words, source_of_it))
    assert f"the second checker says about {source_of_it} and {out}: yes\n" in ended.stdout, ended.stderr


@pytest.mark.parametrize("tool", ["year", "report"])
def test_tools(tool, tmp_path):
    """`--source` of tools/year and tools/report runs it. Where it says no the status is 1, and nothing is published."""
    exact = f"{places.TOP}/examples/exact/2024"
    out = shutil.copytree(exact, tmp_path / "out")
    register, cert = tmp_path / "register.db", tmp_path / "cert.txt"
    calls.done(places.BUILT, "cut", out, cert)
    words = [register, "2024", out, "--new", "--year-anyway"] if tool == "year" else [out, cert]
    wrong = shutil.copytree(exact, tmp_path / "a land")
    table = wrong / "covers.csv"
    table.write_text(table.read_text().replace(",grass,", ",arable,", 1))
    ended = calls.tool(tool, *words, "--source", wrong)
    assert (ended.returncode, register.exists()) == (1, False), ended.stderr
    assert re.search("the second checker says about .*a land and .*: no at .* class arable .* class grass", ended.stderr)
    ended = calls.tool(tool, *words, "--source", f"{exact} --classes {exact}/classes.csv --previous")
    assert (
        ended.returncode == 0 and f"the second checker says about {exact} and {out}: yes\n" in ended.stdout
    ), ended.stderr
