"""Polygons with their areas or their first fault, tables of them, and releases that are cut."""

import pytest
from program import CLASSES, LEFT, RIGHT, SQUARE, lpis, short, write

CORNERS = "MULTIPOLYGON(((0 0,10 0,10 10,0 10,0 0)),((10 10,20 10,20 20,10 20,10 10)))"
TOUCHING = "POLYGON((0 0,10 0,10 10,0 10,0 0),(0 0,4 2,2 4,0 0))"
HOLE, IN_IT = "POLYGON((0 0,10 0,10 10,0 10,0 0),(4 4,6 4,6 6,4 6,4 4))", "POLYGON((4 4,6 4,6 6,4 6,4 4))"
BOW_TIE = "POLYGON((0 0,10 10,10 0,0 10,0 0))"
OTHER_RIGHT = "POLYGON((5.01 0,10 0,10 10,5.01 10,5.01 0))"
MOST_POINTS, MOST_ROWS = 100_000, 200_000

AREAS = [
    (SQUARE, "100.0000000"),
    ("POLYGON((0 0,0 10,10 10,10 0,0 0))", "100.0000000"),
    ("Polygon ((0 0, 0.01 0, 0 0.010, 0 0))", "0.0000500"),
    ("POLYGON((0 0,0.001 0,0 0.001,0 0))", "0.0000005"),
    ("POLYGON((0 0,1.234 0,0 1,0 0))", "0.6170000"),
    (BOW_TIE, "0.0000000"),
    ("POLYGON((0 0,20000000 0,0 1,0 0))", "10000000.0000000"),
    ("POLYGON((0 0,10 0,10 0,10 10,0 10,0 0))", "100.0000000"),
    ("POLYGON((0 0,1 0,1 1,0 1,0 0),(0 0,2 0,2 2,0 2,0 0))", "-3.0000000"),
    (CORNERS, "200.0000000"),
    (TOUCHING, "94.0000000"),
    (f"POLYGON((0 0,{'0' * 200}10 0,10 10,0 10,0 0))", "100.0000000"),
    (f"POLYGON((0 0{',0 0' * (MOST_POINTS - 1)}))", "0.0000000"),
]
# The code of what is wrong with a text, and how many bytes stand before it.
FAULTS = [
    ("POLYGON((0 0,20000000.001 0,0 1,0 0))", "15 at 13"),
    ("POLYGON((0 0,20000000.01 0,0 1,0 0))", "15 at 13"),
    ("POLYGON((0 0,1.2345 0,0 1,0 0))", "14 at 13"),
    ("POLYGON((0 0,1e3 0,0 1,0 0))", "13 at 13"),
    ("POLYGON EMPTY", "11 at 8"),
    ("POLYGON((0 0,10 0,0 0))", "16 at 21"),
    ("POLYGON((0 0,10 0,10 10,0 10))", "17 at 28"),
    ("SRID=4326;POLYGON((0 0,1 0,1 1,0 0))", "12 at 0"),
    ("POLYGON((0 0 5,1 0 5,1 1 5,0 0 5))", "12 at 13"),
    ("POLYGON((0 0,1 0,1 1,0 0)) x", "18 at 27"),
    ("", "10 at 0"),
    ("POLYGON((0 0,1 0", "18 at 16"),
    ("POLYGON((99999999999.999 0,1 0,1 1,0 0))", "15 at 9"),
    (f"POLYGON(({'9' * 44}", "15 at 9"),
    (f"POLYGON((0 0{',0 0' * MOST_POINTS}))", f"19 at {4 * MOST_POINTS + 9}"),
]
ROW = '"POLYGON((0 0,1 0,1 1,0 0))"\n'
TABLES = [
    ("", ["refused 31 area row 0"]),
    ("wkt\n", []),
    ("\ufeffwkt\n", []),
    ("\ufeff\ufeffwkt\n", ["refused 30 area row 0"]),
    (f"\ufeffWKT\n{ROW}", ["0.5000000"]),
    ("name\nx\n", ["refused 31 area row 0"]),
    ("wkt,Wkt\n", ["refused 32 area row 0"]),
    ("wkt,x\nA,b\nC\n", ["refused 38 area row 1 wkt 10 at 0"]),
    ("wkt,x\nC\nA,b\n", ["refused 30 area row 1"]),
    (f'piece,parcel,class,wkt\nP,A,G,"{HOLE}"\nH,A,W,"{IN_IT}"\n', ["96.0000000", "4.0000000"]),
    (f"wkt\n{ROW * MOST_ROWS}", ["0.5000000"] * MOST_ROWS),
    (f"wkt\n{ROW * (MOST_ROWS + 1)}", [f"refused 3a area row {MOST_ROWS + 1}"]),
    (f"wkt\n{ROW * MOST_ROWS}a,b\n", [f"refused 30 area row {MOST_ROWS + 1}"]),
]
# The polygons of the parcel A, or the rows of parcels; those of pieces with their classes; the beginning of the line of
# `cut`, and what is eligible.
CUT = [
    ([SQUARE], [("G", SQUARE)], "triangles 2 pairs 1", "100.000000000"),
    ([SQUARE], [("G", LEFT), ("W", RIGHT)], "triangles ", "50.000000000"),
    ([SQUARE], [("G", HOLE), ("W", IN_IT)], "triangles ", "96.000000000"),
    ([CORNERS], [("G", CORNERS)], "triangles 4 pairs 2", "200.000000000"),
    ([TOUCHING], [("G", TOUCHING)], "triangles ", "94.000000000"),
    ([], [], "triangles 0 pairs 0", "0.000000000"),
    ([SQUARE], [("G", LEFT), ("W", OTHER_RIGHT)], "refused 43 parcel A at ", None),
    ([SQUARE], [("G", LEFT)], "refused 43 parcel A at ", None),
    ([BOW_TIE], [("G", BOW_TIE)], "refused 40 piece p0", None),
    ([SQUARE], [("G", LEFT), ("G", BOW_TIE), ("G", BOW_TIE)], "refused 40 piece p1", None),
]
# Two parcels that share a strip of a metre, each of one piece; no edge keeps the two triangles of the pair line apart.
STRIP = "POLYGON((9 0,20 0,20 10,9 10,9 0))"
STRIPS = (f'parcel,wkt\nA,"{SQUARE}"\nB,"{STRIP}"\n', f'piece,parcel,class,wkt\na,A,G,"{SQUARE}"\nb,B,G,"{STRIP}"\n')
STRIP_CERT = """lpis-cert 1
piece a 2 0
t 0 0 1000 0 1000 1000
t 0 0 1000 1000 0 1000
piece b 2 0
t 900 0 2000 0 2000 1000
t 900 0 2000 1000 900 1000
parcel A 0
parcel B 0
pairs 6
s 0 1 2
s 0 2 {}
s 0 3 0
s 1 2 0
s 1 3 0
s 2 3 2
end
"""


OF_ONE = [(f'wkt\n"{text}"\n', [area]) for text, area in AREAS] + [
    (f'wkt\n"{text}"\n', [f"refused 38 area row 1 wkt {fault}"]) for text, fault in FAULTS
]


def area(text, folder):
    (folder / "area.csv").write_text(text, encoding="utf-8")
    return lpis("area", folder / "area.csv")


@pytest.mark.parametrize("text, wanted", OF_ONE + TABLES, ids=short)
def test_area(text, wanted, tmp_path):
    assert area(text, tmp_path) == wanted


@pytest.mark.parametrize("length", range(len(SQUARE)))
def test_area_of_a_text_that_is_cut_off(length, tmp_path):
    [line] = area(f'wkt\n"{SQUARE[:length]}"\n', tmp_path)
    assert line.startswith("refused 38 area row 1 wkt ")


def tables_of(parcels, pieces):
    """The tables of parcels and of pieces, all of the parcel A."""
    rows = "".join(f'p{number},A,{name},"{text}"\n' for number, (name, text) in enumerate(pieces))
    return "parcel,wkt\n" + "".join(f'A,"{text}"\n' for text in parcels), f"piece,parcel,class,wkt\n{rows}"


@pytest.mark.parametrize("parcels, pieces, line, eligible", CUT, ids=short)
def test_cut(parcels, pieces, line, eligible, tmp_path):
    release, certificate = write(tmp_path / "release", *tables_of(parcels, pieces), CLASSES), tmp_path / "cert.txt"
    [found] = lpis("cut", release, certificate)
    assert (found[: len(line)], certificate.exists()) == (line, eligible is not None)
    if eligible:
        found = lpis("check", release, certificate)
        assert (found[-2].split()[-1], found[-1]) == (eligible, "yes")


def strips(folder):
    return write(folder / "release", *STRIPS, CLASSES)


def test_cut_of_a_strip(tmp_path):
    assert lpis("cut", strips(tmp_path), tmp_path / "cert.txt")[0].startswith("refused 41 p")


@pytest.mark.parametrize("edge", range(6))
def test_no_edge_parts_the_triangles_of_a_strip(edge, tmp_path):
    (tmp_path / "cert.txt").write_text(STRIP_CERT.format(edge), encoding="ascii")
    assert lpis("check", strips(tmp_path), tmp_path / "cert.txt") == ["refused 69 pair 0 2"]
