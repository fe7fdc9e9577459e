"""Tests tools/explain: words for every code, a refusal of every kind, the tables in docs/FORMATS.md, and the releases
of examples/.

The releases of examples/ are run where the program is built or named by LPIS.
"""

import json
import os
import re
import shutil
import subprocess
import xml.dom.minidom
from pathlib import Path

import pytest
from lpis_helpers.registers import TEXT, made
from lpis_helpers.calls import tool
from lpis_helpers.places import BUILT, TOP
from lpis.formats import codes

SQUARE = "POLYGON((0 0,10 0,10 10,0 10,0 0))"
needs_program = pytest.mark.skipif(BUILT is None, reason="the program is not built")


def codes_in(cell):
    """The codes of a table's cell, such as `30 to 37, 39, 3a` or `81 with 70 to 74`."""
    found = set()
    for first, last in re.findall(r"\b(\d[0-9a-d])(?: to (\d[0-9a-d]))?\b", cell):
        found |= {first} if not last else {f"{n:x}" for n in range(int(first, 16), int(last, 16) + 1)}
    return found


def codes_of_formats():
    """All codes in the tables of docs/FORMATS.md that no script writes: their columns named Code or Codes."""
    found, column = set(), None
    with open(os.path.join(TOP, "docs", "FORMATS.md"), encoding="utf-8") as file:
        for line in file:
            if line == codes.MARKS[0]:
                break
            cells = [cell.strip() for cell in line.strip().strip("|").split("|")]
            if not line.startswith("|"):
                column = None
            elif column is None:
                column = next((i for i, cell in enumerate(cells) if cell in ("Code", "Codes")), -1)
            elif column >= 0 and column < len(cells):
                found |= codes_in(cells[column])
    return found


def explain(line, *words):
    """The words, the status and the errors of tools/explain for what is told it."""
    run = tool("explain", *words, input=line)
    return run.stdout, run.returncode, run.stderr


def write(folder, name, text):
    Path(folder, name).write_bytes(text if isinstance(text, bytes) else text.encode())


def release(folder, parcels='A,"' + SQUARE + '"\n', covers='C,A,G,"' + SQUARE + '"\n', classes="G,100\n"):
    write(folder, "parcels.csv", "parcel,wkt\n" + parcels if isinstance(parcels, str) else parcels)
    write(folder, "covers.csv", "piece,parcel,class,wkt\n" + covers)
    write(folder, "classes.csv", "class,percent\n" + classes if isinstance(classes, str) else classes)


def register(folder, shapes):
    """A register that keeps these shapes, as far as tools/explain reads it."""
    return made(
        os.path.join(folder, "register.db"),
        "PRAGMA journal_mode = WAL",
        TEXT,
        *(f"INSERT INTO lpis_text VALUES ('{name}', '{wkt}')" for name, wkt in shapes.items()),
    )


def test_every_code_has_words():
    wanted = codes_of_formats() | {"82"}  # printed as `failed store`
    assert {
        "10",
        "19",
        "30",
        "3a",
        "3b",
        "3c",
        "3d",
        "45",
        "54",
        "60",
        "69",
        "6a",
        "6d",
        "70",
        "77",
        "78",
        "85",
    } <= wanted
    assert set(codes.CODES) == wanted


@pytest.mark.parametrize("code", codes.CODES)
def test_a_code_has_a_meaning_a_cause_and_a_remedy(code):
    assert len(codes.CODES[code]) == 3 and all(codes.CODES[code])


def test_formats_has_the_tables():
    page = Path(TOP, "docs", "FORMATS.md").read_text(encoding="utf-8")
    assert page == codes.with_codes(page), "`python3 python/src/lpis/formats/codes.py` writes them"


MARKED = "old,new,exact\nA,B,1\nA,C,1\n"
HALVES = 'B,"POLYGON((0 0,5 0,5 10,0 10,0 0))"\nC,"POLYGON((5 0,10 0,10 10,5 10,5 0))"\n'
LONGER = "POLYGON((0 0,10.010 0,10.010 10,0 10,0 0))"

CASES = [
    # line, status, tables, words that must come
    (
        "refused 30 parcels row 1",
        2,
        {"parcels": "A," + SQUARE + "\n"},
        ["line 2", "header has 2 fields, this row", "not quoted"],
    ),
    ("refused 31 parcels row 0", 2, {"parcels": b"\xff\xfep\0"}, ["UTF-16"]),
    ("refused 31 parcels row 0", 2, {"parcels": b"\x1f\x8b\x08"}, ["gzip"]),
    ("refused 31 parcels row 0", 2, {"parcels": b""}, ["is empty"]),
    ("refused 31 parcels row 0", 2, {"parcels": b"parcel;wkt\nA;x\n"}, ["semicolons", "wanted header: parcel,wkt"]),
    ("refused 31 parcels row 0", 2, {"parcels": b"flurstueck,geometrie\n"}, ["found header", "missing: parcel, wkt"]),
    ("refused 32 parcels row 0", 2, {"parcels": b"parcel,Parcel,wkt\n"}, ["doubled: parcel"]),
    ("refused 33 parcels row 1", 2, {"parcels": 'M\u00fcller,"' + SQUARE + '"\n'}, ["number 2"]),
    ("refused 33 parcels row 1", 2, {"parcels": "A" * 41 + ',"' + SQUARE + '"\n'}, ["41 letters"]),
    ("refused 34 parcels row 2", 2, {"parcels": f'A,"{SQUARE}"\nA,"{SQUARE}"\n'}, ["it stood first in row 1, line 2"]),
    (
        "refused 35 covers row 1",
        2,
        {"covers": f'C,a,G,"{SQUARE}"\n'},
        ["none of parcel 'a'", "'A' differs only in case"],
    ),
    ("refused 36 covers row 1", 2, {"covers": f'C,A,W,"{SQUARE}"\n'}, ["none of class 'W'"]),
    ("refused 37 parcels row 1", 2, {"covers": ""}, ["parcel 'A'", "x 0"]),
    (
        "refused 38 parcels row 1 wkt 14 at 13",
        2,
        {"parcels": 'A,"POLYGON((0 0,10.0001 0,10 10,0 10,0 0))"\n'},
        ["code 14", "'10.0001'", "point number 2", "5 points, x 0.000 to 10.000"],
    ),
    ("refused 38 parcels row 1 wkt 10 at 0", 2, {"parcels": "A,\n"}, ["the end of the text", "no points"]),
    (
        "refused 38 parcels row 2 wkt 10 at 0",
        2,
        {"parcels": f'\nA,"{SQUARE}"\n\nB,x\n'},
        ["row 2, line 5", "$id 5 of", "fid 2 through"],
    ),
    (
        "refused 31 classes row 0",
        2,
        {"classes": b"class,share\n"},
        ["wanted header: class,percent", "missing: percent"],
    ),
    ("refused 32 classes row 0", 2, {"classes": b"class,percent,eligible,Eligible\n"}, ["doubled: eligible"]),
    ("refused 39 classes row 1", 2, {"classes": b"class,eligible\nG,true\n"}, ["eligible is 'true'"]),
    ("refused 3b classes row 1", 2, {"classes": "G,0.5\n"}, ["percent is '0.5'", "no whole number from 0 to 100"]),
    ("refused 3a parcels row 200001", 2, {}, ["200,000 rows", "has no row 200001"]),
    (
        "refused 40 piece C",
        1,
        {"covers": 'C,A,G,"POLYGON((0 0,10 10,10 0,0 10,0 0))"\n'},
        ["crosses itself", "x 5.0000, y 5.0000"],
    ),
    (
        "refused 41 parcels A B at 9500 5000 1",
        1,
        {"parcels": f'A,"{SQUARE}"\nB,"POLYGON((9 0,20 0,20 10,9 10,9 0))"\n'},
        ["x 9.5000, y 5.0000", "parcel B: row 2"],
    ),
    (
        "refused 42 pieces C D",
        1,
        {"covers": f'C,A,G,"{SQUARE}"\nD,A,G,"POLYGON((5 -5,15 -5,15 5,5 5,5 -5))"\n'},
        ["their borders cross", "piece D: row 2"],
    ),
    (
        "refused 43 parcel A at 10 10 3",
        1,
        {"covers": 'C,A,G,"POLYGON((1 0,10 0,10 10,1 10,1 0))"\n'},
        ["its piece C", "stretches of border", "about x 0.003333"],
    ),
    (
        "refused 44 parcel A",
        1,
        {"covers": 'C,A,G,"POLYGON((1 0,10 0,10 10,1 10,1 0))"\n'},
        ["stretches of border", "found by this tool"],
    ),
    ("refused 50 cert line 1", 2, {"cert": "lpis-cert 1\r\nend\r\n"}, ["CR LF"]),
    ("refused 54 cert line 2", 2, {"cert": "lpis-cert 1\npie"}, ["has 2 lines, the last without its line end"]),
    ("refused 66 parcel A", 1, {"covers": 'C,A,G,"POLYGON((0 0,5 0,5 10,0 10,0 0))"\n'}, ["stretches of border"]),
    (
        "refused 67 pair 0 1",
        1,
        {"cert": "lpis-cert 2\npiece C 2 0\nt 0 0 10000 0 10000 10000\nt 0 0 10000 10000 0 10001\n"},
        ["triangle 0 is of piece C: 0.000 0.000, 10.000 0.000, 10.000 10.000", "0.000 10.001", "piece C: row 1"],
    ),
    (
        "refused 67 pair 0 1",
        1,
        {"cert": "lpis-cert 1\npiece C 2 0\nt 0 0 1000 0 1000 1000\nt 0 0 1000 1000 0 1000\n"},
        ["triangle 0 is of piece C: 0.000 0.000, 10.000 0.000, 10.000 10.000", "piece C: row 1"],
    ),
    ("refused 80 last 2024", 1, {}, ["not later"]),
    ("refused 81 lineage 72 row 1", 1, {"lineage": "old,new\nA,B\n"}, ["code 72", "old 'A', new 'B'"]),
    (
        "refused 32 lineage row 0",
        2,
        {"lineage": "old,new,exact,Exact\n"},
        ["doubled: exact", "wanted header: old,new\n"],
    ),
    ("refused 31 lineage row 0", 2, {"lineage": "old,exact\n"}, ["missing: new\n"]),
    (
        "refused 3c lineage row 2",
        2,
        {"lineage": "old,new,exact\nA,B,1\nA,C,yes\n"},
        ["code 3c", "exact is 'yes'", "old 'A', new 'C', exact 'yes'"],
    ),
    (
        "refused 3d points row 1 x 14",
        2,
        {"points": "point,x,y\nA,1.0000000001,2\n"},
        ["code 3d", "x is '1.0000000001'; 14: this has more than nine decimals"],
    ),
    (
        "refused 3d points row 2 y 13",
        2,
        {"points": "point,x,y\nA,1,2\nA,1,1e3\n"},
        ["point 'A', x '1', y '1e3'", "y is '1e3'; 13: this is not a plain number"],
    ),
    ("refused 33 points row 1", 2, {"points": "point,x,y\nfoto 7,1,2\n"}, ["code 33", "number 5"]),
    ("refused 31 points row 0", 2, {"points": "point,lon,lat\n"}, ["wanted header: point,x,y", "missing: x, y"]),
    ("refused 33 lineage row 2", 2, {"lineage": "old,new,exact\nA,,\n,B,\n"}, ["old is empty"]),
    (
        "refused 81 lineage 78 row 1",
        1,
        {"lineage": "old,new,exact\nA,B,1\nA,C,\nD,E,1\n"},
        ["code 78", "row 1: A became B, marked", "row 2: A became C, not marked"],
    ),
    (
        "refused 81 lineage 78 row 2",
        1,
        {"lineage": "old,new,exact\nA,B,\nC,,1\n"},
        ["an ending, which can't be marked", "row 2: C became nothing, marked"],
    ),
    (
        "refused 81 lineage 77 A",
        1,
        {"lineage": MARKED, "register": {}},
        ["code 77", "row 1: A became B, marked", "row 2: A became C, marked", "keeps no shape of it"],
    ),
    ("refused 81 lineage 77 A", 1, {"lineage": MARKED}, ["name the register by --register"]),
    (
        "refused 45 exact A",
        1,
        {"lineage": MARKED, "parcels": HALVES, "register": {"A": SQUARE}},
        [
            "code 45",
            "A has 2 marked rows, a split of it",
            "row 2: A became C, marked",
            "parcel B: row 1",
            "parcel C: row 2",
            "old parcel A, as",
            "the area of the whole",
            "their borders agree",
        ],
    ),
    (
        "refused 45 exact A",
        1,
        {"lineage": MARKED, "parcels": HALVES, "register": {"A": LONGER}},
        [
            "old parcel A, as",
            "x 0.000 to 10.010",
            "the parts together have 0.1000000 m2 less than the whole",
            "4 stretches of border",
            "the shortest from 10.000 0.000 to 10.010 0.000",
            "x 10.0000, y 0.0000",
        ],
    ),
    (
        "refused 45 exact A",
        1,
        {"lineage": MARKED, "parcels": HALVES},
        ["parcel C: row 2", "name the register by --register"],
    ),
    (
        "refused 45 exact K",
        1,
        {
            "lineage": "old,new,exact\nA,K,1\n",
            "parcels": f'K,"{SQUARE}"\n',
            "register": {"A": "POLYGON((0 0,5 0,5 10,0 10,0 0))", "K": "POLYGON((5 0,10 0,10 9.99,5 10,5 0))"},
        },
        [
            "K has 1 marked rows, a merge into it",
            "row 1: A became K, marked",
            "parcel K: row 1",
            "old parcel A, as",
            "old parcel K, as",
            "0.0250000 m2 less than the whole",
            "stretches of border are the whole's or its parts' alone",
        ],
    ),
    (
        "refused 85 exact 6a A",
        1,
        {
            "lineage": MARKED,
            "parcels": HALVES,
            "register": {"A": SQUARE},
            "cert": "lpis-cert 2\nexact split F 0\nexact merge M 0\npairs 0\nend\n",
        },
        [
            "code 85",
            "code 6a",
            "`lpis exact` (of a country `lpis exact-country`)",
            "has 2 blocks `exact`: split F, merge M",
            "their borders agree",
        ],
    ),
    (
        "refused 85 exact 6a F",
        1,
        {"lineage": MARKED, "cert": "lpis-cert 2\npairs 0\nend\n"},
        ["has 0 blocks `exact`\n", "no marked rows of", "a split of F, or a merge into it"],
    ),
    (
        "refused 85 exact 6b A",
        1,
        {"lineage": MARKED, "parcels": HALVES, "register": {"A": SQUARE}},
        ["code 6b", "not three different points of one line"],
    ),
    (
        "refused 85 exact 6c A",
        1,
        {"lineage": MARKED, "parcels": HALVES, "register": {"A": SQUARE}},
        ["code 6c", "no point of the old and the new shapes"],
    ),
    (
        "refused 85 exact 6d A",
        1,
        {"lineage": MARKED, "parcels": HALVES, "register": {"A": LONGER}},
        ["code 6d", "less than the whole", "4 stretches of border"],
    ),
    ("refused 81 lineage 75 A", 1, {}, ["code 75"]),
    ("refused 81 lineage 76 A 2023", 1, {}, ["code 76"]),
    ("refused 83", 1, {}, ["in no release"]),
    ("refused 84", 2, {}, ["cannot be read as a register"]),
]


@pytest.mark.parametrize("line, status, tables, wanted", CASES)
def test_refusals(line, status, tables, wanted, tmp_path):
    release(tmp_path, **{n: t for n, t in tables.items() if n in ("parcels", "covers", "classes")})
    options = []
    if "cert" in tables:
        write(tmp_path, "cert.txt", tables["cert"])
        options = ["--cert", tmp_path / "cert.txt"]
    for name in ("lineage", "points"):
        if name in tables:
            write(tmp_path, f"{name}.csv", tables[name])
    if "register" in tables:
        options += ["--register", register(tmp_path, tables["register"])]
    words, ended, errors = explain(line + "\n", tmp_path, *options)
    assert ended == status, errors
    assert words.startswith(line + "\n")
    assert [word for word in wanted if word not in words] == [], words


def country(folder):
    """A country of two regions: A was split into B and C along the line between them; the row of C stands in the
    region of B, and the other way round."""
    for region, row in (("west", 0), ("east", 1)):
        os.makedirs(os.path.join(folder, region))
        name, shape = HALVES.splitlines()[row].split(",", 1)
        release(os.path.join(folder, region), f"{name},{shape}\n", f"{name}.1,{name},G,{shape}\n")
        write(os.path.join(folder, region), "lineage.csv", f"old,new,exact\nA,{'CB'[row]},1\n")
    write(folder, "classes.csv", "class,percent\nG,100\n")
    write(folder, "country.txt", "lpis-country 1\nx 5000\nregion west\nregion east\n")


COUNTRY_CASES = [
    # line, status, the tables of lineage of the regions, the blocks of the certificate, words that must come and words
    # that must not
    (
        "refused 81 lineage 70 row 1 region west",
        1,
        {},
        None,
        ["code 70", "west/lineage.csv: row 1, line 2", "old 'A', new 'C', exact '1'"],
        ["row 1 (region"],
    ),
    (
        "refused 81 lineage 73 row 2 region east",
        1,
        {"east": "A,B,1\nA,C,0\n"},
        None,
        [
            "code 73",
            "two regions",
            "east/lineage.csv: row 2, line 3",
            "row 1 (region west): A became C, marked",
            "row 2 (region east): A became C, not marked",
        ],
        [],
    ),
    (
        "refused 81 lineage 74 row 1 region east",
        1,
        {"east": "A,,\n"},
        None,
        ["code 74", "row 1 (region west): A became C, marked", "row 1 (region east): A became nothing, not marked"],
        [],
    ),
    (
        "refused 81 lineage 78 row 1 region west",
        1,
        {"east": "A,B,\nX,Y,\n"},
        None,
        ["code 78", "row 1 (region west): A became C, marked", "row 1 (region east): A became B, not marked"],
        ["X became"],
    ),
    ("refused 81 lineage 75 A", 1, {}, None, ["code 75"], []),
    ("refused 81 lineage 76 B 2015", 1, {}, None, ["code 76"], []),
    (
        "refused 81 lineage 77 A",
        1,
        {},
        None,
        [
            "code 77",
            "row 1 (region west): A became C, marked",
            "row 1 (region east): A became B, marked",
            "keeps the shape of it",
        ],
        [],
    ),
    (
        "refused 45 exact A",
        1,
        {},
        None,
        [
            "code 45",
            "A has 2 marked rows, a split of it",
            "parcel B: row 1 (region west) of parcels.csv, line 2",
            "parcel C: row 1 (region east)",
            "old parcel A",
            "their borders agree",
        ],
        [],
    ),
    (
        "refused 85 exact 6a A",
        1,
        {},
        "exact merge B 0\n",
        ["code 6a", "`lpis exact-country`", "has 1 blocks `exact`: merge B", "the area of the whole"],
        [],
    ),
    ("refused 54 cert line 2", 2, {}, None, ["code 54", "has 3 lines"], ["region west"]),
    (
        "refused 31 lineage row 0 region east",
        2,
        {"east": None},
        None,
        ["code 31", "found header in ", "east/lineage.csv: odd"],
        [],
    ),
    ("refused 3c lineage row 1 region west", 2, {"west": "A,B,yes\n"}, None, ["code 3c", "exact is 'yes'"], []),
    ("refused 80 last 2025", 1, {}, None, ["code 80"], []),
]


@pytest.mark.parametrize("line, status, tables, blocks, wanted, unwanted", COUNTRY_CASES)
def test_countries_that_are_published(line, status, tables, blocks, wanted, unwanted, tmp_path):
    country(tmp_path)
    for region, rows in tables.items():
        write(tmp_path / region, "lineage.csv", "odd\n" if rows is None else f"old,new,exact\n{rows}")
    write(tmp_path, "exact.txt", f"lpis-cert 2\n{blocks or ''}pairs 0\nend\n")
    progress = (
        "region west parcels 1 pieces 1 area 50.0000000 eligible 50.000000000\n"
        if status == 1 and "80" not in line
        else ""
    )
    words, ended, errors = explain(
        f"{progress}{line}\n",
        tmp_path,
        "--cert",
        tmp_path / "exact.txt",
        "--register",
        register(tmp_path, {"A": SQUARE}),
    )
    assert (ended, errors) == (status, "")
    assert words.startswith(f"{progress}{line}\n")
    assert ([word for word in wanted if word not in words], [word for word in unwanted if word in words]) == (
        [],
        [],
    ), words


# The lines of `cut` of a region that has no certificate.
UNCUT = [
    "40 piece B.1",
    "41 parcels B B at 1000 2000 1",
    "41 pieces B.1 B.1 at 1000 2000 1",
    "42 pieces B.1 B.1",
    "43 parcel B at 1000 2000 1",
    "44 parcel B",
]


@pytest.mark.parametrize("line", UNCUT)
def test_regions_without_certificates(line, tmp_path):
    country(tmp_path)
    words, ended, errors = explain(f"refused {line} region west\n", tmp_path)
    assert (ended, errors) == (1, "")
    assert f"{line.split()[1].rstrip('s')} {line.split()[2]}: row 1 of " in words, words
    assert "No such file" not in words and ("POINT(1.000000 2.000000)" in words) is (" at " in line), words


@pytest.mark.parametrize("last", ["exact 2", "yes\npublished 2025"])
def test_what_is_done_passes(last, tmp_path):
    country(tmp_path)
    text = f"region west parcels 1 pieces 1 area 50.0000000 eligible 50.000000000\n{last}\n"
    assert explain(text, tmp_path) == (text, 0, "")


def test_areas(tmp_path):
    path = tmp_path / "any.csv"
    write(tmp_path, "any.csv", 'name,WKT\nfield,"POLYGON((0 0,1e3 0,1 1,0 0))"\n')
    words, ended, errors = explain("refused 38 area row 1 wkt 13 at 13\n", "--area", path)
    assert ended == 2 and str(path) in words and "'1e3'" in words, words + errors


def pictures(line, folder, *options):
    """The features and the picture of a refusal, with its words."""
    words = explain(line, folder, "--geojson", folder / "f.geojson", "--svg", folder / "f.svg", *options)[0]
    text = (folder / "f.svg").read_text(encoding="utf-8")
    xml.dom.minidom.parseString(text)
    return json.loads((folder / "f.geojson").read_text(encoding="utf-8")), text, words


def test_pictures(tmp_path):
    """The place is in metres, and a fault of a millimetre is enlarged."""
    release(tmp_path, f'A,"{SQUARE}"\nB,"POLYGON((9.999 0,20 0,20 10,9.999 10,9.999 0))"\n')
    whole, text, _ = pictures("refused 41 parcels A B at 19999 10000 2\n", tmp_path, "--epsg", "25832")
    assert [feature["properties"]["kind"] for feature in whole["features"]] == ["parcel", "parcel", "place"]
    assert whole["features"][2]["geometry"]["coordinates"] == [9.9995, 5.0]
    assert "EPSG::25832" in json.dumps(whole["crs"])
    assert "about the place: 4 mm wide" in text


def test_pictures_of_splits(tmp_path):
    """The stretches are in metres, and red; a split of a centimetre is enlarged."""
    release(tmp_path, HALVES)
    write(tmp_path, "lineage.csv", MARKED)
    whole, text, _ = pictures("refused 45 exact A\n", tmp_path, "--register", register(tmp_path, {"A": LONGER}))
    kinds = [(feature["properties"]["kind"], feature["properties"]["name"]) for feature in whole["features"]]
    assert kinds == [("parcel", "B"), ("parcel", "C"), ("old parcel", "A"), ("differs", ""), ("place", "")]
    stretches = whole["features"][3]["geometry"]["coordinates"]
    assert [[10.0, 0.0], [10.0, 10.0]] in [sorted(it) for it in stretches]
    assert "about the place: 40 mm wide" in text or "about the place: 80 mm wide" in text
    assert text.count('stroke="#d00000"') >= len(stretches)
    assert "unable to open" in explain("refused 45 exact A\n", tmp_path, "--register", tmp_path / "none.db")[0]


DONE = "parcels 0 pieces 0\ntotal area 0.0000000 eligible 0.000000000\nyes\n"


@pytest.mark.parametrize(
    "text, options, status",
    [
        (DONE, [], 0),
        ("parcels 1 pieces 1\n", [], 64),
        ("", [], 64),
        ("", ["--status", "3"], 3),
        ("failed memory\n", [], 3),
    ],
    ids=["a report", "a report that is cut off", "nothing", "a status that is told", "a failure"],
)
def test_statuses(text, options, status, tmp_path):
    words, ended, _ = explain(text, tmp_path, *options)
    assert ended == status and (words == text or text != DONE)


def test_failures(tmp_path):
    path, store = register(tmp_path, {"A": SQUARE}), "failed store\n  " + codes.FAILURES["store"] + "\n"
    assert explain("failed store\n", tmp_path, "--register", path)[:2] == (store, 3)
    made(path, "CREATE TRIGGER watch DELETE ON lpis_text BEGIN SELECT 1; END")
    assert explain("failed store\n", tmp_path, "--register", path)[:2] == (
        store + "  the trigger watch on lpis_text: drop it\n",
        3,
    )
    assert explain("failed read parcels\n", tmp_path / "none")[:2] == (
        "failed read parcels\n  " + codes.FAILURES["read"] + "\n",
        3,
    )
    assert explain("")[1] == 64


def test_several_traces(tmp_path):
    """Each identifier's answer stands behind a line of its own; each that is refused has its words, and the status
    is 1."""
    told = (
        "trace north\nnorth-1\nnorth-2\ntrace brook\nrefused 83\ntrace pond\ntrace no identifier\nrefused 83\ntrace"
        " grove\ngrove\n"
    )
    words, ended, errors = explain(told, tmp_path)
    assert (ended, errors) == (1, "")
    assert "".join(line for line in words.splitlines(True) if not line.startswith("  ")) == told
    assert [words.count("code 83"), words.count("refused 83\n  code 83")] == [2, 2]
    assert explain("trace pond\ntrace grove\ngrove\n", tmp_path) == ("trace pond\ntrace grove\ngrove\n", 0, "")


@pytest.mark.parametrize("code", codes.CODES)
def test_a_code_alone(code):
    words, ended, errors = explain("", code)
    assert ended == 0 and words.startswith(f"code {code} (") and codes.CODES[code][0] in words and "status " in words, (
        words + errors
    )


@pytest.mark.parametrize(
    "line, status, wanted",
    [
        ("38 14", 0, "finer than a millimetre"),
        ("81", 0, "75: an identifier was dropped"),
        ("10", 0, "status 2"),
        ("75", 0, "status 1"),
        ("refused 41 parcels a b", 1, "two parcels, or two pieces, overlap"),
        ("failed store", 3, "the database failed"),
        ("45", 0, "status 1"),
        ("6d", 0, "status 1"),
        ("85", 0, "6a: the certificate's"),
        ("82", 0, "status 3"),
        ("99", 64, "is no folder and no code"),
        ("43 99", 64, "99 is no code"),
    ],
)
def test_codes_and_lines(line, status, wanted):
    words, ended, errors = explain("", *line.split())
    assert ended == status and wanted in words + errors, words + errors


def test_a_line_in_one_word():
    words, ended, _ = explain("", "refused 81 lineage 75")
    assert ended == 1 and "75 (Lineage" in words


YEARS = os.path.join(TOP, "examples", "exact")
DIFFERS = [
    "0.3300000 m2 less than the whole",
    "stretches of border",
    "the shortest from 120.000 89.990 to 120.000 90.000",
    "old parcel slope",
]


def lpis(folder, *words):
    return subprocess.run([BUILT, *words], cwd=folder, capture_output=True, text=True, check=False).stdout


@pytest.fixture(scope="module")
def exact(tmp_path_factory):
    """The years of examples/exact: the first in a register, the second with all rows marked, and certificates
    without blocks, with some, and with all."""
    folder = tmp_path_factory.mktemp("exact")
    for year in ("2024", "2025"):
        lpis(folder, "cut", os.path.join(YEARS, year), f"{year}.txt")
    assert lpis(folder, "publish", "years.db", "2024", os.path.join(YEARS, "2024"), "2024.txt").endswith(
        "published 2024\n"
    )
    shutil.copytree(os.path.join(YEARS, "2025"), folder / "all")
    shutil.copy(os.path.join(YEARS, "all-marked.csv"), folder / "all" / "lineage.csv")
    assert lpis(folder, "exact", "years.db", os.path.join(YEARS, "2025"), "2025.txt", "exact.txt") == "exact 2\n"
    write(
        folder,
        "all.txt",
        (folder / "exact.txt").read_text(encoding="ascii").replace("exact merge", "exact split slope 0\nexact merge"),
    )
    return folder


@needs_program
@pytest.mark.parametrize(
    "words, cert, line, wanted",
    [
        ("exact years.db all 2025.txt none.txt", "2025.txt", "refused 45 exact slope", DIFFERS),
        ("publish years.db 2025 all all.txt", "all.txt", "refused 85 exact 6d slope", DIFFERS),
        (
            "publish years.db 2025 all exact.txt",
            "exact.txt",
            "refused 85 exact 6a farm",
            ["has 2 blocks `exact`: split meadow, merge farm", "old parcel yard"],
        ),
        (
            "publish years.db 2025 all 2025.txt",
            "2025.txt",
            "refused 85 exact 6a meadow",
            ["has 0 blocks", "their borders agree"],
        ),
    ],
)
def test_example_of_exact_lineage(words, cert, line, wanted, exact, tmp_path):
    """What the program answers of each wrong certificate or mark, and the words for it."""
    assert lpis(exact, *words.split()) == line + "\n"
    said, status, errors = explain(
        line + "\n",
        exact / "all",
        "--cert",
        exact / cert,
        "--register",
        exact / "years.db",
        "--svg",
        tmp_path / "fault.svg",
    )
    assert status == 1, errors
    assert [word for word in wanted if word not in said] == [], said
    assert (tmp_path / "fault.svg").exists()


def examples():
    """Each release of examples/, to be cut, and to be checked where it has a certificate."""
    for folder, _, files in sorted(os.walk(os.path.join(TOP, "examples"))):
        if {"parcels.csv", "covers.csv", "classes.csv"} <= set(files):
            for command in ("cut", "check")[: 1 + ("cert.txt" in files)]:
                yield pytest.param(command, folder, id=f"{command} {os.path.relpath(folder, TOP)}")


@needs_program
@pytest.mark.parametrize("command, folder", examples())
def test_examples(command, folder, tmp_path):
    """The program's line through tools/explain: same status, and words for each refusal."""
    cert = str(tmp_path / "cert.txt") if command == "cut" else os.path.join(folder, "cert.txt")
    run = subprocess.run([BUILT, command, folder, cert], capture_output=True, text=True, check=False)
    assert run.stdout
    text, ended, errors = explain(run.stdout, folder, "--cert", cert)
    assert ended == run.returncode, errors
    assert text.startswith(run.stdout)
    assert run.returncode not in (1, 2) or text.count("\n") > run.stdout.count("\n") + 2
