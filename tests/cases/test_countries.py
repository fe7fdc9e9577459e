"""Plans of countries that are read, what is answered of two regions that share a parcel, and what is published of
them."""

import shutil

import pytest
from program import edited, lpis, short, write
from lpis_helpers.registers import said

PLAN, PARTED_AT_9 = (
    "lpis-country 1\nx 10000\nregion west\nregion east\n",
    "lpis-country 1\nx 9000\nregion west\nregion east\n",
)
CLASSES = "class,percent\nG,100\nW,0\n"
SHARED = '"POLYGON((8 20,12 20,12 30,8 30,8 20))"'
SHARED_LINES = "piece c 2 0\nt 8000 20000 12000 20000 12000 30000\nt 8000 20000 12000 30000 8000 30000\n"
WEST = [
    f'parcel,wkt\nA,"POLYGON((0 0,10 0,10 10,0 10,0 0))"\nC,{SHARED}\n',
    f'piece,parcel,class,wkt\na,A,G,"POLYGON((0 0,10 0,10 10,0 10,0 0))"\nc,C,W,{SHARED}\n',
    CLASSES,
    (
        f"lpis-cert 2\npiece a 2 0\nt 0 0 10000 0 10000 10000\nt 0 0 10000 10000 0 10000\n{SHARED_LINES}parcel A"
        " 0\nparcel C 0\npairs 2\ns 0 1 2\ns 2 3 2\nend\n"
    ),
]
EAST = [
    f'parcel,wkt\nB,"POLYGON((10 0,20 0,20 10,10 10,10 0))"\nC,{SHARED}\n',
    f'piece,parcel,class,wkt\nb,B,G,"POLYGON((10 0,20 0,20 10,10 10,10 0))"\nc,C,W,{SHARED}\n',
    CLASSES,
    (
        "lpis-cert 2\npiece b 2 0\nt 10000 0 20000 0 20000 10000\nt 10000 0 20000 10000 10000"
        f" 10000\n{SHARED_LINES}parcel B 0\nparcel C 0\npairs 2\ns 0 1 2\ns 2 3 2\nend\n"
    ),
]
EMPTY = ["parcel,wkt\n", "piece,parcel,class,wkt\n", CLASSES, "lpis-cert 2\npairs 0\nend\n"]
WEST_LINE, EAST_LINE = (
    f"region {name} parcels 2 pieces 2 area 140.0000000 eligible 100.000000000" for name in ("west", "east")
)
SUM = "country regions 2 parcels 3 pieces 3 area 240.0000000 eligible 200.000000000"
TURNED = "((12 20,12 30,8 30,8 20,12 20))"
# Edits of the eastern region, each with the number of its table or of its certificate: a parcel and its piece get other
# names.
B_IS_A = [(0, "B,", "A,"), (1, "b,B", "b,A"), (3, "parcel B", "parcel A")]
C_IS_D = [(0, "C,", "D,"), (1, "c,C", "c,D"), (3, "parcel C", "parcel D")]
B_IS_C = [(0, "B,", "C,"), (1, "b,B", "b,C"), (3, "parcel B", "parcel C")]
NO_C = [
    (0, f"C,{SHARED}\n", ""),
    (1, f"c,C,W,{SHARED}\n", ""),
    (3, SHARED_LINES, ""),
    (3, "parcel C 0\n", ""),
    (3, "pairs 2\ns 0 1 2\ns 2 3 2\n", "pairs 1\ns 0 1 2\n"),
]

# The plan, edits of the eastern region, and what is printed behind the western region's line.
SEAMS = [
    (PLAN, [], [EAST_LINE, SUM, "yes"]),
    (PLAN, [(3, "s 0 1 2", "s 0 1 0")], ["refused 69 pair 0 1 region east"]),
    (PLAN, [(2, "W,0", "W,1")], ["refused 96 classes row 2 region east"]),
    ("lpis-country 1\nx 30000\nregion west\nregion east\n", [], ["refused 92 parcel B region east"]),
    (PLAN, B_IS_A, ["refused 93 parcel A region east"]),
    (PLAN, [(1, "C,W", "C,G")], ["refused 94 parcel C region east"]),
    (PLAN, C_IS_D, ["refused 95 parcel D region west"]),
    # A box that only touches the rectangle; a parcel that is awaited in the east, and another one of its identifier.
    ("lpis-country 1\nx 20000\nregion west\nregion east\n", [], ["refused 92 parcel B region east"]),
    (PARTED_AT_9, B_IS_A, ["refused 94 parcel A region east"]),
    # Another polygon of the same land, another piece, another polygon of the piece; of two rows the upper one.
    (PLAN, [(0, SHARED[8:-1], TURNED)], ["refused 94 parcel C region east"]),
    (PLAN, [(1, "c,C", "d,C"), (3, "piece c", "piece d")], ["refused 94 parcel C region east"]),
    (PLAN, [(1, SHARED[8:-1], TURNED)], ["refused 94 parcel C region east"]),
    (PLAN, C_IS_D + B_IS_C, ["refused 94 parcel C region east"]),
    # A parcel of the east that the west lacks, and the other way round; a region between the two that a parcel meets.
    ("lpis-country 1\nx 11000\nregion west\nregion east\n", [], ["refused 95 parcel B region west"]),
    (PARTED_AT_9, [], ["refused 95 parcel A region east"]),
    (
        "lpis-country 1\nx 10000\nregion west\ny 25000\nregion empty\nregion east\n",
        [],
        ["refused 95 parcel C region empty"],
    ),
    # A class more, one fewer, another one.
    (PLAN, [(2, "W,0", "W,0\nX,5"), (1, "c,C,W", "c,C,G")], ["refused 96 classes row 3 region east"]),
    (PLAN, [(2, "W,0\n", ""), (1, "c,C,W", "c,C,G")], ["refused 96 classes row 2 region east"]),
    (PLAN, [(2, "G,", "H,"), (1, "b,B,G", "b,B,H")], ["refused 96 classes row 1 region east"]),
    # What the east lacks, of two that which stood first; a region between the two that no parcel meets.
    (PLAN, NO_C, ["refused 95 parcel C region east"]),
    (PARTED_AT_9, NO_C, ["refused 95 parcel A region east"]),
    (
        "lpis-country 1\nx 10000\nregion west\ny -1\nregion empty\nregion east\n",
        NO_C,
        ["region empty parcels 0 pieces 0 area 0.0000000 eligible 0.000000000", "refused 95 parcel C region east"],
    ),
]
# Plans that are read, and the regions in their order: where none has a parcel, the country is empty.
READ = [
    ("region all\n", ["all"]),
    ("x 0\nregion west\ny -5\nregion south-east\nregion North_East9\n", ["west", "south-east", "North_East9"]),
    ("y 7\nx 20000000000\nx -20000000000\nregion a\nregion b\nregion c\nregion d\n", ["a", "b", "c", "d"]),
    ("x 5\nx 9\nregion a\nregion b\nregion c\n", ["a", "b", "c"]),
    (f"region {'n' * 100}\n", ["n" * 100]),
]
# The tables of lineage of the two regions in 2025, where B is called D, after a release with A, B and C; what is
# printed behind the regions' lines, or the one line of a table that is refused.
MOST = 200_000
B_IS_D = [(0, "B,", "D,"), (1, "b,B", "b,D"), (3, "parcel B", "parcel D")]
TABLES = [
    ("old,new\n" + "X,D\n" * (MOST + 1), "old,new\n", "refused 3a lineage row 200001 region west"),
    ("old,new\n", "old,new\n" + "X,D\n" * (MOST + 1), "refused 3a lineage row 200001 region east"),
    ("old,new\n" + "X,D\n" * (MOST + 1), "old\n", "refused 3a lineage row 200001 region west"),
    ("old,new\n", "old\n", "refused 31 lineage row 0 region east"),
    ("old,new,exact,exact\n", "old\n", "refused 32 lineage row 0 region west"),
    ("old,new\n", "new,old,exact\n,A B,x\n", "refused 33 lineage row 1 region east"),
    ("old,new\n", "old,new,exact\nB,D,x\n", "refused 3c lineage row 1 region east"),
    ("old,new\n", "old,new\nB,D\nB\n", "refused 30 lineage row 2 region east"),
    ("old,new\nB,D\n", "old,new\n" + "X,D\n" * MOST, ["refused 81 lineage 70 row 1 region east"]),
    ("old,new\nB,D\n", "old,new\nB,D\n", ["refused 81 lineage 73 row 1 region east"]),
    ("old,new\n", "old,new\n", ["refused 81 lineage 75 B"]),
    ("old,new,exact\nB,D,1\n", "old,new\n", ["refused 81 lineage 78 row 1 region west"]),
    ("old,new,exact\n", "old,new\nB,D\nA,D\n", ["refused 81 lineage 71 row 2 region east"]),
    ("old,new\nB,\n", "exact,new,old\n,D,B\n", ["refused 81 lineage 74 row 1 region east"]),
    ("new,old\nD,B\n", "old,new\n", [SUM, "yes", "lineage B replaced", "published 2025"]),
]


def region(folder, texts, edits=()):
    texts = list(texts)
    for at, old, new in edits:
        texts[at] = edited(texts[at], [(old, new)])
    parcels, covers, classes, certificate = texts
    write(folder, parcels, covers, classes)
    (folder / "cert.txt").write_text(certificate, encoding="ascii")


def plan(folder, text):
    (folder / "country.txt").write_text(text, encoding="utf-8", newline="")


def made(folder):
    """The country of the two regions, and of one without a parcel."""
    folder.mkdir()
    (folder / "classes.csv").write_text(CLASSES, encoding="ascii")
    plan(folder, PLAN)
    for name, texts in (("west", WEST), ("east", EAST), ("empty", EMPTY)):
        region(folder / name, texts)
    return folder


@pytest.fixture
def country(tmp_path):
    return made(tmp_path / "country")


@pytest.mark.parametrize("text, edits, lines", SEAMS, ids=short)
def test_seams(text, edits, lines, country):
    plan(country, text)
    region(country / "east", EAST, edits)
    assert lpis("country", country) == [WEST_LINE, *lines]


def test_parcels(country):
    a, b, c = (
        f"parcel {name} area {area}.0000000 eligible {eligible}.000000000"
        for name, area, eligible in (("A", 100, 100), ("B", 100, 100), ("C", 40, 0))
    )
    assert lpis("country", country, "--parcels") == [WEST_LINE, a, c, EAST_LINE, b, SUM, "yes"]


@pytest.mark.parametrize("text, names", READ, ids=short)
def test_plans_that_are_read(text, names, country):
    plan(country, f"lpis-country 1\n{text}")
    for name in names:
        region(country / name, EMPTY)
    lines = [
        f"{place} parcels 0 pieces 0 area 0.0000000 eligible 0.000000000"
        for place in (*(f"region {name}" for name in names), f"country regions {len(names)}")
    ]
    assert lpis("country", country) == [*lines, "yes"]


STRIPS, LAST = 150, 149
LONG = f"((-3 0,-2 0,-2 {STRIPS},-3 {STRIPS},-3 0))"
LONG_TURNED = f"((-2 0,-2 {STRIPS},-3 {STRIPS},-3 0,-2 0))"


def strip(place, parcels):
    """The texts of a region of parcels of one piece each: identifier, shape, and the box of its two triangles in
    metres."""
    rows = [(f'{name},"POLYGON{shape}"', f'p{name},{name},G,"POLYGON{shape}"') for name, shape, _ in parcels]
    lines = ["lpis-cert 2"]
    for name, _, box in parcels:
        x, y, right, top = (1000 * side for side in box)
        lines += [f"piece p{name} 2 0", f"t {x} {y} {right} {y} {right} {top}", f"t {x} {y} {right} {top} {x} {top}"]
    lines += (
        [f"parcel {name} 0" for name, *_ in parcels]
        + [f"pairs {len(parcels)}"]
        + [f"s {2 * k} {2 * k + 1} 2" for k in range(len(parcels))]
        + ["end"]
    )
    tables = (["parcel,wkt"] + [row for row, _ in rows], ["piece,parcel,class,wkt"] + [row for _, row in rows])
    region(place, ["\n".join(lines_of) + "\n" for lines_of in tables] + [CLASSES, "\n".join(lines) + "\n"])


def square(name, x, y, width=1):
    return name, f"(({x} {y},{x + width} {y},{x + width} {y + 1},{x} {y + 1},{x} {y}))", (x, y, x + width, y + 1)


def strips(low, high):
    if high - low == 1:
        return f"x 0\nregion w{low}\nregion e{low}\n"
    middle = (low + high) // 2
    return f"y {1000 * middle}\n{strips(low, middle)}{strips(middle, high)}"


@pytest.fixture(scope="module")
def long_country(tmp_path_factory):
    """Strips of a metre, in each a parcel that lies in the western and the eastern region, and one that lies in all
    western ones."""
    folder = tmp_path_factory.mktemp("long")
    (folder / "classes.csv").write_text(CLASSES, encoding="ascii")
    plan(folder, "lpis-country 1\n" + strips(0, STRIPS))
    for i in range(STRIPS):
        strip(folder / f"w{i}", [("L", LONG, (-3, 0, -2, STRIPS)), square(f"P{i}", -1, i, 2)])
        strip(folder / f"e{i}", [square(f"P{i}", -1, i, 2)])
    return folder


# The name of a parcel more in the east of a strip, or the shape that the long one has in the last western region; and
# the last line.
LET_GO = [
    (None, LONG, "yes"),
    ((LAST, "P0"), LONG, f"refused 93 parcel P0 region e{LAST}"),
    ((LAST, "P148"), LONG, f"refused 93 parcel P148 region e{LAST}"),
    ((LAST, "L"), LONG, f"refused 93 parcel L region e{LAST}"),
    ((120, "L"), LONG, "refused 94 parcel L region e120"),
    ((100, "P3"), LONG, "refused 93 parcel P3 region e100"),
    (None, LONG_TURNED, f"refused 94 parcel L region w{LAST}"),
    (None, None, f"refused 95 parcel L region w{LAST}"),
]


@pytest.mark.parametrize("more, shape, line", LET_GO, ids=short)
def test_rows_that_are_let_go(more, shape, line, long_country, tmp_path):
    """Many parcels are kept for later regions, and let go: the faults are those of any country."""
    folder = shutil.copytree(long_country, tmp_path / "country")
    if more:
        place, name = more
        strip(folder / f"e{place}", [square(f"P{place}", -1, place, 2), square(name, 5, place)])
    long = [("L", shape, (-3, 0, -2, STRIPS))] if shape else []
    strip(folder / f"w{LAST}", long + [square(f"P{LAST}", -1, LAST, 2)])
    assert lpis("country", folder)[-1] == line


@pytest.fixture(scope="module")
def published(tmp_path_factory):
    """A folder with the country, its first year in a register, and B called D."""
    folder = tmp_path_factory.mktemp("published")
    country = made(folder / "country")
    for name in ("west", "east"):
        write(country / name, lineage="old,new\n")
    assert lpis("publish-country", folder / "years.db", 2024, country) == [
        WEST_LINE,
        EAST_LINE,
        SUM,
        "yes",
        "published 2024",
    ]
    region(country / "east", EAST, B_IS_D)
    return folder


@pytest.mark.parametrize("west, east, answer", TABLES, ids=short)
def test_a_second_year(west, east, answer, published, tmp_path):
    """A row, or an identifier, that is refused leaves the register as it was."""
    folder = shutil.copytree(published, tmp_path / "again")
    register, country = folder / "years.db", folder / "country"
    write(country / "west", lineage=west)
    write(country / "east", lineage=east)
    before = said(register)
    wanted = [answer] if isinstance(answer, str) else [WEST_LINE, EAST_LINE, *answer]
    assert lpis("publish-country", register, 2025, country) == wanted
    if wanted[-1] != "published 2025":
        assert said(register) == before
        return
    assert lpis("trace", register, "B") == ["D"]
    assert said(register)[0][-1] == (2025, [("A",), ("C",), ("D",)], [(0, "B", "D", False)])
