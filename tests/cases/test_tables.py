"""Tables with their first fault, or with what is printed of them."""

import pytest
from program import CLASSES, LEFT, RIGHT, SQUARE, lpis, short, write
from test_certificates import HALVES_CERT, PARCEL

COVERS = "piece,parcel,class,wkt\n"
LONGEST = "abcdefghijABCDEFGHIJ0123456789._:/-xyzXY"
MOST = 200_000

# Headers of a table of polygons, and the fault that is reported.
HEADERS = [
    (b'\xef\xbb\xbfx,WKT,Name\r\n1,"' + SQUARE.encode() + b'",n\r\n2,c\r\n', "30 area row 2"),
    (b"Area,wkt,name\n7,w\n", "30 area row 1"),
    (b"area,WKT,name,wkt\n", "32 area row 0"),
    (b"", "31 area row 0"),
    (b"name,wkt2\n", "31 area row 0"),
    (b"\xef\xbb\xbf\xef\xbb\xbfname,wkt\n", "30 area row 0"),
]
# The classes of a release of one piece each, and its fault; None where they are read.
OF_CLASSES = [
    ("eligible,class\n1,G\n0,G\n", "34 classes row 2"),
    ("eligible,class\n1,G\nyes,W\n", "39 classes row 2"),
    ("eligible,class\n1,G\n0,W\n", None),
    ("class,percent\nG,0\nW,100\nX,37\nY,7\n", None),
    ("class,percent\nG,101\n", "3b classes row 1"),
    ("class,percent\nG,007\n", "3b classes row 1"),
    ("class,percent\nG,-0\n", "3b classes row 1"),
    ("class,percent\nG,1.0\n", "3b classes row 1"),
    ("class,percent\nG,\n", "3b classes row 1"),
    ("class,percent\nG G,\n", "33 classes row 1"),
    ("class,percent,eligible\nG,37,yes\nW,0,no\n", None),
    ("Eligible,Percent,class\n1,37,G\n0,0,W\n", None),
    ("class,percent,eligible,eligible\nG,37,1,1\n", "32 classes row 0"),
    ("class,eligible,eligible\nG,1,1\n", "32 classes row 0"),
    ("class,percent,percent\nG,37,37\n", "32 classes row 0"),
    ("class,name\nG G,x\n", "31 classes row 0"),
    ("name\nx\n", "31 classes row 0"),
    ("class,class,percent,percent\n", "32 classes row 0"),
]
# The table of parcels, the beginning of the right half's row, the classes, and what is reported; of a sound release
# what is eligible of A.
JOINED = [
    (PARCEL, "R,A,W", CLASSES, "50.000000000"),
    ("NAME,WKT,Parcel\nx," + PARCEL.split(",", 2)[2].rstrip() + ",A\n", "R,A,W", CLASSES, "50.000000000"),
    (PARCEL, "R,A,W", "class,percent\nG,100\nW,37\n", "68.500000000"),
    (PARCEL, "R,A,G", "class,percent\nW,100\nG,1\n", "1.000000000"),
    (PARCEL, "R,A,W", "class,percent\nW,0\nG,3\n", "1.500000000"),
    (PARCEL, "R,B,W", CLASSES, "35 covers row 2"),
    (PARCEL, "R,A,X", CLASSES, "36 covers row 2"),
    (PARCEL, "L,A,W", CLASSES, "34 covers row 2"),
    (f"parcel,wkt\n{LONGEST}Z,x\n", "R,A,W", CLASSES, "33 parcels row 1"),
    (PARCEL, "R,A,W", "class,eligible\nG,yes\n", "39 classes row 1"),
    (PARCEL, "R,A,W", "class,percent\nG,101\n", "3b classes row 1"),
]
# The tables of parcels and of pieces, and the beginning of what is reported.
REFUSED = [
    (PARCEL, COVERS, "37 parcels row 1"),
    (PARCEL, "piece,parcel,class,class,wkt\n", "32 covers row 0"),
    (PARCEL, COVERS.encode() + b"P,A,G,\xff\n", "30 covers row 1"),
    (PARCEL, COVERS + "P,A,G,POLYGON EMPTY\n", "38 covers row 1 wkt "),
    (f'parcel,wkt\n{LONGEST},"{SQUARE}"\n', COVERS, "37 parcels row 1"),
    ("parcel,wkt\na b,x\n", COVERS, "33 parcels row 1"),
    ('parcel,wkt\n"",x\n', COVERS, "33 parcels row 1"),
]


HALVES = f'{COVERS}L,A,G,"{LEFT}"\nR,A,W,"{RIGHT}"\n'


def check(folder, parcels, covers, classes=CLASSES, certificate=HALVES_CERT):
    (folder / "cert.txt").write_text(certificate, encoding="ascii")
    return lpis("check", write(folder / "release", parcels, covers, classes), folder / "cert.txt")


@pytest.mark.parametrize("text, fault", HEADERS, ids=short)
def test_headers(text, fault, tmp_path):
    (tmp_path / "area.csv").write_bytes(text)
    assert lpis("area", tmp_path / "area.csv")[-1] == f"refused {fault}"


@pytest.mark.parametrize("classes, fault", OF_CLASSES, ids=short)
def test_classes(classes, fault, tmp_path):
    assert check(tmp_path, PARCEL, HALVES, classes)[-1] == (f"refused {fault}" if fault else "yes")


@pytest.mark.parametrize("parcels, right, classes, answer", JOINED, ids=short)
def test_joined_tables(parcels, right, classes, answer, tmp_path):
    sound = [
        "parcels 1 pieces 2",
        f"parcel A area 100.0000000 eligible {answer}",
        f"total area 100.0000000 eligible {answer}",
        "yes",
    ]
    found = check(tmp_path, parcels, f'{COVERS}L,A,G,"{LEFT}"\n{right},"{RIGHT}"\n', classes)
    assert found == ([f"refused {answer}"] if "row" in answer else sound)


@pytest.mark.parametrize("parcels, covers, fault", REFUSED, ids=short)
def test_refused_tables(parcels, covers, fault, tmp_path):
    assert check(tmp_path, parcels, covers)[-1].startswith(f"refused {fault}")


@pytest.mark.parametrize("rows, answer", [(MOST, "60 piece 0"), (MOST + 1, f"3a covers row {MOST + 1}")], ids=short)
def test_most_rows(rows, answer, tmp_path):
    """Two tables of the most rows are read, and one row more is refused."""
    parcels = "parcel,wkt\n" + "".join(f'{number},"{SQUARE}"\n' for number in range(min(rows, MOST)))
    covers = COVERS + "".join(f'{number},{number % MOST},G,"{SQUARE}"\n' for number in range(rows))
    assert check(tmp_path, parcels, covers, certificate="lpis-cert 2\npairs 0\nend\n")[-1] == f"refused {answer}"
