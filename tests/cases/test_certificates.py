"""Certificates in which texts are replaced, with the first fault that is reported then."""

import pytest
from program import LEFT, RIGHT, SQUARE, edited, lpis, short, write

PARCEL = f'parcel,wkt\nA,"{SQUARE}"\n'
ONE_PIECE = f'piece,parcel,class,wkt\nC1,A,G,"{SQUARE}"\n'
HALVES = f'piece,parcel,class,wkt\nL,A,G,"{LEFT}"\nR,A,W,"{RIGHT}"\n'
# The left side of the right half is a centimetre too far to the right.
GAP = HALVES.replace("5 0,10 0,10 10,5 10,5 0", "5.01 0,10 0,10 10,5.01 10,5.01 0")
TWICE = "MULTIPOLYGON(((0 0,10 0,10 10,0 10,0 0)),((0 0,10 0,10 10,0 10,0 0)))"

# Version 1 has centimetres, version 2 millimetres.
SQUARE_CERT = (
    "lpis-cert 1\npiece C1 2 0\nt 0 0 1000 0 1000 1000\nt 0 0 1000 1000 0 1000\nparcel A 0\npairs 1\ns 0 1 2\nend\n"
)
HALVES_CERT = """lpis-cert 1
piece L 2 0
t 0 0 500 0 500 1000
t 0 0 500 1000 0 1000
piece R 2 0
t 500 0 1000 0 1000 1000
t 500 0 1000 1000 500 1000
parcel A 2
f 0 0 1000 0 500 0
f 1000 1000 0 1000 500 1000
pairs 2
s 0 1 2
s 2 3 2
end
"""
FAR = "lpis-cert 1\npiece A 1 0\nt 0 0 2000000000 0 0 -2000000000\npairs 0\nend\n"
FAR_IN_MILLIMETRES = "lpis-cert 2\npiece A 1 0\nt 0 0 20000000000 0 0 -20000000000\npairs 0\nend\n"
EXACT = """lpis-cert 2
piece A 1 0
t 0 0 10000 0 0 10000
parcel P 0
exact split S 1
f 0 0 10000 0 5000 0
exact merge M 2
f 0 0 10000 0 2500 0
f 2500 0 10000 0 7500 0
exact split T 0
pairs 0
end
"""

# A text, edits of it, and the first fault of the text; None where it is read.
READ = (
    [
        (SQUARE_CERT, edit, fault)
        for edit, fault in [
            (("lpis-cert 1", "lpis-cert 1\r"), "50 cert line 1"),
            (("lpis-cert 1", "lpis-cert 2"), None),
            (("lpis-cert 1", "lpis-cert 2 "), "50 cert line 1"),
            (("lpis-cert 1", "lpis-cert 3"), "50 cert line 1"),
            (("C1 2 0", "C1 1 0"), "53 cert line 4"),
            (("C1 2 0", "C1 3 0"), "53 cert line 5"),
            (("C1 2 0", "C1 2000001 0"), "56 cert line 2"),
            (("C1 2 0", "C1 2 4294967296"), "52 cert line 2"),
            (("C1 2 0", "C! 2 0"), "51 cert line 2"),
            (("C1 2 0", "C1  2 0"), "51 cert line 2"),
            (("t 0 0 1000 0", "t 00 0 1000 0"), "52 cert line 3"),
            (("t 0 0 1000 0", "t -0 0 1000 0"), "52 cert line 3"),
            (("t 0 0 1000 0", "t 0 0 1000"), "51 cert line 3"),
            (("t 0 0 1000 0", "f 00 0 1000 0"), "53 cert line 3"),
            (("parcel A 0", "piece C2 0 0"), None),
            (("pairs 1", "piece C2 0 0"), "53 cert line 6"),
            (("s 0 1 2", "s 0 1 6"), "52 cert line 7"),
            (("s 0 1 2", "s 1 0 2"), None),
            (("end", "end\n"), "55 cert line 9"),
            (("pairs 1", "pairs 4294967295"), "53 cert line 8"),
        ]
    ]
    + [
        (EXACT, edit, fault)
        for edit, fault in [
            (("cert 2", "cert 1"), "51 cert line 5"),
            (("exact split S 1", "exact"), "51 cert line 5"),
            (("exact split S 1", "exact splits S 1"), "51 cert line 5"),
            (("exact split S 1", "exact S split 1"), "51 cert line 5"),
            (("exact split S 1", "exact split S! 1"), "51 cert line 5"),
            (("exact split S 1", "exact split S"), "51 cert line 5"),
            (("exact split S 1", "exact split S 1 0"), "51 cert line 5"),
            (("exact split S 1", "exact split S 01"), "52 cert line 5"),
            (("exact split S 1", "exact split S 4294967296"), "52 cert line 5"),
            (("exact split S 1", "exact split S 0"), "53 cert line 6"),
            (("exact split S 1", "exact split S 2"), "53 cert line 7"),
            (("exact split S 1", "exact split S 2000001"), "56 cert line 5"),
            (("exact merge M 2", "exact merge M 2000000"), "56 cert line 7"),
            (("exact merge M 2", "exact merge M 1999999"), "53 cert line 10"),
            (("f 0 0 10000 0 5000 0", "t 0 0 10000 0 5000 0"), "53 cert line 6"),
            (("f 0 0 10000 0 5000 0", "f 0 0 10000 0 5000"), "51 cert line 6"),
            (("f 0 0 10000 0 5000 0", "f 0 0 10000 0 5000 00"), "52 cert line 6"),
            (("t 0 0 10000 0 0 10000", "exact split R 0"), "53 cert line 3"),
            (("exact split T 0", "piece T 0 0"), "53 cert line 10"),
            (("exact split T 0", "parcel T 0"), "53 cert line 10"),
            (("pairs 0", "s 0 1 0"), "53 cert line 11"),
            (("end", "exact split R 0"), "53 cert line 12"),
            (("parcel P 0\n", ""), None),
            (("piece A 1 0\nt 0 0 10000 0 0 10000\n", ""), None),
        ]
    ]
    + [
        ("", ("", ""), "54 cert line 1"),
        (FAR, ("", ""), None),
        (FAR, ("2000000000", "2000000001"), "52 cert line 3"),
        (FAR_IN_MILLIMETRES, ("", ""), None),
        (FAR_IN_MILLIMETRES, ("20000000000", "20000000001"), "52 cert line 3"),
        ("lpis-cert 1\npiece A 2000000 2000000\n", ("", ""), "54 cert line 3"),
        ("lpis-cert 2\nexact merge M 0\npairs 0\nend\n", ("", ""), None),
    ]
)

# The certificate's lines of the square's triangles, of the right half, and of the pairs; triangles that are turned
# round.
TRIANGLES = "2 0\nt 0 0 1000 0 1000 1000\nt 0 0 1000 1000 0 1000\n"
RIGHT_LINES = "piece R 2 0\nt 500 0 1000 0 1000 1000\nt 500 0 1000 1000 500 1000\n"
PAIRS, NO_PAIR, FIRST_PAIR = "pairs 2\ns 0 1 2\ns 2 3 2\n", "pairs 0\n", "pairs 2\ns 0 1 2\n"
RIGHT_TURNED = ("t 500 0 1000 0 1000 1000", "t 1000 0 500 0 1000 1000")
LEFT_TURNED = ("t 0 0 500 0 500 1000", "t 500 0 0 0 500 1000")
FLAT = "f 0 0 1000 0 500 0"

# Edits of the square's certificate, and of that of its halves, with the answer: `yes`, or the condition that fails and
# its place.
OF_THE_SQUARE = [
    ([], "yes"),
    ([("s 0 1 2", "s 0 1 3")], "yes"),
    ([("lpis-cert 1", "lpis-cert 2")], "64 piece C1"),
    ([("C1", "C2")], "60 piece C2"),
    ([("C1", "C2"), ("parcel A", "parcel B")], "60 piece C2"),
    ([("parcel A 0\n", "")], "60 parcel A"),
    ([("parcel A", "parcel B")], "60 parcel B"),
    ([("pairs", "parcel B 0\npairs")], "60 parcel B"),
    ([("s 0 1 2", "s 1 0 2")], "60 pair 1 0"),
    ([("s 0 1 2", "s 1 1 2")], "60 pair 1 1"),
    ([("s 0 1 2", "s 0 2 2")], "60 pair 0 2"),
    ([("pairs 1\ns 0 1 2\n", NO_PAIR)], "67 pair 0 1"),
    ([("s 0 1 2", "s 0 1 0")], "69 pair 0 1"),
    ([("s 0 1 2", "s 0 1 4")], "69 pair 0 1"),
    ([(TRIANGLES, "0 0\n"), ("pairs 1\ns 0 1 2\n", NO_PAIR)], "61 piece C1"),
    ([("t 0 0 1000 1000 0 1000", "t 1000 1000 0 0 0 1000")], "62 piece C1"),
    ([("C1 2 0", "C1 2 1"), ("parcel", "f 0 0 500 1 1000 0\nparcel")], "63 piece C1"),
    ([("C1 2 0", "C1 2 1"), ("parcel", "f 0 0 500 0 1000 0\nparcel")], "64 piece C1"),
    ([("2 0\n", "3 0\nt 0 0 1000 0 1000 1000\n")], "65 piece C1"),
]
OF_THE_HALVES = [
    ([], "yes"),
    ([(RIGHT_LINES, "")], "60 piece R"),
    ([("parcel A", "piece S 0 0\nparcel A")], "60 piece S"),
    ([(PAIRS, "pairs 2\ns 2 3 2\ns 0 1 2\n")], "60 pair 0 1"),
    ([(PAIRS, "pairs 2\ns 0 1 2\ns 0 1 2\n")], "60 pair 0 1"),
    ([(PAIRS, "pairs 1\ns 0 1 2\n")], "67 pair 2 3"),
    ([(PAIRS, "pairs 3\ns 0 1 2\ns 0 2 0\ns 2 3 2\n")], "68 pair 0 2"),
    ([RIGHT_TURNED], "62 piece R"),
    ([RIGHT_TURNED, LEFT_TURNED], "62 piece L"),
    ([(FIRST_PAIR, "pairs 1\n")], "67 pair 0 1"),
    ([(FIRST_PAIR, "pairs 1\n"), RIGHT_TURNED], "62 piece R"),
    ([(FLAT, "f 0 0 1000 0 500 1")], "63 parcel A"),
    ([(FLAT, "f 0 0 1000 0 400 0")], "64 parcel A"),
]
# A gap that the certificate follows, half a square centimetre, a square that is covered twice, and no rows.
SMALL = "Polygon ((0 0, 0.01 0, 0 0.010, 0 0))"
OTHERS = [
    (
        PARCEL,
        GAP,
        HALVES_CERT,
        [
            ("t 500 0 1000 0 1000 1000", "t 501 0 1000 0 1000 1000"),
            ("t 500 0 1000 1000 500 1000", "t 501 0 1000 1000 501 1000"),
        ],
        "66 parcel A",
    ),
    (
        f'parcel,wkt\nA,"{SMALL}"\n',
        f'piece,parcel,class,wkt\nC1,A,G,"{SMALL}"\n',
        "lpis-cert 1\npiece C1 1 0\nt 0 0 1 0 0 1\nparcel A 0\npairs 0\nend\n",
        [],
        "yes",
    ),
    (f'parcel,wkt\nA,"{TWICE}"\n', f'piece,parcel,class,wkt\nC1,A,G,"{TWICE}"\n', SQUARE_CERT, [], "65 piece C1"),
    ("parcel,wkt\n", "piece,parcel,class,wkt\n", "lpis-cert 1\npairs 0\nend\n", [], "yes"),
    # A block of a marked row, which `check` does not look at.
    (
        PARCEL,
        ONE_PIECE,
        SQUARE_CERT,
        [
            ("lpis-cert 1", "lpis-cert 2"),
            ("0 0 1000 0 1000 1000", "0 0 10000 0 10000 10000"),
            ("0 0 1000 1000 0 1000", "0 0 10000 10000 0 10000"),
            ("pairs", "exact merge Z 1\nf 0 0 1 1 5 7\npairs"),
        ],
        "yes",
    ),
]


OF_SQUARE = [(PARCEL, ONE_PIECE, SQUARE_CERT, edits, answer) for edits, answer in OF_THE_SQUARE]
OF_HALVES = [(PARCEL, HALVES, HALVES_CERT, edits, answer) for edits, answer in OF_THE_HALVES]


def check(folder, parcels, covers, certificate):
    """The last line of the check of a release."""
    (folder / "cert.txt").write_text(certificate, encoding="ascii", newline="")
    return lpis("check", write(folder / "release", parcels, covers), folder / "cert.txt")[-1]


@pytest.mark.parametrize("text, edit, fault", READ, ids=short)
def test_what_is_read(text, edit, fault, tmp_path):
    last = check(tmp_path, PARCEL, ONE_PIECE, edited(text, [edit]))
    assert last == f"refused {fault}" if fault else not last.startswith("refused 5")


@pytest.mark.parametrize("parcels, covers, text, edits, answer", OF_SQUARE + OF_HALVES + OTHERS, ids=short)
def test_what_is_shown(parcels, covers, text, edits, answer, tmp_path):
    assert check(tmp_path, parcels, covers, edited(text, edits)) == (answer if answer == "yes" else f"refused {answer}")
