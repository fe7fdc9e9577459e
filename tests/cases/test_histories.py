"""Strips of a map that are published year after year: what follows, what is refused, and what the register holds
then."""

import shutil

import pytest
from program import CLASSES, edited, lpis, short, write
from lpis_helpers.registers import said
from test_certificates import FAR, FAR_IN_MILLIMETRES, HALVES_CERT, SQUARE_CERT

# Each map's parcels: the identifier, that of its one piece, and where the strip begins and ends, in metres. A strip is
# ten metres high.
HALVES = [("B", "b1", 0, 5), ("C", "c1", 5, 10)]
MAPS = {
    "whole": [("A", "C1", 0, 10)],
    "halves": HALVES,
    "halves and A": [*HALVES, ("A", "C1", 20, 30)],
    "half": HALVES[:1],
    "merged": [("B", "C1", 0, 10)],
    "replaced": [("D", "d1", 0, 10)],
    "apart": [("B", "b1", 0, 5), ("C", "c1", 6, 10)],
    "seven": [
        (name, f"p{at}", at, at + 1) for at, name in enumerate(["kept", "split", "one", "other", "old", "drawn", "end"])
    ],
    "six": [
        ("kept", "p1", 0, 1),
        ("west", "p2", 1, 2),
        ("east", "p3", 2, 3),
        ("both", "p4", 3, 5),
        ("new", "p5", 5, 6),
        ("rest", "p6", 6, 7),
    ],
    "beside kept": [("A", "a1", 0, 3), ("B", "b1", 3, 5), ("K", "k1", 5, 10)],
    "kept": [("K", "k1", 0, 10)],
    "kept beside new": [("K", "k1", 0, 7), ("N", "n1", 7, 10)],
    "redrawn": [("C", "a1", 0, 3), ("D", "b1", 3, 5), ("K", "k1", 5, 10)],
    "grouped": [
        ("F", "p1", 0, 2),
        ("A", "p2", 2, 4),
        ("C", "p3", 4, 5),
        ("D", "p4", 5, 6),
        ("E", "p5", 6, 7),
        ("B", "p6", 7, 8),
    ],
    "regrouped": [
        ("f1", "p1", 0, 1),
        ("f2", "p2", 1, 2),
        ("a1", "p3", 2, 3),
        ("a2", "p4", 3, 4),
        ("N", "p5", 4, 6),
        ("M", "p6", 6, 8),
    ],
}
SPLIT, MERGE, MARKED = "A,B\nA,C\n", "C,B\n", "old,new,exact\n"
BLOCK = "exact split A 2\nf 0 0 10000 0 5000 0\nf 10000 10000 0 10000 5000 10000\n"
ALL = f"{MARKED}F,f1,1\nF,f2,1\nA,a1,1\nA,a2,1\nC,N,1\nD,N,1\nE,M,1\nB,M,1\n"
KEPT_ROWS = f"{MARKED}A,K,1\nB,K,1\n"
KINDS = "split,west\nsplit,east\nother,both\none,both\nold,new\nend,\ndrawn,both\ndrawn,rest\n"

# Histories of one register each. A step: the year, the map, the rows of lineage (under `old,new` where they have no
# header), the lines before `published YEAR` or the refusal, and the certificate's blocks where some are handed in; or
# an identifier, and what `trace` prints. `exact` in place of blocks: those that it makes.
HISTORIES = [
    [
        (2024, "whole", "", []),
        (2025, "halves", SPLIT, ["A split"]),
        ("A", "B C"),
        ("C", "C"),
        (2026, "halves and A", "", "81 lineage 76 A 2024"),
        ("A", "B C"),
        ("Q", "refused 83"),
        (2026, "merged", MERGE, ["C merged"]),
        ("A", "B"),
    ],
    [
        (2024, "whole", "", []),
        (2025, "replaced", f"{MARKED}A,D,1\n", "81 lineage 78 row 1"),
        (2025, "halves", f"{MARKED}A,,1\n", "81 lineage 78 row 1"),
        (2025, "halves", f"{MARKED}A,B,\nA,C,1\n", "81 lineage 78 row 2"),
        (2025, "replaced", f"{MARKED}A,D,2\n", "3c lineage row 1"),
        (2025, "replaced", "old,new,exact,exact\nA,D,1,1\n", "32 lineage row 0"),
        (2025, "replaced", "old\nA\n", "31 lineage row 0"),
        (2025, "replaced", "new,old\nB,A\nB,\n", "33 lineage row 2"),
        (2025, "replaced", "A,\nA,B B\n", "33 lineage row 2"),
    ],
    [
        (2024, "whole", "", []),
        (2025, "halves", SPLIT, ["A split"]),
        (2026, "halves", "Q,B\n", "81 lineage 70 row 1"),
        (2026, "halves", "A,B\n", "81 lineage 70 row 1"),
        (2026, "halves", "B,C\n", "81 lineage 71 row 1"),
        (2026, "half", "C,B\nC,X\n", "81 lineage 72 row 2"),
        (2026, "half", "C,B\nC,B\n", "81 lineage 73 row 2"),
        (2026, "half", "C,\nC,\n", "81 lineage 73 row 2"),
        (2026, "half", "C,B\nC,\n", "81 lineage 74 row 2"),
        (2026, "half", "C,\nC,B\n", "81 lineage 74 row 2"),
        (2026, "half", "", "81 lineage 75 C"),
    ],
    [
        (2024, "halves", "B,C\n", "81 lineage 70 row 1"),
        (2024, "halves", "B,\n", "81 lineage 70 row 1"),
        ("Q", "refused 83"),
        (2024, "whole", "", []),
        (2025, "halves", "", "81 lineage 75 A"),
        (2025, "halves", "A,\n", ["A ended"]),
        ("A", ""),
        (2025, "halves", "A,\n", "80 last 2025"),
        ("Q", "refused 83"),
        ("a", "refused 83"),
        ("", "refused 83"),
        ("no identifier", "refused 83"),
        ("\u00e4", "refused 83"),
    ],
    [
        (2024, "whole", "", []),
        (2026, "whole", "", []),
        ("A", "A"),
        (2025, "whole", "", "80 last 2026"),
        (2028, "replaced", "A,D\n", ["A replaced"]),
        (2029, "whole", "D,A\n", "81 lineage 76 A 2026"),
    ],
    [
        (2024, "seven", "", []),
        (
            2025,
            "six",
            KINDS,
            ["drawn redrawn", "end ended", "old replaced", "one merged", "other merged", "split split"],
        ),
        ("kept", "kept"),
        ("split", "east west"),
        ("one", "both"),
        ("old", "new"),
        ("drawn", "both rest"),
        ("end", ""),
    ],
    [
        (2024, "whole", "", []),
        (2025, "halves", f"{MARKED}A,B,1\nA,C,1\n", "85 exact 6d A", "exact split A 0\n"),
        (2025, "halves", f"{MARKED}A,B,1\nA,C,1\n", "85 exact 6a A"),
        (2025, "halves", f"{MARKED}A,B,1\nA,C,\n", "81 lineage 78 row 1", BLOCK),
        (2025, "apart", f"{MARKED}A,B,1\nA,C,1\n", "45 exact A", "exact"),
        (2025, "halves", "", "81 lineage 75 A", "exact"),
        (2025, "halves", f"{MARKED}A,B,1\nA,C,1\n", ["A split exact"], BLOCK),
        (2026, "merged", f"{MARKED}C,B,1\n", ["C merged exact"], "exact"),
    ],
    [
        (2024, "beside kept", "", []),
        (2025, "kept", f"{MARKED}A,K,1\nB,K,\n", "81 lineage 78 row 1"),
        # K has other predecessors, so A is redrawn; A is merged, but B is redrawn; a row stands twice, whatever its
        # marks
        (2025, "kept beside new", f"{MARKED}A,K,1\nA,N,1\nB,K,1\n", "81 lineage 78 row 1"),
        (2025, "redrawn", f"{MARKED}A,C,1\nB,C,1\nB,D,1\n", "81 lineage 78 row 1"),
        (2025, "kept", f"{MARKED}A,K,1\nA,K,0\nB,K,1\n", "81 lineage 73 row 2"),
        (2025, "kept", KEPT_ROWS, "85 exact 6a K", "exact split K 0\n"),
        (2025, "kept", "A,K\nB,K\n", "85 exact 6a Q", "exact merge Q 0\n"),
        (2025, "kept", KEPT_ROWS, ["A merged exact", "B merged exact"], "exact"),
    ],
    [
        (2024, "grouped", "", []),
        (
            2025,
            "regrouped",
            ALL.replace("C,N,1\nD,N,1", "C,N,\nD,N,0"),
            ["A split exact", "B merged exact", "C merged", "D merged", "E merged exact", "F split exact"],
            "exact",
        ),
    ],
]
# Edits of the blocks of a split of A and a merge to M, and the fault of them.
TWO = {
    2024: [("A", "a0", 0, 10), ("M1", "m1", 20, 25), ("M2", "m2", 25, 30)],
    2025: [("A1", "a1", 0, 5), ("A2", "a2", 5, 10), ("M", "m0", 20, 30)],
}
TWO_ROWS = f"{MARKED}A,A1,1\nA,A2,1\nM1,M,1\nM2,M,1\n"
FIRST = "f 0 0 10000 0 5000 0"
SPLIT_BLOCK = f"exact split A 2\n{FIRST}\nf 10000 10000 0 10000 5000 10000\n"
MERGE_BLOCK = "exact merge M 2\nf 20000 0 30000 0 25000 0\nf 30000 10000 20000 10000 25000 10000\n"
BENT, OTHER_BENT = (FIRST, "f 0 0 10000 0 5000 1"), ("f 20000 0 30000 0 25000 0", "f 20000 0 30000 0 25000 1")
BLOCKS = [
    ([], None),
    ([("split A", "merge A")], "6a A"),
    ([("split A", "split B")], "6a B"),
    ([("merge M", "split M")], "6a M"),
    ([("merge M", "merge N")], "6a N"),
    ([(MERGE_BLOCK, "")], "6a M"),
    ([(MERGE_BLOCK, f"{MERGE_BLOCK}exact split Z 0\n")], "6a Z"),
    ([BENT, ("merge M", "merge N")], "6a N"),
    ([BENT], "6b A"),
    ([(FIRST, "f 0 0 10000 0 0 0")], "6b A"),
    ([OTHER_BENT], "6b M"),
    ([(FIRST, "f 0 0 10000 0 4000 0")], "6c A"),
    ([(FIRST, "f 0 0 10000 0 4000 0"), OTHER_BENT], "6b M"),
    ([(SPLIT_BLOCK, "exact split A 0\n")], "6d A"),
    ([(FIRST, "f 0 0 5000 0 10000 0")], "6d A"),
    ([(MERGE_BLOCK, "exact merge M 0\n")], "6d M"),
    ([("A 2\n", f"A 3\n{FIRST}\n")], "6d A"),
]
# Wrong inputs for the halves after the square, which are put right one by one: the first fault is reported.
ORDER = [
    (2024, "parcel\n", "piece\n", "lpis-cert 0\n", "old\n", "31 parcels row 0"),
    (2024, None, "piece\n", "lpis-cert 0\n", "old\n", "31 covers row 0"),
    (2024, None, None, "lpis-cert 0\n", "old\n", "50 cert line 1"),
    (2024, None, None, SQUARE_CERT, "old\n", "31 lineage row 0"),
    (2024, None, None, SQUARE_CERT, "old,new\nQ,B\n", "60 piece C1"),
    (2024, None, None, None, "old,new\nQ,B\n", "80 last 2024"),
    (2025, None, None, None, "old,new\nQ,B\n", "81 lineage 70 row 1"),
]


def in_millimetres(text):
    """What is written of a certificate of version 1."""
    lines = [
        " ".join([line[0], *(str(10 * int(value)) for value in line.split()[1:])]) if line[:2] in ("t ", "f ") else line
        for line in text.splitlines()
    ]
    return "\n".join(["lpis-cert 2", *lines[1:], ""])


def tables_of(strips):
    field = '"POLYGON(({0} 0,{1} 0,{1} 10,{0} 10,{0} 0))"'
    parcels = "".join(f"{parcel},{field.format(west, east)}\n" for parcel, _, west, east in strips)
    covers = "".join(f"{piece},{parcel},G,{field.format(west, east)}\n" for parcel, piece, west, east in strips)
    return f"parcel,wkt\n{parcels}", f"piece,parcel,class,wkt\n{covers}"


def certificate_of(strips, blocks):
    """Each strip is cut in two."""
    lines = ["lpis-cert 2\n"]
    for _, piece, west, east in strips:
        west, east = 1000 * west, 1000 * east
        lines.append(f"piece {piece} 2 0\nt {west} 0 {east} 0 {east} 10000\nt {west} 0 {east} 10000 {west} 10000\n")
    lines += [f"parcel {parcel} 0\n" for parcel, *_ in strips]
    return "".join(
        [
            *lines,
            blocks,
            f"pairs {len(strips)}\n",
            *(f"s {2 * at} {2 * at + 1} 2\n" for at in range(len(strips))),
            "end\n",
        ]
    )


def lines_of(strips, year, lineage):
    """What is printed of strips that are published."""
    areas = [
        f"area {10 * (east - west)}.0000000 eligible {10 * (east - west)}.000000000" for _, _, west, east in strips
    ]
    total = sum(10 * (east - west) for _, _, west, east in strips)
    return [
        f"parcels {len(strips)} pieces {len(strips)}",
        *(f"parcel {strip[0]} {area}" for strip, area in zip(strips, areas)),
        f"total area {total}.0000000 eligible {total}.000000000",
        "yes",
        *(f"lineage {line}" for line in lineage),
        f"published {year}",
    ]


def shape_of(strip):
    """The identifier of a strip's parcel, and its polygon as a register keeps it."""
    west, east = strip[2:]
    return (
        strip[0],
        f"POLYGON(({west}.000 0.000,{east}.000 0.000,{east}.000 10.000,{west}.000 10.000,{west}.000 0.000))",
    )


def hand_in(register, folder, year, strips, rows, blocks=""):
    """What is printed where strips are published."""
    parcels, covers = tables_of(strips)
    write(folder, parcels, covers, CLASSES, lineage=rows if rows.startswith(("old", "new")) else f"old,new\n{rows}")
    certificate = folder / "cert.txt"
    certificate.write_text(certificate_of(strips, "" if blocks == "exact" else blocks), encoding="ascii")
    if blocks == "exact":
        found = lpis("exact", register, folder, certificate, folder / "exact.txt")
        if found[0].startswith("refused"):
            return found
        certificate = folder / "exact.txt"
    return lpis("publish", register, year, folder, certificate)


@pytest.mark.parametrize("steps", HISTORIES, ids=short)
def test_histories(steps, tmp_path):
    register = tmp_path / "years.db"
    for step in steps:
        before = said(register) if register.exists() else None
        if isinstance(step[0], str):
            assert " ".join(lpis("trace", register, step[0])) == step[1], step
        else:
            year, name, rows, answer, *blocks = step
            wanted = [f"refused {answer}"] if isinstance(answer, str) else lines_of(MAPS[name], year, answer)
            assert hand_in(register, tmp_path / "release", year, MAPS[name], rows, *blocks) == wanted, step
            if not isinstance(answer, str):
                assert said(register)[1] == sorted(shape_of(strip) for strip in MAPS[name]), step
                continue
        if before:
            assert said(register) == before, step
    words = [step[0] for step in steps if isinstance(step[0], str)]
    if len(words) > 1:  # of several words the answers are those to each alone, behind a line of the word
        alone = [(f"trace {word}", *lpis("trace", register, word)) for word in words]
        assert lpis("trace", register, *words) == [line for answer in alone for line in answer]


@pytest.fixture(scope="module")
def kept(tmp_path_factory):
    """Registers of the year 2024, by name: of the halves' whole, and of a split and a merge."""
    folder = tmp_path_factory.mktemp("kept")
    for name, strips in (("order", MAPS["whole"]), ("two", TWO[2024])):
        hand_in(folder / f"{name}.db", folder / name, 2024, strips, "")
    return folder


@pytest.mark.parametrize("edits, fault", BLOCKS, ids=short)
def test_blocks(edits, fault, kept, tmp_path):
    register = shutil.copy(kept / "two.db", tmp_path)
    found = hand_in(register, tmp_path / "two", 2025, TWO[2025], TWO_ROWS, edited(SPLIT_BLOCK + MERGE_BLOCK, edits))
    assert found[-1] == (f"refused 85 exact {fault}" if fault else "published 2025")


@pytest.mark.parametrize("year, parcels, covers, cert, lineage, fault", ORDER, ids=short)
def test_order_of_faults(year, parcels, covers, cert, lineage, fault, kept, tmp_path):
    """`exact` looks neither at the year nor at what the certificate shows."""
    register, whole = shutil.copy(kept / "order.db", tmp_path), tables_of(HALVES)
    release = write(tmp_path / "order", parcels or whole[0], covers or whole[1], CLASSES, lineage=lineage)
    (release / "cert.txt").write_text(cert or certificate_of(HALVES, ""), encoding="ascii")
    assert lpis("publish", register, year, release, release / "cert.txt") == [f"refused {fault}"]
    line = fault if fault[0] in "35" else "81 lineage 70 row 1"
    assert lpis("exact", register, release, release / "cert.txt", release / "out.txt") == [f"refused {line}"]


@pytest.mark.parametrize(
    "text, wanted",
    [
        (SQUARE_CERT, in_millimetres(SQUARE_CERT)),
        (HALVES_CERT, in_millimetres(HALVES_CERT)),
        (FAR, FAR_IN_MILLIMETRES),
        (FAR_IN_MILLIMETRES, FAR_IN_MILLIMETRES),
    ],
    ids=short,
)
def test_exact_without_marks(text, wanted, kept, tmp_path):
    """What is written is the certificate itself, in millimetres."""
    release = write(tmp_path / "release", *tables_of(HALVES), CLASSES, lineage="old,new\nA,B\nA,C\n")
    (release / "cert.txt").write_text(text, encoding="ascii")
    assert lpis(
        "exact", shutil.copy(kept / "order.db", tmp_path), release, release / "cert.txt", release / "out.txt"
    ) == ["exact 0"]
    assert (release / "out.txt").read_text(encoding="ascii") == wanted
