"""Registers that are written, and those that SQLite wrote: of version 3, with and without `lpis_mark`, and of versions
1 and 2, which are moved. The worked example goes through its years over a new register and over one of each version,
and with marks over a new one."""

import sqlite3

from lpis_helpers.asking import (
    TOP,
    YEARS,
    NEW,
    MOVED,
    HISTORY,
    MARKED,
    SHAPES,
    ELSEWHERE,
    expect,
    lpis,
    rows,
    dump,
    texts,
    expect_whole,
    names_of,
    expect_tables,
)
from lpis_helpers.asking import publish, expect_published, release_of, expect_spans, write_release
from lpis.formats import byte_tables, polygons
from lpis_helpers.registers import (
    LEFT,
    MARK,
    MARKS,
    RIGHT,
    ROW,
    SPAN,
    SPANS,
    SQUARE,
    TABLES,
    TEXT,
    TEXTS,
    VERSION_1,
    VERSION_2,
    VERSION_3,
    WITHOUT_MARKS,
    made,
)
from lpis_helpers.registers import said
from lpis_helpers.tables import polygon_text

# Texts and marks of another history, in tables of a version that has neither: whatever they are, the move empties them.
STALE = (
    TEXT + MARK + "INSERT INTO lpis_text VALUES ('B', 'no polygon'), ('X', ''); INSERT INTO lpis_mark VALUES (2025, 1);"
)

# Parcels whose corners are written in other ways than the register writes them, and the texts that it keeps.
SPELLED = {
    "small": (
        "polygon ( ( -0.001 -.001 , 0.01 -0.001 , +0.01 00.010 , -0.001 0.01000 , -0.001 -0.001 ) )",
        "POLYGON((-0.001 -0.001,0.010 -0.001,0.010 0.010,-0.001 0.010,-0.001 -0.001))",
    ),
    "zeros": (
        "POLYGON((-0 100,+5. 100,005 105,-0.000 105,0 100))",
        "POLYGON((0.000 100.000,5.000 100.000,5.000 105.000,0.000 105.000,0.000 100.000))",
    ),
    "far": (
        "POLYGON((19999999.99 19999999,20000000 19999999,20000000 20000000,19999999.99 20000000,19999999.99 19999999))",
        (
            "POLYGON((19999999.990 19999999.000,20000000.000 19999999.000,20000000.000 20000000.000,19999999.990"
            " 20000000.000,19999999.990 19999999.000))"
        ),
    ),
    "near": (
        (
            "POLYGON((-20000000 -20000000,-19999999 -20000000,-19999999 -19999999.5,-20000000 -19999999.5,-20000000"
            " -20000000))"
        ),
        (
            "POLYGON((-20000000.000 -20000000.000,-19999999.000 -20000000.000,-19999999.000 -19999999.500,-20000000.000"
            " -19999999.500,-20000000.000 -20000000.000))"
        ),
    ),
    "clockwise": (
        "POLYGON((200 0,200 10,210 10,210 0,200 0),(202 2,208 2,208 8,202 8,202 2))",
        (
            "POLYGON((200.000 0.000,200.000 10.000,210.000 10.000,210.000 0.000,200.000 0.000),"
            "(202.000 2.000,208.000 2.000,208.000 8.000,202.000 8.000,202.000 2.000))"
        ),
    ),
    "one-member": (
        "MULTIPOLYGON(((300 0,310 0,310 10,300 10,300 0)))",
        "POLYGON((300.000 0.000,310.000 0.000,310.000 10.000,300.000 10.000,300.000 0.000))",
    ),
    "two-members": (
        "MultiPolygon(((400 0,410 0,410 10,400 10,400 0),(402 2,404 2,404 4,402 2)),((420 0,430 0,430 10,420 0)))",
        (
            "MULTIPOLYGON(((400.000 0.000,410.000 0.000,410.000 10.000,400.000 10.000,400.000 0.000),"
            "(402.000 2.000,404.000 2.000,404.000 4.000,402.000 2.000)),"
            "((420.000 0.000,430.000 0.000,430.000 10.000,420.000 0.000)))"
        ),
    ),
    "twice-a-point": (
        "POLYGON((500 0,500 0,510 0,510 10,510 10,500 0))",
        "POLYGON((500.000 0.000,500.000 0.000,510.000 0.000,510.000 10.000,510.000 10.000,500.000 0.000))",
    ),
}


def asked(path, queries):
    """What the queries of a file under tools/ find, row by row, without the words between them."""
    lines = (TOP / "tools" / queries).read_text(encoding="utf-8").splitlines()
    statements = "\n".join(line for line in lines if not line.startswith((".print", "--"))).split(";")
    return [row for statement in statements if statement.strip() for row in rows(path, statement)]


def kept(members):
    """The text that a register keeps of a polygon."""
    return polygon_text([[ring[:-1] for ring in member] for member in members], 3)


def shapes_of(release):
    """What a register keeps of a release, from its own parcels table."""
    table = byte_tables.Table(byte_tables.path_of(release, "parcels"), "parcels")
    return sorted(
        (table.field(record, "parcel").decode(), kept(polygons.read(table.field(record, "wkt"))))
        for _, record in table.rows()
    )


def test_written(tmp_path):
    """What two publishes write."""
    path = tmp_path / "years.db"
    for year in ("2024", "2025"):
        publish(tmp_path, path, year, YEARS / year)
        expect_tables(f"after {year}", path, NEW, tmp_path)
        expect(f"shapes after {year}", texts(path), shapes_of(YEARS / year))
        expect(f"marks after {year}", rows(path, "SELECT * FROM lpis_mark"), [])
    expect(
        "tools/audit.sql",
        asked(path, "audit.sql"),
        [
            (3,),
            ("ok",),
            (2024, 5, 5, 0, 0),
            (2025, 4, 3, 4, 5),
            (2025, 1, 2, 1),
            (2025, "north", 2),
            (2025, "valley", 2),
        ],
    )
    lengths = sorted(((name, len(text)) for name, text in texts(path)), key=lambda found: (-found[1], found[0]))
    expect(
        "tools/audit_shapes.sql",
        asked(path, "audit_shapes.sql"),
        [(4, 4, sum(length for _, length in lengths)), *lengths],
    )
    expect(
        "the shape of valley",
        dict(texts(path))["valley"],
        "POLYGON((0.000 0.000,100.000 0.000,100.000 30.000,0.000 30.000,0.000 0.000))",
    )
    expect("releases", rows(path, "SELECT * FROM lpis_release ORDER BY year"), [(2024,), (2025,)])
    expect(
        "spans",
        rows(path, "SELECT * FROM lpis_span ORDER BY id"),
        [
            ("east", 2024, 2024),
            ("grove", 2024, 0),
            ("north", 2024, 2024),
            ("north-1", 2025, 0),
            ("north-2", 2025, 0),
            ("pond", 2024, 2024),
            ("south", 2024, 2024),
            ("valley", 2025, 0),
        ],
    )
    expect(
        "rows of lineage",
        rows(path, "SELECT * FROM lpis_row ORDER BY year, pos"),
        [
            (2025, 0, "north", "north-1"),
            (2025, 1, "north", "north-2"),
            (2025, 2, "south", "valley"),
            (2025, 3, "east", "valley"),
            (2025, 4, "pond", ""),
        ],
    )
    before = dump(path)
    for words in (
        ("publish", path, 2025, YEARS / "2025", tmp_path / "2025.txt"),
        ("publish", path, 2026, YEARS / "2024", tmp_path / "2024.txt"),
        ("publish", path, 2026, YEARS / "2024", tmp_path / "2025.txt"),
        ("trace", path, "brook"),
        ("trace", path, "north"),
    ):
        lpis(*words)
        expect(f"{words[0]} {words[2]} leaves the rows", dump(path), before)
    connection = sqlite3.connect(path)
    connection.execute("BEGIN EXCLUSIVE")
    expect("a file that is locked", lpis("trace", path, "north"), ("2> failed store\n", 3))
    connection.rollback()
    connection.close()
    expect("a file that is free again", lpis("trace", path, "north"), ("north-1\nnorth-2\n", 0))


def test_marked(tmp_path):
    """The marks that a publish writes: those of the rows, each at its place, and none where a row is refused."""
    path, release = tmp_path / "years.db", tmp_path / "2025"
    release.mkdir()
    for name in ("parcels.csv", "covers.csv", "classes.csv"):
        (release / name).write_bytes((YEARS / "2025" / name).read_bytes())
    publish(tmp_path, path, 2024, YEARS / "2024")
    expect("cut of the second year", lpis("cut", release, tmp_path / "2025.txt")[1], 0)
    before = dump(path)
    lines = ["pond,,", "north,north-1,1", "north,north-2,1", "south,valley,", "east,valley,0"]
    for name, answer, text in (
        (
            "a mark that is no mark",
            ("refused 3c lineage row 2\n", 2),
            "\n".join(["old,new,exact", lines[0], "north,north-1,yes", *lines[2:]]),
        ),
        (
            "a split of which one row is marked",
            ("refused 81 lineage 78 row 2\n", 1),
            "\n".join(["old,new,exact", *lines[:2], "north,north-2,0", *lines[3:]]),
        ),
    ):
        (release / "lineage.csv").write_text(text + "\n")
        expect(name, lpis("publish", path, 2025, release, tmp_path / "2025.txt"), answer)
        expect(f"{name}: nothing is changed", dump(path), before)
    (release / "lineage.csv").write_text(
        "\n".join(["Exact,new,old", *(",".join(reversed(line.split(","))) for line in lines)]) + "\n"
    )
    expect(
        "a split that is marked, without its block",
        lpis("publish", path, 2025, release, tmp_path / "2025.txt"),
        ("refused 85 exact 6a north\n", 1),
    )
    expect("exact", lpis("exact", path, release, tmp_path / "2025.txt", tmp_path / "exact.txt"), ("exact 1\n", 0))
    expect("both leave the rows", dump(path), before)
    text, status = lpis("publish", path, 2025, release, tmp_path / "exact.txt")
    expect(
        "a split that is marked",
        (text.splitlines()[-5:], status),
        (
            [
                "lineage east merged",
                "lineage north split exact",
                "lineage pond ended",
                "lineage south merged",
                "published 2025",
            ],
            0,
        ),
    )
    expect("its marks", rows(path, "SELECT * FROM lpis_mark ORDER BY year, pos"), [(2025, 1), (2025, 2)])
    expect(
        "tools/audit.sql with marks",
        asked(path, "audit.sql"),
        [
            (3,),
            ("ok",),
            (2024, 5, 5, 0, 0),
            (2025, 4, 3, 4, 5),
            (2025, 1, 2, 1),
            (2025, "north", 2),
            (2025, "valley", 2),
        ],
    )
    expect("the marks of tools/audit_shapes.sql", asked(path, "audit_shapes.sql")[-1], (2025, 2))
    expect(
        "its rows",
        rows(path, "SELECT pos, old, new FROM lpis_row ORDER BY year, pos"),
        [
            (0, "pond", ""),
            (1, "north", "north-1"),
            (2, "north", "north-2"),
            (3, "south", "valley"),
            (4, "east", "valley"),
        ],
    )
    expect_tables("with marks", path, NEW, tmp_path)
    before = dump(path)
    expect("a register with marks opens", lpis("trace", path, "north"), ("north-1\nnorth-2\n", 0))
    expect("and stays as it is", dump(path), before)


def test_shapes(tmp_path):
    """The shapes that a register keeps of releases of every kind, read with sqlite3 and held against the releases'
    own tables."""
    for name in ("square", "pasture", "holes", "junctions", "members", "sweep"):
        release = tmp_path / name
        release.mkdir()
        for table in ("parcels.csv", "covers.csv", "classes.csv"):
            (release / table).write_bytes((TOP / "examples" / name / table).read_bytes())
        (release / "lineage.csv").write_text("old,new\n")
        publish(tmp_path, tmp_path / f"{name}.db", 2024, release)
        expect(f"shapes of {name}", texts(tmp_path / f"{name}.db"), shapes_of(release))
    release, path = tmp_path / "spelled", tmp_path / "spelled.db"
    write_release(release, {name: wkt for name, (wkt, _) in SPELLED.items()}, "old,new")
    publish(tmp_path, path, 2024, release)
    expect(
        "texts that are spelled in other ways", texts(path), sorted((name, text) for name, (_, text) in SPELLED.items())
    )
    before = dump(path)
    expect("a register of them opens", lpis("trace", path, "far"), ("far\n", 0))
    expect("and stays as it is", dump(path), before)
    write_release(release, {}, "old,new", *(f"{name}," for name in SPELLED))
    publish(tmp_path, path, 2025, release)
    expect("no shape is kept of a release without parcels", texts(path), [])


def test_found(tmp_path):
    """What SQLite wrote."""
    for number, (name, script, order, history, shapes) in enumerate(
        (
            ("version 3", VERSION_3, NEW, MARKED, SHAPES),
            ("version 3 without marks", WITHOUT_MARKS, NEW, HISTORY, SHAPES),
            ("version 3 with some texts", VERSION_3 + "DELETE FROM lpis_text WHERE id = 'B';", NEW, MARKED, SHAPES[1:]),
            (
                "version 3 with texts in another spelling",
                VERSION_3 + "UPDATE lpis_text SET wkt = replace(lower(wkt), '.000', '');",
                NEW,
                MARKED,
                [(name, text.lower().replace(".000", "")) for name, text in SHAPES],
            ),
            ("version 3 without texts and marks", VERSION_2 + "UPDATE lpis_format SET version = 3;", NEW, HISTORY, []),
            ("version 2", VERSION_2, NEW, HISTORY, []),
            (
                "version 2 that was version 1",
                VERSION_1 + SPAN + SPANS + "DELETE FROM lpis_live; UPDATE lpis_format SET version = 2;",
                MOVED,
                HISTORY,
                [],
            ),
            ("version 2 with texts and marks of another history", VERSION_2 + STALE, NEW, HISTORY, []),
            ("version 1", VERSION_1, MOVED, HISTORY, []),
            (
                "version 1 with spans, texts and marks of another history",
                VERSION_1 + SPAN + "INSERT INTO lpis_span VALUES ('X', 2024, 0);" + STALE,
                MOVED,
                HISTORY,
                [],
            ),
            (
                "version 3 that was version 1",
                VERSION_1
                + SPAN
                + SPANS
                + TEXT
                + TEXTS
                + MARK
                + MARKS
                + "DELETE FROM lpis_live; UPDATE lpis_format SET version = 3;",
                MOVED,
                MARKED,
                SHAPES,
            ),
        )
    ):
        path, before = made(tmp_path / f"{number}.db", script), None
        for time in ("opened", "opened again"):
            expect(f"{name}, {time}", lpis("trace", path, "A"), ("B\nC\n", 0))
            expect(f"{name}, {time}: what it says", said(path), (history, shapes))
            expect(
                f"{name}, {time}: spans",
                rows(path, "SELECT * FROM lpis_span ORDER BY id"),
                [("A", 2024, 2024), ("B", 2025, 0), ("C", 2025, 0)],
            )
            if "lpis_live" in order:
                expect(f"{name}, {time}: live rows", rows(path, "SELECT * FROM lpis_live"), [])
            expect_tables(f"{name}, {time}", path, order, tmp_path)
            expect(f"{name}, {time}: the same as before", before in (None, dump(path)), True)
            before = dump(path)
        marked_year(tmp_path, f"{name}, a marked split", path, dict(shapes))
        third_year(tmp_path, f"{name}, a third year", path, history, dict(shapes))
    path = made(tmp_path / "kept.db", VERSION_3, "INSERT INTO lpis_release VALUES (2026)")
    expect("a release that keeps all", lpis("trace", path, "A"), ("B\nC\n", 0))
    expect("an identifier in no release", lpis("trace", path, "D"), ("refused 83\n", 1))
    expect("several identifiers", lpis("trace", path, "A", "B", "A"), ("trace A\nB\nC\ntrace B\nB\ntrace A\nB\nC\n", 0))
    expect(
        "several identifiers, one in no release",
        lpis("trace", path, "D", "A"),
        ("trace D\nrefused 83\ntrace A\nB\nC\n", 1),
    )
    for name, path in {
        "a new file": tmp_path / "new.db",
        "an empty database": made(tmp_path / "empty.db", "PRAGMA user_version = 1"),
    }.items():
        expect(name, lpis("trace", path, "A"), ("refused 83\n", 1))
        expect_tables(name, path, NEW, tmp_path)
        expect(f"{name}: what it says", said(path), ([], []))
    path, cert = tmp_path / "of_exact.db", tmp_path / "first.txt"
    expect("cut for exact", lpis("cut", YEARS / "2024", cert)[1], 0)
    expect(
        "exact over a new file", lpis("exact", path, YEARS / "2024", cert, tmp_path / "first_out.txt"), ("exact 0\n", 0)
    )
    expect("exact over a new file: OUT", (tmp_path / "first_out.txt").read_text(), cert.read_text())
    expect_tables("exact over a new file", path, NEW, tmp_path)
    expect("exact over a new file: what it says", said(path), ([], []))
    for name, missing in {
        "the table of the version": TABLES[3].replace(TABLES[3].split(";")[0] + ";", ""),
        "the rows of lineage": TABLES[3].replace(ROW, "").replace(MARK, "") + "INSERT INTO lpis_format VALUES (1, 3);",
    }.items():
        path = made(tmp_path / f"{name.replace(' ', '_')}.db", missing)
        expect(f"tables without {name}", lpis("trace", path, "A"), ("refused 83\n", 1))
        expect(f"tables without {name}: the tables", sorted(names_of(path)), sorted(NEW))


def test_read_back(tmp_path):
    """A move that would take rows of lineage with it: the tables are read back before it is committed, and nothing
    is changed."""
    keyed = ROW.replace("PRIMARY KEY", "text TEXT REFERENCES lpis_text (id) ON DELETE CASCADE, PRIMARY KEY")
    path = made(
        tmp_path / "keyed.db",
        TABLES[2].replace(ROW, keyed),
        TEXT,
        (
            "INSERT INTO lpis_format VALUES (1, 2); INSERT INTO lpis_release VALUES (2024), (2025);INSERT INTO"
            " lpis_text VALUES ('B', ''); INSERT INTO lpis_row VALUES (2025, 0, 'A', 'B', 'B'), (2025, 1, 'A', 'C',"
            " NULL);"
        ),
        SPANS,
    )
    before = dump(path)
    expect("rows that would go", lpis("trace", path, "A"), ("2> failed store\n", 3))
    expect("rows that would go: nothing is changed", dump(path), before)
    made(path, "UPDATE lpis_row SET text = NULL")
    expect("rows that stay", lpis("trace", path, "A"), ("B\nC\n", 0))
    expect("rows that stay: what it says", said(path), (HISTORY, []))


def marked_year(folder, name, path, shapes):
    """B is split in a copy of a register which SQLite wrote: exactly, where its shape is kept; else the split is
    refused."""
    copy, out = path.with_suffix(".copy.db"), folder / "out.txt"
    halves = {"D": "POLYGON((0 0,5 0,5 4,0 6,0 0))", "E": "POLYGON((0 6,5 4,5 10,0 10,0 6))", "C": RIGHT}
    release, cert = release_of(folder, "halves", halves, "old,new,exact", "B,D,1", "B,E,1")
    copy.write_bytes(path.read_bytes())
    out.unlink(missing_ok=True)
    before = dump(copy)
    is_kept = "B" in shapes
    expect(
        f"{name}: exact",
        lpis("exact", copy, release, cert, out),
        ("exact 1\n", 0) if is_kept else ("refused 81 lineage 77 B\n", 1),
    )
    expect(f"{name}: exact leaves the rows", dump(copy), before)
    expect(f"{name}: OUT", out.exists(), is_kept)
    text, status = lpis("publish", copy, 2026, release, out if is_kept else cert)
    wanted = (["lineage B split exact", "published 2026"], 0) if is_kept else (["refused 81 lineage 77 B"], 1)
    expect(f"{name}: publish", (text.splitlines()[-2:], status), wanted)
    expect(
        f"{name}: its marks",
        rows(copy, "SELECT pos FROM lpis_mark WHERE year = 2026 ORDER BY pos"),
        [(0,), (1,)] if is_kept else [],
    )


def third_year(folder, name, path, history, shapes):
    """B becomes D in a release that is published over a register which SQLite wrote: its shapes are kept, and no
    others. The text of C, which is as it was, stays as it was spelled."""
    release, cert = release_of(folder, "third", {"D": LEFT, "C": RIGHT}, "old,new", "B,D")
    expect_published(name, path, 2026, release, cert, "lineage B replaced")
    third = (2026, [("C",), ("D",)], [(0, "B", "D", False)])
    expect(f"{name}: what it says", said(path), ([*history, third], [("C", shapes.get("C", RIGHT)), ("D", LEFT)]))
    expect_whole(name, path)


def test_changed_year(tmp_path):
    """Releases whose texts differ from the kept ones by the release alone: each text is that of its parcel, and one
    that stays is left."""
    corner = LEFT.replace("5.000 10.000", "5.000 4.000,5.000 10.000")
    other = RIGHT.replace(".000", "")
    for number, (name, shapes, rows_of, wanted) in enumerate(
        (
            ("nothing changes", {"B": LEFT, "C": RIGHT}, (), [("B", LEFT), ("C", other)]),
            ("a corner more on a side, of one area", {"B": corner, "C": RIGHT}, (), [("B", corner), ("C", other)]),
            ("two parcels change places", {"B": RIGHT, "C": LEFT}, (), [("B", RIGHT), ("C", LEFT)]),
            (
                "one goes, one comes before the others",
                {"A1": LEFT, "C": RIGHT},
                ("B,A1",),
                [("A1", LEFT), ("C", other)],
            ),
            ("one goes, one comes after the others", {"B": LEFT, "D": RIGHT}, ("C,D",), [("B", LEFT), ("D", RIGHT)]),
            ("all go", {"D": LEFT, "E": RIGHT}, ("B,D", "C,E"), [("D", LEFT), ("E", RIGHT)]),
        )
    ):
        path = made(
            tmp_path / f"changed_{number}.db", VERSION_3, f"UPDATE lpis_text SET wkt = '{other}' WHERE id = 'C'"
        )
        release, cert = release_of(tmp_path, f"changed_{number}", shapes, "old,new", *rows_of)
        text, status = lpis("publish", path, 2026, release, cert)
        expect(f"{name}: published", (text.splitlines()[-1:], status), (["published 2026"], 0))
        expect(f"{name}: texts", texts(path), wanted)
        expect_whole(name, path)


def test_worked(tmp_path):
    """The worked example over registers that every command opens anew: one that is made here, and one of each
    version."""
    for number, (name, script) in enumerate(
        {"a new register": None, "version 1": VERSION_1, "version 2": VERSION_2, "version 3": WITHOUT_MARKS}.items()
    ):
        path = tmp_path / f"{number}.db"
        if script:
            made(path, script)
        else:
            expect_published(name, path, 2024, *release_of(tmp_path, "square", {"A": SQUARE}, "old,new"), "yes")
            expect_published(
                name,
                path,
                2025,
                *release_of(tmp_path, "halves", dict(SHAPES), "old,new", "A,B", "A,C"),
                "lineage A split",
            )
        expect(f"{name}: two releases", lpis("trace", path, "A"), ("B\nC\n", 0))
        expect_spans(f"{name}: two releases", path, HISTORY, ("A", 2024, 2024), ("B", 2025, 0), ("C", 2025, 0))
        before = dump(path)
        again = release_of(tmp_path, "again", {**dict(SHAPES), "A": ELSEWHERE}, "old,new")
        expect(
            f"{name}: an identifier that comes back",
            lpis("publish", path, 2026, *again),
            ("refused 81 lineage 76 A 2024\n", 1),
        )
        expect(f"{name}: nothing is changed", dump(path), before)
        expect(f"{name}: the same as before", lpis("trace", path, "A"), ("B\nC\n", 0))
        expect_published(
            name, path, 2026, *release_of(tmp_path, "merged", {"B": SQUARE}, "old,new", "C,B"), "lineage C merged"
        )
        expect(f"{name}: three releases", lpis("trace", path, "A"), ("B\n", 0))
        third = (2026, [("B",)], [(0, "C", "B", False)])
        expect_spans(
            f"{name}: three releases", path, [*HISTORY, third], ("A", 2024, 2024), ("B", 2025, 0), ("C", 2025, 2025)
        )
        expect(f"{name}: the last shapes", texts(path), [("B", SQUARE)])


def test_worked_marks(tmp_path):
    """The worked example with marks, over a file: the halves are published with the block of their split alone, and
    merged again with that of the merge. Over a register of version 2, which kept no shape of the square, the same
    call is refused."""
    flats = "f 0 0 10000 0 5000 0\nf 10000 10000 0 10000 5000 10000\n"

    def with_block(name, cert, block):
        path = tmp_path / f"{name}.txt"
        path.write_text(cert.read_text().replace("pairs ", block + "pairs "))
        return path

    path, older = tmp_path / "years.db", made(
        tmp_path / "older.db",
        TABLES[2] + "INSERT INTO lpis_format VALUES (1, 2); INSERT INTO lpis_release"
        " VALUES (2024); INSERT INTO lpis_span VALUES ('A', 2024, 0);",
    )
    expect_published("marks", path, 2024, *release_of(tmp_path, "square", {"A": SQUARE}, "old,new"), "yes")
    halves, cert = release_of(tmp_path, "halves", dict(SHAPES), "old,new,exact", "A,B,1", "A,C,1")
    before, split = dump(path), with_block("split", cert, "exact split A 2\n" + flats)
    for name, wrong, answer in (
        ("a block without flats", with_block("bare", cert, "exact split A 0\n"), "6d A"),
        ("no block", cert, "6a A"),
    ):
        expect(f"marks: {name}", lpis("publish", path, 2025, halves, wrong), (f"refused 85 exact {answer}\n", 1))
        expect(f"marks: {name}: nothing is changed", dump(path), before)
    expect("marks: no shape is kept", lpis("publish", older, 2025, halves, split), ("refused 81 lineage 77 A\n", 1))
    expect("marks: no shape is kept: what it says", said(older), (HISTORY[:1], []))
    expect_published("marks: the split", path, 2025, halves, split, "lineage A split exact")
    expect("marks: the split: what it says", said(path), (MARKED, SHAPES))
    merged, cert = release_of(tmp_path, "merged", {"B": SQUARE}, "old,new,exact", "C,B,1")
    merge = with_block("merge", cert, "exact merge B 2\n" + flats)
    expect_published("marks: the merge", path, 2026, merged, merge, "lineage C merged exact")
    expect(
        "marks: the merge: what it says",
        said(path),
        ([*MARKED, (2026, [("B",)], [(0, "C", "B", True)])], [("B", SQUARE)]),
    )
    expect_tables("marks", path, NEW, tmp_path)
