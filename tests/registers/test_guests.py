"""What others put into a register's file: it stays as it is, and changes no answer, or the file is `failed store`."""

import sqlite3

import pytest
from lpis_helpers.asking import (
    YEARS,
    MOVED,
    SHAPES,
    expect,
    lpis,
    rows,
    dump,
    expect_whole,
    names_of,
    expect_published,
    release_of,
)
from lpis_helpers.registers import (
    LEFT,
    MARK,
    MARKS,
    RIGHT,
    SPANS,
    SQUARE,
    TABLES,
    TEXT,
    TEXTS,
    TWO_YEARS,
    VERSION_1,
    VERSION_2,
    VERSION_3,
    WITHOUT_MARKS,
    made,
)
from lpis_helpers.registers import said
from test_country_registers import country_of

# What others may put into a register's file, each with the statements that do it. No answer is another for it, and it
# stays as it is.
WORDS = "('Äcker', 1, 2.5, x'00FF'), (NULL, -9223372036854775808, 1e300, x''), ('', 0, -0.0, 'no blob')"
GUESTS = {
    "a view": "CREATE VIEW now AS SELECT id, since, wkt FROM lpis_span JOIN lpis_text USING (id) WHERE until = 0",
    "a view of years": "CREATE VIEW years AS SELECT year FROM lpis_release WHERE year > 2024",
    "a view of steps": (
        "CREATE VIEW steps AS WITH RECURSIVE step (a, b) AS (SELECT id, id FROM lpis_span UNION SELECT a, new FROM step"
        " JOIN lpis_row ON old = b WHERE new <> '') SELECT a, group_concat(b, ', ') AS names FROM step LEFT JOIN"
        " lpis_text AS t ON t.id = b GROUP BY a ORDER BY 2 DESC LIMIT 10"
    ),
    "a view that counts": (
        "CREATE VIEW counts AS SELECT year, count(*) AS parcels FROM lpis_release JOIN lpis_span ON since <= year AND"
        " (until = 0 OR year <= until) GROUP BY year"
    ),
    "indexes": (
        "CREATE INDEX by_old ON lpis_row (old); CREATE INDEX by_both ON lpis_row (new DESC, old COLLATE NOCASE); CREATE"
        " INDEX by_wkt ON lpis_text (wkt);CREATE INDEX by_year ON lpis_span (since, until); CREATE INDEX by_pos ON"
        " lpis_mark (pos)"
    ),
    "a table": (
        f"CREATE TABLE notes (note TEXT, number INTEGER, share REAL, stamp BLOB); INSERT INTO notes VALUES {WORDS}"
    ),
    "a STRICT table": (
        "CREATE TABLE strict_notes (id INTEGER PRIMARY KEY, note TEXT NOT NULL UNIQUE, made ANY) STRICT; INSERT INTO"
        " strict_notes VALUES (7, 'a', 1), (9, 'b', 'c')"
    ),
    "a key of lpis_release": (
        "CREATE TABLE flights (flown INTEGER REFERENCES lpis_release (year), by TEXT); INSERT INTO flights VALUES"
        " (2024, 'x'), (2025, 'y'), (NULL, 'z')"
    ),
    "a key of lpis_release that deletes": (
        "CREATE TABLE flights (flown INTEGER NOT NULL REFERENCES lpis_release ON DELETE CASCADE ON UPDATE CASCADE);"
        "INSERT INTO flights VALUES (2024), (2025), (2025)"
    ),
    "a key of lpis_row": (
        "CREATE TABLE reasons (year INTEGER, pos INTEGER, why TEXT, FOREIGN KEY (year, pos) REFERENCES lpis_row (year,"
        " pos) ON DELETE SET NULL);INSERT INTO reasons VALUES (2025, 0, 'sold'), (2025, 1, 'sold'), (NULL, NULL, '')"
    ),
    "a key of lpis_span": (
        "CREATE TABLE owners (id TEXT PRIMARY KEY REFERENCES lpis_span (id), owner TEXT); INSERT INTO owners VALUES"
        " ('A', 'a'), ('B', 'b'), ('C', 'c')"
    ),
    "a key of lpis_span that deletes": (
        "CREATE TABLE owners (id TEXT REFERENCES lpis_span ON DELETE CASCADE ON UPDATE SET NULL); INSERT INTO owners"
        " VALUES ('A'), ('B'), ('C')"
    ),
    "keys among its own": (
        "CREATE TABLE farms (farm INTEGER PRIMARY KEY, name TEXT); CREATE TABLE fields (field TEXT, farm INTEGER"
        " REFERENCES farms ON DELETE CASCADE);INSERT INTO farms VALUES (1, 'a'), (2, 'b'); INSERT INTO fields VALUES"
        " ('B', 1), ('C', 2), ('C', 1)"
    ),
    "thousands of rows": (
        "CREATE TABLE points (x INTEGER, y INTEGER, name TEXT); CREATE INDEX by_x ON points (x, name); CREATE UNIQUE"
        " INDEX by_name ON points (name);WITH RECURSIVE n (i) AS (SELECT 0 UNION ALL SELECT i + 1 FROM n WHERE i <"
        " 4999) INSERT INTO points SELECT i * 7919 % 5000, i, 'point ' || i FROM n"
    ),
    "what ANALYZE writes": (
        "CREATE TABLE notes (note TEXT); CREATE INDEX by_note ON notes (note); INSERT INTO notes VALUES ('a'), ('b');"
        " ANALYZE"
    ),
    "a counter": (
        "CREATE TABLE counted (id INTEGER PRIMARY KEY AUTOINCREMENT, note TEXT); INSERT INTO counted (note) VALUES"
        " ('a'), ('b'); DELETE FROM counted WHERE id = 2"
    ),
    # The program reads none of these, and keeps them.
    "a table with a trigger": (
        f"CREATE TABLE notes (note, number, share, stamp); INSERT INTO notes VALUES {WORDS};"
        "CREATE TRIGGER never BEFORE DELETE ON notes BEGIN SELECT raise(ABORT, 'never'); END"
    ),
    "a table with such an index": (
        "CREATE TABLE notes (note, number, share, stamp); CREATE INDEX some ON notes (note) WHERE number > 0; CREATE"
        f" INDEX low ON notes (lower(note));INSERT INTO notes VALUES {WORDS}"
    ),
    "a table without rowids": (
        "CREATE TABLE codes (code TEXT PRIMARY KEY, word TEXT) WITHOUT ROWID; INSERT INTO codes VALUES ('b', '1'),"
        " ('a', '2')"
    ),
    "a computed column": (
        "CREATE TABLE sums (a INTEGER, b INTEGER, c INTEGER GENERATED ALWAYS AS (a + b) STORED); INSERT INTO sums (a,"
        " b) VALUES (1, 2), (3, NULL)"
    ),
    "another order of letters": (
        "CREATE TABLE notes (note TEXT COLLATE RTRIM, x VARCHAR (10) DEFAULT 'a' CHECK (length(x) > 0)); INSERT INTO"
        " notes (note) VALUES ('a '), ('a')"
    ),
}
ALL_AT_ONCE = (
    "a view",
    "indexes",
    "a STRICT table",
    "a key of lpis_release",
    "a key of lpis_row",
    "keys among its own",
    "thousands of rows",
    "a table without rowids",
    "what ANALYZE writes",
)

# What no register is opened with, each with the statements that put it there and those that take it away.
HIDING = {
    "a trigger on lpis_text": (
        "CREATE TRIGGER watch AFTER INSERT ON lpis_text BEGIN SELECT 1; END",
        "DROP TRIGGER watch",
    ),
    "a trigger on lpis_format": (
        "CREATE TRIGGER watch BEFORE UPDATE OF version ON lpis_format BEGIN SELECT raise(ABORT, 'no'); END",
        "DROP TRIGGER watch",
    ),
    "a trigger on lpis_span": ("CREATE TRIGGER watch DELETE ON lpis_span BEGIN SELECT 1; END", "DROP TRIGGER watch"),
    "an index of a part of lpis_text": ("CREATE INDEX some ON lpis_text (id) WHERE id > 'A'", "DROP INDEX some"),
    "an index of an expression of lpis_row": ("CREATE INDEX low ON lpis_row (lower(old))", "DROP INDEX low"),
    "an index of an expression of lpis_text": ("CREATE INDEX long ON lpis_text (length(wkt))", "DROP INDEX long"),
    "a view in place of lpis_mark": (
        "DROP TABLE lpis_mark; CREATE VIEW lpis_mark AS SELECT 2025 AS year, 0 AS pos",
        "DROP VIEW lpis_mark",
    ),
    "a view in place of lpis_live": (
        "DROP TABLE IF EXISTS lpis_live; CREATE VIEW LPIS_Live AS SELECT 2025 AS year, 'A' AS id",
        "DROP VIEW lpis_live",
    ),
    "a virtual table": (
        "CREATE VIRTUAL TABLE words USING fts5 (word); INSERT INTO words VALUES ('a')",
        "DROP TABLE words",
    ),
    "a trigger on a view": (
        "CREATE VIEW v AS SELECT id FROM lpis_text; CREATE TRIGGER watch INSTEAD OF INSERT ON v BEGIN SELECT 1; END",
        "DROP TRIGGER watch",
    ),
    "a key of a table with a trigger": (
        (
            "CREATE TABLE flights (flown REFERENCES lpis_release); INSERT INTO flights VALUES (2024);"
            "CREATE TRIGGER watch DELETE ON flights BEGIN SELECT 1; END"
        ),
        "DROP TRIGGER watch",
    ),
    "a key of a table with an index of a part": (
        "CREATE TABLE flights (flown REFERENCES lpis_release); CREATE INDEX some ON flights (flown) WHERE flown > 2024",
        "DROP INDEX some",
    ),
    **{
        f"a view with {word}": (f"CREATE VIEW v AS SELECT {text}", "DROP VIEW v")
        for word, text in {
            "a window": "id, row_number() OVER (ORDER BY id) AS n FROM lpis_span",
            "GLOB": "id FROM lpis_span WHERE id GLOB 'A*'",
            "ESCAPE": "id FROM lpis_span WHERE id LIKE 'A!_' ESCAPE '!'",
            "FILTER": "count(*) FILTER (WHERE new = '') AS ends FROM lpis_row",
            "a row value": "old FROM lpis_row WHERE (year, pos) IN (SELECT year, pos FROM lpis_mark)",
            "NATURAL": "id FROM lpis_span NATURAL JOIN lpis_text",
            "RIGHT": "old FROM lpis_mark RIGHT JOIN lpis_row USING (year, pos)",
        }.items()
    },
    "rows older than a column with a default": (
        (
            "CREATE TABLE notes (note TEXT); INSERT INTO notes VALUES ('a'); ALTER TABLE notes ADD COLUMN more TEXT"
            " DEFAULT 'b'"
        ),
        "UPDATE notes SET more = more",
    ),
    "a row of another table that names no release": (
        (
            "PRAGMA foreign_keys = OFF; CREATE TABLE flights (flown REFERENCES lpis_release); INSERT INTO flights"
            " VALUES (2023)"
        ),
        "DELETE FROM flights",
    ),
}

ALL, KINDS = "all at once", ("new", "moved")


OLDER = {
    "version 1": VERSION_1,
    "version 2": VERSION_2,
    "version 3 without marks": WITHOUT_MARKS,
    "version 3 without texts": VERSION_2 + "UPDATE lpis_format SET version = 3;",
}


def each_over_one_kind(guests, kinds):
    """Each guest over registers of each kind; over all but one of them, which take turns, it waits for --long."""
    return [
        pytest.param(kind, name, marks=[pytest.mark.long] * (number % len(kinds) != place))
        for number, name in enumerate(guests)
        for place, kind in enumerate(kinds)
    ]


OURS = ", ".join(f"'{name}'" for name in MOVED)


def guests_of(path, keys=True):
    """What a file has beside the register's tables: each object as it was made, and the rows of each table, to the
    byte; with keys or not."""
    connection = sqlite3.connect(path)
    try:
        objects = connection.execute(
            f"SELECT type, name, tbl_name, sql FROM sqlite_schema WHERE NOT (type = 'table' AND name IN ({OURS}))"
            " AND name NOT LIKE 'sqlite_autoindex_lpis%' ORDER BY name"
        ).fetchall()
        found = [("", *made) for made in objects]
        for kind, name, _, sql in objects:
            if kind == "table":
                key = "rowid, " if keys and "WITHOUT ROWID" not in sql else ""
                found += [(name, repr(row)) for row in connection.execute(f'SELECT {key}* FROM "{name}"')]
        return found
    finally:
        connection.close()


def copy_of(path, name, *scripts):
    """A copy of a register, with these statements."""
    rows(path, "SELECT 1")
    copy = path.with_name(f"{name.replace(' ', '_')}.db")
    copy.write_bytes(path.read_bytes())
    return made(copy, *scripts)


def bases(folder):
    """Registers of two years: one that is made here, and one of version 1 that is moved. A is split into B and C."""
    new, moved = folder / "new.db", made(folder / "moved.db", VERSION_1)
    expect_published("2024", new, 2024, *release_of(folder, "square", {"A": SQUARE}, "old,new"), "yes")
    expect_published(
        "2025", new, 2025, *release_of(folder, "halves", dict(SHAPES), "old,new", "A,B", "A,C"), "lineage A split"
    )
    expect("the register that is moved", lpis("trace", moved, "A"), ("B\nC\n", 0))
    return {"new": new, "moved": moved}


def country_after(folder):
    """A country after a year with the parcels D, E and C."""
    if not (folder / "land").exists():
        plan = ["x 5000", "region west", "region east"]
        country_of(
            folder,
            "land",
            plan,
            {"west": {"F": LEFT}, "east": {"C": RIGHT}},
            {"east": ["old,new,exact", "D,F,1", "E,F,1"]},
        )
    return folder / "land"


def years_over(folder, name, path):
    """What every command says of a register of two years and of years that are published over it, and what it then says
    itself. What others put there is as it was after each."""
    told, out, at_first, held = [], folder / "out.txt", guests_of(path, keys=False), guests_of(path)
    out.unlink(missing_ok=True)

    def said_of(*words):
        nonlocal held
        answer, before, held = lpis(*words), held, guests_of(path)
        expect(f"{name}: {words[0]}, what others put there", held == before, True)
        told.append((words[0], answer, said(path)))
        return answer[1] == 0

    thirds = {"D": "POLYGON((0 0,5 0,5 4,0 6,0 0))", "E": "POLYGON((0 6,5 4,5 10,0 10,0 6))", "C": RIGHT}
    release, cert = release_of(folder, "marked", thirds, "old,new,exact", "B,D,1", "B,E,1")
    said_of("trace", path, "A")
    said_of("exact", path, release, cert, out)
    said_of("publish", path, 2026, release, cert)
    if not out.exists() or not said_of("publish", path, 2026, release, out):
        said_of("publish", path, 2026, *release_of(folder, "unmarked", thirds, "old,new", "B,D", "B,E"))
    said_of("trace", path, "A")
    rows(path, "VACUUM")
    held = guests_of(path)
    country = country_after(folder)
    said_of("exact-country", path, country, folder / "blocks.txt")
    said_of("publish-country", path, 2027, country, "--exact", folder / "blocks.txt")
    said_of("trace", path, "A")
    release, cert = release_of(folder, "whole", {"G": SQUARE}, "old,new,exact", "F,G,1", "C,G,1")
    said_of("exact", path, release, cert, folder / "whole-out.txt")
    said_of("publish", path, 2028, release, folder / "whole-out.txt")
    said_of("publish", path, 2029, release, cert)
    said_of("trace", path, "A")
    said_of("trace", path, "G")
    expect(f"{name}: what others put there at first", guests_of(path, keys=False) == at_first, True)
    expect_whole(name, path)
    return told


def expect_years(name, found, wanted):
    expect(f"{name}: the commands", [it[0] for it in found], [it[0] for it in wanted])
    for mine, other in zip(found, wanted):
        expect(f"{name}: {other[0]}", mine, other)


@pytest.fixture(scope="module")
def alone(tmp_path_factory):
    """Registers of each kind, in a folder, and what every command says over each alone."""
    folder = tmp_path_factory.mktemp("guests")
    found = {
        kind: (base, years_over(folder, kind, copy_of(base, f"{kind} alone"))) for kind, base in bases(folder).items()
    }
    return folder, found


@pytest.mark.parametrize("kind", KINDS)
def test_alone(alone, kind):
    told = alone[1][kind][1]
    expect(f"{kind}: the years", told[-2][1:], (("G\n", 0), told[-1][2]))
    expect(
        f"{kind}: the last year",
        told[-1][2][0][-1] if len(told[-1][2]) == 2 else told[-1][2],
        (2028, [("G",)], [(0, "F", "G", True), (1, "C", "G", True)]),
    )


@pytest.mark.parametrize("kind, name", [*((kind, ALL) for kind in KINDS), *each_over_one_kind(GUESTS, KINDS)])
def test_guests(alone, kind, name):
    """Years over registers into whose files others put something: the same answers as over the register alone."""
    folder, (base, wanted) = alone[0], alone[1][kind]
    script = GUESTS[name] if name != ALL else ";".join(script for name, script in GUESTS.items() if name in ALL_AT_ONCE)
    order, path = names_of(base), copy_of(base, f"{kind} {name}", script)
    expect_years(f"{kind}, {name}", years_over(folder, f"{kind}, {name}", path), wanted)
    expect(f"{kind}, {name}: the order of tables", names_of(path)[: len(order)], order)


def test_texts_with_keys(tmp_path):
    """Keys of lpis_text, of which publish deletes rows: a plain one makes the database refuse that, and with an action
    others' rows go too. An index that is UNIQUE refuses rows as well."""
    base = bases(tmp_path)["new"]
    release, cert = release_of(tmp_path, "one", {"C": SQUARE}, "old,new", "B,C")
    both, other = release_of(tmp_path, "other", {"B": LEFT, "D": RIGHT}, "old,new", "C,D")
    path = copy_of(
        base,
        "plain key",
        "CREATE TABLE owners (id TEXT REFERENCES lpis_text (id)); INSERT INTO owners VALUES ('B'), (NULL)",
    )
    before = dump(path)
    expect("a plain key", lpis("publish", path, 2026, release, cert), ("2> failed store\n", 3))
    expect("a plain key: nothing is changed", dump(path), before)
    expect_published(
        "a plain key, and its row stays", copy_of(path, "plain key stays"), 2026, both, other, "lineage C replaced"
    )
    expect_published(
        "a plain key without its row",
        copy_of(path, "plain key gone", "DELETE FROM owners WHERE id = 'B'"),
        2026,
        release,
        cert,
        "lineage B merged",
    )
    for action, left in (("CASCADE", [(None,)]), ("SET NULL", [(None,), (None,)])):
        path = copy_of(
            base,
            action,
            (
                f"CREATE TABLE owners (id TEXT REFERENCES lpis_text (id) ON DELETE {action}); INSERT INTO owners VALUES"
                " ('B'), (NULL)"
            ),
        )
        expect_published(action, path, 2026, release, cert, "lineage B merged")
        expect(f"{action}: the rows that are left", rows(path, "SELECT id FROM owners"), left)
        expect_whole(action, path)
    path = copy_of(base, "unique", "CREATE UNIQUE INDEX one ON lpis_row (new)")
    before = dump(path)
    expect("an index that is UNIQUE", lpis("publish", path, 2026, release, cert), ("2> failed store\n", 3))
    expect("an index that is UNIQUE: nothing is changed", dump(path), before)


def test_hiding(tmp_path):
    """Files that no command opens, for what others put there: they stay as they are, and are opened once it is taken
    away."""
    words = (
        ("trace", "A"),
        ("publish", 2030, YEARS / "2024", "nowhere.txt"),
        ("exact", YEARS / "2024", "nowhere.txt", "nowhere/out.txt"),
        ("publish-country", 2030, "nowhere", "--exact", "nowhere.txt"),
        ("exact-country", "nowhere", "nowhere/out.txt"),
    )
    for kind, base in bases(tmp_path).items():
        for name, (put, taken) in HIDING.items():
            path = copy_of(base, f"{kind} {name}", put)
            before, held = path.read_bytes(), (dump(path), guests_of(path))
            for command, *others in words:
                expect(f"{kind}, {name}: {command}", lpis(command, path, *others), ("2> failed store\n", 3))
                expect(f"{kind}, {name}: {command}: the file", path.read_bytes() == before, True)
            expect(f"{kind}, {name}: what it holds", (dump(path), guests_of(path)) == held, True)
            made(path, taken)
            expect(f"{kind}, {name}: taken away", lpis("trace", path, "A"), ("B\nC\n", 0))


@pytest.mark.parametrize("name", [name for name, script in GUESTS.items() if "lpis_" not in script])
def test_guests_at_first(alone, name):
    """Tables of others that were there before the register's."""
    folder, wanted = alone[0], alone[1]["new"][1]
    path = made(folder / f"first_{name.replace(' ', '_')}.db", GUESTS[name])
    before = guests_of(path)
    expect_published(f"{name} at first", path, 2024, *release_of(folder, "square", {"A": SQUARE}, "old,new"), "yes")
    expect(f"{name} at first: what others put there", guests_of(path) == before, True)
    expect_published(
        f"{name} at first",
        path,
        2025,
        *release_of(folder, "halves", dict(SHAPES), "old,new", "A,B", "A,C"),
        "lineage A split",
    )
    expect_years(f"{name} at first", years_over(folder, f"{name} at first", path), wanted)


@pytest.fixture(scope="module")
def alone_and_older(alone):
    """What every command says over each older kind of register alone, once it was asked."""
    return {}


OF_OLDER = [
    name
    for name, script in GUESTS.items()
    if not any(table in script for table in ("lpis_text", "lpis_mark", "lpis_span"))
]


@pytest.mark.parametrize("kind, name", each_over_one_kind(OF_OLDER, OLDER))
def test_guests_of_older(alone, alone_and_older, kind, name):
    """Registers that are moved or completed with tables of others behind."""
    folder = alone[0]
    if kind not in alone_and_older:
        alone_and_older[kind] = years_over(folder, kind, made(folder / f"{kind.replace(' ', '_')}.db", OLDER[kind]))
    path = made(folder / f"{kind.replace(' ', '_')}_{name.replace(' ', '_')}.db", OLDER[kind], GUESTS[name])
    expect_years(f"{kind}, {name}", years_over(folder, f"{kind}, {name}", path), alone_and_older[kind])
    expect(f"{kind}, {name}: the version", rows(path, "SELECT * FROM lpis_format"), [(1, 3)])


def test_a_table_between(tmp_path):
    between = (
        TABLES[2]
        + "CREATE TABLE notes (note TEXT); INSERT INTO notes VALUES ('a'); CREATE VIEW v AS SELECT note FROM notes;"
        + TEXT
        + MARK
    )
    path = made(
        tmp_path / "between.db", between, "INSERT INTO lpis_format VALUES (1, 3);", TWO_YEARS, SPANS, TEXTS, MARKS
    )
    alone = years_over(tmp_path, "version 3", made(tmp_path / "version_3.db", VERSION_3))
    expect_years("a table between", years_over(tmp_path, "a table between", path), alone)
