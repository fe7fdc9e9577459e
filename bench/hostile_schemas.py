"""Makers of hostile registers: schemas and rows that no program makes. Each fills the folder's register."""

import functools
import shutil

from hostile_pages import NAME
from lpis_helpers.registers import SQUARE, TEXT, made

TEXT_COLUMNS, MARK_COLUMNS = "id TEXT NOT NULL, wkt TEXT NOT NULL", "year INTEGER NOT NULL, pos INTEGER NOT NULL"
KEYS = {"lpis_text": (TEXT_COLUMNS, "id"), "lpis_mark": (MARK_COLUMNS, "year, pos")}


def changed(folder, base, script, of="small"):
    """A register, after statements of SQLite that mind no rule."""
    shutil.copy(getattr(base, of), folder / NAME)
    made(
        folder / NAME,
        "PRAGMA foreign_keys = OFF; PRAGMA writable_schema = ON; PRAGMA ignore_check_constraints = ON;",
        script,
    )


def with_object(kind, name, text, root=0):
    """A row of the schema with any text."""
    return (
        f"INSERT INTO sqlite_schema (type, name, tbl_name, rootpage, sql) VALUES ('{kind}', '{name}', '{name}', {root},"
        f" '{text}')"
    )


def with_text(table, text):
    """Another text of a table that is there."""
    quoted = text.replace("'", "''")
    return f"UPDATE sqlite_schema SET sql = '{quoted}' WHERE name = '{table}'"


def beside(table, rows, keyed="other"):
    """Other rows of a table, under its key or without it: sqlite3 writes them to tables of other names, whose pages
    take its place."""
    columns, key = KEYS[table]
    return (
        f"CREATE TABLE other ({columns}) STRICT; INSERT INTO other {rows}; CREATE TABLE another ({columns}) STRICT;"
        f" CREATE INDEX key ON {keyed} ({key});UPDATE sqlite_schema SET rootpage = (SELECT rootpage FROM sqlite_schema"
        f" WHERE name = 'other') WHERE name = '{table}';UPDATE sqlite_schema SET rootpage = (SELECT rootpage FROM"
        f" sqlite_schema WHERE name = 'key') WHERE name = 'sqlite_autoindex_{table}_1'; DELETE FROM sqlite_schema WHERE"
        " tbl_name IN ('other', 'another')"
    )


def many(table, first, count, columns):
    """So many rows of a table, by numbers i from the first on."""
    return (
        f"WITH n(i) AS (SELECT {first} UNION ALL SELECT i + 1 FROM n LIMIT {count}) INSERT INTO {table} SELECT"
        f" {columns} FROM n;"
    )


def endless(view, columns, first=1):
    """A view that never ends, by numbers i."""
    return (
        f"CREATE VIEW {view} AS WITH RECURSIVE n(i) AS (SELECT {first} UNION ALL SELECT i + 1 FROM n) SELECT"
        f" {columns} FROM n"
    )


def anew(table, columns, kind="STRICT"):
    """An empty table in place of one that is there."""
    return f"DROP TABLE {table}; CREATE TABLE {table} ({columns}) {kind};"


def twice(table, columns):
    """Each row of a table twice, in one without its key."""
    insert = f"INSERT INTO {table} SELECT * FROM other;"
    return f"CREATE TABLE other AS SELECT * FROM {table}; {anew(table, columns)} {insert} {insert} DROP TABLE other"


def cases(base, texts, of="small"):
    return [(name, functools.partial(changed, base=base, script=text, of=of)) for name, text in texts.items()]


def schemas(base):
    """Schemas that no program makes."""
    columns = ", ".join(f"c{number}" for number in range(2_000))
    texts = {
        "a view of itself": with_object("view", "v", "CREATE VIEW v AS SELECT * FROM v"),
        "two views of each other": ";".join(
            with_object("view", one, f"CREATE VIEW {one} AS SELECT * FROM {other}") for one, other in ("vw", "wv")
        ),
        "a view that never ends": endless("v", "i"),
        "spans are a view": (
            "DROP TABLE lpis_span; CREATE VIEW lpis_span AS SELECT 'north' AS id, 2024 AS since, 0 AS until"
        ),
        "spans are a view that never ends": "DROP TABLE lpis_span;"
        + endless("lpis_span", "'n' || i AS id, 2024 AS since, 0 AS until"),
        "a trigger that calls itself": (
            "CREATE TRIGGER t AFTER INSERT ON lpis_release BEGIN INSERT INTO lpis_release VALUES (new.year + 1); END"
        ),
        "a trigger that takes back": (
            "CREATE TRIGGER t AFTER INSERT ON lpis_span BEGIN DELETE FROM lpis_span WHERE id = new.id; END"
        ),
        "spans without a row's number": anew(
            "lpis_span", "id TEXT NOT NULL PRIMARY KEY, since INTEGER NOT NULL, until INTEGER NOT NULL", "WITHOUT ROWID"
        ),
        "texts are a view": f"DROP TABLE lpis_text; CREATE VIEW lpis_text AS SELECT 'grove' AS id, '{SQUARE}' AS wkt",
        "texts are a view that never ends": "DROP TABLE lpis_text;"
        + endless("lpis_text", f"'n' || i AS id, '{SQUARE}' AS wkt"),
        "texts without their key, each twice": twice("lpis_text", TEXT_COLUMNS),
        "texts that may be numbers": (
            anew("lpis_text", "id PRIMARY KEY, wkt", "") + "INSERT INTO lpis_text VALUES ('grove', 1), (2, 'x')"
        ),
        "a text twice under its key": beside(
            "lpis_text", "SELECT * FROM lpis_text UNION ALL SELECT * FROM lpis_text WHERE id = 'grove'"
        ),
        "two texts of an identifier under its key": beside(
            "lpis_text", f"SELECT * FROM lpis_text UNION ALL SELECT id, '{SQUARE}' FROM lpis_text WHERE id = 'grove'"
        ),
        "a text that its key does not have": beside("lpis_text", "SELECT * FROM lpis_text", "another"),
        "a key of texts that are gone": (
            f"CREATE TABLE other ({TEXT_COLUMNS}) STRICT;UPDATE sqlite_schema SET rootpage = (SELECT rootpage FROM"
            " sqlite_schema WHERE name = 'other') WHERE name = 'lpis_text';DELETE FROM sqlite_schema WHERE name ="
            " 'other'"
        ),
        "no table lpis_text": "DROP TABLE lpis_text",
        "no table lpis_mark": "DROP TABLE lpis_mark",
        "no texts and no marks": "DROP TABLE lpis_text; DROP TABLE lpis_mark",
        "no releases, texts and marks": "DROP TABLE lpis_release; DROP TABLE lpis_text; DROP TABLE lpis_mark",
        "no tables but texts and marks": (
            "DROP TABLE lpis_format; DROP TABLE lpis_release; DROP TABLE lpis_span; DROP TABLE lpis_row"
        ),
        **{
            f"no table {table}": f"DROP TABLE {table}"
            for table in ("lpis_format", "lpis_release", "lpis_span", "lpis_row")
        },
        "marks before texts": f"DROP TABLE lpis_text; {TEXT}",
        "texts without a row's number": (
            anew("lpis_text", "id TEXT NOT NULL PRIMARY KEY, wkt TEXT NOT NULL", "STRICT, WITHOUT ROWID")
            + f"INSERT INTO lpis_text VALUES ('grove', '{SQUARE}')"
        ),
        "marks of no table": anew(
            "lpis_mark",
            f"{MARK_COLUMNS}, PRIMARY KEY (year, pos), FOREIGN KEY (year, pos) REFERENCES other (year, pos)",
        ),
        "marks that refer to themselves": (
            anew(
                "lpis_mark",
                f"{MARK_COLUMNS}, PRIMARY KEY (year, pos), FOREIGN KEY (pos, year) REFERENCES lpis_mark (year, pos)",
            )
            + "INSERT INTO lpis_mark VALUES (2025, 2025)"
        ),
        "a trigger that puts texts back": (
            "CREATE TRIGGER t AFTER DELETE ON lpis_text BEGIN INSERT INTO lpis_text VALUES (old.id, old.wkt); END"
        ),
        "version 2 with texts and marks": (
            "UPDATE lpis_format SET version = 2; UPDATE lpis_text SET wkt = 'no polygon'; INSERT INTO lpis_mark VALUES"
            " (2025, 0)"
        ),
        "a column more": "ALTER TABLE lpis_span ADD COLUMN more TEXT DEFAULT 'x'",
        "a column less": "ALTER TABLE lpis_row DROP COLUMN new",
        "a column computed": "ALTER TABLE lpis_span ADD COLUMN more AS (id || id)",
        "a unique index over years": "CREATE UNIQUE INDEX i ON lpis_row (year, pos, new)",
        "an index over an expression": "CREATE INDEX i ON lpis_span (length(id))",
        "a rule that fails": with_text(
            "lpis_release", "CREATE TABLE lpis_release (year INTEGER NOT NULL PRIMARY KEY CHECK (year < 2026)) STRICT"
        ),
        "a text that is no SQL": with_text("lpis_release", "CREATE TABLE lpis_release ((((("),
        "no text": "UPDATE sqlite_schema SET sql = NULL WHERE name = 'lpis_release'",
        "two tables on one page": "UPDATE sqlite_schema SET rootpage = 2",
        "a root past the end": "UPDATE sqlite_schema SET rootpage = 100000 WHERE name = 'lpis_span'",
        "a root of 0": "UPDATE sqlite_schema SET rootpage = 0 WHERE name = 'lpis_span'",
        "a root of -1": "UPDATE sqlite_schema SET rootpage = -1 WHERE name = 'lpis_span'",
        "the root of the schema": "UPDATE sqlite_schema SET rootpage = 1 WHERE name = 'lpis_span'",
        "a table twice": "INSERT INTO sqlite_schema SELECT * FROM sqlite_schema WHERE name = 'lpis_span'",
        "a name of a megabyte": f"CREATE TABLE {'x' * 1_000_000} (a)",
        "a text of a megabyte": f"CREATE TABLE t (a DEFAULT '{'x' * 1_000_000}')",
        "2,000 columns": f"CREATE TABLE t ({columns})",
        "an index of 2,000 columns": f"CREATE TABLE t ({columns}); CREATE INDEX i ON t ({columns})",
        "1,000 tables": ";".join(f"CREATE TABLE t{number} (a)" for number in range(1_000)),
        "1,000 views": ";".join(f"CREATE VIEW v{number} AS SELECT year FROM lpis_release" for number in range(1_000)),
        "200 views, each twice the one before": "CREATE VIEW v0 AS SELECT year FROM lpis_release;"
        + ";".join(
            f"CREATE VIEW v{number} AS SELECT a.year FROM v{number - 1} AS a, v{number - 1} AS b"
            for number in range(1, 200)
        ),
        "a version of another program": "PRAGMA user_version = 7; PRAGMA application_id = 7",
    }
    for depth in (100, 900, 10_000, 300_000):
        deep = "(" * depth + "1" + ")" * depth
        texts[f"{depth} brackets in a rule"] = with_object("table", "t", f"CREATE TABLE t (a CHECK ({deep}))", 2)
        texts[f"{depth} brackets in a view"] = with_object("view", "v", f"CREATE VIEW v AS SELECT {deep}")
        texts[f"{depth} signs in a view"] = with_object("view", "v", f"CREATE VIEW v AS SELECT {'- ' * depth} 1")
        nested = f"{'SELECT * FROM (' * depth} SELECT 1{')' * depth}"
        texts[f"{depth} selects in a view"] = with_object("view", "v", f"CREATE VIEW v AS {nested}")
        for name, rule in (("cases", f"{'NOT ' * depth} 0"), ("sums", f"1{' + 1' * depth}")):
            texts[f"{depth} {name} in a rule"] = with_text(
                "lpis_release", f"CREATE TABLE lpis_release (year INTEGER NOT NULL PRIMARY KEY CHECK ({rule})) STRICT"
            )
    return cases(base, texts)


def contents(base):
    """Rows that no program writes, many or large ones."""
    texts = {
        "an identifier of a megabyte": f"INSERT INTO lpis_span VALUES ('{'x' * 1_000_000}', 2024, 0)",
        "an old identifier of a megabyte": f"INSERT INTO lpis_row VALUES (2025, 5, '{'x' * 1_000_000}', 'valley')",
        "20,000 releases": many("lpis_release", 50_000, 20_000, "i"),
        "2,000 releases": many("lpis_release", 2026, 2_000, "i"),
        "1,000,000 spans of no release": many("lpis_span", 1, 1_000_000, "'P' || i, 2023, 0"),
        "100,000 spans": many("lpis_span", 1, 100_000, "'P' || i, 2025, 0"),
        "100,000 rows": many("lpis_row", 5, 100_000, "2025, i, 'north', 'P' || i"),
        "a chain of 500 years": (
            many("lpis_release", 2026, 500, "i")
            + "UPDATE lpis_span SET until = 2025 WHERE id = 'north-1'; INSERT INTO lpis_row VALUES (2026, 0, 'north-1',"
            " 'c2026');"
            + many("lpis_row", 2026, 499, "i + 1, 0, 'c' || i, 'c' || (i + 1)")
            + many("lpis_span", 2026, 500, "'c' || i, i, CASE i WHEN 2525 THEN 0 ELSE i END")
        ),
        "a text of a megabyte that is no polygon": f"UPDATE lpis_text SET wkt = '{'x' * 1_000_000}' WHERE id = 'grove'",
        "a text of a million brackets": f"UPDATE lpis_text SET wkt = 'POLYGON{'(' * 1_000_000}' WHERE id = 'grove'",
        "a text of a million blanks": (
            f"UPDATE lpis_text SET wkt = 'POLYGON{' ' * 1_000_000}((0 0,1 0,1 1,0 0))' WHERE id = 'grove'"
        ),
        "a number of a million digits": f"UPDATE lpis_text SET wkt = 'POLYGON(({'9' * 1_000_000} 0' WHERE id = 'grove'",
        "a text of 100,000 points": f"UPDATE lpis_text SET wkt = 'POLYGON(({'0 0,' * 99_999}0 0))' WHERE id = 'grove'",
        "a text of 100,001 points": f"UPDATE lpis_text SET wkt = 'POLYGON(({'0 0,' * 100_000}0 0))' WHERE id = 'grove'",
        "a text of 25,000 members": (
            f"UPDATE lpis_text SET wkt = 'MULTIPOLYGON({'((0 0,1 0,1 1,0 0)),' * 24_999}((0 0,1 0,1 1,0 0)))' WHERE id"
            " = 'grove'"
        ),
        "a text that is empty": "UPDATE lpis_text SET wkt = '' WHERE id = 'grove'",
        "a text with a nought": "UPDATE lpis_text SET wkt = wkt || char(0) || 'b' WHERE id = 'grove'",
        "a text of bytes that are no text": "UPDATE lpis_text SET wkt = CAST(x'c328ff' AS TEXT) WHERE id = 'grove'",
        "a text that is no polygon": "UPDATE lpis_text SET wkt = 'no polygon' WHERE id = 'grove'",
        "a text cut off": "UPDATE lpis_text SET wkt = substr(wkt, 1, length(wkt) - 1) WHERE id = 'grove'",
        "a text with more behind it": "UPDATE lpis_text SET wkt = wkt || ')' WHERE id = 'grove'",
        "a ring that is not closed": "UPDATE lpis_text SET wkt = 'POLYGON((0 0,1 0,1 1,0 1))' WHERE id = 'grove'",
        "a coordinate finer than a millimetre": (
            "UPDATE lpis_text SET wkt = 'POLYGON((0 0,1.0001 0,1 1,0 0))' WHERE id = 'grove'"
        ),
        "a coordinate out of range": (
            "UPDATE lpis_text SET wkt = 'POLYGON((0 0,20000000.001 0,1 1,0 0))' WHERE id = 'grove'"
        ),
        "texts in another spelling": "UPDATE lpis_text SET wkt = replace(lower(wkt), '.000', '')",
        "the same text of each parcel": f"UPDATE lpis_text SET wkt = '{SQUARE}'",
        "a text of a dropped identifier": f"INSERT INTO lpis_text VALUES ('north', '{SQUARE}')",
        "a text of an identifier in no release": f"INSERT INTO lpis_text VALUES ('nowhere', '{SQUARE}')",
        "a text of no identifier": f"INSERT INTO lpis_text VALUES ('no identifier', '{SQUARE}')",
        "a text of an identifier in another case": "UPDATE lpis_text SET id = 'Grove' WHERE id = 'grove'",
        "a text of an identifier of a megabyte": f"INSERT INTO lpis_text VALUES ('{'x' * 1_000_000}', '{SQUARE}')",
        "a text of an identifier with a nought": "UPDATE lpis_text SET id = id || char(0) WHERE id = 'grove'",
        "100,000 texts of no parcel": many("lpis_text", 1, 100_000, f"'P' || i, '{SQUARE}'"),
        "no texts": "DELETE FROM lpis_text",
        "a mark of each row": "INSERT INTO lpis_mark SELECT year, pos FROM lpis_row",
        "marks of a split and a merge": "INSERT INTO lpis_mark SELECT year, pos FROM lpis_row WHERE pos < 4",
        "a mark of an ending": "INSERT INTO lpis_mark SELECT year, pos FROM lpis_row WHERE new = ''",
        "a mark of no row": "INSERT INTO lpis_mark VALUES (2025, 5)",
        "a mark of a year without rows": "INSERT INTO lpis_mark VALUES (2024, 0)",
        "a mark of no release": "INSERT INTO lpis_mark VALUES (2030, 0)",
        "a mark at the ends of numbers": "INSERT INTO lpis_mark VALUES (9223372036854775807, -9223372036854775808)",
        "100,000 marks of no row": many("lpis_mark", 5, 100_000, "2025, i"),
        "numbers at the ends": "UPDATE lpis_span SET since = 9223372036854775807, until = -9223372036854775808",
        "texts with a nought": "UPDATE lpis_span SET id = 'a' || char(0) || 'b' WHERE id = 'grove'",
        "bytes that are no text": "UPDATE lpis_span SET id = CAST(x'c328ff' AS TEXT) WHERE id = 'grove'",
    }
    return cases(base, texts)


def marks(base):
    """A register with an exact split and an exact merge, whose marks, rows or tables were changed."""
    texts = {
        "nothing changed": "",
        "no marks": "DELETE FROM lpis_mark",
        "no table lpis_mark": "DROP TABLE lpis_mark",
        "no table lpis_text": "DROP TABLE lpis_text",
        "no table lpis_row": "DROP TABLE lpis_row",
        "one row of a split marked": "DELETE FROM lpis_mark WHERE pos = 1",
        "a mark of each row": "INSERT OR IGNORE INTO lpis_mark SELECT year, pos FROM lpis_row",
        "a mark of no row": "INSERT INTO lpis_mark VALUES (2025, 5)",
        "marks of no row alone": "UPDATE lpis_mark SET pos = pos + 10",
        "marks of a year without rows": "UPDATE lpis_mark SET year = 2024",
        "marks of rows that are gone": "DELETE FROM lpis_row",
        "marked rows in another order": "UPDATE lpis_row SET pos = -pos; UPDATE lpis_row SET pos = pos + 4",
        "a mark twice under its key": beside(
            "lpis_mark", "SELECT * FROM lpis_mark UNION ALL SELECT * FROM lpis_mark WHERE pos = 0"
        ),
        "marks that their key does not have": beside("lpis_mark", "SELECT * FROM lpis_mark", "another"),
        "a mark of no row, without the key": anew("lpis_mark", MARK_COLUMNS) + "INSERT INTO lpis_mark VALUES (2025, 5)",
        "marks twice, without the key": twice("lpis_mark", MARK_COLUMNS),
        "marks that may be texts": (
            anew("lpis_mark", "year, pos", "") + "INSERT INTO lpis_mark VALUES ('2025', '0'), (2025.0, x'01')"
        ),
        "marks are a view": "DROP TABLE lpis_mark; CREATE VIEW lpis_mark AS SELECT year, pos FROM lpis_row",
        "marks are a view that never ends": "DROP TABLE lpis_mark;" + endless("lpis_mark", "2025 AS year, i AS pos", 0),
        "the format is of version 2": "UPDATE lpis_format SET version = 2",
    }
    return cases(base, texts, "marked")
