"""What others have put into a register's file so that a command fails, as docs/FORMATS.md has it ('What may stand
beside a register'): `hindrances` are what keeps the program from the file, `refusals` what may have done so or refused
a release."""

import pathlib
import sqlite3

COLUMNS = {
    "lpis_format": {"one": "integer", "version": "integer"},
    "lpis_release": {"year": "integer"},
    "lpis_span": {"id": "text", "since": "integer", "until": "integer"},
    "lpis_live": {"year": "integer", "id": "text"},
    "lpis_row": {"year": "integer", "pos": "integer", "old": "text", "new": "text"},
    "lpis_text": {"id": "text", "wkt": "text"},
    "lpis_mark": {"year": "integer", "pos": "integer"},
}
OWN = COLUMNS.keys()
EXPRESSION = -2  # the column of an index that is none of its table's
PERHAPS = "it is there, and using it failed: perhaps {}, or another process held it just now"


def odd_indexes(base, table):
    """The indexes of a table that the program does not read, each with what it is of."""
    for _, name, _, _, is_partial in base.execute("SELECT * FROM pragma_index_list(?)", (table,)):
        columns = base.execute("SELECT cid FROM pragma_index_xinfo(?)", (name,)).fetchall()
        if is_partial:
            yield name, "a part of its rows"
        elif (EXPRESSION,) in columns:
            yield name, "an expression"


def odd_values(base, tables):
    """Columns of the register's tables that are missing, or have a value of another type. Beside `lpis_span` none of
    `lpis_live` is read."""
    for table in sorted(OWN & tables - ({"lpis_live"} if "lpis_span" in tables else set())):
        there = {name.lower() for (name,) in base.execute("SELECT name FROM pragma_table_info(?)", (table,))}
        for column, kind in COLUMNS[table].items():
            if column not in there:
                yield f"the table {table} has no column {column}: take the register from its last copy"
            elif base.execute(f"SELECT 1 FROM {table} WHERE typeof({column}) <> ? LIMIT 1", (kind,)).fetchone():
                yield (
                    f"the table {table} has a value of {column} that is no {kind}: take the register from its last copy"
                )


def hindrances(base):
    """What the program opens no file with, or reads no table of a register."""
    objects = base.execute("SELECT type, name, lower(tbl_name), rootpage, lower(sql) FROM sqlite_master").fetchall()
    kinds = {name.lower(): kind for kind, name, *_ in objects if kind in ("table", "view")}
    texts = {name.lower(): sql for kind, name, _, _, sql in objects if kind == "table"}
    for kind, name, table, root, _ in objects:
        if kind == "table" and not root:
            yield f"the virtual table {name}: drop it, or keep it in another file"
        elif kind == "view" and name.lower() in OWN:
            yield f"the view {name} has the name of a table of a register: drop it"
        elif kind == "trigger" and (table in OWN or kinds.get(table) == "view"):
            yield f"the trigger {name} on {table}: drop it"
        elif kind == "trigger" and "references" in texts.get(table, ""):
            yield f"the trigger {name} on {table}, which has a foreign key: drop it"
    for table, sql in texts.items():
        for name, what in odd_indexes(base, table) if table in OWN or "references" in sql else ():
            yield f"the index {name} on {table}, of {what}: drop it"
    yield from odd_values(base, texts.keys())


def refusals(base):
    """What may refuse the rows of a release, or the whole file."""
    for (name,) in base.execute("SELECT name FROM sqlite_master WHERE type = 'view'"):
        yield PERHAPS.format(f"the view {name} has words of SQL that the program does not read")
    tables = [name for name, in base.execute("SELECT name FROM sqlite_master WHERE type = 'table'")]
    for table in tables:
        for _, _, parent, *_ in base.execute("SELECT * FROM pragma_foreign_key_list(?)", (table,)):
            if parent.lower() == "lpis_text" and table.lower() not in OWN:
                yield PERHAPS.format(f"the foreign key of {table} to {parent} refused a row")
        for _, name, is_unique, origin, _ in base.execute("SELECT * FROM pragma_index_list(?)", (table,)):
            if table.lower() in OWN and is_unique and origin == "c":
                yield PERHAPS.format(f"the unique index {name} on {table} refused a row")


def first_of(found, path):
    """The first that one of these two finds in a file; nothing where the file cannot be read."""
    try:
        base = sqlite3.connect(pathlib.Path(path).resolve().as_uri() + "?mode=ro", uri=True, timeout=1)
        try:
            return next(found(base), "")
        finally:
            base.close()
    except sqlite3.Error:
        return ""
