"""Years of generated parcels in registers: audit/lineage.py beside `lpis publish`, with the blocks of `lpis exact` and
with damaged ones, and audit/register.py beside what `lpis` opens, whole and edited."""

import contextlib
import os
import random
import sqlite3
import tempfile
from pathlib import Path

import lineage
import pytest
import register
from lpis_helpers import registers
from lpis_helpers.asking import dump
from lpis_helpers.exact_lineage import spoiled, with_blocks
from lpis_helpers.exact_years import TwoYears
from test_audited_releases import audited, lpis

YEARS, EDITS = 25, 4  # pairs of years; registers that are edited of each

# Edits of a register, each a statement with the names of the two years' identifiers, years and places put in at random.
STATEMENTS = [
    "DELETE FROM lpis_row WHERE rowid = {place} + 1",
    "DELETE FROM lpis_mark WHERE pos = {place}",
    "DELETE FROM lpis_span WHERE id = '{name}'",
    "DELETE FROM lpis_text WHERE id = '{name}'",
    "INSERT INTO lpis_mark VALUES (2025, {place})",
    "INSERT INTO lpis_span VALUES ('{name}x', {year}, {until})",
    "UPDATE lpis_span SET until = {until} WHERE id = '{name}'",
    "UPDATE lpis_span SET since = {year} WHERE id = '{name}'",
    "UPDATE lpis_span SET id = '{name} ' WHERE id = '{name}'",
    "UPDATE lpis_row SET old = '{name}' WHERE pos = {place}",
    "UPDATE lpis_row SET new = '{name}' WHERE pos = {place}",
    "UPDATE lpis_row SET new = '' WHERE pos = {place}",
    "UPDATE lpis_row SET pos = 9 WHERE pos = {place}",
    "INSERT INTO lpis_row VALUES (2025, (SELECT count(*) FROM lpis_row), '{name}', '{other}')",
    "INSERT INTO lpis_row VALUES (2024, 0, '{name}', '')",
    "INSERT INTO lpis_release VALUES (2026)",
    "INSERT INTO lpis_release VALUES ({year} - 2)",
    "UPDATE lpis_text SET wkt = replace(wkt, ',', ' , ') WHERE id = '{name}'",
    "UPDATE lpis_text SET wkt = replace(wkt, '.000', '.0000') WHERE id = '{name}'",
    "UPDATE lpis_text SET wkt = replace(wkt, '.000', '.0001') WHERE id = '{name}'",
    "UPDATE lpis_text SET wkt = substr(wkt, 1, length(wkt) - 1) WHERE id = '{name}'",
    "UPDATE lpis_text SET id = '{other}' WHERE id = '{name}'",
    "UPDATE lpis_format SET version = {place} + 1",
    "UPDATE lpis_format SET one = 2",
    "DROP TABLE lpis_mark",
    "DROP TABLE lpis_text",
    "DROP TABLE lpis_format",
    "CREATE TABLE notes (note TEXT); INSERT INTO notes VALUES ('x')",
    "CREATE VIEW now AS SELECT id FROM lpis_text",
    "DELETE FROM lpis_text",
    "DELETE FROM lpis_mark; DELETE FROM lpis_row",
]

DROP_ALL = "; ".join(
    f"DROP TABLE IF EXISTS lpis_{name}" for name in ("mark", "text", "live", "span", "row", "release", "format")
)

# Edits of two years in registers of each version: what others may put there, what is in the way of `lpis`, and what is
# no lawful history.
BESIDE = [
    "",
    "CREATE VIEW now AS SELECT year FROM lpis_release",
    "CREATE VIEW some AS SELECT old FROM lpis_row WHERE old GLOB 'A*'",
    "CREATE TABLE notes (note); INSERT INTO notes VALUES (1)",
    "CREATE INDEX by_old ON lpis_row (old)",
    "CREATE INDEX some ON lpis_row (old) WHERE old > 'A'",
    "CREATE INDEX low ON lpis_row (lower(old))",
    "CREATE TRIGGER watch AFTER INSERT ON lpis_row BEGIN SELECT 1; END",
    "CREATE TRIGGER watch BEFORE UPDATE OF version ON lpis_format BEGIN SELECT raise(ABORT, 'no'); END",
    "CREATE VIEW v AS SELECT year FROM lpis_release; CREATE TRIGGER watch INSTEAD OF INSERT ON v BEGIN SELECT 1; END",
    "CREATE VIRTUAL TABLE words USING fts5 (word)",
    "CREATE VIEW lpis_mark AS SELECT 2025 AS year, 0 AS pos",
    "DROP TABLE lpis_mark; CREATE VIEW LPIS_Mark AS SELECT 2025 AS year, 0 AS pos",
    "CREATE TABLE flights (flown REFERENCES lpis_release); INSERT INTO flights VALUES (2023)",
    "CREATE TABLE flights (flown REFERENCES lpis_release); INSERT INTO flights VALUES (2024)",
    "ALTER TABLE lpis_row RENAME TO x; ALTER TABLE x RENAME TO LPIS_ROW",
    "ALTER TABLE lpis_text RENAME TO x; ALTER TABLE x RENAME TO LPIS_TEXT; UPDATE lpis_text SET wkt = 'no polygon'",
    "UPDATE lpis_row SET new = 'D' WHERE pos = 1",
    "UPDATE lpis_row SET new = '' WHERE pos = 1",
    "DELETE FROM lpis_row WHERE pos = 1",
    "DELETE FROM lpis_row WHERE pos = 0",
    "DELETE FROM lpis_format",
    "INSERT INTO lpis_row VALUES (2025, 2, 'A', 'B')",
    "INSERT INTO lpis_row VALUES (2025, 2, 'B', 'C')",
    "INSERT INTO lpis_row VALUES (2024, 0, 'A', '')",
    "INSERT INTO lpis_release VALUES (65536)",
    "INSERT INTO lpis_release VALUES (2026)",
    "INSERT INTO lpis_release VALUES (0)",
    "INSERT INTO lpis_release VALUES (2023)",
    "DROP TABLE lpis_row",
    "DROP TABLE lpis_span",
    "DROP TABLE lpis_live",
    "DROP TABLE lpis_format",
    (
        "DROP TABLE lpis_format; CREATE TABLE lpis_format (one INTEGER PRIMARY KEY, version REAL) STRICT; INSERT INTO"
        " lpis_format VALUES (1, 3)"
    ),
    (
        "CREATE INDEX part ON lpis_row (year, pos, old, new) WHERE pos <> 2; INSERT INTO lpis_row VALUES (2025, 2, 'B',"
        " ''); PRAGMA writable_schema = ON; UPDATE sqlite_master SET sql = 'CREATE INDEX part ON lpis_row (year, pos,"
        " old, new)' WHERE name = 'part'"
    ),
    "INSERT INTO lpis_live VALUES (2024, 'no identifier')",
    "DELETE FROM lpis_live WHERE id = 'C'",
    "DELETE FROM lpis_live WHERE id = 'A'",
    "INSERT INTO lpis_live VALUES (2025, 'A')",
    "INSERT INTO lpis_live VALUES (2024, 'B')",
    "INSERT INTO lpis_live VALUES (2024, 'D'), (2025, 'D')",
    "INSERT INTO lpis_live VALUES (2024, 'D')",
    "INSERT INTO lpis_live VALUES (2023, 'A')",
    "INSERT INTO lpis_release VALUES (2026); INSERT INTO lpis_live VALUES (2026, 'A'), (2026, 'B'), (2026, 'C')",
    "INSERT INTO lpis_release VALUES (2026); INSERT INTO lpis_live VALUES (2026, 'B'), (2026, 'C')",
    "DROP TABLE lpis_span; CREATE TABLE lpis_span (id TEXT, since INTEGER, until INTEGER);"
    + registers.SPANS
    + registers.SPANS,
    "DROP TABLE lpis_text; CREATE TABLE lpis_text (id TEXT, wkt TEXT);" + registers.TEXTS + registers.TEXTS,
    registers.TEXT + "INSERT INTO lpis_text VALUES ('X', 'no polygon')",
    "DROP TABLE lpis_format; DROP TABLE IF EXISTS lpis_span",
    "DROP TABLE lpis_format; DROP TABLE IF EXISTS lpis_span; CREATE TABLE notes (note)",
    *(
        f"{DROP_ALL}; CREATE TABLE notes (note); {table}"
        for table in (
            "",
            registers.RELEASE,
            registers.LIVE,
            registers.ROW,
            registers.TEXT,
            registers.MARK,
            registers.SPAN,
        )
    ),
    registers.SPAN + "INSERT INTO lpis_span VALUES ('X', 2024, 0)",
    registers.LIVE + "INSERT INTO lpis_live VALUES (2024, 'X')",
    registers.MARK + "INSERT INTO lpis_mark VALUES (2025, 1)",
]


def copied(path, other):
    """A copy of a database, what its log has too; whatever had the copy's name is gone."""
    for old in other.parent.glob(f"{other.name}*"):
        old.unlink()
    source, target = sqlite3.connect(path), sqlite3.connect(other)
    source.backup(target)
    source.close()
    target.close()
    return other


def edited(path, years, numbers):
    """Runs a statement over a register, and tells it; the database may refuse it."""
    names = sorted({*years.old, *years.new})
    words = {"name": numbers.choice(names), "other": numbers.choice(names), "place": numbers.randrange(3)}
    words |= {"year": numbers.choice([2024, 2025, 2026]), "until": numbers.choice([0, 2023, 2024, 2025])}
    statement, base = numbers.choice(STATEMENTS).format(**words), sqlite3.connect(path)
    with contextlib.suppress(sqlite3.IntegrityError):
        base.executescript(statement)
    base.close()
    return statement


def expect_register(path, other):
    """The register is lawful where the program opens it, and is read alone. What may be in the program's way is a
    fault, or is named."""
    before, (status, said), (its_status, text) = (
        dump(path),
        lpis("trace", copied(path, other), "nobody"),
        audited(register.main, path, None),
    )
    assert (its_status == 0) == (said == "refused 83\n") or status == 3 and "made by others" in text, (
        status,
        said,
        its_status,
        text,
    )
    assert dump(path) == before, "the register is as it was"
    return text


@pytest.mark.parametrize("edit", BESIDE, ids=range(len(BESIDE)))
@pytest.mark.parametrize(
    "script",
    [registers.VERSION_1, registers.VERSION_2, registers.VERSION_3],
    ids=["version-1", "version-2", "version-3"],
)
def test_versions(script, edit, tmp_path):
    """Two years in registers of each version, edited. A view and a trigger are named."""
    path = tmp_path / "register.db"
    base = sqlite3.connect(path)
    base.executescript(f"PRAGMA foreign_keys = OFF; {script}")
    with contextlib.suppress(sqlite3.OperationalError, sqlite3.IntegrityError):
        base.executescript(edit)
    base.close()
    text = expect_register(path, tmp_path / "opened.db")
    for word, object_name in (("VIEW now", "now"), ("TRIGGER watch", "watch")):
        assert word not in edit or object_name in text


def expect_lineage(folder, path):
    """A publish of 2025 over a copy of the register, and the second checker over the same."""
    copy = copied(path, folder / "copy.db")
    status, said = lpis("publish", copy, 2025, folder / "2025", folder / "2025.txt")
    its_status, text = audited(lineage.main, folder / "2024", folder / "2025", folder / "2025.txt")
    assert (status == 0) == (its_status == 0), f"lineage: {said} {text[-300:]}"
    for year in (2024, 2025):
        its_status, text = audited(register.main, copy, folder / str(year))
        assert (its_status == 0) == (year == (2025 if status == 0 else 2024)), f"shapes of {year}: {text[-300:]}"
    return copy


@pytest.mark.parametrize("number", range(YEARS))
def test_years(number, tmp_path):
    """The two years of a number: published with the blocks that `exact` writes, and with damaged ones; then the
    register, whole and edited."""
    numbers, years, path, cert = (
        random.Random(76_000 + number),
        TwoYears(number),
        tmp_path / "years.db",
        tmp_path / "2025.txt",
    )
    years.write(tmp_path, numbers)
    for year in (2024, 2025):
        lpis("cut", tmp_path / str(year), tmp_path / f"{year}.txt")
    lpis("publish", path, 2024, tmp_path / "2024", tmp_path / "2024.txt")
    groups, plain = years.change().groups(), cert.read_text(encoding="ascii")
    if lpis("exact", path, tmp_path / "2025", cert, tmp_path / "exact.txt")[0] == 0:
        (tmp_path / "exact.txt").replace(cert)
    wrong = with_blocks(plain, spoiled(numbers, groups, [group.block() for group in groups]) if groups else [])
    for text in [wrong, cert.read_text(encoding="ascii")]:
        cert.write_text(text, encoding="ascii")
        copy = expect_lineage(tmp_path, path)
    expect_register(copy, tmp_path / "opened.db")
    for _ in range(EDITS):
        changed = edited(copied(copy, tmp_path / "edited.db"), years, numbers)
        print(changed)  # shown where it fails
        expect_register(tmp_path / "edited.db", tmp_path / "opened.db")


@contextlib.contextmanager
def not_writable(folder):
    """A folder into which nobody may write: of root's, another user looks."""
    folder.chmod(0o555)
    is_root = os.geteuid() == 0
    try:
        if is_root:
            os.seteuid(65534)
        yield
    finally:
        if is_root:
            os.seteuid(0)
        folder.chmod(0o755)


def read(folder):
    """What the second checker says of the register in a folder that may not be written: that it is lawful, or which
    log it cannot read."""
    with not_writable(folder):
        try:
            return register.main(folder / "register.db", None)
        except OSError as fault:
            return str(fault)


@pytest.fixture
def folder():
    """One that another user may enter: not below that of pytest."""
    with tempfile.TemporaryDirectory() as top:
        Path(top).chmod(0o755)
        (folder := Path(top, "read-only")).mkdir()
        yield folder


def test_read_only(folder):
    """A register in the mode WAL, where no file may be made beside it: alone, with an empty log, and with rows in
    the log."""
    path, log, shared = (folder / f"register.db{end}" for end in ("", "-wal", "-shm"))
    registers.made(path, "PRAGMA journal_mode = WAL;" + registers.VERSION_3)
    lawful = "lawful releases 2 identifiers 3 shapes 2\n"
    assert read(folder) == lawful
    log.touch()
    assert read(folder) == lawful, "with an empty log"
    base = sqlite3.connect(path)
    base.execute("INSERT INTO lpis_release VALUES (2026)")
    base.execute("UPDATE lpis_span SET until = 2025 WHERE id = 'C'")
    base.execute("INSERT INTO lpis_row VALUES (2026, 0, 'C', '')")
    base.execute("DELETE FROM lpis_text WHERE id = 'C'")
    base.commit()
    assert read(folder) == "lawful releases 3 identifiers 3 shapes 1\n", "with rows in its log"
    data = log.read_bytes()
    base.close()
    log.write_bytes(data)
    shared.unlink(missing_ok=True)
    said = read(folder)
    assert (
        said.startswith(f"unable to open database file, so what {log} has was not read") and said.count("\n") <= 1
    ), "a log that cannot be read"
