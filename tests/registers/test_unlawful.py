"""Tables that say no history, texts that may not be kept, tables that are gone, tables in other orders, and files
that are no register."""

import itertools
import random

import pytest
from lpis_helpers.asking import (
    YEARS,
    MOVED,
    HISTORY,
    MARKED,
    SHAPES,
    expect,
    expect_whole,
    lpis,
    rows,
    dump,
    names_of,
    expect_tables,
    release_of,
)
from test_opened import third_year
from lpis_helpers.registers import (
    FORMAT,
    LEFT,
    LIVE,
    LIVES,
    MARK,
    MARKS,
    OLDER,
    RELEASE,
    RIGHT,
    ROW,
    SPAN,
    SPANS,
    SQUARE,
    TABLES,
    TEXT,
    TEXTS,
    TWO_YEARS,
    VERSION_1,
)
from lpis_helpers.registers import VERSION_2, VERSION_3, WITHOUT_MARKS, made, said
from lpis_helpers.spare import exhaustive

# Each a change to the tables of two years that makes them say no history.
UNLAWFUL = {
    "two versions": "INSERT INTO lpis_format VALUES (2, 3)",
    "no version": "DELETE FROM lpis_format",
    "version 0": "UPDATE lpis_format SET version = 0",
    "version 1, of tables without live rows": "UPDATE lpis_format SET version = 1",
    "version 4": "UPDATE lpis_format SET version = 4",
    "version 9": "UPDATE lpis_format SET version = 9",
    "the key of the version is 2": "UPDATE lpis_format SET one = 2",
    "the year 0": (
        "UPDATE lpis_release SET year = 0 WHERE year = 2024; UPDATE lpis_span SET since = 0, until = 0 WHERE id = 'A'"
    ),
    "a year of 65,536": "INSERT INTO lpis_release VALUES (65536)",
    "a gap in the places": "DELETE FROM lpis_mark; UPDATE lpis_row SET pos = 2 WHERE pos = 1",
    "places from 1": "DELETE FROM lpis_mark; UPDATE lpis_row SET pos = pos + 10; UPDATE lpis_row SET pos = pos - 9",
    "until in no release's year": "UPDATE lpis_span SET until = 2030 WHERE id = 'A'",
    "until before since": "UPDATE lpis_span SET until = 2023 WHERE id = 'A'",
    "until in the last year": "UPDATE lpis_span SET until = 2025 WHERE id = 'B'",
    "until 0 of a dropped identifier": "UPDATE lpis_span SET until = 0 WHERE id = 'A'",
    "no identifier": "UPDATE lpis_span SET id = 'no identifier' WHERE id = 'B'",
    "an empty identifier": "UPDATE lpis_span SET id = '' WHERE id = 'B'",
    "a row to no identifier": "UPDATE lpis_row SET new = 'no identifier' WHERE pos = 1",
    "a row to a parcel that is not there": "UPDATE lpis_row SET new = 'D' WHERE pos = 1",
    "a row from a parcel that was not there": "UPDATE lpis_row SET old = 'D' WHERE pos = 1",
    "an ending beside successors": "UPDATE lpis_row SET new = '' WHERE pos = 1",
    "no row of a dropped identifier": "DELETE FROM lpis_mark; DELETE FROM lpis_row",
    "no span of a successor": "DELETE FROM lpis_span WHERE id = 'C'",
    "one row of a split is marked": "DELETE FROM lpis_mark WHERE pos = 1",
}

# Each a change to the texts of these tables that leaves one which may not be kept.
UNREADABLE = {
    "a text that is no polygon": "UPDATE lpis_text SET wkt = 'no polygon' WHERE id = 'B'",
    "an empty text": "UPDATE lpis_text SET wkt = '' WHERE id = 'C'",
    "a text cut off": "UPDATE lpis_text SET wkt = substr(wkt, 1, length(wkt) - 1) WHERE id = 'B'",
    "a text with more behind it": "UPDATE lpis_text SET wkt = wkt || ')' WHERE id = 'B'",
    "a text with a nought behind it": "UPDATE lpis_text SET wkt = wkt || char(0) WHERE id = 'B'",
    "a ring that is not closed": "UPDATE lpis_text SET wkt = 'POLYGON((0 0,1 0,1 1,0 1))' WHERE id = 'B'",
    "a coordinate finer than a millimetre": "UPDATE lpis_text SET wkt = replace(wkt, '5.000', '5.0001') WHERE id = 'C'",
    "a coordinate out of range": "UPDATE lpis_text SET wkt = replace(wkt, '10.000', '20000000.001') WHERE id = 'C'",
    "a text of a dropped identifier": f"INSERT INTO lpis_text VALUES ('A', '{SQUARE}')",
    "a text of an identifier in no release": f"INSERT INTO lpis_text VALUES ('D', '{SQUARE}')",
    "a text of no identifier": f"INSERT INTO lpis_text VALUES ('no identifier', '{SQUARE}')",
    "an identifier in another case": "UPDATE lpis_text SET id = 'b' WHERE id = 'B'",
}

# Tables of our names without their keys: what the keys keep out is refused all the same.
KEYLESS = {
    "two texts of an identifier": (
        "DROP TABLE lpis_text; CREATE TABLE lpis_text (id TEXT NOT NULL, wkt TEXT NOT NULL) STRICT;" + TEXTS + TEXTS
    ),
    "a mark of no row": (
        "DROP TABLE lpis_mark; CREATE TABLE lpis_mark (year INTEGER NOT NULL, pos INTEGER NOT NULL) STRICT;"
        "INSERT INTO lpis_mark VALUES (2025, 2)"
    ),
    "a mark of no release": (
        "DROP TABLE lpis_mark; CREATE TABLE lpis_mark (year INTEGER NOT NULL, pos INTEGER NOT NULL) STRICT;"
        "INSERT INTO lpis_mark VALUES (2023, 0)"
    ),
}

# Rows that break a foreign key are refused by the database itself, when it is opened.
BROKEN = {
    "since in no release's year": (VERSION_3, "UPDATE lpis_span SET since = 2023 WHERE id = 'A'"),
    "a row of no release": (VERSION_2, "UPDATE lpis_row SET year = 2023 WHERE pos = 1"),
    "a live row of no release": (VERSION_1, "INSERT INTO lpis_live VALUES (2023, 'A')"),
    "a mark of a place that no row has": (VERSION_3, "INSERT INTO lpis_mark VALUES (2025, 2)"),
    "a mark of a year that has no rows": (VERSION_3, "INSERT INTO lpis_mark VALUES (2024, 0)"),
}


OFF = "PRAGMA foreign_keys = OFF"
REFUSED = {
    **{name: (VERSION_3, OFF, change) for name, change in {**UNLAWFUL, **UNREADABLE, **KEYLESS}.items()},
    **{f"{name}, without lpis_mark": (WITHOUT_MARKS, OFF, change) for name, change in UNREADABLE.items()},
    "a text where there is no release": (
        TABLES[3],
        f"INSERT INTO lpis_format VALUES (1, 3); INSERT INTO lpis_text VALUES ('A', '{SQUARE}')",
    ),
    "a mark of an ending": (
        OLDER,
        TEXT,
        MARK,
        "INSERT INTO lpis_format VALUES (1, 3)",
        TWO_YEARS,
        "DELETE FROM lpis_row",
        "INSERT INTO lpis_span VALUES ('A', 2024, 2024); INSERT INTO lpis_row VALUES (2025, 0, 'A', '')",
        "INSERT INTO lpis_mark VALUES (2025, 0)",
    ),
    "version 1 with no identifier": (VERSION_1, OFF, "INSERT INTO lpis_live VALUES (2024, 'no identifier')"),
    "version 1 with an identifier that comes back": (
        VERSION_1,
        OFF,
        "INSERT INTO lpis_release VALUES (2026); INSERT INTO lpis_live VALUES (2026, 'A'), (2026, 'B'), (2026, 'C')",
    ),
    "version 2 with no span of a successor": (VERSION_2, "DELETE FROM lpis_span WHERE id = 'C'"),
}


@pytest.mark.parametrize("scripts", REFUSED.values(), ids=REFUSED)
def test_unlawful(scripts, tmp_path):
    """Tables that are refused with 84, by every command, and stay as they are."""
    path = made(tmp_path / "years.db", *scripts)
    before = dump(path)
    for words in (
        ("trace", path, "A"),
        ("publish", path, 2030, YEARS / "2024", "nowhere.txt"),
        ("exact", path, YEARS / "2024", "nowhere.txt", "nowhere/out.txt"),
        ("publish-country", path, 2030, "nowhere", "--exact", "nowhere.txt"),
        ("exact-country", path, "nowhere", "nowhere/out.txt"),
    ):
        expect(words[0], lpis(*words), ("refused 84\n", 2))
    expect("nothing is changed", dump(path), before)


@pytest.mark.parametrize("script, change", BROKEN.values(), ids=BROKEN)
def test_broken(script, change, tmp_path):
    path = made(tmp_path / "years.db", script, OFF, change)
    before = dump(path)
    expect("trace", lpis("trace", path, "A"), ("2> failed store\n", 3))
    expect("nothing is changed", dump(path), before)


# What makes one year of the two.
ONE_BY_SPANS = (
    "DELETE FROM lpis_row; DELETE FROM lpis_span WHERE since = 2025; UPDATE lpis_span SET until = 0;"
    "DELETE FROM lpis_release WHERE year = 2025;"
)
ONE_YEAR = {
    1: "DELETE FROM lpis_row; DELETE FROM lpis_live WHERE year = 2025; DELETE FROM lpis_release WHERE year = 2025;",
    2: ONE_BY_SPANS,
    3: f"DELETE FROM lpis_mark; {ONE_BY_SPANS} DELETE FROM lpis_text; INSERT INTO lpis_text VALUES ('A', '{SQUARE}');",
}


@pytest.mark.parametrize("most", (1, exhaustive(2)))
def test_gone(most, tmp_path):
    """Registers of one and two years and of each version, of which each table, or each pair of tables too, is gone:
    they say what they say with those tables there and empty, where lpis_span without lpis_format tells version 3, also
    once a year is published over them. What is not opened stays as it was, byte for byte."""
    opened = published = 0
    release, cert = release_of(tmp_path, "third", {"D": LEFT, "C": RIGHT}, "old,new", "B,D")
    for version, script in {1: VERSION_1, 2: VERSION_2, 3: VERSION_3}.items():
        for years, change in ((2, ""), (1, ONE_YEAR[version])):
            names = names_of(made(tmp_path / f"{version}-{years}.db", script, change))
            for number, missing in enumerate(
                missing for count in range(1, most + 1) for missing in itertools.combinations(names, count)
            ):
                name = f"version {version}, {years} years, without {' and '.join(missing)}"
                path, empty = (tmp_path / f"{version}-{years}-{number}-{kind}.db" for kind in ("gone", "empty"))
                made(
                    path,
                    script,
                    change,
                    "PRAGMA foreign_keys = OFF;" + "".join(f"DROP TABLE {table};" for table in missing),
                )
                told = (
                    "INSERT INTO lpis_format VALUES (1, 3);"
                    if "lpis_format" in missing and "lpis_span" in {*names} - {*missing}
                    else ""
                )
                made(
                    empty,
                    script,
                    change,
                    "PRAGMA foreign_keys = OFF;" + "".join(f"DELETE FROM {table};" for table in missing) + told,
                )
                before, wanted, answer = path.read_bytes(), lpis("trace", empty, "A"), lpis("trace", path, "A")
                if wanted[1] in (0, 1):
                    expect(name, answer, wanted)
                    opened += 1
                    expect(f"{name}: what it says", said(path), said(empty))
                    expect_tables(name, path, [*(it for it in names_of(path) if it in MOVED)], tmp_path)
                    answer = lpis("publish", path, 2026, release, cert)
                    expect(f"{name}: publish", answer, lpis("publish", empty, 2026, release, cert))
                    expect(f"{name}: what it says then", said(path), said(empty))
                    expect_whole(f"{name}, after publish", path)
                    published += answer[1] == 0
                else:  # where a row names a release or a row of lineage that is gone, the database itself refuses it
                    expect(f"{name}: {answer}", answer in (("refused 84\n", 2), ("2> failed store\n", 3)), True)
                    expect(f"{name}: the file", path.read_bytes() == before, True)
                if version == 1 and "lpis_format" in missing:
                    expect(f"{name}: it is not opened", answer[1] in (2, 3), True)
    expect("some are opened", opened > 9, True)
    expect("some are published", published > 2, True)


@pytest.mark.parametrize("most", (12, exhaustive(60)))
def test_orders(most, tmp_path):
    """Registers of each version whose tables stand in other orders, with tables of others before them and between: what
    they say is the same, and so is what they say once a year is published over them. What others put there stays."""
    makes = {
        "lpis_format": FORMAT,
        "lpis_release": RELEASE,
        "lpis_live": LIVE,
        "lpis_span": SPAN,
        "lpis_row": ROW,
        "lpis_text": TEXT,
        "lpis_mark": MARK,
    }
    filled = {1: TWO_YEARS + LIVES, 2: TWO_YEARS + SPANS, 3: TWO_YEARS + SPANS + TEXTS + MARKS}
    numbers = random.Random(72)
    for version, others in ((1, ["lpis_live"]), (2, ["lpis_span"]), (3, ["lpis_span", "lpis_text", "lpis_mark"])):
        every = list(itertools.permutations(["lpis_format", "lpis_release", "lpis_row", *others]))
        for number, order in enumerate(numbers.sample(every, min(most, len(every)))):
            guests_between = [
                (
                    f"CREATE TABLE note_{place} (note TEXT PRIMARY KEY, year INTEGER); INSERT INTO note_{place} VALUES"
                    " ('a', 2024);"
                    if number % 2 or place
                    else ""
                )
                for place in range(len(order))
            ]
            script = "".join(guest + makes[name] for guest, name in zip(guests_between, order))
            path = made(
                tmp_path / f"{version}-{number}.db",
                script,
                f"INSERT INTO lpis_format VALUES (1, {version});",
                filled[version],
            )
            for time in ("opened", "opened again"):
                name = f"version {version}, {' '.join(order)}, {time}"
                expect(name, lpis("trace", path, "A"), ("B\nC\n", 0))
                expect(f"{name}: what it says", said(path), (MARKED, SHAPES) if version == 3 else (HISTORY, []))
                expect(f"{name}: what others put there", rows(path, "SELECT * FROM note_1"), [("a", 2024)])
            name = f"version {version}, {' '.join(order)}"
            third_year(tmp_path, name, path, MARKED if version == 3 else HISTORY, dict(SHAPES if version == 3 else ()))
            expect(f"{name}, published: what others put there", rows(path, "SELECT * FROM note_1"), [("a", 2024)])


def test_no_register(tmp_path):
    (tmp_path / "text.db").write_text("old,new\n" * 1000)
    for name, path in {
        "a text": tmp_path / "text.db",
        "a folder": tmp_path,
        "no folder": tmp_path / "nowhere" / "years.db",
    }.items():
        expect(name, lpis("trace", path, "A"), ("2> failed store\n", 3))
    path = made(tmp_path / "foreign.db", "CREATE TABLE other (x); INSERT INTO other VALUES (1)")
    before = rows(path, "SELECT * FROM other")
    lpis("trace", path, "A")
    expect("a foreign table keeps its rows", rows(path, "SELECT * FROM other"), before)
