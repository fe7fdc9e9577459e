#!/usr/bin/env python3
"""Tests that the years of a register are lawful, a second time, beside `lpis`:   audit/register.py DB [--shapes DIR]

Reads a database of version 1, 2 or 3, and does not change it. Prints its numbers and the views and indexes in it, which
may keep `lpis` from it: status 0. Else a line `no` for each fault, such as a trigger: status 1. With --shapes also
whether the shapes that it keeps are those of the parcels in DIR, which is to be the release that was published last.
"""

import re
import sqlite3
from pathlib import Path

from lineage import row_faults
from release import IDENTIFIER, No, need, polygon_of, read_parcels, run

COLUMNS = {  # of each table what identifies a row, what else is in it, and the versions that have it
    "lpis_release": (["year"], [], "123"),
    "lpis_live": (["id", "year"], [], "1"),
    "lpis_span": (["id"], ["since", "until"], "23"),
    "lpis_row": (["year", "pos"], ["old", "new"], "123"),
    "lpis_text": (["id"], ["wkt"], "3"),
    "lpis_mark": (["year", "pos"], [], "3"),
}
OTHERS = "SELECT type, name FROM sqlite_master WHERE type <> 'table' AND sql <> '' OR sql LIKE 'CREATE VIRTUAL%'"


def rows_of(base, name, version):
    """The rows of a table that is there. What it has in a register of another version says nothing."""
    key, others, versions = COLUMNS[name]
    is_there = base.execute("SELECT 1 FROM sqlite_master WHERE lower(name) = ?", [name]).fetchone()
    if version not in versions or not is_there:
        return []
    rows = base.execute(f"SELECT {', '.join(key + others)} FROM {name} NOT INDEXED").fetchall()
    types = [str if column in ("id", "old", "new", "wkt") else int for column in key + others]
    need(all([type(value) for value in row] == types for row in rows), name, "has a value of another type")
    need(len({row[: len(key)] for row in rows}) == len(rows), name, "has two rows of one key")
    return rows


def opened(path):
    """A database for reading alone, now. Where SQLite may put no file beside it, it is read as one that nobody changes,
    but for one with a log there, whose rows would be missing."""
    path = Path(path).resolve()
    base = sqlite3.connect(path.as_uri() + "?mode=ro", uri=True, isolation_level=None)
    try:
        base.execute("BEGIN").execute("SELECT 1 FROM sqlite_master").fetchone()
    except sqlite3.OperationalError as fault:
        logs = [log for log in (Path(f"{path}-wal"), Path(f"{path}-journal")) if log.exists() and log.stat().st_size]
        if logs or not path.is_file() or "locked" in str(fault):
            raise OSError(f"{fault}{''.join(f', so what {log} has was not read' for log in logs)}") from None
        base = sqlite3.connect(path.as_uri() + "?immutable=1", uri=True, isolation_level=None)
    base.text_factory = lambda data: data.decode("iso-8859-1")
    return base


def read_register(path):
    """Its years, spans, rows, marks and texts, and what others made in it, all of one moment."""
    base = opened(path)
    others = sorted(base.execute(OTHERS))
    hiding = [name for kind, name in others if kind in ("trigger", "table") or name.lower().startswith("lpis_")]
    need(not hiding, "it has a trigger, a virtual table, or a view in place of a table:", *hiding)
    need(not base.execute("PRAGMA foreign_key_check").fetchone(), "a row names one that is not there")
    names = {name.lower() for (name,) in base.execute("SELECT name FROM sqlite_master WHERE type = 'table'")}
    need({"lpis_format", "lpis_span"} & names or not names & COLUMNS.keys(), "it lacks lpis_format and lpis_span")
    version = base.execute("SELECT one, version FROM lpis_format").fetchall() if "lpis_format" in names else [(1, 3)]
    need(str(version) in ("[(1, 1)]", "[(1, 2)]", "[(1, 3)]"), "no register of version 1, 2 or 3:", version)
    release, lives, spans, rows, texts, marks = (rows_of(base, name, str(version[0][1])) for name in COLUMNS)
    years = sorted(year for (year,) in release)
    spans += [(name, year, 0 if [year] == years[-1:] else year) for name, year in lives]
    base.close()
    return years, spans, sorted(rows), set(marks), texts, others


def history_faults(years, spans, rows, marks):
    """What is wrong with spans, rows and marks, each release beside the one before it."""
    for name, since, until in spans:
        is_span = since in years and (until == 0 or until in years[:-1] and since <= until)
        if not is_span or not re.fullmatch(IDENTIFIER, name):
            yield f"{name!r} is no identifier, or {since} and {until} are no years of releases in order"
    yield from (f"{row} is a row of no release" for row in rows if row[0] not in years)
    yield from (f"{mark} is a mark of no row" for mark in sorted(marks - {row[:2] for row in rows}))
    before, gone = set(), set()
    for year in years:
        live = {name for name, since, until in spans if since <= year and (until == 0 or year <= until)}
        gone |= before - live
        its_rows = [row for row in rows if row[0] == year]
        if [row[1] for row in its_rows] != list(range(len(its_rows))) or not 1 <= year <= 65_535:
            yield f"{year} is not from 1 to 65535, or its rows are not at 0, 1, 2 and so on"
        marked = {row[2:] for row in its_rows if row[:2] in marks}
        yield from (f"{year} 76: it was in an earlier release, not in the last: {name}" for name in sorted(live & gone))
        yield from (f"{year} {fault}" for fault in row_faults([row[2:] for row in its_rows], marked, before, live))
        before = live


def shape_faults(texts, spans, folder):
    kept, live = {}, {name for name, _, until in spans if until == 0}
    for name, text in texts:
        try:
            kept[name] = polygon_of(text)
        except No as fault:
            yield f"{name!r} has {fault}"
    yield from (f"{name!r} has a text, and is not live" for name in sorted(kept.keys() - live))
    parcels = read_parcels(folder) if folder else kept
    differing = [name for name in parcels.keys() | kept.keys() if parcels.get(name) != kept.get(name)]
    yield from (f"{name!r} has not the shape of the release" for name in sorted(differing))


def main(path, folder):
    years, spans, rows, marks, texts, others = read_register(path)
    faults = [*history_faults(years, spans, rows, marks), *shape_faults(texts, spans, folder)]
    need(not faults, "\nno ".join(faults))
    counts = f"lawful releases {len(years)} identifiers {len({name for name, _, _ in spans})} shapes {len(texts)}\n"
    return counts + "".join(f"made by others: {kind} {name}\n" for kind, name in others)


if __name__ == "__main__":
    run(main, "DB", "--shapes")
