"""The rows of a source in parts of so many rows, each read, tested and mended alone: what a part gives is a file of its
own, with the rows, their shapes and what was found."""

from __future__ import annotations

import contextlib
import hashlib
import json
import os
import sqlite3
from dataclasses import asdict

from . import row_store
from ..formats import identifiers
from ..geometry import ring_areas
from ..preparation import identifier_passes, source_tests
from ..source import file_digests, land
from ..system import databases, files, unforeseen

RULE = "lpis parts 4"  # what another rule gave is not taken
MOST, SPARSE = 25_000, 4  # rows of a part; how many times as many parts there may be where numbers have holes
SHAPES, VALID = 1, 2  # steps: what a part finds


@contextlib.contextmanager
def opened(path):
    """A source for reading; what cannot be read of it is trouble."""
    with contextlib.closing(land.opened(path)) as connection:
        try:
            yield connection
        except (sqlite3.Error, ValueError) as error:
            raise land.Trouble(f"{path}: {databases.why(error)}") from None


def ranges_of(connection, origin):
    """The least and the greatest number of the rows of each part of a layer, and the place of the first where that
    numbers them; None for both where its rows have no numbers. Where they have a key, a row that comes or goes leaves
    the other parts as they are."""
    try:
        numbers = [
            number for (number,) in connection.execute(f"SELECT rowid FROM {land.quoted(origin.table)} ORDER BY rowid")
        ]
    except sqlite3.OperationalError:
        return [(None, 1)]
    if not all(isinstance(number, int) for number in numbers):  # of a view SQLite gives NULL for each
        return [(None, 1)]
    if origin.key:
        lows = sorted({number // MOST * MOST for number in numbers})
        if len(lows) <= SPARSE * (len(numbers) // MOST + 1):
            return [((low, low + MOST - 1), 1) for low in lows]
    lows = numbers[::MOST]
    return [
        ((low, high - 1), 1 if origin.key else 1 + place * MOST)
        for place, (low, high) in enumerate(zip(lows, [*lows[1:], (1 << 63)]))
    ]


def digest_of(origin, among):
    """That of the rows of a part, as they stand there."""
    digest = hashlib.sha256()
    with opened(origin.path) as connection:
        for *values, last in land.values_of(connection, origin, among):
            blob = last if isinstance(last, bytes) else repr(last).encode(errors="backslashreplace")
            digest.update(f"{values!r} {len(blob)} ".encode(errors="backslashreplace"))
            digest.update(blob)
    return digest.hexdigest()


def part_name(facts):
    return f"{hashlib.sha256(json.dumps([RULE, facts]).encode()).hexdigest()}.part"


def planned(origins, keys, options, known):
    """The parts of a source. `origins` has where each layer's rows are, and where it was transformed those with its
    shapes too; `keys` what their numbers are; `known` the digests of files."""
    plan = []
    for name in row_store.LAYERS:
        signs = [known.signs(origin.path) for origin in origins[name]]
        with opened(origins[name][0].path) as connection:
            ranges = ranges_of(connection, origins[name][0])
        for among, first in ranges:
            facts = {
                "layer": name,
                "origins": [asdict(origin) for origin in origins[name]],
                "among": among,
                "first": first,
                "key": keys[name],
                **options,
            }
            digests = [digest_of(origin, among) for origin in origins[name]]
            file = part_name([digests, {**facts, "origins": [{**origin, "path": ""} for origin in facts["origins"]]}])
            for origin in facts["origins"]:
                origin["path"] = os.path.abspath(origin["path"])
            plan.append({**facts, "signs": signs, "file": file})
    return plan


def made(part, folder):
    """Makes the file of a part, where it is not there; answers its name."""
    path = os.path.join(folder, part["file"])
    if "borders" in part and not os.path.exists(path):
        from . import last_year_corners

        with files.beside(path) as new:
            last_year_corners.write_borders(new, part["borders"])
            hold([part["table"]], part["signs"])
    elif not os.path.exists(path):
        rows, key = read(part), part["key"]
        with files.beside(path) as new:
            write(new, part["layer"], rows, key, part)
    return part["file"]


def read(part):
    """The rows of a part, with the shapes of the transformed layer where there is one."""
    rows, *others = (rows_of(land.Origin(**origin), part) for origin in part["origins"])
    for transformed in others:
        source_tests.take_shapes(rows, transformed)
    hold([origin["path"] for origin in part["origins"]], part["signs"])
    return rows


def hold(paths, signs):
    """Trouble where a file was written since its digest was worked out."""
    for path, then in zip(paths, signs):
        if file_digests.signs_of(path) != then:
            raise file_digests.changed(path)


def rows_of(origin, part):
    with opened(origin.path) as connection:
        return list(land.rows_of(connection, origin, part["among"], part["first"]))


def put(plan):
    """For each part of a source what puts it into a store, behind so many rows, and answers how many it has."""
    return [
        lambda base, first, part=part: put_rows(base, first, part["layer"], read(part), part["key"], part)
        for part in plan
    ]


def write(path, name, rows, key, options):
    """Writes rows of a layer into a file of their own."""
    base = row_store.new(path, row_store.ROWS)
    put_rows(base, 0, name, rows, key, options)
    base.commit()
    base.close()


def put_rows(base, first, name, rows, key, options):
    """Tests rows of a layer, and puts them with all that was found behind so many rows; answers how many there are."""
    layer = land.Layer(name, rows, key=key)
    work = source_tests.Tests({name: layer}, options["epsg"])
    founds = [row.found for row in rows]
    areas = ring_areas.areas_of(founds)
    work.test(name, rows, options["are_metres"])
    count = len(work.findings)
    work.make_valid(name, rows)
    columns, given = dict(identifier_passes.COLUMNS)[name], options["given"]
    base.executemany(
        f"INSERT INTO row VALUES ({', '.join('?' * 18)})",
        (
            record_of(number, name, row, area, any(is_odd(row[column], given[column]) for column in columns))
            for number, (row, area) in enumerate(zip(unforeseen.numbered(name, rows), areas), first)
        ),
    )
    base.executemany(
        "INSERT INTO shape VALUES (?, ?, ?)",
        (
            (number, row.found.blob if row.found else None, found.blob if found and row.found is not found else None)
            for number, (row, found) in enumerate(zip(rows, founds), first)
        ),
    )
    places = {row.number: number for number, row in enumerate(rows, first)}
    shapeless = {id(finding) for _, finding in work.shapeless}
    base.executemany(
        f"INSERT INTO finding VALUES (NULL, ?, ?, ?{', ?' * row_store.FIELDS})",
        (
            (
                SHAPES if number < count else VALID,
                place := places[finding.row],
                id(finding) in shapeless,
                *row_store.fields_of(finding, place),
            )
            for number, finding in enumerate(work.findings)
        ),
    )
    return len(rows)


def is_odd(name, given):
    """Whether a name is no identifier as it stands, or another is given for it."""
    return name in given or not identifiers.is_one(name)


def record_of(number, name, row, area, is_odd_one):
    box = row.found.box() if row.found else (None,) * 4
    parcel, fields = row["parcel"], row.fields
    return (
        number,
        int(name == "covers"),
        row.number,
        row["piece"] if name == "covers" else parcel,
        parcel,
        row["class"] if "class" in fields else None,
        is_odd_one,
        1,
        0,
        area,
        row.found.count() if row.found else 0,
        row.why,
        *(row.place or (None, None)),
        *box,
    )


def first_of(origin, test):
    """The first row of a layer with a shape of which a test is true, or None."""
    with opened(origin.path) as connection:
        return next((row for row in land.rows_of(connection, origin) if row.found and test(row.found)), None)


def rows_of_layer(layer):
    """All rows of a layer: those that a store keeps, or of one that is outlined those that stand there."""
    if isinstance(layer, row_store.Layer):
        yield from layer.among("1")
    elif layer.origin is None:
        yield from layer.rows
    else:
        with opened(layer.origin.path) as connection:
            yield from land.rows_of(connection, layer.origin)


def rows_in(layer):
    """How many there are."""
    if isinstance(layer, row_store.Layer):
        return layer.count()
    return count_of(layer.origin) if layer.origin and layer.name in row_store.LAYERS else len(layer.rows)


def count_of(origin):
    with opened(origin.path) as connection:
        return connection.execute(f"SELECT count(*) FROM {land.quoted(origin.table)}").fetchone()[0]
