"""Damage to sources: bytes of files and of shapes changed, cut off, doubled, exchanged, and fields and tables that are
not what they say. Each number has its own damage, done to a small generated land. Nothing of tools/ is used."""

import os
import random
import re
import sqlite3
import struct
from pathlib import Path

from lpis_helpers import lands_source
from lpis_helpers.lands_land import Land

# a statement of this module over a view with an endless recursion is stopped after so many steps of the engine
MOST_CALLS, STEPS = 5_000, 1_000


# Of any file: its bytes.


def bytes_changed(data, draw):
    for _ in range(draw.choice([1, 1, 2, 5, 20])):
        data[draw.randrange(len(data))] = draw.choice([draw.randrange(256), 0, 255, data[draw.randrange(len(data))]])
    return data


def bit_changed(data, draw):
    data[draw.randrange(len(data))] ^= 1 << draw.randrange(8)
    return data


def cut_off(data, draw):
    return data[: draw.randrange(len(data))]


def part_doubled(data, draw):
    start = draw.randrange(len(data))
    end = start + draw.choice([1, 10, 100, 4096])
    return data[:end] + data[start:end] + data[end:]


def part_gone(data, draw):
    start = draw.randrange(len(data))
    return data[:start] + data[start + draw.choice([1, 2, 10, 100, 4096]) :]


def parts_exchanged(data, draw):
    size = draw.choice([1, 4, 16, 256, 4096])
    one, other = sorted(draw.randrange(max(1, len(data) - size)) for _ in range(2))
    data[one : one + size], data[other : other + size] = data[other : other + size], data[one : one + size]
    return data


def part_zeroed(data, draw):
    start, size = draw.randrange(len(data)), draw.choice([1, 8, 100, 4096])
    data[start : start + size] = bytes(len(data[start : start + size]))
    return data


# Of a GeoPackage: its shapes and tables.


def a_shape(base, draw):
    """A layer, a row and its bytes."""
    layer = draw.choice(["parcels", "covers"])
    rows = [
        (number, blob)
        for number, blob in base.execute(f"SELECT rowid, geom FROM {layer}")
        if blob and isinstance(blob, bytes)
    ]
    return (layer, *draw.choice(rows)) if rows else (layer, 0, b"GP\0\1" + bytes(20))


def put_shape(base, layer, number, value):
    base.execute(f"UPDATE {layer} SET geom = ? WHERE rowid = ?", (value, number))


def shape_bytes(base, draw):
    """A shape's bytes, changed as those of a file."""
    for _ in range(draw.choice([1, 1, 3])):
        layer, number, blob = a_shape(base, draw)
        put_shape(base, layer, number, bytes(draw.choice(FILES)(bytearray(blob), draw)))


def shape_numbers(base, draw):
    """A count, a kind or a coordinate of a shape is another."""
    layer, number, blob = a_shape(base, draw)
    data = bytearray(blob)
    if draw.random() < 0.5 and len(data) > 30:
        at = draw.randrange(17, len(data) - 8)
        at -= (at - 17) % 4
        struct.pack_into(
            "<I", data, at, draw.choice([0, 1, 2, 3, 4, 0xFFFFFFFF, 0x7FFFFFFF, 100_000_000, draw.randrange(1000)])
        )
    else:
        at = max(0, len(data) - 8 * draw.randrange(1, 9))
        data[at : at + 8] = struct.pack(
            "<d",
            draw.choice(
                [
                    0.0,
                    -0.0,
                    1e300,
                    -1e308,
                    5e-324,
                    float("nan"),
                    float("inf"),
                    -float("inf"),
                    2e7,
                    1e16,
                    draw.uniform(-1e7, 1e7),
                ]
            ),
        )
    put_shape(base, layer, number, bytes(data))


def shape_kind(base, draw):
    """The field of a shape holds something else."""
    layer, number, _ = a_shape(base, draw)
    put_shape(
        base,
        layer,
        number,
        draw.choice(
            [
                5,
                2.5,
                "POLYGON((0 0,1 0,1 1,0 0))",
                "",
                b"",
                b"GP",
                b"GP\0\1",
                b"GP\0\x01\0\0\0\0",
                b"\0" * 60,
                "x" * 1000,
                -(2**63),
                float("inf"),
            ]
        ),
    )


def nested(base, draw):
    """Curves and collections within one another, many times."""
    layer, number, _ = a_shape(base, draw)
    kind, depth = draw.choice([7, 9, 12, 6, 10, 5]), draw.choice([1, 3, 50, 3000, 20_000])
    blob = struct.pack("<BII", 1, kind, 1) * depth + struct.pack("<BII", 1, draw.choice([2, 3, 8]), 0)
    head = b"GP\0\1" + struct.pack("<i", lands_source.SYSTEM)
    put_shape(base, layer, number, head + draw.choice([b"", struct.pack("<BII", 1, 10, 1)]) + blob)


def fields_exchanged(base, draw):
    layer, columns = draw.choice(
        [
            ("parcels", ("parcel", "geom")),
            ("covers", ("piece", "class")),
            ("covers", ("parcel", "geom")),
            ("covers", ("class", "parcel")),
            ("covers", ("piece", "geom")),
        ]
    )
    where = draw.choice(["", f" WHERE rowid % {draw.randrange(2, 5)} = 0"])
    base.execute(f"UPDATE {layer} SET {columns[0]} = {columns[1]}, {columns[1]} = {columns[0]}{where}")


def names_of_another_kind(base, draw):
    layer, column = draw.choice([("parcels", "parcel"), ("covers", "piece"), ("covers", "parcel"), ("covers", "class")])
    base.execute(
        f"UPDATE {layer} SET {column} = ? WHERE rowid % ? = 0",
        (
            draw.choice(
                [
                    7,
                    2.5,
                    1e300,
                    float("inf"),
                    b"\xff\xfe\x00",
                    b"abc",
                    "\ud7ff",
                    "a" * 100_000,
                    "=1+1",
                    "\x1b[31mred",
                    "a\nb",
                    -1,
                    None,
                    12345678901234567,
                ]
            ),
            draw.randrange(1, 4),
        ),
    )


def frame(base, draw):
    """The tables that say what is where."""
    base.execute(
        draw.choice(
            [
                "DELETE FROM gpkg_contents",
                "DROP TABLE gpkg_contents",
                "DELETE FROM gpkg_geometry_columns",
                "DROP TABLE gpkg_geometry_columns",
                "DROP TABLE gpkg_spatial_ref_sys",
                "DELETE FROM gpkg_spatial_ref_sys",
                "UPDATE gpkg_contents SET table_name = NULL || 'x'",
                "UPDATE gpkg_geometry_columns SET column_name = 'shape'",
                "UPDATE gpkg_geometry_columns SET srs_id = 'x'",
                "UPDATE gpkg_geometry_columns SET srs_id = 4326",
                "UPDATE gpkg_geometry_columns SET srs_id = -1",
                "UPDATE gpkg_geometry_columns SET srs_id = 1e300",
                "UPDATE gpkg_spatial_ref_sys SET definition = ''",
                "UPDATE gpkg_spatial_ref_sys SET definition = 7",
                "UPDATE gpkg_spatial_ref_sys SET organization_coordsys_id = 'x'",
                "UPDATE gpkg_spatial_ref_sys SET organization_coordsys_id = 4647",
                "UPDATE gpkg_spatial_ref_sys SET organization = x'ff00'",
                "UPDATE gpkg_geometry_columns SET table_name = 'parcels'",
                "INSERT INTO gpkg_geometry_columns SELECT * FROM gpkg_geometry_columns",
                "ALTER TABLE parcels RENAME COLUMN parcel TO name",
                "ALTER TABLE covers RENAME TO pieces",
                "DROP TABLE parcels",
                "DROP TABLE covers",
                "DELETE FROM parcels",
                "DELETE FROM covers",
                "ALTER TABLE covers ADD COLUMN other BLOB",
                "UPDATE gpkg_contents SET table_name = upper(table_name)",
                "UPDATE gpkg_geometry_columns SET column_name = 'parcel'",
                "UPDATE gpkg_spatial_ref_sys SET srs_name = x'ff'",
            ]
        )
    )


def definitions(base, draw):
    """The text of the system of coordinates is damaged, or nested deeply."""
    text = lands_source.DEFINITION
    data = bytes(draw.choice(FILES)(bytearray(text.encode()), draw)).decode("utf-8", "replace")
    text = draw.choice(
        [
            data,
            data,
            re.sub(r"\d+\.?\d*", draw.choice(["x", "1e999", "nan", "-0", "9" * 400]), text, count=draw.randrange(1, 9)),
            "PROJCS[" * draw.choice([10, 5000]) + "]" * 10,
            text[: draw.randrange(len(text))],
        ]
    )
    base.execute("UPDATE gpkg_spatial_ref_sys SET definition = ? WHERE srs_id = ?", (text, lands_source.SYSTEM))


def table_of_classes(base, draw):
    base.execute("CREATE TABLE IF NOT EXISTS classes (class TEXT, percent INTEGER)")
    base.execute(
        "INSERT OR IGNORE INTO gpkg_contents (table_name, data_type, identifier, srs_id) VALUES ('classes',"
        " 'attributes', 'classes', 0)"
    )
    base.execute(
        draw.choice(
            [
                "DELETE FROM classes",
                "UPDATE classes SET percent = 'x'",
                "UPDATE classes SET percent = x'ff'",
                "UPDATE classes SET percent = 1e300",
                "UPDATE classes SET percent = NULL",
                "UPDATE classes SET percent = -5",
                "INSERT INTO classes SELECT * FROM classes",
                "ALTER TABLE classes RENAME COLUMN percent TO share",
                "UPDATE classes SET percent = percent / 100.0",
                "UPDATE classes SET class = NULL",
                "UPDATE classes SET percent = '1e400'",
            ]
        )
    )


def views(base, draw):
    """A layer is a view: of itself as a table, of an endless recursion, or of a column that is not there."""
    base.execute("ALTER TABLE parcels RENAME TO kept")
    base.execute(
        draw.choice(
            [
                "CREATE VIEW parcels AS SELECT * FROM kept",
                "CREATE VIEW parcels AS SELECT geom, parcel FROM kept",
                (
                    "CREATE VIEW parcels AS WITH RECURSIVE endless(n) AS (SELECT 1 UNION ALL SELECT n + 1 FROM endless)"
                    " SELECT n AS fid, geom, parcel FROM endless, kept WHERE n < 0"
                ),
                "CREATE VIEW parcels AS SELECT geom, parcel, (SELECT 1 FROM nothing) AS fid FROM kept",
                "CREATE VIEW parcels AS SELECT geom, parcel FROM kept WHERE 0",
            ]
        )
    )


# Of tables: their records and fields.


def lines_exchanged(text, draw):
    lines = text.splitlines(keepends=True)
    one, other = draw.randrange(len(lines)), draw.randrange(len(lines))
    lines[one], lines[other] = lines[other], lines[one]
    return "".join(lines)


def line_doubled_or_gone(text, draw):
    lines = text.splitlines(keepends=True)
    at = draw.randrange(len(lines))
    return "".join(lines[:at] + draw.choice([[], lines[at : at + 1] * 2]) + lines[at + 1 :])


def letters_exchanged(text, draw):
    """A letter of the grammar in place of another one."""
    at = [place for place, letter in enumerate(text) if letter in ',;\t"()\n. -0123456789']
    for place in draw.sample(at, min(len(at), draw.choice([1, 1, 3, 10]))):
        text = (
            text[:place]
            + draw.choice(
                [
                    ",",
                    ";",
                    "\t",
                    '"',
                    "(",
                    ")",
                    "\n",
                    "\r",
                    ".",
                    " ",
                    "-",
                    "e",
                    "0",
                    "9",
                    "",
                    "\0",
                    "\u00a0",
                    "\u2028",
                    "\u0663",
                    "EMPTY",
                    "Z",
                    "nan",
                    "+",
                    "_",
                ]
            )
            + text[place + 1 :]
        )
    return text


def number_changed(text, draw):
    numbers = list(re.finditer(r"-?\d+\.?\d*", text))
    found = draw.choice(numbers) if numbers else None
    new = draw.choice(
        [
            "1e300",
            "1" * 400,
            "-",
            ".",
            "1_0",
            "0x10",
            "\u0661",
            "nan",
            "inf",
            "550000,5",
            "5" * 5000,
            "1.2.3",
            "1e-5",
            "",
            "0",
        ]
    )
    return text[: found.start()] + new + text[found.end() :] if found else text


def header_changed(text, draw):
    head, _, rest = text.partition("\n")
    words = re.split(r"([,;\t])", head)
    at = draw.randrange(0, len(words), 2)
    words[at] = draw.choice(
        [
            "",
            "x",
            words[0],
            words[-1],
            words[at].upper(),
            f" {words[at]} ",
            f'"{words[at]}"',
            f"\ufeff{words[at]}",
            "wkt",
            "\x1b[2J",
        ]
    )
    return "".join(words) + "\n" + rest


def brackets(text, draw):
    """A text of a great many brackets, or of a shape within shapes."""
    return text.replace(
        "((",
        draw.choice(
            ["(" * 20_000, "((((", "(", "( ( (", "(EMPTY,(", "(CIRCULARSTRING(", "(COMPOUNDCURVE(" * 3000, "()(("]
        ),
        draw.choice([1, 1, 5]),
    )


# How often a kind stands here says how often it is drawn.
FILES = [bytes_changed, bit_changed, cut_off, part_doubled, part_gone, parts_exchanged, part_zeroed]
PACKAGES = [
    shape_bytes,
    shape_bytes,
    shape_bytes,
    shape_numbers,
    shape_numbers,
    shape_kind,
    nested,
    fields_exchanged,
    names_of_another_kind,
    frame,
    frame,
    definitions,
    table_of_classes,
    views,
]
SHEETS = [
    lines_exchanged,
    line_doubled_or_gone,
    letters_exchanged,
    letters_exchanged,
    number_changed,
    header_changed,
    brackets,
]


def damaged(number, folder):
    """Writes the damaged source of a number: the path, the words for prepare, what was done to it, and how many
    points it had."""
    draw = random.Random(f"damage {number}")
    land = Land(10_000_000 + number, most=8)
    land.form, land.classes_given = draw.choice(
        ["package", "package", "rows", "csv", "csv", "semicolons", "utf16", "tabs"]
    ), draw.choice(["land", "land", "file", "none"])
    path, words = lands_source.write(land, folder)
    done = []
    for _ in range(draw.choice([1, 1, 1, 2, 3])):
        done.append(damage_package(path, draw) if os.path.isfile(path) else damage_sheet(path, draw))
    return path, words, done, land.points()


def damage_package(path, draw):
    if draw.random() < 0.35:
        return damage_file(path, draw)
    function, base, calls = draw.choice(PACKAGES), sqlite3.connect(path), iter(range(MOST_CALLS))
    base.set_progress_handler(lambda: next(calls, None) is None, STEPS)
    try:
        function(base, draw)
        base.commit()
    except (sqlite3.Error, OverflowError, UnicodeError):
        pass  # it was damaged before
    finally:
        base.close()
    return function.__name__


def damage_file(path, draw):
    data = bytearray(Path(path).read_bytes())
    function = draw.choice(FILES)
    Path(path).write_bytes(function(data, draw) if data else b"x")
    return function.__name__


def damage_sheet(folder, draw):
    path = os.path.join(folder, draw.choice(sorted(os.listdir(folder))))
    if draw.random() < 0.35:
        return damage_file(path, draw)
    data = Path(path).read_bytes()
    encoding = "utf-16" if data[:2] in (b"\xff\xfe", b"\xfe\xff") else "utf-8"
    function = draw.choice(SHEETS)
    text = data.decode(encoding, "surrogateescape" if encoding == "utf-8" else "replace")
    if text:
        Path(path).write_bytes(
            function(text, draw).encode(encoding, "surrogateescape" if encoding == "utf-8" else "replace")
        )
    return function.__name__
