"""Writes a generated land as a source: a GeoPackage by sqlite3 alone, or a folder of tables as spreadsheets write
them. Nothing of tools/ is used."""

import csv
import os
import shutil
import sqlite3
import subprocess

from lpis_helpers import dirty
from lpis_helpers.lands_land import KEYS
from lpis_helpers.lands_shapes import field_of_package, wkt

SYSTEM = 25832
DEFINITION = dirty.SYSTEMS[SYSTEM][1]
FRAME = """
    PRAGMA application_id = 1196444487; PRAGMA user_version = 10300;
    CREATE TABLE gpkg_spatial_ref_sys (srs_name TEXT NOT NULL, srs_id INTEGER NOT NULL PRIMARY KEY, organization TEXT NOT NULL, organization_coordsys_id INTEGER NOT NULL,
      definition TEXT NOT NULL, description TEXT);
    CREATE TABLE gpkg_contents (table_name TEXT NOT NULL PRIMARY KEY, data_type TEXT NOT NULL, identifier TEXT UNIQUE, description TEXT DEFAULT '',
      last_change DATETIME NOT NULL DEFAULT '2026-01-01T00:00:00Z', min_x DOUBLE, min_y DOUBLE, max_x DOUBLE, max_y DOUBLE, srs_id INTEGER);
    CREATE TABLE gpkg_geometry_columns (table_name TEXT NOT NULL, column_name TEXT NOT NULL, geometry_type_name TEXT NOT NULL, srs_id INTEGER NOT NULL, z TINYINT NOT NULL, m TINYINT NOT NULL);
    INSERT INTO gpkg_spatial_ref_sys VALUES ('Undefined', -1, 'NONE', -1, 'undefined', NULL), ('Undefined', 0, 'NONE', 0, 'undefined', NULL);
"""  # noqa: E501
SHEETS = {
    "csv": (",", "utf-8", "\n"),
    "semicolons": (";", "utf-8-sig", "\r\n"),
    "utf16": ("\t", "utf-16", "\r\n"),
    "tabs": ("\t", "utf-8", "\n"),
}


def write(land, folder):
    """The path of the source, and the words that tell prepare of its table of classes."""
    path = (
        write_package(land, os.path.join(folder, "land.gpkg"))
        if land.form in ("package", "gdal", "rows")
        else write_sheets(land, os.path.join(folder, "land"))
    )
    if land.form == "gdal" and shutil.which("ogr2ogr") and not has_nul(land):
        path = written_by_gdal(path, os.path.join(folder, "gdal.gpkg"))
    if land.classes_given != "file":
        return path, []
    table = os.path.join(folder, "classes.csv")
    write_sheet(table, ["class", "percent"], land.classes, "csv")
    return path, ["--classes", table]


def has_nul(land):
    """Whether a name has the character with which GDAL's texts end: it would be another name."""
    return any("\0" in str(value) for row in (*land.parcels, *land.covers) for value in row.fields.values())


def write_package(land, path):
    """A GeoPackage; of the form `rows` its layers have no key."""
    if os.path.exists(path):
        os.remove(path)
    base = sqlite3.connect(path)
    base.executescript(FRAME)
    base.execute(
        "INSERT INTO gpkg_spatial_ref_sys VALUES ('ETRS89 / UTM zone 32N', ?, 'EPSG', ?, ?, NULL)",
        (SYSTEM, SYSTEM, DEFINITION),
    )
    key = "" if land.form == "rows" else "fid INTEGER PRIMARY KEY AUTOINCREMENT NOT NULL, "
    for layer, rows in (("parcels", land.parcels), ("covers", land.covers)):
        columns = KEYS[layer]
        base.execute(f"CREATE TABLE {layer} ({key}geom GEOMETRY, {', '.join(f'{column} TEXT' for column in columns)})")
        base.execute(
            "INSERT INTO gpkg_contents (table_name, data_type, identifier, srs_id) VALUES (?, 'features', ?, ?)",
            (layer, layer, SYSTEM),
        )
        base.execute("INSERT INTO gpkg_geometry_columns VALUES (?, 'geom', 'GEOMETRY', ?, 2, 2)", (layer, SYSTEM))
        base.executemany(
            f"INSERT INTO {layer} (geom, {', '.join(columns)}) VALUES (?{', ?' * len(columns)})",
            [(field_of_package(row.shape, SYSTEM), *(row.fields[column] for column in columns)) for row in rows],
        )
    if land.classes_given == "land":
        base.execute("CREATE TABLE classes (class TEXT, percent INTEGER)")
        base.execute(
            "INSERT INTO gpkg_contents (table_name, data_type, identifier, srs_id) VALUES ('classes', 'attributes',"
            " 'classes', 0)"
        )
        base.executemany("INSERT INTO classes VALUES (?, ?)", land.classes)
    base.commit()
    base.close()
    return path


def written_by_gdal(path, made):
    """The same GeoPackage as ogr2ogr writes it."""
    if os.path.exists(made):
        os.remove(made)
    subprocess.run(["ogr2ogr", "-q", "-f", "GPKG", made, path], check=True, capture_output=True)
    return made


def write_sheets(land, folder):
    shutil.rmtree(folder, ignore_errors=True)
    os.makedirs(folder)
    for layer, rows in (("parcels", land.parcels), ("covers", land.covers)):
        columns = KEYS[layer]
        write_sheet(
            os.path.join(folder, f"{layer}.csv"),
            [*columns, "wkt"],
            [[*(row.fields[column] for column in columns), wkt(row.shape)] for row in rows],
            land.form,
        )
    if land.classes_given == "land":
        write_sheet(os.path.join(folder, "classes.csv"), ["class", "percent"], land.classes, land.form)
    return folder


def write_sheet(path, header, rows, form):
    separator, encoding, end = SHEETS.get(form, SHEETS["csv"])
    with open(path, "w", newline="", encoding=encoding) as file:
        table = csv.writer(file, delimiter=separator, lineterminator=end)
        table.writerow(header)
        table.writerows(rows)
