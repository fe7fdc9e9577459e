"""Tests the balance of land and the reports of each path to the tables, over a source with all kinds of dirt, by a
judge that shares no code with the tools (lands_judge.py, lands_trial.py): tools/prepare and tools/country split.

    PARCELS=20000 pytest -s tests/tools/test_balance.py      a coverage of so many parcels, of which a fifth is dirty,
        in place of a small source; times are
    printed
"""

import os
import re
import struct
from pathlib import Path

from lpis_helpers import dirty
from lpis_helpers import lands_run
from lpis_helpers import starter
import pytest
from lpis_helpers.lands_judge import Judge
from lpis_helpers.lands_land import KEYS, Land
from lpis_helpers.lands_shapes import Shape
from lpis_helpers.lands_trial import Trial
from lpis_helpers import registers
from lpis.preparation import land_balance
from lpis.system import shapely_there

PARCELS = int(os.environ.get("PARCELS", "0"))


def planted(path, blocks):
    """Blocks of all kinds of dirt, whose corners lie on no grid and whose clean rows adjoin."""
    rows, east, north = ([], []), dirty.EAST, dirty.NORTH
    for number in range(blocks):
        dirty.EAST, dirty.NORTH = east + 0.1234567 + 40 * number, north + 0.7654321
        for found, names, more in zip(rows, (1, 2), dirty.rows_of(dirty.ALL)):
            found += [
                (*(None if name is None else f"b{number}-{name}" for name in row[:names]), *row[names:]) for row in more
            ]
    dirty.EAST, dirty.NORTH = east, north
    return dirty.put(path, *rows)


def shape_of(data):
    """The shape of well-known binary as dirty.py writes it: a polygon, or a line."""
    at = 0

    def numbers(form):
        nonlocal at
        found, at = struct.unpack_from(f"<{form}", data, at), at + struct.calcsize(f"<{form}")
        return found

    _, code, count = numbers("BII")
    kind, size = code % 1000, 2 + {0: 0, 1: 1, 2: 1, 3: 2}[code // 1000]
    rings = []
    for _ in range(1 if kind == 2 else count):
        length = count if kind == 2 else numbers("BII")[2] if kind == 10 else numbers("I")[0]
        rings.append([numbers(f"{size}d")[:2] for _ in range(length)])
    return Shape([rings], {2: "line", 10: "arcs"}.get(kind)) if rings else Shape(form="empty")


def land_of(path):
    """The rows of a GeoPackage that dirty.py wrote, for the judge."""
    queries = (f"SELECT geom, {', '.join(columns)} FROM {layer} ORDER BY fid" for layer, columns in KEYS.items())
    return Land.of_rows(
        *(
            [
                (*names, shape_of(blob[8:]) if blob else Shape(form="null"))
                for blob, *names in registers.rows(path, query)
            ]
            for query in queries
        )
    )


@pytest.fixture(scope="module")
def trial(tmp_path_factory):
    """A source that went through tools/prepare, into the folder `accepted`."""
    if not shapely_there.python():
        pytest.skip(shapely_there.LACKING)
    starter.preload()
    folder = tmp_path_factory.mktemp("balance")
    path = str(folder / "land.gpkg")
    land = land_of(dirty.make_large(path, PARCELS, share=0.2) if PARCELS else planted(path, 2))
    found = Trial(lands_run.Runner(str(folder)), str(folder), land.points())
    found.land, run = land, found.prepared(path, found.path("accepted"), "--accept")
    assert (run.status, "the balance adds up to the square metre" in run.text, found.faults) == (0, True, []), (
        run.text[-2000:] + run.told[-2000:]
    )
    print(f"prepare: {run.seconds:.1f} s of a processor")
    return found


def test_prepare(trial):
    assert Judge(trial.land, trial.path("accepted")).judge() == []


def test_split(trial):
    trial.split(trial.path("accepted"))
    assert trial.faults == []
    assert "the balance adds up to the square metre" in trial.runs[-1].text


@pytest.mark.parametrize("size", (1.0, 9.9e10, 1.2345e11, 9.9e15))
@pytest.mark.parametrize("name", ("GRASS", "a class whose name is longer than its column"))
def test_columns(size, name):
    """Columns never run together, however large the land and however long the name of a class."""
    whole = land_balance.Balance({})
    for group in (("covers", name), ("parcels", "")):
        for column, area in zip(land_balance.COLUMNS, (size, -size / 3, -size / 3, 0.0, size / 3)):
            whole.add(group, column, area)
    whole.between = size
    first, *lines, _ = whole.words()
    assert first.split() == [
        "balance",
        "of",
        "land",
        "in",
        "hectares",
        "source",
        "mended",
        "left",
        "out",
        "settled",
        "tables",
    ]
    for line, start in zip(lines, (name, "all pieces", "parcels", "between parcels, nobody")):
        assert (
            line.strip().startswith(start),
            len({len(line) for line in lines}),
            len(line.strip()[len(start) :].split()),
        ) == (True, 1, 2 if "nobody" in start else 5), line


@pytest.mark.skipif(PARCELS > 0, reason="a source of another kind")
@pytest.mark.parametrize(
    "name, edit, words",
    [
        (
            "accepted/balance.csv",
            lambda text: re.sub(r"covers,GRASS,\d", "covers,GRASS,9", text),
            "source of ('covers', 'GRASS')",
        ),
        (
            "accepted/balance.csv",
            lambda text: re.sub(r"(?m)^covers,TREES.*\n", "", text),
            "no line of ('covers', 'TREES')",
        ),
        ("accepted/balance.csv", lambda text: re.sub(r"parcels,,\d", "parcels,,9", text), "source of ('parcels', '')"),
        (
            "accepted/balance.csv",
            lambda text: re.sub(r"(?m)^(parcels,,[\d.]+),", r"\1,1", text),
            "the columns of ('parcels', '') make",
        ),
        (
            "accepted/parcels.csv",
            lambda text: text.replace(" 5400010.765", " 5400009.765", 1),
            "tables of ('parcels', '')",
        ),
        (
            "accepted/report.csv",
            lambda text: re.sub(r"(?m)^lost,covers.*\n", "", text, count=1),
            "is in no table, and no row has it",
        ),
        ("accepted/report.csv", lambda text: re.sub(r"(?m)^changed,covers.*\n", "", text), "and no row has it"),
        (
            "accepted/report.csv",
            lambda text: re.sub(r"(?m)^(lost,covers,.*?,,)[\d.]+", r"\g<1>7.0", text, count=1),
            "told with 7.0 m2",
        ),
        (
            "accepted/covers.csv",
            lambda text: re.sub(r"(?m)^b0-clean1\.1.*\n", "", text),
            "covers 1 'b0-clean1.1' of 50.000000 m2 is in no table",
        ),
        ("country/r0001/covers.csv", lambda text: text.split("\n")[0] + "\n", "rows are in no region"),
        ("country/r0001/covers.csv", lambda text: text.replace("GRASS", "WATER", 1), "are of no table"),
        ("country/r0001/classes.csv", lambda text: text.replace("30", "31"), "the classes of a region"),
        ("country/balance.csv", lambda text: re.sub(r"covers,GRASS,\d", "covers,GRASS,9", text), "split has 9"),
    ],
)
def test_judge(name, edit, words, trial):
    """The judge notices what is wrong in a report or in a table."""
    if not os.path.exists(trial.path("country")):
        trial.split(trial.path("accepted"))
    path = Path(trial.path(name))
    text = path.read_text(encoding="utf-8")
    path.write_text(edit(text), encoding="utf-8")
    try:
        trial.faults = Judge(trial.land, trial.path("accepted")).judge()
        trial.judge_regions(trial.path("accepted"), trial.path("country"))
    finally:
        path.write_text(text, encoding="utf-8")
    assert edit(text) != text and words in " ".join(told for _, told in trial.faults)
