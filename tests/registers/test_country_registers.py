"""Countries over a register: the same years as releases, as countries of one region and cut into several leave the same
tables; worked countries have splits and merges across regions."""

import random

import pytest
from lpis_helpers.asking import (
    NEW,
    HISTORY,
    MARKED,
    SHAPES,
    ELSEWHERE,
    expect,
    lpis,
    rows,
    dump,
    texts,
    expect_tables,
    expect_published,
    release_of,
)
from lpis_helpers.asking import expect_spans, write_release
from lpis_helpers.country_example import regions_of
from lpis_helpers.country_years import Map, Tiling, box_of, write_country, write_region
from lpis_helpers.registers import LEFT, RIGHT, SQUARE, TABLES, VERSION_1, VERSION_2, WITHOUT_MARKS, made, said


def cut_country(country):
    for region in sorted(path for path in country.iterdir() if path.is_dir()):
        expect(f"cut {region}", lpis("cut", region, region / "cert.txt")[1], 0)


def publish_country(name, path, year, country, *before):
    """Blocks are made, and the country is published in a year; these lines stand before the last one that is
    printed."""
    out = country / "exact.txt"
    text, status = lpis("exact-country", path, country, out)
    expect(f"{name}: exact-country", (text.splitlines()[-1].split()[0], status), ("exact", 0))
    text, status = lpis("publish-country", path, year, country, "--exact", out)
    expect(f"{name}: published", (text.splitlines()[-len(before) - 1 :], status), ([*before, f"published {year}"], 0))


@pytest.mark.parametrize("seed", range(6))
def test_three_ways(seed, tmp_path):
    """Three years as releases, as countries of one region, and as countries cut into several, whose rows are dealt out
    at random: the same tables, and the same answers of `trace`. Marks of what is not exact are taken away."""
    numbers, here = random.Random(seed), tmp_path
    land, names, ways = Map(numbers), set(), {way: here / f"{way}.db" for way in ("release", "one", "several")}
    for place, year in enumerate((2024, 2025, 2026)):
        if place:
            land.next_year()
        names |= set(land.parcels)
        box = box_of(land.parcels.values())
        several, one, release = (here / f"{year}-{way}" for way in ("several", "one", "release"))
        write_country(numbers, several, land.parcels, land.rows, Tiling(numbers, box))
        cut_country(several)
        if lpis("exact-country", ways["several"], several, here / "tried.txt")[1] != 0:
            for path in several.glob("*/lineage.csv"):
                path.write_text("".join(",".join(line.split(",")[:2]) + "\n" for line in path.read_text().splitlines()))
        lineage_rows = [
            line
            for region in regions_of(several)
            for line in (several / region / "lineage.csv").read_text().splitlines()[1:]
        ]
        lineage = "".join(line + "," * (2 - line.count(",")) + "\n" for line in ["old,new,exact", *lineage_rows])
        write_region(release, list(land.parcels.items()))
        (one / "all").mkdir(parents=True)
        write_region(one / "all", list(land.parcels.items())[::-1])
        (one / "country.txt").write_text("lpis-country 1\nregion all\n")
        (one / "classes.csv").write_bytes((release / "classes.csv").read_bytes())
        for path in (release, one / "all"):
            (path / "lineage.csv").write_text(lineage)
        cut_country(one)
        cert, out = here / f"{year}.txt", here / f"{year}-exact.txt"
        expect(f"{seed}: cut {year}", lpis("cut", release, cert)[1], 0)
        expect(f"{seed}: exact {year}", lpis("exact", ways["release"], release, cert, out)[1], 0)
        text, status = lpis("publish", ways["release"], year, release, out)
        expect(f"{seed}: publish {year}", (text.splitlines()[-1:], status), ([f"published {year}"], 0))
        before = [line for line in text.splitlines()[:-1] if line.startswith("lineage ")]
        for way, country in (("one", one), ("several", several)):
            publish_country(f"{seed}: {year} as {way}", ways[way], year, country, "yes", *before)
            expect(f"{seed}: {year} as {way}: the tables", dump(ways[way]), dump(ways["release"]))
            expect_tables(f"{seed}: {year} as {way}", ways[way], NEW, here)
        marks = rows(ways["several"], f"SELECT pos FROM lpis_mark WHERE year = {year} ORDER BY pos")
        expect(
            f"{seed}: {year}: marks", marks, [(place,) for place, row in enumerate(lineage_rows) if row.endswith(",1")]
        )
    for name in sorted(names):
        told = {way: lpis("trace", path, name) for way, path in ways.items()}
        expect(f"{seed}: trace {name}", (told["one"], told["several"]), (told["release"], told["release"]))


def box(left, low, right, high):
    """The text of a rectangle as a register keeps it, in metres."""
    return (
        "POLYGON(("
        + ",".join(f"{x}.000 {y}.000" for x, y in ((left, low), (right, low), (right, high), (left, high), (left, low)))
        + "))"
    )


def country_of(folder, name, plan, regions, lineage=()):
    """A country: its plan behind the first line, the parcels of each region by their shapes, and rows of lineage by
    region, the header first."""
    country, lineage = folder / name, dict(lineage)
    country.mkdir()
    (country / "country.txt").write_text("\n".join(["lpis-country 1", *plan, ""]))
    (country / "classes.csv").write_text("class,percent\nG,100\n")
    for region, shapes in regions.items():
        write_release(country / region, shapes, *(lineage.get(region) or ["old,new"]))
    cut_country(country)
    return country


SIDES = ["x 10000", "region west", "region east"]
FIRST = {
    "west": {"A": box(0, 0, 20, 10), "K": box(0, 10, 20, 20), "M": box(0, 20, 5, 30)},
    "east": {"A": box(0, 0, 20, 10), "K": box(0, 10, 20, 20), "D": box(12, 20, 20, 30), "E": box(10, 20, 12, 30)},
}


def test_across(tmp_path):
    """A split along the line that parts the regions, so that each has one part; a merge into a parcel that both have
    and that is kept; a parcel that goes to the other region with its identifier, and has no row. Then the same land by
    another tiling, and as a release.
    """
    path = tmp_path / "years.db"
    publish_country("the first year", path, 2024, country_of(tmp_path, "first", SIDES, FIRST), "yes")
    expect(
        "the first year: what it says",
        said(path),
        ([(2024, [(name,) for name in "ADEKM"], [])], sorted({**FIRST["west"], **FIRST["east"]}.items())),
    )
    wide = "POLYGON((0.000 10.000,20.000 10.000,20.000 30.000,12.000 30.000,12.000 20.000,0.000 20.000,0.000 10.000))"
    west = {"B": box(0, 0, 10, 10), "K": wide}
    east = {"C": box(10, 0, 20, 10), "K": wide, "M": box(10, 25, 12, 30)}
    second = country_of(
        tmp_path,
        "second",
        SIDES,
        {"west": west, "east": east},
        {"west": ["new,old,exact", "K,D,1", "C,A,1"], "east": ["old,new,exact", "E,,", "A,B,1"]},
    )
    before = dump(path)
    regions = [
        "region west parcels 2 pieces 2 area 380.0000000 eligible 380.000000000",
        "region east parcels 3 pieces 3 area 390.0000000 eligible 390.000000000",
    ]
    expect(
        "the second year without blocks",
        lpis("publish-country", path, 2025, second),
        ("\n".join([*regions, "refused 85 exact 6a A", ""]), 1),
    )
    expect("the second year without blocks: nothing is changed", dump(path), before)
    publish_country(
        "the second year",
        path,
        2025,
        second,
        "yes",
        "lineage A split exact",
        "lineage D merged exact",
        "lineage E ended",
    )
    shapes = sorted({**west, **east}.items())
    history = [
        (2024, [(name,) for name in "ADEKM"], []),
        (
            2025,
            [(name,) for name in "BCKM"],
            [(0, "D", "K", True), (1, "A", "C", True), (2, "E", "", False), (3, "A", "B", True)],
        ),
    ]
    expect_spans(
        "the second year",
        path,
        history,
        ("A", 2024, 2024),
        ("B", 2025, 0),
        ("C", 2025, 0),
        ("D", 2024, 2024),
        ("E", 2024, 2024),
        ("K", 2024, 0),
        ("M", 2024, 0),
    )
    expect("the second year: texts", texts(path), shapes)
    before = dump(path)
    tiles = ["y 10000", "region south", "x 11000", "region northwest", "region northeast"]
    again = {
        "south": {"B": west["B"], "C": east["C"]},
        "northwest": {"K": wide, "M": east["M"]},
        "northeast": {"M": east["M"], "K": wide},
    }
    publish_country("a new tiling", path, 2026, country_of(tmp_path, "tiled", tiles, again), "yes")
    expect(
        "a new tiling: one row more, and no other",
        [line for line in dump(path) if line not in before],
        ['INSERT INTO "lpis_release" VALUES(2026);'],
    )
    expect("a new tiling: texts", texts(path), shapes)
    release, cert = release_of(
        tmp_path, "release", {"B2": west["B"], "C": east["C"], "K": wide, "M": east["M"]}, "old,new", "B,B2"
    )
    expect_published("a release after countries", path, 2027, release, cert, "lineage B replaced")
    for name, wanted in (("A", "B2\nC\n"), ("D", "K\n"), ("E", ""), ("M", "M\n")):
        expect(f"trace {name}", lpis("trace", path, name), (wanted, 0))


def test_refused_countries(tmp_path):
    """Rows and identifiers that are refused over the whole country: a row of two regions, an identifier of ten years
    ago, a shape that is not kept."""
    path = tmp_path / "years.db"
    for year in range(2015, 2025):
        shapes = {**({"OLD": ELSEWHERE} if year == 2015 else {}), "A": SQUARE}
        expect_published(
            f"{year}",
            path,
            year,
            *release_of(tmp_path, str(year), shapes, "old,new", *(["OLD,"] if year == 2016 else [])),
            "lineage OLD ended" if year == 2016 else "yes",
        )
    halves = {"west": {"B": LEFT}, "east": {"C": RIGHT}}
    plan = ["x 5000", "region west", "region east"]
    lines = [
        "region west parcels 1 pieces 1 area 50.0000000 eligible 50.000000000",
        "region east parcels 1 pieces 1 area 50.0000000 eligible 50.000000000",
    ]
    before = dump(path)
    for number, (name, regions, lineage, answer) in enumerate(
        (
            (
                "a row in two regions",
                halves,
                {"west": ["old,new,exact", "A,C,1", "A,B,1"], "east": ["old,new", "A,B"]},
                "81 lineage 73 row 1 region east",
            ),
            (
                "an ending and a successor in two regions",
                halves,
                {"west": ["old,new", "A,"], "east": ["old,new", "A,C"]},
                "81 lineage 74 row 1 region east",
            ),
            ("no row in any region", halves, {}, "81 lineage 75 A"),
            (
                "an identifier of ten years ago",
                {"west": {"B": LEFT}, "east": {"C": RIGHT, "OLD": ELSEWHERE}},
                {"east": ["old,new", "A,B", "A,C"]},
                "81 lineage 76 OLD 2015",
            ),
            (
                "a mark in one region of two",
                halves,
                {"west": ["old,new,exact", "A,B,"], "east": ["old,new,exact", "A,C,1"]},
                "81 lineage 78 row 1 region east",
            ),
            (
                "a row that is none, behind one of another region",
                halves,
                {"west": ["old,new", "A,B"], "east": ["old,new", "A,C", "OLD,B"]},
                "81 lineage 70 row 2 region east",
            ),
        )
    ):
        country = country_of(tmp_path, f"country{number}", plan, regions, lineage)
        found = (
            lines[:1] + ["region east parcels 2 pieces 2 area 150.0000000 eligible 150.000000000"]
            if "OLD" in regions["east"]
            else lines
        )
        for words in (("publish-country", path, 2025, country), ("exact-country", path, country, tmp_path / "out.txt")):
            expect(f"{name}: {words[0]}", lpis(*words), ("\n".join([*found, f"refused {answer}", ""]), 1))
            expect(f"{name}: {words[0]}: nothing is changed", dump(path), before)
    expect("no file is left", (tmp_path / "out.txt").exists(), False)
    country = country_of(tmp_path, "marked", plan, halves, {"east": ["old,new,exact", "A,B,1", "A,C,1"]})
    older = made(
        tmp_path / "older.db",
        TABLES[2]
        + "INSERT INTO lpis_format VALUES (1, 2); INSERT INTO lpis_release VALUES (2024); INSERT INTO lpis_span VALUES"
        " ('A', 2024, 0);",
    )
    for words in (("publish-country", older, 2025, country), ("exact-country", older, country, tmp_path / "out.txt")):
        expect(
            f"a register of version 2: {words[0]}",
            lpis(*words),
            ("\n".join([*lines, "refused 81 lineage 77 A", ""]), 1),
        )
    expect("a register of version 2: what it says", said(older), (HISTORY[:1], []))
    publish_country(
        "a register of version 2, without marks",
        older,
        2025,
        country_of(tmp_path, "unmarked", plan, halves, {"west": ["old,new", "A,B", "A,C"]}),
        "lineage A split",
    )
    expect("a register of version 2, without marks: what it says", said(older), (HISTORY, SHAPES))
    for name, script in {"version 1": VERSION_1, "version 2": VERSION_2, "version 3": WITHOUT_MARKS}.items():
        path = made(tmp_path / f"{name[-1]}.db", script)
        merged = country_of(
            tmp_path,
            f"merged {name[-1]}",
            plan,
            {"west": {"B": SQUARE}, "east": {"B": SQUARE}},
            {"east": ["old,new", "C,B"]},
        )
        publish_country(name, path, 2026, merged, "lineage C merged")
        expect(
            f"{name}: what it says", said(path), ([*HISTORY, (2026, [("B",)], [(0, "C", "B", False)])], [("B", SQUARE)])
        )
    publish_country("marks", tmp_path / "years.db", 2025, country, "lineage A split exact")
    expect("marks: the last release", said(tmp_path / "years.db")[0][-1], MARKED[1])
