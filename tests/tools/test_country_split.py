"""Tests the text of country.txt, of which the first fault is told, and `tools/country split`: what it says, what it
leaves as it is, and that the country is the release again."""

import os
import random
import shutil
import sys
import time
import unittest.mock

import pytest
from lpis_helpers.calls import ended_with, tool
from lpis_helpers.country_case import CLASSES, HEADS, Case, Land, country, lines, read, wkt, write, write_text
from lpis_helpers import judged_country as judged
from lpis.country import region_split, tile_cuts
from lpis.faults import country_explanation
from lpis.formats import table_streams, tile_plan
from lpis.register import table_standing
from lpis.system import placing
from lpis.system.trouble import Trouble


def changed(told):
    """How many files a split changed, by the words of its last line."""
    return told[told.index("changed") + 1]


class TestPlans(Case):
    """The text of country.txt and its first fault."""

    GOOD = "lpis-country 1\nx 5\nregion a\ny -7\nregion b\nregion c\n"
    OUTSIDE = "lpis-country 1\nx 5\nx 6\nregion a\nregion b\ny -7\nx 4\nregion c\nregion d\ny -8\nregion e\nregion f\n"
    BAD = [
        (text, line)
        for line, texts in {
            1: ["", "\n", "lpis-country 1", "lpis-country 2\nregion a\n", "lpis-country 1\r\nregion a\n"],
            2: [
                f"lpis-country 1\n{text}"
                for text in (
                    "",
                    "\nregion a\n",
                    "region a",
                    "region a\r\n",
                    "region a \n",
                    "region \n",
                    "region\n",
                    "region  a\n",
                    "region a.b\n",
                    "region a/b\n",
                    "region \u00e4\n",
                    " region a\n",
                    "Region a\n",
                    f"region {'a' * 101}\n",
                )
            ],
            3: [
                f"lpis-country 1\n{text}"
                for text in ("region a\n\n", "region a\nregion b\n", "region a\nx", "x 0\ny\n")
            ],
            4: [
                f"lpis-country 1\nx 5\n{text}" for text in ("region a\n", "region a\nregion b", "region a\nregion a\n")
            ],
            5: ["lpis-country 1\nx 1\nregion a\nregion b\nx"],
            6: [
                f"lpis-country 1\nx 1\n{text}"
                for text in ("x 2\nregion a\nregion b\n", "region a\nx 1\nregion b\nregion a\n")
            ],
        }.items()
        for text in texts
    ]
    NUMBERS = "05 00 01 -0 -01 +5 --1 5.0 20000000001 -20000000001 99999999999999999999 \u00e4".split() + [
        "",
        " 5",
        "5 ",
    ]
    BAD += [
        (f"lpis-country 1\n{cut}\nregion a\nregion b\n", 2)
        for cut in ("x", "z 5", "X 5", "y -20000000001", *(f"x {number}" for number in NUMBERS))
    ]
    # Regions that are too many, behind cuts that are as many, or one by one.
    MANY = (
        "lpis-country 1\n" + "x 0\n" * 10_000 + "".join(f"region r{k}\n" for k in range(10_001)),
        "lpis-country 1\n" + "".join(f"x {k}\nregion r{k}\n" for k in range(1, 10_001)) + "region last\n",
    )

    def plan(self, text):
        """A country of this text, and of classes without a row."""
        write(self.out, "classes", [HEADS["classes"]])
        write_text(os.path.join(self.out, "country.txt"), text)

    def test_good(self):
        for text in (
            self.GOOD,
            "lpis-country 1\nregion -_Z9\n",
            f"lpis-country 1\nregion {'a' * 100}\n",
            "lpis-country 1\nx 20000000000\nregion a\nregion b\n",
            "lpis-country 1\nx 0\ny -20000000000\nregion a\nregion b\nregion c\n",
        ):
            assert tile_plan.read(text).text() == text
            assert tile_plan.read(text).folders == judged.Plan(text).folders

    def test_tiles(self):
        """The splitter's descent and the judge's rectangles agree, also where a line lies outside of the rectangle
        that it parts."""
        numbers = random.Random(1)
        for text in (self.GOOD, self.OUTSIDE):
            tiling, plan = tile_plan.read(text), judged.Plan(text)
            assert tiling.boxes() == plan.tiles
            assert ["no land" in country_explanation.extent(tile) for tile in plan.tiles] == [
                text == self.OUTSIDE and number in (1, 2, 4) for number in range(len(plan.tiles))
            ]
            for _ in range(3000):
                xs, ys = sorted(numbers.choices(range(2, 9), k=2)), sorted(numbers.choices(range(-10, -4), k=2))
                if xs[0] < xs[1] and ys[0] < ys[1]:
                    parcel = "p", [[[(xs[0], ys[0]), (xs[1], ys[0]), (xs[1], ys[1]), (xs[0], ys[0])]]]
                    assert tiling.met((xs[0], ys[0], xs[1], ys[1])) == [
                        n for n, tile in enumerate(plan.tiles) if judged.meets(parcel, tile)
                    ]

    @pytest.mark.parametrize("text, line", BAD, ids=range(len(BAD)))
    def test_bad(self, text, line):
        self.plan(text)
        self.assertCountry(f"refused 90 country line {line}", 2, is_certified=False)
        with pytest.raises(tile_plan.Unreadable, match=f"^line {line}"):
            tile_plan.read(text)

    def test_explained(self):
        for text, line in self.BAD[::6]:
            self.plan(text)
            words = tool("explain", self.out, input=f"refused 90 country line {line}\n")
            assert (words.returncode, f"  line {line}" in words.stdout) == (2, True), words.stdout + words.stderr

    def test_too_many(self):
        sys.setrecursionlimit(30_000)
        for text in self.MANY:
            self.plan(text)
            self.assertCountry("refused 90 country line 20002", 2, is_certified=False)

    def test_cut_short(self):
        """Each beginning of a text, and each with a letter changed."""
        for end in range(len(self.GOOD)):
            self.plan(self.GOOD[:end])
            self.assertCountry(f"refused 90 country line {self.GOOD[:end].count(chr(10)) + 1}", 2, is_certified=False)


class TestSplits(Case):
    """What the splitter says, and what it leaves as it is."""

    def refuse(self, *words):
        ended = ended_with(1, country("split", self.source, self.out))
        for word in words:
            assert word in ended.stdout
        assert not os.path.exists(self.out)

    def test_faults(self):
        good = Land(1, 3, 3)
        for name, row, *words in [
            ("parcels", 'P000.000,"POLYGON((0 0,1 0,1 1,0 0))"', "parcels.csv row 10", "P000.000", "earlier row"),
            ("parcels", 'one,"POINT(0 0)"', "row 10", "one", "no polygon"),
            ("parcels", 'one,"POLYGON EMPTY"', "no polygon"),
            ("parcels", 'one,"POLYGON((0 0,1 nan,1 1,0 0))"', "no polygon"),
            ("parcels", 'one,"POLYGON((0 0,1_0 0,1 1,0 0))"', "no polygon"),
            ("parcels", 'one,"POLYGON((0 0,20000000.001 1,1 1,0 0))"', "no polygon in range"),
            ("covers", 'one,two,GRASS,"POLYGON((0 0,1 0,1 1,0 0))"', "covers.csv row 28", "two"),
            ("parcels", "one", "parcels.csv row 10: 1 field, "),
            (
                "covers",
                'p1,P000.000,GRASS,"POLYGON((0 0,1 0,1 1,0))"',
                "covers.csv row 28: piece p1: its wkt is no polygon",
            ),
            ("covers", 'p1,P000.000,GRASS,"POLYGON((0 0,1 0,1 1,0 0))\np2,P', "p1", "no polygon"),
        ]:
            good.write(self.source)
            write(self.source, name, [*lines(self.source, name), row])
            self.refuse(*words)
        for name, column, other in (
            ("covers", "parcel,", "block,"),
            ("classes", "percent", "share"),
            ("classes", "class,", "eligible,"),
        ):
            good.write(self.source)
            write(self.source, name, [row.replace(column, other) for row in lines(self.source, name)])
            self.refuse(f"{name}.csv: no column {column.strip(',')}")
        shutil.rmtree(self.source)
        assert country("split", self.source, self.out).returncode == 64
        assert country("split", self.source).returncode == 64

    def test_no_cut_helps(self):
        """Long parcels that all lie over one place."""

        def star(number):
            return wkt([(-1000 - number, -1000), (2000, -3000), (3000 + number, 4000), (-2000, 1000 + number)])

        for table, rows in (
            ("parcels", [f"star-{k},{star(k)}" for k in range(30)]),
            ("covers", [f"s{k},star-{k},GRASS,{star(k)}" for k in range(30)]),
            ("classes", CLASSES),
        ):
            write(self.source, table, [HEADS[table], *rows])
        ended = country("split", self.source, self.out, "--parcels", "20")
        assert (ended.returncode, "30 parcels share a place" in ended.stdout, "star-0 star-1 " in ended.stdout) == (
            1,
            True,
            True,
        ), ended.stdout
        ended_with(1, country("split", self.source, self.out, "--points", "4"))

    def test_heaps(self):
        """Cuts that help are found where quantiles of middles do not help."""
        boxes, numbers = tile_cuts.Boxes(), random.Random(5)
        for k in range(400):
            boxes.add(
                (0, 0, 10, 10)
                if k < 30
                else (x := 10 * numbers.randrange(40), y := 10 * numbers.randrange(2), x + 10, y + 10)
            )
            boxes.pieces[k], boxes.points[k] = 1, 5
        found = []
        tiling = tile_cuts.part(
            boxes, tile_cuts.Most(60, 60, 10**6), lambda region, members: found.append(list(members))
        )
        assert all(len(members) <= 60 for members in found)
        for number in range(len(boxes)):
            assert tiling.met(boxes.box(number)) == [
                region for region, members in enumerate(found) if number in members
            ]

    def test_texts(self):
        """Columns in another order, quotes, marks and Windows' line ends stay as they are written."""
        land = Land(2, 6, 6)
        land.write(self.source)
        with open(os.path.join(self.source, "parcels.csv"), "w", encoding="utf-8", newline="") as file:
            file.write(
                "\ufeffNote,WKT,Parcel\r\n\r\n"
                + "".join(
                    f'"a, ""b""\n{name}",{text},{name}\r\n'
                    for name, text in (row.split(",", 1) for row in land.parcels)
                )[:-2]
            )
        self.split("--parcels", 12)
        self.assertIsRelease(self.source)
        head, rows = read(os.path.join(self.region(0), "parcels.csv")).split("\n", 1)
        assert head == "Note,WKT,Parcel"
        assert '"a, ""b""\n' in rows

    def test_balance(self):
        """Of each class the area of the source and of the regions, as the judge has them."""
        Land(7, 8, 8).write(self.source)
        self.split("--parcels", 12)
        whole, (head, *rows) = judged.Region(self.source), [row.split(",") for row in lines(self.out, "balance")]
        found = {(row[0], row[1]): dict(zip(head, row)) for row in rows}
        area = judged.areas(*whole.sums(whole.parcels)[2:]).split()[1][:-4]
        assert (
            found["parcels", ""]["source_m2"],
            found["parcels", ""]["tables_m2"],
            found["covers", ""]["tables_m2"],
        ) == (area, area, area)
        assert {row["unaccounted_m2"] for row in found.values()} == {"0.000"}
        assert sorted(name for _, name in found if name) == sorted(
            {row.split(",")[2] for row in lines(self.source, "covers")[1:]}
        )

    def test_changing(self):
        """A source that changes while it is read changes nothing, and no file is left beside the tables."""
        Land(4, 6, 6).write(self.source)
        self.split("--parcels", 12)
        before = self.times()

        class Changing(table_streams.Folder):
            def __init__(self, path, name, edit):
                super().__init__(path)
                self.name, self.edit, self.count = name, edit, 0

            def lines(self, name):
                self.count += name == self.name
                for number, line in enumerate(super().lines(name)):
                    yield self.edit(line) if number == 3 and self.count == 2 else line

        def fails(line):
            raise OSError("no space left")

        for name, edit, error in (
            ("covers", lambda line: line.replace("GRASS", "WATER").replace("TREES", "WATER"), table_streams.Trouble),
            ("parcels", lambda line: "", table_streams.Trouble),
            ("covers", lambda line: line.replace(",P", ",Q", 1), table_streams.Trouble),
            ("covers", fails, OSError),
        ):
            with pytest.raises(error):
                region_split.split(
                    Changing(self.source, name, edit),
                    self.out,
                    tile_cuts.Most(12, 10**6, 10**6),
                    False,
                    lambda words: None,
                )
            assert self.times() == before
            assert [name for name in os.listdir(self.out) if name.startswith(".")] == [table_standing.FILE]
        counts = read(self.out, "split.txt")
        with unittest.mock.patch.object(placing.Move, "go", fails), pytest.raises(Trouble, match="is still there"):
            region_split.split(
                table_streams.Folder(self.source),
                self.out,
                tile_cuts.Most(5, 10**6, 10**6),
                True,
                lambda words: None,
            )
        assert (self.times(), read(self.out, "split.txt")) == (before, counts)

    def test_words(self):
        for words, status, text in (
            (["--version"], 0, "lpis-country "),
            (["--help"], 0, "usage: "),
            (["split", self.source, self.source], 64, "DIR is SOURCE"),
            (["split", "--parcels", "x", "a", "b"], 64, "usage: "),
            (["split", "--parcels", "0", "a", "b"], 64, "limits are 1 or more"),
            (["cut", self.out, "--jobs", "-1"], 64, "--jobs is 1 or more"),
        ):
            ended = country(*words)
            assert (ended.returncode, text in ended.stdout + ended.stderr) == (status, True), (
                ended.stdout + ended.stderr
            )

    def test_order(self):
        """Rows keep the source's order in every region."""
        land = Land(4, 10, 10)
        land.write(self.source, is_shuffled=True)
        self.split("--parcels", 30)
        for table in ("parcels", "covers"):
            every = {row: place for place, row in enumerate(lines(self.source, table))}
            for name in self.regions():
                places = [every[row] for row in lines(os.path.join(self.out, name), table)]
                assert places == sorted(places)

    def test_again(self):
        """The tiling stands for the next source, and folders that are as they were keep their times."""
        land = Land(6, 10, 10)
        land.write(self.source)
        self.split("--parcels", 30)
        before = self.times()
        time.sleep(0.02)
        assert changed(self.split("--parcels", 30)) == "0"
        assert self.times() == before
        name = next(
            row.split(",")[0]
            for row in lines(self.region(2), "parcels")[1:]
            if sum(row in lines(os.path.join(self.out, it), "parcels") for it in self.regions()) == 1
        )
        land.covers = [
            row.replace("GRASS", "WATER").replace("TREES", "WATER") if row.split(",")[1] == name else row
            for row in land.covers
        ]
        land.write(self.source)
        assert changed(self.split("--parcels", 30)) == "1"
        assert [path for path, when in self.times().items() if when != before[path]] == [
            os.path.join(self.regions()[2], "covers.csv")
        ]
        self.assertIsRelease(self.source)

    def times(self):
        return {
            os.path.join(name, file): os.stat(os.path.join(self.out, name, file)).st_mtime_ns
            for name in self.regions()
            for file in ("parcels.csv", "covers.csv", "classes.csv")
        }

    def test_grown(self):
        """A region that has grown over the limits: new cuts, and the folders of before are said."""
        Land(6, 6, 6).write(self.source)
        self.split("--parcels", 5)
        many = len(self.regions())
        Land(8, 4, 4).write(self.source)
        ended = country("split", self.source, self.out, "--parcels", "16", "--anew")
        assert (len(self.regions()), "not regions now: r0002 r0003" in ended.stderr) == (1, True), ended.stderr
        assert 1 < many
        Land(8, 40, 4).write(self.source)
        ended = country("split", self.source, self.out, "--parcels", "16")
        assert "has grown over the limits" in ended.stderr
        self.assertIsRelease(self.source)
        write_text(os.path.join(self.out, "country.txt"), "no tiling\n")
        ended = country("split", self.source, self.out, "--parcels", "16")
        assert (ended.returncode, "line 1" in ended.stdout, "--anew" in ended.stdout) == (1, True, True)

    def test_tiling_by_hand(self):
        Land(6, 6, 6).write(self.source)
        os.makedirs(self.out)
        write_text(os.path.join(self.out, "country.txt"), "lpis-country 1\ny 300000\nregion south\nregion north\n")
        self.split()
        assert self.regions() == ["south", "north"]
        self.assertIsRelease(self.source)

    def test_nothing(self):
        for table, head in HEADS.items():
            write(self.source, table, [head])
        assert self.split()[1:4] == ["1", "parcels", "0"]
