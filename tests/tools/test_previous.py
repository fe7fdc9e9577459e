"""Tests --previous of tools/prepare and tools/country prepare: over a source in doubles and the same with ninety exact
splits and merges a year later. Wants Shapely; the program for `lpis exact` and `publish`, where it is built or named
by LPIS."""

import filecmp
import os
import re
import shutil
from pathlib import Path

import pytest
from lpis_helpers.calls import done, ended_with, records, tool
from lpis_helpers.places import BUILT, run_helper
from lpis_helpers.cells_case import ByCells, read
from lpis_helpers.spare import Kept, Spare, exhaustive
from lpis.system import shapely_there

if shapely_there.is_there():
    from lpis_helpers import edits
    from lpis_helpers import exact
    from lpis_helpers import hard
    from lpis.country import last_year_corners
    from lpis.preparation import last_year_conflation
    from lpis.rounding import coverage, snap_rounding
    from lpis.source import land as land_module
    import numpy
PARCELS, EDITS, SEED = 200, 45, 1
COUNTED = re.compile(r"parcels as in .*, to the millimetre: (\d+) of its (\d+)")
MOVED = {13: 2, 18: 4, 21: 2, 38: 0, 42: 2, 44: 2}  # lands by their seeds, and how many rows of each are not exact
SOURCE = "POLYGON((500000.5 5400000.25,500010.1 5400000.25,500010.1 5400010,500000.5 5400010,500000.5 5400000.25))"


@pytest.mark.skipif(not shapely_there.python(), reason=shapely_there.LACKING)
class TestYears(Kept):
    """Two years: `first` is prepared of the source, `plain` and `kept` of the edited one without and with
    --previous."""

    prefix = "years of "

    @classmethod
    def set_up(cls):
        cls.made = {}
        run_helper("make_coverage", PARCELS, 1, cls.path("source"))
        cls.made["edits"] = edits.make(cls.path("source"), cls.path("edited"), EDITS, SEED)
        edits.make(cls.path("source"), cls.path("moved"), EDITS, SEED, 0.0001)
        for name, source, *more in (
            ("first", "source"),
            ("plain", "edited"),
            ("kept", "edited", "--previous", cls.path("first")),
            ("same", "source", "--previous", cls.path("first")),
            ("noisy", "moved", "--previous", cls.path("first"), "--accept"),
        ):
            cls.made[name] = tool("prepare", cls.path(source), cls.path(name), *more)
        cls.made["country"] = tool(
            "country",
            "prepare",
            cls.path("moved"),
            cls.path("country"),
            "--previous",
            cls.path("first"),
            "--accept",
            "--tables",
            cls.path("of country"),
        )

    def proposed(self, name):
        """How many splits and merges are proposed between the first year and a folder, and how many of them are
        exact."""
        ended_with(0, tool("lineage", self.path("first"), self.path(name), self.path(f"{name}.csv")))
        table = records(self.path(f"{name}.csv"))
        groups = {
            (
                row["old"]
                if row["new"].startswith(f"{row['old']}-") and not row["new"].startswith(f"{row['old']}-P")
                else row["new"]
            ): row["exact"]
            for row in table
        }
        return len(groups), sum(map(int, groups.values()))

    def counts(self, name):
        return list(map(int, COUNTED.search(self.made[name].stdout).groups()))

    def test_all_edits_are_exact(self):
        assert (EDITS, True) == (
            sum(self.made["edits"].values()),
            min(self.made["edits"].values()) >= EDITS // 5,
        ), self.made["edits"]
        assert [(EDITS, EDITS), (EDITS, EDITS)] == [self.proposed(name) for name in ("kept", "noisy")]
        assert self.proposed("plain")[1] < EDITS

    def test_a_country_has_the_same_tables(self):
        assert self.counts("country") == self.counts("noisy")
        for name in ("parcels.csv", "covers.csv"):
            assert filecmp.cmp(self.path("noisy", name), self.path("of country", name), shallow=False)

    def test_what_was_not_edited_stays(self):
        """Also where each corner moved by a tenth of a millimetre."""
        for name in ("kept", "noisy"):
            before, after = (
                {row["parcel"]: row["wkt"] for row in records(self.path(each), "parcels.csv")}
                for each in ("first", name)
            )
            beside = sum(text != after[parcel] for parcel, text in before.items() if parcel in after)
            assert (beside, sum(text == after.get(parcel) for parcel, text in before.items())) == (
                0,
                self.counts(name)[0],
            )

    @pytest.mark.parametrize("name", ("first", "plain", "kept", "same", "noisy", "country"))
    def test_every_run_ends_well(self, name):
        assert 0 == self.made[name].returncode, self.made[name].stdout + self.made[name].stderr
        assert "the balance adds up to the square metre" in self.made[name].stdout

    def test_the_same_source_has_the_same_tables(self):
        same, of_last_year = self.counts("same")
        assert same == of_last_year
        for name in ("parcels.csv", "covers.csv"):
            assert filecmp.cmp(self.path("first", name), self.path("same", name), shallow=False)

    def test_the_tables_are_a_sound_map(self):
        run_helper("make_coverage", 36, 2, self.path("few"))
        edits.make(self.path("few"), self.path("few edited"), 12, SEED, 0.0001)
        for source, out, *more in (
            ("few", "few first"),
            ("few edited", "few kept", "--accept", "--previous", self.path("few first")),
        ):
            assert 0 == tool("prepare", self.path(source), self.path(out), *more).returncode
        wrong, lines = exact.judged(self.path("few kept"))
        assert ([], "yes") == (wrong, lines[-1])

    @pytest.mark.skipif(not BUILT, reason="the program is not built")
    def test_exact_and_publish_take_them(self):
        base, cert, told = self.path("lpis.db"), self.path("cert.txt"), []
        for name in ("first", "kept"):
            shutil.copytree(self.path(name), self.path("published", name))
        first, kept = self.path("published", "first"), self.path("published", "kept")
        Path(first, "lineage.csv").write_text("old,new\n", encoding="ascii")
        assert 0 == tool("lineage", first, kept, kept).returncode
        for words in (
            ["cut", first, cert],
            ["publish", base, "2024", first, cert],
            ["cut", kept, cert],
            ["exact", base, kept, cert, self.path("exact.txt")],
            ["publish", base, "2025", kept, self.path("exact.txt")],
        ):
            told += done(BUILT, *words).splitlines()
        assert (f"exact {EDITS}", "published 2025") == (
            next(line for line in told if line.startswith("exact ")),
            told[-1],
        )
        assert [] == [line for line in told if line.startswith("lineage ") and not line.endswith(" exact")]


@pytest.mark.skipif(not shapely_there.python(), reason=shapely_there.LACKING)
class TestFolders(Spare):
    """Folders that are not last year's."""

    def land(self, name, shape=SOURCE):
        os.mkdir(self.path(name))
        for table, row in (
            ("parcels", "parcel,wkt\np,"),
            ("covers", "piece,parcel,class,wkt\nc,p,G,"),
            ("classes", "class,percent\nG,100\n"),
        ):
            Path(self.path(name, f"{table}.csv")).write_text(
                row if table == "classes" else f'{row}"{shape}"\n', encoding="ascii"
            )
        return self.path(name)

    def prepared(self, name, *words):
        return tool("prepare", self.land(f"source {name}", *words), self.path(name))

    def refused(self, folder, words, source=SOURCE):
        number = len(os.listdir(self.folder))
        ran = tool(
            "prepare",
            self.land(f"source {number}", source),
            self.path(f"out {number}"),
            "--accept",
            "--previous",
            folder,
        )
        assert (1, False) == (ran.returncode, os.path.exists(self.path(f"out {number}", "parcels.csv"))), (
            ran.stdout + ran.stderr
        )
        assert words in ran.stdout
        assert "previous" in {row["kind"] for row in records(self.path(f"out {number}"), "prepared.csv")}
        assert "Traceback" not in ran.stderr

    def test_no_tables(self):
        os.mkdir(self.path("empty"))
        self.refused(self.path("empty"), "has no table covers.csv")
        self.refused(self.path("none"), f"previous: {self.path('none')}: ")
        os.remove(os.path.join(self.land("half"), "parcels.csv"))
        self.refused(self.path("half"), "has no table parcels.csv")

    def test_tables_that_are_none(self):
        folder = self.land("doubles", SOURCE.replace("10.1", "10.12345"))
        self.refused(folder, "its wkt is no polygon in millimetres")
        for name in ("parcels", "covers"):
            Path(folder, f"{name}.csv").write_text("parcel,piece,class,wkt\n", encoding="ascii")
        self.refused(folder, "have no row")
        Path(folder, "covers.csv").write_text("piece,class\n", encoding="ascii")
        self.refused(folder, "no column")

    def test_another_place(self):
        assert 0 == self.prepared("last").returncode
        self.refused(
            self.path("last"), "is it another area, or another system of coordinates?", SOURCE.replace("54000", "54100")
        )

    def test_another_system(self):
        assert 0 == self.prepared("last", "SRID=25833;" + SOURCE).returncode
        self.refused(
            self.path("last"), "its tables are in EPSG:25833, and this release is in EPSG:25832", "SRID=25832;" + SOURCE
        )

    def test_a_corner_that_moved_by_more_is_new(self):
        assert 0 == self.prepared("last").returncode
        for number, (by, is_same) in enumerate((("10.1004", 1), ("10.1009", 1), ("10.1011", 0), ("10.11", 0))):
            out = self.path(f"out{number}")
            ran = tool(
                "prepare",
                self.land(f"land{number}", SOURCE.replace("500010.1 5400010", f"5000{by} 5400010")),
                out,
                "--previous",
                self.path("last"),
            )
            assert (0, is_same) == (ran.returncode, int(COUNTED.search(ran.stdout)[1])), ran.stdout


class TestLands(ByCells):
    """Generated lands with edits and noise, cell by cell and as a whole."""

    def layers(self, name):
        return land_module.read(self.path(name))

    @pytest.mark.parametrize("seed", (*range(1, 6), *(exhaustive(seed) for seed in range(6, 51))))
    def test_cells(self, seed):
        """Cells of forty points have the bytes of the whole, with noise of up to 0.4 mm. Edits are exact, and what was
        not edited is as it was; but for very few, where a new corner lies on a border that one side alone has, and
        both moved."""
        run_helper("make_coverage", 36, seed, self.path("source"))
        done = edits.make(self.path("source"), self.path("edited"), 12, seed, seed % 5 / 10_000)
        coverage.release(self.layers("source"), self.path("first"), lambda words: None)
        layers, last = self.layers("edited"), last_year_corners.LastYear(self.path("first"))
        coverage.release(layers, self.path("whole"), lambda words: None, last_year_conflation.Borders(last.edges()))
        before, after = self.texts(self.path("first")), self.texts(self.path("whole"))
        assert (2 if seed in MOVED else 0) >= sum(
            after.get(name, text) != text for name, text in before.items() if "." not in name
        )
        ended_with(0, tool("lineage", self.path("first"), self.path("whole"), self.path("rows.csv")))
        rows = records(self.path("rows.csv"))
        assert (2 * sum(done.values()), True) == (
            len(rows),
            sum(row["exact"] == "0" for row in rows) <= MOVED.get(seed, 0),
        )
        land = hard.Land(0, 0, 1.0)
        land.parcels[:], land.covers[:] = layers["parcels"].rows, layers["covers"].rows
        made, _ = self.by_cells(land, 40, last=last)
        for name in ("parcels.csv", "covers.csv"):
            assert read(made, name) == read(self.folder, "whole", name)


@pytest.mark.skipif(not shapely_there.is_there(), reason=shapely_there.LACKING)
class TestDistance:
    """No border comes to lie further than a millimetre and a half from where the source has it."""

    def conflated(self, edges, *ways):
        """Edges in millimetres, as they are with ways of last year."""
        then = last_year_conflation.Borders(numpy.array([[*a, *b] for way in ways for a, b in zip(way, way[1:])]))
        ends, owners = then.conflated(
            snap_rounding.parts_of_points(numpy.array(edges) / 1000), numpy.arange(len(edges))
        )
        return ends / snap_rounding.WHOLE, owners.tolist()

    @pytest.mark.parametrize(
        "x, y, to",
        (
            (0.9, 0.1, (0.499, 0.1)),
            (0.9, -1.0, (0.499, -0.5)),
            (0.4, 0.4, (0.4, 0.4)),
            (1.01, 0.0, (1.01, 0.0)),
            (-0.7, 1.1, (-0.7, 1.1)),
        ),
    )
    def test_an_end_moves_into_the_pixel_of_a_corner_within_a_millimetre(self, x, y, to):
        (edge,), _ = self.conflated([[x, y, 100.3, 100.3]], [(0, 0), (300, 0)])
        assert edge.tolist() == pytest.approx([*to, 100.3, 100.3], abs=0.002)

    def test_the_nearest_corner(self):
        (edge,), _ = self.conflated([[0.6, 1.0, 100.0, 0.0]], [(0, 0), (0, 2), (2, 1)])
        assert edge[:2].tolist() == pytest.approx([0.499, 0.5], abs=0.002)

    @pytest.mark.parametrize("aside, by", ((1, True), (2, False)))
    def test_a_way_is_taken_where_it_is_near_the_border(self, aside, by):
        """From both sides the same."""
        edges = [[0.0, 0.2, 1000.0, 0.0], [1000.0, 0.0, 0.0, 0.2]]
        found, owners = self.conflated(edges, [(0, 0), (500, aside), (1000, 0)])
        if not by:
            assert (found.tolist(), owners) == (pytest.approx(numpy.array(edges), abs=0.002), [0, 1])
            return
        assert owners == [0, 0, 1, 1]
        assert found[0].tolist() == pytest.approx([0.0, 0.2, 500.0, 0.5], abs=0.002)
        assert numpy.array_equal(
            numpy.sort(found[:2].reshape(-1, 2), axis=0), numpy.sort(found[2:].reshape(-1, 2), axis=0)
        )

    def test_no_way_where_a_border_joined_them(self):
        found, _ = self.conflated([[0.0, 0.0, 1000.0, 0.0]], [(0, 0), (500, 1), (1000, 0)], [(0, 0), (1000, 0)])
        assert len(found) == 1
