"""Tests tools/country prepare's cells: lands that are hard to round, cell by cell against the whole, byte for byte, and
land that nobody has between parcels. Wants Shapely."""

import math
import os
from unittest import mock

import pytest
from lpis_helpers import hard
from lpis.system import shapely_there
from lpis_helpers.cells_case import ByCells, mended, read, stored, write
from lpis_helpers.lands_parts import boxed, closed, on
from lpis_helpers.spare import exhaustive

if shapely_there.is_there():
    from lpis.country import country_passes, last_year_corners, row_store
    from lpis.preparation import identifier_passes, last_year_conflation, tested_source
    from lpis.rounding import coverage, snap_rounding
    from lpis.source import land as land_module


class TestCells(ByCells):
    def test_steps(self):
        """What is done about names has as many steps as its progress says."""
        land = mended(hard.Land(0, 5, 3.0))
        base, begins = stored(land.parcels, land.covers)
        layers = {name: land_module.Layer(name) for name in row_store.LAYERS}
        work = tested_source.Preparation(layers, None, lambda words: None)
        work.begin(base, dict(layers))
        starts = dict(zip(row_store.LAYERS, zip(begins, (len(land.parcels), len(land.covers)))))
        names = identifier_passes.Names(work, {kind: {} for kind in identifier_passes.KINDS})
        assert len(list(country_passes.named(work, names, starts, True, True))) == country_passes.STEPS
        base.close()

    @pytest.mark.parametrize("seed, step", ((0, 0.02), exhaustive(1, 3.0), exhaustive(2, 30.0)))
    def test_as_the_whole(self, seed, step):
        land = mended(hard.Land(seed, 30, step))
        whole = self.whole(land)
        assert "overlap" in [kind for kind, *_ in whole]
        for most, least in ((200, 4), (60, 9), (1, 25)):
            made, found = self.by_cells(land, most)
            assert len(os.listdir(self.path("results"))) >= least
            for name in ("parcels.csv", "covers.csv"):
                assert read(made, name) == read(self.folder, "whole", name)
            assert found == whole

    @pytest.mark.parametrize(
        "seed, count, step, width",
        (
            (0, 30, 3.0, 0.1),
            exhaustive(1, 30, 0.3, 0.1),
            exhaustive(2, 30, 30.0, 60.0),
            exhaustive(3, 30, 30.0, 60.0),
            (38, 9, 0.3, 0.1),
        ),
    )
    def test_between(self, seed, count, step, width):
        """Land that nobody has, as in one: faces that many cells have a part of, islands in them, and arms between
        parcels of two cells."""
        land = mended(hard.Land(seed, count, step))
        gone = {row["parcel"] for row in land.parcels[::5]}
        land.parcels, land.covers = (
            [row for row in rows if row["parcel"] not in gone] for rows in (land.parcels, land.covers)
        )
        whole = self.whole(land, width)
        assert sum(kind == "between" for kind, *_ in whole) > 5
        for most in (200, 60, 1):
            assert self.by_cells(land, most, width=width)[1] == whole

    def test_moat(self):
        """A narrow face of nobody that has the parcels of many cells around it and an island in it; and at a lesser
        width the one side of it that is narrow."""
        land, side, wide = hard.Land(0, 0, 1.0), 10, 0.5
        land.parcels.clear(), land.covers.clear()
        for x in range(side + 2):
            for y in range(side + 2) if x in (0, side + 1) else (0, side + 1):
                land.parcel([boxed(x, y, 1)])
        land.parcel([boxed(1 + wide, 1 + wide, side - 2 * wide, side - 0.1 - wide)])
        for width, count, area in ((0.6, 1, side * side - (side - 1) * (side - 0.6)), (0.2, side, 0.1 * (side - 1))):
            found = self.whole(land, width)
            assert (len(found), round(sum(loss[5] for loss in found), 6)) == (count, round(area, 6))
            assert self.by_cells(land, 1, width=width)[1] == found

    def test_needles(self):
        """Two needles whose tips meet part a narrow face from a wide one. Each has a width by the corner of another
        parcel alone, and is a line to cells that do not read that."""
        land = hard.Land(0, 0, 1.0)
        land.parcels.clear(), land.covers.clear()
        frame = (-20, -10, 10, 100), (-10, -10, 310, 10), (-10, 80, 310, 10), (300, -10, 10, 100)
        for ring in (
            *(boxed(*of) for of in (*frame, (5.001, 10, 10, 10.001), (4.999, 59.999, 10, 10))),
            closed((0, 0), (0.0004, 0), (10, 40)),
            closed((19.9996, 80), (20, 80), (10, 40)),
        ):
            land.parcel([ring])
        whole = self.whole(land, 24.0)
        assert [
            (len(names), words.count("4 more parcels"), round(area)) for _, names, _, words, _, area, _ in whole
        ] == [(2, 1, 1500), (2, 0, 100), (2, 0, 13)]
        for most in (20, 1):
            assert self.by_cells(land, most, width=24.0)[1] == whole

    @pytest.mark.parametrize("is_wide", (True, False))
    def test_needle_on_fine_borders(self, is_wide):
        """The tip of a needle on a circle of short edges, whose other side faces another circle: the lines that
        stand for these edges begin anew there, wide or not."""
        land, count = hard.Land(0, 0, 1.0), 400
        land.parcels.clear(), land.covers.clear()
        circles = [
            closed(
                *(
                    (east + 0.9 * math.cos(2 * math.pi * k / count), 40.9 + 0.9 * math.sin(2 * math.pi * k / count))
                    for k in range(count)
                )
            )
            for east in (10.0, 11.9)
        ]
        for ring in (*circles, closed((0, 0), (0.0004, 0), (10, 40)), boxed(5.001 if is_wide else 5.1, 10, 10, 10.001)):
            land.parcel([ring])
        whole = self.whole(land, 0.2)
        assert ["P0", "P1"] in [names for _, names, *_ in whole]
        assert self.by_cells(land, 1, width=0.2)[1] == whole

    @pytest.mark.parametrize("seed, step", ((0, 0.02), exhaustive(1, 3.0), exhaustive(2, 30.0)))
    def test_last_year(self, seed, step):
        """With last year's corners cells give what the whole gives, and where parcels go more of the others stay as
        they were than without."""
        land = mended(hard.Land(seed, 30, step))
        self.whole(land)
        before, last, gone = (
            self.texts(self.path("whole")),
            last_year_corners.LastYear(self.path("whole")),
            {row["parcel"] for row in land.parcels[::5]},
        )
        land.parcels, land.covers = (
            [row for row in rows if row["parcel"] not in gone] for rows in (land.parcels, land.covers)
        )
        made = coverage.Map(land.parcels, land.covers, lambda words: None, last_year_conflation.Borders(last.edges()))
        wanted = {land.covers[number]["piece"]: text for number, text in made.polygons(made.pieces)}
        for most, large in ((200, 2000.0), (60, 2000.0), (1, 0.0)):
            with mock.patch.object(row_store, "LARGE", large):
                folder, _ = self.by_cells(land, most, last=last)
                assert {
                    row.split(",", 3)[0]: row.split(",", 3)[3].strip('"')
                    for row in read(folder, "covers.csv").splitlines()[1:]
                } == wanted
        stayed, without = (
            sum(text == before.get(name) for name, text in self.texts(found).items())
            for found in (folder, self.by_cells(land, 10**9)[0])
        )
        assert stayed >= without, seed
        assert last.counts[1] == len(read(self.folder, "whole", "parcels.csv").splitlines()) - 1

    @pytest.mark.parametrize("seeds, least", (([0], 10), exhaustive([0, 1, 2, 3], 100)))
    def test_new_corners(self, seeds, least):
        """With last year's corners, and new ones on straight edges of every third piece, cells give what the whole
        gives; many of the new corners are in no text."""
        needless = 0
        for seed in seeds:
            step = (0.02, 3.0, 30.0, 30.0)[seed]
            land = mended(hard.Land(seed, 30, step))
            self.whole(land)
            last = last_year_corners.LastYear(self.path("whole"))
            for number, row in enumerate(land.covers[::3]):
                share = 0.1 + number % 8 / 10
                row.found = hard.wkb.Found(
                    [
                        [
                            [point for a, b in zip(ring, ring[1:]) for point in (a, on(a, b, share))] + ring[:1]
                            for ring in member
                        ]
                        for member in row.found.members
                    ]
                )
            mended(land)
            then = last_year_conflation.Borders(last.edges())
            made = coverage.Map(land.parcels, land.covers, lambda words: None, then)
            with mock.patch.object(snap_rounding, "straightened", lambda *words: words[-1]):
                kept = coverage.Map(land.parcels, land.covers, lambda words: None, then)
            needless += sum(
                len(coverage.numpy.unique([one.network.first, one.network.last])) * sign
                for one, sign in ((kept, 1), (made, -1))
            )
            wanted = {land.covers[number]["piece"]: text for number, text in made.polygons(made.pieces)}
            for most in (200, 60, 1):
                folder, _ = self.by_cells(land, most, last=last)
                assert {
                    row.split(",", 3)[0]: row.split(",", 3)[3].strip('"')
                    for row in read(folder, "covers.csv").splitlines()[1:]
                } == wanted, (seed, most)
        assert needless > least

    def test_corners_that_moved(self):
        """A corner of last year's beside an end of this year is none; one in its pixel, or two away, is."""
        ends = coverage.numpy.array([[0, 0], [10, 10]])
        points = coverage.numpy.array([[0, 0], [1, 1], [-1, 0], [2, 0], [10, 11], [5, 5], [0, 10]])
        for by in (0, 10**10, -(10**10)):
            assert snap_rounding.are_beside(points + by, ends + by).tolist() == [
                False,
                True,
                True,
                False,
                True,
                False,
                False,
            ]
        far = coverage.numpy.array([[-(2 * 10**10), -(2 * 10**10)], [2 * 10**10, 2 * 10**10]])
        assert snap_rounding.are_beside(far, far + 1).tolist() == [True, True]

    @pytest.mark.parametrize("seed, step", ((0, 3.0), exhaustive(1, 30.0), exhaustive(2, 0.3)))
    def test_large(self, seed, step):
        """Parcels with large boxes, each a cell of its own with the rows beside its shapes alone: here all of them."""
        land = mended(hard.Land(seed, 30, step))
        whole = self.whole(land)
        with mock.patch.object(row_store, "LARGE", 0.0):
            made, found = self.by_cells(land, 1)
            assert len(os.listdir(self.path("results"))) == len({row["parcel"] for row in land.covers})
            for name in ("parcels.csv", "covers.csv"):
                assert read(made, name) == read(self.folder, "whole", name)
            assert found == whole

    def test_what_is_done_is_taken_over(self):
        """Of a land with rows before all others, and with one parcel moved, the cells beside these alone are made
        anew."""
        land = mended(hard.Land(2, 30, 3.0))
        self.by_cells(land, 60)
        before = self.times()
        self.by_cells(land, 60)
        assert self.times() == before
        last = land.covers[-1]
        last.found = hard.wkb.Found(
            [[[(x + 0.001, y) for x, y in ring] for ring in member] for member in last.found.members]
        )
        far = hard.wkb.Found([[[(x + 5000.0, y) for x, y in ((0.0, 0.0), (9.0, 0.0), (9.0, 9.0), (0.0, 0.0))]]])
        land.parcels.insert(0, hard.Row(10**6, {"parcel": "FAR"}, far))
        land.covers.insert(0, hard.Row(10**6, {"piece": "FAR.1", "parcel": "FAR", "class": "A"}, far))
        self.by_cells(land, 60)
        after = self.times()
        anew = [name for name, when in after.items() if before.get(name) != when]
        assert 0 < len(anew) < len(after) / 2, (len(before), len(after), len(anew))

    def times(self):
        return {name: os.stat(self.path("results", name)).st_mtime_ns for name in os.listdir(self.path("results"))}

    def test_strange_results(self):
        """What is no result stays, a result that was changed is told, and a link is not followed."""
        land = mended(hard.Land(2, 9, 3.0))
        os.mkdir(self.path("results"))
        for name in ("mine.txt", "a" * 64 + ".jsonl", ".lpis-0123.new"):
            write("", self.path("results", name))
        self.by_cells(land, 10**9)
        (result,) = {"mine.txt"} ^ set(os.listdir(self.path("results")))
        write("[1\n", self.path("results", result))
        os.symlink(self.path("results"), self.path("link"))
        for name, words in (("results", "not as it was written"), ("link", "is a link")):
            with pytest.raises(land_module.Trouble, match=words):
                self.by_cells(land, 10**9, name)
        assert "mine.txt" in os.listdir(self.path("results"))

    def test_places(self):
        """Each place is in one cell, on both sides of naught; places that no cell parts stay together."""
        places = coverage.numpy.array(
            [[x, y] for x in (-(10**10), -1, 0, 1, 1023, 1024, 10**10) for y in (-5, 0, 2**30)] + [[7, 7]] * 5
        )
        cells = [numbers.tolist() for numbers in row_store.cells_of(places, coverage.numpy.ones(len(places), int), 2)]
        assert sorted(number for cell in cells for number in cell) == list(range(len(places)))
        assert all(len(cell) <= 2 or (places[cell] >> 10 == places[cell[0]] >> 10).all() for cell in cells)
        assert list(row_store.cells_of(places[:0], coverage.numpy.zeros(0, int), 2)) == []
