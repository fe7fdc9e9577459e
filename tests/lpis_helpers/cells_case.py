"""What the tests of a country's preparation share: lands that are made by cells, beside the same in one. Wants
Shapely."""

import os
import tempfile
from unittest import mock

import pytest
from lpis_helpers.spare import Spare, read, write
from lpis_helpers.written_tables import of_folder
from lpis.system import shapely_there

if shapely_there.is_there():
    from lpis.country import cell_results, cell_rounding, gap_arms, jobs, row_store, source_parts
    from lpis.preparation import conflicts, land_balance, row_outcomes, source_tests
    from lpis.rounding import coverage
    from lpis.source import land as land_module


def mended(land):
    """A land whose shapes are valid."""
    work = source_tests.Tests({"parcels": land_module.Layer("parcels"), "covers": land_module.Layer("covers")}, None)
    for name, rows in (("parcels", land.parcels), ("covers", land.covers)):
        work.make_valid(name, rows)
        rows[:] = [row for row in rows if row.found]
    return land


def stored(parcels, covers, given=None):
    """A store of rows in memory, and where the rows of both layers begin in it."""
    options = {"epsg": None, "are_metres": False, "given": given or {kind: [] for kind in ("parcel", "piece", "class")}}
    return row_store.in_memory(
        [
            lambda base, first, name=name, rows=rows: source_parts.put_rows(base, first, name, rows, "row", options)
            for name, rows in (("parcels", parcels), ("covers", covers))
        ]
    )


def told(losses):
    """What is told of losses, in an order of its own."""
    return sorted(
        (loss.kind, loss.names, loss.rows, loss.words, loss.width, loss.area, loss.place()) for loss in losses
    )


@pytest.mark.skipif(not shapely_there.is_there(), reason=shapely_there.LACKING)
class Case(Spare):
    """Wants Shapely."""


class ByCells(Case):
    """The tables and the conflicts of a land by cells, and in one."""

    def by_cells(self, land, most, results="results", last=None, width=None):
        """The folder of the tables, and the conflicts; with a width also land between parcels that nobody has."""
        made, results = tempfile.mkdtemp(dir=self.folder), jobs.begin(self.path(results))
        base, _ = stored(land.parcels, land.covers)
        with mock.patch.object(row_store, "MOST_POINTS", most), mock.patch.object(row_store, "LEAST", 0):
            count = row_store.put_cells(base)
        if last:
            last.put(base, [os.path.join(results, source_parts.made(part, results)) for part in last.planned()])
        names = [cell_rounding.made(base, number, results) for number in range(count)]
        found = cell_results.Gathered(base, results, names, land_balance.Balance({}))
        found.read(range(count), mock.Mock())
        if width:
            names += self.between(found, results, width)
        found.tables(made, lambda rows, name, count: rows)
        if last:
            last.count(base, found.text_of_parcel)
        jobs.clear(results, names)
        conflicts = told(loss for loss in found.losses if loss.kind in (*cell_results.CONFLICTS, "between"))
        base.close()
        return made, conflicts

    @staticmethod
    def between(found, results, width):
        for number, name in enumerate(found.names):
            write(name, results, f"{number}.cell")
        found.read_narrow(width)
        names = [gap_arms.made(found.base, number, results) for number in range(len(found.names))]
        found.read_arms(names, mock.Mock())
        return names

    def whole(self, land, width=None):
        """The conflicts of a land in one, whose tables are written."""
        layers = {
            name: land_module.Layer(name, rows) for name, rows in (("parcels", land.parcels), ("covers", land.covers))
        }
        seen = coverage.release(layers, self.path("whole"), lambda words: None, between=width)
        source = conflicts.Source(layers)
        conflicts.find_conflicts(source, lambda words: None, seen)
        row_outcomes.Outcome(source, of_folder(self.path("whole")), land_balance.Balance(layers)).find()
        return told(loss for loss in source.losses if loss.kind in (*cell_results.CONFLICTS, "between"))

    def texts(self, folder):
        """The rows of both tables by their identifiers."""
        return dict(
            line.split(",", 1)
            for name in ("parcels", "covers")
            for line in read(folder, f"{name}.csv").splitlines()[1:]
        )
