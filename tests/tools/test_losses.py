"""Tests how losses are written, and what is said where Shapely fails. Wants Shapely."""

import json
from pathlib import Path

import pytest
from lpis_helpers.calls import records
from lpis_helpers.spare import Spare
from lpis.system import shapely_there

if shapely_there.is_there():
    from shapely.errors import TopologicalError
    from lpis.preparation import conflicts, loss_report
    from lpis.source import land


@pytest.mark.skipif(not shapely_there.is_there(), reason=shapely_there.LACKING)
class TestLosses(Spare):
    def test_all_rows(self):
        """The report has a row of each thing, however many there are."""
        count = 100_050
        losses = [conflicts.Loss("lost", [str(n)], "gone", area=1.0, layer="covers", rows=[n]) for n in range(count)]
        loss_report.write(losses, self.folder)
        assert len(records(self.folder, "report.csv")) == count
        found = json.loads(Path(self.folder, "report.geojson").read_text(encoding="utf-8"))
        assert len(found["features"]) == count

    def test_failing(self):
        """Where Shapely fails, the rows are named."""

        def fails():
            raise TopologicalError("found non-noded intersection")

        with pytest.raises(land.Trouble) as trouble:
            conflicts.by_geos("the overlap", [("covers", "A.1", land.Row(7, {}))], fails)
        assert "the overlap of covers A.1 (row 7) cannot be computed: mend the shape" in str(trouble.value)
