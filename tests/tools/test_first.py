"""One land with every kind of dirt on the whole way: prepared, checked, published as a year, asked about in the next
one, and made a country of. `./test quick` runs this of the tools. Wants Shapely and the program."""

import os

import pytest
from lpis_helpers import dirty
from lpis_helpers.calls import done, ended_with, records, tool
from lpis_helpers.places import BUILT
from lpis_helpers.spare import Kept, write
from lpis.system import shapely_there

ANYWAY = ("--year-anyway", "--lpis", BUILT or "")


@pytest.mark.skipif(not (BUILT and shapely_there.python()), reason="the program is not built, or there is no Shapely")
class TestWay(Kept):
    """The tests stand in the order of the way, and share its folder."""

    @classmethod
    def set_up(cls):
        cls.land, cls.out, cls.base = (
            dirty.make(cls.path("land.gpkg"), dirty.ALL),
            cls.path("2024"),
            cls.path("lpis.db"),
        )
        cls.refused, cls.made = tool("prepare", cls.land, cls.path("refused")), tool(
            "prepare", cls.land, cls.out, "--accept"
        )

    def test_it_stops(self):
        """All that is wrong is told at once, and there are no tables."""
        ended_with(1, self.refused)
        assert not os.path.exists(self.path("refused", "parcels.csv"))
        kinds = {
            row["kind"] for table in ("prepared.csv", "findings.csv") for row in records(self.path("refused"), table)
        }
        assert {"overlap", "invalid", "shape", "identifier", "doubled", "z"} - kinds == set(), kinds

    def test_prepare(self):
        """What is accepted is a sound map, and its areas are those of the program."""
        ended_with(0, self.made)
        assert "the balance adds up to the square metre" in self.made.stdout
        assert done(BUILT, "cut", self.out, self.path("cert.txt")).startswith("triangles ")
        assert done(BUILT, "check", self.out, self.path("cert.txt")).splitlines()[-1] == "yes"

    def test_year(self):
        """It is published once, and the log agrees; the next year without a parcel wants its row of lineage."""
        ended_with(0, tool("year", self.base, 2024, self.out, "--new", *ANYWAY))
        assert "the log and the register agree" in ended_with(0, tool("year", "--verify", self.base)).stdout
        after = self.path("2025")
        ended_with(0, tool("prepare", self.land, after, "--accept", "--previous", self.out))
        write("old,new\n", after, "lineage.csv")
        ended_with(0, tool("year", self.base, 2025, after, "--previous", self.out, *ANYWAY))
        assert done(BUILT, "trace", self.base, "clean1") == "clean1\n"

    def test_country(self):
        """The same source as a country of several regions: the same parcels, and a yes."""
        country = self.path("country")
        ended_with(
            0,
            tool(
                "country", "prepare", self.land, country, "--accept", "--parcels", "12", "--tables", self.path("whole")
            ),
        )
        ended_with(0, tool("country", "cut", country, "--lpis", BUILT))
        last = ended_with(0, tool("country", "check", country, "--lpis", BUILT)).stdout.splitlines()
        assert last[-1] == "yes", last
        whole, ours = (
            {row["parcel"] for row in records(folder, "parcels.csv")} for folder in (self.path("whole"), self.out)
        )
        assert whole == ours
