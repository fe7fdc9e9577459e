"""Tests how tools/country deals out a table of lineage, and publishes a country year after year, over
examples/country-years. Publishing wants the program, built or named by LPIS."""

import json
import os
import re
import shutil
import types
from unittest import mock

import pytest
from lpis_helpers.registers import made, rows
from lpis_helpers.calls import ended_with, tool
from lpis_helpers.places import BUILT, TOP
from lpis_helpers.spare import Spare, read, write
from lpis.country import region_split, tile_cuts
from lpis.formats import table_streams
from lpis.register import ledger
from lpis.report import country_report, finding_views
from lpis.system import files, progress

YEARS = os.path.join(TOP, "examples", "country-years")
REGIONS = ["west", "southeast", "northeast"]
MOST = tile_cuts.Most(60_000, 190_000, 1_900_000)


def run(*words):
    return tool(*words, env={**os.environ, "LPIS": BUILT or "false"})


class Case(Spare):
    prefix = "country of "

    def set_up(self):
        self.source, self.out, self.base = self.path("source"), self.path("country"), self.path("lpis.db")
        shutil.copytree(os.path.join(YEARS, "2025"), self.source)
        os.makedirs(self.out)
        shutil.copy(os.path.join(YEARS, "country.txt"), self.out)

    def lineage(self):
        return [read(self.out, region, "lineage.csv") for region in REGIONS]

    def split(self, source, *options):
        ended = ended_with(0, run("country", "split", source, self.out, *options))
        return ended.stdout.splitlines()[-1].split()


class TestLineage(Case):
    def test_dealt(self):
        """In the order of the source, with its header; the tables of the other regions have the header alone."""
        told = self.split(self.source)
        whole = read(self.source, "lineage.csv")
        assert self.lineage() == [whole, "old,new,exact\n", "old,new,exact\n"]
        assert told[told.index("lineage") + 1] == "7"
        told = self.split(self.source)
        assert told[told.index("changed") + 1] == "0"

    def test_most_rows(self, monkeypatch):
        """As many rows to each table as it may have."""
        head, *rows = read(self.source, "lineage.csv").splitlines(keepends=True)
        for most, wanted in (
            (3, [rows[:3], rows[3:6], rows[6:]]),
            (4, [rows[:4], rows[4:], []]),
            (7, [rows, [], []]),
            (6, [rows[:6], rows[6:], []]),
        ):
            monkeypatch.setattr(region_split, "MOST_ROWS", most)
            region_split.split(table_streams.Folder(self.source), self.out, MOST, False, lambda words: None)
            assert self.lineage() == [head + "".join(part) for part in wanted]
        region_split.MOST_ROWS = 2
        before = self.lineage()
        with pytest.raises(table_streams.Trouble, match="2 rows for each region are too few"):
            region_split.split(table_streams.Folder(self.source), self.out, MOST, False, lambda words: None)
        assert self.lineage() == before
        assert [name for name in os.listdir(self.out) if name.startswith(".")] == []

    def test_none(self):
        os.remove(os.path.join(self.source, "lineage.csv"))
        assert "lineage 0" in " ".join(self.split(self.source))
        assert self.lineage() == ["old,new\n"] * 3

    def test_another_file(self):
        """Columns in any order, further ones, a byte order mark, and a last row without its line end."""
        write("\ufeffnote,New,OLD\na,b,c", self.folder, "rows.csv")
        self.split(self.source, "--lineage", self.path("rows.csv"))
        assert self.lineage() == ["note,New,OLD\na,b,c\n", "note,New,OLD\n", "note,New,OLD\n"]

    def test_wrong(self):
        self.split(self.source)
        before = self.lineage()
        for text, words in (
            ("old,next\n", "no column new"),
            ("old,new\na,b,c\n", "row 1: 3 fields"),
            ("old,new,new\n", "two columns new"),
        ):
            write(text, self.source, "lineage.csv")
            ended = run("country", "split", self.source, self.out)
            assert (ended.returncode, words in ended.stdout, self.lineage()) == (1, True, before), ended.stdout
        ended = run("country", "split", self.source, self.out, "--lineage", self.path("none.csv"))
        assert (ended.returncode, self.lineage()) == (64, before), ended.stderr


@pytest.mark.skipif(not BUILT, reason="the program is not built")
class TestPublishing(Case):
    def publish(self, year, *options):
        """The example's years differ by a tenth of their land, which is no matter here."""
        return run("country", "publish", self.base, year, self.out, "--jump", "100", *options)

    def first(self):
        self.split(os.path.join(YEARS, "2024"))
        ended = ended_with(0, self.publish(2024, "--new"))
        return ended

    def refused(self, year, status, *words, options=()):
        """Nothing is published, and these words are said."""
        before = ledger.content_of(self.base) if os.path.exists(self.base) else None
        lines = len(ledger.lines_of(self.base))
        ended = ended_with(status, self.publish(year, *options))
        for word in words:
            assert word in ended.stdout + ended.stderr
        assert (
            ledger.content_of(self.base) if os.path.exists(self.base) else None,
            len(ledger.lines_of(self.base)),
        ) == (before, lines)

    def test_two_years(self):
        told = self.first().stdout
        assert "the counts and the area are those of the source: parcels 7 pieces 8 area 10800.0000000\n" in told
        assert (
            "country regions 3 parcels 7 pieces 8 area 10800.0000000 eligible 8277.000000000\nyes\npublished 2024\n"
            in told
        )
        assert not os.path.exists(os.path.join(self.out, "exact.txt"))
        before = [
            read(self.out, *name)
            for name in (("west", "parcels.csv"), ("country.txt",), ("west", "cert.txt"), ("published-2024.txt",))
        ]
        self.split(self.source, "--lineage", os.path.join(YEARS, "2024", "lineage.csv"))
        ended = ended_with(0, self.publish(2025, "--lineage", os.path.join(self.source, "lineage.csv")))
        assert [
            read(self.out, "years", "2024", *name)
            for name in (("west", "parcels.csv"), ("country.txt",), ("west", "cert.txt"), ("published-2024.txt",))
        ] == before
        assert [read(self.out, "years", year, "log.json") for year in ("2024", "2025")] == [
            line.decode() + "\n" for line in ledger.lines_of(self.base)
        ]
        assert [os.path.exists(self.path("country", "years", year, "exact.txt")) for year in ("2024", "2025")] == [
            False,
            True,
        ]
        assert run("report", os.path.join(self.out, "years", "2024")).stdout.splitlines()[0] == "yes"
        text = read(self.out, "published-2025.txt")
        assert (
            "".join(line for line in text.splitlines(keepends=True) if not line.startswith("lineage ")) in ended.stdout
        )
        assert "\nlineage " not in ended.stdout
        assert (
            f"dropped identifiers, a line each in {self.path('country', 'published-2025.txt')}: 1 ended, 1 merged"
            " exact, 1 replaced, 1 split, 1 split exact\n" in ended.stdout
        )
        assert text.splitlines()[-6:] == [
            "lineage croft ended",
            "lineage ford split exact",
            "lineage heath replaced",
            "lineage mill merged exact",
            "lineage weir split",
            "published 2025",
        ]
        assert "exact 2\n" in ended.stdout
        assert os.path.exists(f"{self.base}.before-2025")
        assert rows(self.base, "SELECT year FROM lpis_release ORDER BY year") == [(2024,), (2025,)]
        assert rows(self.base, "SELECT pos FROM lpis_mark") == [(0,), (1,), (2,)]
        assert run("year", "--verify", self.base).stdout == f"{self.base}: 2 lines, the log and the register agree\n"
        assert (
            run("report", self.out, "--register", self.base).stdout.splitlines()[-1]
            == "register 2 years (2024 to 2025), 7 live identifiers of 12, 7 shapes"
        )

    def test_changes(self):
        """The report of a year says what was accepted and what changed since another, in all and by tiles."""
        self.first()
        self.split(self.source)
        assert self.publish(2025).returncode == 0
        write(
            (
                "kind,layer,row,identifier,area_m2,x,y,words,done\nz,parcels,1,ford,,10.000,10.000,,\nshape,parcels,2,x,,,,its"  # noqa: E501
                " shape is NULL,\nshape,parcels,3,y,,,,it is empty,\n"
            ),
            self.out,
            "prepared.csv",
        )
        write(
            (
                "kind,layer,row,identifiers,width_m,area_m2,x,y,stops,words\ngap,parcels,1,ford,1,4.5,10.000,10.000,1,\ngap,parcels,1,ford,1,4.5,10.000,10.000,0,\nleft"  # noqa: E501
                " out,parcels,2,x,,0,,,1,\nlost,parcels,9,z,,0,,,1,no more\n"
            ),
            self.out,
            "report.csv",
        )
        ended = run(
            "report",
            self.out,
            "--diff",
            os.path.join(self.out, "years", "2024"),
            "--jump",
            "100",
            "--json",
            self.path("r.json"),
            "--html",
            self.path("r.html"),
        )
        told = json.loads(read(self.folder, "r.json"))
        found, rows = told["difference"], told["regions"]
        assert (ended.returncode, [row["parcel"] for row in found["gone"]], found["gone"][0]["ended"]) == (
            0,
            ["croft", "ford", "heath", "mill", "weir"],
            True,
        ), (
            ended.stdout + ended.stderr
        )
        assert {kind: sum(row[kind] for row in rows) for kind in ("new", "gone", "changed")} == {
            kind: len(found[kind]) for kind in ("new", "gone", "changed")
        }
        assert [sum(row[kind] for row in rows) for kind in ("findings", "accepted")] == [1, 1]
        assert (
            "findings in no region, since these rows have no place: 2: 2 shape (such as: its shape is NULL)\n"
            in ended.stdout
        )
        assert (
            "accepted in no region, since these rows have no place: 2: 1 lost (such as: no more), 1 shape (such as: its"
            " shape is NULL)\n" in ended.stdout
        )
        assert re.search(r"region west parcels .*\) findings 1 accepted 1 new \d+ gone \d+", ended.stdout)
        assert f"since {os.path.join(self.out, 'years', '2024')}: new {len(found['new'])} gone 5" in ended.stdout
        html = read(self.folder, "r.html")
        assert "<td>croft</td>" in html
        since = html.split("<h2>Since ")[1].split("</thead>")[0]
        for kind, columns in (("new", ["area"]), ("gone", ["area"])):
            assert (
                f"{len(found[kind])} {kind}, {sum(float(row[columns[0]]) for row in found[kind]) / 10000:.4f} ha"
                in since
            )
        assert "in all" not in since

    def test_marks(self):
        """What was settled or left out and has a place alone is on the map of a country, where its row shows it."""
        picture = finding_views.Picture(
            [finding_views.Found("shape", "parcels", "1", "x", "no shape", finding_views.ACCEPTED, place=(1.0, 2.0))]
        )
        tiling = types.SimpleNamespace(boxes=list)
        chart = country_report.chart_of(country_report.Country({"regions": [], "answer": "yes"}, tiling, {}, picture))
        assert (chart.marks, picture.keys, chart.of_mark) == (
            [(1000.0, 2000.0, "shape x: no shape")],
            [("marks", 0)],
            finding_views.PLACE,
        )

    def test_progress(self):
        """Each step of a report and of what publish does behind the program counts what passes by, to the last byte
        or row."""
        steps = []

        class Bytes(progress.Bytes):
            def __init__(self, tool, what, size, **more):
                super().__init__(tool, what, size, **more)
                self.size = size
                steps.append(self)

        self.first()
        year = self.path("country", "years", "2024")
        with mock.patch.object(progress, "Bytes", Bytes):
            country_report.make([BUILT], year, None, year)
            digests = ledger.digests_of(
                {name: os.path.join(year, name) for name in ("west/parcels.csv", "country.txt")}, "digests of the copy"
            )
        assert digests == {name: files.digest(os.path.join(year, name)) for name in digests}
        assert [step.what for step in steps] == [
            "digests",
            "checking the country",
            "digests",
            "reading the parcels",
            "digests of the copy",
        ]
        assert all(step.bytes == step.size for step in steps if step.what.startswith("digests"))
        assert 0 < steps[3].bytes <= steps[3].size
        with mock.patch.object(progress, "Progress") as shown:
            ledger.content_of(self.base)
        (_, what, count, _), added = shown.call_args[0], sum(
            call[0][0] for call in shown.return_value.add.call_args_list
        )
        assert (what, count > 10, added) == ("reading the register", True, count)

    def test_a_release_after_it(self):
        """tools/year goes on with the same register and its log."""
        self.first()
        ended = run("year", self.base, 2025, self.source, "--jump", "100")
        assert (ended.returncode, "published 2025, in" in ended.stdout) == (0, True), ended.stdout + ended.stderr
        assert len(ledger.lines_of(self.base)) == 2

    def test_what_it_stops_at(self):
        self.split(os.path.join(YEARS, "2024"))
        self.refused(2024, 1, "a first year needs --new")
        write("", self.out, "years")
        self.refused(2024, 64, "years", options=["--new"])
        os.remove(self.path("country", "years"))
        os.makedirs(self.path("country", "years", "2024"))
        self.refused(2024, 1, "move it away first; nothing was published", options=["--new"])
        os.rmdir(self.path("country", "years", "2024"))
        self.first()
        assert os.listdir(self.path("country", "years")) == ["2024"]
        self.refused(2024, 1, "without --new", options=["--new"])
        # as of a run that was killed behind its publication
        os.rename(self.path("country", "years", "2024"), self.path("country", "years", ".2024.new"))
        self.refused(2024, 1, f"that is to be {self.path('country', 'years', '2024')}")
        os.rename(self.path("country", "years", ".2024.new"), self.path("country", "years", "2024"))
        self.refused(2029, 1, "--year-anyway where that is meant")
        self.refused(2025, 1, "byte for byte, those that were published in 2024")
        self.split(self.source)
        self.refused(2025, 64, "none.csv", options=["--lineage", self.path("none.csv")])
        counts = read(self.out, "split.txt")
        write(counts.replace("pieces 9", "pieces 8"), self.out, "split.txt")
        self.refused(2025, 1, "the source had parcels 7 pieces 8", "nothing was published")
        write("", self.out, "split.txt")
        self.refused(2025, 1, "nothing was compared with a source", "nothing was published")
        os.remove(os.path.join(self.out, "split.txt"))
        self.refused(
            2025, 1, "nothing was compared with a source", os.path.join(self.out, "split.txt"), "nothing was published"
        )
        write(counts, self.out, "split.txt")
        os.remove(os.path.join(self.out, "west", "lineage.csv"))
        self.refused(2025, 64, "lineage.csv is not there")
        for number, (old, new, words) in enumerate(
            (
                ("croft,,\n", "", ["refused 81 lineage 75 croft\n", "code 75"]),
                (
                    "ford-2,1",
                    "ford-2,",
                    [
                        "refused 81 lineage 78 row 1 region west\n",
                        "row 2 (region west): ford became ford-2, not marked",
                    ],
                ),
                (
                    "weir-1,\nweir,weir-2,\n",
                    "weir-1,1\nweir,weir-2,1\n",
                    ["refused 45 exact weir\n", "0.3000000 m2 less than the whole"],
                ),
            )
        ):
            write(read(self.source, "lineage.csv").replace(old, new), self.folder, f"rows{number}.csv")
            self.split(self.source, "--lineage", self.path(f"rows{number}.csv"))
            self.refused(2025, 1, *words, "nothing was published")
        self.split(self.source)
        made(self.base, "UPDATE lpis_text SET wkt = replace(wkt, '.000', '.00') WHERE id = 'hill'")
        self.refused(2025, 1, "lpis_text changed since")
        assert self.publish(2025, "--register-anyway").returncode == 0

    def test_a_region_that_is_refused(self):
        self.first()
        self.split(self.source)
        path = os.path.join(self.out, "southeast", "covers.csv")
        write(read(path).replace("60 0,80 0,80 30,60 30", "60 0,81 0,81 30,60 30"), path)
        self.refused(2025, 1, "region southeast: refused 4")
