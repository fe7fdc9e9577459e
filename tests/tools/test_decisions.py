"""Tests that who accepted what, and why, is kept: in findings.csv and the tables of marks beside it, on the page, in
the log of a year, and that an accepted row whose table is not there is found."""

import csv
import json
import os
import shutil

import pytest
from lpis_helpers import dirty
from lpis_helpers.calls import ended_with, records, run, tool
from lpis_helpers.places import BUILT
from lpis_helpers.spare import Spare, read, write
from lpis.lineage import accepted_changes, year_comparison
from lpis.preparation import acceptance, decisions, origin
from lpis.register import ledger
from lpis.system import shapely_there
from lpis.preparation.finding_rows import Finding

if shapely_there.is_there():
    from lpis.preparation import live_findings

MORE = {"who": "Ada Muster", "why": "seen on paper, page 7", "when": "2026-03-01", "Ticket": "=T-12"}


def sha256(*path):
    return run("sha256sum", os.path.join(*path)).stdout.split()[0]


def marked(path, rows, is_taken, more):
    """A copy of a table in which some rows are accepted, with further columns."""
    with open(path, "w", newline="", encoding="utf-8") as file:
        table = csv.DictWriter(file, dict.fromkeys([*rows[0], "accepted", *more]))
        table.writeheader()
        table.writerows({**row, "accepted": "1", **more} if is_taken(row) else {**row, "accepted": ""} for row in rows)
    return path


@pytest.mark.skipif(not shapely_there.is_there(), reason=shapely_there.LACKING)
class TestTables(Spare):
    def set_up(self):
        self.found = [
            Finding("gap", "parcels", 3, name, "a gap", "settled", area=1.5, place=(1.0, 2.0)) for name in "abc"
        ]

    def accepting(self, kinds=None, *names):
        write(
            "kind,layer,row,identifier,area_m2,x,y,words,place,accepted,who,Note\n"
            + "".join(f"gap,parcels,3,{name},1.5,1,2,a gap,,1,{who},'=2\n" for name, who in zip("ab", ("Ada", ""))),
            self.folder,
            "m.csv",
        )
        return acceptance.Accepting(kinds, [self.path(name) for name in names])

    def write_found(self, found, accept):
        """findings.csv of a run that found this."""
        table = live_findings.Table(self.folder, self.folder, None, accept, print)
        table.take(found)
        table.write()

    def test_rows(self):
        """Open, accepted by somebody, by a table that names nobody, by an option, and for what it comes of."""
        accept = self.accepting(frozenset(["shape"]), "m.csv")
        found = [*self.found, *(Finding(kind, "covers", 1, "x", "words", "done") for kind in ("shape", "made"))]
        self.write_found(found, accept)
        digest = sha256(self.folder, "m.csv")
        rows = list(decisions.records(self.folder))
        assert [
            (row["state"], row["accepted_by"], row["file"], row["sha256"], row["who"], row["note"]) for row in rows
        ] == [
            ("accepted", "Ada", "m.csv", digest, "Ada", "=2"),
            ("accepted", "m.csv", "m.csv", digest, "", "=2"),
            ("open", "", "", "", "", ""),
            ("accepted", "--accept", "", "", "", ""),
            ("accepted", "its cause", "", "", "", ""),
        ]
        assert ",'=2," in read(self.folder, "findings.csv")  # no formula of a spreadsheet
        assert sha256(self.folder, decisions.name_of(digest)) == digest
        assert (
            decisions.in_words(decisions.counts(self.folder))
            == "accepted by Ada: 1, by m.csv: 1, by --accept: 1, with its cause: 1"
        )
        assert (decisions.faults_of(self.folder, {}), decisions.left_over(self.folder)) == ([], [])
        write("other", self.folder, decisions.name_of(digest))
        told = decisions.faults_of(self.folder, {"findings.csv": sha256(self.folder, "findings.csv")})
        assert [line.split(": ", 1)[1].split(",")[0] for line in told] == [
            "gap a was accepted by Ada",
            "gap b was accepted by m.csv",
        ]
        assert all(f"(m.csv, sha256 {digest})" in line for line in told)

    def test_a_mark_before_an_option(self):
        accept = self.accepting(frozenset(acceptance.KINDS), "m.csv")
        assert [accept.decision(one).by for one in self.found] == ["Ada", "m.csv", "--accept"]
        assert [self.accepting(None, "m.csv").decision(one) is None for one in self.found] == [False, False, True]

    def test_a_forged_row(self):
        """A row that is accepted by a name, and has no table, is named."""
        write(
            "kind,identifiers,state,accepted_by,file,sha256\ngap,a,accepted,Ada,,\ngap,b,accepted,--accept,,\n",
            self.folder,
            "findings.csv",
        )
        (told,) = decisions.faults_of(self.folder, {})
        assert (
            "findings.csv row 1: gap a was accepted by Ada, and the table that says so is not there (no file, sha256"
            " none)" in told
        )
        write("kind,state,accepted_by,sha256\n" + "gap,accepted,Ada,0\n" * 30, self.folder, "findings.csv")
        told = decisions.faults_of(self.folder, {"findings.csv": "0", "accepted-000000000000.csv": "0"})
        assert (
            len(told),
            "findings.csv changed since" in told[0],
            "accepted-000000000000.csv is gone" in told[1],
            "and 10 more rows" in told[-1],
        ) == (23, True, True, True)

    def test_changes(self):
        """Changes since last year stand behind the findings, those of the last comparison alone."""
        self.write_found(self.found[:1], acceptance.Accepting(None))
        rows = [year_comparison.Row("area", "parcel", name, 10.0, 20.0) for name in "ab"]
        write(
            "kind,of,identifier,before,after,accepted,who,why\narea,parcel,a,10.000,20.000,1,Bo,new survey\n",
            self.folder,
            "r.csv",
        )
        for _ in range(2):
            decisions.add_changes(self.folder, rows, accepted_changes.Marks([self.path("r.csv")]))
        first, second = decisions.records(self.folder)
        assert (
            first["kind"],
            first["state"],
            second["kind"],
            second["layer"],
            second["identifiers"],
            second["accepted_by"],
            second["why"],
        ) == ("gap", "open", "area", decisions.CHANGE, "parcel a", "Bo", "new survey")
        assert decisions.faults_of(self.folder, {}) == []
        decisions.add_changes(self.folder, rows, accepted_changes.Marks([]))
        assert len(list(decisions.records(self.folder))) == 1
        assert decisions.left_over(self.folder) == [decisions.name_of(sha256(self.folder, "r.csv"))]


@pytest.mark.skipif(not shapely_there.python(), reason=shapely_there.LACKING)
class TestRuns(Spare):
    def test_a_release(self):
        """A copy of findings.csv with marks: every column is kept, and the rest is told as --accept's; a year has
        all of it in its log, and --verify reads it."""
        land, out, base, marks = (
            dirty.make(self.path("land.gpkg"), dirty.ALL),
            self.path("out"),
            self.path("lpis.db"),
            self.path("read.csv"),
        )
        ended_with(1, tool("prepare", land, out, "--quiet"))
        rows = records(out, "findings.csv")
        assert {row["state"] for row in rows} == {"open", "told"}
        kinds = {"overlap", "gap", "doubled"}
        marked(marks, rows, lambda row: row["kind"] in kinds, MORE)
        ended_with(0, tool("prepare", land, out, "--quiet", "--accept-from", marks, "--accept"))
        found = [row for row in decisions.records(out) if row["state"] != "told"]
        mine = [row for row in found if row["accepted_by"] == "Ada Muster"]
        assert {row["kind"] for row in mine} == kinds
        assert all(
            (row["why"], row["when"], row["ticket"], row["file"])
            == (MORE["why"], MORE["when"], MORE["Ticket"], "read.csv")
            for row in mine
        )
        theirs = [row for row in found if row["accepted_by"] == decisions.BY_OPTION]
        told = (
            f"accepted by Ada Muster: {len(mine)}, by --accept: {len(theirs)}"
            + (
                f", with its cause: {len(found) - len(mine) - len(theirs)}"
                if len(found) > len(mine) + len(theirs)
                else ""
            )
            + "; "
        )
        assert origin.lines(origin.facts(out, None))[-1].startswith(told)
        assert {row["state"] for row in found} == {"accepted"}
        kept = decisions.name_of(sha256(marks))
        assert read(out, kept) == read(marks)
        if not BUILT:
            return
        ended_with(0, tool("year", base, 2025, out, "--new", "--lpis", BUILT))
        assert told in read(out, "report-2025.html")
        entry = json.loads(ledger.lines_of(base)[0])
        assert (entry["accepted"], entry["decisions"]) == (
            {"Ada Muster": len(mine), "--accept": len(found) - len(mine)},
            {name: sha256(out, name) for name in ("findings.csv", kept)},
        )
        ended_with(0, tool("year", "--verify", base))
        os.rename(os.path.join(out, kept), self.path("kept"))
        ended = ended_with(1, tool("year", "--verify", base))
        assert (
            f"row {found.index(mine[0]) + 1}: {mine[0]['kind']} {mine[0]['identifiers']} was accepted by Ada Muster,"
            " and the table that says so is not there" in ended.stdout
        )
        os.rename(self.path("kept"), os.path.join(out, kept))
        write(read(out, "findings.csv").replace("Ada Muster", "Eve"), out, "findings.csv")
        assert (
            "findings.csv changed since: it says who accepted what"
            in ended_with(1, tool("year", "--verify", base)).stdout
        )
        os.rename(out, self.path("elsewhere"))
        assert (
            f"{out} is not there: who accepted what in 2025 cannot be looked at"
            in ended_with(1, tool("year", "--verify", base)).stdout
        )

    @pytest.mark.skipif(not BUILT, reason="the program is not built")
    def test_a_country(self):
        """A year's folder has them, and keeps them when the country goes on."""
        land, out, base, marks = (
            dirty.make(self.path("land.gpkg"), ["wide"]),
            self.path("country"),
            self.path("lpis.db"),
            self.path("read.csv"),
        )
        ended_with(1, tool("country", "prepare", land, out, "--quiet", "--workers", 1))
        marked(marks, records(out, "findings.csv"), lambda row: row["kind"] == "overlap", MORE)
        ended_with(
            0, tool("country", "prepare", land, out, "--quiet", "--workers", 1, "--accept-from", marks, "--accept")
        )
        ended_with(0, tool("country", "publish", base, 2025, out, "--new", "--quiet", "--lpis", BUILT))
        year = os.path.join(out, "years", "2025")
        assert [row["accepted_by"] for row in decisions.records(year) if row["kind"] == "overlap"] == ["Ada Muster"]
        assert "accepted by Ada Muster: 1" in tool("report", year, "--lpis", BUILT).stdout
        ended_with(0, tool("country", "prepare", land, out, "--quiet", "--workers", 1, "--accept"))
        assert not os.path.exists(os.path.join(out, decisions.name_of(sha256(marks))))  # no row names it any more
        ended_with(0, tool("year", "--verify", base))
        shutil.rmtree(os.path.join(out, ".cells"))
        os.remove(os.path.join(year, decisions.name_of(sha256(marks))))
        assert (
            "was accepted by Ada Muster, and the table that says so is not there"
            in ended_with(1, tool("year", "--verify", base)).stdout
        )
