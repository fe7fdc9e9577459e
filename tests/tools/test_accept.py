"""Tests that accepting is not all or nothing: by kinds, by rows that somebody marked, and that an accepting run takes
up what the run before has rounded. Wants Shapely."""

import csv
import json
import os
from pathlib import Path

from lpis_helpers import dirty
from lpis_helpers.calls import records
from lpis_helpers.registers import made
from lpis_helpers.preparing_case import Case
from lpis.preparation import acceptance

KINDS = ("null", "crossing", "wide", "narrow", "twin")
TAKEN = "the borders are taken from the last run, which rounded them"


class TestAccepted(Case):
    def set_up(self):
        super().set_up()
        self.source = dirty.make(self.path("land.gpkg"), KINDS)

    def marked(self, table, is_accepted, name="reviewed.csv", header=()):
        """A copy of a table of the run, with the rows marked that are accepted."""
        with open(self.path(name), "w", newline="", encoding="utf-8") as file:
            found = records(self.out, table)
            out = csv.DictWriter(
                file,
                dict.fromkeys([*found[0], *(header or ("accepted", "who", "why"))]),
                delimiter=";",
                extrasaction="ignore",
            )
            out.writeheader()
            out.writerows(
                {
                    **row,
                    "accepted": "1" if is_accepted(row) else "",
                    "who": "E. Muster",
                    "why": "looked at in the field",
                }
                for row in found
            )
        return self.path(name)

    def last_line(self, run):
        return run.stdout.splitlines()[-1]

    def test_kinds(self):
        """Kinds that are accepted pass, and the last line names what still stops; --accept alone is all of them,
        before or behind the others."""
        every, more = "shape,invalid,overlap,gap,lost", ", and 5 that come from others"
        for words, status, told in (
            (
                [],
                1,
                (
                    "to look at: 11 (3 lost, 3 overlap, 3 gap, 1 shape, 1 invalid: shape null.2; invalid crossing.2;"
                    f" lost twin; ..){more}: mend the source, or take the tables as they are by --accept; no table is"
                    " written"
                ),
            ),
            (
                ["--accept", "shape"],
                1,
                "to look at: 10 of 11, the others are accepted (3 lost, 3 overlap, 3 gap, 1 invalid: invalid crossing.2",
            ),
            (["--accept", "shape,invalid"], 1, "to look at: 9 of 11, the others are accepted ("),
            (
                ["--accept", every.replace(",lost", "")],
                1,
                f"to look at: 3 of 11, the others are accepted (lost twin; lost twin.1; lost twin.2){more}",
            ),
            (["--accept", every], 0, f"to look at: 11, accepted{more}"),
            (["--accept", f"{every},changed"], 0, f"to look at: 11, accepted{more}"),
            (["--accept"], 0, f"to look at: 11, accepted{more}"),
            ([f"--accept={every}"], 0, f"to look at: 11, accepted{more}"),
        ):
            run = self.run_on(self.source, *words)
            assert (run.returncode, told in self.last_line(run)) == (status, True), (
                words,
                self.last_line(run),
                run.stderr,
            )
            assert ("no table is written" in self.last_line(run)) == bool(status)
        assert "left out" in [row["kind"] for row in records(self.out, "report.csv")]
        for given, wanted in (
            (["--accept", "LAND", "OUT"], ["--accept=all", "LAND", "OUT"]),
            (["LAND", "--accept", "left-out,gap", "OUT"], ["LAND", "--accept=left-out,gap", "OUT"]),
            (["LAND", "OUT", "--accept", "--previous", "gap"], ["LAND", "OUT", "--accept=all", "--previous", "gap"]),
        ):
            assert acceptance.arguments_of(given) == wanted
        for words, told in (
            (["--accept", "gapp"], "gapp is no kind of finding. Write one of table, "),
            (["--accept=gapp"], "gapp is no kind of finding. Write one of table, "),
            (["--accept", "gap,all", "--epsg", "1"], "gap,all is no kind of finding. Write one of table, "),
            (["--accept", "--none"], "unrecognized arguments: --none"),
            (["more"], "unrecognized arguments: more"),
            (["--between", "0"], ""),
            (["--between", "nan"], ""),
            (["--between", "wide"], ""),
        ):
            run = self.run_on(self.source, *words)
            assert (run.returncode, told in run.stderr) == (64, True), (words, run.stderr)

    def test_rows(self):
        """Rows that somebody marked pass, and those alone; what comes from them goes with them."""
        more = ", and 5 that come from others"
        self.run_on(self.source)
        first, every = self.marked("findings.csv", lambda row: "twin" not in row["identifiers"]), self.marked(
            "findings.csv", lambda row: not row["comes_from"], "every.csv"
        )
        run = self.run_on(self.source, "--accept-from", first)
        assert (
            run.returncode,
            "to look at: 5 of 11, the others are accepted (3 lost, 2 overlap: " in self.last_line(run),
        ) == (1, True), (
            run.stdout + run.stderr
        )
        run = self.run_on(self.source, "--accept-from", every)
        assert (
            run.returncode,
            f"to look at: 3 of 11, the others are accepted (lost twin; lost twin.1; lost twin.2){more}"
            in self.last_line(run),
        ) == (1, True), (
            run.stdout + run.stderr
        )
        second = self.marked(
            "report.csv",
            lambda row: row["stops"] == "1" and (row["kind"], row["identifiers"]) != ("lost", "twin"),
            "second.csv",
        )
        run = self.run_on(self.source, "--accept-from", every, "--accept-from", second)
        assert (
            run.returncode,
            f"to look at: 1 of 11, the others are accepted (lost twin){more}: mend the source" in self.last_line(run),
        ) == (1, True), self.last_line(run)
        run = self.run_on(self.source, "--accept-from", every, "--accept-from", second, "--accept", "lost")
        assert (run.returncode, self.last_line(run)) == (0, f"to look at: 11, accepted{more}"), run.stdout + run.stderr

    def test_another_land(self):
        """A mark is for the row that was looked at: where its area or its place is another it stops again."""
        self.run_on(self.source)
        marked = self.marked("findings.csv", lambda row: True)
        made(
            self.source,
            "UPDATE covers SET geom = (SELECT geom FROM covers WHERE piece = 'wide-2.2') WHERE piece = 'wide-2.1'",
        )
        run = self.run_on(self.source, "--accept-from", marked)
        told = "to look at: 4 of 14, the others are accepted (2 overlap, 1 lost, 1 gap: lost wide-2.2; "
        assert (run.returncode, told in self.last_line(run)) == (1, True), run.stdout + run.stderr
        assert [
            (row["kind"], row["layer"], row["identifiers"])
            for row in records(self.out, "findings.csv")
            if row["state"] in ("open", "new") and row["kind"] != "changed"
        ] == [
            ("overlap", "covers", "wide-2.1 wide-2.2"),
            ("lost", "covers", "wide-2.2"),
            ("overlap", "parcels", "wide-2"),
            ("gap", "parcels", "wide-2"),
        ]

    def test_tables_that_are_none(self):
        self.run_on(self.source)
        copy = self.marked("prepared.csv", lambda row: True, header=("who",))
        Path(self.path("yes.csv")).write_text(
            "kind,layer,row,identifier,area_m2,x,y,words,place,accepted\nshape,covers,10,null.2,,,,,,yes\n",
            encoding="ascii",
        )
        Path(self.path("size.csv")).write_text(
            "kind,layer,row,identifier,area_m2,x,y,words,place,accepted\nshape,covers,10,null.2,1_0,,,,,1\n",
            encoding="ascii",
        )
        for path, words in (
            (copy, "no column accepted: it is no copy of findings.csv, prepared.csv or report.csv"),
            (self.path("yes.csv"), "accepted is 'yes', and not 1, 0 or empty"),
            (self.path("size.csv"), "'1_0' is no number, in a row that is accepted"),
            (self.path("none.csv"), "none.csv"),
        ):
            run = self.run_on(self.source, "--accept-from", path)
            assert (run.returncode, words in run.stderr, "Traceback" in run.stderr) == (64, True, False), run.stderr


class TestAgain(Case):
    def test_taken_up(self):
        """A run that accepts takes up the borders of the run before, and has the tables of one that rounds; where
        what was kept is another it rounds; what else is in the source's file, and another width between parcels, are
        none of it."""
        source = dirty.make(self.path("land.gpkg"), KINDS)
        assert self.run_on(source, "--accept").returncode == 0
        wanted = {name: self.bytes_of(name) for name in ("parcels.csv", "covers.csv", "report.csv", "balance.csv")}
        assert ".cells" not in os.listdir(self.out)
        for change, words, is_taken in (
            (lambda: None, [], True),
            (self.add_note, [], True),
            (self.change_tables, [], False),
            (lambda: None, ["--between", "2"], True),
        ):
            assert self.run_on(source).returncode == 1
            change()
            run = self.run_on(source, "--accept", *words)
            assert (run.returncode, TAKEN in run.stderr) == (0, is_taken), run.stderr
            assert {name: self.bytes_of(name) for name in wanted} == wanted
            assert ".cells" not in os.listdir(self.out)

    def bytes_of(self, name):
        return Path(self.out, name).read_bytes()

    def add_note(self):
        made(self.path("land.gpkg"), "CREATE TABLE note (text TEXT)")

    def change_tables(self):
        """Of a cell the first row has the text of the last."""
        for path in Path(self.out, ".cells").glob("*.jsonl"):
            lines = [json.loads(line) for line in path.read_text(encoding="utf-8").splitlines()]
            rows = [line for line in lines if line[0] == "piece"]
            if rows:
                rows[0][2] = rows[-1][2]
                path.write_text("".join(json.dumps(line) + "\n" for line in lines), encoding="utf-8")
