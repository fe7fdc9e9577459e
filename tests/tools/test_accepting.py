"""Tests that an accepted row is that row: a mark holds for what lies in the polygons that were marked, with a
millimetre about them, whatever its row is called now, and through a spreadsheet; and for nothing else. Wants
Shapely."""

import csv

import pytest
from lpis_helpers import dirty
from lpis_helpers.calls import ended_with, records
from lpis_helpers.preparing_case import Case, ring
from lpis_helpers.spare import Spare
from lpis.formats import wkb
from lpis.preparation import acceptance, outlines
from lpis.system import shapely_there
from lpis.preparation.finding_rows import COLUMNS, Finding
from lpis.system.trouble import Trouble

if shapely_there.is_there():
    from lpis.preparation import loss_report
    from lpis.preparation.conflicts import Loss, members_of
    from shapely.affinity import translate
    from shapely.geometry import Point, Polygon, box

EAST, NORTH = dirty.EAST, dirty.NORTH


def place(left=0.0, low=0.0, right=5.0, high=5.0):
    return box(EAST + left, NORTH + low, EAST + right, NORTH + high)


def overlap(shape, rows=(1, 2), names=("1", "2"), kind="overlap", words="both pieces have this place"):
    return Loss(kind, list(names), words, shape, 1.0, shape.area, "covers", list(rows))


def finding(kind, shape, words, row=3, name="1"):
    blob = shape and wkb.written(members_of(shape))
    area, at = (shape.area, (shape.centroid.x, shape.centroid.y)) if shape else (None, None)
    return Finding(kind, "covers", row, name, words, "left out", False, area, at, "fid", blob)


@pytest.mark.skipif(not shapely_there.python(), reason=shapely_there.LACKING)
class TestMarks(Spare):
    def marked(self, *found, change=lambda row: row, **form):
        """What accepts rows that were marked in a copy of a table."""
        path = self.path("marked.csv")
        columns, rows = COLUMNS, [
            dict(zip(COLUMNS, one.record(acceptance.Accepting(None)))) for one in found if isinstance(one, Finding)
        ]
        if not rows:
            loss_report.write_rows(found, path)
            columns, rows = loss_report.COLUMNS, records(path)
        with open(
            path,
            "w",
            newline="",
            **{"encoding": "utf-8", **{key: form.pop(key) for key in ("encoding",) if key in form}},
        ) as file:
            out = csv.DictWriter(file, [*columns, "accepted", "who"], **form)
            out.writeheader()
            out.writerows(
                {
                    key: value
                    for key, value in change({**row, "accepted": "1", "who": "E. Muster"}).items()
                    if key in out.fieldnames
                }
                for row in rows
            )
        return acceptance.Accepting(None, [path])

    def test_place(self):
        """An overlap of 25 square metres: itself, under other numbers of rows, a part of it, a millimetre about it;
        not more, elsewhere, or beside."""
        accept = self.marked(overlap(place()))
        for shape, is_taken in (
            (place(), True),
            (place(1, 1, 4, 4), True),
            (place(2.5), True),
            (place(-0.0007, -0.0007, 5.0007, 5.0007), True),
            (translate(place(), 0.0005, 0.0005), True),
            (place(right=300), False),
            (place(high=5.0013), False),
            (place(left=-0.0013), False),
            (translate(place(), 0.002, 0), False),
            (place(7, 0, 8, 1), False),
            (place(4, 4, 5.5, 5), False),
            (place().union(place(7, 0, 7.1, 0.1)), False),
        ):
            for rows in ((1, 2), (17, 4)):
                assert accept.takes(overlap(shape, rows)) == is_taken, (shape.wkt, rows)
        assert not accept.takes(overlap(place(), names=("1", "3")))
        assert not accept.takes(overlap(place(), kind="outside"))
        assert accept.takes(overlap(place(), words="both pieces have this place: 1 of parcel A has it in the tables"))

    def test_two_places(self):
        """Of two places of the same pieces the one that was marked, and both where both were."""
        one, other = place(), place(50, 0, 60, 5)
        accept = self.marked(overlap(one))
        assert [accept.takes(overlap(shape)) for shape in (one, other, one.union(other))] == [True, False, False]
        accept = self.marked(overlap(one), overlap(other))
        assert [accept.takes(overlap(shape)) for shape in (one, other)] == [True, True]

    def test_words(self):
        """Where a row's whole shape is marked, its words count too, but for sizes and numbers of rows."""
        accept = self.marked(finding("stranger", place(), "its parcel west is not there"))
        assert [
            accept.takes(finding("stranger", place(), f"its parcel {name} is not there", 9))
            for name in ("west", "east")
        ] == [True, False]
        accept = self.marked(finding("doubled", place(), "fid 15 has this identifier too, for another parcel or class"))
        assert [
            accept.takes(finding("doubled", place(), words))
            for words in (
                "fid 7 has this identifier too, for another parcel or class",
                "fid 15 has this identifier, parcel and class too",
            )
        ] == [True, False]
        for one, other, is_taken in (
            (
                "its class is 3.100 in the source and 3.200 in the tables",
                "its class is 3.100 in the source and 3.300 in the tables",
                False,
            ),
            (
                "12.000 m2 went and 0.000 m2 came, from 100.000 to 88.000 m2",
                "11.000 m2 went and 0.000 m2 came, from 99.000 to 88.000 m2",
                True,
            ),
        ):
            changed = [
                Loss("changed", ["1"], words, place(), None, 25.0, "covers", [3], True) for words in (one, other)
            ]
            assert self.marked(changed[0]).takes(changed[0])
            assert self.marked(changed[0]).takes(changed[1]) == is_taken

    def test_without_polygons(self):
        """A row without polygons is known by its kind, layer, name and words, whatever its number is now; one mark
        holds for one row, that of its number where there is one; and one with polygons is not taken for one
        without."""
        accept = self.marked(finding("shape", None, "no shape (NULL)"))
        assert accept.takes(finding("shape", None, "no shape (NULL)", 1_000_003))
        accept = self.marked(finding("shape", None, "no shape (NULL)"))
        several = [finding("shape", None, "no shape (NULL)", number) for number in (2, 3, 4)]
        accept.bind(several)
        assert [accept.takes(one) for one in several] == [False, True, False]
        accept = self.marked(*several[:2])
        later = [finding("shape", None, "no shape (NULL)", number) for number in (12, 13, 14)]
        accept.bind(later)
        accept.bind(later)
        assert [accept.takes(one) for one in later] == [True, True, False]
        accept = self.marked(finding("shape", None, "no shape (NULL)", 9, "fid-9 x"))
        assert not accept.takes(finding("shape", None, "no shape (NULL)", 9, "fid-9 y"))
        assert accept.takes(finding("shape", None, "no shape (NULL)", 19, "fid-19 x"))
        accept = self.marked(finding("shape", None, "no shape (NULL)"))
        for other, is_taken in (
            (finding("shape", None, "no shape (NULL)"), True),
            (finding("shape", None, "no shape (NULL)", 4), False),
            (finding("shape", None, "an empty shape"), False),
            (finding("shape", None, "no shape (NULL)", 3, "2"), False),
            (finding("shape", place(), "no shape (NULL)"), False),
        ):
            assert accept.takes(other) == is_taken
        assert not self.marked(finding("degrees", place(), "it lies at 9 48")).takes(
            finding("degrees", None, "it lies at 9 48")
        )

    @pytest.mark.parametrize(
        "form",
        (
            {},
            {"delimiter": ";", "encoding": "utf-16"},
            {"delimiter": "\t", "quoting": csv.QUOTE_ALL, "encoding": "utf-8-sig"},
        ),
    )
    def test_spreadsheets(self, form):
        """Other separators, letters and decimal commas; an apostrophe before what would be a formula."""
        found = [
            finding("stranger", Point(EAST, NORTH).buffer(25), "its parcel =1+2 is not there", name="=1+2"),
            finding("shape", None, "=SUM(1)", name="@a"),
        ]
        accept = self.marked(
            *found,
            change=lambda row: {
                key: value.replace(".", ",") if key in ("area_m2", "x", "y") else value for key, value in row.items()
            },
            **form,
        )
        assert all(map(accept.takes, found))

    def test_long_outlines(self):
        """What a spreadsheet's cell has no room for is known by its digest: the same place alone."""
        shape = Polygon(
            [(EAST + x, NORTH + (x % 2) * 9 + 1) for x in range(9000)] + [(EAST + 8999, NORTH), (EAST, NORTH)]
        )
        accept = self.marked(overlap(shape))
        assert len(records(self.path("marked.csv"))[0]["place"]) < 100
        assert (accept.takes(overlap(shape)), accept.takes(overlap(place()))) == (True, False)

    def test_refused(self):
        """A table of an earlier version, which does not say what was marked, and a place that is not as it was
        written: with what to do."""
        with pytest.raises(
            Trouble, match="no column place: it is a copy of an earlier version's table.*run again without it, and mark"
        ):
            path = self.path("old.csv")
            with open(path, "w", encoding="utf-8") as file:
                file.write(
                    "kind,layer,row,identifier,area_m2,x,y,words,accepted\noverlap,covers,1 2,1"
                    " 2,25.000,1.000,1.000,,1\n"
                )
            acceptance.Accepting(None, [path])
        for change in (
            lambda text: text[:-1],
            lambda text: text + "A",
            lambda text: text.lower(),
            lambda text: "1",
            lambda text: "d" + text,
        ):
            with pytest.raises(
                Trouble,
                match=r"marked.csv row 1: its place is not as it was written: take the row from the table again",
            ):
                self.marked(overlap(place()), change=lambda row, change=change: {**row, "place": change(row["place"])})

    def test_far(self):
        """Coordinates of any size have a text."""
        members = [[[(-1e300, 3.0), (1e17, 4.0), (5.0, 6.5), (-1e300, 3.0)]]]
        assert outlines.members_of(outlines.text_of(wkb.written(members))) == members


class TestRun(Case):
    def test_grown(self):
        """A source whose marked overlap is as it was under other numbers passes; where it grew, or another one came,
        it stops."""
        whole = [("A", f"POLYGON(({ring(0, 0)}))"), ("B", f"POLYGON(({ring(10, 0)}))")]
        first, *_ = pieces = [
            ("1", "A", "GRASS", f"POLYGON(({ring(0, 0, 12)}))"),
            ("2", "B", "GRASS", f"POLYGON(({ring(10, 0)}))"),
        ]
        self.tables(whole, pieces)
        ended_with(1, self.run_on(self.sheets))
        with open(self.path("marked.csv"), "w", newline="", encoding="utf-8") as file:
            found = records(self.out, "report.csv")
            out = csv.DictWriter(file, [*found[0], "accepted"])
            out.writeheader()
            out.writerows({**row, "accepted": "1"} for row in found)
        words = ["--accept-from", self.path("marked.csv"), "--accept", "changed"]
        for covers, told in (
            (pieces[::-1], "to look at: 1, accepted, and 4 that come from others"),
            (
                [(*first[:3], f"POLYGON(({ring(0, 0, 15)}))"), pieces[1]],
                "to look at: 1 (overlap 1 2), and 4 that come from others: ",
            ),
        ):
            self.tables(whole, covers)
            run = self.run_on(self.sheets, *words)
            assert told in run.stdout.splitlines()[-1], run.stdout
