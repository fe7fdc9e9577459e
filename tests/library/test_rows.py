"""Tests that rows of the package `lpis` lose no column and no shape in silence, in whatever they come."""

import csv
import io
import types

import lpis
import pytest
from lpis_helpers.places import BUILT
from lpis_helpers.python_case import Feature, has, square
from lpis.system import shapely_there

pytestmark = pytest.mark.finds_program
SHAPE, TEXT = square(0, 0), "POLYGON ((0 0,10 0,10 10,0 10,0 0))"
MARKED = [{"old": "a", "new": "b"}, {"old": "a", "new": "c", "exact": 1}, {"old": "d", "new": "", "exact": True}]


def feature(shape=SHAPE, **columns):
    return {"type": "Feature", "properties": columns, "geometry": shape}


def test_columns_of_all_rows():
    """A column that the first row lacks is written of the others."""
    wanted = b"old,new,exact\na,b,\na,c,1\nd,,1\n"
    collection = {"type": "FeatureCollection", "features": [feature(None, **row) for row in MARKED]}
    mappings = map(types.MappingProxyType, MARKED)
    for rows in (MARKED, iter(MARKED), tuple(MARKED), mappings, (dict(row) for row in MARKED)):
        assert lpis.table(rows, "lineage") == wanted
    for rows in (collection, Feature(collection)):
        assert lpis.table(rows, "lineage") == wanted


def test_cases_of_columns():
    """Cases and blanks around the names of columns are no part of them, from one row to the next."""
    rows = [{"Old": "a", "NEW": "b"}, {"old": "a", "new": "c", " exact ": 1}]
    assert lpis.table(rows, "lineage") == b"old,new,exact\na,b,\na,c,1\n"
    shapes = lpis.table([{"Geometry": SHAPE}, {"WKT": TEXT}], "area").decode().splitlines()
    assert [line.replace("N (", "N(") for line in shapes] == ["wkt", *[f'"{TEXT}"'.replace("N (", "N(")] * 2]


@pytest.mark.parametrize(
    "row",
    [
        {"parcel": "a", "geometry": SHAPE, "wkt": TEXT},
        {"parcel": "a", "wkt": TEXT, "Geometry": None},
        feature(parcel="a", wkt=TEXT),
        Feature(feature(parcel="a", WKT=None)),
        feature(parcel="a", geometry=TEXT),
    ],
)
def test_two_shapes(row):
    """A row with two shapes is an error, whichever of them would have been taken."""
    with pytest.raises(ValueError, match="parcels row 2: it has two shapes, in .*(geometry|wkt|WKT)"):
        lpis.table([{"parcel": "b", "geometry": SHAPE}, row], "parcels")


def test_too_many_fields():
    """What a reader of CSV has over is no column."""
    rows = csv.DictReader(io.StringIO("class,percent\nG,30\nTREES,SHRUBS,10\n"))
    with pytest.raises(ValueError, match="classes row 2: it has more fields than the table has columns"):
        lpis.table(rows, "classes")


def test_percentages():
    """1.0 and True may be the whole, and are no percent: the program refuses them. Whole numbers above are
    percentages."""
    wanted = b"class,percent\na,1.0\nb,True\nc,100\nd,0\ne,1\nf,0.5\n"
    assert lpis.table({"a": 1.0, "b": True, "c": 100.0, "d": 0.0, "e": 1, "f": 0.5}, "classes") == wanted
    rows = [{"class": "a", "eligible": 1.0}, {"class": "b", "eligible": True}]
    assert lpis.table(rows, "classes") == b"class,eligible\na,1\nb,1\n"


@pytest.mark.skipif(not has("pandas"), reason="no pandas (Debian: python3-pandas)")
class TestFrames:
    @pytest.mark.parametrize(
        ("name", "columns", "lacking"),
        [
            ("classes", ["class", "share"], "percent"),
            ("classes", ["percent"], "class"),
            ("lineage", ["old"], "new"),
            ("parcels", ["parcel"], "wkt"),
            ("covers", ["piece", "class", "wkt"], "parcel"),
            ("area", ["shape"], "wkt"),
            ("classes", [], "class"),
        ],
    )
    def test_lacking(self, name, columns, lacking):
        """A frame names the column that it lacks, with rows and without."""
        import pandas

        for rows in ([], [["x"] * len(columns)] if columns else []):
            frame = pandas.DataFrame(rows, columns=columns)
            with pytest.raises(ValueError, match=f"{name}: the frame has no column {lacking}: there are"):
                lpis.table(frame, name)

    def test_whole(self):
        import pandas

        assert lpis.table(pandas.DataFrame({"Class": ["G"], "eligible": [1.0]}), "classes") == b"class,eligible\nG,1\n"
        assert lpis.table(pandas.DataFrame(MARKED), "lineage") == b"old,new,exact\na,b,\na,c,1\nd,,1\n"
        assert lpis.table(pandas.DataFrame(columns=["old", "new"]), "lineage") == b"old,new\n"
        frame = pandas.DataFrame({"parcel": ["a"], "geometry": [SHAPE], "wkt": [TEXT]})
        with pytest.raises(ValueError, match="row 1: it has two shapes, in geometry and wkt"):
            lpis.table(frame, "parcels")

    def test_series(self):
        """A series of classes loses no row of one name."""
        import pandas

        series = pandas.Series([100, 30], index=["G", "G"])
        assert lpis.table(series, "classes") == b"class,percent\nG,100\nG,30\n"


@pytest.mark.skipif(not (BUILT and shapely_there.python()), reason=shapely_there.LACKING)
def test_prepared():
    """What `prepare` gave is cut as a whole; where there are no tables, that says what stops."""
    parcels = [{"parcel": name, "geometry": square(x, 5_400_000)} for name, x in (("west", 550_000), ("east", 550_009))]
    covers = [{"piece": row["parcel"], "class": "G", **row} for row in parcels]
    stopped = lpis.prepare(parcels, covers, {"G": 100})
    for call in (lpis.cut, lpis.check):
        with pytest.raises(ValueError, match="no parcels were written: to look at: .*overlap east west"):
            call(stopped)
    with pytest.raises(ValueError, match="parcels: None is no table; .* says what stops"):
        lpis.cut(stopped.parcels, stopped.covers, stopped.classes)
    made = lpis.prepare(parcels[:1], covers[:1], {"G": 100})
    assert lpis.check(made, made, made, lpis.cut(made)).area == lpis.check(made).area == 100
    made = lpis.prepare(parcels[:1], covers[:1])
    with pytest.raises(ValueError, match="no classes were written: a source without a table of classes"):
        lpis.cut(made)
