"""Tests that shapes of Shapely, which are read by their well-known binary, have the texts that `__geo_interface__`
gives them: in lists, in rows, and in frames of GeoPandas; by numpy, and without it."""

import copy
import math
import os
import unittest.mock

import pytest
from lpis_helpers.python_case import has

import lpis
from lpis import coordinates, shapes, tables

pytestmark = pytest.mark.skipif(
    not (has("shapely") and has("hypothesis")),
    reason="no Shapely or no hypothesis (Debian: python3-shapely, python3-hypothesis)",
)
if has("shapely") and has("hypothesis"):
    import shapely.wkt
    from hypothesis import HealthCheck, given, settings, strategies
    from shapely import geometry

    MILLIMETRES = strategies.integers(-20_000_001_000, 20_000_001_000).map(lambda value: value / 1000)
    NEAR = strategies.integers(-(10**9), 10**9).flatmap(
        lambda value: strategies.sampled_from(
            (value / 1000, math.nextafter(value / 1000, math.inf), value / 1000 + 1e-4)
        )
    )
    ODD = strategies.sampled_from(
        (
            0.0,
            -0.0,
            0.001,
            -0.001,
            1e-4,
            1e-7,
            5e-324,
            99_999_999.999,
            100_000_000.0,
            -1e8,
            1e15,
            1e16,
            1e22,
            123456789.125,
            0.1 + 0.2,
            math.nan,
            math.inf,
            -math.inf,
        )
    )
    NUMBERS = strategies.one_of(MILLIMETRES, NEAR, ODD, strategies.floats())
    FIRST = NUMBERS.filter(lambda value: value == value)  # else Shapely takes the ring to be open
    RINGS = strategies.builds(
        lambda first, others: [first, *others],
        strategies.tuples(FIRST, FIRST),
        strategies.lists(strategies.tuples(NUMBERS, NUMBERS), min_size=2, max_size=8),
    )
    POLYGONS = strategies.builds(geometry.Polygon, RINGS, strategies.lists(RINGS, max_size=3))
    SOLIDS = strategies.builds(
        geometry.Polygon,
        strategies.lists(strategies.tuples(MILLIMETRES, MILLIMETRES, MILLIMETRES), min_size=3, max_size=5),
    )
    OTHERS = strategies.sampled_from(
        [
            shapely.wkt.loads(text)
            for text in (
                "POLYGON EMPTY",
                "MULTIPOLYGON EMPTY",
                "MULTIPOLYGON(EMPTY,((0 0,1 0,1 1,0 0)))",
                "MULTIPOLYGON(((0 0,1 0,1 1,0 0)),EMPTY)",
                "POINT(1 2)",
                "LINESTRING(0 0,1 1)",
                "GEOMETRYCOLLECTION EMPTY",
                "GEOMETRYCOLLECTION(POLYGON((0 0,1 0,1 1,0 0)))",
                "LINEARRING(0 0,1 0,1 1,0 0)",
                "MULTIPOINT(0 0,1 1)",
                "POLYGON((0 0,1 0,0 0,0 0))",
                "MULTIPOLYGON Z(((0 0 1,1 0 1,1 1 1,0 0 1)))",
            )
        ]
        + [geometry.Polygon(), geometry.MultiPolygon(), geometry.GeometryCollection()]
    )
    SHAPES = strategies.one_of(
        POLYGONS, strategies.lists(POLYGONS, min_size=1, max_size=3).map(geometry.MultiPolygon), SOLIDS, OTHERS
    )
    MANY = settings(
        max_examples=int(os.environ.get("MOST", "25")), deadline=None, suppress_health_check=list(HealthCheck)
    )


class Own:
    """A shape of nobody's class."""

    def __init__(self, shape):
        self.__geo_interface__ = shape.__geo_interface__


def written(shape):
    """The text of a shape as it was written before any binary was read."""
    return shapes.text_of(shape and shape.__geo_interface__)


class TestTexts:
    def every(self, found):
        wanted = [written(shape) for shape in found]
        assert shapes.texts_of(found) == wanted
        with unittest.mock.patch.object(coordinates, "numpy", lambda: None):
            assert shapes.texts_of(found) == wanted

    def test_random(self):
        @MANY
        @given(strategies.lists(SHAPES, min_size=1, max_size=6))
        def compare(found):
            self.every(found)

        compare()

    def test_more_than_are_read_at_once(self):
        square = geometry.box(550_000, 5_400_000, 550_000.5, 5_400_001)
        with unittest.mock.patch.object(shapes, "AT_ONCE", 3):
            self.every(
                [
                    square,
                    geometry.Point(1, 2),
                    geometry.box(0.1, 0, 1 / 3, 1),
                    None,
                    square,
                    square,
                    geometry.MultiPolygon([square, geometry.box(-1e7, -1.001, -0.0, 0)]),
                ]
            )

    def test_class_of_somebody(self):
        """A class that somebody made of a polygon is asked for what it gives itself."""

        class Marked(geometry.Polygon):
            @property
            def __geo_interface__(self):
                return {"type": "Polygon", "coordinates": [[(7, 7)]]}

        found = geometry.box(0, 0, 1, 1)
        found.__class__ = Marked
        assert shapes.texts_of([found, Own(geometry.box(0, 0, 1, 1))])[0] == "POLYGON ((7 7))"

    def test_heights_stay(self):
        """Heights are in the text, whatever Shapely's writer of binary leaves out by itself."""
        geos = pytest.importorskip("shapely.geos")
        solid = shapely.wkt.loads("POLYGON Z((0 0 1,1 0 1,1 1 1,0 0 1))")
        defaults = {**getattr(getattr(geos, "WKBWriter", None), "defaults", {}), "output_dimension": 2}
        with unittest.mock.patch.object(getattr(geos, "WKBWriter", geos), "defaults", defaults, create=True):
            assert shapes.texts_of([solid]) == ["POLYGON ((0.0 0.0 1.0,1.0 0.0 1.0,1.0 1.0 1.0,0.0 0.0 1.0))"]


def test_rows():
    """Rows and lists of shapes, beside the same rows with what each shape gives of itself."""

    @MANY
    @given(strategies.lists(SHAPES, min_size=1, max_size=4))
    def compare(found):
        plain = [shape.__geo_interface__ for shape in found]
        rows = [{"parcel": number, "geometry": shape} for number, shape in enumerate(found)]
        features = [
            {"type": "Feature", "properties": {"parcel": number}, "geometry": shape}
            for number, shape in enumerate(found)
        ]
        wanted = lpis.table([{**row, "geometry": shape} for row, shape in zip(rows, plain)], "parcels")
        assert lpis.table(rows, "parcels") == lpis.table(features, "parcels") == wanted
        assert lpis.table(found, "area") == lpis.table(plain, "area")
        assert lpis.table(found[0], "area") == lpis.table(plain[0], "area")

    compare()


@pytest.mark.skipif(not has("geopandas"), reason="no GeoPandas (Debian: python3-geopandas)")
class TestFrames:
    def same(self, frame, name):
        """A frame has the table of the features that it gives, and is not asked for them."""
        wanted = lpis.table(copy.deepcopy(frame.__geo_interface__), name)
        with unittest.mock.patch.object(
            type(frame), "__geo_interface__", property(lambda _: pytest.fail("all of it was written out"))
        ):
            assert lpis.table(frame, name) == wanted

    def test_random(self):
        import geopandas

        @MANY
        @given(strategies.lists(strategies.one_of(SHAPES, strategies.none()), max_size=5))
        def compare(found):
            series = geopandas.GeoSeries(found)
            frame = geopandas.GeoDataFrame({"parcel": range(len(found)), "more": 0.5}, geometry=series)
            self.same(frame, "parcels")
            self.same(frame.rename_geometry("where"), "parcels")
            self.same(series, "area")

        compare()

    def test_columns(self):
        """Columns of every type, with cases and blanks, missing values, and more than a table has."""
        import geopandas
        import numpy
        import pandas

        square = geometry.box(0, 0, 1, 1)
        frame = geopandas.GeoDataFrame(
            {
                " Piece": pandas.array([1, None, 3], dtype="Int64"),
                "PARCEL": [0.5, math.nan, 2],
                "class": pandas.Categorical(["a", None, "b"]),
                7: 1,
                "other": geopandas.GeoSeries([square] * 3),
                "day": pandas.to_datetime(["2026-01-01", None, None]),
                "small": numpy.array([0.1, 1, 2], "f4"),
            },
            geometry=[square, None, geometry.Polygon()],
            index=[5, 5, 6],
        )
        self.same(frame, "covers")
        for name in ("parcel", "piece", "class"):
            for column in (
                numpy.array([0.1, 1, 2], "f4"),
                [True, None, b"x"],
                pandas.to_datetime(["2026-01-01", None, None]),
                pandas.array([True, None, False], dtype="boolean"),
            ):
                self.same(
                    geopandas.GeoDataFrame(
                        {**dict.fromkeys(("parcel", "piece", "class"), "k"), name: column}, geometry=[square] * 3
                    ),
                    "covers",
                )
        self.same(geopandas.GeoDataFrame({"class": ["a"], "percent": [100.0]}, geometry=[square]), "classes")

    def test_two_shapes(self):
        import geopandas

        square = geometry.box(0, 0, 1, 1)
        frame = geopandas.GeoDataFrame({"parcel": ["a"], "WKT": ["x"]}, geometry=[square])
        for one in (frame, frame.rename_geometry("where")):
            with pytest.raises(ValueError, match="parcels row 1: it has two shapes, in its feature and WKT"):
                lpis.table(one, "parcels")
        assert lpis.table(frame[:0], "parcels") == b"parcel,wkt\n"

    def test_without_active_shapes(self):
        """A frame of GeoPandas of whose columns none is that of its shapes is one of pandas."""
        import geopandas

        frame = geopandas.GeoDataFrame({"parcel": ["a"], "wkt": [geometry.box(0, 0, 1, 1)]})
        assert tables.geometry_of(frame) is None
        assert lpis.table(frame, "parcels") == b'parcel,wkt\na,"POLYGON ((1.0 0.0,1.0 1.0,0.0 1.0,0.0 0.0,1.0 0.0))"\n'
