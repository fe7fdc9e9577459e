"""Tests how a source is read: packages, shapes in bytes and in text, tables and systems of coordinates. Needs nothing
but Python; what a number of a system stands for is left out where pyproj is not there."""

import contextlib
import random
import re
import shutil
import struct
import time
from unittest import mock

import pytest
from lpis_helpers.registers import made
from lpis_helpers.spare import Spare
from lpis_helpers import dirty
from lpis.formats import wkb
from lpis.source import coordinate_systems, land, spreadsheets, wkt

SQUARE = [(0.0, 0.0), (10.0, 0.0), (10.0, 10.0), (0.0, 10.0), (0.0, 0.0)]
RING = "(0 0,10 0,10 10,0 10,0 0)"
# Texts that are read: all have the square alone.
TEXTS = [
    f"POLYGON({RING})",
    f"  polygon\t({RING}) \n",
    f"MULTIPOLYGON(({RING}))",
    f"SRID=25832;POLYGON({RING})",
    "POLYGON((+0 -0,10. 0.,10.000 10,.0 10,0 0))",
    "POLYGON Z((0 0 1,10 0 1,10 10 1,0 10 1,0 0 1))",
    "POLYGON M ((0 0 1, 10 0 1, 10 10 1, 0 10 1, 0 0 1))",
    "PolygonZM((0 0 1 2,10 0 1 2,10 10 1 2,0 10 1 2,0 0 1 2))",
    f"CURVEPOLYGON({RING})",
    f"MULTISURFACE(({RING}))",
    f"MULTISURFACE(POLYGON({RING}))",
    "CURVEPOLYGON(COMPOUNDCURVE((0 0,10 0,10 10),(10 10,0 10,0 0)))",
]
# Texts that are refused, with the word and its offset, or the reason.
BROKEN = [
    ("", "offset 0: the end"),
    ("POINT(1 2)", "offset 0: 'POINT'"),
    ("LINESTRING(0 0,1 1)", "offset 0: 'LINESTRING'"),
    (f"GEOMETRYCOLLECTION(POLYGON({RING}))", "offset 0: 'GEOMETRYCOLLECTION'"),
    ("POLYGON((500000 5000000, 500010 5000000, 500010, 500000 5000010, 500000 5000000))", "offset 47: ','"),
    ("POLYGON((0 0,10 0 10 10,0 10,0 0))", "offset 18: '10'"),
    ("POLYGON((0,0,10,0,10,10,0,10,0,0))", "offset 10: ','"),
    ("POLYGON((0 0,10 0,10,0 10,0 0))", "offset 20: ','"),
    ("POLYGON((0 0,10,0 10 10,0 10,0 0))", "offset 15: ','"),
    ("POLYGON((0,5 0,25,10,5 0,25,10,5 10,0,5 0,25))", "write decimal points, not commas"),
    ("POLYGON((0,5 0,25; 10,5 0,25; 10,5 10; 0,5 0,25))", "write decimal points"),
    ("POLYGON((0 0 1,10 0 1,10 10 1,0 10 1,0 0 1))", "offset 13: '1', where ')' is wanted"),
    ("POLYGON Z((0 0,10 0,10 10,0 10,0 0))", "offset 14: ','"),
    ("POLYGON Z((0 0 1,10 0 1,10 10 1,0 10,0 0 1))", "where a number is wanted"),
    ("POLYGON((0 0,1e1 0,10 10,0 10,0 0))", "'1e1', where a number is wanted: write it without an exponent"),
    ("POLYGON((0 0,nan 0,10 10,0 10,0 0))", "offset 13: 'nan'"),
    ("POLYGON((0 0,INF 0,10 10,0 10,0 0))", "'INF'"),
    ("POLYGON((0 0,0x10 0,10 10,0 10,0 0))", "'0x10'"),
    ("POLYGON((0 0,1_0 0,10 10,0 10,0 0))", "'1_0'"),
    ("POLYGON((0 0,\u0661\u0660 0,10 10,0 10,0 0))", "offset 13"),
    ("POLYGON((0 0,10\u00a00,10 10,0 10,0 0))", "offset 13"),
    ("POLYGON((0 0,10 0,10 10,0 10))", "a ring is open: it begins at 0.0 0.0 and ends at 0.0 10.0"),
    ("POLYGON((0 0,10 0,0 0))", "a ring has 3 points and not four or more"),
    ("POLYGON((0 0))", "1 point and not"),
    (f"POLYGON({RING},(1 1,2 2,1 1))", "a ring has 3 points"),
    (f"POLYGON({RING},())", "where a number is wanted"),
    ("POLYGON()", "where '(' is wanted"),
    ("POLYGON(())", "where a number is wanted"),
    (f"POLYGON{RING}", "where '(' is wanted"),
    (f"POLYGON(({RING}))", "where a number is wanted"),
    (f"MULTIPOLYGON({RING})", "where '(' is wanted"),
    (f"MULTIPOLYGON((({RING})))", "where a number is wanted"),
    (f"POLYGON({RING}", "the end, where ')' is wanted"),
    (f"POLYGON({RING}))", "where the end is wanted"),
    (f"POLYGON({RING},)", "where '(' is wanted"),
    (f"POLYGON({RING}{RING})", "where ')' is wanted"),
    (f"POLYGON({RING});", "';', where the end is wanted"),
    (f"POLYGON({RING}) POLYGON({RING})", "'POLYGON', where the end is wanted"),
    (f"MULTIPOLYGON(({RING}),EMPTY)", "'EMPTY'"),
    ("POLYGON EMPTY x", "'x', where the end"),
    (f"SRID=;POLYGON({RING})", "offset 0"),
    (f"SRID=25832 POLYGON({RING})", "offset 0"),
    (f"POLYGON X({RING})", "'X', where '(' is wanted"),
    ("POLYGON((0 0,10 0,10 10,0 10,0 0)\0)", "offset 33"),
    ("CURVEPOLYGON(CIRCULARSTRING(0 0,5 5,10 0,0 0))", "arcs through 4 points"),
    ("CURVEPOLYGON(COMPOUNDCURVE(CIRCULARSTRING(0 0,5 5,10 0),(11 0,0 0)))", "do not meet at 11.0 0.0"),
    ("MULTISURFACE(POLYGON Z((0 0,10 0,10 10,0 10,0 0)))", "'Z', where '(' is wanted"),
]
COLUMNS = "piece,parcel,class,wkt"
PIECE = f'1,A,GRASS,"POLYGON({RING})"'


def walked(blob):
    """What a walk from point to point reads."""
    reader = wkb.Reader(blob)
    reader.shape()
    if reader.at != len(blob):
        raise wkb.Unreadable("bytes behind its end")
    return wkb.judge_rings(reader.members) if any(reader.members) else None


def told(read, blob):
    """What a reader has of bytes, or that it refuses them."""
    try:
        found = read(blob)
    except wkb.Unreadable:
        return "refused"
    return found.members if isinstance(found, wkb.Found) else found


class TestTexts:
    def test_read(self):
        for text in TEXTS:
            found = wkt.read(text)
            assert found.members == [[SQUARE]], text
        assert [wkt.read(text).srid for text in TEXTS[:4]] == [None, None, None, 25832]
        assert [sorted(wkt.read(text).notes) for text in TEXTS[5:8]] == [["z"], ["m"], ["m", "z"]]

    def test_many(self):
        text = f"MULTIPOLYGON(({RING},(1 1,2 1,2 2,1 1)) , ((20 0,30 0,30 10,20 0)))"
        hole, other = [(1.0, 1.0), (2.0, 1.0), (2.0, 2.0), (1.0, 1.0)], [
            (20.0, 0.0),
            (30.0, 0.0),
            (30.0, 10.0),
            (20.0, 0.0),
        ]
        assert wkt.read(text).members == [[SQUARE, hole], [other]]
        assert wkt.Reader(text, 0).shape().members == [[SQUARE, hole], [other]]

    @pytest.mark.parametrize("text, words", BROKEN)
    def test_broken(self, text, words):
        with pytest.raises(wkb.Unreadable, match=re.escape(words)):
            wkt.read(text)

    def test_empty(self):
        assert [wkt.read(text) for text in ("POLYGON EMPTY", "multipolygon z empty")] == [None, None]

    def test_curves(self):
        found = wkt.read("CURVEPOLYGON Z(COMPOUNDCURVE Z(CIRCULARSTRING Z(0 0 1,5 5 1,10 0 1),(10 0 1,0 0 1)))")
        assert (found.notes, len(found.members[0][0]) > 50) == ({"curve", "z"}, True)


class TestBytes:
    def test_arcs(self):
        half = [(0.0, 0.0), (5.0, 5.0), (10.0, 0.0)]
        way = wkb.straightened(half)
        assert way == wkb.straightened(half[::-1])[::-1]
        assert all(abs(((x - 5) ** 2 + y * y) ** 0.5 - 5) < 1e-9 for x, y in way)
        middles = [((a[0] + b[0]) / 2, (a[1] + b[1]) / 2) for a, b in zip(way, way[1:])]
        assert all(5 - ((x - 5) ** 2 + y * y) ** 0.5 < 0.0005 for x, y in middles)
        assert wkb.straightened([(0.0, 0.0), (5.0, 0.0), (10.0, 0.0)]) == [(0.0, 0.0), (5.0, 0.0), (10.0, 0.0)]
        for count in (0, 1, 2, 4):
            with pytest.raises(wkb.Unreadable):
                wkb.straightened((half * 2)[:count])

    def test_odd_arcs(self):
        """Arcs that are nearly straight, points alone, or of a circle that no map has: the number of points has a
        bound, and none is far from the arc."""
        three = [(7.0, 7.0)] * 3
        cases = [
            (three, 3),
            ([(0.0, 0.0), (5.0, 1e-9), (10.0, 0.0)], 3),
            ([(0.0, 0.0), (5.0, 1e-300), (10.0, 0.0)], 3),
            ([(0.0, 0.0), (1.0, 1e-12), (1e7, 0.0)], 3),
            ([(0.0, 0.0), (1e11, 1e11), (0.0, 0.0)], 3),
            ([(-1e11, 0.0), (0.0, 1e11), (1e11, 0.0)], 3),
            ([(1e200, 1.0), (1e300, 1e300), (1.0, 1e308)], 3),
            ([(0.0, 0.0), (5.0, 0.0004), (10.0, 0.0)], 3),
        ]
        for points, count in cases:
            way = wkb.straightened(points)
            assert (len(way), way[0], way[-1]) == (count, points[0], points[-1])
        assert wkb.straightened([(0.0, 0.0), (5.0, 0.002), (10.0, 0.0)])[0::4] == [(0.0, 0.0)]
        round_the_world = [(-2e7, 0.0), (2e7, 0.0), (-2e7, 0.0)]
        many = [(1e5 * number, 1e5 * (number % 2)) for number in range(101)]
        for points in (round_the_world, many):
            with pytest.raises(wkb.Unreadable, match="more than 100000 points"):
                wkb.straightened(points)
        with pytest.raises(wkb.Unreadable, match="more than 100000 points"):
            wkt.read(
                "MULTISURFACE("
                + ",".join(f"CURVEPOLYGON(CIRCULARSTRING({x} 0,{x + 9e5} 0,{x} 0))" for x in range(5))
                + ")"
            )

    def test_long_curves(self):
        """A curve of many lines, by bytes and by text, in time that grows with their number; curves within curves
        without end are refused."""
        way = [(float(number), float(number % 2)) for number in range(40_000)]
        way = [*way, (way[-1][0], -9.0), (0.0, -9.0), way[0]]
        parts = [dirty.line(*pair) for pair in zip(way, way[1:])]
        curve = struct.pack("<BII", 1, 9, len(parts)) + b"".join(parts)
        before = time.process_time()
        found = wkb.read(struct.pack("<BII", 1, 10, 1) + curve)
        text = wkt.read(
            f"CURVEPOLYGON(COMPOUNDCURVE({','.join(f'({a[0]} {a[1]},{b[0]} {b[1]})' for a, b in zip(way, way[1:]))}))"
        )
        assert (found.members, text.members) == ([[way]], [[way]])
        assert time.process_time() - before < 5
        with pytest.raises(wkb.Unreadable, match="a ring that is a curve"):
            wkb.read(struct.pack("<BII", 1, 10, 1) + struct.pack("<BII", 1, 9, 1) * 5000)

    def test_quick(self):
        """What is read without a look at each point is what the walk from point to point reads, and it reads nothing
        that the walk refuses."""
        draw = random.Random(3)
        shapes = [
            dirty.polygon(dirty.box(0, 0), dirty.box(1, 1, 1, 1)),
            struct.pack("<BII", 1, 6, 2) + dirty.polygon(dirty.box(0, 0)) + dirty.polygon(dirty.box(20, 0)),
            dirty.polygon([(0.0, 0.0), (1.0, 0.0), (1.0, 1.0), (-0.0, 0.0)]),
        ]
        for shape in shapes:
            assert wkb.read(shape).members == walked(shape)
            for _ in range(2000):
                blob = bytearray(shape)
                for _ in range(draw.choice((1, 1, 2))):
                    blob[draw.choice((draw.randrange(24), draw.randrange(len(blob))))] = draw.choice(
                        (0, 1, 2, 4, 127, 240, 255)
                    )
                assert told(wkb.read, bytes(blob)) == told(walked, bytes(blob))

    def test_measures(self):
        points = dirty.box(0, 0)
        for code, size in ((1003, 3), (2003, 3), (3003, 4), (0x80000003, 3), (0x40000003, 3), (0xC0000003, 4)):
            blob = struct.pack("<BIII", 1, code, 1, 5) + b"".join(
                struct.pack(f"<{size}d", *p, *[7.0] * (size - 2)) for p in points
            )
            found = wkb.read(blob)
            assert (found.members, bool(found.notes)) == ([[points]], True), code
            assert ("m" in found.notes) == (code in (2003, 3003, 0x40000003, 0xC0000003)), code

    def test_refused(self):
        square, hole = dirty.box(0, 0), dirty.box(1, 1, 1, 1)
        nan = [(float("nan"), 1.0) if number == 1 else point for number, point in enumerate(square)]
        point = struct.pack("<BI2d", 1, 1, 1.0, 2.0)
        cases = [
            (dirty.polygon(square[:-1]), "a ring is open"),
            (dirty.polygon(square, hole[:3]), "a ring has 3 points"),
            (dirty.polygon(square, []), "an empty ring"),
            (dirty.polygon(nan), "a coordinate is no number"),
            (point, "no polygon but a point"),
            (struct.pack("<BII", 1, 7, 1) + dirty.polygon(square), "no polygon but a collection"),
            (struct.pack("<BII", 1, 6, 1) + point, "no polygon but a point"),
            (struct.pack("<BII", 1, 16, 1) + dirty.polygon(square), "a net of triangles"),
            (dirty.polygon(square) + b"x", "1 bytes behind its end"),
            (struct.pack("<BII", 1, 6, 2) + dirty.polygon(square) + dirty.EMPTY, "polygon 2 of the shape is empty"),
            (dirty.arc(*[(float(x), 0.0) for x in range(4)]), "arcs through 4 points"),
            (b"", "end too early"),
            (b"\2\0\0\0\0", "no well-known binary"),
        ]
        for blob, words in cases:
            with pytest.raises(wkb.Unreadable, match=re.escape(words)):
                wkb.read(blob)
        assert wkb.read(dirty.EMPTY) is None

    def test_cut_off(self):
        whole = dirty.polygon(dirty.box(0, 0))
        for end in range(1, len(whole)):
            with pytest.raises(wkb.Unreadable):
                wkb.read(whole[:end])

    def test_kept(self):
        found = wkb.read(dirty.polygon(dirty.box(0, 0), dirty.box(1, 1, 1, 1)))
        assert (found.members, found.count(), found.box()) == (
            [[dirty.box(0, 0), dirty.box(1, 1, 1, 1)]],
            10,
            (dirty.EAST, dirty.NORTH, dirty.EAST + 10, dirty.NORTH + 10),
        )


class Files(Spare):
    def write(self, name, text, encoding="utf-8"):
        with open(self.path(name), "wb") as file:
            file.write(text.encode(encoding) if isinstance(text, str) else text)
        return self.path(name)


class TestTables(Files):
    def faults(self, covers, parcels=f'parcel,wkt\nA,"POLYGON({RING})"\n'):
        self.write("covers.csv", covers)
        self.write("parcels.csv", parcels)
        layer = land.read(self.folder)["covers"]
        return layer, [(fault.row, fault.words) for fault in layer.faults]

    def test_faults(self):
        cases = [
            (f"{COLUMNS},CLASS\n{PIECE},WATER\n", 0, "two columns are called class: class and CLASS"),
            (f"{COLUMNS}\n{PIECE},x\n", 1, "line 2 has 5 fields, and the header has 4"),
            (f"{COLUMNS}\n{PIECE}\n2,A\n", 2, "line 3 has 2 fields"),
            (f"{COLUMNS}\n\n{PIECE}\n2,A,GRASS,POLYGON({RING})\n", 2, "has 8 fields"),
            (f"{COLUMNS}\n{PIECE[:-1]}\n2,A,GRASS,x\n", 0, "a quotation mark that is not closed"),
            (f'{COLUMNS}\n1,A,"GRASS"x,y\n', 0, "it cannot be read after line 2"),
            (f"{COLUMNS},wkt,wkt\n", 0, "two columns are called wkt"),
            (f"{COLUMNS}\n1,M\x81hle\n".encode("latin-1"), 0, "bytes that are not cp1252"),
        ]
        for text, row, words in cases:
            layer, faults = self.faults(text)
            assert any(number == row and words in told for number, told in faults), (text, faults)

    def test_whole(self):
        layer, faults = self.faults(f"{COLUMNS},,note\n{PIECE},,x\n,,,,,\n\n{PIECE.replace('1,', '2,', 1)},,\n")
        assert (faults, [row.number for row in layer.rows], layer.others) == ([], [1, 3], ["''", "note"])
        assert layer.notes == ["1 records without any field were skipped"]

    def test_chosen(self):
        self.write("covers.csv", f"{COLUMNS},CLASS\n{PIECE},WATER\n")
        self.write("parcels.csv", f'parcel,wkt\nA,"POLYGON({RING})"\n')
        assert land.read(self.folder, {"covers.class": "CLASS"})["covers"].rows[0]["class"] == "WATER"

    def test_encodings(self):
        text = "class;percent\r\nGr\u00fcn;5\r\n"
        for encoding in ("utf-8", "utf-8-sig", "utf-16", "utf-16-le", "utf-16-be", "cp1252"):
            sheet = spreadsheets.read(self.write("t.csv", text, encoding))
            assert (sheet.records, sheet.faults) == ([{"class": "Gr\u00fcn", "percent": "5"}], []), encoding
        for data in (b"class;percent\nGr\x81n;5\n", b"\xff\xfec\0l\0a\0;\0b\0\n\0x"):
            sheet = spreadsheets.read(self.write("t.csv", data))
            assert sheet.records is not None and sheet.faults, data

    @pytest.mark.skipif(not shutil.which("ogr2ogr"), reason="no ogr2ogr")
    def test_words_of_another_program(self):
        """What ogr2ogr says on several lines is told whole."""
        with pytest.raises(land.Trouble, match="source layer has no coordinate system"):
            land.as_package(self.write("t.csv", f'x,WKT\n1,"POLYGON({RING})"\n'), self.folder, "-t_srs", "EPSG:25833")

    def test_systems_of_texts(self):
        rows = [
            f'{number},A,GRASS,"SRID={srid};POLYGON({RING})"' for number, srid in enumerate((25832, 4326, 25832), 1)
        ]
        layer, _ = self.faults("\n".join([COLUMNS, *rows, ""]))
        assert (layer.system.number, [row.found is None for row in layer.rows]) == (25832, [False, True, False])
        assert layer.rows[1].why == "its own system has the number 4326, and that of most shapes is 25832"


@pytest.mark.skipif(not coordinate_systems.library(), reason="pyproj is not there")
class TestSystems:
    """By pyproj: numbers, definitions of either version, and texts that are no whole definition."""

    WHY = {
        3857: "areas in its projection (popular visualisation pseudo mercator)",
        3395: "areas in its projection (mercator",
        3034: "areas in its projection (lambert",
        4326: "degrees",
        4978: "no plane",
        2263: "units of 0.304800609601219 m",
        7415: "",
        **dict.fromkeys((25832, 4647, 31467, 3035, 2056, 28992, 2154, 27572, 27700, 5514, 2065, 3067), ""),
    }

    def test_numbers(self):
        for number, why in {**self.WHY, 99999: "no definition of it"}.items():
            system = coordinate_systems.of_number(number)
            assert why in system.why and bool(why) == bool(system.why), system

    def test_definitions(self):
        """Without a number, and with one that is none of EPSG's."""
        for number, why in self.WHY.items():
            for version in ("WKT1_GDAL", "WKT2_2019"):
                # the older version cannot write each
                with contextlib.suppress(coordinate_systems.library().exceptions.CRSError):
                    text = coordinate_systems.library().CRS.from_epsg(number).to_wkt(version)
                    for system in (
                        coordinate_systems.of_definition(None, text),
                        coordinate_systems.of_definition(99, text),
                    ):
                        assert why in system.why and bool(why) == bool(system.why), (text, system)

    @pytest.mark.parametrize(
        "text, why",
        (
            ('LOCAL_CS["l",UNIT["metre",1]]', ""),
            ('LOCAL_CS["l",UNIT["foot",0.3048]]', "units of 0.3048 m"),
            ("A[" * 5000 + "]" * 5000, "no definition of it"),
            ("undefined", "no definition of it"),
        ),
    )
    def test_local(self, text, why):
        assert why in coordinate_systems.of_definition(None, text).why

    @pytest.mark.parametrize(
        "number, place, zone",
        (
            (2225, (6_200_000, 2_100_000), 32610),
            (4326, (9.0, 48.0), 25832),
            (3857, (1_001_875, 6_106_854), 25832),
            (4326, (18.0, -34.0), 32734),
            (2225, (6e12, 2e12), None),
            (None, (1.0, 1.0), None),
            (2225, None, None),
            (4326, (0.0, 89.0), None),
        ),
    )
    def test_zones(self, number, place, zone):
        """What is proposed in place of a system that does not suit lies where the land does."""
        assert coordinate_systems.zone_at(coordinate_systems.System(number), place) == zone

    def test_place(self):
        """A plane that names no area of its own is looked at where the land lies."""
        text = coordinate_systems.library().CRS("+proj=merc +ellps=GRS80 +units=m").to_wkt()
        assert coordinate_systems.of_definition(None, text, [(0, 1000, 10, 1010)]).suits()
        assert (
            "areas in its projection (mercator"
            in coordinate_systems.of_definition(None, text, [(0, 6_000_000, 10, 6_000_010)]).why
        )

    def test_mercator(self):
        assert "there about 2.42 times as large" in coordinate_systems.of_number(3857).at((0.0, 6_446_275.8))


def test_numbers():
    """Zones are known, and degrees by their definition; what else there is is refused, with what to install."""
    with mock.patch.object(coordinate_systems, "library", lambda: None):
        for number, text, why in (
            (25832, "", ""),
            (32733, "", ""),
            (None, '\nGEOGCS["x"]', "degrees"),
            (None, 'COMPD_CS["c",GEOGCS["x"]]', "degrees"),
            (3035, "", "python3-pyproj"),
            (None, 'PROJCS["x",GEOGCS["y"]]', "python3-pyproj"),
        ):
            system = coordinate_systems.of_definition(number, text)
            assert why in system.why and bool(why) == bool(system.why), system


class TestPackages(Files):
    def test_package(self):
        layers = land.read(dirty.make(self.path("l.gpkg"), ["null", "empty", "curve", "z", "line"]))
        parcels, covers = (
            {row.fields[key]: row for row in layers[name].rows}
            for name, key in (("parcels", "parcel"), ("covers", "piece"))
        )
        assert (str(layers["parcels"].system), layers["parcels"].key, parcels["clean2"].number) == (
            "EPSG:25832",
            "fid",
            2,
        )
        assert (covers["null.2"].why, parcels["empty"].why, covers["line.2"].why) == (
            "no shape (NULL)",
            "an empty shape",
            "no polygon but a line",
        )
        assert (parcels["z"].found.notes, parcels["curve"].found.notes) == ({"z"}, {"curve"})
        assert parcels["z"].found.members[0][0][2] == (dirty.EAST + 10.0, dirty.NORTH + 90.0)
        ring = parcels["curve"].found.members[0][0]
        assert (ring[0], len(ring) > 40) == (ring[-1], True)

    def test_missing(self):
        package = dirty.Package(self.path("l.gpkg"))
        package.layer("blocks", ["block_id"], [("A", dirty.polygon(dirty.box(0, 0)))])
        package.layer("covers", ["piece", "parcel"], [("P", "A", dirty.polygon(dirty.box(0, 0)))])
        package.close()
        with pytest.raises(land.Trouble) as raised:
            land.read(self.path("l.gpkg"))
        assert len(raised.value.reasons) == 3, raised.value.reasons
        assert "no layer parcels: there are blocks (" in raised.value.reasons[0]
        assert "no column class" in raised.value.reasons[1]
        assert raised.value.reasons[2] == (
            "all names at once: --name parcels=LAYER --name parcels.parcel=COLUMN --name covers.class=COLUMN"
        )
        layers = land.read(
            self.path("l.gpkg"), {"parcels": "blocks", "parcels.parcel": "BLOCK_ID", "covers.class": "parcel"}
        )
        assert layers["parcels"].rows[0]["parcel"] == "A"

    def test_other_fids(self):
        path = dirty.make(self.path("l.gpkg"), [])
        made(path, "UPDATE parcels SET fid = fid + 100")
        assert [row.number for row in land.read(path)["parcels"].rows] == [101, 102, 103, 104]

    def test_own_system(self):
        """A shape whose own number of a system is another than its layer's, in the field's head or in the bytes
        behind it."""
        package = dirty.Package(self.path("l.gpkg"))
        square = dirty.polygon(dirty.box(0, 0))
        package.layer("parcels", ["parcel"], [(name, square) for name in ("same", "other", "none", "inner")])
        package.layer("covers", ["piece", "parcel", "class"], [])
        inner = b"GP\0\1" + struct.pack("<i", 25832) + struct.pack("<BII", 1, 0x20000003, 4326) + square[5:]
        for name, blob in (
            ("other", b"GP\0\1" + struct.pack("<i", 4326) + square),
            ("none", b"GP\0\1" + struct.pack("<i", -1) + square),
            ("inner", inner),
        ):
            package.base.execute("UPDATE parcels SET geom = ? WHERE parcel = ?", (blob, name))
        package.close()
        rows = land.read(self.path("l.gpkg"))["parcels"].rows
        assert [row.why for row in rows] == [
            "",
            "its own system has the number 4326, and its layer's is 25832",
            "",
            "its own system has the number 4326, and its layer's is 25832",
        ]

    def test_letters(self):
        """Names in other letters than UTF-8 stay different."""
        path = dirty.make(self.path("l.gpkg"), [])
        made(
            path,
            *(
                f"UPDATE parcels SET parcel = CAST(x'{name.hex()}' AS TEXT) WHERE fid = {fid}"
                for fid, name in ((1, b"M\xfchle"), (2, b"M\xf6hle"))
            ),
        )
        assert [row["parcel"] for row in land.read(path)["parcels"].rows[:2]] == ["M\\xfchle", "M\\xf6hle"]
