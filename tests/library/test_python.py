"""Tests the calls of the package `lpis` over tables of every kind, answered by the program and, where liblpis.so is
built (out/library, or named by LPIS_LIBRARY), by the library. mypy holds its types, and pandas, GeoPandas and fiona
are tried where they are there."""

import copy
import os
import pathlib
import pickle
import re
import signal
import subprocess
import sys
import threading
import time
import types
import unittest.mock
from decimal import Decimal
from fractions import Fraction

import pytest
from lpis_helpers import stopping
from lpis_helpers.calls import ended_with
from lpis_helpers.places import BUILT
from lpis_helpers.python_case import (
    BACKENDS,
    EXAMPLES,
    LIBRARY,
    NAMES,
    NO_LIBRARY,
    PYTHON,
    TOP,
    Feature,
    has,
    mypy,
    release,
    run,
    square,
)
import lpis
from lpis_helpers import tables as generated
from lpis.backends import choose
from lpis.system import shapely_there

pytestmark = pytest.mark.finds_program


@pytest.fixture(scope="module", autouse=True)
def named_library():
    with unittest.mock.patch.dict(os.environ, LPIS_LIBRARY=str(LIBRARY or "")):
        yield


def printed(*words):
    """What the program itself prints."""
    return run(BUILT, *words).stdout


class Case:
    @pytest.fixture(autouse=True)
    def begin(self, tmp_path):
        self.top = tmp_path
        yield
        choose()

    def refused(self, call, *words):
        with pytest.raises(lpis.Refused) as caught:
            call(*words)
        return caught.value


class TestTypes:
    @pytest.mark.skipif(not mypy(), reason="no mypy (Debian: mypy)")
    def test_strict(self, tmp_path):
        ended_with(
            0,
            run(
                *mypy(),
                "--config-file",
                TOP / "pyproject.toml",
                "--cache-dir",
                tmp_path,
                "-p",
                "lpis",
                cwd=PYTHON / "src",
                env=os.environ,
            ),
        )

    @pytest.mark.parametrize("name", lpis.__all__)
    def test_public_words(self, name):
        """Each public name has a text, and is said to be one."""
        assert getattr(lpis, name).__doc__, name


@pytest.mark.skipif(not BUILT, reason="the program is not built")
class TestTables(Case):
    """The same tables, whatever they come as."""

    def forms(self):
        shapes = {"west": square(1000, 0), "east": square(1010.5, 0.125)}
        parcels = [{"parcel": name, "geometry": shape} for name, shape in shapes.items()]
        covers = [
            {"piece": number, "parcel": name, "class": "G", "geometry": shape}
            for number, (name, shape) in enumerate(shapes.items())
        ]
        features = [
            {
                "type": "Feature",
                "properties": {key: value for key, value in row.items() if key != "geometry"},
                "geometry": row["geometry"],
            }
            for row in parcels
        ]
        yield "rows", parcels, covers, {"G": 100}
        yield "features", features, covers, [{"class": "G", "percent": 100.0}]
        yield "things", map(Feature, features), iter(covers), [{"class": "G", "eligible": True}]
        yield "a collection", {"type": "FeatureCollection", "features": features}, covers, b"class,percent\nG,100\n"
        yield "a thing", Feature({"type": "FeatureCollection", "features": features}), covers, bytearray(
            b"class,eligible\nG,1\n"
        )
        yield "shapes of others", [{**row, "geometry": Feature(row["geometry"])} for row in parcels], covers, {"G": 100}
        texts = {
            "west": "POLYGON ((1000 0,1010 0,1010 10,1000 10,1000 0))",
            "east": "POLYGON((1010.5 .125,1020.5 .125,1020.5 10.125,1010.5 10.125,1010.5 .125))",
        }
        yield "texts", [{"Parcel": name, "WKT": text, "more": 1} for name, text in texts.items()], covers, {"G": 100}
        path = self.top / "parcels.csv"
        path.write_text(
            "parcel,wkt\n" + "".join(f'{name},"{text}"\n' for name, text in texts.items()), encoding="ascii"
        )
        yield "a path", path, covers, {"G": 100}
        yield "a name", str(path), covers, {"G": 100}
        yield "bytes", path.read_bytes(), covers, memoryview(b"class,percent\nG,100\n")

    def test_forms(self):
        for name, parcels, covers, classes in self.forms():
            parcels, covers = (
                table if isinstance(table, (bytes, str, pathlib.Path, dict, Feature)) else list(table)
                for table in (parcels, covers)
            )
            report = lpis.check(parcels, covers, classes, lpis.cut(parcels, covers, classes))
            assert [(row.parcel, row.area, str(row.eligible)) for row in report.parcels] == [
                ("west", 100, "100.000000000"),
                ("east", 100, "100.000000000"),
            ]
            assert [row.piece for row in report.pieces] == ["0", "1"]

    def test_shapes_alone(self):
        assert lpis.area(square(0, 0)) == [100]
        assert lpis.area([square(0, 0), Feature(square(1e6, -2e6, 0.001))]) == [100, Fraction(1, 10**6)]
        hole = {
            "type": "MultiPolygon",
            "coordinates": [
                [*square(0, 0)["coordinates"], *square(1, 1, 2)["coordinates"]],
                square(50, 0)["coordinates"],
            ],
        }
        assert lpis.area(hole) == [196]

    def test_no_number_is_rounded(self):
        """A number is written as it is, and what is finer than a millimetre is refused, with its row and its point."""
        for value, codes in (
            (0.1 + 0.2, "14"),
            (1e-4, "14"),
            (5e-324, "14"),
            (Decimal("0.0005"), "14"),
            (20_000_000.001, "15"),
            (1e22, "15"),
            (float("nan"), "13"),
            (float("inf"), "13"),
            (Fraction(1, 3), "13"),
            ("x", "13"),
            (None, "13"),
        ):
            corners = [(value, 7), (10, 7), (10, 9), (value, 9), (value, 7)]
            refused = self.refused(lpis.area, [square(0, 0), {"type": "Polygon", "coordinates": [corners]}])
            assert (refused.codes, refused.table, refused.row) == (("38", codes), "area", 2)
            assert refused.place == (
                None
                if codes == "13"
                else lpis.Point(Fraction(Decimal(repr(value)) if isinstance(value, float) else value), Fraction(7))
            )
        for value in (550000.123, 0.1, 1e-3, 1e6, -0.0, 12345678.901, Decimal("1E+3"), 7):
            assert lpis.area(
                {"type": "Polygon", "coordinates": [[(value, 0), (1.5e7, 0), (1.5e7, 2), (value, 2), (value, 0)]]}
            ) == [2 * (15_000_000 - Fraction(Decimal(str(value))))]

    def test_what_is_no_polygon(self):
        point, line = {"type": "Point", "coordinates": (0, 0)}, {"type": "LineString", "coordinates": [(0, 0), (1, 1)]}
        deep = {"type": "Polygon", "coordinates": [[(0, 0, 1), (1, 0, 1), (1, 1, 1), (0, 0, 1)]]}
        for shape, code in (
            (point, "10"),
            (line, "10"),
            (None, "10"),
            ({"type": "GeometryCollection", "geometries": []}, "10"),
            ({"type": "Polygon", "coordinates": ()}, "11"),
            ({"type": "MultiPolygon", "coordinates": [()]}, "11"),
            (deep, "12"),
            ({"type": "Polygon", "coordinates": [[(0, 0), (1, 0), (0, 0)]]}, "16"),
        ):
            assert self.refused(lpis.area, [{"geometry": shape}]).codes == ("38", code), shape

    def test_fields(self):
        """Nothing is guessed: what is missing is an empty field, and a name stays as it is."""

        def cut(identifier, percent=100):
            return lpis.cut(
                [{"parcel": identifier, "geometry": square(0, 0)}],
                [{"piece": "a", "parcel": identifier, "class": "G", "geometry": square(0, 0)}],
                {"G": percent},
            )

        for identifier in (None, float("nan"), "Mühle", "a b", 'q"', "", "a\r"):
            refused = self.refused(cut, identifier)
            assert (refused.code, refused.identifiers) == ("33", (identifier if isinstance(identifier, str) else "",))
        for identifier in ("a", 1, 1.0, b"a"):
            cut(identifier)
        for percent in (0.5, "x", None, 101, -1, float("inf"), "1\r"):
            assert self.refused(cut, "a", percent).code == "3b", percent
        cut("a", 30.0)
        assert self.refused(lpis.cut, [{"geometry": square(0, 0)}], [], {}).line == "refused 31 parcels row 0"
        assert self.refused(lpis.area, [{"wkt": "x", "WKT": "y"}]).code == "32"
        assert lpis.cut([], [], {}).triangles == 0
        assert lpis.table({"G": 30.0}, "classes") == b"class,percent\nG,30\n"
        for error, words in ((TypeError, ({"a": square(0, 0)}, "parcels")), (ValueError, ([], "fields"))):
            pytest.raises(error, lpis.table, *words)

    @pytest.mark.skipif(
        not (has("geopandas") and has("fiona")), reason="no GeoPandas (Debian: python3-geopandas, python3-fiona)"
    )
    def test_frames(self):
        import fiona
        import geopandas
        import numpy
        import pandas

        shapes = geopandas.GeoSeries.from_wkt(
            ["POLYGON((1000 0,1010 0,1010 10,1000 10,1000 0))", "POLYGON((1010 0,1020.5 0,1020.5 10,1010 10,1010 0))"]
        )
        parcels = geopandas.GeoDataFrame({"parcel": numpy.array([1, 2])}, geometry=shapes, crs=25832)
        covers = geopandas.GeoDataFrame(
            {"piece": ["a", "b"], "parcel": [1, 2], "class": "G"}, geometry=shapes, crs=25832
        )
        classes = pandas.DataFrame({"class": ["G"], "percent": numpy.array([30.0])})
        report = lpis.check(parcels, covers, classes, lpis.cut(parcels, covers, classes))
        assert (report.area, report.eligible, lpis.area(shapes)) == (205, Fraction("61.5"), [100, 105])
        assert lpis.area(list(shapes)) == [100, 105]
        parcels.to_file(self.top / "land.gpkg", layer="parcels", driver="GPKG")
        with fiona.open(self.top / "land.gpkg") as layer:
            assert lpis.area(layer) == [100, 105]
        moved = lpis.prepare(parcels.to_crs(3857), covers.to_crs(3857), classes)
        assert (moved.is_written, "system" in [row["kind"] for row in moved.findings]) == (False, True), moved.said
        for system, words in (
            ("+proj=merc +lat_ts=60 +ellps=GRS80", r"areas in its projection \(mercator"),
            ("+proj=tmerc +lon_0=9.3 +ellps=GRS80 +units=us-ft", "units of 0.3048"),
            ("+proj=longlat +ellps=bessel", "degrees"),
        ):
            with pytest.raises(lpis.Failed, match=f"parcels: it is in .*{words}.*: transform it"):
                lpis.prepare(parcels.set_crs(system, allow_override=True), covers, classes)
        assert list(report.to_frame("classes")["eligible"]) == [Decimal("61.500000000")]
        with pytest.raises(ValueError, match="classes: two columns of the frame have one name"):
            lpis.table(classes.set_axis(["percent", "percent"], axis=1), "classes")


@pytest.mark.skipif(not BUILT, reason="the program is not built")
class TestAnswers(Case):
    def test_lines_of_the_program(self):
        """Each refusal of the examples is the line of the program, by each way of calling, with words for each code."""
        folders = sorted({path.parent for path in EXAMPLES.rglob("parcels.csv")})
        cert = self.top / "cert.txt"
        for folder in folders:
            line = printed("cut", folder, cert)
            for way in BACKENDS:
                lpis.backend(way)
                tables = [folder / f"{name}.csv" for name in NAMES]
                if line.startswith("refused"):
                    refused = self.refused(lpis.cut, *tables)
                    assert (refused.line, refused.code, len(refused.words)) == (
                        line.strip(),
                        line.split()[1],
                        len(refused.codes),
                    )
                    assert pickle.loads(pickle.dumps(refused)).args == refused.args
                    assert self.refused(lpis.check, *tables).line == printed("check", folder).splitlines()[-1]
                else:
                    made = lpis.cut(*tables)
                    assert (made.data, f"triangles {made.triangles} pairs {made.pairs}\n") == (cert.read_bytes(), line)
                    assert lpis.check(*tables, made).text == printed("check", folder, cert) == lpis.check(*tables).text

    def test_places(self):
        for name, codes, kind, names, place in (
            ("overlap", ("41",), "parcels", ("west", "east"), (Fraction(50_020, 1000), Fraction(23_980, 1000))),
            ("gap", ("43",), "parcel", ("field",), (Fraction(149_900, 3000), 40)),
            ("bowtie", ("40",), "piece", ("crossed",), None),
        ):
            refused = self.refused(lpis.cut, *release(name))
            found = refused.place and (refused.place.x, refused.place.y)
            assert (refused.codes, refused.kind, refused.identifiers, found) == (codes, kind, names, place)
        assert self.refused(lpis.cut, *release("gap")).place.__geo_interface__ == {
            "type": "Point",
            "coordinates": (149.9 / 3, 40.0),
        }
        refused = self.refused(lpis.cut, *release("faults/35"))
        assert (refused.table, refused.row, refused.kind, len(refused.identifiers)) == ("covers", refused.row, "", 3)

    def test_certificates(self):
        """Another's, a text that is none, and a file."""
        tables = release("exact/2024")
        made = lpis.cut(*tables)
        made.save(self.top / "cert.txt")
        for good in (made, made.data, self.top / "cert.txt", str(self.top / "cert.txt")):
            assert lpis.check(*tables, good).area == 9600
        assert self.refused(lpis.check, *tables, b"").line == "refused 54 cert line 1"
        assert self.refused(lpis.check, *tables, lpis.cut(*release("exact/2025"))).code == "60"

    def test_report(self):
        """Every digit, as fraction, as decimal and as text; sums of pieces and classes are those of the parcels."""
        tables = release("pasture")
        report = lpis.check(*tables, lpis.cut(*tables))
        assert [str(row.area) for row in report.parcels] == re.findall(r"(?m)^parcel \S+ area (\S+)", report.text)
        assert sum(row.area for row in report.pieces) == report.area
        assert (sum(row.area for row in report.classes), sum(row.eligible for row in report.classes)) == (
            report.area,
            report.eligible,
        )
        assert {row.percent for row in report.classes} - {0, 100}
        area = report.parcels[0].area
        for other in (pickle.loads(pickle.dumps(area)), copy.copy(area), copy.deepcopy(area)):
            assert (str(other), other.decimal, other) == (str(area), Decimal(str(area)), area)
        large = lpis.area([square(-20_000_000, -20_000_000, 40_000_000), square(0, 0, Decimal("0.001"))])
        assert [str(one.decimal) for one in large] == ["1600000000000000.0000000", "0.0000010"]
        assert str(lpis.Area.sum([-large[1], Fraction(-1, 2)])) == "-0.500001000"

    def test_frame(self):
        """By pandas, which is none of what the package needs: a stand-in keeps the rows."""
        tables = release("exact/2024")
        report = lpis.check(*tables, lpis.cut(*tables))
        stand_in = types.ModuleType("pandas")
        stand_in.DataFrame = list
        with unittest.mock.patch.dict(sys.modules, {"pandas": stand_in}):
            assert report.to_frame()[0] == {
                "parcel": "meadow",
                "area": Decimal("2400.0000000"),
                "eligible": Decimal("2400.000000000"),
            }
            assert list(report.to_frame("pieces")[0]) == ["piece", "parcel", "class", "area"]
            assert list(report.to_frame("classes")[0]) == ["class", "percent", "pieces", "area", "eligible"]
        with unittest.mock.patch.dict(sys.modules, {"pandas": None}), pytest.raises(
            ImportError, match="pandas is not there"
        ):
            report.to_frame()
        with pytest.raises(KeyError):
            report.to_frame("text")

    def test_who_answers(self):
        assert lpis.backend("program") == "program"
        with pytest.raises(ValueError):
            lpis.backend("nobody")
        with unittest.mock.patch.dict(os.environ, {"LPIS_LIBRARY": str(self.top / "none.so")}):
            with pytest.raises(lpis.Failed):
                lpis.backend("library")
            assert lpis.backend("") == "program"
        (self.top / "none.so").write_bytes(b"no library")
        with unittest.mock.patch.dict(os.environ, {"LPIS_LIBRARY": str(self.top / "none.so")}):
            assert lpis.backend("") == "program"

    def test_no_answer(self):
        """Where the program fails there is an exception, and no answer."""
        lpis.backend("program")
        with unittest.mock.patch(
            "lpis.backends.tree.program", return_value=["/bin/sh", "-c", "echo failed memory >&2; exit 3"]
        ), pytest.raises(lpis.Failed, match="failed memory"):
            lpis.cut(*release("square"))
        with unittest.mock.patch(
            "lpis.backends.tree.program", return_value=["/bin/sh", "-c", "kill -9 $$"]
        ), pytest.raises(lpis.Failed, match="status -9"):
            lpis.cut(*release("square"))

    @pytest.mark.skipif(not ("library" in BACKENDS), reason=NO_LIBRARY)
    def test_same_answers(self):
        """Of inputs that are cut off, exchanged or empty the library says what the program says."""
        whole = [path.read_bytes() for path in release("square")]
        whole.append(lpis.cut(*whole).data)
        cases = [
            [*whole[:place], whole[place][: len(whole[place]) * part // 7], *whole[place + 1 :]]
            for place in range(4)
            for part in range(7)
        ]
        cases += [
            [data.replace(old, new) for data in whole]
            for old, new in ((b"0", b"1"), (b"\n", b"\r\n"), (b",", b";"), (b"t ", b"f "), (b"", b"\0"))
        ]
        for number, inputs in enumerate([whole, *cases]):
            for name, given in (("area", inputs[:1]), ("cut", inputs[:3]), ("check", inputs)):
                told = [getattr(choose(way), name)(*given) for way in BACKENDS]
                assert told[0] == told[1], (number, name)

    @pytest.mark.skipif(not ("library" in BACKENDS), reason=NO_LIBRARY)
    def test_library(self):
        """Over a larger release: the bytes of the program, rooms that are too small, threads, and an interpreter
        that goes on meanwhile."""
        generated.write_squares(self.top, 20_000)
        tables = [self.top / f"{name}.csv" for name in NAMES]
        lpis.backend("library")
        made = lpis.cut(*tables)
        printed("cut", self.top, self.top / "cert.txt")
        assert made.data == (self.top / "cert.txt").read_bytes()
        with unittest.mock.patch.multiple("lpis.backends", LINE=1, CORNER=0):
            assert (lpis.cut(*tables), lpis.check(*tables, made).text) == (
                made,
                printed("check", self.top, self.top / "cert.txt"),
            )
        told = []
        threads = [threading.Thread(target=lambda: told.append(lpis.check(*tables, made).text)) for _ in range(2)]
        for thread in threads:
            thread.start()
        counted_meanwhile = 0
        while any(thread.is_alive() for thread in threads):
            time.sleep(0.001)
            counted_meanwhile += 1
        assert (len(told), len(set(told)), counted_meanwhile > 5) == (2, 1, True)


@pytest.mark.skipif(not BUILT, reason="the program is not built")
class TestRegisters(Case):
    def test_two_years(self):
        with pytest.raises(FileNotFoundError):
            lpis.Register(self.top / "r.db")
        register = lpis.Register(self.top / "r.db", new=True)
        assert (register.years, register.shapes(), (self.top / "r.db").exists()) == ((), {}, False)
        (self.top / "empty.db").touch()
        assert (lpis.Register(self.top / "empty.db").years, lpis.Register(self.top / "empty.db").shapes()) == ((), {})
        before, after = release("exact/2024"), release("exact/2025")
        first = register.publish(2024, *before)
        assert (first.year, first.lineage, first.area, register.years) == (2024, (), 9600, (2024,))
        with pytest.raises(FileExistsError):
            lpis.Register(self.top / "r.db", new=True)
        made, rows = lpis.cut(*after), [
            ("meadow", "meadow-1", 1),
            ("meadow", "meadow-2", 1),
            ("slope", "slope-1", 0),
            ("slope", "slope-2", None),
            ("yard", "farm", True),
        ]
        lineage = [dict(zip(("old", "new", "exact"), row)) for row in rows]
        for without in (made, None):
            assert self.refused(register.publish, 2025, *after, without, lineage).codes == ("85", "6a")
        assert self.refused(register.publish, 2024, *after, made, lineage).line == "refused 80 last 2024"
        wrong = self.refused(register.publish, 2025, *after, made, lineage[1:])
        assert (wrong.codes, wrong.row, wrong.table) == (("81", "78"), 1, "lineage")
        assert register.years == (2024,)
        published = register.publish(2025, *after, register.exact(*after, made, lineage), lineage)
        assert published.lineage == (
            lpis.Ending("meadow", "split", True),
            lpis.Ending("slope", "split", False),
            lpis.Ending("yard", "merged", True),
        )
        assert (lpis.Register(self.top / "r.db").years, register.trace("slope"), register.trace("farm")) == (
            (2024, 2025),
            ("slope-1", "slope-2"),
            ("farm",),
        )
        assert self.refused(register.trace, "nobody").code == "83"
        shapes = register.shapes()
        assert dict(zip(shapes, lpis.area(list(shapes.values())))) == {
            row.parcel: row.area for row in published.parcels
        }

    def test_no_register(self, monkeypatch):
        monkeypatch.chdir(self.top)
        path = pathlib.Path("-other.db")
        path.write_bytes(b"no database")
        for ask in (
            lambda: lpis.Register(path).years,
            lpis.Register(path).shapes,
            lambda: lpis.Register(path).trace("a"),
        ):
            with pytest.raises(lpis.Failed) as caught:
                ask()
        assert f"the register is {path}: it is no SQLite database" in str(caught.value)

    @staticmethod
    def waits(pid):
        return (
            pathlib.Path(f"/proc/{pid}/stat")
            .read_text(encoding="ascii", errors="replace")
            .rpartition(")")[2]
            .split()[0]
            == "S"
        )

    def test_interrupted(self):
        """A program that runs ends before the exception goes on."""
        program = self.top / "program"
        program.write_text(
            f"#!/bin/sh\n[ $1 = --version ] && echo lpis 1 && exit\necho $$ >{self.top}/pid\nexec sleep 60\n",
            encoding="ascii",
        )
        program.chmod(0o755)
        (self.top / "r.db").touch()
        text = f"import lpis; lpis.Register({str(self.top / 'r.db')!r}).trace('a')"
        with subprocess.Popen(
            [sys.executable, "-B", "-c", text],
            env={**os.environ, "PYTHONPATH": str(PYTHON / "src"), "LPIS": str(program)},
            stderr=subprocess.PIPE,
            preexec_fn=stopping.hears_signals,
        ) as process:
            while (
                not (self.top / "pid").exists()
                or not (self.top / "pid").read_text(encoding="ascii")
                or not self.waits(process.pid)
            ):
                time.sleep(0.01)
            process.send_signal(signal.SIGINT)
            assert b"KeyboardInterrupt" in process.stderr.read()
        assert not os.path.exists(f"/proc/{(self.top / 'pid').read_text(encoding='ascii').strip()}")


@pytest.mark.skipif(not (BUILT and shapely_there.python()), reason=shapely_there.LACKING)
class TestPreparing(Case):
    def rows(self, by=0.0):
        """Two fields of doubles, the second of which crosses the first by some metres."""
        shapes = {"west": square(550_000.1234, 5_400_000), "east": square(550_010.1234 - by, 5_400_000)}
        return [{"parcel": name, "geometry": shape} for name, shape in shapes.items()], [
            {"piece": name, "parcel": name, "class": "G", "geometry": shape} for name, shape in shapes.items()
        ]

    def test_tables(self):
        parcels, covers = self.rows()
        made = lpis.prepare(parcels, covers, {"G": 100}, out=self.top / "release")
        assert (made.is_written, made.findings) == (True, ()), made.said
        tables = made.parcels, made.covers, made.classes
        assert tables[0] == (self.top / "release" / "parcels.csv").read_bytes()
        assert lpis.check(*tables, lpis.cut(*tables)).area == 200
        again = lpis.prepare(parcels, covers, {"G": 100}, previous=self.top / "release")
        assert (again.parcels, again.is_written) == (made.parcels, True), again.said
        assert lpis.prepare(self.top / "release", out=self.top / "more").is_written

    def test_words(self):
        """A source by its path, with names of its own, land of nobody, and the names that an earlier year gave."""
        parcels, covers = self.rows(-0.5)
        parcels[0]["parcel"] = covers[0]["parcel"] = "Mühle"
        for name, rows in (("parcels", parcels), ("covers", covers)):
            (self.top / f"{name}.csv").write_bytes(lpis.table(rows, name).replace(b"parcel,wkt", b"block,wkt"))
        words = {"classes": {"G": 70}, "names": {"parcels.parcel": "block"}, "epsg": 25832}
        made = lpis.prepare(self.top, **words, between=1.5, out=self.top / "out")
        assert ([row["old"] for row in made.identifiers], [row["kind"] for row in made.settled].count("between")) == (
            ["Mühle"],
            1,
        ), made.said
        assert (
            lpis.prepare(str(self.top), **words, identifiers=self.top / "out" / "identifiers.csv").parcels
            == made.parcels
        )
        with pytest.raises(lpis.Failed, match=r"\Aprepare: --name parcels\.none=x: there is no parcels\.none"):
            lpis.prepare(self.top, names={"parcels.none": "x"})

    def test_findings(self):
        """What is wrong stops, until it is accepted."""
        parcels, covers = self.rows(0.5)
        stopped = lpis.prepare(parcels, covers, {"G": 100})
        assert (stopped.is_written, stopped.parcels, "overlap" in stopped.said) == (False, None, True), stopped.said
        with pytest.raises(ValueError, match="no parcels were written"):
            stopped.to_frame("parcels")
        for accept in (True, ["overlap", "outside", "changed", "lost"], "overlap,outside,changed,lost"):
            made = lpis.prepare(parcels, covers, {"G": 100}, accept=accept)
            assert (made.is_written, "overlap" in {row["kind"] for row in made.settled}) == (True, True), made.said
        for path, accept, words in (
            (self.top / "none.gpkg", (), "none.gpkg"),
            ("-none.gpkg", (), "-none.gpkg: No such file"),
            ("none", ["gaps"], "gaps is no kind of finding. Write one of table, system"),
        ):
            with pytest.raises(lpis.Failed, match=words):
                lpis.prepare(path, accept=accept)
        with pytest.raises(TypeError):
            lpis.prepare(parcels)
