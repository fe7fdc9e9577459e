"""Tests tools/report and the page of tools/faults, beside a stand-in for lpis, and with lpis itself where it is built
or named by LPIS. The page is opened by headless Chromium, which looks at the picture: left out where it is not
there."""

import json
import os
import re
import shutil
import subprocess
from pathlib import Path

import pytest
from lpis_helpers.browser import CHROMIUM, Browser
from lpis_helpers.calls import ended_with, tool
from lpis_helpers.places import BUILT, PACKAGE, TOOLS, TOP
from lpis_helpers.registers import RELEASE, SPAN, made
from lpis_helpers.spare import Spare, write_script
from lpis.report import html_page
from lpis.system import shapely_there

# Answers `yes` with the areas of the tables, or the line that LINE has; `cut` finds no fault.
STANDIN = f"""#!/usr/bin/env python3
import os, sys
sys.path.insert(0, {PACKAGE!r})
from lpis.formats import square_metres as areas; from lpis.formats import polygons; from lpis.report import release_report as report
if sys.argv[1] == "--version":
    print("lpis 9.8.7")
elif sys.argv[1] == "cut":
    print("triangles 0 pairs 0")
elif os.environ.get("LINE"):
    print(os.environ["LINE"])
    sys.exit(0 if os.environ["LINE"].endswith("yes") else 1)
else:
    land = report.read(sys.argv[2])
    print("parcels", len(land.parcels), "pieces", len(land.pieces))
    for name, members in land.parcels.items():
        share = sum(polygons.doubled(piece[3]) * land.percents[piece[2]] for piece in land.pieces if piece[1] == name)
        print("parcel", name, "area", areas.decimal(polygons.doubled(members), areas.AREA), "eligible", areas.decimal(share, areas.ELIGIBLE))
    sums = report.by_class(land)[1]
    print("total area", sums["area"], "eligible", sums["eligible"])
    print("yes")
"""  # noqa: E501


def square(x, y, width=10, height=10):
    return f'"POLYGON(({x} {y},{x + width} {y},{x + width} {y + height},{x} {y + height},{x} {y}))"'


def release(folder, names, move=0, lineage=None, width=10):
    """A row of squares, each of two pieces."""
    os.makedirs(folder)
    tables = {
        "parcels": ["parcel,wkt"],
        "covers": ["piece,parcel,class,wkt"],
        "classes": ["class,percent", "GRASS,100", "TREES,37"],
    }
    for number, name in enumerate(names):
        x = 550000 + 20 * number + move
        tables["parcels"].append(f"{name},{square(x, 5400000, width)}")
        tables["covers"] += [
            f"{name}.1,{name},GRASS,{square(x, 5400000, width, 4)}",
            f"{name}.2,{name},TREES,{square(x, 5400004, width, 6)}",
        ]
    if lineage is not None:
        tables["lineage"] = ["old,new", *lineage]
    for name, lines in tables.items():
        Path(folder, name + ".csv").write_text("\n".join(lines) + "\n", encoding="ascii")
    return folder


def unpacked(text):
    """The shapes in letters, as `page.js` reads them."""
    values, x, y = iter(html_page.LETTERS.index(letter) for letter in text), 0, 0

    def step():
        total, factor = 0, 1
        for value in values:
            total += (value & 31) * factor
            if value < 32:
                return -(total + 1) // 2 if total % 2 else total // 2
            factor *= 32
        raise StopIteration

    shapes = []
    while True:
        try:
            shapes.append([])
            for _ in range(step()):
                ring = []
                for _ in range(step()):
                    x, y = x + step(), y + step()
                    ring.append((x, y))
                shapes[-1].append(ring)
        except StopIteration:
            return shapes[:-1]


HELPERS = """
const results = {}, waited = () => new Promise(done => setTimeout(done, 2000));
const pixel = (x, y) => { const box = canvas.getBoundingClientRect(); return [box.left + 1 + (x - map.view.x) * map.view.scale, box.top + 1 + (y - map.view.y) * map.view.scale]; };
const point = (kind, x, y) => { const [clientX, clientY] = pixel(x, y); canvas.dispatchEvent(new PointerEvent(kind, { clientX, clientY, bubbles: true })); };
const colour = (x, y) => { const ratio = map.ratio, at = [(x - map.view.x) * map.view.scale, (y - map.view.y) * map.view.scale];
  return '#' + Array.from(canvas.getContext('2d').getImageData(at[0] * ratio, at[1] * ratio, 1, 1).data.slice(0, 3), n => n.toString(16).padStart(2, '0')).join(''); };
const named = (x, y) => { point('pointermove', x, y); const label = document.getElementById('name'); return label.hidden ? '' : label.textContent; };
const isInView = () => { const box = canvas.getBoundingClientRect(); return box.top >= 0 && box.bottom <= innerHeight; };
const first = number => Array.from(document.querySelectorAll('table.sorted')[number].tBodies[0].rows, row => row.cells[0].textContent);
const head = (number, text) => Array.from(document.querySelectorAll('table.sorted')[number].querySelectorAll('th')).find(one => one.textContent.startsWith(text));
"""  # noqa: E501


def tried(path, script, width=1200, height=900):
    """What a script puts into `results` in headless Chromium."""
    with Browser() as browser:
        browser.call(
            "Emulation.setDeviceMetricsOverride", width=width, height=height, deviceScaleFactor=1, mobile=False
        )
        browser.open(path, "document.readyState === 'complete'")
        return browser.value(f"(async () => {{ {HELPERS} {script} return results; }})()")


class TestReports(Spare):
    def set_up(self):
        self.program = self.path("lpis")
        write_script(STANDIN, self.program)
        Path(self.path("facts")).write_text("commit 0123456789ab\nkit rattle-kit-0 logic 1\n", encoding="utf-8")
        Path(self.path("cert.txt")).write_text("lpis-cert 2\n", encoding="utf-8")
        self.release = release(self.path("release"), ["A", "B", "C"])

    def report(self, *words, line="", folder=None, cert=("cert.txt",)):
        run = subprocess.run(
            [
                os.path.join(TOOLS, "report"),
                folder or self.release,
                *map(self.path, cert),
                "--json",
                self.path("r.json"),
                "--html",
                self.path("r.html"),
                "--lpis",
                self.program,
                *words,
            ],
            capture_output=True,
            text=True,
            check=False,
            env={**os.environ, "LINE": line},
        )
        told = None
        if os.path.exists(self.path("r.json")):
            told = json.loads(Path(self.path("r.json")).read_text(encoding="utf-8"))
        return run, told

    def bytes_of_release(self):
        return [path.read_bytes() for path in sorted(Path(self.release).iterdir())]

    def html(self):
        return Path(self.path("r.html")).read_text(encoding="utf-8")

    def shapes(self):
        return json.loads(
            re.search(r'<script id="data" type="application/json">(.*?)</script>', self.html(), re.DOTALL)[1]
        )["map"]

    def test_yes(self):
        run, told = self.report()
        assert (run.returncode, run.stdout.splitlines()[0]) == (0, "yes"), run.stderr
        assert (told["answer"], told["status"], told["parcels"], told["pieces"], told["area"], told["eligible"]) == (
            "yes",
            0,
            3,
            6,
            "300.0000000",
            "186.600000000",
        )
        assert told["classes"][1] == {
            "class": "TREES",
            "percent": 37,
            "pieces": 3,
            "area": "180.0000000",
            "eligible": "66.600000000",
        }
        assert (told["extent"]["least_x"], told["extent"]["greatest_x"], told["extent"]["height"]) == (
            "550000.000",
            "550050.000",
            "10.000",
        )
        assert (told["program"]["version"], told["program"]["commit"], told["program"]["kit"]) == (
            "lpis 9.8.7",
            "0123456789ab",
            "rattle-kit-0 logic 1",
        )
        sums = subprocess.run(
            ["sha256sum", os.path.join(self.release, "covers.csv"), self.program],
            capture_output=True,
            text=True,
            check=True,
        ).stdout.split()
        assert (told["files"]["covers.csv"]["sha256"], told["program"]["sha256"]) == (sums[0], sums[2])
        assert re.search(r"^\d{4}-\d\d-\d\dT\d\d:\d\d:\d\dZ$", told["date"])
        text = self.html()
        shapes = self.shapes()
        assert (shapes["pieces"]["count"], shapes["parcels"]["names"], text.count("<td>A</td>")) == (
            6,
            ["A", "B", "C"],
            1,
        )
        assert not re.search(r"https?:|<link|<img|@import|src=", text)
        for words in (
            "area m\u00b2<small>in all 0.0300 ha",
            "300.0000000 m\u00b2 (0.0300 ha)",
            "</i>GRASS</span>",
            "</i>TREES</span>",
            "</i>border of a parcel</span>",
        ):
            assert words in text
        assert "fault" not in text.split('class="legend"')[1].split("</p>")[0]
        assert told["files"]["certificate"]["sha256"] in text

    def test_refused(self):
        run, told = self.report(line="refused 41 parcels A B at 550005000 5400005000 1")
        assert (run.returncode, told["status"], told["refusal"]["code"], told["refusal"]["identifiers"]) == (
            1,
            1,
            "41",
            ["A", "B"],
        ), run.stderr
        assert told["refusal"]["place"] == ["550005.000000", "5400005.000000"]
        assert any("overlap" in words for words in told["refusal"]["words"])
        assert len(self.shapes()["marks"]) == 1
        assert "</i>faults: 1</span>" in self.html()
        for line, words in (
            ("failed read cert", "an input could not be opened or read"),
            ("refused 41 A", "docs/FORMATS.md has no such line"),
        ):
            assert words in self.report(line=line)[1]["refusal"]["words"][0]

    def test_difference(self):
        new = release(self.path("new"), ["A", "B2", "B3"], lineage=["B,B2", "B,B3", "X,"], width=11)
        run, told = self.report("--diff", self.release, folder=new)
        assert "new 2 gone 2 changed 1 kept 0" in run.stdout
        difference = told["difference"]
        assert [(row["parcel"], row["from"]) for row in difference["new"]] == [("B2", ["B"]), ("B3", ["B"])]
        assert [(row["parcel"], row["to"], row["explained"]) for row in difference["gone"]] == [
            ("B", ["B2", "B3"], True),
            ("C", [], False),
        ]
        assert (
            difference["changed"][0]["before"],
            difference["changed"][0]["after"],
            difference["changed"][0]["difference"],
        ) == ("100.0000000", "110.0000000", "10.0000000")
        for words in (
            "no row of lineage explains it",
            "</i>new: 2</span>",
            "</i>with another area: 1</span>",
            "</i>gone, with its last shape: 2</span>",
        ):
            assert words in self.html()
        assert "</i>moved" not in self.html()
        assert (self.shapes()["old"]["names"], self.shapes()["parcels"]["kinds"]) == (
            ["B", "C"],
            [[0, "changed"], [1, "new"], [2, "new"]],
        )
        moved = release(self.path("moved"), ["A", "B", "C"], move=1)
        assert self.report("--diff", self.release, folder=moved)[1]["difference"]["other_shape_same_area"] == [
            "A",
            "B",
            "C",
        ]
        assert self.report("--diff", self.path("none"))[0].returncode == 64

    def test_years_of_a_register(self):
        made(
            self.path("r.db"),
            RELEASE,
            SPAN,
            (
                "INSERT INTO lpis_release VALUES (2025), (2024), (2027); INSERT INTO lpis_span VALUES ('A', 2024, 0),"
                " ('B', 2024, 2025)"
            ),
        )
        run, told = self.report("--register", self.path("r.db"))
        assert (told["register"]["years"], told["register"]["live"]) == ([2024, 2025, 2027], 1), run.stderr
        assert "r.db: 3 years (2024 to 2027), 1 live identifier of 2, 0 shapes" in run.stdout
        assert "3 years (2024 to 2027)" in self.html()
        Path(self.path("empty.db")).touch()
        assert "empty.db: no year is published in it" in self.report("--register", self.path("empty.db"))[0].stdout
        before = self.bytes_of_release()
        for word, path, told in (
            ("--register", self.path("none.db"), "is no register"),
            ("--register", self.path("cert.txt"), "is no register"),
            ("--html", f"{self.release}/parcels.csv", "no html of this tool"),
            ("--json", f"{self.release}/classes.csv", "no json of this tool"),
            ("--html", self.path("r.json"), "are one file: name two"),
        ):
            run, _ = self.report(word, path)
            assert (run.returncode, told in run.stderr, self.bytes_of_release()) == (64, True, before), run.stderr

    def test_stray(self):
        folder = release(self.path("far"), [f"P{number}" for number in range(20)])
        assert self.report(folder=folder)[1]["extent"]["stray"] == []
        for name in ("parcels", "covers"):
            path = os.path.join(folder, name + ".csv")
            text = Path(path).read_text(encoding="ascii")
            Path(path).write_text(
                re.sub(r"(?m)^(P7[.,].*)$", lambda line: line[1].replace("5501", "3501"), text), encoding="ascii"
            )
        assert self.report(folder=folder)[1]["extent"]["stray"] == ["P7"]

    def test_wrong_sums(self):
        text = Path(self.program).read_text(encoding="utf-8")
        Path(self.program).write_text(
            text.replace('print("total area", sums["area"]', 'print("total area", "299.9999999"'), encoding="utf-8"
        )
        run, told = self.report()
        assert (run.returncode, told) == (64, None)
        assert "one of the two is wrong" in run.stderr

    @pytest.mark.skipif(not shapely_there.python(), reason="no Shapely (Debian: python3-shapely)")
    def test_moved(self):
        """Two that exchanged their names share nothing; one moved by two thirds of its length shares less than half."""
        new = release(self.path("new"), ["B", "A", "C"])
        for name in ("parcels", "covers"):
            path = os.path.join(new, name + ".csv")
            text = Path(path).read_text(encoding="ascii")
            text = re.sub(
                "5500([45])([07])",
                lambda found: f"5500{found[1]}{6 if found[2] == '0' else 7}" if found[0] != "550050" else "550056",
                text,
            )
            Path(path).write_text(text, encoding="ascii")
        run, told = self.report("--diff", self.release, folder=new)
        assert [row["parcel"] for row in told["difference"]["moved"]] == ["A", "B", "C"], run.stderr
        assert ["share nothing" in row["words"] for row in told["difference"]["moved"]] == [True, True, False]
        assert "moved C: its old and its new shape share 40 percent" in run.stdout
        assert "</i>moved, with the same identifier: 6</span>" in self.html()
        assert self.shapes()["old"]["words"] == ["before it moved"] * 3

    def test_names_are_text(self):
        shape = [[[(0, 0), (1, 0), (1, 1), (0, 0)]]]
        chart = html_page.Map(
            html_page.Layer(["<p>"], [shape], ["</script>"]),
            html_page.Layer(["<q>"], [shape], classes=["<c>"]),
            marks=[(0, 0, "<m>")],
        )
        text = html_page.page("<t>", "<a>", True, [("<f>", "<&>")], chart, [html_page.Table("<h>", ["<c>"], [["<d>"]])])
        assert not re.search(r"<(t|a|f|&|q|m|c|h|d)>|<p>(?!<)", text.replace("<p></p>", ""))
        assert text.count("</script>") == 2

    @pytest.mark.parametrize(
        "shapes",
        (
            [[[[(0, 0), (5, 0), (5, 5), (0, 0)]]]],
            [
                [
                    [
                        [
                            (550_000_123, 5_400_000_456),
                            (1, 2),
                            (-20_000_000_000, 20_000_000_000),
                            (550_000_123, 5_400_000_456),
                        ],
                        [(3, 3), (4, 3), (4, 4), (3, 3)],
                    ]
                ],
                [[[(7, 7), (8, 7), (8, 8)]], [[(9, 9), (9, 8), (8, 8)]]],
            ],
        ),
    )
    def test_packed_shapes(self, shapes):
        layer = html_page.Layer([str(number) for number in range(len(shapes))], shapes)
        chart = html_page.Map(layer)
        found, wanted = unpacked(chart.packed(layer, {})["text"]), [
            [ring[:-1] if ring[0] == ring[-1] else ring for member in members for ring in member] for members in shapes
        ]
        assert [[len(ring) for ring in rings] for rings in found] == [[len(ring) for ring in rings] for rings in wanted]
        for x, y, (px, py) in (
            (x, y, point)
            for rings, others in zip(found, wanted)
            for ring, other in zip(rings, others)
            for (x, y), point in zip(ring, other)
        ):
            assert max(abs(chart.left + chart.unit * x - px), abs(chart.top - chart.unit * y - py)) < chart.unit

    @pytest.mark.parametrize("count", (1, 12, 13, 40))
    def test_colours(self, count):
        fills = html_page.fills_of([f"c{number}" for number in range(count)])
        assert len(set(fills.values())) == count

    def test_country(self):
        folder = os.path.join(TOP, "examples", "country")
        line = (
            "region west parcels 3 pieces 4 area 96.0000000 eligible 90.960000000\nregion southeast parcels 3 pieces 4"
            " area 56.0000000 eligible 50.960000000\nregion northeast parcels 2 pieces 2 area 40.0000000 eligible"
            " 40.000000000\ncountry regions 3 parcels 4 pieces 5 area 120.0000000 eligible 114.960000000\nyes"
        )
        run, told = self.report(line=line, folder=folder, cert=())
        assert (run.returncode, told["country"]["parcels"], [row["area"] for row in told["regions"]]) == (
            0,
            4,
            ["96.0000000", "56.0000000", "40.0000000"],
        ), run.stderr
        assert "region west parcels 3 pieces 4 area 96.0000000 (0.0096 ha)" in run.stdout
        for words in (
            "in the country 0.0120 ha",
            "<td>southeast</td>",
            "</i>border of a region</span>",
            told["files"]["west/parcels.csv"]["sha256"],
        ):
            assert words in self.html()
        assert (self.shapes()["tiles"]["names"], self.shapes()["cells"]["counts"]) == (
            ["west", "southeast", "northeast"],
            [],  # nothing was found
        )
        run, told = self.report(line=line.replace("regions 3 parcels 4", "regions 3 parcels 5"), folder=folder, cert=())
        assert (run.returncode, "one of the two is wrong" in run.stderr) == (64, True)
        run, told = self.report(
            line=line.split("region southeast")[0] + "refused 43 parcel A at 1 1 1 region southeast",
            folder=folder,
            cert=(),
        )
        assert (run.returncode, [("area" in row) for row in told["regions"]], len(self.shapes()["marks"])) == (
            1,
            [True, False, False],
            1,
        ), run.stderr
        for words in (["--audit"], ["--diff", self.path("none")]):
            assert self.report(*words, folder=folder, cert=())[0].returncode == 64

    def test_country_with_a_register(self):
        folder = shutil.copytree(os.path.join(TOP, "examples", "country"), self.path("land"))
        for region in ("west", "southeast", "northeast"):
            Path(folder, region, "lineage.csv").write_text(f"old,new\n{region},\n", encoding="ascii")
        made(
            self.path("r.db"),
            RELEASE,
            SPAN,
            "INSERT INTO lpis_release VALUES (2025); INSERT INTO lpis_span VALUES ('A', 2025, 0)",
        )
        run, told = self.report("--register", self.path("r.db"), folder=folder)
        assert (run.returncode, told, f"{folder} is a country: name no certificate CERT" in run.stderr) == (
            64,
            None,
            True,
        ), run.stderr
        run, told = self.report(
            "--register", self.path("r.db"), line="refused 90 country line 1", folder=folder, cert=()
        )
        assert (run.returncode, run.stdout.splitlines()[-1], told["register"]["years"]) == (
            1,
            "register 1 year (2025), 1 live identifier of 1, 0 shapes",
            [2025],
        ), run.stderr
        assert {"classes.csv", "west/lineage.csv", "northeast/lineage.csv"} <= set(told["files"]), sorted(told["files"])
        assert "1 year (2025)" in self.html()

    @pytest.mark.skipif(not CHROMIUM, reason="no Chromium (Debian: chromium)")
    def test_in_a_browser(self):
        """Colours, names, search, rows, heads, wheel and drag, at the size of a desk and of a telephone."""
        new = release(self.path("wide"), ["B2", "C", "A"], lineage=["B,B2"], width=11)
        last = shutil.copytree(self.release, self.path("wider_than_a_telephone" * 5))
        self.report("--diff", last, folder=new)
        script = """
          results.whole = map.view.scale; results.drawn = canvas.dataset.drawn;
          results.colours = [colour(5500, 8000), colour(5500, 3000), colour(15000, 3000)];
          results.names = [named(5500, 8000), named(45500, 3000), named(15000, 3000)];
          head(2, 'parcel').click(); results.up = first(2); head(2, 'parcel').click(); results.down = first(2);
          document.body.style.paddingBottom = '3000px';
          window.scrollTo(0, document.body.scrollHeight); results.away = isInView();
          document.querySelectorAll('table.sorted')[2].querySelector('tr.row').click();
          results.back = isInView(); results.near = map.view.scale; results.chosen = map.chosen[0].names[map.chosen[1]];
          map.fit(data.map.first);
          const input = document.getElementById('search'); input.value = 'b2'; input.dispatchEvent(new Event('input'));
          results.found = document.getElementById('found').textContent; input.dispatchEvent(new KeyboardEvent('keydown', { key: 'Enter' }));
          results.searched = map.chosen[0].names[map.chosen[1]];
          input.value = 'nobody'; input.dispatchEvent(new Event('input')); results.none = document.getElementById('found').textContent;
          map.fit(data.map.first); document.querySelector('[data-zoom]').click(); results.button = map.view.scale;
          map.fit(data.map.first); canvas.dispatchEvent(new WheelEvent('wheel', { deltaY: -1, clientX: 300, clientY: 300 })); results.wheel = map.view.scale;
          map.fit(data.map.first); const left = map.view.x; point('pointerdown', 0, 0); point('pointermove', 9000, 0); point('pointerup', 9000, 0); results.dragged = map.view.x < left;
          point('pointerdown', 1000, 8000); point('pointerup', 1000, 8000); results.tapped = document.getElementById('name').textContent;
          results.wide = document.documentElement.scrollWidth <= innerWidth;
        """  # noqa: E501
        for size in ((1200, 900), (390, 844)):
            found = tried(self.path("r.html"), script, *size)
            assert (found["drawn"], found["colours"]) == (
                "parcels 3 pieces 6",
                [html_page.FILLS[0], html_page.FILLS[1], "#ffffff"],
            )
            assert [name.split("\n")[:2] for name in found["names"]] == [
                ["parcel B2", "piece B2.1 GRASS"],
                ["parcel A", "piece A.2 TREES"],
                [""],
            ]
            assert (found["up"], found["down"]) == (["A", "B2", "C"], ["C", "B2", "A"])
            assert (found["away"], found["back"], found["near"] > found["whole"], found["chosen"]) == (
                False,
                True,
                True,
                "C",
            )
            assert (found["found"], found["searched"], found["none"]) == ("B2B2.1B2.2", "B2", "none found")
            assert (
                found["button"] > found["whole"],
                found["wheel"] > found["whole"],
                found["dragged"],
                found["wide"],
            ) == (True, True, True, True)
            assert "parcel" in found["tapped"]

    @pytest.mark.skipif(not CHROMIUM, reason="no Chromium (Debian: chromium)")
    def test_many_shapes_in_a_browser(self):
        """Of 20,001 parcels, one of which lies far away, the pieces are drawn where the map is enlarged, and the
        rest of a table comes on demand."""
        parcels, pieces = html_page.Layer(), html_page.Layer(classes=[])
        for number in range(20_001):
            x, y = (number % 200 * 100_000, number // 200 * 100_000) if number else (900_000_000, 0)
            for layer, name, left, right in (
                (parcels, f"P{number}", x, x + 90_000),
                (pieces, f"P{number}.1", x, x + 40_000),
                (pieces, f"P{number}.2", x + 40_000, x + 90_000),
            ):
                layer.add(name, [[[(left, y), (right, y), (right, y + 90_000), (left, y + 90_000), (left, y)]]])
            pieces.classes += ["G", "W"]
        chart = html_page.Map(parcels, pieces, strays=["P0"])
        rows = html_page.Table(
            "Parcels",
            ["parcel", "#area m\u00b2"],
            [[name, 8100] for name in parcels.names],
            [("parcels", number) for number in range(20_001)],
        )
        Path(self.path("m.html")).write_text(html_page.page("many", "yes", True, [], chart, [rows]), encoding="utf-8")
        found = tried(
            self.path("m.html"),
            """
          await waited(); results.first = canvas.dataset.drawn; results.rows = first(0).length;
          document.querySelector('#more0 button').click(); results.more = first(0).length;
          map.go('parcels', 12345); await waited(); results.near = canvas.dataset.drawn;
          const [left, top] = map.parcels.boxes.subarray(4 * 12345, 4 * 12345 + 2);
          results.colours = [colour(left + 20000, top + 45000), colour(left + 60000, top + 45000)]; results.name = named(left + 60000, top + 45000);
          document.querySelector('[data-show=whole]').click(); await waited(); results.whole = canvas.dataset.drawn;
        """,  # noqa: E501
        )
        assert (found["first"], found["whole"]) == ("parcels 20000 pieces 40000", "parcels 20001 pieces 40002")
        assert (found["rows"], found["more"]) == (html_page.FIRST_ROWS, html_page.FIRST_ROWS + 500)
        assert int(found["near"].split()[1]) < 30
        assert (found["colours"], found["name"]) == (
            [html_page.FILLS[0], html_page.FILLS[1]],
            "parcel P12345\npiece P12345.2 W",
        )

    @pytest.mark.skipif(not BUILT, reason="the program is not built")
    def test_a_release_that_cut_refused(self):
        """Without a certificate, since the cut was refused, the report has the faults as polygons; where the cut is
        not refused, the certificate is missing."""
        self.program = BUILT
        os.remove(self.path("cert.txt"))
        run, told = self.report(folder=os.path.join(TOP, "examples", "overlap"))
        assert (run.returncode, run.stdout.splitlines()[0], told["status"]) == (
            1,
            "refused 41 parcels west east at 50020 23980 1",
            1,
        ), run.stderr
        assert (
            "faults 1\n  overlap west east (parcels 1), 3.000 m\u00b2, 0.100 m wide, at 50.020 23.980: 41: two parcels"
            in run.stdout
        )
        assert (told["faults"][0]["width_m"], told["faults"][0]["area_m2"], told["faults"][0]["row"]) == (
            pytest.approx(0.1, abs=0.001),
            3.0,
            1,
        )
        assert (self.shapes()["findings"]["names"], "answer of lpis check" in self.html()) == (
            ["overlap west east"],
            True,
        )
        said, page = run.stdout, self.html()
        run, unnamed = self.report(folder=os.path.join(TOP, "examples", "overlap"), cert=())
        times = re.compile(r"\d+-\d+-\d+T[\d:]+Z")
        assert (run.stdout, times.sub("", self.html())) == (said, times.sub("", page))
        assert {**unnamed, "date": ""} == {**told, "date": ""}
        run, told = self.report()
        assert (run.returncode, told["answer"], told["faults"]) == (3, "failed read cert", []), run.stderr

    @pytest.mark.skipif(not BUILT, reason="the program is not built")
    def test_without_a_certificate(self):
        """None is named in the report; the second checker gets one that is let go, but of a release that has none."""
        self.program, square = BUILT, os.path.join(TOP, "examples", "square")
        run, told = self.report("--audit", folder=square, cert=())
        assert (run.returncode, told["answer"], "certificate" in told["files"]) == (0, "yes", False), run.stderr
        assert "two programs agree: yes, and their reports are equal" in run.stdout
        run, told = self.report("--audit", folder=os.path.join(TOP, "examples", "overlap"), cert=())
        assert (run.returncode, told["status"]) == (1, 1), run.stderr
        assert (
            "the second checker was not asked, since the release gets no certificate: refused 41 parcels west east"
            in run.stdout
        )

    @pytest.mark.skipif(not BUILT, reason="the program is not built")
    def test_of_the_program(self):
        cert = self.path("cert.txt")
        for folder in ("square", "overlap"):
            source = os.path.join(TOP, "examples", folder)
            subprocess.run([BUILT, "cut", source, cert], capture_output=True, check=False)
            self.program = BUILT
            run, told = self.report(folder=source)
            if folder == "square":
                assert (run.returncode, told["answer"], told["area"], told["eligible"]) == (
                    0,
                    "yes",
                    "100.0000000",
                    "68.500000000",
                ), run.stderr
            else:
                assert (run.returncode, told["status"] in (1, 2), "faults" in told) == (
                    told["status"],
                    True,
                    True,
                ), run.stderr
                assert self.shapes()["findings"]["count"] > 0
        out = self.path("faults.html")
        ended_with(
            1,
            tool(
                "faults",
                os.path.join(TOP, "examples", "overlap"),
                self.path("f.geojson"),
                "--html",
                out,
                "--lpis",
                BUILT,
            ),
        )
        assert "</i>stops: 1</span>" in Path(out).read_text(encoding="utf-8")
