"""Tests the page that checks a release in a browser, and the library: the module beside the native program, byte for
byte; the examples in C and Python; the page in headless Chromium. The page is built anew where the crates that it
stands on are proved by `rt lib` (dev/library), in five minutes. What wants Node, binaryen, Chromium, a C compiler or
the kit is left out where it is not there. It takes a sample: with WHOLE=1 200 generated releases, 60,000 parcels in
the browser, and a second build of the page."""

import contextlib
import json
import os
import random
import shutil
import subprocess
import sys
from pathlib import Path

import pytest
from lpis_helpers.spare import Spare
from lpis_helpers.browser import Browser
from lpis_helpers.page_case import (
    CC,
    EXAMPLES,
    SOURCES,
    TESTS,
    TOP,
    WHOLE,
    built,
    native,
    node,
    read,
    releases_of,
    wanted,
)
from lpis.faults import explanation
from lpis.report import release_report
from lpis_helpers import dirty, nasty_shapes
from lpis_helpers.tables import write_squares

# generated releases, of which a half has faults; parcels in the browser
RELEASES, MANY = (200, 60_000) if WHOLE else (20, 5_000)


class Cases:
    """Calls of the module, and what the native program answers to the same files."""

    def __init__(self, folder):
        self.folder, self.cases = folder, []

    def file(self, data):
        path = os.path.join(self.folder, f"f{len(os.listdir(self.folder))}")
        Path(path).write_bytes(data)
        return path

    def add(self, call, name, inputs, words, cert=""):
        status, text = native(*words)
        self.cases.append(
            {"name": name, "call": call, "inputs": inputs, "status": status, "text": self.file(text), "cert": cert}
        )
        return status, text

    def tables(self, release):
        return [os.path.join(release, f"{name}.csv") for name in ("parcels", "covers", "classes")]

    def area(self, path):
        self.add("area", f"area {path}", [path], ["area", path])

    def cut(self, release):
        cert = os.path.join(self.folder, f"c{len(os.listdir(self.folder))}")
        self.add("cut", f"cut {release}", self.tables(release), ["cut", release, cert], cert)
        return cert if os.path.exists(cert) else None

    def check(self, release, cert):
        self.add("check", f"check {release} {cert}", [*self.tables(release), cert], ["check", release, cert])

    def differ(self):
        module = os.path.join(TOP, "out", "page", "page.wasm")
        return node("calls", module=module, cases=self.cases)["differ"]


def damaged(cert, numbers):
    """A certificate with one byte changed."""
    data = bytearray(cert)
    data[numbers.randrange(len(data))] = numbers.choice(b"0123456789 \n-t")
    return bytes(data)


class TestModule:
    @pytest.fixture(autouse=True)
    def begin(self):
        wanted("NODE", "page")

    def test_worked_rows(self, tmp_path):
        cases = Cases(tmp_path)
        older = os.path.join(EXAMPLES, "older", "cert.txt")
        for release in releases_of(EXAMPLES):
            cert = cases.cut(release)
            for one in filter(None, (cert, older, os.path.join(release, "classes.csv"))):
                cases.check(release, one)
        for place, _, names in os.walk(EXAMPLES):
            for name in names:
                if name.endswith(".csv"):
                    cases.area(os.path.join(place, name))
        cases.area(cases.file(b""))
        assert len(cases.cases) > 100
        assert cases.differ() == []

    def test_generated_releases(self, tmp_path):
        numbers = random.Random(61)
        (tmp_path / "files").mkdir()
        cases, last = Cases(tmp_path / "files"), None
        for number in range(RELEASES):
            release = os.path.join(tmp_path, f"r{number}")
            nasty_shapes.Release(number, number % 2 == 1).write(release)
            cert = cases.cut(release)
            for one in filter(None, (cert, last)):
                cases.check(release, one)
                cases.check(release, cases.file(damaged(read(one), numbers)))
            last = cert or last
        assert len(cases.cases) > 4 * RELEASES
        assert cases.differ() == []
        statuses = {case["status"] for case in cases.cases}
        assert statuses == {0, 1, 2}

    def test_memory_and_room(self, tmp_path):
        release, cert = os.path.join(tmp_path, "r"), os.path.join(tmp_path, "cert")
        write_squares(release, 3000)
        native("cut", release, cert)
        status, text = native("check", release, cert)
        inputs = [os.path.join(release, f"{name}.csv") for name in ("parcels", "covers", "classes")] + [cert]
        found = node(
            "memory",
            module=os.path.join(TOP, "out", "page", "page.wasm"),
            inputs=inputs,
            pages=[0, 3, 20, 60, 100, 2000],
            room=1000,
        )
        assert status == 0
        for answer in found["few"]:
            assert (answer["isAnswered"], answer["status"], answer["length"]) in [(False, 3, 0), (True, 0, len(text))]
        assert [found["few"][0]["isAnswered"], found["few"][-1]["isAnswered"]] == [False, True]
        assert found["small"] == {"isAnswered": False, "length": len(text)}
        assert found["whole"] == {"isAnswered": True, "length": len(text)}


class TestLibrary(Spare):
    def set_up(self):
        wanted("page")

    def cases(self):
        certs = {}
        for release in ("exact/2024", "holes", "members", "overlap", "older"):
            path, cert = os.path.join(EXAMPLES, release), os.path.join(self.folder, "cert")
            if native("cut", path, cert)[0] == 0:
                certs[path] = cert + release.replace("/", "-")
                os.rename(cert, certs[path])
        empty = os.path.join(self.folder, "empty")
        open(empty, "w", encoding="ascii").close()
        overlap = os.path.join(EXAMPLES, "overlap")
        return [*certs.items(), (overlap, next(iter(certs.values()))), (overlap, empty)]

    def expect_same(self, *command):
        for release, cert in self.cases():
            # an example lets go of what it read by ending
            environment = {**os.environ, "ASAN_OPTIONS": "detect_leaks=0"}
            run = subprocess.run([*command, release, cert], capture_output=True, check=False, env=environment)
            assert (run.returncode, run.stdout) == native("check", release, cert), run.stderr

    def test_example_in_c(self):
        wanted("CC")
        library = os.path.join(TOP, "out", "library")
        program = os.path.join(self.folder, "check")
        subprocess.run(
            [CC, "-Wall", "-Wextra", "-Werror", f"{library}/check.c", f"{library}/liblpis.a", "-o", program], check=True
        )
        self.expect_same(program)

    def test_example_in_c_over_the_heap_of_the_page(self):
        """The proved code natively, with the heap of the page and AddressSanitizer in place of malloc."""
        wanted("CC")
        program, crate = os.path.join(self.folder, "check"), os.path.join(
            TOP, "crates", "lpis_page", "out", "liblpis_page.a"
        )
        sources = [
            os.path.join(TOP, "library", "check.c"),
            os.path.join(SOURCES, "heap.c"),
            os.path.join(TESTS, "memory.c"),
            os.path.join(TESTS, "lent.c"),
        ]
        made = subprocess.run(
            [CC, "-g", "-O1", "-fsanitize=address", *sources, crate, "-o", program],
            capture_output=True,
            text=True,
            check=False,
        )
        if made.returncode:
            raise pytest.skip.Exception("the C compiler has no AddressSanitizer")
        self.expect_same(program)

    def test_example_in_python(self):
        library = os.path.join(TOP, "out", "library")
        self.expect_same(sys.executable, os.path.join(library, "check.py"), os.path.join(library, "liblpis.so"))


class TestPage(Spare):
    """The page in a browser: what an auditor does and sees."""

    def set_up(self):
        wanted("CHROMIUM", "page")
        self.page = built()[0]

    @pytest.fixture(autouse=True)
    def opened(self):
        with contextlib.ExitStack() as self.browsers:
            yield

    def browser(self, *words):
        browser = self.browsers.enter_context(Browser(*words))
        browser.open(self.page, "document.body?.dataset.state === 'ready'")
        return browser

    def text(self, browser, name):
        return browser.value(f"document.getElementById({name!r}).innerText")

    def finish(self, browser, seconds=120):
        browser.wait(
            (
                "document.getElementById('verdict').className !== 'busy' && !document.body.classList.contains('busy')"
                " && !document.getElementById('result').hidden"
            ),
            seconds,
        )

    def copied(self, name):
        release = os.path.join(self.folder, os.path.basename(name))
        shutil.copytree(os.path.join(EXAMPLES, name), release)
        return release

    def expect_quiet(self, browser):
        assert browser.errors() == []
        assert [url for url in browser.requests() if not url.startswith("blob:") and url != "file://" + self.page] == []

    def test_a_folder_without_a_certificate(self):
        browser = self.browser()
        folder, cert = os.path.join(EXAMPLES, "exact", "2024"), os.path.join(self.folder, "cert")
        browser.drop("#drop", [self.copied("exact/2024")])
        self.finish(browser)
        assert "Yes: the release is a sound map." in self.text(browser, "verdict")
        assert "certificate: not needed" in self.text(browser, "have")
        assert "native program's answer is the one of record" in self.text(browser, "rests")
        assert "audit/release.py" in self.text(browser, "rests")
        facts = json.loads(browser.value("document.getElementById('facts').textContent"))
        for name in ("program", "module", "page"):
            assert facts[name] in self.text(browser, "digests")
        assert self.text(browser, "differs") + self.text(browser, "wrong") == ""
        status, text = native("check", folder)
        assert (status, browser.value("shown.result.text")) == (0, text.decode())
        browser.value("document.getElementById('cut').click()")  # to hand it over
        browser.wait("files.cert && shown?.isReport && !shown.isBusy")
        assert "and the certificate is good for it" in self.text(browser, "verdict")
        native("cut", folder, cert)
        assert browser.value("files.cert.text()") == read(cert).decode()
        assert browser.value("shown.result.text") == text.decode()
        browser.drop("#drop", [self.copied("overlap")])  # the yes was not about these files
        browser.wait("document.getElementById('verdict').textContent.startsWith('No: the release is refused.')")
        assert browser.value("!files.cert")
        self.expect_quiet(browser)

    def test_a_file_of_no_kind_is_told(self):
        """A GeoPackage, a table of another name, and what is neither; beside files of a release too."""
        package = dirty.make(os.path.join(self.folder, "land.gpkg"), [])
        for name, text in (("klassen.csv", "Klasse;Prozent\nAcker;100\n"), ("note.pdf", "%PDF-1.4")):
            Path(self.folder, name).write_text(text, encoding="utf-8")
        browser = self.browser()
        for name, words in (
            (package, "land.gpkg is a GeoPackage, and this page reads tables: lpis-check"),
            ("note.pdf", "note.pdf is none of the three tables"),
            ("klassen.csv", "klassen.csv is a table with the columns Klasse, Prozent. Its name does not say"),
        ):
            browser.drop("#drop", [os.path.join(self.folder, name)])
            browser.wait(f"document.getElementById('passed').innerText.includes({words!r})")
        release = self.copied("exact/2024")
        shutil.copy(package, release)
        browser.drop("#drop", [release])
        browser.wait(
            "!document.getElementById('cut').disabled && document.getElementById('passed').innerText.includes('is a"
            " GeoPackage')"
        )
        self.expect_quiet(browser)

    def test_the_map_is_above_the_digests(self):
        """It is reached by the tab key, has a label, and is moved by keys; so are rows and heads of tables."""
        browser = self.browser()
        browser.value("document.getElementById('good').click()")
        self.finish(browser)
        browser.wait("!document.getElementById('views').hidden")
        assert browser.value(
            "document.querySelector('canvas.map').getBoundingClientRect().top <"
            " document.getElementById('digests').getBoundingClientRect().top"
        )
        assert browser.value(
            "[document.querySelector('canvas.map').tabIndex,"
            " document.querySelector('canvas.map').ariaLabel.startsWith('Map. Arrow keys')]"
        ) == [0, True]
        for keys, element in (
            ("ArrowLeft + n p 0".split(), "canvas.map"),
            (["Enter"], "#classes th"),
            ([" "], "#parcels th"),
        ):
            for key in keys:
                browser.value(
                    f"document.querySelector({element!r}).dispatchEvent(new KeyboardEvent('keydown', {{ key:"
                    f" {key!r} }}))"
                )
        self.expect_quiet(browser)

    def test_tables_sort_and_are_saved(self):
        release, cert = self.copied("exact/2024"), os.path.join(self.folder, "cert.txt")
        native("cut", release, cert)
        browser = self.browser()
        browser.choose(
            "#files", [*(os.path.join(release, f"{name}.csv") for name in ("parcels", "covers", "classes")), cert]
        )
        self.finish(browser)
        browser.wait("!document.getElementById('views').hidden")
        column = "[...document.querySelectorAll('#parcels tbody tr')].map(row => row.cells[2].textContent)"
        before = browser.value(column)
        browser.value("document.querySelectorAll('#parcels th')[2].click()")
        assert browser.value(column) == sorted(before, key=float)
        browser.value("document.querySelectorAll('#parcels th')[2].click()")
        assert browser.value(column) == sorted(before, key=float, reverse=True)
        lines = browser.value("tables[1].csv()").splitlines()
        assert lines[0] == "parcel,pieces,area,eligible"
        told, _, totals = release_report.report_lines(browser.value("shown.result.text"))
        assert {line.split(",")[0]: tuple(line.split(",")[2:]) for line in lines[1:]} == {
            name: tuple(row.values()) for name, row in told.items()
        }
        assert totals["area"] in self.text(browser, "totals")
        assert "grass" in self.text(browser, "classes")

    def test_a_refusal_in_words(self):
        release = self.copied("overlap")
        browser = self.browser()
        browser.choose("#folder", [release])
        self.finish(browser)
        browser.wait("!document.getElementById('views').hidden")
        assert "No: the release is refused" in self.text(browser, "verdict")
        line = "refused 41 parcels west east at 50020 23980 1"
        assert self.text(browser, "line") == line
        assert self.text(browser, "sentences").splitlines() == [
            words.strip() for words in explanation.Explained(line, release).words
        ]
        assert browser.value("[data.map.marks.length, chart.old.names, chart.parcels.count]") == [
            1,
            ["west", "east"],
            2,
        ]
        assert (
            self.text(browser, "line") == native("cut", release, os.path.join(self.folder, "cert"))[1].decode().strip()
        )
        browser.value("document.getElementById('cut').click()")
        browser.wait("document.getElementById('verdict').textContent.includes('there is no certificate for it')")
        assert self.text(browser, "line") == line
        browser.value(
            "(() => { const s = document.getElementById('language'); s.value = 'de'; s.dispatchEvent(new"
            " Event('change')); })()"
        )
        assert "Nein: Der Jahresstand wird abgelehnt" in self.text(browser, "verdict")
        assert "übliche Ursache" in self.text(browser, "sentences")
        self.expect_quiet(browser)

    def test_a_damaged_certificate_and_a_damaged_table(self):
        release, cert = self.copied("holes"), os.path.join(self.folder, "cert.txt")
        native("cut", release, cert)
        with open(cert, "ab") as file:
            file.write(b"more\n")
        browser = self.browser()
        paths = [os.path.join(release, f"{name}.csv") for name in ("parcels", "covers", "classes")]
        browser.drop("#drop", [*paths, cert])
        self.finish(browser)
        assert "code 55" in self.text(browser, "sentences")
        assert "status 2" in self.text(browser, "verdict")
        with open(paths[1], "ab") as file:
            file.write(b"too,few\n")
        browser.drop("#drop", paths)
        browser.wait("document.getElementById('sentences').innerText.includes('code 30')")
        assert self.text(browser, "line") == native("check", release, cert)[1].decode().strip()

    def test_too_little_memory(self):
        release, cert = os.path.join(self.folder, "r"), os.path.join(self.folder, "cert.txt")
        write_squares(release, 3000)
        native("cut", release, cert)
        for pages, words in ((120, "No answer: out of memory"), (4000, "Yes")):
            browser = self.browser(f"--js-flags=--wasm-max-mem-pages={pages}")
            browser.drop(
                "#drop", [os.path.join(release, f"{name}.csv") for name in ("parcels", "covers", "classes")] + [cert]
            )
            self.finish(browser)
            assert words in self.text(browser, "verdict")

    def test_many_parcels(self):
        release, cert = os.path.join(self.folder, "r"), os.path.join(self.folder, "cert.txt")
        write_squares(release, MANY)
        native("cut", release, cert)
        browser = self.browser()
        browser.value("window.ticks = 0, setInterval(() => ticks++, 10)")
        browser.drop(
            "#drop", [os.path.join(release, f"{name}.csv") for name in ("parcels", "covers", "classes")] + [cert]
        )
        self.finish(browser, 400)
        browser.wait("!document.getElementById('views').hidden", 200)
        assert browser.value("shown.result.text") == native("check", release, cert)[1].decode()
        assert browser.value("ticks") > 20
        assert browser.value("chart.parcels.count") == MANY
        assert f"{MANY - 1000} more rows" in self.text(browser, "parcels")

    def test_areas_of_a_table(self):
        browser, square = self.browser(), os.path.join(EXAMPLES, "square.csv")
        browser.choose("#area", [square])
        self.finish(browser)
        assert (self.text(browser, "line"), browser.value("shown.result.text").encode()) == (
            "",
            native("area", square)[1],
        )
        assert browser.value("tables[0].csv()").splitlines() == [
            "number,name,area",
            f"1,{browser.value('shown.result.rows[0]')},100.0000000",
        ]
        table = os.path.join(self.folder, "shapes.csv")
        Path(table).write_text('name,wkt\nA,"POLYGON((0 0,1.2345 0,0 1,0 0))"\n', encoding="ascii")
        browser.choose("#area", [table])
        browser.wait("document.getElementById('sentences').innerText.includes('code 14')")
        assert self.text(browser, "line") == native("area", table)[1].decode().strip()
        self.expect_quiet(browser)

    def test_an_example_is_a_click_away(self):
        """Each button's answer and map are those of its release; the files of one's own take the place of the
        example's."""
        browser = self.browser()
        for button, name, words in (
            ("good", "pasture", "Yes: the release is a sound map"),
            ("faulty", "overlap", "No: the release is refused"),
            ("good", "pasture", "Yes"),
        ):
            browser.value(f"document.getElementById('{button}').click()")
            self.finish(browser)
            browser.wait("!document.getElementById('views').hidden")
            assert words in self.text(browser, "verdict")
            assert browser.value("shown.result.text") == native("check", os.path.join(EXAMPLES, name))[1].decode()
        browser.drop("#drop", [os.path.join(self.copied("holes"), "parcels.csv")])
        browser.wait(
            "document.getElementById('result').hidden && files.parcels && !files.covers && !files.classes &&"
            " !files.cert"
        )
        self.expect_quiet(browser)

    def test_what_leaves_the_page(self):
        browser = self.browser()
        assert "refused" in browser.value("fetch('https://example.com/').then(() => 'sent', () => 'refused')")
        assert (
            browser.value(
                "(() => { const s = document.createElement('script'); s.textContent = 'window.ran = 1';"
                " document.body.append(s); return window.ran ?? 0; })()"
            )
            == 0
        )

    @pytest.mark.skipif(not WHOLE, reason="WHOLE is not set")
    def test_the_same_bytes_each_time(self):
        before = read(self.page)
        subprocess.run([os.path.join(TOP, "dev", "page")], check=True, stdout=subprocess.DEVNULL)
        assert read(self.page) == before
