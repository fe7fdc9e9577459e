"""Tests the scripts of the page that checks a release in a browser, and its heap: the heap natively, also with
AddressSanitizer; what the scripts say beside tools/explain and tools/report. Node and a C compiler are wanted; what
lacks them is left out."""

import os
import subprocess
from pathlib import Path

import pytest
from lpis_helpers.page_case import CC, EXAMPLES, TESTS, dev_page, native, node, releases_of, wanted
from lpis.faults import explanation
from lpis.report import release_report
from lpis_helpers import nasty_shapes
from lpis_helpers.tables import write_squares

FAULTS = [
    "refused 41 parcels west east at 50020 23980 1",
    "refused 43 parcel west at 7 22 3",
    "refused 43 parcel west at -1000001 22 7",
    "refused 33 parcels row 2",
    "refused 31 covers row 0",
    "refused 44 parcel west",
    "refused 42 pieces nosuch west-1",
    "refused 34 covers row 99",
    "refused 60",
    "refused 56 cert line 2",
    "refused 55 cert line 900",
    "refused 37 parcels row 1",
]


class TestHeap:
    def run_tests(self, folder, *flags):
        wanted("CC")
        words = [
            CC,
            "-O1",
            "-g",
            "-Wall",
            "-Wextra",
            *flags,
            "-o",
            f"{folder}/heap",
            f"{TESTS}/heap_test.c",
            f"{TESTS}/memory.c",
        ]
        made = subprocess.run(words, capture_output=True, text=True, check=False)
        if made.returncode and flags:
            raise pytest.skip.Exception("the C compiler has no AddressSanitizer")
        assert made.returncode == 0, made.stderr
        run = subprocess.run([f"{folder}/heap"], capture_output=True, text=True, check=False)
        assert (run.returncode, run.stdout.count("ok ")) == (0, 9), run.stdout + run.stderr[-2000:]

    def test_heap(self, tmp_path):
        self.run_tests(tmp_path)

    @pytest.mark.long
    def test_heap_with_address_sanitizer(self, tmp_path):
        self.run_tests(tmp_path, "-fsanitize=address,undefined", "-fno-sanitize-recover=all")


def test_each_key_is_used():
    scripts = dev_page.source(*dev_page.WORK, *dev_page.SCRIPT, "page.html")
    for key in dev_page.page_words.table()["words"]:
        last = key.split()[-1]
        assert (
            f"'{key}'" in scripts
            or f'"{key}"' in scripts
            or f"'#{key}'" in scripts
            or last in ("meaning", "cause", "remedy")
            or key.split()[0] in ("file", "busy")
        )


def test_they_are_what_the_buttons_say(tmp_path):
    """One passes, the other has a fault, and the page has a button for each."""
    wanted("BUILT")
    texts, markup = dev_page.examples(), dev_page.source("page.html")
    for button, status in (("good", 0), ("faulty", 1)):
        assert f'<button id="{button}"' in markup
        for name, text in texts[button].items():
            (tmp_path / f"{name}.csv").write_text(text, encoding="utf-8")
        assert native("cut", tmp_path, os.path.join(tmp_path, "cert.txt"))[0] == status, button


class TestScripts:
    def test_a_refusal_is_explained_as_by_tools_explain(self):
        wanted("NODE")
        release, cert = os.path.join(EXAMPLES, "overlap"), os.path.join(EXAMPLES, "older", "cert.txt")
        cases = [{"line": line, "folder": release, "cert": cert} for line in FAULTS]
        for line, found in zip(FAULTS, node("explain", words=dev_page.page_words.table(), cases=cases)):
            assert found["en"] == [words.strip() for words in explanation.Explained(line, release, cert).words]
            assert len(found["de"]) == len(found["en"])

    def test_the_code_of_a_text_is_explained_too(self):
        wanted("NODE")
        line, release = "refused 38 covers row 1 code 18 offset 60", os.path.join(EXAMPLES, "overlap")
        [found] = node("explain", words=dev_page.page_words.table(), cases=[{"line": line, "folder": release}])
        said = [words.strip() for words in explanation.Explained(line, release).words]
        assert found["en"] == [words for words in said if "points, x" not in words]

    def test_a_table_of_polygons_is_explained_too(self, tmp_path):
        wanted("NODE")
        path = str(tmp_path / "shapes.csv")
        Path(path).write_text('name,wkt\nA,"POLYGON((0 0,1.2345 0,0 1,0 0))"\n', encoding="ascii")
        for line in ("refused 38 area row 1 wkt 14 at 13", "refused 31 area row 0", "refused 34 area row 7"):
            [found] = node(
                "explain",
                words=dev_page.page_words.table(),
                cases=[{"line": line, "folder": str(tmp_path), "area": path}],
            )
            assert found["en"] == [
                words.strip()
                for words in explanation.Explained(line, tmp_path, area=path).words
                if "points, x" not in words and "missing:" not in words
            ]

    def test_sums_are_those_of_tools_report(self, tmp_path):
        wanted("NODE")
        for number in range(20):
            nasty_shapes.Release(number, False).write(os.path.join(tmp_path, str(number)))
        cases = releases_of(tmp_path) + releases_of(EXAMPLES)
        for case, found in zip(cases, node("sums", map=dev_page.drawn(), cases=[{"folder": case} for case in cases])):
            rows, sums = release_report.by_class(release_report.read(case))
            wanted_rows = [
                [
                    "" if row[name] is None else str(row[name])
                    for name in ("class", "percent", "pieces", "area", "eligible")
                ]
                for row in rows
            ]
            assert found["sums"]["rows"] == wanted_rows
            assert {name: found["sums"][name] for name in ("area", "eligible")} == {
                name: sums[name] for name in ("area", "eligible")
            }

    def test_the_map_has_every_shape(self, tmp_path):
        wanted("NODE")
        write_squares(os.path.join(tmp_path, "r"), 30)
        [found] = node("sums", map=dev_page.drawn(), cases=[{"folder": os.path.join(tmp_path, "r")}])
        drawing = found["drawing"]
        assert [drawing[name]["count"] for name in ("parcels", "pieces", "old")] == [30, 30, 0]
        assert (drawing["whole"], drawing["unit"]) == ([0, 0, 300000, 9000], 1)
        assert [drawing["parcels"][name]["31"] for name in ("xs", "ys")] == [70000, 0]
