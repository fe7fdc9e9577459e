"""Tests tools/year: two years in one command each, what it stops at, and what --verify finds. Wants the program, built
or named by LPIS, for all but the log."""

import argparse
import datetime
import json
import os
import re
import shlex
import shutil
from pathlib import Path

import pytest
from lpis_helpers.registers import made
from lpis_helpers.calls import ended_with, tool
from lpis_helpers.places import BUILT, TOP
from lpis_helpers.spare import Spare, read, write_script
from lpis.register import ledger, publication_steps
from lpis.system import files

EXAMPLES = os.path.join(TOP, "examples", "exact")


def run(*words):
    return tool("year", *words, env={**os.environ, "LPIS": BUILT or ""})


class Case(Spare):
    prefix = "year of "

    def set_up(self):
        self.base = self.path("lpis.db")

    def lines(self):
        return ledger.lines_of(self.base)

    def write(self, lines):
        Path(ledger.path_of(self.base)).write_bytes(b"".join(line + b"\n" for line in lines))


def is_taken(year, last, tmp_path, monkeypatch):
    """Whether a year is taken behind the last one of a register that is there, asking nothing."""
    register = tmp_path / "lpis.db"
    register.touch()
    monkeypatch.setattr(publication_steps, "year_before", lambda *_: last)
    monkeypatch.setattr(ledger, "faults_of", lambda _: [])
    said = argparse.Namespace(register=str(register), year=year, new=False, year_anyway=False, register_anyway=False)
    try:
        return publication_steps.last_year(said) == last
    except publication_steps.Stop as stop:
        assert f"next year is {datetime.date.today().year + 1}; --year-anyway" in str(stop)
        return False


def test_a_year_past_next_year(tmp_path, monkeypatch):
    """However near the last one is, a year past next year wants a word."""
    today = datetime.date.today().year
    found = [is_taken(year, today, tmp_path, monkeypatch) for year in (today + 1, today + 2, today + 3)]
    assert found == [True, False, False]


def test_a_year_far_from_the_last_one(tmp_path, monkeypatch):
    """One to three years behind the last one, and no more."""
    assert [is_taken(2010 + step, 2010, tmp_path, monkeypatch) for step in (1, 2, 3, 4)] == [True, True, True, False]


class TestLogs(Case):
    def set_up(self):
        super().set_up()
        made(
            self.base,
            (
                "CREATE TABLE lpis_release (year INTEGER PRIMARY KEY); CREATE TABLE lpis_span (id TEXT PRIMARY KEY,"
                " since INTEGER, until INTEGER);"
            ),
        )
        for year in (2024, 2025, 2026):
            made(self.base, f"INSERT INTO lpis_release VALUES ({year})")
            made(self.base, f"INSERT INTO lpis_span VALUES ('p{year}', {year}, 0)")
            with ledger.held(self.base) as log:
                ledger.add(log, self.base, {"year": year, "user": "clerk", "content": ledger.content_of(self.base)})

    def faults(self):
        return " ".join(ledger.faults_of(self.base))

    def test_a_log_agrees(self):
        assert [] == ledger.faults_of(self.base)
        made(self.base, "VACUUM")
        assert (0, [], True) == (
            run("--verify", self.base).returncode,
            ledger.faults_of(self.base),
            "3 lines" in run("--verify", self.base).stdout,
        )

    def test_an_edited_register_is_found(self):
        made(self.base, "UPDATE lpis_span SET since = 2023 WHERE id = 'p2024'")
        assert "lpis_span changed since" in self.faults()
        assert 1 == run("--verify", self.base).returncode

    def test_lines_that_were_changed_or_taken_out_are_found(self):
        lines = self.lines()
        forged = json.loads(lines[1])
        forged = {**forged, "user": "nobody"}
        whole = json.dumps({**forged, "own": ledger.own_digest(forged)}).encode()
        for what, others, words in (
            ("a byte of the first", [lines[0].replace(b"clerk", b"cleric"), *lines[1:]], "line 1 was changed"),
            ("a byte of the last", [*lines[:2], lines[2].replace(b"clerk", b"cleric")], "line 3 was changed"),
            ("a line written anew", [lines[0], whole, lines[2]], "line 3 does not follow"),
            ("the first taken out", lines[1:], "line 1 does not follow"),
            ("one in the middle taken out", [lines[0], lines[2]], "line 2 does not follow"),
            ("the last taken out", lines[:2], "the register is not as the last line has it"),
            ("two exchanged", [lines[1], lines[0], lines[2]], "does not follow"),
            ("no line", [], "no line"),
            ("no text", [*lines[:2], b"\xff\xfe"], "line 3 was changed"),
        ):
            self.write(others)
            assert words in self.faults()

    def test_words(self):
        for words in (
            [],
            [self.base],
            [self.base, "2027"],
            ["--verify", self.base, "2027", self.folder],
            [self.base, "next", self.folder],
        ):
            assert 64 == run(*words).returncode, words


@pytest.mark.skipif(not BUILT, reason="the program is not built")
class TestYears(Case):
    def year(self, year, *more):
        folder = os.path.join(self.folder, str(year))
        if not os.path.isdir(folder):
            shutil.copytree(os.path.join(EXAMPLES, str(year)), folder)
        return run(self.base, str(year), folder, *more)

    def files(self, folder):
        return sorted(os.listdir(os.path.join(self.folder, folder)))

    def test_two_years(self):
        ended_with(0, self.year(2024, "--new"))
        assert not {"cert.txt", "exact.txt"} & set(self.files("2024"))
        ran = ended_with(0, self.year(2025, "--certificate"))
        assert "exact 2" in ran.stdout
        assert {"cert.txt", "exact.txt", "published-2025.txt", "report-2025.json", "report-2025.html"} <= set(
            self.files("2025")
        )
        assert read(self.folder, "2025", "published-2025.txt").endswith("lineage yard merged exact\npublished 2025\n")
        for year, gone in ((2024, None), (2025, {"yard"})):  # the page of a later year shows what became of each parcel
            page, facts = (read(self.folder, str(year), f"report-{year}.{ending}") for ending in ("html", "json"))
            found = json.loads(facts).get("difference")
            assert f"<title>Year {year}: {year}</title>" in page
            assert (found and {row["parcel"] for row in found["gone"]} >= gone, "Since " in page) == (
                gone and True,
                bool(gone),
            )
        entries, faults = ledger.entries_of(self.lines())
        assert ([2024, 2025], [], entries[0]["content"]) == (
            [entry["year"] for entry in entries],
            faults,
            entries[1]["content_before"],
        )
        assert [entry["certificate"] for entry in entries] == [
            "",
            files.digest(os.path.join(self.folder, "2025", "exact.txt")),
        ]
        assert 0 == run("--verify", self.base).returncode
        copy = f"{self.base}.before-2025"
        assert entries[0]["content"] == ledger.content_of(copy)
        assert f"{files.digest(copy)}  lpis.db.before-2025\n" == Path(f"{copy}.sha256").read_text(encoding="ascii")
        with pytest.raises(publication_steps.Stop, match="published already"):  # by another run, while this one waited
            publication_steps.back_up(self.base, 2025)
        assert entries[0]["content"] == ledger.content_of(copy)

    def test_no_certificate_is_left(self):
        """Of marked rows neither; one that lies there is not used, and stays as it is, unless one is to be kept."""
        ended_with(0, self.year(2024, "--new"))
        shutil.copytree(os.path.join(EXAMPLES, "2025"), folder := os.path.join(self.folder, "2025"))
        Path(folder, "cert.txt").write_text("of other tables\n", encoding="ascii")
        ran = ended_with(0, self.year(2025))
        assert "exact 2" in ran.stdout
        assert f"cert.txt in {folder}: not used" in ran.stdout
        assert read(folder, "cert.txt") == "of other tables\n"
        assert "exact.txt" not in os.listdir(folder)
        assert not [name for name in os.listdir(folder) if name.startswith(".year-")]
        assert read(folder, "published-2025.txt").endswith("lineage yard merged exact\npublished 2025\n")
        assert "certificate" not in json.loads(read(folder, "report-2025.json"))["files"]

    def test_what_it_stops_at(self):
        this = datetime.date.today().year
        assert 1 == self.year(2024).returncode
        assert not os.path.exists(self.base)
        assert 0 == self.year(2024, "--new").returncode
        before = ledger.content_of(self.base)
        shutil.copytree(os.path.join(EXAMPLES, "2025"), os.path.join(self.folder, "next"))
        for words, status in (
            (["2025", "next", "--new"], 1),
            (["2025", "2024/parcels.csv"], 64),
            (["2028", "next"], 1),
            (["2024", "next"], 1),
            (["2024", "next", "--year-anyway"], 1),
            (["2023", "next"], 1),
            (["2205", "next"], 1),
            ([str(this + 2), "next"], 1),
            (["2025", "none"], 64),
        ):
            ran = run(self.base, words[0], os.path.join(self.folder, words[1]), *words[2:])
            assert (status, before, 1) == (ran.returncode, ledger.content_of(self.base), len(self.lines())), (
                words,
                ran.stderr,
            )
            assert "Traceback" not in ran.stderr
        assert not os.path.exists(f"{self.base}.before-2024")
        made(self.base, "UPDATE lpis_text SET wkt = replace(wkt, '.000', '.0')")
        ran = run(self.base, "2025", os.path.join(self.folder, "next"))
        assert 1 == ran.returncode
        assert "lpis_text changed since" in ran.stderr
        ran = run(self.base, "2025", os.path.join(self.folder, "next"), "--register-anyway")
        assert (0, True) == (ran.returncode, json.loads(self.lines()[1])["register_anyway"]), ran.stderr

    def test_a_first_year_needs_no_table_of_lineage(self):
        folder = os.path.join(self.folder, "2024")
        shutil.copytree(os.path.join(EXAMPLES, "2024"), folder)
        os.remove(os.path.join(folder, "lineage.csv"))
        ended_with(0, self.year(2024, "--new"))
        assert "old,new\n" == Path(folder, "lineage.csv").read_text(encoding="ascii")

    def test_a_register_without_its_log_is_a_stop(self):
        assert 0 == self.year(2024, "--new").returncode
        os.remove(ledger.path_of(self.base))
        ran = self.year(2025)
        assert (1, True) == (ran.returncode, "no line: the register has no log" in ran.stderr), ran.stderr
        assert (0, True) == (
            self.year(2025, "--register-anyway").returncode,
            json.loads(self.lines()[0])["register_anyway"],
        )

    def test_places_that_are_none(self):
        for base, year, folder, words in (
            (os.path.join(self.folder, "no", "lpis.db"), "2024", self.folder, "no is not there"),
            (self.folder, "2024", self.folder, "is a folder, and no register"),
            ("/dev/full", "2024", self.folder, "is no file, and no register"),
            (self.base, "2024", os.path.join(self.folder, "none"), "none is not there"),
        ):
            ran = run(base, year, folder, "--new")
            assert (64, True, []) == (ran.returncode, words in ran.stderr, os.listdir(self.folder)), ran.stderr

    def test_lpis_looks_at_the_release_once_before_it_is_published(self):
        """`publish` does, and then the report of what is published."""
        write_script(
            f'#!/bin/sh\necho "$1" >>{shlex.quote(self.path("calls"))}\nexec {shlex.quote(BUILT)} "$@"\n',
            self.path("program"),
        )
        for year, more in ((2024, ["--new"]), (2025, [])):
            shutil.copytree(os.path.join(EXAMPLES, str(year)), folder := self.path(str(year)))
            lineage = [line.rpartition(",")[0] for line in read(folder, "lineage.csv").splitlines()]
            Path(folder, "lineage.csv").write_text("\n".join(lineage) + "\n", encoding="ascii")  # no row is marked
            ran = tool("year", self.base, year, folder, *more, "--lpis", shlex.quote(self.path("program")))
            assert re.search(r"(?m)^total area [0-9.]+ eligible [0-9.]+$", ended_with(0, ran).stdout)
        calls = [word for word in read(self.folder, "calls").split() if word in ("check", "cut", "publish")]
        assert calls == ["publish", "check"] * 2

    def test_a_first_year_that_is_refused_leaves_no_register(self):
        shutil.copytree(os.path.join(EXAMPLES, "2024"), folder := self.path("2024"))
        rows = read(folder, "covers.csv").splitlines(keepends=True)
        Path(folder, "covers.csv").write_text("".join(rows[:-1]), encoding="ascii")
        ran = ended_with(2, self.year(2024, "--new"))
        assert "refused 37 parcels" in ran.stdout and "nothing was published" in ran.stderr
        assert not [
            name for name in os.listdir(self.folder) if name.startswith("lpis.db") and not name.endswith(".log")
        ]
        Path(folder, "covers.csv").write_text("".join(rows), encoding="ascii")
        ended_with(0, self.year(2024, "--new"))

    def test_a_refusal_goes_before_changes(self):
        """Of a year that lpis refuses nobody is asked to accept what changed since the last one."""
        ended_with(0, self.year(2024, "--new"))
        shutil.copytree(os.path.join(EXAMPLES, "2024"), folder := self.path("2025"))
        rows = read(folder, "covers.csv").splitlines(keepends=True)
        Path(folder, "covers.csv").write_text("".join(rows[:-1]), encoding="ascii")
        classes = read(folder, "classes.csv").replace(",100", ",50")
        Path(folder, "classes.csv").write_text(classes, encoding="ascii")
        ran = ended_with(2, self.year(2025))
        assert "refused 37 parcels" in ran.stdout and "to look at" not in ran.stderr

    def test_a_refusal_publishes_nothing(self):
        assert 0 == self.year(2024, "--new").returncode
        folder = os.path.join(self.folder, "2025")
        shutil.copytree(os.path.join(EXAMPLES, "2025"), folder)
        Path(folder, "lineage.csv").write_text("old,new\nmeadow,meadow-1\n", encoding="ascii")
        before = ledger.content_of(self.base)
        ran = self.year(2025)
        assert (1, before, 1) == (ran.returncode, ledger.content_of(self.base), len(self.lines()))
        assert "refused 81 lineage 75" in ran.stdout
        assert "nothing was published" in ran.stderr
