"""A country from its source to a yes, or to a picture of what is wrong: by the commands of `tools/country`, one after
the other, in a folder that is the country's own."""

from __future__ import annotations

import argparse
import contextlib
import glob
import json
import os
import shlex
import subprocess
import sys
from typing import Callable, Iterable

from ..report import finding_views, html_page, release_page
from ..source import land, spreadsheets
from ..system import files, installation, program, progress
from ..preparation.tested_source import MOST_ROWS
from ..system.printing import without_passwords

OWN = ".lpis-check"  # a file in the folder: a run that was stopped goes on there
PAGE = "index.html"
OF_BEFORE = ("parcels.csv", "covers.csv", "cert.txt", "report.txt", PAGE)  # of the run before: a release, and the page
LAYERS = ("parcels", "covers")
CUT = "cut.txt"  # what `cut` printed of a region, beside the certificate that it made


def rows_of(source: str, names: dict) -> int:
    """The most rows that a layer of a source has, where that can be told without reading them; else 0."""
    try:
        names = {**names, **land.guesses_of(source, names)}
        if os.path.isdir(source):
            return max(rows_of_table(source, names.get(name, name)) for name in LAYERS)
        with open(source, "rb") as file:
            is_package = file.read(16) == land.PACKAGE and land.is_package(source)
        if not is_package:
            return 0
        with contextlib.closing(land.opened(source)) as base:
            tables = [str(name) for (name,) in base.execute("SELECT table_name FROM gpkg_contents")]
            wanted = [names.get(name, name).lower() for name in LAYERS]
            return max((count_of(base, table) for table in tables if table.lower() in wanted), default=0)
    except Exception:  # what is wrong with it the run itself says
        return 0


def count_of(base, table: str) -> int:
    ((count,),) = base.execute(f"SELECT count(*) FROM {land.quoted(table)}")
    return count


def rows_of_table(folder: str, name: str) -> int:
    """The rows of a folder's table; they are counted only where its lines are too many."""
    path = next(
        (path for ending_ in (".csv", "") if os.path.isfile(path := os.path.join(folder, name + ending_))), None
    )
    if path is None:
        return 0
    with open(path, "rb") as file:
        lines = sum(part.count(b"\n") for part in iter(lambda: file.read(files.PART), b""))
    return sum(1 for _ in spreadsheets.read(path).rows()) if lines > MOST_ROWS else lines


def options_of(words: argparse.Namespace) -> list[str]:
    """The words of `tools/country prepare` that say the same."""
    kinds = ",".join(sorted(kind.replace(" ", "-") for kind in words.accept or ()))
    said = [f"--accept={kinds}"] if kinds else []
    several = [("accept-from", words.accept_from), ("name", words.name), ("keep", words.keep)]
    single = [
        (name, [value] if value else [])
        for name in ("classes", "epsg", "identifiers", "previous", "between")
        for value in [getattr(words, name)]
    ]
    return [
        *said,
        *(f"--{name}={value}" for name, values in [*several, *single] for value in values),
        *(["--quiet"] if words.quiet else []),
    ]


class Country:
    """One run over a country: `again` is its command line for people."""

    def __init__(self, command: list, words: argparse.Namespace, say: Callable, again: str, title: str):
        self.words, self.say, self.again, self.title, self.lines = words, say, again, title, []
        self.lpis = f"--lpis={shlex.join(command)}"

    def path(self, name: str) -> str:
        return os.path.join(self.words.out, name)

    def called(self, *said: str) -> subprocess.CompletedProcess:
        """A call of `tools/country`; what it prints is kept, and its progress is shown."""
        self.say(progress.Note(installation.here(f"tools/country {shlex.join(map(without_passwords, said))}")))
        return files.run(
            [sys.executable, os.path.join(program.HERE, "country"), *said],
            stdout=subprocess.PIPE,
            text=True,
            check=False,
        )

    def go(self) -> tuple[int, list[str]]:
        """The status, and what is printed."""
        with open(self.path(OWN), "w", encoding="ascii"):
            pass
        for name in OF_BEFORE:
            files.remove(self.path(name))
        ran = self.called("prepare", *options_of(self.words), "--", self.words.land, self.words.out)
        if ran.returncode == 1:
            return self.stopped(finding_views.of_package(self.path(finding_views.PACKAGE), is_settled=False))
        try:
            return self.checked(ran)
        finally:
            self.let_certificates_go()

    def checked(self, ran: subprocess.CompletedProcess) -> tuple[int, list[str]]:
        """What lpis says of the regions that `prepare` wrote, if it did."""
        ran = ran if ran.returncode else self.called("cut", self.lpis, "--", self.words.out)
        if ran.returncode == 1:
            return self.stopped(self.faults())
        ran = ran if ran.returncode else self.called("check", self.lpis, "--", self.words.out)
        if ran.returncode:
            return ran.returncode, [*ran.stdout.splitlines(), "no: see above"]
        report = [
            sys.executable,
            os.path.join(program.HERE, "report"),
            f"--html={self.path(PAGE)}",
            self.lpis,
            "--",
            self.words.out,
        ]
        files.run(report, stdout=subprocess.DEVNULL, check=True)
        return 0, [*(line for line in ran.stdout.splitlines() if line.startswith("country ")), self.where(), "yes"]

    def let_certificates_go(self) -> None:
        """Removes the certificates that `cut` made of the regions, unless they are to be kept: a yes needs none."""
        made = [] if self.words.certificate else glob.glob(os.path.join(glob.escape(self.words.out), "*", CUT))
        for path in made:
            files.remove(os.path.join(os.path.dirname(path), "cert.txt"))
            files.remove(path)

    def faults(self) -> list[finding_views.Found]:
        """What `tools/country cut` found in regions that are refused."""
        with open(self.path("faults.geojson"), encoding="utf-8") as file:
            return finding_views.of_features(json.load(file)["features"])

    def stopped(self, findings: Iterable[finding_views.Found]) -> tuple[int, list[str]]:
        picture = finding_views.Picture(findings)
        last = picture.last_line()
        facts = [
            ("source", without_passwords(self.words.land)),
            ("country", os.path.abspath(self.words.out)),
            ("findings", len(picture.all)),
            ("that stop", len(picture.stopping)),
        ]
        chart = html_page.Map(
            marks=picture.marks, findings=picture.layer, of_mark=finding_views.PLACE, pictures=picture.pictures()
        )
        lead = [
            installation.here(
                f"Mend the source and run again: {self.again}; or accept what can be accepted by --accept."
            )
        ]
        release_page.write(
            self.path(PAGE), html_page.page(self.title, last, False, facts, chart, picture.tables(), lead)
        )
        return 1, [*picture.lines(finding_views.MOST_TOLD), *picture.todo(), self.where(), last]

    def where(self) -> str:
        return f"page {self.path(PAGE)}, for QGIS {self.path(finding_views.PACKAGE)}"
