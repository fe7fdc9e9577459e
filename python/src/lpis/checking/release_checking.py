"""A land from its source to a yes, or to a picture of what is wrong: tables by prepare, the answer by `lpis check`, and
always a page. All is made in a folder of its own and takes its place together."""

from __future__ import annotations

import argparse
import contextlib
import datetime
import filecmp
import io
import os
import re
import shlex
import sys
from dataclasses import dataclass, field
from typing import Any, Callable, Iterator

from . import country_checking
from ..country import country_passes, jobs, source_parts
from ..faults import fault_search
from ..preparation import decisions, origin, preparation_run, recipe, source_tests
from ..register import table_standing
from ..report import finding_views, html_page, release_page, release_report
from ..source import land, output_names
from ..system import files, installation, placing, processes, program, progress
from ..system.printing import counted, without_passwords
from ..system.trouble import Trouble

YES, STOPPED, UNREADABLE = 0, 1, 2
COUNTRY = -1  # of an answer: the source has more rows than a release
PAGE, CERT, REPORT = "index.html", "cert.txt", "report.txt"
MADE = (
    PAGE,
    CERT,
    REPORT,
    finding_views.PACKAGE,
    "parcels.csv",
    "covers.csv",
    "prepared.csv",
    decisions.FILE,
    "identifiers.csv",
    "report.csv",
    # what this tool makes and takes away
    "report.geojson",
    "balance.csv",
    "between.geojson",
    "kept.csv",
    "kept.geojson",
)
OF_COUNTRY = ("country.txt", "split.txt")  # of one that was checked there before
GIVEN = ("classes.csv", "lineage.csv", "identifiers.csv")  # what somebody may have put into the folder before
MARK = "<!-- lpis-check -->"  # the page's last line: the folder is one that this tool made
ASKED, MOST_REASONS = "all names at once: ", 3  # what begins a line of words to copy; reasons in the last line


class Source(preparation_run.Run):
    """The way from a source to tables in a folder that takes its place later. `standing` is that place."""

    NAME = "check"

    def __init__(self, words: argparse.Namespace, names: dict, say: Callable, standing: str):
        self.work, self.lacks_classes = None, False
        super().__init__(words, names, say, standing)

    def stop_at_once(self) -> None:
        recipe.stop_at_once(self.NAME, self.made, self.spare, os.path.dirname(self.words.out))

    def tested(self) -> tuple:
        answer = super().tested()
        self.work, classes = answer
        self.lacks_classes = self.base is not None and classes is None
        for name, layer in self.work.layers.items():
            for note in layer.notes:
                self.say(progress.Note(f"{name}: {note}"))
        return answer

    def stops_at_once(self, work: Any) -> bool:
        """What is wrong with classes alone hinders nobody from looking for all else."""
        return any(one.layer != "classes" and one.kind != "class" for one in work.hopeless())

    def classes(self, layers: dict) -> list | None:
        known, path = super().classes(layers), os.path.join(self.standing, "classes.csv")
        return self.read_table(path) if known is None and os.path.exists(path) else known


@dataclass
class Answer:
    """What came of a run: its status, its last line, the lines before that, and the findings."""

    status: int
    last: str
    lines: list = field(default_factory=list)


def place_of(source: str) -> str:
    """The folder that a source has where none is named, in the folder where the tool runs."""
    return f"{output_names.stem_of(source)}-check"


def look_at_place(out: str) -> None:
    """Refuses a folder that somebody else made, or that has a year which was published."""
    if not os.path.lexists(out):
        return
    if not os.path.isdir(out):
        raise Trouble(f"{out} is there, and no folder: name another by --out")
    there = [name for name in sorted(os.listdir(out)) if not name.startswith(".")]
    published = [name for name in there if name.startswith("published-") or name == "years"]
    if published:
        raise Trouble(f"{out} has a year that was published ({published[0]}): name another folder by --out")
    others = [name for name in there if name not in GIVEN]
    if others and not is_own(os.path.join(out, PAGE)) and not os.path.exists(os.path.join(out, country_checking.OWN)):
        raise Trouble(
            f"{out} is there, and tools/check did not make it (it has {others[0]}): name another folder by --out"
        )


def is_own(path: str) -> bool:
    """Whether a page is one of this tool."""
    if not os.path.isfile(path):
        return False
    with open(path, "rb") as file:
        file.seek(max(0, os.path.getsize(path) - 200))
        return MARK.encode() in file.read()


class Check:
    """One run: `words` are those of the command line, `again` that command line for people."""

    def __init__(self, command: list, words: argparse.Namespace, names: dict, say: Callable, again: str):
        self.command, self.words, self.names, self.say, self.again = command, words, names, say, again
        self.out = words.out
        self.spare = files.folder(self.out, ".check-")
        self.made = os.path.join(self.spare, "made")
        os.mkdir(self.made)
        self.title = title_of(words.land)

    def inner(self, name: str) -> str:
        return os.path.join(self.made, name)

    def outer(self, name: str) -> str:
        return os.path.join(self.out, name)

    def go(self) -> Answer:
        """Makes all, and puts it in its place. A source that cannot be read leaves the place as it was."""
        self.move_rounded(self.out, self.made)
        words = argparse.Namespace(**{**vars(self.words), "out": self.made})
        with contextlib.closing(Source(words, self.names, self.say, self.out)) as run:
            try:
                with contextlib.redirect_stdout(io.StringIO()):
                    status = run.go()
            except Trouble as trouble:
                self.move_rounded(self.made, self.out)
                return unreadable(self.words.land, trouble, self.say)
            if any(one.kind == "rows" for one in run.work.findings):
                return Answer(COUNTRY, "")
            answer = self.stopped(run) if status else self.answered(run)
        self.put()
        return answer

    def answered(self, run: Source) -> Answer:
        """Of tables that are written: what lpis says, by a certificate where that is to be kept."""
        if not os.path.exists(self.inner("classes.csv")):
            return self.stopped(run, is_settled=True)
        self.say("checking")
        cert = self.inner(CERT) if self.words.certificate else None
        if cert:
            processes.run(program.call(self.command, "cut", self.made, cert), capture_output=True)
        made = release_report.make(self.command, self.made, cert)
        made.facts["folder"] = os.path.abspath(self.out)
        kept = [run.previous.words()] if run.previous else []
        lines = [*kept, *origin.lines(made.facts["origin"])]
        if made.facts["status"] != YES:
            return self.refused(made, run)
        with files.anew(self.inner(REPORT)) as file:
            file.write(made.text)
        next_step = f"keep it as a year: tools/year register.db 2026 {shlex.quote(self.out)} --new"
        self.write_page(
            lambda path: release_page.write_release(path, made, self.title, [*lines, installation.here(next_step)])
        )
        told = made.text.splitlines()[-2:-1]
        return Answer(YES, "yes", [*lines, *told, self.where()])

    def refused(self, made: release_report.Report, run: Source) -> Answer:
        """Of tables that lpis refuses: all faults, as polygons."""
        made.features = fault_search.find(self.command, self.made)[1]
        picture = finding_views.Picture(finding_views.of_features(made.features))
        finding_views.add_to(self.inner(finding_views.PACKAGE), made.features, run.work.epsg)
        lead = [*made.facts["refusal"]["words"], self.what_next()]
        self.write_page(lambda path: release_page.write_release(path, made, self.title, lead))
        lines = [
            made.facts["answer"],
            *made.facts["refusal"]["words"],
            *picture.lines(finding_views.MOST_TOLD),
            self.where(),
        ]
        return Answer(
            STOPPED,
            f"no: lpis refuses the tables, {counted(max(1, fault_search.count_of(made.features)), 'fault')}",
            lines,
        )

    def without_classes(self, run: Source) -> finding_views.Found:
        """Tables without percentages are no release."""
        used = sorted(country_passes.classes_used(run.base))
        words = (
            f"no percentages: {self.words.land} has no table of classes, and --classes names none; its classes are"
            f" {', '.join(used)}"
        )
        path = self.outer("classes.csv")
        todo = (
            f"write {path}: a line class,percent, and a line for each class, such as {used[0]},? with its percentage in"
            " place of the ?; or name such a table by --classes"
        )
        return finding_views.Found("classes", "classes", "", "", words, finding_views.STOPS, todo)

    def stopped(self, run: Source, is_settled: bool = False) -> Answer:
        """Of a source that stops: what stops, in words and as a picture. Settled: for want of classes alone."""
        findings = finding_views.of_package(self.inner(finding_views.PACKAGE), is_settled)
        covers = run.work.layers.get("covers")
        finding_views.draw_by_pieces(findings, source_parts.rows_of_layer(covers) if covers else ())
        picture = finding_views.Picture([*([self.without_classes(run)] if run.lacks_classes else []), *findings])
        unlooked = [run.not_looked_for(run.work)] if run.stops_at_once(run.work) else []
        last = picture.last_line()
        for name in ("parcels.csv", "covers.csv", REPORT):
            files.remove(self.inner(name))
        self.write_page(lambda path: self.write_stopped(path, run, picture, last, unlooked))
        told = [*picture.lines(finding_views.MOST_TOLD), *picture.todo(), *unlooked]
        return Answer(STOPPED, last, [*told, self.where()])

    def write_stopped(
        self, path: str, run: Source, picture: finding_views.Picture, last: str, unlooked: list[str]
    ) -> None:
        layers, made = run.work.layers, datetime.datetime.now(datetime.timezone.utc).strftime("%Y-%m-%d %H:%M UTC")
        chart = html_page.Map(
            *map_of(layers),
            marks=picture.marks,
            findings=picture.layer,
            of_mark=finding_views.PLACE,
            pictures=picture.pictures(),
        )
        facts = [
            (
                "source",
                (
                    os.path.abspath(self.words.land)
                    if os.path.exists(self.words.land)
                    else without_passwords(self.words.land)
                ),
            ),
            ("made", made),
            *((f"rows of {name}", source_parts.rows_in(layer)) for name, layer in layers.items()),
            ("findings", len(picture.all)),
            ("that stop", len(picture.stopping)),
            ("for QGIS", os.path.abspath(self.outer(finding_views.PACKAGE))),
            ("as a table", os.path.abspath(self.outer(decisions.FILE))),
        ]
        lead = [
            *unlooked,
            (
                "Each finding has a row below the map, what stops first, and each that has a place is on the map: a row"
                " shows it, by a click or by Enter."
            ),
            self.what_next(),
        ]
        release_page.write(path, html_page.page(self.title, last, False, facts, chart, picture.tables(), lead))

    def what_next(self) -> str:
        how = (
            "or accept what can be accepted: all by --accept, kinds by --accept gap,overlap, single rows by 1 in a"
            " column accepted of a copy of findings.csv that --accept-from names"
        )
        return installation.here(f"Mend the source and run again: {self.again}; {how}.")

    def where(self) -> str:
        return f"page {self.outer(PAGE)}, for QGIS {self.outer(finding_views.PACKAGE)}"

    def write_page(self, write: Callable) -> None:
        path = self.inner(PAGE)
        write(path)
        with files.more(path, encoding="utf-8") as file:
            file.write(f"{MARK}\n")

    def move_rounded(self, source: str, target: str) -> None:
        """What the last run has rounded goes along with the run."""
        with contextlib.suppress(OSError):
            os.rename(os.path.join(source, jobs.FOLDER), os.path.join(target, jobs.FOLDER))

    def put(self) -> None:
        names = sorted(name for name in os.listdir(self.made) if not name.startswith("."))
        old, new = self.outer("prepared.csv"), self.inner("prepared.csv")
        if os.path.isfile(old) and not filecmp.cmp(old, new, shallow=False):
            self.say(progress.Note(f"{old} of the last run is {files.aside(old)} now"))
        if os.path.isfile(self.outer(CERT)) and CERT not in names:
            self.say(progress.Note(f"{self.outer(CERT)} is removed: it was the certificate of the earlier tables"))
        placing.put(
            self.made,
            self.out,
            [*names, table_standing.FILE],
            f"{self.out} has all of this run",
            [name for name in (*MADE, *OF_COUNTRY, *decisions.left_over(self.out)) if name not in names],
        )
        self.move_rounded(self.made, self.out)


def map_of(layers: dict) -> tuple[html_page.Layer, html_page.Layer]:
    """The parcels and the pieces of a source that lie where metres are."""
    parcels, pieces = html_page.Layer(), html_page.Layer(classes=[])
    for row, members in shapes_of(layers, "parcels"):
        parcels.add(row["parcel"], members)
    for row, members in shapes_of(layers, "covers"):
        pieces.add(row["piece"], members)
        pieces.classes.append(row["class"])
    return parcels, pieces


def shapes_of(layers: dict, name: str) -> Iterator[tuple]:
    """The rows of a layer with their polygons in millimetres."""
    for row in source_parts.rows_of_layer(layers[name]) if name in layers else ():
        if row.found and land.reads_as_metres(row.found.box()) and max(map(abs, row.found.box())) <= source_tests.FAR:
            yield row, [[[(x * 1000, y * 1000) for x, y in ring] for ring in member] for member in row.found.members]


def unreadable(source: str, trouble: Trouble, say: Callable) -> Answer:
    """Of a source that cannot be read as it is: the reasons at length, and their beginnings in the last line."""
    for reason in trouble.reasons:
        say(progress.Note(installation.here(str(reason))))
    short = [re.split(r": there (?:are|is) ", str(reason))[0] for reason in trouble.reasons if ASKED not in reason]
    told = "; ".join(one.removeprefix(f"{source}: ") for one in short[:MOST_REASONS])
    return Answer(UNREADABLE, f"{source}: {told}{'; ..' if len(short) > MOST_REASONS else ''}")


def run(command: list, words: argparse.Namespace, names: dict, say: Callable) -> int:
    """Checks a land; what came of it is printed once it stands in its folder."""
    try:
        land.look(words.land)
    except Trouble as trouble:
        answer = unreadable(words.land, trouble, say)
        print(answer.last)
        return answer.status
    words.out = words.out or place_of(words.land)
    land.apart(words.land, words.out)
    land.apart(words.previous or "", words.out, "last year's folder")
    is_new = not os.path.lexists(words.out)
    if not is_new and os.path.isdir(words.out):
        placing.end(words.out)
    look_at_place(words.out)
    os.makedirs(words.out, exist_ok=True)
    again = f"tools/check {shlex.join(map(without_passwords, sys.argv[1:]))}"
    making = table_standing.begin(words.out, words.land, names)
    try:
        answer = checked(command, words, names, say, again)
    finally:
        if is_new:
            table_standing.leave(words.out)
    if answer.status == UNREADABLE and not is_new:
        making.refuse(answer.last)
    for line in [*answer.lines, answer.last]:
        print(line)
    return answer.status


def checked(command: list, words: argparse.Namespace, names: dict, say: Callable, again: str) -> Answer:
    """What has more rows than a release goes by regions; of a source that is no GeoPackage that is known once it is
    read."""
    most = country_checking.MOST_ROWS
    if country_checking.rows_of(words.land, names) <= most:
        check = Check(command, words, names, say, again)
        try:
            answer = check.go()
        finally:
            placing.clear(check.spare)
        if answer.status != COUNTRY:
            return answer
    say(progress.Note(f"{words.land} has more than {most} rows: it is checked in regions, as a country"))
    status, lines = country_checking.Country(command, words, say, again, title_of(words.land)).go()
    return Answer(status, lines[-1], lines[:-1])


def title_of(source: str) -> str:
    name = without_passwords(source)
    return f"Check of {os.path.basename(name.rstrip('/')) or name}"
