"""The way from a source to tables: all tests first, what they find, and then the rounding, the report and the
tables, of which all are written or none. Rows are read in parts into one store, what needs all of them is asked there
in SQL, and borders are rounded cell by cell. A small source is in memory, and no process is begun; of a larger one
parts and cells are jobs, many at once, and no process has all of it."""

from __future__ import annotations

import filecmp
import os

from ..country import cell_results, country_passes, engines, jobs, row_store
from ..formats import geopackage
from . import (
    conflicts,
    decisions,
    finding_rows,
    gap_causes,
    identifier_passes,
    loss_report,
    recipe,
    source_run,
)
from ..rounding import coverage
from ..system import files, placing, progress
from ..system.printing import counted

TABLES = ("parcels.csv", "covers.csv", "classes.csv")
FINDINGS = "prepared.csv"
KEPT_FILES = ("cells.json", "gaps.json", jobs.STORE, jobs.KEPT)


class Run(source_run.SourceRun):
    """A run from a source to tables. `close` ends it."""

    before = gathered = gaps = None

    def close(self):
        try:
            if self.before:
                self.tell_before()
        finally:
            super().close()

    # What was found.

    def write_findings(self, work):
        self.put_findings(work)
        written = []
        if self.base and (any(self.renamed.values()) or os.path.exists(self.path("identifiers.csv"))):
            identifier_passes.write_identifiers(self.renamed, os.path.join(self.made, "identifiers.csv"))
            written.append("identifiers.csv")
        placing.put(self.made, self.words.out, written)
        for line in finding_rows.lines_of(work.findings, self.accept):
            print(line)

    def put_findings(self, work):
        """Writes prepared.csv; that of a run before is kept under a name with a number. Of findings that stop at once
        it writes what all other runs write in the end."""
        if self.before is None:
            self.before = files.aside(self.path(FINDINGS))
        finding_rows.write(work.findings, os.path.join(self.made, FINDINGS), self.accept)
        names = [FINDINGS]
        if self.stops_at_once(work):
            self.living.take(work.grave(), is_whole=False)
            with geopackage.anew(os.path.join(self.made, loss_report.LAYERS), work.epsg) as package:
                finding_rows.put(work.findings, self.accept, package, self.living.told())
            names.append(loss_report.LAYERS)
            self.living.write()
        placing.put(self.made, self.words.out, names)

    def tell_before(self):
        """Removes the table of the run before, where this one has the same, or says where it is."""
        if self.before and filecmp.cmp(self.before, self.path(FINDINGS), shallow=False):
            os.remove(self.before)
        elif self.before:
            self.say(progress.Note(f"{self.path(FINDINGS)} of the last run is {self.before} now"))
        self.before = None

    def refused(self, work):
        """The end of a run with findings that cannot be accepted: of those it is told at once, before anything is
        rounded."""
        print(self.not_looked_for(work))
        told = self.refuse()
        print(f"to look at: {told}: mend the source; {self.refusal()}")
        return 1

    def refuse(self):
        """Marks the folder as one without tables of this run; answers what is left to look at."""
        told = self.living.left_open().words(self.living.count())
        self.making.refuse(f"to look at: {told}, see {decisions.FILE}")
        return told

    def stops_at_once(self, work):
        """Whether the run ends before anything is rounded, at what cannot be accepted."""
        return bool(work.hopeless())

    @staticmethod
    def not_looked_for(work):
        """What a run that stopped at once has not looked for, and why."""
        kinds = sorted({finding.kind for finding in work.hopeless()})
        return (
            f"not looked for yet: overlaps, gaps, pieces outside of their parcel, since {' and '.join(kinds)}"
            f" {'stops' if len(kinds) == 1 else 'stop'} the run first: mend that, and run it again"
        )

    def refusal(self):
        """What is said where no table is written."""
        return f"{recipe.unwritten(self.words.out)}; see {self.path(decisions.FILE)}"

    def go(self):
        work, classes = self.tested()
        self.write_findings(work)
        if self.stops_at_once(work):
            return self.refused(work)
        seen = self.rounded(work)
        if self.previous:
            print(self.previous.words())
        self.make_classes(work, classes)
        status = self.report(work, seen)
        if status:
            self.is_kept = True  # for a run that accepts
            self.refuse()
            return status
        self.put()
        return 0

    # The rounding.

    def rounded(self, work):
        """Has all cells rounded, and puts together what they give."""
        if self.gathered is None:
            count = row_store.put_cells(self.base)
            names = self.cells(count, self.digest())
            self.whole.begin()
            self.gathered = cell_results.Gathered(self.base, self.results, names, self.whole)
            shown = progress.Progress(self.NAME, "reading what was rounded", count, "cells")
            self.gathered.read(range(count), shown)
            self.gathered.tell_causes(gap_causes.Causes(self.base, work.layers["covers"].key), range(count))
            self.gaps = self.between(names)
            self.settle()
        return self.gathered

    def settle(self):
        """Ends the rounding: what no run needs goes, and last year's texts are looked for."""
        self.gathered.sum_between()
        jobs.clear(self.results, [*self.kept_files, *self.gathered.names, *self.gaps, *KEPT_FILES])
        if self.previous:
            self.say(f"comparing with {self.previous.folder}")
            self.previous.count(self.base, self.gathered.text_of_parcel)

    def digest(self):
        """Of all that cells hang on."""
        return jobs.digest_of(
            [part["file"] for part in self.plan], self.given, self.previous.digests() if self.previous else None
        )

    def digest_between(self):
        return f"{self.digest()} {self.words.between}"

    def cells(self, count, digest):
        """The names of the files that have what the cells give. Where all that these hang on is as it was when a run
        before kept the names, no cell is looked at; else each cell is read, and those that changed are rounded."""
        names = jobs.kept(self.results, "cell", digest)
        if names is not None and len(names) == count:
            self.say(progress.Note(f"{self.borders_of(count)} are taken from the last run, which rounded them"))
            return names
        before = set(filter(jobs.OWN.fullmatch, os.listdir(self.results)))
        is_first = not any(name.endswith(".jsonl") for name in before)
        self.say(
            f"rounding {counted(count, 'cell')}"
            if is_first
            else (
                f"comparing {counted(count, 'cell')} with those that an earlier run has rounded, and rounding what"
                " changed"
            )
        )
        names = self.jobs_done("cell", count, "rounding" if is_first else "comparing and rounding")
        if not is_first:
            self.tell_cells(names, before)
        jobs.keep(self.results, "cell", digest, names)
        return names

    @staticmethod
    def borders_of(_count):
        return "the borders"

    def tell_cells(self, names, before):
        """Says that all cells are as they were, where it is so."""
        if before.issuperset(names):
            self.say(progress.Note(f"{self.borders_of(len(names))} are taken from the last run, which rounded them"))

    def jobs_done(self, kind, count, what=""):
        """The names of the files that the jobs of a kind gave, one for each cell."""
        return engines.prepared(
            self.words, self.results, kind, [None] * count, what, self.base if self.is_small else None
        )

    def between(self, cells):
        """Has the land looked for that nobody has between parcels; the names of the files that have its arms."""
        self.say(f"land between parcels, up to {self.words.between:g} m")
        self.gathered.read_narrow(self.words.between)
        digest = self.digest_between()
        names = jobs.kept(self.results, "gap", digest)
        if names is None or len(names) != len(cells):
            jobs.tell_kept(self.results, "cell", cells)
            names = self.jobs_done("gap", len(cells))
            jobs.keep(self.results, "gap", digest, names)
        self.gathered.read_arms(
            names, progress.Progress(self.NAME, "reading what is between parcels", len(cells), "cells")
        )
        return names

    # The report and the tables.

    def report(self, work, seen):
        self.tell_left_out(seen)
        seen.losses.at(cell_results.COLUMN)
        for name, layer in work.layers.items():
            for column in layer.others:
                seen.losses.add(
                    conflicts.Loss(
                        "column", [column], f"the column {column} of the layer {name} is in no table", layer=name
                    )
                )
        self.base.commit()
        self.write_tables(seen)
        return self.concluded(work, seen)

    def tell_left_out(self, seen):
        seen.losses.at(cell_results.LEFT_OUT)
        for loss in country_passes.left_out(self.base):
            seen.losses.add(loss)

    def write_tables(self, seen):
        self.say("tables")
        seen.tables(self.made, lambda rows, what, count: progress.each(rows, self.NAME, what, count, "rows"))

    def concluded(self, work, seen):
        """Writes the report, and tells it; the status of the run."""
        return loss_report.concluded(
            seen.losses,
            seen.counts,
            work.counts,
            self.words.out,
            self.accept,
            work.epsg,
            self.whole,
            self.refusal(),
            self.living,
            work.findings,
        )

    def make_classes(self, _work, classes):
        """Writes the table of classes, or says which rows it would have."""
        if classes is None:
            used = sorted(country_passes.classes_used(self.base))
            print(f"classes: write {self.path('classes.csv')}, a row class,percent for each of: {' '.join(used)}")
        else:
            coverage.write(self.made, "classes.csv", ["class", "percent"], sorted(classes.items()))

    def put(self):
        """Puts the tables in their place; the balance stands there."""
        names = [name for name in TABLES if os.path.exists(os.path.join(self.made, name))]
        placing.put(
            self.made,
            self.words.out,
            [*names, self.making.finish(self.made, names)],
            f"the tables are written in {self.words.out}",
            decisions.left_over(self.words.out),
        )
