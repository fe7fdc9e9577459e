"""A run of a country beside the one before. Where nothing changed it says so; where a few rows did, their cells and
regions alone are made, and all else is taken from what that run has kept. What comes out is what a run from nothing
gives."""

from __future__ import annotations

import contextlib
import os
import re
import sys

from . import changed_rows, jobs, kept_run, last_year_corners, region_changes, region_split
from .cell_results import Gathered
from ..preparation import decisions, gap_causes, land_balance, loss_report
from ..register import table_standing
from ..source import land
from ..system import progress
from ..system.printing import counted

WRITTEN, EVEN = "written: ", "the balance adds up"  # begin lines of a report
UNCHANGED = (
    "nothing changed since the run before: the source, what was asked and these tools are as they were, and so is each"
    " file"
)


class Tee:
    """What is printed, kept line by line."""

    def __init__(self, file):
        self.file, self.text = file, []

    def write(self, text):
        self.text.append(text)
        return self.file.write(text)

    def flush(self):
        self.file.flush()

    def lines(self):
        return "".join(self.text).splitlines()


class Correction:
    """The rows that changed, and the changes of the tables that come of them."""

    def __init__(self, rows):
        self.rows, self.changes = rows, None


class Corrected:
    """What a run of a country does otherwise where another was before it."""

    correction = record = None
    asked = asked_of_tables = report_of = ""
    report_lines = ()

    def go(self):
        self.record = kept_run.read(self.results)
        self.ask()
        if self.is_unchanged():
            self.say(progress.Note(UNCHANGED))
            print("\n".join(re.sub(r"files changed \d+", "files changed 0", line) for line in self.record.lines))
            self.making.stand(self.record.tables)
            self.is_store_kept = True
            return 0
        tee = Tee(sys.stdout)
        with contextlib.redirect_stdout(tee):
            status = super().go()
        if self.gathered:
            self.keep(tee.lines() if status == 0 else None)
        return status

    # What is asked.

    def ask(self):
        """Works out the digests of what this run is asked; none where its source or last year's tables have none."""
        sources = self.making.standing.sources
        with contextlib.suppress(land.Trouble, OSError):
            facts = [self.given]
            if self.words.previous:
                last = last_year_corners.LastYear(self.words.previous)
                facts += [last.system, last.digests(), table_standing.why_not(self.words.previous)]
            self.asked = kept_run.asked(self.words, self.names, facts)
            if all(source.digest for source in sources):
                self.asked_of_tables = kept_run.asked_of_tables(self.words, self.contents, sources)

    def is_unchanged(self):
        record = self.record
        return bool(
            record
            and self.asked
            and self.asked_of_tables
            and not self.words.anew
            and not self.words.tables
            and (record.asked, record.tables_of) == (self.asked, self.asked_of_tables)
            and kept_run.standing(self.words.out, record.tables_there()) == record.files
        )

    def keep(self, lines):
        """Keeps what this run has made, and `lines`, what it told, where its tables took their place."""
        corners = self.base.execute("SELECT EXISTS (SELECT 1 FROM corner)").fetchone()[0]
        if not self.asked or (self.words.previous and not corners):  # whose borders no cell asked for
            return
        plan = [changed_rows.facts_of(part) for part in self.plan]
        record = kept_run.Record(self.asked, plan, self.begins, self.gathered.names, self.gaps)
        record.report_of, record.report = self.report_of, list(self.report_lines)
        record.limits = kept_run.limits_of(self.words)
        if lines is not None:
            record.lines, record.tables_of = lines, self.asked_of_tables
            record.tables = table_standing.of(self.words.out).tables
        record.files = kept_run.standing(self.words.out, record.tables_there())
        self.base.commit()
        self.base.close()
        with contextlib.suppress(OSError):  # the tables are there; the next run makes all of it anew
            kept_run.write(self.results, record)
            self.is_store_kept = True

    # The rows.

    def taken_up(self):
        kept_run.forget(self.results)
        record = self.record
        if not (record and self.asked and record.asked == self.asked and kept_run.is_sound(self.results, record)):
            return None
        found = changed_rows.taken(os.path.join(self.results, jobs.STORE), self.results, record, self.plan)
        if not found:
            return None
        self.base, rows = found
        self.correction, self.is_taken_up = Correction(rows), True
        self.say(progress.Note(f"{counted(len(rows), 'row')} changed since the run before"))
        return record.begins

    def put_borders(self):
        """Those of a store that is taken up are there."""
        return "" if self.correction else super().put_borders()

    # The rounding.

    def rounded(self, work):
        if not self.correction or self.gathered:
            for kind in jobs.OF_CELLS:
                jobs.drop_changed(self.results, kind)
            return super().rounded(work)
        names, cells = list(self.record.cells), changed_rows.cells_beside(self.base, self.correction.rows)
        worker = jobs.Worker(self.results)
        for cell in progress.each(cells, self.NAME, "rounding", len(cells), "cells", 1):
            names[cell] = worker.do("cell", cell)
        cells = [cell for cell in cells if names[cell] != self.record.cells[cell]]
        self.tell_rounded(len(names), len(cells))
        jobs.keep(self.results, "cell", self.digest(), names)
        self.whole.begin_again([row.booked() for row in self.correction.rows])
        self.gathered = Gathered(self.base, self.results, names, self.whole)
        shown = progress.Progress(self.NAME, "reading what was rounded", len(cells), "cells")
        is_land_as_before = self.gathered.read(cells, shown)
        self.gathered.tell_causes(gap_causes.Causes(self.base, work.layers["covers"].key), cells)
        if is_land_as_before:
            self.gaps = self.record.gaps
            jobs.keep(self.results, "gap", self.digest_between(), self.gaps)
        else:
            self.gathered.put_ways()
            self.gaps = self.between(names)
        self.take_changes(cells)
        if self.previous:
            self.kept_files = [*self.kept_files, *(part["file"] for part in self.previous.planned())]
        self.settle()
        return self.gathered

    def tell_rounded(self, count, changed):
        told = f"cells as they were: {count - changed} of {count}, rounded: {changed}"
        as_before = f"{self.borders_of(count)} are taken from the last run, which rounded them"
        self.say(progress.Note(told if changed else as_before))

    def take_changes(self, cells):
        """The changes of the tables, while the files of the cells before are there."""
        tiling = region_changes.tiling_of(self.words.out)
        if tiling and self.record.tables:
            self.correction.changes = region_changes.changes_of(
                self.gathered, self.record.cells, cells, self.correction.rows, tiling
            )

    # The report.

    def tell_left_out(self, seen):
        """Rows that are left out are the same where a store was taken up."""
        if not self.correction:
            super().tell_left_out(seen)

    def concluded(self, work, seen):
        """The report of the run before stands where it has the same rows; its lines are told again."""
        self.report_of = "" if self.words.keep else kept_run.digest_of(self.report_facts(work))
        if self.stands(seen):
            lines, balance = self.record.report, self.whole.words()
            head, end = (next(at for at, line in enumerate(lines) if line.startswith(word)) for word in (WRITTEN, EVEN))
            self.whole.write(self.words.out)
            self.report_lines = [first_line(work, seen), *lines[1 : head + 1], *balance, *lines[end + 1 :]]
            print("\n".join(self.report_lines))
            return 0
        tee = Tee(sys.stdout)
        with contextlib.redirect_stdout(tee):
            status = super().concluded(work, seen)
        if status == 0 and self.whole.is_even():
            self.report_lines = tee.lines()
        return status

    def stands(self, seen):
        record = self.record
        return bool(
            self.correction
            and self.report_of
            and record.report
            and record.report_of == self.report_of
            and self.whole.is_even()
            and all(seen.counts)
            and self.are_as_kept([*kept_run.REPORT, *filter(decisions.KEPT.fullmatch, record.files)])
        )

    def are_as_kept(self, names):
        return all(kept_run.digest(os.path.join(self.words.out, name)) == self.record.files.get(name) for name in names)

    def report_facts(self, work):
        """All that the files of the report are made of, but for what stands there."""
        accept = sorted(self.words.accept) if self.words.accept else None
        marks = [self.contents.digest(path) for path in self.words.accept_from]
        losses = kept_run.digest_of_rows(
            self.base, "SELECT * FROM loss ORDER BY is_stopping DESC, kind, size DESC, names, seq", 1
        )
        findings = kept_run.digest_of_rows(self.base, "SELECT * FROM finding ORDER BY step, place, seq", 1)
        return [losses, findings, accept, marks, work.epsg]

    # The tables.

    def corrected(self, changes):
        """Puts the tables of the regions that changed in their place; None where the country is to be split."""
        words, record = self.words, self.record
        if not changes.is_whole or words.anew or words.tables or record.tables_of == "":
            return None
        if words.lineage or not self.is_settled(record):
            return None
        made = os.path.join(self.made, "regions")
        tiling = region_changes.tiling_of(words.out)
        names = region_changes.Regions(words.out, made, tiling, words.most).write(changes)
        if names is None:
            return None
        self.say(progress.Note(f"tables of regions that changed: {len(names)}"))
        lines = [region_changes.counts_line(words.out, changes), self.making.source_line()]
        region_split.write(os.path.join(made, region_split.COUNTS), "".join(f"{line}\n" for line in lines))
        self.whole.write(made)
        last = self.making.finish(made, names, record.tables)
        others = [land_balance.FILE, region_split.COUNTS, last]
        told = f"the tables are written in {words.out}"
        changed = region_split.settle(made, words.out, [*names, *others], told, decisions.left_over(words.out))
        return [told_of(record.lines[-1], lines[0], len({*changed} & {*names}))]

    def is_settled(self, record):
        """Whether the tables that stand are those of the run before, by the same limits and classes."""
        return (
            kept_run.limits_of(self.words) == record.limits
            and self.are_as_kept([*record.tables_there(), region_split.COUNTS])
            and kept_run.digest(os.path.join(self.made, "classes.csv")) == record.files.get("classes.csv")
        )


def told_of(line, counts, changed):
    """The last line of a split, with what is there now."""
    parcels, pieces = counts.split()[1:4:2]
    line = re.sub(r"parcels \d+ pieces \d+", f"parcels {parcels} pieces {pieces}", line)
    return re.sub(r"files changed \d+", f"files changed {changed}", line)


def first_line(work, seen):
    """The first line of a report, which counts rows."""
    return loss_report.told((), seen.counts, work.counts)[0]
