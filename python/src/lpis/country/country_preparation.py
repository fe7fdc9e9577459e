"""From a nation's source to the regions of a country: as a release is prepared, but that jobs may be those of Snakemake
or of other machines, what parts and cells gave stays, and the tables are split."""

from __future__ import annotations

import os
import shutil

from . import corrected_run, country_passes, jobs, region_split
from ..formats import table_streams
from ..preparation import identifier_passes, preparation_run
from ..source import land
from ..system import files, placing, progress
from ..system.printing import counted


class Run(corrected_run.Corrected, preparation_run.Run):
    """A run whose tables are those of regions. `words` has also the limits of a region, `anew`, `lineage` and
    `tables`."""

    NAME, HAS_LIMITS = "country", False

    def spare_folder(self):
        self.is_kept = True
        self.begin_results()
        return files.folder(self.words.out, ".source-")  # where all machines see it

    def begin_results(self):
        jobs.begin(self.results)

    def is_here(self, _count):
        return False  # parts and cells of a small source are taken by the next run too

    def tested_classes(self, work, names):
        classes = super().tested_classes(work, names)
        if classes is None:
            lines = " ".join(
                identifier_passes.line_of_class(name) for name in sorted(country_passes.classes_used(self.base))
            )
            work.find(
                "classes",
                "classes",
                None,
                (
                    "there is no table of classes: a table classes in the source, or --classes FILE, with the line"
                    f" class,percent and a line for each of these, with its percentage in place of the ?: {lines}"
                ),
                "",
            )
        return classes

    def why_not(self):
        """Nothing yet: its borders are read when cells are rounded."""
        return ""

    def cells(self, count, digest):
        then = self.previous.planned() if self.previous else []
        self.kept_files = [*self.kept_files, *(part["file"] for part in then)]
        return super().cells(count, digest)

    def jobs_done(self, kind, count, what=""):
        if kind == "cell" and self.previous and (why := self.put_borders()):
            raise land.Trouble(f"{self.previous.folder}: {why}")
        return super().jobs_done(kind, count, what)

    @staticmethod
    def borders_of(count):
        return f"the borders of {counted(count, 'cell')}"

    def tell_cells(self, names, before):
        taken = sum(name in before for name in names)
        self.say(progress.Note(f"cells as they were: {taken} of {len(names)}, rounded: {len(names) - taken}"))

    def write_tables(self, seen):
        """Not before they take their place: a run that is refused needs none."""

    def put(self):
        """Writes the tables of the regions that changed, or splits the country; the balance of the folder stays that
        from the source to the tables."""
        changes = self.correction and self.correction.changes
        lines = changes and self.corrected(changes)
        print((lines or self.split())[-1])

    def split(self):
        """Splits the tables into regions."""
        words = self.words
        super().write_tables(self.gathered)
        if words.tables:
            self.put_whole(words.tables)
        return region_split.split(
            table_streams.Folder(self.made),
            words.out,
            words.most,
            words.anew,
            self.say,
            words.lineage,
            os.path.join(self.made, "regions"),
            self.whole,
            self.making,
        )

    def put_whole(self, folder):
        """The tables of the whole country in a folder of their own."""
        os.makedirs(folder, exist_ok=True)
        placing.end(folder)
        made = files.folder(folder, ".prepare-")
        try:
            for name in preparation_run.TABLES:
                shutil.copyfile(os.path.join(self.made, name), os.path.join(made, name))
            placing.put(made, folder, [*preparation_run.TABLES, self.making.also.finish(made, preparation_run.TABLES)])
        finally:
            placing.clear(made)
