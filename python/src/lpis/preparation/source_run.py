"""A source on its way into a store: read in parts, tested, named, and joined by its names, with last year's borders
beside it. A small source is in memory, and no process is begun; of a larger one parts are jobs, many at once."""

from __future__ import annotations

import os
import tempfile

from ..country import country_passes, engines, jobs, last_year_corners, row_store, source_parts
from . import acceptance, identifier_passes, live_findings, recipe, tested_source
from ..register import table_standing
from ..source import kept_columns, land, source_settings
from ..system import files, placing, progress

SMALL = 250_000  # rows: a source that has fewer is in memory, and no process is begun


class SourceRun:
    """A run from a source to tables: what it was asked, and the folder beside the tables where they are made.
    `close` ends it. `words` has also how jobs are done: `workers`, `snakemake` and `profile`."""

    NAME, HAS_LIMITS = "prepare", True  # those of one release
    is_taken_up = is_store_kept = False  # the store: from the run before, and for the next one

    def __init__(self, words, names, say, standing=""):
        """`standing` is the folder where the tables take their place, if that is another than the one of `words`."""
        self.words, self.names, self.say, self.previous = words, names, say, None
        self.standing = standing or words.out
        self.making = table_standing.begin(
            words.out, words.land, names, words.classes, words.previous, getattr(words, "tables", None)
        )
        self.accept = acceptance.Accepting(words.accept, words.accept_from)
        self.living = live_findings.Table(words.out, self.standing, words.previous, self.accept, say)
        self.table = self.read_table(words.classes, source_settings.of_classes(names)) if words.classes else None
        self.given = identifier_passes.given_identifiers(words.identifiers)
        if words.identifiers and identifier_passes.has_no_names(words.identifiers):
            say(progress.Note(f"{words.identifiers} is not there: that year changed no name"))
        self.contents, self.is_small, self.is_kept = self.making.known, False, False
        self.base = self.whole = None
        self.results = self.path(jobs.FOLDER)
        self.made, self.spare = files.folder(words.out, ".prepare-"), self.spare_folder()
        self.stop_at_once()
        self.making.read()

    def spare_folder(self):
        return tempfile.mkdtemp()

    def stop_at_once(self):
        recipe.stop_at_once(self.NAME, *self.own_folders())

    def close(self):
        self.making.close()
        if self.base:
            self.base.close()
            if not self.is_store_kept:
                files.remove(os.path.join(self.results, jobs.STORE))
        for folder in self.own_folders():
            placing.clear(folder)

    def own_folders(self):
        """The folders that go with the run."""
        return self.made, self.spare, *([] if self.is_kept else [self.results])

    def path(self, name):
        return os.path.join(self.words.out, name)

    @staticmethod
    def read_table(path, called=None):
        records, faults = identifier_passes.table_of(path, ("class", "percent"), called)
        if faults:
            raise land.Trouble(*(f"{path}: {words}" for words in faults))
        return records

    def wanted(self):
        """The layers that are read: a table of classes that is named stands for that of the source."""
        return land.SHAPED if self.words.classes else tuple(land.COLUMNS)

    # The source.

    def classes(self, layers):
        """The table of classes that is there: named, of the land, or beside the tables."""
        if self.table is not None:
            return self.table
        if "classes" in layers:
            return [row.fields for row in layers["classes"].rows]
        return self.read_table(self.path("classes.csv")) if os.path.exists(self.path("classes.csv")) else None

    def tested(self):
        """The source after all tests: the work and the rows of the table of classes; None where it cannot be read."""
        self.say(f"reading {self.words.land}")
        layers = land.read(self.words.land, self.names, self.wanted(), self.spare, outlined=row_store.LAYERS)
        self.keep_columns(layers)
        counts = {name: source_parts.count_of(layers[name].origin) for name in row_store.LAYERS if layers[name].origin}
        self.is_small = self.is_here(sum(counts.values()))
        for name in filter(counts.get, counts):
            layers[name].rows = [source_parts.first_of(layers[name].origin, lambda found: True) or land.Row(None, {})]
        work = tested_source.Preparation(layers, self.words.epsg, self.say)
        work.tables()
        if work.hopeless():
            return work, None
        work.systems(
            lambda name, epsg: self.transformed(name, epsg, outlined=row_store.LAYERS if layers[name].origin else ())
        )
        self.begin_results()
        starts, are_metres = self.stored(work, layers)
        names = identifier_passes.Names(work, self.given)
        if not self.is_taken_up:
            self.say("names, and what they name")
            steps = country_passes.named(work, names, starts, are_metres, self.HAS_LIMITS)
            for _ in progress.each(steps, self.NAME, "names", country_passes.STEPS, "steps", 1):
                pass
        self.renamed, self.living.has_row = names.renamed, self.has_row
        work.at(tested_source.CLASSES)
        classes = self.tested_classes(work, names)
        self.last_year(work)
        return work, classes

    def keep_columns(self, layers):
        """Has the columns go with the findings that --keep names."""
        if self.words.keep:
            self.living.kept = kept_columns.Kept(self.words.land, layers, self.names, self.words.keep)

    def has_row(self, layer, name):
        """Whether the source has a row of this name in a layer."""
        query = "SELECT 1 FROM row WHERE name = ? AND is_cover = ? LIMIT 1"
        return self.base.execute(query, (name, layer == "covers")).fetchone() is not None

    def begin_results(self):
        jobs.clear_changed(jobs.begin(self.results), "cell")

    def is_here(self, count):
        """Whether so many rows are in memory, and all is done by this process."""
        return count < SMALL

    def tested_classes(self, work, names):
        used = country_passes.classes_used(self.base)
        classes = identifier_passes.classes(work, names, self.classes(work.layers), used)
        if classes is not None:
            self.keep_classes(work, classes)
        return classes

    def stored(self, work, layers):
        """Makes the store of all rows; answers where each layer begins in it and how many rows it has, and whether
        the source is in metres."""
        self.plan, are_metres = self.planned(work, layers)
        if self.is_small:
            self.base, begins, self.kept_files = *row_store.in_memory(source_parts.put(self.plan)), []
        else:
            self.kept_files = self.read_parts(self.plan, self.contents)
            begins = self.begins = self.taken_up() or self.merged()
        ends = [*begins[1:], self.base.execute("SELECT count(*) FROM row").fetchone()[0]]
        starts = {}
        for name, begin, end in zip((part["layer"] for part in self.plan), begins, ends):
            first, count = starts.get(name, (begin, 0))
            starts[name] = first, count + end - begin
        work.begin(self.base, layers)
        work.counts.update({name: count for name, (_, count) in starts.items()})
        self.whole = country_passes.Balance(self.base)
        return starts, are_metres

    def taken_up(self):
        """Takes the store of the run before, where that is possible; where each part begins in it, or nothing."""

    def merged(self):
        """Makes the store of the parts; where each begins in it."""
        self.say("writing all rows by their places")
        self.base, begins = row_store.merged(
            os.path.join(self.results, jobs.STORE), [os.path.join(self.results, name) for name in self.kept_files]
        )
        return begins

    def read_parts(self, plan, known, what=""):
        """The names of the files of parts. Where one is new, the files that they come of have to be as they were."""
        before = set(os.listdir(self.results))
        here = self.base if self.is_small else None
        made = engines.prepared(self.words, self.results, "part", plan, what, here)
        if new := set(made) - before:
            try:
                known.hold()
            except land.Trouble:
                for name in new:
                    files.remove(os.path.join(self.results, name))
                raise
        return made

    def planned(self, work, layers):
        options = {"epsg": work.epsg, "given": {kind: sorted(names) for kind, names in self.given.items()}}
        origins = {
            name: [layers[name].origin, *filter(None, [work.transformed.get(name)])] for name in row_store.LAYERS
        }
        are_metres = any(
            source_parts.first_of(origins[name][-1], lambda found: land.reads_as_metres(found.box()))
            for name in row_store.LAYERS
        )
        return (
            source_parts.planned(
                origins,
                {name: layers[name].key for name in row_store.LAYERS},
                {**options, "are_metres": are_metres},
                self.contents,
            ),
            are_metres,
        )

    def last_year(self, work):
        """Reads last year's borders; where that is not possible, or none of them is here, it is a finding."""
        if self.words.previous is None:
            return
        try:
            table_standing.look(self.words.previous)
            self.previous = last_year_corners.LastYear(self.words.previous)
            why = self.previous.why_not(work) or self.why_not()
        except land.Trouble as trouble:
            why = str(trouble)
        if why:
            work.find("previous", "", None, f"{self.words.previous}: {why}", "")

    def why_not(self):
        """Why last year's borders, which are read now, are none of this source's."""
        return self.put_borders()

    def put_borders(self):
        """Takes last year's borders into the store; why none of them is here, or nothing."""
        self.say(f"reading the borders of {self.previous.folder}")
        then = self.previous.planned()
        self.kept_files = [*self.kept_files, *(part["file"] for part in then)]
        names = self.read_parts(then, self.previous.contents, "reading last year's borders")
        return self.previous.put(self.base, [os.path.join(self.results, name) for name in names])

    def keep_classes(self, work, classes):
        """A table of classes that stands beside the tables is written over where it is the one that was read, or was
        named, alone."""
        if self.words.classes or "classes" not in work.layers or not os.path.exists(self.path("classes.csv")):
            return
        there = {
            (record.get("class") or "").strip(): (record.get("percent") or "").strip()
            for record in self.read_table(self.path("classes.csv"))
        }
        if there != {name: str(value) for name, value in classes.items()}:
            work.find(
                "classes",
                "classes",
                None,
                (
                    f"{self.path('classes.csv')} has other rows than the table classes of the source: remove it, or"
                    " name it by --classes"
                ),
                "",
            )

    def transformed(self, name, epsg, outlined=()):
        if os.path.isdir(self.words.land) and not land.is_of_another_program(self.words.land):
            raise land.Trouble(
                "texts of shapes are not transformed here: do so where they were written, or make a GeoPackage of them"
            )
        made, _ = land.as_package(self.words.land, self.spare, self.names.get(name, name), "-t_srs", f"EPSG:{epsg}")
        return land.read(made, land.of_made(self.names), (name,), self.spare, outlined)[name]
