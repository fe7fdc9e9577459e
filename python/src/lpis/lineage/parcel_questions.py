"""What is asked of the parcels of two years, of many at once by processes: each takes so many things, and all answers
together are those of one process.

    with Asking(workers) as ask:
        ask.years(old, new)                     the years, which are in files of its folder
        ask.answers("fate", names, "dropped")   an answer for each thing, in their order
"""

from __future__ import annotations

import json
import os
import shutil
import tempfile

from ..country import jobs
from . import moved_parcels, proposals, two_years
from ..system import files, progress
from .successions import Changes, Group

AT_ONCE = {"region": 1, "fate": 200, "exact": 200, "moved": 500}  # things of a job
YEARS = ("old.db", "new.db")


class Asking:
    """A folder for two years and for jobs, and the workers that do these."""

    def __init__(self, workers=None):
        self.workers, self.shapes = workers or len(os.sched_getaffinity(0)), None

    def __enter__(self):
        self.folder = tempfile.mkdtemp(prefix="lpis-lineage-")
        return self

    def __exit__(self, *_):
        shutil.rmtree(self.folder, ignore_errors=True)

    def path(self, name):
        return os.path.join(self.folder, name)

    def year(self, which, read, place):
        """A year in a file: the regions of a country by many processes."""
        return read(place, self.path(YEARS[which]), lambda folder, regions: self.regions(which, folder, regions))

    def regions(self, which, folder, regions):
        """The files of a country's regions, or None where one process reads them."""
        if self.workers == 1 or len(regions) < 2:
            return None
        things = [(self.path(f"{which}-{number}.db"), folder, region) for number, region in enumerate(regions)]
        found = self.by_workers("region", things, f"reading {folder}", "regions")
        if told := next(filter(None, found), None):
            raise two_years.Trouble(told)
        return [path for path, *_ in things]

    def take(self, old, new):
        self.shapes = old.shapes, new.shapes

    def answers(self, kind, things, what):
        """An answer for each of some things."""
        things = list(things)
        if self.workers == 1 or len(things) <= AT_ONCE[kind]:
            return list(answers_of(kind, progress.over(things, what, "parcels"), *self.shapes))
        for shapes in self.shapes:
            shapes.base.commit()
        return self.by_workers(kind, things, what, "jobs")

    def by_workers(self, kind, things, what, unit):
        starts = range(0, len(things), AT_ONCE[kind])
        for number, start in enumerate(starts):
            with files.anew(self.path(f"{kind}-{number}.json")) as file:
                json.dump(things[start : start + AT_ONCE[kind]], file)
        names = jobs.do_all(
            self.folder,
            kind,
            len(starts),
            self.workers,
            progress.Progress(progress.Quiet.tool, what, len(starts), unit),
        )
        found = []
        for name in names:
            with open(self.path(name), encoding="utf-8") as file:
                found += json.load(file)
            os.remove(self.path(name))
        return found


def do(folder, kind, number):
    """The name of the file that has the answers of a job."""
    with open(os.path.join(folder, f"{kind}-{number}.json"), encoding="utf-8") as file:
        things = json.load(file)
    shapes = () if kind == "region" else (two_years.Shapes(os.path.join(folder, name), is_there=True) for name in YEARS)
    name = f"{kind}-{number}.answers"
    with files.anew(os.path.join(folder, name)) as file:
        json.dump(list(answers_of(kind, things, *shapes)), file)
    return name


def answers_of(kind, things, *shapes):
    """The answers about some things: what became of a dropped parcel; whether a split or merge is exact; what is odd
    about a kept parcel; why a region cannot be read."""
    if kind == "region":
        return (why_not(*thing) for thing in things)
    old, new = shapes
    if kind == "fate":
        near = proposals.Near(new)
        return (proposals.told(proposals.fate_of(name, old[name], near)) for name in things)
    if kind == "exact":
        changes = Changes([], old, new)
        return (changes.is_exact(Group(is_merge, name, tuple(parts))) for is_merge, name, parts in things)
    return (moved_parcels.line_of(name, old, new) for name in things)


def why_not(path, folder, region):
    """Puts a region's parcels into a file; what keeps it from being read, or None."""
    year = two_years.Year(folder, two_years.Shapes(path))
    try:
        two_years.add_region(year, os.path.join(folder, region), region)
    except two_years.Trouble as trouble:
        return str(trouble)
    year.shapes.base.commit()
    year.shapes.base.close()
    return None
