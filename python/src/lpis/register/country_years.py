"""A country's years: DIR/years/YEAR has what was published, with what was reported on the way to it and its line of the
log. The next split writes over the tables of the regions; this folder stays, and is a country itself."""

import contextlib
import os
import shutil

from ..preparation import decisions, origin
from . import ledger, table_standing
from ..system import progress
from .publication_steps import Stop

FOLDER = "years"
LOG = "log.json"
# of what is not in the log's line
BESIDE = (
    table_standing.FILE,
    "split.txt",
    "findings.gpkg",
    "report.geojson",
    "between.geojson",
    "kept.csv",
    "kept.geojson",
    *origin.FILES,
)


class Kept:
    """The folder of a year, which is made beside its place before anything is published, so that a full disk stops
    that."""

    def __init__(self, folder, year):
        self.folder, self.place = folder, os.path.join(folder, FOLDER, str(year))
        self.made = os.path.join(folder, FOLDER, f".{year}.new")

    def of(self, year):
        """Where another year is kept."""
        return os.path.join(self.folder, FOLDER, str(year))

    def look(self):
        """Stops where the year has a folder."""
        if os.path.lexists(self.place):
            raise Stop(
                f"{self.place} is there, with what was published before: move it away first; nothing was published"
            )

    def left(self):
        """What is told of a copy that a killed run left: where the year is published it is whole."""
        return (
            f"; a run that was killed left its copy in {self.made}: where the year is published, that is to be"
            f" {self.place}"
            if os.path.isdir(self.made)
            else ""
        )

    @contextlib.contextmanager
    def copied(self, names):
        """Copies files of the country; what was not settled goes."""
        shutil.rmtree(self.made, ignore_errors=True)
        try:
            names = [
                *names,
                *decisions.names_in(self.folder),
                *(name for name in BESIDE if os.path.isfile(os.path.join(self.folder, name))),
            ]
            for name in progress.each(names, "country", "copying", len(names), "files", 1):
                self.copy(name)
            yield self
        finally:
            shutil.rmtree(self.made, ignore_errors=True)

    def copy(self, name):
        path = os.path.join(self.made, name)
        os.makedirs(os.path.dirname(path), exist_ok=True)
        shutil.copy2(os.path.join(self.folder, name), path)

    def settle(self, printed, register, entry):
        """Puts the folder in its place, with what was printed and the log's line; the names of files that are not as
        they were published."""
        self.copy(os.path.basename(printed))
        with open(os.path.join(self.made, LOG), "wb") as file:
            file.write(ledger.lines_of(register)[-1] + b"\n")
        found = ledger.digests_of(
            {name: os.path.join(self.made, name) for name in entry["tables"]}, "digests of the copy"
        )
        wrong = [name for name, digest in entry["tables"].items() if found[name] != digest]
        os.rename(self.made, self.place)
        return wrong
