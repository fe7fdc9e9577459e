"""What a run of a country keeps for the next one in `kept.json` of the folder of its results: what the store of its
rows, the cells and the tables were made of, and the digest of each. A run begins by taking it away, and writes it at
its end: so what a run that was stopped has left is taken for nothing."""

from __future__ import annotations

import contextlib
import dataclasses
import hashlib
import json
import os
from dataclasses import dataclass, field
from typing import Any, Iterable

from . import jobs
from ..preparation import decisions, land_balance, loss_report
from ..source import file_digests
from ..system import files

FILE = jobs.KEPT
RULE = "lpis kept 1"  # what another rule gave is not taken
# Words of a run that do not change what it makes, and those of the tables alone.
HOW = {"command", "quiet", "workers", "snakemake", "profile", "name", "most", "out", "tables"}
OF_TABLES = {"accept", "accept_from", "classes", "parcels", "covers", "points", "anew", "lineage"}
FOUND = (
    "prepared.csv",
    "identifiers.csv",
    "report.csv",
    "report.geojson",
    "between.geojson",
    loss_report.LAYERS,
    decisions.FILE,
)
REPORT = FOUND[2:]
BESIDE = (*FOUND, land_balance.FILE, "split.txt", "classes.csv", "country.txt")


@dataclass
class Record:
    """Of a store: the digest of what was asked (`asked`), the parts of the source with where each begins, the names and
    digests of the files of cells and gaps, and that of the store. Of the tables, where a run made them: what they were
    made of, the digest of each file, and what was printed. Of the report: what it was made of, and its lines."""

    asked: str
    plan: list[list]
    begins: list[int]
    cells: list[str]
    gaps: list[str]
    contents: list[str] = field(default_factory=list)
    store: str = ""
    tables_of: str = ""
    tables: dict[str, str] = field(default_factory=dict)
    files: dict[str, str] = field(default_factory=dict)
    lines: list[str] = field(default_factory=list)
    limits: list = field(default_factory=list)
    report_of: str = ""
    report: list[str] = field(default_factory=list)

    def tables_there(self) -> list[str]:
        """The tables, and those of lineage."""
        regions = sorted({os.path.dirname(name) for name in self.tables} - {""})
        return [*self.tables, *(os.path.join(region, "lineage.csv") for region in regions)]


def read(folder: str) -> Record | None:
    """That of the run before; None where there is none that can be taken."""
    with contextlib.suppress(OSError, ValueError, TypeError):
        with open(os.path.join(folder, FILE), encoding="utf-8") as file:
            rule, digest, told = json.load(file)
        if rule == RULE and digest == digest_of(told):
            return Record(**told)
    return None


def forget(folder: str) -> None:
    files.remove(os.path.join(folder, FILE))


def write(folder: str, record: Record) -> None:
    """Keeps a record, with the digests of the store and of the files of cells as they are now."""
    record.store = files.digest(os.path.join(folder, jobs.STORE))
    record.contents = jobs.contents(folder, record.cells)
    told = dataclasses.asdict(record)
    with files.anew(os.path.join(folder, FILE)) as file:
        json.dump([RULE, digest_of(told), told], file)


def digest_of(told: Any) -> str:
    return hashlib.sha256(json.dumps(told, sort_keys=True).encode()).hexdigest()


def is_sound(folder: str, record: Record) -> bool:
    """Whether the store and the files of cells are as they were kept."""
    with contextlib.suppress(OSError):
        is_store = files.digest(os.path.join(folder, jobs.STORE)) == record.store
        return is_store and jobs.contents(folder, record.cells) == record.contents
    return False


def asked(words: Any, names: dict, facts: list) -> str:
    """A digest of what a run was asked of the rows of a source, and of these tools."""
    said = {name: value for name, value in vars(words).items() if name not in HOW | OF_TABLES}
    return jobs.digest_of(RULE, sorted(said.items(), key=lambda one: one[0]), sorted(names.items()), facts)


def asked_of_tables(words: Any, known: file_digests.Contents, sources: Iterable) -> str:
    """A digest of all else that its tables hang on, but for what stands in their folder."""
    said = {name: value for name, value in vars(words).items() if name in OF_TABLES}
    said["accept"] = sorted(words.accept) if words.accept else None
    named = [words.lineage, *words.accept_from, *(path for source in sources for path in source.paths)]
    return digest_of([sorted(said.items()), [known.digest(path) for path in named if path and os.path.isfile(path)]])


def limits_of(words: Any) -> list:
    return [words.parcels, words.covers, words.points, words.lineage]


def digest_of_rows(base: Any, query: str, first: int) -> str:
    """That of rows of a store, but for their numbers there, in the first column."""
    found = hashlib.sha256()
    for row in base.execute(query):
        found.update(repr(row[first:]).encode(errors="backslashreplace"))
    return found.hexdigest()


def standing(out: str, tables: Iterable[str]) -> dict[str, str]:
    """The digests of the tables in a folder, and of all that a run writes beside them; nothing for what is not
    there."""
    marks = [name for name in sorted(os.listdir(out)) if decisions.KEPT.fullmatch(name)]
    return {name: digest(os.path.join(out, name)) for name in dict.fromkeys((*tables, *BESIDE, *marks))}


def digest(path: str) -> str:
    with contextlib.suppress(FileNotFoundError):
        return files.digest(path)
    return ""
