"""The standing of a folder of tables: which run made them, of which source, and whether that run came to its end.
Nobody takes the tables of an earlier run for those of a later one: the file FILE in the folder says what they are.

    making = standing.begin(out, ..)     the first act of a run that makes tables: the folder is unfinished until its
        end
    making.finish(made, names)           its last: a file that takes its place together with the tables
    making.refuse(why)                   it ended, and no table is written
    standing.look(folder)                refuses a folder whose tables are of an earlier run, with the cause and what to
        do
    standing.of(folder)                  what is known of a folder; None where nothing is

A folder without the file is one that other means made. Of a file that is damaged or empty no run has ended.
"""

from __future__ import annotations

import contextlib
import dataclasses
import datetime
import fcntl
import hashlib
import json
import os
import re
import shlex
import sys
from collections.abc import Iterable
from dataclasses import dataclass, field

from . import ledger
from ..source import file_digests, land
from ..system import files, installation, placing, printing, program
from ..system.trouble import Trouble

FILE = ".lpis-standing"
UNFINISHED, REFUSED, WHOLE = "unfinished", "refused", "whole"
STOPPED = 1  # the status of a tool that is given a folder whose tables are of an earlier run
REGION = re.compile(r"r[0-9]{4,}")  # what a split calls its regions
EARLIER = "the tables there, if any, are from an earlier run"


class Unfinished(Trouble):
    """A folder's tables are not those of its last run."""

    status = STOPPED


@dataclass
class Source:
    """What tables are made of: the files of a source or the table of classes, and their digest. A database has none."""

    what: str  # the source, or the table of classes
    name: str  # as it was named, without a password
    paths: list[str] = field(default_factory=list)
    digest: str = ""

    def read(self, known: file_digests.Contents) -> None:
        """Works out the digest: the sha256 of a file, of several that of the lines of sha256sum."""
        found = [(known.digest(path), os.path.basename(path)) for path in self.paths]
        self.digest = digest_of_lines(found) if len(found) > 1 else found[0][0] if found else ""

    def hold(self, known: file_digests.Contents) -> None:
        """Trouble where a file has other bytes than those that were read."""
        for path in self.paths:
            if file_digests.signs_of(path) != known.signs(path) and file_digests.digest_of(path) != known.digest(path):
                raise file_digests.changed(path)

    def line(self) -> str:
        """As split.txt and published-YEAR.txt have it: the same wherever the source lies."""
        name = (
            os.path.basename(self.paths[0] if len(self.paths) == 1 else self.name.rstrip("/"))
            if self.paths
            else self.name
        )
        return f"source sha256 {self.digest} {name}" if self.digest else f"source of no digest {name}"

    def is_there(self) -> bool:
        return bool(self.paths) and all(map(os.path.isfile, self.paths))

    def change(self) -> str:
        """What is to be said of it now: nothing where its bytes are those that the tables were made of."""
        if not self.paths:
            return f"{self.name} is not a file: whether its rows changed cannot be seen"
        if not self.is_there():
            return f"{self.name} is gone from {os.path.dirname(self.paths[0])}: it had sha256 {self.digest}"
        now = dataclasses.replace(self)
        now.read(file_digests.Contents())
        return "" if now.digest == self.digest else f"{self.name} changed since the tables were made of it"


@dataclass
class Standing:
    """What is known of a folder. `run` is the command line, `tables` have the digest of each table, `published` each
    year that these or earlier tables of the folder were published as."""

    state: str
    run: str = ""
    began: str = ""
    ended: str = ""
    why: str = ""
    sources: list[Source] = field(default_factory=list)
    tables: dict[str, str] = field(default_factory=dict)
    published: list[dict] = field(default_factory=list)

    def source(self) -> Source | None:
        return self.sources[0] if self.sources else None

    def text(self) -> str:
        return json.dumps(dataclasses.asdict(self), indent=1) + "\n"

    def cause(self) -> str:
        """Why its tables are of an earlier run."""
        who = f"`{self.run}` of {self.began}" if self.run else "its last run"
        if self.state == REFUSED:
            return f"{who} ended without tables ({self.why})"
        return f"{who} did not finish{f' ({self.why})' if self.why else ''}"


def digest_of_lines(found: Iterable[tuple[str, str]]) -> str:
    return hashlib.sha256(
        "".join(f"{digest}  {name}\n" for digest, name in found).encode(errors="surrogateescape")
    ).hexdigest()


def source_of(path: str, names: dict) -> Source:
    """A source with its files: of a folder the tables that are read, of one of another program all of its files."""
    found = [path] if os.path.isfile(path) else []
    if os.path.isdir(path) and land.is_of_another_program(path):
        found = [os.path.join(path, name) for name in sorted(os.listdir(path)) if not name.startswith(".")]
    elif os.path.isdir(path):
        with contextlib.suppress(Trouble, OSError):  # the run itself tells why
            names = {**names, **land.guesses_of(path, dict(names))}
        found = list(filter(None, (land.table_of(path, names.get(name, name)) for name in land.COLUMNS)))
    return Source(
        "the source", printing.without_passwords(path), [os.path.abspath(one) for one in found if os.path.isfile(one)]
    )


def classes_of(path: str) -> Source:
    return Source("the table of classes", path, [os.path.abspath(path)] if os.path.isfile(path) else [])


def now() -> str:
    return datetime.datetime.now(datetime.timezone.utc).strftime("%Y-%m-%dT%H:%M:%SZ")


def command_line() -> str:
    """The words of this run, for people: a password is in none of them."""
    tool = os.path.join("tools", os.path.relpath(os.path.realpath(sys.argv[0]), program.HERE))
    return installation.here(
        " ".join([tool, *(shlex.quote(printing.without_passwords(word)) for word in sys.argv[1:])])
    )


# The file.


def path_of(folder: str) -> str:
    return os.path.join(folder, FILE)


def of(folder: str) -> Standing | None:
    """What the file of a folder says."""
    try:
        with open(path_of(folder), encoding="utf-8") as file:
            return read(json.load(file))
    except (FileNotFoundError, NotADirectoryError):
        return None
    except (OSError, ValueError, TypeError, KeyError, RecursionError):
        return Standing(UNFINISHED, why=f"{path_of(folder)} cannot be read")


def read(told: dict) -> Standing:
    """A standing by its text; ValueError where it is none."""
    texts = {name: told[name] for name in ("state", "run", "began", "ended", "why")}
    sources = [Source(**one) for one in told["sources"]]
    tables, published = dict(told["tables"]), list(told["published"])
    named = [
        *texts.values(),
        *tables,
        *tables.values(),
        *(text for one in sources for text in (one.what, one.name, one.digest, *one.paths)),
    ]
    is_one = all(isinstance(text, str) for text in named) and all(isinstance(one, dict) for one in published)
    if not is_one or texts["state"] not in (UNFINISHED, REFUSED, WHOLE):
        raise ValueError
    return Standing(**texts, sources=sources, tables=tables, published=published)


def write(folder: str, standing: Standing) -> None:
    """Writes it into its place, and to the disk. Where the disk has no room an empty file is left: of that no run
    ended."""
    path = path_of(folder)
    try:
        with files.beside(path) as name:
            with open(name, "w", encoding="utf-8") as file:
                file.write(standing.text())
            placing.flush(name)
        placing.flush(folder)
    except OSError as error:
        if standing.state != WHOLE:
            with contextlib.suppress(OSError):
                os.close(os.open(path, os.O_WRONLY | os.O_CREAT | os.O_TRUNC | os.O_NOFOLLOW | os.O_CLOEXEC, 0o666))
        raise Trouble(f"{path}: {error.strerror}") from None


# A run.


class Making:
    """A run that makes the tables of a folder. Its sources are read once, before anything is made of them."""

    def __init__(self, out: str, sources: list[Source]):
        before = of(out)
        # `also` a second folder, which gets tables too
        self.out, self.known, self.also = out, file_digests.Contents(), None
        self.standing = Standing(
            UNFINISHED, command_line(), now(), sources=sources, published=before.published if before else []
        )
        write(out, self.standing)

    def read(self) -> None:
        """Works out the digests of the sources, which the file has from then on."""
        for source in self.standing.sources:
            source.read(self.known)
        write(self.out, self.standing)
        if self.also:
            self.also.known, self.also.standing.sources = self.known, self.standing.sources
            write(self.also.out, self.also.standing)

    def source_line(self) -> str:
        source = self.standing.source()
        return source.line() if source else ""

    def finish(self, made: str, names: Iterable[str], others: dict[str, str] | None = None) -> str:
        """Writes the file beside new tables, of these names, with which it takes its place; its name. Trouble where the
        source is another by now. `others` has all tables with their digests, where those stay that are not new."""
        new = ledger.digests_of({name: os.path.join(made, name) for name in names}, "digests of the tables")
        with files.fresh(os.path.join(made, FILE), encoding="utf-8") as file:
            file.write(self.whole({**(others or {}), **new}).text())
        return FILE

    def stand(self, tables: dict[str, str]) -> None:
        """The tables that stand are those of this run too."""
        write(self.out, self.whole(tables))

    def whole(self, tables: dict[str, str]) -> Standing:
        for source in self.standing.sources:
            source.hold(self.known)
        return dataclasses.replace(self.standing, state=WHOLE, ended=now(), why="", tables=tables)

    def close(self) -> None:
        """Ends the run: who begins in the folder from now on is another one."""
        _begun.pop(os.path.realpath(self.out), None)
        if self.also:
            self.also.close()

    def refuse(self, why: str) -> None:
        """No table is written, and why. Where that cannot be written the folder is unfinished all the same."""
        with contextlib.suppress(Trouble):
            write(self.out, dataclasses.replace(self.standing, state=REFUSED, ended=now(), why=why))
        if self.also:
            self.also.refuse(why)


_begun: dict[str, Making] = {}


def begin(
    out: str, path: str, names: dict, classes: str | None = None, previous: str | None = None, also: str | None = None
) -> Making:
    """The first act of a run that makes tables in a folder, and perhaps in a second one. They are its own from now on;
    asked again it is the same run. The source and last year's folder are other folders."""
    land.apart(path, out)
    land.apart(previous or "", out, "last year's folder")
    if os.path.lexists(out) and not os.path.isdir(out):
        raise Trouble(f"{out} is there, and no folder: name another one for the tables")
    os.makedirs(out, exist_ok=True)
    files.alone(out)
    place, sources = os.path.realpath(out), [source_of(path, names), *([classes_of(classes)] if classes else [])]
    if place not in _begun:
        placing.end(out)
        _begun[place] = Making(out, sources)
    _begun[place].standing.sources = sources  # names and classes may be known by now that stand in a file
    _begun[place].also = begin(also, path, names, classes, previous) if also else None
    return _begun[place]


def mark(out: str, *more: object) -> None:
    """The same of a folder that is there, before anything else is looked at; one that is not has no tables."""
    if os.path.isdir(out):
        begin(out, *more)


def leave(folder: str) -> None:
    """Takes a folder away in which nothing but the file was made."""
    with contextlib.suppress(OSError):
        if os.listdir(folder) == [FILE]:
            os.remove(path_of(folder))
            os.rmdir(folder)


# Who is given a folder.


def why_not(folder: str) -> str:
    """Why the tables of a folder, or of a country that it is a region of, are not to be taken; nothing where they
    are."""
    for place in (folder, country_of(folder)):
        found = of(place) if place else None
        if found and found.state != WHOLE:
            if is_held(place):
                return f"{place} is unfinished: another run works there, wait for its end"
            return f"{place} is unfinished: {found.cause()}, so {EARLIER}: run it again, until it ends with tables"
    if country_of(folder) and is_left_over(folder):
        return f"{folder} is no region of its country now: its tables are of an earlier split"
    return why_of_another_kind(folder)


def why_of_another_kind(folder: str) -> str:
    """Where a release was made in the folder of a country, or a country in that of a release, the other's tables
    stand beside."""
    found = of(folder)
    for name in ("parcels.csv", "country.txt"):
        if found and found.tables and name not in found.tables and os.path.isfile(os.path.join(folder, name)):
            return (
                f"{os.path.join(folder, name)} is of an earlier run than `{found.run}`, which did not make it: remove"
                " it, or name another folder for one of the two"
            )
    return ""


def changed_of(folder: str, tables: dict[str, str]) -> list[str]:
    """The tables that are gone, or have another digest than a run gave them."""
    paths = {name: os.path.join(folder, name) for name in tables if os.path.isfile(os.path.join(folder, name))}
    now_there = ledger.digests_of(paths, "digests of the tables")
    return [name for name, digest in tables.items() if now_there.get(name) != digest]


def country_of(folder: str) -> str:
    """The country of which a folder is a region, or was one; else nothing."""
    above, name = os.path.split(os.path.realpath(folder))
    is_one = os.path.isfile(os.path.join(above, "country.txt")) or os.path.lexists(path_of(above))
    return above if is_one and (REGION.fullmatch(name) or name in regions_of(above)) else ""


def regions_of(country: str) -> list[str]:
    with contextlib.suppress(OSError), open(os.path.join(country, "country.txt"), encoding="latin-1") as file:
        return [line.split()[1] for line in file if line.startswith("region ") and len(line.split()) == 2]
    return []


def is_left_over(folder: str) -> bool:
    above, name = os.path.split(os.path.realpath(folder))
    return os.path.isfile(os.path.join(above, "country.txt")) and name not in regions_of(above)


def is_held(folder: str) -> bool:
    """Whether another process works in a folder."""
    if files.is_own(folder):
        return False
    with contextlib.suppress(OSError), files.locked(folder, fcntl.LOCK_SH | fcntl.LOCK_NB):
        return False
    return os.path.isdir(folder)


def look(*folders: str | None) -> None:
    """Refuses folders whose tables are of an earlier run than their last."""
    if reasons := list(filter(None, (why_not(folder) for folder in folders if folder))):
        raise Unfinished(*reasons)


def look_at_sources(folder: str, is_anyway: bool) -> list[str]:
    """What is told of the sources of a folder's tables before these are published. Sources that changed since stop
    that; one that is gone, or a database, is told."""
    found, told = of(folder), []
    if found is None:
        return [f"nothing is known of the source of {folder}: no tool of this version made its tables"]
    for source in found.sources:
        change = source.change()
        if change and source.is_there() and not is_anyway:
            raise Unfinished(
                f"{change}, by `{found.run}`: run that again; --source-anyway publishes the tables as they are"
            )
        told.append(
            change
            or f"{source.what} is as it was when the tables were made of it: {source.name} sha256 {source.digest}"
        )
    if changed := changed_of(folder, found.tables):
        told.append(
            f"{printing.counted(len(changed), 'table')} changed since the run that made them, such as {changed[0]}"
        )
    return told


def published(folder: str, year: int, register: str) -> None:
    """Notes that the tables of a folder were published."""
    found = of(folder)
    if found:
        found.published.append(
            {
                "year": year,
                "register": os.path.abspath(register),
                "when": now(),
                "tables": digest_of_tables(found.tables),
            }
        )
        with contextlib.suppress(Trouble):  # the register and its log have it
            write(folder, found)


def taken_back(folder: str, year: int) -> None:
    """Notes that a year of a folder was taken back."""
    found = of(folder) if folder else None
    if found and any(one.get("year") == year for one in found.published):
        found.published = [one for one in found.published if one.get("year") != year]
        with contextlib.suppress(Trouble):  # the register and its log have it
            write(folder, found)


def digest_of_tables(tables: dict[str, str]) -> str:
    return digest_of_lines((digest, name) for name, digest in sorted(tables.items()))
