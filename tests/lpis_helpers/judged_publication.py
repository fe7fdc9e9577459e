"""What `lpis publish-country` and `lpis exact-country` have to answer, by their definition in docs/FORMATS.md, over
sets, lists and whole numbers and without them: each region's own check is handed in, and what the register says is
read with SQLite. Shapes are compared by exact_lineage.py."""

import collections
import csv
import os
import re

from lpis_helpers import judged_country as judged
from lpis_helpers.exact_lineage import Change, Row, block_fault, is_made_up
from lpis.formats import polygons

IDENTIFIER = re.compile(r"[A-Za-z0-9._:/-]{1,40}")
NUMBER = re.compile(r"0|-?[1-9][0-9]*")
MOST_ROWS, MOST_FLATS, MOST_COUNT = 200_000, 2_000_000, 4_294_967_295
MARK = "\xef\xbb\xbf"

# What a register says: releases as (year, identifiers, rows as (old, new, is marked)), and the shapes of the last by
# identifier.
Said = collections.namedtuple("Said", "releases shapes")
# What comes: standard output, standard error, the status, what the register says then (None: as before), and the blocks
# that are wanted.
Answer = collections.namedtuple("Answer", "text told status after groups", defaults=(None, None))


class Ends(Exception):
    """A run ends: this is printed, with this status; the line of a failure goes to standard error."""

    def __init__(self, text, status=1, told=""):
        super().__init__(text + told)
        self.answer = Answer(text, told, status)


def is_there(path, name):
    if not os.path.isfile(path):
        raise Ends("", 3, f"failed read {name}\n")


def text_of(path):
    with open(path, encoding="latin-1", newline="") as file:
        return file.read()


# The tables at the top and of lineage.


def records(path):
    text = text_of(path).removeprefix(MARK)
    return [record for record in csv.reader(text.splitlines(keepends=True)) if record]


def header_fault(names, wanted):
    """The code of the first fault of a header, or None."""
    for column in wanted:
        if names.count(column) != 1:
            return "31" if column not in names else "32"
    return None


def classes_fault(path):
    """Code and row of the first fault of a table of classes with percentages, or None."""
    header, *rows = records(path) or [[]]
    names, seen = [name.lower() for name in header], set()
    if code := header_fault(names, ["class", "percent"]):
        return code, 0
    for number, record in enumerate(rows, 1):
        if len(record) != len(header):
            return "30", number
        name, percent = (record[names.index(column)] for column in ("class", "percent"))
        if not IDENTIFIER.fullmatch(name):
            return "33", number
        if name in seen:
            return "34", number
        seen.add(name)
        if not re.fullmatch("0|[1-9][0-9]?|100", percent):
            return "3b", number
    return None


def lineage_of(path, region):
    """The rows of a table of lineage, or code and number of the first row with a fault."""
    header, *rows = records(path) or [[]]
    names, found = [name.lower() for name in header], []
    if code := header_fault(names, ["old", "new"]) or ("32" if names.count("exact") > 1 else None):
        return code, 0
    for number, record in enumerate(rows, 1):
        if len(record) != len(header):
            return "30", number
        if number > MOST_ROWS:
            return "3a", number
        old, new, mark = (record[names.index(column)] if column in names else "" for column in ("old", "new", "exact"))
        if not IDENTIFIER.fullmatch(old) or (new and not IDENTIFIER.fullmatch(new)):
            return "33", number
        if mark not in ("", "0", "1"):
            return "3c", number
        found.append(Row(old, new, mark == "1", number, region))
    return found


# Certificates.


class Lines:
    """The lines of a certificate of version 2 in order; its blocks `exact` are what is asked of it."""

    SHAPES = {"piece": 4, "t": 7, "f": 7, "parcel": 3, "exact": 4, "pairs": 2, "s": 4, "end": 1}
    AFTER = {
        "": ("piece", "parcel", "exact", "pairs"),
        "piece": ("piece", "parcel", "exact", "pairs"),
        "parcel": ("parcel", "exact", "pairs"),
        "exact": ("exact", "pairs"),
        "pairs": ("end",),
    }

    def __init__(self, text):
        self.lines, self.blocks, self.declared = text.split("\n"), [], {"t": 0, "f": 0}
        self.block, self.owed = "", []  # the block that is read, and the kinds of its lines that are still to come
        for number in range(1, len(self.lines) + 1):
            if self.block == "end":
                if self.lines[number - 1]:
                    raise At("55", number)
                return
            if number == len(self.lines):
                raise At("54", number)
            code = self.read(self.lines[number - 1], number)
            if code:
                raise At(code, number)

    def read(self, line, number):
        if number == 1:
            return "50" if line != "lpis-cert 2" else None
        words = line.split(" ")
        kind = words[0]
        if (
            "" in words
            or len(words) != self.SHAPES.get(kind)
            or (kind == "exact" and words[1] not in ("split", "merge"))
        ):
            return "51"
        if (kind in ("piece", "parcel") and not IDENTIFIER.fullmatch(words[1])) or (
            kind == "exact" and not IDENTIFIER.fullmatch(words[2])
        ):
            return "51"
        if kind not in (self.owed[:1] or self.AFTER[self.block]):
            return "53"
        names = {"piece": 2, "parcel": 2, "exact": 3}.get(kind, 1)
        numbers = words[names:]
        if not all(map(self.is_coordinate if kind in "tf" else self.is_count, numbers)) or (
            kind == "s" and int(numbers[2]) > 5
        ):
            return "52"
        return self.take(kind, words, list(map(int, numbers)))

    @staticmethod
    def is_coordinate(word):
        return NUMBER.fullmatch(word) is not None and abs(int(word)) <= judged.FAR

    @staticmethod
    def is_count(word):
        return NUMBER.fullmatch(word) is not None and 0 <= int(word) <= MOST_COUNT

    def take(self, kind, words, numbers):
        if self.owed:
            self.owed.pop(0)
            if kind == "f" and self.block == "exact":
                self.blocks[-1][2].append(tuple(zip(numbers[::2], numbers[1::2])))
            return None
        self.block = kind
        counts = {
            "piece": zip("tf", numbers),
            "parcel": [("f", numbers[0])] if numbers else [],
            "exact": [("f", numbers[0])] if numbers else [],
        }.get(kind, [])
        for shape, count in counts:
            self.declared[shape] += count
            if self.declared[shape] > MOST_FLATS:
                return "56"
            self.owed += [shape] * count
        self.owed += ["s"] * numbers[0] if kind == "pairs" else []
        if kind == "exact":
            self.blocks.append([words[1] == "merge", words[2], []])
        return None


class At(Exception):
    """The first line of a certificate with a fault."""

    def __init__(self, code, line):
        super().__init__(code, line)
        self.code, self.line = code, line


# A release that follows.


class Release(Change):
    """The union of the regions after the last release: its parcels in order, and all rows."""

    def __init__(self, said, parcels, rows):
        super().__init__(set(said.releases[-1][1]) if said.releases else set(), parcels, rows, said.shapes)
        self.said = said

    def row_fault(self):
        """What stands behind `refused 81 lineage` for the first row that does not fit, or None."""
        seen, endings, successors = set(), set(), set()
        for row in self.rows:
            code = (
                "70"
                if row.old not in self.last
                else (
                    "71"
                    if row.old in self.parcels
                    else (
                        "72"
                        if row.new and row.new not in self.parcels
                        else (
                            "73"
                            if row[:2] in seen
                            else "74"
                            if row.old in (successors if not row.new else endings)
                            else None
                        )
                    )
                )
            )
            if code:
                return f"{code} row {row.number} region {row.region}"
            seen.add(row[:2])
            (successors if row.new else endings).add(row.old)
        return None

    def fault(self):
        """The same for the first fault of all."""
        if found := self.row_fault():
            return found
        olds = {row.old for row in self.rows}
        if lost := sorted(name for name in self.last if name not in self.parcels and name not in olds):
            return f"75 {lost[0]}"
        for name in self.parcels:
            years = [year for year, names, _ in self.said.releases if name in names]
            if years and name not in self.last:
                return f"76 {name} {years[-1]}"
        row = self.first_outside()
        return f"78 row {row.number} region {row.region}" if row else None

    def groups(self):
        """The groups with their shapes; 77 where one is not kept."""
        for is_merge, name, others in self.marked():
            for old in sorted(others) if is_merge else [name]:
                if old not in self.shapes:
                    raise Ends(f"refused 81 lineage 77 {old}\n")
        return super().groups()

    def kept(self, year):
        """What the register says once it is published."""
        rows = [(row.old, row.new, row.is_marked) for row in self.rows]
        return Said([*self.said.releases, (year, sorted(self.parcels), rows)], dict(self.parcels))


# The commands.


class Country:
    """The files of a country, read in the order in which their faults come."""

    def __init__(self, folder, said, check, with_parcels=False):
        """`said` is what the register says, or the line of an opening that fails or is refused."""
        self.folder, self.said, self.check, self.with_parcels, self.passed = folder, said, check, with_parcels, ""

    def path(self, *names):
        return os.path.join(self.folder, *names)

    def open(self, *files):
        if isinstance(self.said, str):
            raise Ends(self.said, 2) if self.said.startswith("refused") else Ends("", 3, self.said)
        for path, name in ((self.path("country.txt"), "country"), (self.path("classes.csv"), "classes"), *files):
            is_there(path, name)

    def read_plan(self):
        try:
            self.plan = judged.Plan(text_of(self.path("country.txt")))
        except judged.At as at:
            raise Ends(f"refused 90 country line {at.line}\n", 2) from None
        if found := classes_fault(self.path("classes.csv")):
            raise Ends(f"refused {found[0]} classes row {found[1]}\n", 2)

    def read_lineage(self):
        self.rows = []
        for region in self.plan.folders:
            is_there(self.path(region, "lineage.csv"), f"lineage region {region}")
            found = lineage_of(self.path(region, "lineage.csv"), region)
            if isinstance(found, tuple):
                raise Ends(f"refused {found[0]} lineage row {found[1]} region {region}\n", 2)
            self.rows += found

    def pass_regions(self):
        text, status, self.totals, parcels = judged.passing(
            self.folder, self.plan, judged.classes_of(self.folder), self.check, self.with_parcels
        )
        if status == 3:
            before, _, failed = text[:-1].rpartition("\n")
            raise Ends(before + "\n" * bool(before), 3, f"{failed}\n")
        if status:
            raise Ends(text, status)
        self.passed, self.release = text, Release(self.said, parcels, self.rows)

    def follow(self):
        """Behind the regions' lines: 81, and 77 among the groups that it answers."""
        if found := self.release.fault():
            raise Ends(f"refused 81 lineage {found}\n")
        return self.release.groups()

    def ended(self, ends):
        """The answer of a run that ended early, with the lines of the regions that passed before it."""
        return ends.answer._replace(text=self.passed + ends.answer.text)


def publish(folder, said, year, file, check, with_parcels=False):
    """The answer of `publish-country`; `file` is that of --exact, or None."""
    country = Country(folder, said, check, with_parcels)
    try:
        country.open(*([(file, "cert")] if file else []))
        if said.releases and year <= said.releases[-1][0]:
            raise Ends(f"refused 80 last {said.releases[-1][0]}\n")
        country.read_plan()
        try:
            blocks = Lines(text_of(file)).blocks if file else []
        except At as at:
            raise Ends(f"refused {at.code} cert line {at.line}\n", 2) from None
        country.read_lineage()
        country.pass_regions()
        groups = country.follow()
        if found := block_fault(groups, blocks):
            raise Ends(f"refused 85 exact {found[0]} {found[1]}\n")
    except Ends as ends:
        return country.ended(ends)
    text = country.passed + judged.whole(country.plan, country.totals) + country.release.lines() + f"published {year}\n"
    return Answer(text, "", 0, country.release.kept(year), groups)


def exact(folder, said, check):
    """The answer of `exact-country`; the flats that it writes are its own affair."""
    country = Country(folder, said, check)
    try:
        country.open()
        country.read_plan()
        country.read_lineage()
        country.pass_regions()
        groups = country.follow()
        for group in groups:
            if not is_made_up(group.whole, group.parts):
                raise Ends(f"refused 45 exact {group.name}\n")
    except Ends as ends:
        return country.ended(ends)
    return Answer(f"{country.passed}exact {len(groups)}\n", "", 0, None, groups)


def written_faults(text, groups):
    """What is wrong with a certificate that `exact-country` wrote, or None."""
    try:
        found = Lines(text)
    except At as at:
        return f"refused {at.code} cert line {at.line}"
    if found.declared["t"] or re.search("(?m)^(piece|parcel|s) ", text):
        return "triangles, parcels or pairs"
    return block_fault(groups, found.blocks)


def said_of(register):
    """What a register that was read says, by registers.py."""
    releases = [
        (year, [name for name, in names], [(old, new, is_marked) for _, old, new, is_marked in rows])
        for year, names, rows in register.releases
    ]
    return Said(releases, {name: polygons.read(wkt.encode()) for name, wkt in register.texts})
