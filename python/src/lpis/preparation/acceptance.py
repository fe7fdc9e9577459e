"""What of the findings is accepted: everything, some kinds, or the rows that somebody marked in a copy of findings.csv,
prepared.csv or report.csv. A mark holds for what lies in the polygons that were marked, with a millimetre about them;
that of a row without polygons for one row of the same names and words, the one of the same number first. Numbers of
rows may be others than they were."""

from __future__ import annotations

import argparse
import re
from collections import Counter

from ..formats import guarded_csv
from . import decisions, outlines
from ..source import land, spreadsheets
from .finding_rows import readable

ALL = "all"
LAST = 0.0011  # the last digit of an area and of a place, as the tables have them
KINDS = (
    "table",
    "system",
    "shape",
    "degrees",
    "far",
    "points",
    "invalid",
    "nameless",
    "identifier",
    "doubled",
    "stranger",
    "bare",
    "class",
    "classes",
    "percent",
    "previous",
    "lost",
    "left out",
    "made",
    "added",
    "overlap",
    "gap",
    "outside",
    "changed",
)
BY_PLACE = ("overlap", "gap", "outside", "invalid")  # their words tell of the place alone
COLUMNS = {"kind", "layer", "row", "area_m2", "x", "y", "words", "place", "accepted"}
# What words tell of sizes and of rows, which may be others in a year that has the same to tell.
SIZES = re.compile(
    r"[0-9]+\.[0-9]{3}(?= m2\b| m\b| to [0-9]+\.[0-9]{3} m2\b)|(?<=\bfid[ -])[0-9]+|(?<=\brow[ -])[0-9]+"
)
OF_ROWS = re.compile(r"(?<!\S)(?:fid|row)-[0-9]+(?!\S)")  # names that pieces without one have by their rows
NO_KIND = f"{{}} is no kind of finding. Write one of {', '.join(KINDS)}, or several with commas between"
MOST_NAMED = 3


def add_to(parser, done):
    """The words of the command line; `arguments_of` makes them readable for argparse."""
    parser.add_argument(
        "--accept",
        metavar="KIND,..",
        type=kinds_of,
        help=f"{done}: all findings, or these kinds alone, such as gap,invalid",
    )
    parser.add_argument(
        "--accept-from",
        metavar="FILE",
        action="append",
        default=[],
        help="accept the rows of a copy of findings.csv that have 1 in the column accepted; may be given several times",
    )


def arguments_of(words):
    """The words of a command line with those of --accept in one: it stands alone for all kinds, or before a list of
    them."""
    made, words = [], list(words)
    while words:
        word = words.pop(0)
        if word == "--accept":
            word = f"{word}={words.pop(0) if words and (words[0] == ALL or is_list(words[0])) else ALL}"
        made.append(word)
    return made


def parsed(parser, words):
    """What the words of a command line say. Where one is too many, a word behind --accept that is no list of kinds
    was meant as one."""
    said, unknown = parser.parse_known_args(arguments_of(words))
    for before, word in zip(words, words[1:]) if any(not word.startswith("-") for word in unknown) else ():
        if before == "--accept" and word != ALL and not word.startswith("-") and not is_list(word):
            parser.error(f"argument --accept: {NO_KIND.format(word)}")
    if unknown:
        parser.error(f"unrecognized arguments: {' '.join(unknown)}")
    return said


def is_list(word):
    return all(kind in KINDS for kind in word.replace("-", " ").split(","))


def kinds_of(word):
    if word == ALL:
        return frozenset(KINDS)
    if not is_list(word):
        raise argparse.ArgumentTypeError(NO_KIND.format(word))
    return frozenset(word.replace("-", " ").split(","))


class Accepting:
    """Says of a finding or a loss whether it is accepted."""

    def __init__(self, kinds, paths=()):
        self.is_all, self.kinds = kinds == frozenset(KINDS), kinds or frozenset()
        self.rows, self.tables, self.notes = {}, decisions.Tables(), {}
        self.following = set()  # what comes of what is accepted
        for path in paths:
            self.read(path)

    def read(self, path):
        """The marked rows of a table."""
        sheet = spreadsheets.read(path)
        records = list(sheet.records)
        columns = {name.lower() for name in sheet.columns}
        lacking = sorted(COLUMNS - columns) + ([] if columns & {"identifier", "identifiers"} else ["identifier"])
        faults = [f"{path}: {fault.words}" for fault in sheet.faults]
        if lacking == ["place"]:
            faults.append(
                f"{path}: no column place: it is a copy of an earlier version's table, which does not say what was"
                " marked: run again without it, and mark the rows of the new table"
            )
        elif lacking:
            faults.append(
                f"{path}: no column {' and '.join(lacking)}: it is no copy of findings.csv, prepared.csv or"
                " report.csv with a column accepted"
            )
        if faults:
            raise land.Trouble(*faults)
        digest = self.tables.add(path)
        records = [{name.lower(): (value or "").strip() for name, value in record.items()} for record in records]
        for number, record in enumerate(records, 1):
            if record["accepted"] not in ("", "0", "1"):
                raise land.Trouble(f"{path} row {number}: accepted is {record['accepted']!r}, and not 1, 0 or empty")
            if record["accepted"] == "1":
                self.add(path, number, record, self.tables.decision(digest, record))
            elif noted := decisions.notes_of(record):
                self.notes[record.get("number"), record["kind"]] = noted

    def add(self, path, number, record, decision):
        """A row that is marked."""
        try:
            mark = Mark(record, decision, f"{path} row {number}")
        except outlines.Damaged:
            raise land.Trouble(
                f"{path} row {number}: its place is not as it was written: take the row from the table again, and leave"
                " the column place as it is"
            ) from None
        names = guarded_csv.plain(record.get("identifier") or record.get("identifiers") or "")
        self.rows.setdefault((record["kind"], record["layer"], same_name(names)), []).append(mark)

    def bind(self, founds):
        """Has each mark without polygons hold for one row: for that of its number, where there is one, or else for
        the first."""
        bare = [(found, marks) for found in founds if (marks := [one for one in self.marks_of(found) if not one.place])]
        for is_same_row in (True, False):
            for found, marks in bare:
                row = found.key_words()[2]
                free = (one for one in marks if one.held is None and (one.row == str(row)) >= is_same_row)
                if all(one.held != row for one in marks) and (
                    mark := next(filter(lambda one: one.is_for(found), free), None)
                ):
                    mark.held = row

    def marks_of(self, found):
        return self.rows.get(key_of_rows(found), ())

    def takes(self, found):
        """Whether a finding or a loss is accepted."""
        return (
            self.is_all
            or found.kind in self.kinds
            or self.mark_of(found) is not None
            or key_of(found) in self.following
        )

    def follow(self, found):
        """Takes what comes of what is accepted."""
        self.following.add(key_of(found))

    def mark_of(self, found):
        """The first mark that holds for a finding or a loss, or None."""
        return next((mark for mark in self.marks_of(found) if mark.holds_for(found)), None)

    def decision(self, found):
        """Who accepted a finding or a loss: a mark tells more than an option. None where nobody did."""
        if mark := self.mark_of(found):
            return mark.decision
        if self.is_all or found.kind in self.kinds:
            return decisions.Decision(decisions.BY_OPTION)
        return decisions.Decision(decisions.BY_OTHERS) if key_of(found) in self.following else None

    def unfit(self, founds):
        """What is said of marks that are for nothing that was found: each with its row, and why not, where something
        of the same kind and names is there."""
        kept = {key_of_rows(found) for found in founds}
        for found in founds:
            for mark in self.marks_of(found):
                mark.is_used = mark.is_used or mark.is_for(found)
        for key, marks in self.rows.items():
            kind, layer, names = key
            there = (
                "what is there now lies elsewhere, is larger, or has other words"
                if key in kept
                else "there is no such finding"
            )
            for mark in marks:
                if not mark.is_used:
                    what = " ".join(filter(None, (kind, names, layer and f"({layer})")))
                    yield f"{mark.stands}: {what} is accepted there, and {there}"

    def notes_of(self, number, kind):
        """What tables of marks have beside a row that they do not accept."""
        return self.notes.get((str(number), kind), {})

    def __bool__(self):
        return bool(self.is_all or self.kinds or self.rows)


def key_of_rows(found):
    """By what the marks of a finding or a loss are found."""
    kind, layer, _, names = found.key_words()
    return kind, layer, same_name(names)


def key_of(found):
    """What a loss that comes of others is known by."""
    return (*found.key_words(), found.words)


class Mark:
    """A row that somebody marked, who did, and where that stands. `held` is the number of the row for which it holds,
    where it has no polygons."""

    def __init__(self, record, decision, stands=""):
        self.decision, self.held, self.stands, self.is_used = decision, None, stands, False
        self.row, self.size = record["row"], [value_of(record[name]) for name in ("area_m2", "x", "y")]
        self.words, self.place = without_sizes(guarded_csv.plain(record["words"])), record["place"]
        if self.place:
            outlines.data_of(self.place)

    def holds_for(self, found):
        """Whether it is for something that was found: its polygons lie in what was marked; or it is the row for which
        a mark without polygons holds, the first that is asked for where `bind` did not say."""
        if not self.is_for(found):
            return False
        if not self.place and self.held is None:
            self.held = found.key_words()[2]
        return bool(self.place) or self.held == found.key_words()[2]

    def is_for(self, found):
        """Whether what was found, of the same kind, layer and names, is what was marked."""
        blob = found.polygons()
        if bool(blob) != bool(self.place) or (found.kind not in BY_PLACE and self.words != without_sizes(found.words)):
            return False
        return (
            outlines.has(self.place, blob)
            if blob
            else all(map(is_same, self.size, [found.area, *(found.at() or (None, None))]))
        )


def same_name(names):
    """Names, but for those that the tables give by the number of a row, which may be another next time."""
    return " ".join(sorted(OF_ROWS.sub("..", names.strip()).split()))


def without_sizes(words):
    return SIZES.sub("..", words.strip())


def value_of(text):
    try:
        return guarded_csv.number(text) if text else None
    except ValueError:
        raise land.Trouble(f"{text!r} is no number, in a row that is accepted") from None


def is_same(one, other):
    return one is other if one is None or other is None else abs(one - other) <= LAST


class Left:
    """What stops and is not accepted: how many, their kinds, and the first of them by name."""

    def __init__(self, found=()):
        self.count, self.kinds, self.named = 0, Counter(), []
        for one in found:
            self.add(one)

    def add(self, found):
        self.count += 1
        self.kinds[found.kind] += 1
        if self.count <= MOST_NAMED:
            self.named.append(
                " ".join(word for word in (found.kind, *map(readable, found.key_words()[3].split())) if word)
            )

    def words(self, stopping):
        """The last line's words, beside how many stop in all."""
        of = f" of {stopping}, the others are accepted" if self.count < stopping else ""
        counted = (
            ", ".join(f"{count} {kind}" for kind, count in self.kinds.most_common()) + ": "
            if self.count > MOST_NAMED
            else ""
        )
        return f"{self.count}{of} ({counted}{'; '.join(self.named)}{'; ..' if self.count > MOST_NAMED else ''})"
