"""Identifiers on their way to the tables: trimmed alike in all of them, given one where a name is none, and what
they name joined."""

from __future__ import annotations

import itertools
import os
import unicodedata
from itertools import islice

from shapely import wkb as shapely_wkb
from shapely.ops import unary_union

from ..formats import guarded_csv, identifiers, wkb
from ..source import land, percentages, spreadsheets
from ..system import files
from .conflicts import Loss, members_of, polygons_by
from .finding_rows import Finding
from ..system.printing import counted, readable

COLUMNS = (("parcels", ["parcel"]), ("covers", ["piece", "parcel", "class"]))
MOST_NAMED = 3  # pieces of a class that lacks
KINDS = ("parcel", "piece", "class")
MANY = 10_000  # names in memory
WRITTEN = "identifiers.csv"  # what a run writes
OWN = (("parcels", "parcel"), ("covers", "piece"), ("covers", "class"))  # where each kind of name is given


def alike(name):
    """What names have in common that people take for one: cases, forms of letters, blanks, the point behind a whole
    number."""
    return unicodedata.normalize("NFKC", name).casefold().strip().removesuffix(".0")


class Kept:
    """Words by other words, in a table: a dict for as many as a country has."""

    def __init__(self, base, name):
        self.base, self.name = base, name
        base.execute(f"CREATE TABLE IF NOT EXISTS {name} (number INTEGER PRIMARY KEY, old TEXT UNIQUE, new TEXT)")

    def get(self, old, default=None):
        found = self.base.execute(f"SELECT new FROM {self.name} WHERE old = ?", (old,)).fetchone()
        return found[0] if found else default

    def __contains__(self, old):
        return self.get(old) is not None

    def __setitem__(self, old, new):
        self.base.execute(
            f"INSERT INTO {self.name} (old, new) VALUES (?, ?) ON CONFLICT (old) DO UPDATE SET new = excluded.new",
            (old, new),
        )

    def setdefault(self, old, new):
        found = self.get(old)
        if found is None:
            self[old] = found = new
        return found

    def __bool__(self):
        return self.base.execute(f"SELECT 1 FROM {self.name} LIMIT 1").fetchone() is not None

    def items(self):
        return self.base.execute(f"SELECT old, new FROM {self.name} ORDER BY number")


class Names:
    """Gives each name that is no identifier an identifier, the same in all tables. Names that differ in blanks before
    or behind alone are one name, but where the table of an earlier year tells them apart."""

    def __init__(self, work, given):
        self.work, self.given = work, given
        self.bare = {kind: {} for kind in KINDS}  # what is given, by names without blanks
        for kind, names in given.items():
            for old, new in names.items():
                self.bare[kind].setdefault(old.strip(), new)
        self.known = {kind: {} for kind in KINDS}  # the identifier of each name that was asked for
        # what is written: each name that was changed or is given, and its identifier
        self.renamed = {kind: Kept(work.base, f"renamed_{kind}") for kind in KINDS}
        # whose an identifier is: a name without blanks
        self.owners = {kind: Kept(work.base, f"owner_{kind}") for kind in KINDS}

    def steps(self):
        """Does it, one step after the other."""
        for name, columns in COLUMNS:
            for column in columns:
                yield self.trim(name, column)
        yield self.note_owners()
        for name, columns in COLUMNS:
            yield self.work.layers[name].keep(
                lambda row, name=name, columns=columns: all([self.rename(name, row, column) for column in columns])
            )
        for column, names in self.given.items():  # those that this year has not come back in another
            for old, new in names.items():
                self.renamed[column].setdefault(old, new)
        for name, column in OWN:
            yield self.in_case_alone(name, column)

    def note_owners(self):
        """They are asked for one by one; classes, which are few, from a table of their own."""
        self.work.base.execute("CREATE TEMP TABLE class AS SELECT DISTINCT class AS name FROM row WHERE is_cover")

    def owner_of(self, column, new, bare):
        """Whose an identifier is: a name that is one has it, else it is that of this name, where it was nobody's."""
        if new not in self.owners[column] and self.new_name(column, new) == new and self.has(column, new):
            self.owners[column][new] = new
        return self.owners[column].setdefault(new, bare)

    def has(self, column, name):
        """Whether some row has a name."""
        if column == "class":
            return self.work.base.execute("SELECT 1 FROM class WHERE name = ?", (name,)).fetchone() is not None
        condition = "name = ? AND is_cover = 1" if column == "piece" else "parcel = ?"
        return self.work.base.execute(f"SELECT 1 FROM row WHERE {condition} LIMIT 1", (name,)).fetchone() is not None

    def trim(self, name, column):
        """Takes blanks off before and behind, where the name is the same without them."""
        first, count = None, 0
        for row in self.work.layers[name].rows:
            old = row[column]
            bare = old.strip()
            if bare not in ("", old) and self.new_name(column, old) == self.new_name(column, bare):
                first, count = first or (row, old, bare), count + 1
                row.fields[column] = bare
                self.renamed[column][old] = self.new_name(column, bare)
        if first:
            row, old, bare = first
            layer = self.work.layers[name]
            self.work.findings.append(
                Finding(
                    "blanks",
                    name,
                    row.number,
                    bare,
                    f"{count} of the column {column} have blanks before or behind, such as {old!r}",
                    "taken off, the same in all tables",
                    True,
                    key=layer.key,
                    final=self.new_name(column, bare),
                )
            )

    def new_name(self, column, old):
        """The identifier of a name: that of an earlier year, or the name itself, or what is made of it."""
        if len(self.known[column]) > MANY:
            self.known[column].clear()
        new = self.known[column].get(old)
        if new is None:
            given, bare = self.given[column], old.strip()
            new = (
                given.get(old)
                or given.get(bare)
                or (bare if identifiers.is_one(bare) else self.bare[column].get(bare) or identifiers.made_of(bare))
            )
            self.known[column][old] = new
        return new

    def rename(self, layer, row, column):
        """Whether the row's field is an identifier at last."""
        old, work = row[column], self.work
        if not old.strip():
            if column == "piece":
                made = f"{work.layers[layer].key}-{row.number}"
                work.find(
                    "nameless",
                    layer,
                    row,
                    f"no piece identifier: name it in the source, or --accept keeps the row and names the piece {made}",
                    f"kept, and named {made}",
                )
                row.fields[column] = made
                return True
            work.find(
                "nameless", layer, row, f"no {column} identifier: name it in the source, or --accept leaves the row out"
            )
            return False
        new = self.new_name(column, old)
        row.fields[column] = new
        if new != old and old not in self.renamed[column]:
            is_taken = self.owner_of(column, new, old.strip()) != old.strip()
            self.renamed[column][old] = new
            key = work.layers[layer].key
            work.findings.append(
                Finding(
                    "identifier",
                    layer,
                    row.number,
                    old,
                    f"{column} {old!r} is not a valid identifier"
                    if not identifiers.is_one(old)
                    else f"{column} {old!r}",
                    f"now {new}",
                    True,
                    key=key,
                    final=new,
                )
            )
            if is_taken or not identifiers.is_one(new):
                work.find(
                    "identifier",
                    layer,
                    row,
                    (
                        f"{column} {old!r} would become {new}, which another row has or which is not valid: give it a"
                        " name by --identifiers"
                    ),
                    "",
                )
        return True

    def in_case_alone(self, layer, column):
        """Names those that people may take for one."""
        for names in sorted(map(sorted, self.work.layers[layer].groups(column, alike))):
            self.work.findings.append(
                Finding(
                    "alike",
                    layer,
                    None,
                    names[0],
                    (
                        f"the {column}{'es' if column == 'class' else 's'} {' and '.join(names)} differ only in case,"
                        " or in .0"
                    ),
                    "kept as they are",
                    True,
                )
            )


def tell_strangers(work, rows, known):
    """Of pieces whose parcel is not there, with that of those known, in order, which people may take for it."""
    near, wanted = {}, {alike(row["parcel"]) for row in rows}
    for name in known:
        if alike(name) in wanted:
            near.setdefault(alike(name), name)
    for row in rows:
        other = near.get(alike(row["parcel"]))
        work.find(
            "stranger",
            "covers",
            row,
            f"its parcel {row['parcel']} is not there"
            + (f"; {other} is, which differs only in case, or in .0" if other else ""),
        )


def tell_bare(work, rows):
    for row in rows:
        work.find("bare", "parcels", row, "no piece with a shape names it")


def doubled_parcels(work, layer):
    """Leaves the first row of each parcel in the layer, and gives the rows that go on in it, behind it, by its id."""
    first, joined = {}, {}
    for row in layer.rows:
        before = first.setdefault(row["parcel"], row)
        if before is not row:
            work.find(
                "doubled", "parcels", row, f"{layer.key} {before.number} has this identifier too", "the two are joined"
            )
            joined.setdefault(id(before), [before]).append(row)
    layer.rows = list(first.values())
    return joined


def doubled_pieces(work, layer, used):
    """As with parcels; but a piece of another parcel or class gets a name of its own, which none of those used is."""
    first, joined, next_of = {}, {}, {}
    for row in layer.rows:
        name = row["piece"]
        before = first.setdefault(name, row)
        if before is row:
            continue
        if (before["parcel"], before["class"]) == (row["parcel"], row["class"]):
            work.find(
                "doubled",
                "covers",
                row,
                f"{layer.key} {before.number} has this identifier, parcel and class too",
                "the two are joined",
            )
            joined.setdefault(id(before), [before]).append(row)
            continue
        number = next(
            number for number in itertools.count(next_of.get(name[:36], 2)) if numbered(name, number) not in used
        )
        new, next_of[name[:36]] = numbered(name, number), number + 1
        used.add(new)
        work.find(
            "doubled",
            "covers",
            row,
            f"{layer.key} {before.number} has this identifier too, for another parcel or class",
            f"now {new}",
        )
        row.fields["piece"] = new
        first[new] = row
    layer.rows = list(first.values())
    return joined


def numbered(name, number):
    """An identifier with a number behind it: no longer than one may be."""
    end = f"-{number}"
    return f"{name[:identifiers.MOST - len(end)]}{end}"


def united(founds):
    """The land of shapes as one; None where there is none."""
    if len(founds) < 2:
        return founds[0] if founds else None
    shapes = [shapely_wkb.loads(found.blob) for found in founds]
    return wkb.Found(members_of(unary_union([shape if shape.is_valid else shape.buffer(0) for shape in shapes])))


# Tables of names and of classes.


def table_of(path, wanted, called=None):
    """A table of classes or identifiers, whatever program wrote it, with the names of its columns in small letters; and
    its faults, such as columns wanted that it lacks. `called` says what columns of a table of classes are called
    there."""
    sheet = spreadsheets.read(path)
    own = {found.lower(): name for name, found in (called or {}).items()}
    columns = [
        own.get(lower, f"{lower} (of another name)" if lower in own.values() else lower)
        for lower in map(str.lower, sheet.columns)
    ]
    doubled = sorted({name for name in columns if columns.count(name) > 1})
    records = [dict(zip(columns, fields)) for _, fields in sheet.rows()]
    lacking = (
        []
        if sheet.faults
        else [
            name
            for name in wanted
            if name not in columns and not (name == percentages.PERCENT and percentages.ELIGIBLE in columns)
        ]
    )
    return records, [
        *(fault.words + (f" (row {fault.row})" if fault.row else "") for fault in sheet.faults),
        *(f"two columns are called {name}" for name in doubled),
        *(
            f"no column {(called or {}).get(name, name)}: there are"
            f" {', '.join(sheet.columns) or 'none'}{which(name) if called is not None else ''}"
            for name in lacking
        ),
    ]


def which(column):
    return f" (--name classes.{column}=COLUMN says which it is)"


def has_no_names(path):
    """Whether a table of identifiers is not there since that year changed no name: what tools/prepare writes in any
    case stands in its folder."""
    return (
        os.path.basename(path) == WRITTEN
        and not os.path.lexists(path)
        and os.path.isfile(os.path.join(os.path.dirname(path), "prepared.csv"))
    )


def given_identifiers(path):
    """A table kind, old, new of an earlier year. What cannot be read of it is no name less."""
    given = {kind: {} for kind in KINDS}
    if path and has_no_names(path):
        return given
    records, faults = table_of(path, ("kind", "old", "new")) if path else ([], [])
    if faults:
        raise land.Trouble(*(f"{path}: {words}" for words in faults))
    for number, record in enumerate(records, 1):
        kind, old, new = (guarded_csv.plain(record[name]) for name in ("kind", "old", "new"))
        if kind not in given or not old or not new or given[kind].setdefault(old, new) != new:
            raise land.Trouble(
                f"{path} row {number}: {kind!r}, {old!r}, {new!r}: a kind (parcel, piece or class), an old name and the"
                " one new name of it are wanted"
            )
    return given


def write_identifiers(renamed, path):
    """The names that were changed, old and new, as they are in the tables."""
    with files.anew(path, newline="") as file:
        table = guarded_csv.Writer(file)
        table.writerow(["kind", "old", "new"])
        table.writerows(
            [kind, guarded_csv.text(old), guarded_csv.text(new)]
            for kind, names in renamed.items()
            for old, new in names.items()
        )


def point_in(row):
    """A point of a row's shape; None where it has none."""
    return Loss("class", [], "", polygons_by(row.found.members)).place() if row.found else None


def line_of_class(name):
    """A line of a table of classes, whose figure somebody has to know: it is money."""
    return f"{name},?"


def classes(work, names, table, used):
    """The rows of classes.csv, by the new names; None where there is no table. `used`: how many pieces have each
    class."""
    if table is None:
        return None
    column = next(
        (name for name in (percentages.PERCENT, percentages.ELIGIBLE) if any(name in record for record in table)),
        percentages.PERCENT,
    )
    rows = {}

    def tell(kind, name, words, done=""):
        work.findings.append(Finding(kind, "classes", None, name, words, done, bool(done)))

    for record, taken in zip(table, percentages.read([record.get(column) for record in table], column)):
        old = (record.get("class") or "").strip()
        new = names.new_name("class", old)
        if not old:
            tell("nameless", "", "a row without a class")
        elif taken.percent is None:
            tell("percent", old, f"its {column} {taken.words}")
        elif new in rows:
            tell("doubled", old, "it is there twice")
        elif taken.words:
            tell("percent", old, f"its {column} is {record[column]!r}", taken.words)
        rows[new] = taken.percent
    near, layer = {alike(name): name for name in rows}, work.layers["covers"]
    for name in sorted(set(used) - set(rows)):
        other = near.get(alike(name))
        some = list(islice(layer.among("class = ?", (name,)), MOST_NAMED))
        named = ", ".join(f"{readable(row['piece'])} ({layer.key} {row.number})" for row in some)
        words = (
            f"{counted(used[name], 'piece')} {'has' if used[name] == 1 else 'have'} this class, {named}"
            f"{' ..' if used[name] > len(some) else ''}, which the table of classes does not have"
            + (f"; it has {other}, which differs only in case, or in .0" if other else "")
        )
        words += f": add the line {line_of_class(name)} to that table, with its percentage in place of the ?"
        place = next((point for row in some if (point := point_in(row))), None)
        work.findings.append(Finding("class", "covers", None, name, words, place=place))
    return rows
