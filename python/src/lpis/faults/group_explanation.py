"""The marked splits and merges of a lineage table, with the shapes that a register keeps of the last release."""

import sqlite3

from ..formats import polygons
from ..formats.square_metres import AREA, decimal
from ..lineage.successions import Group
from ..formats.register_rows import Kept
from ..formats.byte_tables import shown


def group_of(table, name):
    """The marked split or merge of an identifier, and its rows; None and no rows where marked ones make none. A kept
    successor is not among the parts."""
    marked = [
        (row, table.field(record, "old"), table.field(record, "new"))
        for row, record in table.rows()
        if table.field(record, "exact") == b"1"
    ]
    split = [(row, new) for row, old, new in marked if old == name]
    merge = [(row, old) for row, old, new in marked if new == name]
    found = merge or (split if len(split) > 1 else [])
    return Group(bool(merge), name, tuple(sorted(part for _, part in found))) if found else None, [
        row for row, _ in found
    ]


class OfGroups:
    """The words about splits and merges: a part of `explaining.Explained`, whose words, shapes and tables it takes."""

    def say_row_of_lineage(self, table, row, record):
        mark = "marked" if table.field(record, "exact") == b"1" else "not marked"
        self.say(
            f"  row {row}: {shown(table.field(record, 'old'))} became {shown(table.field(record, 'new')) or 'nothing'},"
            f" {mark}"
        )

    def kept(self):
        """The shapes that the register keeps, or None where it is not named or cannot be read."""
        if not self.register:
            self.say("name the register by --register DB to see the old shapes, and what differs")
            return None
        try:
            return Kept(self.register)
        except sqlite3.Error as error:
            self.say(f"{self.register}: {error}")
            return None

    def say_kept(self):
        """Of 77: what the register keeps, and the rows of the parcel."""
        name, table = self.refusal.names[0].encode(), self.table("lineage")
        for row, record in table.rows() if table else ():
            if name in (table.field(record, "old"), table.field(record, "new")):
                self.say_row_of_lineage(table, row, record)
        kept = self.kept()
        if kept:
            self.say(
                f"{self.register} keeps"
                f" {'the shape of it: was it published over since?' if kept.text(name) else 'no shape of it'}"
            )

    def say_exact(self):
        """Of 45 and 85: the rows of the split or merge, the old and the new shapes, and where the whole and its
        parts differ."""
        name, table = self.refusal.names[0].encode(), self.table("lineage")
        if self.refusal.exact_code == "6a":
            self.say_blocks()
        group, rows = group_of(table, name) if table else (None, [])
        if group is None:
            if table:
                self.say(f"no marked rows of {table.path} are a split of {shown(name)}, or a merge into it")
            return
        self.say(
            f"{shown(name)} has {len(rows)} marked rows, {'a merge into it' if group.is_merge else 'a split of it'}:"
        )
        for row in rows:
            self.say_row_of_lineage(table, row, table.record(row))
        kept = self.kept()
        whole, parts = self.find_new([group.name]) if group.is_merge else [], (
            [] if group.is_merge else self.find_new(group.parts)
        )
        if kept:
            old = self.find_old(kept, [*group.parts, group.name] if group.is_merge else [group.name])
            self.say_difference(*((whole, old) if group.is_merge else (old, parts)))

    def find_new(self, names):
        count = len(self.shapes)
        for name in names:
            self.find_shape("parcels", "parcel", shown(name))
        return [members for _, _, members in self.shapes[count:]]

    def find_old(self, kept, names):
        """The shapes that are kept of these; a successor that was not there before has none."""
        found = [(name, kept.shape(name)) for name in names]
        for name, members in found:
            if members:
                self.say(f"old parcel {shown(name)}, as {self.register} keeps it: {polygons.extent(members)}")
                self.add_shape("old parcel", shown(name), members)
        return [members for _, members in found if members]

    def say_difference(self, wholes, parts):
        if len(wholes) != 1 or not parts:
            self.say("shapes of it are missing: was the register published over since, or the table changed?")
            return
        more = sum(map(polygons.doubled, parts)) - polygons.doubled(wholes[0])
        self.say(
            "the parts together have the area of the whole"
            if more == 0
            else (
                f"the parts together have {decimal(abs(more), AREA)} m2 {'more' if more > 0 else 'less'} than the whole"
            )
        )
        self.stretches = polygons.residue(wholes[0], parts)
        if not self.stretches:
            self.say("their borders agree: `lpis exact` finds flats for them")
            return
        self.say_stretches("the whole's or its parts'")

    def say_stretches(self, whose):
        """How many stretches differ, and the shortest, at which the difference is seen best."""
        (a, b) = min(self.stretches, key=lambda it: sum((p - q) ** 2 for p, q in zip(*it)))
        self.say(
            f"{len(self.stretches)} stretches of border are {whose} alone; the shortest from"
            f" {polygons.metres(a[0])} {polygons.metres(a[1])} to {polygons.metres(b[0])} {polygons.metres(b[1])}"
        )
        if not self.place and self.refusal.code != "43":
            self.place = a
            self.say("its beginning (found by this tool, not reported by lpis):")

    def say_blocks(self):
        """The blocks that a certificate has; which are wanted the marks say."""
        if not self.cert:
            self.say("name the certificate by --cert CERT to see its blocks")
            return
        try:
            with open(self.cert, "rb") as file:
                blocks = [line.split()[1:3] for line in file if line.startswith(b"exact ") and len(line.split()) == 4]
        except OSError as error:
            self.say(f"{self.cert}: {error.strerror}")
            return
        names = ", ".join(" ".join(map(shown, block)) for block in blocks[:8]) + (", .." if len(blocks) > 8 else "")
        self.say(f"{self.cert} has {len(blocks)} blocks `exact`{': ' if names else ''}{names}")
