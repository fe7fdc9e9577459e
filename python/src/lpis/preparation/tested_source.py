"""A source as a whole on its way to the tables: its tables and systems of coordinates, and what is found of all of its
rows, which are in a store."""

from __future__ import annotations

from . import identifier_passes, source_tests
from .finding_rows import Finding
from .source_tests import KEYS
from ..country import row_store
from ..country.row_store import Row
from ..source import coordinate_systems, land

MOST_ROWS = 200_000
# steps, in the order in which what they find is told
TABLES, SHAPES, VALID, NAMES, PARCELS, PIECES, STRANGERS, BARE, CLASSES = range(9)
OF_ROW = ", ".join(f"row.{column.strip()}" for column in row_store.COLUMNS.split(","))


class Preparation(source_tests.Tests):
    """A source in a store on its way to the tables. `layers` are those of the store, or outlined as long as there is
    none."""

    def __init__(self, layers, epsg, say):
        super().__init__(layers, epsg)
        self.say, self.counts = say, {name: len(layer.rows) for name, layer in layers.items()}
        self.base, self.transformed = None, {}

    def begin(self, base, layers):
        """Goes on with the rows in a store."""
        before, self.findings, self.base = self.findings, row_store.Findings(base), base
        base.create_function(row_store.KEY, 1, identifier_passes.alike, deterministic=True)
        for finding in before:
            self.findings.append(finding)
        for name in row_store.LAYERS:
            self.layers[name] = row_store.Layer(base, name, layers[name])

    def at(self, step):
        self.findings.step, self.findings.place = step, 0.0

    def find(self, kind, layer, row, words, done="left out", is_mended=False, blob=None):
        if self.base and self.findings.step in (PARCELS, PIECES, STRANGERS, BARE) and row:
            self.findings.place = row.id
        super().find(kind, layer, row, words, done, is_mended, blob)

    def grave(self):
        return self.findings.those("NOT is_mended") if self.base else filter(Finding.is_grave, self.findings)

    def hopeless(self):
        found = self.findings.those("NOT is_mended AND done = ''") if self.base else self.findings
        return list(filter(Finding.is_hopeless, found))

    # Tables and columns.

    def tables(self):
        """What keeps a table from being read, and what of it is not taken over."""
        for name, layer in self.layers.items():
            for fault in layer.faults:
                self.findings.append(Finding("table", name, fault.row or None, "", fault.words))
            if not layer.faults and not layer.rows:
                self.find("table", name, None, "it has no row", "")
            for words in layer.notes:
                self.find("table", name, None, words, "", True)
            if layer.others and name in KEYS:
                self.find(
                    "column",
                    name,
                    None,
                    f"columns that the tables do not have: {', '.join(layer.others)}",
                    "not taken over",
                    True,
                )

    # Systems of coordinates.

    def systems(self, transformed):
        """Brings both layers to one system in metres. `transformed` reads a layer anew in another system."""
        if self.epsg is None:
            fitting = [
                system.number
                for name in KEYS
                if (system := self.layers[name].system) and system.number and system.suits()
            ]
            self.epsg = coordinate_systems.WITHOUT_PREFIX.get(fitting[0], fitting[0]) if fitting else None
        for name in KEYS:
            if self.layers[name].system is not None:
                self.system(name, self.layers[name].system, transformed)

    def system(self, name, system, transformed):
        if self.epsg is not None and coordinate_systems.WITHOUT_PREFIX.get(system.number) == self.epsg:
            self.find(
                "system",
                name,
                None,
                f"it is in {system}, whose eastings begin with a zone's number",
                f"taken off, now EPSG:{self.epsg}",
                True,
            )
        elif self.epsg is not None and system.number is None and not system.is_degrees and system.is_unknown:
            self.find("system", name, None, system.why, f"taken to be EPSG:{self.epsg}, as --epsg says", True)
        elif self.epsg is None or system.number is None:
            if system.why:
                self.find(
                    "system",
                    name,
                    None,
                    (
                        f"it is in {system} ({self.reason(name, system)}): name a system in metres by --epsg, such as"
                        f" {self.zone(name, system)}"
                    ),
                    "",
                )
        elif system.number == self.epsg:
            if system.why:
                self.find(
                    "system",
                    name,
                    None,
                    (
                        f"it is in {system} ({self.reason(name, system)}): name another system by --epsg, such as"
                        f" {self.zone(name, system)}"
                    ),
                    "",
                )
        else:
            self.transform(name, system, transformed)

    def first_place(self, name):
        first = next((row.found for row in self.layers[name].rows if row.found), None)
        return first and first.box()[:2]

    def reason(self, name, system):
        """Why a system does not suit, and in what the lengths are that are told meanwhile."""
        units = "; until then areas and widths are in these units" if system.why.startswith("units of") else ""
        return system.at(self.first_place(name)) + units

    def zone(self, name, system):
        """A system that suits where a layer lies: the zone of UTM there, where it is known."""
        return coordinate_systems.zone_at(system, self.first_place(name)) or 25832

    def transform(self, name, system, transformed):
        """Takes the shapes of a layer as another system has them."""
        try:
            made = transformed(name, self.epsg)
            if made.system is None or made.system.why:
                raise land.Trouble(
                    f"EPSG:{self.epsg} does not suit: {made.system.why if made.system else 'it is not known'}"
                )
            self.transformed[name] = made.origin
        except land.Trouble as trouble:
            self.find(
                "system",
                name,
                None,
                f"it is in {system}, and could not be transformed to EPSG:{self.epsg}: {trouble}",
                "",
            )
            return
        self.find("system", name, None, f"it is in {system}", f"transformed to EPSG:{self.epsg}", True)

    # What is found of all rows.

    def many(self, name, count):
        if count > MOST_ROWS:
            self.find(
                "rows",
                name,
                None,
                f"{count} rows, and a release has at most {MOST_ROWS}",
                "tools/country makes regions of them",
                True,
            )

    def all_degrees(self, name):
        self.find(
            "degrees",
            name,
            None,
            "the whole layer looks like degrees: transform it to a system in metres (or move it, if these are metres)",
            "",
        )

    def of_layers(self, starts, are_metres, has_limits=False):
        """What is found of a layer as a whole."""
        self.at(SHAPES)
        for name in row_store.LAYERS:
            first, count = starts[name]
            self.findings.place = first - 0.5
            if has_limits:
                self.many(name, count)
            self.findings.place = first + count - 0.5
            if (
                not are_metres
                and self.base.execute(
                    "SELECT 1 FROM row WHERE is_cover = ? AND left IS NOT NULL LIMIT 1", (name == "covers",)
                ).fetchone()
            ):
                self.all_degrees(name)

    def tell_taken(self):
        """Adds to the findings of mended pieces what other pieces have of their places."""
        meeting = (
            f"SELECT {OF_ROW} FROM box JOIN row"
            " USING (id) WHERE box.left < ? AND box.right > ? AND box.low < ? AND box.high > ? AND is_cover AND row.id"
            " <> ? ORDER BY row.id"
        )
        mended = self.base.execute(
            f"SELECT seq, {OF_ROW} FROM finding"
            " JOIN row ON row.id = finding.place WHERE kind = 'invalid' AND layer = 'covers' AND row.left IS NOT NULL"
        ).fetchall()
        for seq, *fields in mended:
            row = Row(self.base, *fields)
            left, low, right, high = row.box
            others = (Row(self.base, *found) for found in self.base.execute(meeting, (right, left, high, low, row.id)))
            words = source_tests.taken_words(
                row,
                (
                    other
                    for other in others
                    if other.box[0] < right and other.box[2] > left and other.box[1] < high and other.box[3] > low
                ),
            )
            self.base.execute("UPDATE finding SET words = words || ? WHERE seq = ?", (words, seq))

    def tell_shapeless(self):
        self.base.execute(
            "UPDATE finding SET done = 'left out' WHERE is_shapeless AND place IN (SELECT id FROM row WHERE NOT"
            " is_kept)"
        )
