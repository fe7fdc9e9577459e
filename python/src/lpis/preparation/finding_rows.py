"""What the tests of a source found: each a row of prepared.csv, by layer, row and identifier, with area and place."""

from __future__ import annotations

from collections import Counter

from ..formats import guarded_csv
from . import outlines
from ..system import files
from ..system.printing import readable

MOST_SHOWN = 20
NOTES = {"curve": "arcs made straight, within half a millimetre", "z": "heights dropped", "m": "measures dropped"}
KEYS = {"parcels": "parcel", "covers": "piece"}
NOT_STOPPING = (None, "told", "")  # number, state and cause of what does not stop
COLUMNS = ["kind", "layer", "row", "identifier", "area_m2", "x", "y", "words", "done", "place"]


class Finding:
    """Something that the tests found. Mended: without asking; else only where that is accepted; `done` is empty where
    it cannot be. `blob` are the polygons, as well-known binary, of which the tables may say other than the source. `of`
    is the row that it is about, or `final` the name that the tables have in place of `name`.
    """

    __slots__ = (
        "area",
        "blob",
        "done",
        "final",
        "is_mended",
        "key",
        "kind",
        "layer",
        "name",
        "of",
        "place",
        "row",
        "width",
        "words",
    )

    def __init__(
        self,
        kind,
        layer,
        row,
        name,
        words,
        done="",
        is_mended=False,
        area=None,
        place=None,
        key="row",
        blob=None,
        of=None,
        final="",
        width=None,
    ):
        self.kind, self.layer, self.row, self.name, self.words, self.done, self.is_mended = (
            kind,
            layer,
            row,
            name,
            words,
            done,
            is_mended,
        )
        self.area, self.place, self.key, self.blob, self.of, self.final, self.width = (
            area,
            place,
            key,
            blob,
            of,
            final,
            width,
        )

    def is_grave(self):
        return not self.is_mended

    def is_hopeless(self):
        return not self.is_mended and not self.done

    def key_words(self):
        """What a row of its table is known by: the kind, the layer, the row and the identifier."""
        return self.kind, self.layer, "" if self.row is None else self.row, self.name

    def at(self):
        return self.place

    def polygons(self):
        """Its polygons as well-known binary, or None."""
        return self.blob

    def outline(self):
        """Its polygons as a text, by which a mark of its row is known; nothing where nobody has to mark it."""
        return outlines.text_of(self.blob) if self.blob and self.is_grave() else ""

    def line(self, accept):
        who = " ".join(
            word
            for word in (self.layer, readable(self.name), f"({self.key} {self.row})" if self.row is not None else "")
            if word
        )
        size = f" ({self.area:.3f} m2)" if self.area is not None else ""
        at = f" at {self.place[0]:.3f} {self.place[1]:.3f}" if self.place else ""
        done = self.done if self.is_mended or (self.done and accept.takes(self)) else ""
        return ": ".join(filter(None, (self.kind, f"{who}{size}{at}", self.words, done)))

    def identifiers(self):
        """The names that the tables have, where they have some."""
        return self.final or (self.of[KEYS[self.layer]] if self.of is not None else self.name)

    def what_was_done(self, accept):
        return (self.done or NOTES.get(self.kind, "")) if self.is_mended or accept.takes(self) else ""

    def of_layer(self, accept):
        """Its values in the columns of findings.gpkg."""
        row = "" if self.row is None else str(self.row)
        return (
            self.kind,
            self.layer,
            row,
            self.identifiers(),
            self.width,
            self.area,
            *(self.place or (None, None)),
            int(self.is_grave()),
            self.what_was_done(accept),
            self.words,
        )

    def record(self, accept):
        done = self.what_was_done(accept)
        area = "" if self.area is None else f"{self.area:.3f}"
        x, y = (f"{value:.3f}" for value in self.place) if self.place else ("", "")
        return [
            self.kind,
            self.layer,
            "" if self.row is None else self.row,
            guarded_csv.text(self.name),
            area,
            x,
            y,
            guarded_csv.text(self.words),
            guarded_csv.text(done),
            self.outline(),
        ]


def write(findings, path, accept):
    """The table prepared.csv."""
    with files.anew(path, newline="") as file:
        table = guarded_csv.Writer(file)
        table.writerow(COLUMNS)
        table.writerows(finding.record(accept) for finding in findings)


def put(findings, accept, package, told):
    """The findings in the layers of findings.gpkg; `told` gives the last columns of those that stop, in their order."""
    for finding in findings:
        more = next(told) if finding.is_grave() else NOT_STOPPING
        package.add(finding.kind, finding.blob, (*finding.of_layer(accept), *more))


def lines_of(findings, accept):
    """The findings for people: notes counted, the rest by identifier."""
    lines, shown, notes = [], Counter(), {}
    for finding in findings:
        if finding.kind in NOTES:
            first, count = notes.get((finding.kind, finding.layer), (finding.name, 0))
            notes[finding.kind, finding.layer] = first, count + 1
            continue
        shown[finding.kind] += 1
        if shown[finding.kind] <= MOST_SHOWN:
            lines.append(finding.line(accept))
    lines += [
        f"{kind}: and {count - MOST_SHOWN} more, see prepared.csv"
        for kind, count in shown.items()
        if count > MOST_SHOWN
    ]
    for (kind, layer), (first, count) in notes.items():
        lines.append(
            f"{kind}: {count} of {layer} ({readable(first)}{' and others' if count > 1 else ''}): {NOTES[kind]}"
        )
    return lines
