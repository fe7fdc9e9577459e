"""A page in one file, which asks no network: facts, the map, tables that a click sorts. `map.js` draws the map, moved
by dragging and enlarged by the wheel, `page.js` sorts, and `page.css` has the looks; all are written into the page,
and so are all shapes, as letters."""

from __future__ import annotations

import colorsys
import html
import json
import os
import string
from collections import Counter
from dataclasses import dataclass, field
from decimal import Decimal

from ..formats import polygons
from ..system import printing
from ..formats.square_metres import hectares

HERE = os.path.dirname(os.path.realpath(__file__))
FIRST_ROWS = 100  # of a table, which the page has as text; all of them are in its data
MOST_POINTS = 8_000_000  # of pieces: of more they are not drawn
FAR = 2_000_000_000  # steps of the map's unit
LETTERS = string.digits + string.ascii_letters + "-_"
FILLS = [
    "#a6cee3",
    "#b2df8a",
    "#fdbf6f",
    "#cab2d6",
    "#ffff99",
    "#fb9a99",
    "#8dd3c7",
    "#d9d9d9",
    "#bebada",
    "#fccde5",
    "#ccebc5",
    "#ffed6f",
]
COLOURS = {
    "parcel": "#333333",
    "chosen": "#0000ff",
    "fault": "#d00000",
    "new": "#0b6e4f",
    "changed": "#b06500",
    "moved": "#7b3294",
    "gone": "#777777",
    "region": "#222222",
    "stops": "#d00000",
    "accepted": "#b06500",
    "told": "#2166ac",
    "cells": [f"rgb({230 - 20 * n},{240 - 11 * n},255)" for n in range(10)],
}
WORDS = {
    "parcel": "border of a parcel",
    "chosen": "chosen by a click",
    "new": "new",
    "changed": "with another area",
    "moved": "moved, with the same identifier",
    "gone": "gone, with its last shape",
    "region": "border of a region",
    "stops": "stops",
    "accepted": "accepted",
    "told": "reported",
}
LAYERS = ("parcels", "pieces", "old", "tiles", "findings")
KINDS = ("new", "changed", "moved", "gone", "stops", "accepted", "told")
MOVED = (
    "Map. Arrow keys move it, + and - enlarge and shrink it, 0 shows the whole, n and p go to the next and the previous"
    " finding."
)


def escaped(text):
    return html.escape(printing.escaped(str(text)), quote=True)


@dataclass
class Table:
    """A table with a heading. Columns that begin with # are numbers; one of square metres has its sum in hectares in
    its head. Each row is its cells, and perhaps what a click on it shows: a layer's name or `marks`, and a number."""

    title: str
    columns: list
    rows: list
    keys: list = field(default_factory=list)
    heads: dict = field(default_factory=dict)  # what stands in a column's head in place of its sum
    is_mixed: bool = False  # its rows are of several kinds, so that no column has a sum
    is_lead: bool = False  # it stands right below the map
    narrowing: list = field(default_factory=list)  # the columns by whose values its rows, and the map, are narrowed

    def key(self, number):
        return self.keys[number] if number < len(self.keys) else None


@dataclass
class Layer:
    """Shapes in whole millimetres with their names; `words` may have more about each, `kinds` what became of some:
    (number, a colour's name)."""

    names: list = field(default_factory=list)
    shapes: list = field(default_factory=list)
    words: list | None = None
    kinds: list = field(default_factory=list)
    classes: list | None = None

    def add(self, name, members, words=None, kind=None):
        if words is not None:
            self.words = self.words or []
            self.words.append(words)
        if kind:
            self.kinds.append((len(self.names), kind))
        self.names.append(name)
        self.shapes.append(members)


class Steps(dict):
    """Whole numbers as letters: five bits each, the lowest first; an odd number is one below 0."""

    def __missing__(self, value):
        rest, letters = (2 * value if value >= 0 else -2 * value - 1), ""
        while rest >= 32:
            letters += LETTERS[32 + rest % 32]
            rest //= 32
        letters += LETTERS[rest]
        if abs(value) < 100_000:
            self[value] = letters
        return letters


class Map:
    """Layers and marks in one frame of whole numbers, north above."""

    def __init__(
        self,
        parcels=None,
        pieces=None,
        old=None,
        tiles=None,
        marks=(),
        cells=None,
        strays=(),
        findings=None,
        of_mark="faults",
        pictures=(),
        counted="parcel",
        whole=None,
    ):
        """Lengths in millimetres. Marks are (x, y, words), cells the side of a square and (column, row from the north,
        count), strays names of parcels that the first view leaves out. `of_mark` says in the legend what a mark is,
        `counted` what cells count; `whole` is the box of the first view, where that is not of the parcels; of
        `pictures` each is a finding's number and words."""
        self.pictures, self.counted = list(pictures), counted
        self.layers = {name: layer or Layer() for name, layer in zip(LAYERS, (parcels, pieces, old, tiles, findings))}
        self.marks, self.note, self.strays, self.of_mark = list(marks), "", set(strays), of_mark
        pieces = self.layers["pieces"]
        self.fills = fills_of(sorted(set(pieces.classes or [])))
        points = sum(len(ring) for members in pieces.shapes for member in members for ring in member)
        if points > MOST_POINTS:
            self.note = (
                f"{len(pieces.shapes)} pieces are not drawn: they have {points} points, and at most {MOST_POINTS} are"
            )
            self.layers["pieces"] = Layer()
        shapes = [shape for layer in self.layers.values() for shape in layer.shapes] + [
            [[[mark[:2]]]] for mark in self.marks
        ]
        left, low, right, self.top = (int(value) for value in polygons.box(shapes) or (0, 0, 1, 1))
        self.left = left
        self.unit = int(max(right - left, self.top - low) // FAR) + 1
        self.whole = self.frame((left, low, right, self.top))
        near = [
            shape
            for name, shape in zip(self.layers["parcels"].names, self.layers["parcels"].shapes)
            if name not in self.strays
        ]
        near += self.beside(polygons.box(near))
        self.first = self.frame(whole or polygons.box(near or shapes) or (0, 0, 1, 1))
        self.cells = cells or (1, [])

    def beside(self, box):
        """Pieces and findings no farther from a box than half its size: the first view has them too."""
        if box is None:
            return []
        about = max(box[2] - box[0], box[3] - box[1]) / 2
        shapes = [
            *self.layers["pieces"].shapes,
            *self.layers["findings"].shapes,
            *([[[mark[:2]]]] for mark in self.marks),
        ]
        return [
            shape
            for shape in shapes
            if box[0] - about <= shape[0][0][0][0] <= box[2] + about
            and box[1] - about <= shape[0][0][0][1] <= box[3] + about
        ]

    def at(self, x, y):
        return (x - self.left) / self.unit, (self.top - y) / self.unit

    def frame(self, box):
        x, y = self.at(box[0], box[3])
        return [x, y, (box[2] - box[0]) / self.unit, (box[3] - box[1]) / self.unit]

    def packed(self, layer, names):
        """A layer for `page.js`: all points as steps from the ones before."""
        steps, parts, count, rings = Steps(), [], 0, 0
        unit, left, top = self.unit, self.left, self.top
        x = y = 0
        for members in layer.shapes:
            way = [ring for member in members for ring in member]
            parts.append(steps[len(way)])
            rings += len(way)
            for ring in way:
                points = ring[:-1] if len(ring) > 1 and ring[0] == ring[-1] else ring
                count += len(points)
                parts.append(steps[len(points)])
                for px, py in points:
                    to_x, to_y = int(px - left) // unit, int(top - py) // unit
                    parts.append(steps[to_x - x] + steps[to_y - y])
                    x, y = to_x, to_y
        found = {
            "names": layer.names,
            "kinds": layer.kinds,
            "count": len(layer.names),
            "points": count,
            "rings": rings,
            "text": "".join(parts),
        }
        if layer.words is not None:
            found["words"] = layer.words
        if layer.classes is not None:
            found["classes"] = [names[name] for name in layer.classes]
        return found

    def data(self):
        names = {name: number for number, name in enumerate(self.fills)}
        side, counts = self.cells
        marks = [[*(int(value) for value in self.at(x, y)), words] for x, y, words in self.marks]
        return {
            **{name: self.packed(layer, names) for name, layer in self.layers.items()},
            "classes": list(self.fills.items()),
            "colours": COLOURS,
            "marks": marks,
            "unit": self.unit,
            "first": self.first,
            "whole": self.whole,
            "cells": {"side": side / self.unit, "counts": counts},
        }

    def legend(self):
        """A word for every colour that is there."""
        there = [(fill, name or "(no class)") for name, fill in self.fills.items() if self.layers["pieces"].names]
        there += [(COLOURS["parcel"], WORDS["parcel"])] * bool(self.layers["parcels"].names)
        kinds = [kind for layer in self.layers.values() for _, kind in layer.kinds]
        there += [(COLOURS[kind], f"{WORDS[kind]}: {kinds.count(kind)}") for kind in KINDS if kind in kinds]
        there += [(COLOURS["region"], WORDS["region"])] * bool(self.layers["tiles"].names)
        if self.cells[1]:
            most = max(count for _, _, count in self.cells[1])
            there += [
                (COLOURS["cells"][0], f"a few {self.counted}s"),
                (
                    COLOURS["cells"][9],
                    f"{printing.counted(most, self.counted)} in a square of {self.cells[0] / 1000:.0f} m",
                ),
            ]
        there += [(COLOURS["fault"], f"{self.of_mark}: {len(self.marks)}")] * bool(self.marks)
        there.append((COLOURS["chosen"], WORDS["chosen"]))
        return "".join(f'<span><i style="background:{fill}"></i>{escaped(words)}</span>' for fill, words in there)

    def text(self):
        is_far = any(self.whole[side] > 1.5 * self.first[side] for side in (2, 3))
        stray = '<button data-show="whole">with what lies far away</button>' if is_far else ""
        return (
            '<div class="frame"><div class="bar"><button data-zoom="2" aria-label="enlarge the map">+</button><button'
            ' data-zoom="0.5" aria-label="shrink the map">&minus;</button><button'
            f' data-show="first">whole</button>{stray}<input id="search" type="search" placeholder="search an'
            ' identifier" aria-label="search an identifier"><span id="found"></span></div><canvas class="map"'
            f' tabindex="0" role="application" aria-label="{MOVED}"></canvas><div id="name"'
            f' hidden></div></div><p>{escaped(self.note)}</p><p class="legend">{self.legend()}</p>'
            + self.pictures_text()
        )

    def pictures_text(self):
        """The pictures, which `page.js` draws."""
        found = "".join(
            f'<figure data-finding="{number}" tabindex=0><canvas width=220 height=150></canvas>'
            f"<figcaption>{escaped(words)}</figcaption></figure>"
            for number, words in self.pictures
        )
        return f'<h2>The worst</h2><div class="pictures">{found}</div>' if found else ""


def fills_of(names):
    """A colour for each class; where there are more than a dozen, the circle of hues is parted, and lighter and
    darker ones take turns."""
    if len(names) <= len(FILLS):
        return dict(zip(names, FILLS))
    hues = [
        colorsys.hls_to_rgb(number / len(names), (0.82, 0.66, 0.74)[number % 3], (0.75, 0.55)[number % 2])
        for number in range(len(names))
    ]
    return {name: "#" + "".join(f"{round(255 * part):02x}" for part in hue) for name, hue in zip(names, hues)}


def table_text(table, number):
    """A table as HTML, with its first rows; `page.js` adds the others."""
    heads = []
    for column, name in enumerate(table.columns):
        is_number = name.startswith("#")
        areas = (
            [Decimal(row[column]) for row in table.rows if row[column] not in ("", None)]
            if is_number and not table.is_mixed and name.endswith("m\u00b2")
            else []
        )
        more = table.heads.get(column) or (f"in all {hectares(sum(areas))}" if areas else "")
        more = f"<small>{escaped(more)}</small>" if more else ""
        heads.append(
            f'<th scope=col tabindex=0{" class=number" if is_number else ""}>{escaped(name.lstrip("#"))}{more}</th>'
        )
    lines = []
    for row_number, row in enumerate(table.rows[:FIRST_ROWS]):
        cells = "".join(
            f'<td{" class=number" if name.startswith("#") else ""}>{escaped(cell)}</td>'
            for cell, name in zip(row, table.columns)
        )
        lines.append(
            f'<tr data-row="{row_number}"{" class=row tabindex=0" if table.key(row_number) else ""}>{cells}</tr>'
        )
    rest = len(table.rows) - len(lines)
    return (
        f"<h2>{escaped(table.title)}</h2>{choices_of(table, number)}<div class=scroll><table"
        f" class=sorted><thead><tr>{''.join(heads)}</tr></thead><tbody>\n"
        + "\n".join(lines)
        + f'\n</tbody></table></div><p id="more{number}"{"" if rest else " hidden"}><button>{rest} more</button></p>'
    )


def choices_of(table, number):
    """The values of columns among which to choose."""
    made = []
    for column in table.narrowing:
        counts = Counter(str(row[column]) for row in table.rows)
        options = "".join(
            f'<option value="{escaped(value)}">{escaped(value or "(none)")} ({count})</option>'
            for value, count in sorted(counts.items())
        )
        name = escaped(table.columns[column].lstrip("#"))
        made.append(
            f'<label>{name} <select data-column="{column}"><option value="*">all</option>{options}</select></label> '
        )
    return f'<p class="choices" data-table="{number}">{"".join(made)}</p>' if made else ""


def beside(name):
    with open(os.path.join(HERE, name), encoding="utf-8") as file:
        return file.read()


def data_text(chart, tables):
    """What `page.js` reads, without a letter that could end it."""
    data = {
        "letters": LETTERS,
        "map": chart.data() if chart else None,
        "tables": [
            {"rows": table.rows, "keys": [table.key(number) for number in range(len(table.rows))]} for table in tables
        ],
    }
    return json.dumps(data, ensure_ascii=False, separators=(",", ":"), default=str).replace("<", "\\u003c")


def page(title, answer, is_yes, facts, chart, tables, lead=()):
    """The whole page. `facts` are pairs of words, `answer` the line of lpis, `lead` lines below it. The map is
    first, with the tables that lead."""
    rows = "".join(f"<tr><td>{escaped(name)}</td><td>{escaped(value)}</td></tr>" for name, value in facts)
    verdict = f'<p class="{"yes" if is_yes else "no"}">{escaped(answer)}</p>' if answer else ""
    verdict += "".join(f"<p class=lead>{escaped(words)}</p>" for words in lead)
    tables = sorted(tables, key=lambda table: not table.is_lead)
    texts = [table_text(table, number) for number, table in enumerate(tables)]
    above, below = (
        [text for text, table in zip(texts, tables) if table.is_lead == is_above] for is_above in (True, False)
    )
    return (
        '<!DOCTYPE html>\n<html lang="en"><head><meta charset="utf-8"><meta name="viewport"'
        f' content="width=device-width, initial-scale=1"><title>{escaped(title)}</title>'
        f'<style>{beside("page.css")}</style></head><body>\n<h1>{escaped(title)}</h1>{verdict}\n{"<h2>Map</h2>" + chart.text() if chart else ""}\n'  # noqa: E501
        + "\n".join([*above, f"<h2>Facts</h2><table class=facts>{rows}</table>", *below])
        + '\n<script id="data"'
        f' type="application/json">{data_text(chart, tables)}</script>\n<script>{beside("map.js")}{beside("page.js")}</script></body></html>\n'  # noqa: E501
    )
