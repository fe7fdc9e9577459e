"""A whole land of a number: its rows, its names, and how it is written. Nothing of tools/ is used."""

import math
import random

from lpis_helpers.lands_parts import CLEAN, NASTY
from lpis_helpers.lands_shapes import CURVED, Shape

KEYS = {"parcels": ("parcel",), "covers": ("piece", "parcel", "class")}
# Where lands lie: in a zone of UTM, about the origin, at both ends of the range, and far from everything.
ORIGINS = [(550_000.0, 5_400_000.0)] * 6 + [
    (0.0, 0.0),
    (-3000.0, 12_345_678.0),
    (19_999_000.0, 19_999_000.0),
    (-19_999_500.0, -19_999_500.0),
    (1_000.0, -2_000.0),
    (999_999.5, 999_999.5),
]
ODD_NAMES = [
    "M\u00fchle {}",
    "field {}",
    "{}  ",
    " {}",
    "\t{}",
    "{}.0",
    "p{}",
    "P{}",
    "=1+{}",
    "+{}",
    "-{}",
    "@{}",
    "a,{}",
    'a"{}',
    "a'{}",
    "a;{}",
    "\u0141\u00f3d\u017a{}",
    "\u5730{}",
    "x" * 38 + "{}",
    "x" * 41 + "{}",
    "e\u0301{}",
    "\u00e9{}",
    "a\n{}",
    "a\r\n{}",
    "\u00a0{}",
    "\u200b{}",
    "NULL",
    "",
    None,
    "0{}",
    "1e{}",
    "{}\u0000",
    "..",
    "/{}",
    "a\\{}",
    "\U0001f33e{}",
    "%s{}",
    "$({})",
    "|{}",
    "\ufeff{}",
]

MADE_STRAIGHT = 200  # points that one of an arc may become


class Row:
    """A row of a layer: its names as they are written, and its shape. The number is that of its record, from 1."""

    __slots__ = ("fields", "layer", "number", "shape")

    def __init__(self, layer, fields, shape):
        self.layer, self.fields, self.shape, self.number = layer, fields, shape, 0

    def name(self):
        return self.fields[KEYS[self.layer][0]]


class Land:
    """A land of a number. A few are clean: their parts fit, and so do their names."""

    def __init__(self, seed, most=2000):
        self.seed, self.random = seed, random.Random(f"land {seed}")
        self.parcels, self.covers, self.parts = [], [], []
        self.is_clean = self.random.random() < 0.25
        self.is_large = self.random.random() < 0.05
        self.step = self.random.choice([30.0, 300.0] if self.is_clean else [300.0, 30.0, 30.0, 3.0, 0.3])
        self.count = min(
            most, self.random.randrange(200, 2001) if self.is_large else int(10 ** self.random.uniform(0, 1.9))
        )
        self.origin = self.random.choice(ORIGINS[:6] if self.is_clean else ORIGINS)
        self.grain = self.random.choice([None, None, 0.001, 0.0005, 0.01])
        turn = self.random.choice([0.0, self.random.uniform(0, 2 * math.pi)])
        self.turn = math.cos(turn), math.sin(turn)
        self.classes = [("GRASS", 100), ("TREES", 30), ("WATER", 0)]
        self.hair = 0.0
        self.fill()
        if not self.is_clean:
            self.spoil_names()
        self.classes_given = self.random.choice(["land", "land", "land", "file", "none"])
        self.form = self.random.choice(
            ["package", "package", "package", "gdal", "rows", "csv", "csv", "semicolons", "utf16", "tabs"]
        )
        if self.form == "gdal" and {"without_shape", "elsewhere"} & set(self.parts):
            self.form = "package"  # ogr2ogr leaves such shapes out itself
        self.number_rows()

    def fill(self):
        """Puts parts into the cells of a grid, until there are enough parcels."""
        across = max(1, int((self.count / 2.5) ** 0.5))
        pool = self.random.sample(NASTY, min(len(NASTY), self.random.randrange(1, 12)))
        corners = {}

        def corner(i, j):
            if (i, j) not in corners:
                x, y = ((place + self.random.uniform(-0.2, 0.2)) * self.step for place in (i, j))
                corners[i, j] = self.settled(
                    (
                        self.origin[0] + self.turn[0] * x - self.turn[1] * y,
                        self.origin[1] + self.turn[1] * x + self.turn[0] * y,
                    )
                )
            return corners[i, j]

        for cell in range(self.count):
            if len(self.parcels) >= self.count:
                break
            i, j = cell % across, cell // across
            self.hair = 10 ** self.random.uniform(-9, 0)
            part = (
                self.random.choice(CLEAN) if self.is_clean or self.random.random() < 0.4 else self.random.choice(pool)
            )
            self.parts.append(part.__name__)
            part(self, corner(i, j), corner(i + 1, j), corner(i + 1, j + 1), corner(i, j + 1))

    # What parts draw.

    def share(self):
        return self.random.uniform(0.1, 0.9)

    def settled(self, point):
        """A corner as this land's program would write it: in doubles, or in whole millimetres and the like."""
        return point if self.grain is None else tuple(round(value / self.grain) * self.grain for value in point)

    def moved(self, point):
        return self.near(point, self.hair)

    def near(self, point, width):
        return tuple(value + self.random.uniform(-width, width) for value in point)

    def turned(self, *corners):
        first = self.random.randrange(len(corners))
        return corners[first:] + corners[:first]

    # What parts add.

    def parcel(self, rings, *pieces):
        """A parcel of one member, and its pieces; without any it is one piece."""
        return self.add([rings], [[piece] for piece in pieces or [rings]])

    def add(self, members, pieces, form=None):
        """A parcel and its pieces by their members: the rows."""
        name = f"P{len(self.parcels) + 1}"
        parcel = Row("parcels", {"parcel": name}, Shape(members, form))
        self.parcels.append(parcel)
        rows = [
            Row(
                "covers",
                {
                    "piece": f"K{len(self.covers) + number + 1}",
                    "parcel": name,
                    "class": self.random.choice(self.classes)[0],
                },
                Shape(piece, form),
            )
            for number, piece in enumerate(pieces)
        ]
        self.covers += rows
        return parcel, rows

    def drop(self, row):
        (self.parcels if row.layer == "parcels" else self.covers).remove(row)

    # Names.

    def spoil_names(self):
        """Doubles, pads and spoils names, of parcels mostly with their pieces."""
        for _ in range(self.random.choice([0, 0, 1, 3, 10])):
            kind = self.random.randrange(6)
            if kind == 0 and self.parcels:
                self.rename_parcel(self.random.choice(self.parcels), self.odd_name())
            elif kind == 1 and self.covers:
                self.random.choice(self.covers).fields["piece"] = self.odd_name()
            elif kind == 2 and len(self.covers) > 1:
                self.covers[-1].fields["piece"] = self.random.choice(self.covers).fields["piece"]
            elif kind == 3 and len(self.parcels) > 1:
                self.random.choice(self.parcels).fields["parcel"] = self.random.choice(self.parcels).fields["parcel"]
            elif kind == 4 and self.covers:
                self.random.choice(self.covers).fields["parcel"] = self.random.choice(
                    [self.odd_name(), "nowhere", *(row.name() for row in self.parcels[:3])]
                )
            elif kind == 5 and self.covers:
                self.spoil_class()

    def odd_name(self):
        name = self.random.choice(ODD_NAMES)
        return name and name.format(self.random.randrange(30))

    def rename_parcel(self, row, new):
        old, row.fields["parcel"] = row.fields["parcel"], new
        for piece in self.covers:
            if piece.fields["parcel"] == old and self.random.random() < 0.9:
                piece.fields["parcel"] = new

    def spoil_class(self):
        name = self.odd_name()
        self.random.choice(self.covers).fields["class"] = name
        if self.random.random() < 0.8 and name and name.strip():
            self.classes = [*self.classes, (name, 50)]

    # The rows.

    def number_rows(self):
        for rows in (self.parcels, self.covers):
            for number, row in enumerate(rows, 1):
                row.number = number

    def rows(self):
        return [*self.parcels, *self.covers]

    def points(self):
        """How many points all shapes have; one of an arc counts as those that it becomes."""
        return sum(
            len(ring) * (MADE_STRAIGHT if row.shape.form in CURVED else 1)
            for row in self.rows()
            for ring, _ in row.shape.rings()
        )

    @classmethod
    def of_rows(cls, parcels, covers, form="package"):
        """A land of given rows: (parcel, shape) and (piece, parcel, class, shape)."""
        land = object.__new__(cls)
        land.seed, land.is_clean, land.form, land.classes_given, land.parts = 1, False, form, "land", []
        land.classes = [("GRASS", 100), ("TREES", 30), ("WATER", 0)]
        land.parcels = [Row("parcels", {"parcel": name}, shape) for name, shape in parcels]
        land.covers = [Row("covers", dict(zip(KEYS["covers"], names)), shape) for *names, shape in covers]
        land.number_rows()
        return land

    def without(self, rows):
        """The same land without some of its rows, to shrink it."""
        other = object.__new__(Land)
        other.__dict__.update(self.__dict__)
        gone = set(map(id, rows))
        for layer in ("parcels", "covers"):
            setattr(other, layer, [copy_of(row) for row in getattr(self, layer) if id(row) not in gone])
        other.number_rows()
        return other


def told(land):
    """The rows of a land as words of Python, for a table of cases."""
    lines = [f"# {land.form}, {len(land.parcels)} parcels, {len(land.covers)} pieces"]
    for row in land.rows():
        more = "".join(f", {name}=True" for name in ("has_z", "has_m") if getattr(row.shape, name))
        lines.append(
            f"({', '.join(map(repr, row.fields.values()))}, Shape({row.shape.members!r}, {row.shape.form!r}{more})),"
        )
    return "\n".join(lines) + "\n"


def copy_of(row):
    return Row(row.layer, dict(row.fields), row.shape)
