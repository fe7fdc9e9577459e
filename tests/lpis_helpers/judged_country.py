"""What `lpis country` has to answer, by its definition, over whole numbers and without it: each region's own check
is handed in."""

import csv
import os
import re

from lpis_helpers.exact_map import decimal
from lpis.formats import polygons

FAR = 20_000_000_000
MOST_REGIONS = 10_000


class Region:
    """The tables of a folder as lists: parcels are (identifier, polygon), pieces (identifier, parcel, class,
    polygon)."""

    def __init__(self, folder):
        self.parcels = [(name, polygons.read(wkt.encode())) for name, wkt in rows(folder, "parcels", "parcel", "wkt")]
        pieces = [
            (*words, polygons.read(wkt.encode()))
            for *words, wkt in rows(folder, "covers", "piece", "parcel", "class", "wkt")
        ]
        self.pieces = {name: [] for name, _ in self.parcels}
        for piece in pieces:
            self.pieces.setdefault(piece[1], []).append(piece)
        self.classes = classes_of(folder)
        self.percents = dict(self.classes)

    def area(self, parcel):
        return polygons.doubled(parcel[1])

    def weighted(self, parcel):
        return sum(polygons.doubled(piece[3]) * self.percents[piece[2]] for piece in self.pieces[parcel[0]])

    def sums(self, parcels):
        """How many parcels and pieces, and the sums of their areas, as they are printed."""
        count = sum(len(self.pieces[name]) for name, _ in parcels)
        return len(parcels), count, sum(map(self.area, parcels)), sum(map(self.weighted, parcels))

    def lines(self, parcels):
        return [f"parcel {parcel[0]} {areas(self.area(parcel), self.weighted(parcel))}" for parcel in parcels]


def rows(folder, table, *columns):
    with open(os.path.join(folder, f"{table}.csv"), encoding="utf-8-sig", newline="") as file:
        header, *records = [record for record in csv.reader(file) if record]
    places = [[name.lower() for name in header].index(column) for column in columns]
    return [[record[place] for place in places] for record in records]


def classes_of(folder):
    """The classes of a folder with their percentages, row by row."""
    try:
        return [(name, int(percent)) for name, percent in rows(folder, "classes", "class", "percent")]
    except ValueError:
        return [(name, 100 * int(eligible)) for name, eligible in rows(folder, "classes", "class", "eligible")]


def areas(area, weighted):
    return f"area {decimal(5 * area, 7)} eligible {decimal(5 * weighted, 9)}"


def counts(sums):
    return f"parcels {sums[0]} pieces {sums[1]} {areas(*sums[2:])}"


# The tiling.


class At(Exception):
    """The first line of country.txt that is none."""

    def __init__(self, line):
        super().__init__(line)
        self.line = line


class Plan:
    """The folders and their tiles, each least x and y and greatest x and y, read as a tree. A tile ends at the least of
    the lines that it lies before, and begins at the greatest of those that it lies behind: where that is not the lesser
    one, it has no land.
    """

    def __init__(self, text):
        self.lines, self.next, self.folders, self.names, self.tiles = text.split("\n"), 0, [], set(), []
        if self.line() != "lpis-country 1":
            raise At(1)
        self.tree((-FAR - 1, -FAR - 1, FAR + 1, FAR + 1))
        if self.next < len(self.lines) - 1 or self.lines[-1]:
            raise At(self.next + 1)

    def line(self):
        """The next line; the last part of a text is a line without its end, or none."""
        self.next += 1
        if self.next >= len(self.lines):
            raise At(len(self.lines))
        return self.lines[self.next - 1]

    def tree(self, tile):
        line = self.line()
        cut = re.fullmatch(r"([xy]) (0|-?[1-9][0-9]*)", line)
        if cut and -FAR <= int(cut[2]) <= FAR:
            side, value = "xy".index(cut[1]), int(cut[2])
            low, high = list(tile), list(tile)
            low[side + 2], high[side] = min(value, tile[side + 2]), max(value, tile[side])
            self.tree(tuple(low))
            self.tree(tuple(high))
            return
        region = re.fullmatch(r"region ([A-Za-z0-9_-]{1,100})", line)
        if not region or region[1] in self.names or len(self.folders) == MOST_REGIONS:
            raise At(self.next)
        self.names.add(region[1])
        self.folders.append(region[1])
        self.tiles.append(tile)


def meets(parcel, tile):
    box = polygons.box([parcel[1]])
    return all(box[side] < tile[side + 2] and tile[side] < box[side + 2] for side in (0, 1))


# The seam.


class Seam:
    """The regions done, and the first fault of the next."""

    def __init__(self, plan, classes):
        self.plan, self.classes, self.done, self.parcels, self.pieces = plan, classes, 0, {}, {}

    def met(self, parcel, tiles):
        """The number of the first of these tiles that a parcel's box meets, or None."""
        return next((number for number in tiles if meets(parcel, self.plan.tiles[number])), None)

    def fault(self, region):
        """Code, what is wrong, and the region's number; None where nothing is."""
        here, every = self.done, range(len(self.plan.tiles))
        for row in range(max(len(region.classes), len(self.classes))):
            if region.classes[row : row + 1] != self.classes[row : row + 1]:
                return "96", f"classes row {row + 1}", here
        for parcel in region.parcels:
            name = parcel[0]
            if self.met(parcel, [here]) is None:
                return "92", f"parcel {name}", here
            if name in self.parcels:
                first = name, self.parcels[name]
                if self.met(first, every[here:]) is None:
                    return "93", f"parcel {name}", here
                if first != parcel or self.pieces[name] != region.pieces[name]:
                    return "94", f"parcel {name}", here
            elif (earlier := self.met(parcel, every[:here])) is not None:
                return "95", f"parcel {name}", earlier
        names = {name for name, _ in region.parcels}
        lacking = [
            name
            for name, polygon in self.parcels.items()
            if name not in names and self.met((name, polygon), [here]) is not None
        ]
        return ("95", f"parcel {lacking[0]}", here) if lacking else None

    def add(self, region):
        """The parcels of a region that are new."""
        new = [parcel for parcel in region.parcels if parcel[0] not in self.parcels]
        self.parcels.update(new)
        self.pieces.update((name, region.pieces[name]) for name, _ in new)
        self.done += 1
        return new


def passing(folder, plan, classes, check, with_parcels=False):
    """The lines of the regions that pass, and the line that refuses the first that does not, each as it is printed; the
    status, 0 where all pass; the sums; and the parcels of all, each once, in the order in which they first stand.
    `check` gets a region's folder and answers text and status of its own check."""
    seam, text, totals = Seam(plan, classes), "", [0, 0, 0, 0]
    for name in plan.folders:
        told, status = check(os.path.join(folder, name))
        if status != 0:
            return text + told.replace("\n", f" region {name}\n"), status, totals, seam.parcels
        region = Region(os.path.join(folder, name))
        if found := seam.fault(region):
            code, what, number = found
            return f"{text}refused {code} {what} region {plan.folders[number]}\n", 1, totals, seam.parcels
        new = seam.add(region)
        text += f"region {name} {counts(region.sums(region.parcels))}\n"
        text += "".join(f"{line}\n" for line in region.lines(new) if with_parcels)
        totals = [total + more for total, more in zip(totals, region.sums(new))]
    return text, 0, totals, seam.parcels


def whole(plan, totals):
    """What is printed behind the lines of regions that all pass."""
    return f"country regions {len(plan.folders)} {counts(totals)}\nyes\n"


def answer(folder, check, with_parcels=False):
    """Text and status for a country whose files are there, whose table of classes is sound. `check` is as above."""
    with open(os.path.join(folder, "country.txt"), encoding="latin-1", newline="") as file:
        try:
            plan = Plan(file.read())
        except At as at:
            return f"refused 90 country line {at.line}\n", 2
    text, status, totals, _ = passing(folder, plan, classes_of(folder), check, with_parcels)
    return (text, status) if status else (text + whole(plan, totals), 0)
