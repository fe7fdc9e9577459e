"""From tables of any size to the regions of a country: boxes first, then tiles, then each row into the region of each
tile that its parcel's box meets. What is kept are identifiers, boxes and counts. The texts pass by twice, and those of
the regions once: every row and square metre of the source is looked for there, in the first region of its parcel,
before the folders are changed."""

import contextlib
import filecmp
import os
import re
import zlib
from array import array

from . import tile_cuts
from ..formats import tile_plan
from ..preparation import decisions, land_balance
from ..system import files, placing, processes, progress
from ..formats.square_metres import AREA, decimal
from ..system.printing import counted
from ..formats.table_streams import Folder, OneFile, Stream, Trouble, ended, measured, shown

MOST_TOLD = 20
BUFFERED = 64_000_000  # letters, until they are written
GROWN = 1.05  # a tiling that stands is used again while no region is over the limits by more
NAMES = ("parcels", "covers", "classes")
TABLES = [f"{name}.csv" for name in NAMES]
MOST_ROWS = 200_000  # of a table
COUNTS = "split.txt"
MADE = ".split-"  # the folder in which all files are made before they take their place
MASK = (1 << 128) - 1
PARCELS = ("parcels", "")
CHANGED = "the source changed while it was read; nothing was changed, run it again"


class Faults:
    """What is wrong with rows; the first few are told."""

    def __init__(self):
        self.lines = []

    def add(self, text):
        self.lines.append(text)
        if len(self.lines) >= MOST_TOLD:
            self.stop()

    def stop(self):
        if self.lines:
            raise Trouble(*self.lines)


class Sums:
    """Of each table how many rows it has and a sum that each of their bytes changes; of each class of pieces, and of
    the parcels, the area."""

    def __init__(self):
        self.rows, self.bytes, self.doubled = dict.fromkeys(NAMES, 0), dict.fromkeys(NAMES, 0), {}

    def add(self, name, raw, group, doubled):
        self.rows[name] += 1
        self.bytes[name] = (self.bytes[name] + zlib.crc32(raw.rstrip("\r\n").encode("latin-1"))) & MASK
        self.doubled[group] = self.doubled.get(group, 0) + doubled

    def areas(self):
        return {group: doubled / 2_000_000 for group, doubled in self.doubled.items()}

    def counts(self):
        """As `lpis country` writes them: parcels, pieces, the area of the parcels."""
        return (
            f"parcels {self.rows['parcels']} pieces {self.rows['covers']} area"
            f" {decimal(self.doubled.get(PARCELS, 0), AREA)}"
        )


def tracked(source, name, stream):
    return progress.read(stream, "country", name, source.size(name))


class Land:
    """What is kept of a source: the number of each parcel, its box, and the rows and points of its pieces. Where its
    texts are `known`, since the run before it wrote them and has their areas, those of pieces are not measured."""

    def __init__(self, source, say, is_known=False):
        self.source, self.numbers, self.boxes, self.sums = source, {}, tile_cuts.Boxes(), Sums()
        self.is_known = is_known
        faults = Faults()
        say(f"reading the parcels of {source.path}")
        for row, (name, wkt), raw in tracked(source, "parcels", Stream(source, "parcels", ["parcel", "wkt"])):
            found = measured(wkt)
            if found is None:
                faults.add(f"parcels.csv row {row}: parcel {shown(name)}: its wkt is no polygon in range")
            elif name in self.numbers:
                faults.add(f"parcels.csv row {row}: parcel {shown(name)} is in an earlier row too")
            else:
                self.numbers[name] = len(self.boxes)
                self.boxes.add(found[0])
                self.sums.add("parcels", raw, PARCELS, found[1])
        say(f"reading the pieces of {counted(len(self.boxes), 'parcel')}")
        for row, (piece, name, land_class, wkt), raw in tracked(
            source, "covers", Stream(source, "covers", ["piece", "parcel", "class", "wkt"])
        ):
            number, found = self.numbers.get(name), self.measured(wkt)
            if number is None:
                faults.add(
                    f"covers.csv row {row}: piece {shown(piece)}: its parcel {shown(name)} is in no row of parcels.csv"
                )
            elif found is None:
                faults.add(f"covers.csv row {row}: piece {shown(piece)}: its wkt is no polygon in range")
            else:
                self.sums.add("covers", raw, ("covers", land_class or "(no class)"), found[1])
                self.boxes.pieces[number] += 1
                self.boxes.points[number] += wkt.count(",") + 1
        for _, _, raw in Stream(source, "classes", ["class", "class"]):
            self.sums.add("classes", raw, None, 0)
        faults.stop()

    def measured(self, wkt):
        return (None, 0) if self.is_known else measured(wkt)

    def named(self, numbers):
        """The first identifiers of some parcels."""
        wanted = set(numbers[:MOST_TOLD])
        found = [name for name, number in self.numbers.items() if number in wanted]
        return " ".join(found) + (" .." if len(numbers) > MOST_TOLD else "")


class Places:
    """The regions of each parcel: the first of each, and all of those that have several."""

    def __init__(self, count):
        self.first, self.several = array("i", [-1]) * count, {}

    def add(self, region, numbers):
        for number in numbers:
            if self.first[number] < 0:
                self.first[number] = region
            else:
                self.several.setdefault(number, [self.first[number]]).append(region)

    def of(self, number):
        return self.several.get(number) or (self.first[number],)

    def rows(self):
        return len(self.first) + sum(len(regions) - 1 for regions in self.several.values())


def placed(tiling, boxes):
    """The regions of each parcel by a tiling that stands."""
    places = Places(len(boxes))
    for number in range(len(boxes)):
        for region in tiling.met(boxes.box(number)):
            places.add(region, (number,))
    return places


def overfull(tiling, places, boxes, most):
    """The first region that is over the limits by more than it may grow, or None."""
    counts = [[0, 0, 0] for _ in tiling.folders]
    for number, first in enumerate(places.first):
        for region in places.several.get(number, (first,)):
            for place, count in enumerate((1, boxes.pieces[number], boxes.points[number])):
                counts[region][place] += count
    return next(
        (
            folder
            for folder, found in zip(tiling.folders, counts)
            if any(count > GROWN * limit for count, limit in zip(found, most.all))
        ),
        None,
    )


def tiling_of(land, out, most, anew, say):
    """The tiling that stands in the folder, where it fits, else a new one; and the regions of each parcel."""
    path = os.path.join(out, "country.txt")
    if os.path.exists(path) and not anew:
        try:
            tiling = tile_plan.of_folder(out)
        except tile_plan.Unreadable as error:
            raise Trouble(f"{error}; with --anew new cuts are made") from None
        say(progress.Note(f"the tiling of {path} is used again: {counted(len(tiling.folders), 'region')}"))
        places = placed(tiling, land.boxes)
        full = overfull(tiling, places, land.boxes, most)
        if full is None:
            return tiling, places
        say(progress.Note(f"region {full} has grown over the limits: new cuts are made"))
    places = Places(len(land.boxes))
    try:
        return tile_cuts.part(land.boxes, most, places.add), places
    except tile_cuts.NoCut as error:
        raise Trouble(f"{error}: {land.named(error.numbers)}") from None


class Writer:
    """One table of all regions. Rows are gathered and then written, so that few files are open."""

    def __init__(self, made, folders, name, header):
        self.names = [os.path.join(folder, f"{name}.csv") for folder in folders]
        self.paths = [os.path.join(made, each) for each in self.names]
        self.rows, self.size = {}, 0
        for path in self.paths:
            write(path, header)

    def add(self, regions, raw):
        for region in regions:
            self.rows.setdefault(region, []).append(raw)
            self.size += len(raw)
        if self.size > BUFFERED:
            self.flush()

    def flush(self):
        for region, rows in self.rows.items():
            with files.more(self.paths[region], encoding="latin-1", newline="") as file:
                file.writelines(rows)
        self.rows, self.size = {}, 0


def write(path, text):
    os.makedirs(os.path.dirname(path), exist_ok=True)
    with files.fresh(path, encoding="latin-1", newline="") as file:
        file.write(text)


def write_regions(land, tiling, places, made, say):
    """The new tables of all regions in a folder; answers their names in it."""
    names = []
    for name in ("parcels", "covers"):
        say(f"writing the {name} of {counted(len(tiling.folders), 'region')}")
        stream = Stream(land.source, name, ["parcel", "parcel"])
        writer = Writer(made, tiling.folders, name, stream.header)
        names += writer.names
        for row, (parcel, _), raw in tracked(land.source, name, stream):
            if parcel not in land.numbers:
                raise Trouble(f"{name}.csv row {row}: parcel {shown(parcel)}: {CHANGED}")
            writer.add(places.of(land.numbers[parcel]), ended(raw))
        writer.flush()
    classes = "".join(land.source.lines("classes"))
    of_classes = [os.path.join(folder, "classes.csv") for folder in ("", *tiling.folders)]
    for each in of_classes:
        write(os.path.join(made, each), classes)
    return names + of_classes


def write_lineage(path, folders, made, say):
    """The new tables of lineage: the source's rows, the first to the first region, as many to each as a table may have.
    Answers their names, and how many rows there are."""
    stream, count = None, 0
    if path:
        say(f"giving the regions the rows of {path}")
        stream = Stream(OneFile(path), "lineage", ["old", "new"])
    writer = Writer(made, folders, "lineage", stream.header if stream else "old,new\n")
    for count, _, raw in stream or ():
        region = (count - 1) // MOST_ROWS
        if region == len(folders):
            raise Trouble(f"{path}: {MOST_ROWS} rows for each region are too few: it has more")
        writer.add((region,), ended(raw))
    writer.flush()
    return writer.names, count


def deal(path, folders, out, say):
    """Deals out a table of lineage to the regions of a country that is split; answers how many rows it has."""
    with made_in(out) as made:
        names, count = write_lineage(path, folders, made, say)
        settle(made, out, names, f"the tables of lineage of {out} are those of {path}")
    return count


@contextlib.contextmanager
def made_in(out):
    """A folder for new tables."""
    made = files.folder(out, MADE)
    try:
        yield made
    finally:
        placing.clear(made)


def settle(made, out, names, then, gone=()):
    """Puts new files in the place of those that stand, where they differ, so that one that is the same keeps its
    time; answers which do."""
    changed = [
        name
        for name in names
        if not (
            os.path.exists(place := os.path.join(out, name))
            and filecmp.cmp(place, os.path.join(made, name), shallow=False)
        )
    ]
    for folder in {os.path.dirname(os.path.join(out, name)) for name in changed}:
        os.makedirs(folder, exist_ok=True)
    placing.put(made, out, changed, then, [*gone, *certificates_of(out, changed)])
    return changed


def certificates_of(out, changed):
    """The certificates that `country cut` made of tables which change: by them `lpis country` would refuse the new
    ones."""
    regions = {os.path.dirname(name) for name in changed if os.path.basename(name) in TABLES} - {""}
    return [
        os.path.join(region, "cert.txt")
        for region in sorted(regions)
        if all(os.path.isfile(os.path.join(out, region, name)) for name in ("cert.txt", "cut.txt"))
    ]


def sums_of(land, tiling, places, made):
    """What the new tables of the regions have, each row in the first region of its parcel."""
    sums = Sums()
    for region, folder in enumerate(
        progress.each(tiling.folders, "country", "looking for every row", len(tiling.folders), "regions", 1)
    ):
        new = Folder(os.path.join(made, folder))
        for _, (name, wkt), raw in Stream(new, "parcels", ["parcel", "wkt"]):
            if places.first[land.numbers[name]] == region:
                sums.add("parcels", raw, PARCELS, land.measured(wkt)[1])
        for _, (name, land_class, wkt), raw in Stream(new, "covers", ["parcel", "class", "wkt"]):
            if places.first[land.numbers[name]] == region:
                sums.add("covers", raw, ("covers", land_class or "(no class)"), land.measured(wkt)[1])
    for _, _, raw in Stream(Folder(made), "classes", ["class", "class"]):
        sums.add("classes", raw, None, 0)
    return sums


def judge(land, tiling, places, made):
    """The balance of the source and the regions; where a row is not there as it was, nothing is changed."""
    found = sums_of(land, tiling, places, made)
    for name in NAMES:
        if (found.rows[name], found.bytes[name]) != (land.sums.rows[name], land.sums.bytes[name]):
            raise Trouble(
                f"{name}.csv: {land.sums.rows[name]} rows were read, and the regions have {found.rows[name]}: {CHANGED}"
            )
    whole = land_balance.Balance({})
    for column, areas in (("source", land.sums.areas()), ("tables", found.areas())):
        for group, area in areas.items():
            if group:
                whole.add(group, column, area)
    return whole


def strays(out, tiling):
    """Folders that look like regions of a split before and are none now."""
    names = set(tiling.folders)
    return sorted(name for name in os.listdir(out) if re.fullmatch("r[0-9]{4,}", name) and name not in names)


def split(source, out, most, anew, say, lineage=None, made=None, of_source=None, making=None):
    """Splits a source, with its table of lineage or another one; answers the lines that tell what was made. `made` is
    the folder in which the new files are made, where there is one; `of_source` the balance that takes its place with
    them, where this source was made of another; `making` the run, where its source is known.
    """
    processes.tell("no table is written")
    land = Land(source, say, of_source is not None)
    tiling, places = tiling_of(land, out, most, anew, say)
    os.makedirs(out, exist_ok=True)
    files.alone(out)
    placing.end(out)
    with contextlib.nullcontext(made) if made else made_in(out) as made:
        names = write_regions(land, tiling, places, made, say)
        more, rows = write_lineage(lineage or source.lineage(), tiling.folders, made, say)
        say("looking for every row of the source in the regions")
        whole = judge(land, tiling, places, made)
        of_making = [making.source_line()] if making else []
        for name, text in (
            (COUNTS, "".join(f"{line}\n" for line in [land.sums.counts(), *of_making])),
            (tile_plan.FILE, tiling.text()),
        ):
            write(os.path.join(made, name), text)
        (of_source or whole).write(made)
        tables, last = {*names, *more}, [making.finish(made, [*names, tile_plan.FILE])] if making else []
        changed = tables.intersection(
            settle(
                made,
                out,
                [*names, *more, land_balance.FILE, COUNTS, tile_plan.FILE, *last],
                f"the tables are written in {out}",
                decisions.left_over(out),
            )
        )
    if others := strays(out, tiling):
        say(progress.Note(f"folders of an earlier split that are not regions now: {' '.join(others[:MOST_TOLD])}"))
    counts = f"parcels {len(land.boxes)} pieces {land.sums.rows['covers']}"
    return [
        *whole.words(),
        (
            f"regions {len(tiling.folders)} {counts} guests {len(places.several)} (parcels of several regions) rows"
            f" {places.rows()} lineage {rows} (rows dealt out) files changed {len(changed)} (the others are as they"
            " were)"
        ),
    ]
