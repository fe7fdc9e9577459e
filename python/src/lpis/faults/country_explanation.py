"""The words about a refusal of `lpis country` or `lpis publish-country`: the region's folder, its tile, the other
copies of a parcel, and the tables of all regions as one."""

import os

from ..formats import polygons, tile_plan
from ..formats.byte_tables import COLUMNS, Table, path_of, quoted, shown


def rows_of(folder, name):
    """A parcel's row and those of its pieces, as fields, in a folder; None where it is in no row there."""
    tables = {table: Table(path_of(folder, table), table) for table in ("parcels", "covers")}
    found = {}
    for table, file in tables.items():
        found[table] = [
            [file.field(record, column) for column in COLUMNS[table]]
            for _, record in file.rows()
            if file.field(record, "parcel") == name
        ]
    return found if found["parcels"] else None


class At(str):
    """A row with its region, as it is told."""

    def __new__(cls, row, region):
        told = super().__new__(cls, f"{row} (region {region})")
        told.row, told.region = row, region
        return told


class Together:
    """A table of all regions as one `Table`: a record has its own table beside it. One region's is read at a time."""

    def __init__(self, top, folders, name):
        self.top, self.folders, self.name, self.path = top, folders, name, f"{name}.csv of the regions"

    def of(self, region):
        return Table(path_of(os.path.join(self.top, region), self.name), self.name)

    def tables(self):
        for region in self.folders:
            try:
                yield region, self.of(region)
            except FileNotFoundError:
                continue  # a region without this table, which lpis says

    def rows(self):
        for region, table in self.tables():
            for row, record in table.rows():
                yield At(row, region), (table, record)

    @staticmethod
    def field(record, column):
        return record[0].field(record[1], column)

    def record(self, at):
        table = self.of(at.region)
        return table, table.record(at.row)

    def line(self, at):
        return self.of(at.region).line(at.row)

    def find(self, column, value):
        for region, table in self.tables():
            row = table.find(column, value)
            if row is not None:
                return At(row, region)
        return None


def extent(box):
    """A tile in metres; its outer sides are open. Lines in the wrong order leave one without land."""

    def side(value):
        return "any" if abs(value) > tile_plan.FAR else polygons.metres(value)

    is_land = box[0] < box[2] and box[1] < box[3]
    return (
        f"x {side(box[0])} to {side(box[2])}, y {side(box[1])} to"
        f" {side(box[3])}{'' if is_land else ': no land, by the order of the lines of country.txt'}"
    )


class OfCountry:
    """The words about a refusal that names a region, or a line of country.txt. `top` is the country's folder."""

    def enter(self, folder, region):
        """Goes to the region's folder, where there is one: its tables are those that the line is about. A line about
        lineage names none where it is about the whole country."""
        self.top = folder
        if (
            not region
            and self.refusal.row is None
            and self.refusal.code in ("45", "81", "85")
            and (tiling := self.tiling())
        ):
            self.tables.update({name: Together(folder, tiling.folders, name) for name in ("parcels", "lineage")})
        inner = os.path.join(folder, region)
        if not region or not os.path.isdir(inner):
            return
        self.folder = inner
        if self.cert is None and os.path.isfile(os.path.join(inner, "cert.txt")):
            self.cert = os.path.join(inner, "cert.txt")

    def every_lineage(self, table):
        """The rows of all regions where the line names one, else those of the table."""
        tiling = self.tiling() if self.refusal.region else None
        return Together(self.top, tiling.folders, "lineage") if tiling else table

    def say_country(self):
        refusal = self.refusal
        if refusal.code == "90" and refusal.cert_line is not None:
            self.say_country_line()
        elif refusal.code == "96" and refusal.row is not None:
            self.say_classes()
        elif refusal.code in ("92", "93", "94", "95"):
            self.say_tile()
            if refusal.code != "92" and refusal.names:
                self.say_copies(refusal.names[0].encode())

    def say_country_line(self):
        lines = self.say_line_of(os.path.join(self.top, "country.txt"))
        if lines is None:
            return
        try:
            tile_plan.read(b"\n".join(lines).decode("latin-1"))
        except tile_plan.Unreadable as error:
            self.say(f"  {error}")

    def tiling(self):
        try:
            return tile_plan.of_folder(self.top)
        except (OSError, tile_plan.Unreadable):
            return None

    def say_tile(self):
        tiling = self.tiling()
        if tiling and self.refusal.region in tiling.folders:
            self.say(
                f"region {self.refusal.region} has the tile"
                f" {extent(tiling.boxes()[tiling.folders.index(self.refusal.region)])}"
            )

    def say_copies(self, name):
        """The other regions that have the parcel, and how the first of them differs from what the region has."""
        tiling = self.tiling()
        if tiling is None:
            return
        here, others = None, []
        for folder in tiling.folders:
            try:
                found = rows_of(os.path.join(self.top, folder), name)
            except OSError as error:
                self.say(f"region {folder} cannot be looked at: {error}")
                continue
            if folder == self.refusal.region:
                here = found
            elif found:
                others.append((folder, found))
        self.say(f"parcel {shown(name)} is in {', '.join(folder for folder, _ in others) or 'no other region'}")
        for folder, found in others[:1]:
            if here is None:
                members = polygons.read(found["parcels"][0][1])
                self.say(f"  in {folder}: {polygons.extent(members) if members else 'its wkt is no polygon'}")
                if members:
                    self.add_shape("parcel", shown(name), members)
            elif self.refusal.code == "94":
                self.say_unlike(folder, found, here)

    def say_unlike(self, folder, found, here):
        if polygons.read(found["parcels"][0][1]) != polygons.read(here["parcels"][0][1]):
            self.say(f"  its polygon differs from that in {folder}: other points, or the same from another first point")
        before, now = ([shown(row[0]) for row in rows["covers"]] for rows in (found, here))
        if before != now:
            self.say(f"  its pieces in {folder}: {' '.join(before)}; here: {' '.join(now)}")
        for one, two in zip(found["covers"], here["covers"]):
            if one[0] == two[0] and (one[2] != two[2] or polygons.read(one[3]) != polygons.read(two[3])):
                self.say(
                    f"  its piece {shown(one[0])} has another {'class' if one[2] != two[2] else 'polygon'} in {folder}"
                )

    def say_classes(self):
        for folder in (self.top, self.folder):
            try:
                table = Table(path_of(folder, "classes"), "classes")
            except OSError as error:
                self.say(str(error))
                continue
            record = table.record(self.refusal.row)
            fields = (
                ", ".join(
                    f"{name} {quoted(table.field(record, name))}" for name in COLUMNS["classes"] if name in table.names
                )
                if record
                else "there is no such row"
            )
            self.say(f"{table.path}: row {self.refusal.row}: {fields}")
