"""Faults that are planted in the folders of a country, the register and the words of a command, one by one. Each gets
what a command is given, and changes it; it answers False where there was no place for it."""

import os
import re
import shutil
import sqlite3
from pathlib import Path

from lpis_helpers.country_example import regions_of
from lpis_helpers.country_years import CLASSES
from lpis_helpers.tables import write_lines


class Given:
    """The folder, the register, the year and the file of --exact of a command; all of them copies that may be changed.
    `stale` are the regions whose certificates are to be made anew, `gone` identifiers that were live in an earlier
    year alone."""

    def __init__(self, numbers, folder, register, year, file, gone):
        self.numbers, self.folder, self.register, self.year, self.file, self.gone, self.stale = (
            numbers,
            folder,
            register,
            year,
            file,
            gone,
            set(),
        )
        self.regions = regions_of(folder)

    def path(self, *names):
        return os.path.join(self.folder, *names)

    def lines(self, *names):
        return Path(self.path(*names)).read_text(encoding="ascii").splitlines()

    def write(self, lines, *names):
        write_lines(self.path(*names[:-1]), names[-1], lines)

    def region(self):
        return self.numbers.choice(self.regions)

    def rows(self):
        """Each row of lineage: its region, its line's place in the table, and its fields."""
        return [
            (region, place, line.split(","))
            for region in self.regions
            for place, line in enumerate(self.lines(region, "lineage.csv"))
            if place
        ]

    def set_row(self, region, place, fields):
        lines = self.lines(region, "lineage.csv")
        lines[place : place + 1] = [",".join(fields)] if fields else []
        self.write(lines, region, "lineage.csv")

    def add_row(self, old, new, mark=""):
        region = self.region()
        lines = self.lines(region, "lineage.csv")
        fields = [old, new, mark][: lines[0].count(",") + 1]
        lines.insert(self.numbers.randint(1, len(lines)), ",".join(fields))
        self.write(lines, region, "lineage.csv")

    def parcels(self):
        """The regions of each parcel."""
        found = {}
        for region in self.regions:
            for line in self.lines(region, "parcels.csv")[1:]:
                found.setdefault(line.split(",")[0], []).append(region)
        return found

    def change_parcel(self, region, name, change):
        """Changes the lines of a parcel and its pieces in a region, whose certificate is then made anew."""
        self.stale.add(region)
        for table, column in (("parcels.csv", 0), ("covers.csv", 1)):
            head, *rows = self.lines(region, table)
            self.write(
                [
                    head,
                    *(
                        line
                        for row in rows
                        for line in (change(row, column) if row.split(",")[column] == name else [row])
                    ),
                ],
                region,
                table,
            )

    def sql(self, statement, *values):
        connection = sqlite3.connect(self.register)
        connection.execute("PRAGMA foreign_keys = OFF")
        count = connection.execute(statement, values).rowcount
        connection.commit()
        connection.close()
        return count > 0


def store(given):
    given.register = given.path("no folder", "years.db")


def no_register(given):
    return os.path.exists(given.register) and given.sql(
        given.numbers.choice(
            [
                "UPDATE lpis_format SET version = 9",
                "UPDATE lpis_span SET id = 'no identifier' WHERE id = (SELECT min(id) FROM lpis_span)",
            ]
        )
    )


def year(given):
    given.year -= given.numbers.randint(1, 4)


def top_missing(given):
    os.remove(given.path(given.numbers.choice(["country.txt", "classes.csv"])))


def no_plan(given):
    lines = given.lines("country.txt")
    given.write(
        given.numbers.choice(
            [lines[:-1], [*lines, "region more"], ["lpis-country 2", *lines[1:]], [*lines[:-1], f"{lines[-1]}."]]
        ),
        "country.txt",
    )


def no_classes(given):
    lines = given.lines("classes.csv")
    given.write(
        given.numbers.choice(
            [
                ["class,class,percent"],
                [*lines, lines[1]],
                [*lines, "Z,101"],
                ["class"],
                [*lines, "Z"],
                [*lines, "a b,1"],
            ]
        ),
        "classes.csv",
    )


def no_file(given):
    given.file = given.path("none.txt")


def bad_file(given):
    """A certificate's text with a fault, or one without."""
    before = read(given.file) if given.file else "lpis-cert 2\npairs 0\nend\n"
    given.file = given.path("bad.txt")
    with open(given.file, "w", encoding="ascii") as file:
        file.write(
            given.numbers.choice(
                [
                    before[:-1],
                    before + "end\n",
                    before.replace("pairs 0", "pairs 1"),
                    before.replace("pairs", "pears"),
                    before.replace("lpis-cert 2", "lpis-cert 3"),
                    before.replace("pairs 0", "pairs  0"),
                    before.replace("pairs 0\n", "pairs 0\npairs 0\n"),
                    before.replace("pairs 0", "exact split A 1\nf 0 0 0 0 0 00\npairs 0"),
                    before.replace("pairs 0", "exact join A 0\npairs 0"),
                    before.replace("pairs 0", "parcel A 0\npairs 0"),
                    before.replace("pairs 0", "exact merge A 2000001\npairs 0"),
                    before[: given.numbers.randrange(len(before))],
                ]
            )
        )


def whole_certificate(given):
    """A region's own certificate, whose pieces, parcels and pairs are not asked for."""
    blocks = "".join(re.findall(r"(?m)^(?:exact|f) .*\n", read(given.file))) if given.file else ""
    own = read(given.path(given.region(), "cert.txt"))
    given.file = given.path("whole.txt")
    Path(given.file).write_text(own.replace("\npairs ", f"\n{blocks}pairs "), encoding="ascii")


def lineage_missing(given):
    os.remove(given.path(given.region(), "lineage.csv"))


def lineage_table(given):
    """A table of lineage with a fault."""
    region = given.region()
    lines = given.lines(region, "lineage.csv")
    columns = lines[0].count(",") + 1
    row = ["A", "B", ""][:columns]
    given.write(
        given.numbers.choice(
            [
                ["old"],
                ["old,old,new"],
                ["new"],
                ["old,new,exact,exact"],
                ["old,new,new"],
                [*lines, ",".join([*row, "more"])],
                [*lines, ",".join(["", *row[1:]])],
                [*lines, ",".join([row[0], "a b", *row[2:]])],
                ["old,new,exact", "A,B,x"],
                ["new,EXACT,Old", "B,1,A A"],
            ]
        ),
        region,
        "lineage.csv",
    )


def lineage_column_order(given):
    """No fault: the columns in another order, one more, and a byte order mark."""
    region = given.region()
    rows = [line.split(",") for line in given.lines(region, "lineage.csv")]
    with open(given.path(region, "lineage.csv"), "w", encoding="utf-8") as file:
        file.write(
            "\ufeff"
            + "".join(
                ",".join([f"note {place}" if place else "Note", *row[::-1]]) + "\n\n" for place, row in enumerate(rows)
            )
        )


def region_file(given):
    """A region's own fault: a table that is missing, a table or a certificate that is none."""
    region = given.region()
    kind = given.numbers.choice(["missing", "table", "text", "other"])
    if kind == "missing":
        os.remove(given.path(region, given.numbers.choice(["parcels.csv", "covers.csv", "classes.csv"])))
    elif kind == "table":
        given.write(["piece,parcel,class"], region, "covers.csv")
    elif kind == "text":
        given.write(["lpis-cert 0"], region, "cert.txt")
    else:
        shutil.copy(given.path(given.region(), "cert.txt"), given.path(region, "cert.txt"))


def other_classes(given):
    region = given.region()
    given.write(
        given.numbers.choice([[*CLASSES, "X,0"], [CLASSES[0], CLASSES[2], CLASSES[1]], [*CLASSES[:2], "W,38"]]),
        region,
        "classes.csv",
    )


def guest_missing(given):
    """A parcel of several regions is missing in one of them, or has another copy there."""
    several = [(name, regions) for name, regions in given.parcels().items() if len(regions) > 1]
    if not several:
        return False
    name, regions = given.numbers.choice(several)
    region = given.numbers.choice(regions)
    given.change_parcel(
        region,
        name,
        (lambda row, column: []) if given.numbers.random() < 0.5 else (lambda row, column: [row.replace("G,", "W,")]),
    )


def stranger(given):
    """A parcel stands in a region too that it does not meet."""
    few = [(name, regions) for name, regions in given.parcels().items() if len(regions) < len(given.regions)]
    if not few:
        return False
    name, regions = given.numbers.choice(few)
    region = given.numbers.choice([it for it in given.regions if it not in regions])
    given.stale.add(region)
    for table, column in (("parcels.csv", 0), ("covers.csv", 1)):
        mine = [line for line in given.lines(regions[0], table)[1:] if line.split(",")[column] == name]
        given.write([*given.lines(region, table), *mine], region, table)


def namesake(given):
    """Two parcels of different regions have one identifier."""
    alone = [(name, regions[0]) for name, regions in given.parcels().items() if len(regions) == 1]
    pairs = [(one, other) for one in alone for other in alone if one[1] != other[1]]
    if not pairs:
        return False
    (name, region), (other, _) = given.numbers.choice(pairs)
    given.change_parcel(
        region,
        name,
        lambda row, column: [
            ",".join(other if place == column else field for place, field in enumerate(row.split(",")))
        ],
    )


def renamed(given):
    """An identifier of an earlier year comes back, or one that is live is given again."""
    parcels = given.parcels()
    names = [name for name in given.gone if name not in parcels]
    if not names or not parcels:
        return False
    old, new = given.numbers.choice(list(parcels)), given.numbers.choice(names)
    for region in parcels[old]:

        def change(row, column):
            fields = row.split(",")
            fields[column] = new
            return [",".join(fields)]

        given.change_parcel(region, old, change)
    for region, place, fields in given.rows():
        given.set_row(region, place, [new if it == old and at == 1 else it for at, it in enumerate(fields)])


def unknown_row(given):
    given.add_row(
        given.numbers.choice(["unknown", *given.gone]), given.numbers.choice(list(given.parcels()) or ["unknown"])
    )


def kept_row(given):
    parcels = list(given.parcels())
    if not parcels:
        return False
    given.add_row(given.numbers.choice(parcels), given.numbers.choice([*parcels, ""]))


def other_row(given):
    """A row gets another successor, none, or a second row beside it in any table."""
    rows = given.rows()
    if not rows:
        return False
    region, place, fields = given.numbers.choice(rows)
    kind = given.numbers.choice(["nowhere", "twice", "twice", "ending", "successor", "lost", "lost"])
    if kind == "nowhere":
        given.set_row(region, place, [fields[0], "nowhere", *fields[2:]])
    elif kind == "twice":
        given.add_row(fields[0], fields[1], given.numbers.choice(["", "1"]))
    elif kind == "ending":
        given.add_row(fields[0], "")
    elif kind == "successor":
        given.add_row(fields[0], given.numbers.choice(list(given.parcels()) or ["nowhere"]))
    else:
        given.set_row(region, place, None)


def other_mark(given):
    rows = [row for row in given.rows() if len(row[2]) == 3]
    if not rows:
        return False
    region, place, fields = given.numbers.choice(rows)
    given.set_row(region, place, [*fields[:2], "" if fields[2] == "1" else "1"])


def shape_lost(given):
    """The register keeps no shape of a parcel that has a marked row."""
    olds = [fields[0] for _, _, fields in given.rows() if fields[2:] == ["1"]]
    return (
        bool(olds)
        and os.path.exists(given.register)
        and given.sql("DELETE FROM lpis_text WHERE id = ?", given.numbers.choice(olds))
    )


def other_blocks(given):
    """Blocks with something wrong, or none."""
    text = read(given.file) if given.file else "lpis-cert 2\npairs 0\nend\n"
    names = re.findall(r"(?m)^exact (?:split|merge) (\S+)", text)
    flats = [line for line in text.splitlines() if line.startswith("f ")]
    kind = given.numbers.choice(
        ["none", "one more", *["turned", "bent", "moved", "left out", "other kind"] * bool(names)]
    )
    if kind == "none":
        given.file = None
        return bool(names)
    if kind == "one more":
        text = text.replace(
            "pairs ",
            f"exact {given.numbers.choice(['split', 'merge'])} {given.numbers.choice([*names, 'A'])} 0\npairs ",
        )
    elif kind == "other kind":
        text = re.sub(
            "exact (split|merge)", lambda found: "exact merge" if found[1] == "split" else "exact split", text, count=1
        )
    elif flats:
        flat = given.numbers.choice(flats)
        a, b, c = re.findall(r"-?\d+ -?\d+", flat)
        x, y = map(int, c.split())
        inward = 1 if x <= 0 else -1
        new = {
            "turned": f"f {c} {b} {a}",
            "bent": f"f {a} {b} {x + inward} {y - (1 if y > 0 else -1)}",
            "moved": f"f {a} {b} {' '.join(str(2 * p - q) for p, q in zip(map(int, a.split()), map(int, b.split())))}",
            "left out": f"f {a} {a} {a}",
        }[kind]
        text = text.replace(flat, new, 1)
    given.file = given.path("blocks.txt")
    Path(given.file).write_text(text, encoding="ascii")


def read(path):
    return Path(path).read_text(encoding="ascii")


# With how often each is planted.
PLANTS = [
    (store, 1),
    (no_register, 1),
    (year, 3),
    (top_missing, 1),
    (no_plan, 2),
    (no_classes, 2),
    (no_file, 1),
    (bad_file, 6),
    (whole_certificate, 2),
    (lineage_missing, 1),
    (lineage_table, 5),
    (lineage_column_order, 2),
    (region_file, 4),
    (other_classes, 2),
    (guest_missing, 4),
    (stranger, 3),
    (namesake, 3),
    (renamed, 5),
    (unknown_row, 3),
    (kept_row, 3),
    (other_row, 12),
    (other_mark, 5),
    (shape_lost, 6),
    (other_blocks, 12),
]


def planted(given, count):
    """Plants some faults; answers their names."""
    done = []
    for plant in given.numbers.choices([it for it, _ in PLANTS], [weight for _, weight in PLANTS], k=count):
        try:
            if plant(given) is not False:
                done.append(plant.__name__)
        except (OSError, IndexError, ValueError):
            pass  # a fault before it left nothing that it could change
    return done
