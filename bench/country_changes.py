"""The second year of a country that make_country.cpp wrote, made in its place: one parcel of twenty is changed,
certificates too, so that nothing is cut anew."""

import os
import zlib
from collections import Counter

from lpis_helpers.country_example import regions_of

CHANGED, SPLIT, OF = 45, 5, 1_000  # so many of a thousand get another identifier, or are split into their pieces


def write_lineage(folder, region, rows):
    with open(os.path.join(folder, region, "lineage.csv"), "w", encoding="ascii") as file:
        file.write("old,new,exact\n")
        file.writelines(rows)


def add_lineage(folder):
    """The tables of a first year."""
    for region in regions_of(folder):
        write_lineage(folder, region, [])


def rows_of(*names):
    """The lines of a table behind its header, and the header."""
    with open(os.path.join(*names), encoding="ascii") as file:
        return next(file), list(file)


def kind_of(name, seen):
    """What becomes of a parcel: one of several regions is never split, since its pieces need not meet the same
    tiles."""
    place = zlib.crc32(name.encode()) % OF
    if place < CHANGED:
        return "renamed"
    return "split" if place < CHANGED + SPLIT and name.startswith("P") and seen[name] == 1 else None


def change(folder):
    """Changes all regions; answers how many parcels are changed."""
    regions, told = regions_of(folder), set()
    seen = Counter(line.split(",", 1)[0] for region in regions for line in rows_of(folder, region, "parcels.csv")[1])
    kinds = {name: kind for name in seen if (kind := kind_of(name, seen))}
    for region in regions:
        write_lineage(folder, region, change_region(os.path.join(folder, region), kinds, told))
    return len(kinds)


def change_region(folder, kinds, told):
    """Changes a region's tables and certificate; answers its rows of lineage, none of a parcel that an earlier
    region has."""
    pieces, rows = change_covers(folder, kinds), []
    head, lines = rows_of(folder, "parcels.csv")
    with open(os.path.join(folder, "parcels.csv"), "w", encoding="ascii") as file:
        file.write(head)
        for line in lines:
            name, wkt = line.split(",", 1)
            news = (
                [f"{name}.{place}" for place in range(len(pieces[name]))]
                if kinds.get(name) == "split"
                else [f"{name}.n"]
            )
            if name not in kinds:
                file.write(line)
                continue
            file.writelines(f"{new},{text}" for new, text in zip(news, pieces[name] if len(news) > 1 else [wkt]))
            if name not in told:
                told.add(name)
                rows += [f"{name},{new},{'1' if len(news) > 1 else ''}\n" for new in news]
    change_certificate(os.path.join(folder, "cert.txt"), kinds, pieces)
    return rows


def change_covers(folder, kinds):
    """Gives the pieces their new parcels; answers the texts of the pieces of each parcel that is split."""
    head, lines = rows_of(folder, "covers.csv")
    pieces = {}
    with open(os.path.join(folder, "covers.csv"), "w", encoding="ascii") as file:
        file.write(head)
        for line in lines:
            piece, name, rest = line.split(",", 2)
            kind = kinds.get(name)
            if kind == "split":
                mine = pieces.setdefault(name, [])
                file.write(f"{piece},{name}.{len(mine)},{rest}")
                mine.append(rest.split(",", 1)[1])
            else:
                file.write(f"{piece},{name}.n,{rest}" if kind else line)
    return pieces


def change_certificate(path, kinds, pieces):
    """Names the parcels anew; a piece that is a parcel wants no flats."""
    with open(path, encoding="ascii") as old, open(f"{path}.new", "w", encoding="ascii") as new:
        is_left_out = False
        for line in old:
            if line.startswith("parcel "):
                _, name, flats = line.split()
                kind = kinds.get(name)
                is_left_out = kind == "split"
                new.write(
                    "".join(f"parcel {name}.{place} 0\n" for place in range(len(pieces[name])))
                    if is_left_out
                    else f"parcel {name}.n {flats}\n"
                    if kind
                    else line
                )
            elif not (is_left_out and line.startswith("f ")):
                new.write(line)
    os.replace(f"{path}.new", path)
