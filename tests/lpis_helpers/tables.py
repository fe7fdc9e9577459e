"""What the makers of releases share. A point is a pair of whole numbers, of centimetres where a maker says nothing
else, since such texts are read by versions of `lpis` before millimetres too. A ring is a list of points without the
closing one, a polygon a list of members, a member a list of rings of which the first is the shell."""

import os


def orient(a, b, c):
    """Positive where c lies left of the line from a to b, 0 on it."""
    return (b[0] - a[0]) * (c[1] - a[1]) - (b[1] - a[1]) * (c[0] - a[0])


def shoelace(ring):
    """Twice the area of a ring, below 0 where it goes clockwise."""
    return sum(a[0] * b[1] - b[0] * a[1] for a, b in zip(ring, ring[1:] + ring[:1]))


def metres(point, decimals=2):
    """A point in metres; its numbers are in centimetres, with three decimals in millimetres."""
    one = 10**decimals
    return " ".join(f"{'-' if value < 0 else ''}{abs(value) // one}.{abs(value) % one:0{decimals}}" for value in point)


def ring_text(ring, decimals=2):
    return f"({','.join(metres(point, decimals) for point in ring + ring[:1])})"


def polygon_text(polygon, decimals=2):
    members = [f"({','.join(ring_text(ring, decimals) for ring in member)})" for member in polygon]
    return f"POLYGON{members[0]}" if len(members) == 1 else f"MULTIPOLYGON({','.join(members)})"


def write_lines(folder, name, lines):
    with open(os.path.join(folder, name), "w", encoding="ascii") as file:
        file.writelines(line + "\n" for line in lines)


# G is eligible to 100 percent, W not at all; the column `eligible` is for versions of `lpis` before percentages.
CLASSES = ["class,percent,eligible", "G,100,1", "W,0,0"]


def write_release(folder, parcels, pieces, decimals=2, classes=CLASSES):
    """Parcels are (identifier, polygon), pieces (identifier, parcel, class, polygon)."""
    os.makedirs(folder, exist_ok=True)
    write_lines(folder, "classes.csv", classes)
    write_lines(
        folder,
        "parcels.csv",
        ["parcel,wkt"] + [f'{name},"{polygon_text(polygon, decimals)}"' for name, polygon in parcels],
    )
    rows = [f'{name},{parcel},{kind},"{polygon_text(polygon, decimals)}"' for name, parcel, kind, polygon in pieces]
    write_lines(folder, "covers.csv", ["piece,parcel,class,wkt"] + rows)


def write_squares(folder, count, wide=250):
    """So many parcels in rows, of one piece each."""
    parcels = [
        (f"P{n}", [[[(x, y), (x + 1000, y), (x + 1000, y + 900), (x, y + 900)]]])
        for n in range(count)
        for x, y in [(1000 * (n % wide), 1000 * (n // wide))]
    ]
    write_release(
        folder,
        parcels,
        [(f"C{name}", name, "GW"[number % 2], polygon) for number, (name, polygon) in enumerate(parcels)],
    )
