#!/usr/bin/env python3
"""Tests a release and its certificate a second time, beside `lpis check`:   python3 audit/release.py DIR CERT

Written from docs/FORMATS.md alone, and read from top to bottom. Python's whole numbers are exact, and of any size.
Where the certificate is good for the release it prints the report of `lpis check`, byte for byte: status 0. Else `no`
and a fault, perhaps not the first: status 1. Status 2 is a wrong command line, 3 that a file cannot be read.
"""

import argparse
import csv
import io
import re
import sys
from bisect import bisect_left, bisect_right, insort
from collections import Counter, defaultdict
from pathlib import Path

LIMIT = 20_000_000_000  # of a coordinate, in millimetres
MOST_BYTES, MOST_ROWS, MOST_POINTS, MOST_SHAPES = 1_073_741_824, 200_000, 100_000, 2_000_000
MARK, IDENTIFIER = b"\xef\xbb\xbf", "[A-Za-z0-9_.:/-]{1,40}"  # a byte order mark; a form of words


class No(Exception):
    """The answer no, and why."""


def need(condition, *why):
    if not condition:
        raise No(" ".join(map(str, why)))


def opened(path, mark=b""):
    """The bytes of a file as letters of ISO 8859-1. What is not ASCII stands in no identifier, number or polygon."""
    data = Path(path).read_bytes()
    need(len(data) <= MOST_BYTES and not data.startswith(2 * MARK), path, "is too long, or has two byte order marks")
    return io.TextIOWrapper(io.BytesIO(data.removeprefix(mark)), encoding="iso-8859-1", newline="")


# A point is a pair of millimetres, an edge a pair of points, and a polygon the list of its edges in normal orientation.

SPACE, NUMBER = r"[ \t\r\n]*", r"[+-]?(?:[0-9]+(?:\.[0-9]*)?|\.[0-9]+)"
POINT = rf"{SPACE}{NUMBER}[ \t\r\n]+{NUMBER}{SPACE}"
RING = rf"{SPACE}\({POINT}(?:,{POINT}){{3,}}\){SPACE}"
MEMBER = rf"{SPACE}\({RING}(?:,{RING})*\){SPACE}"
POLYGON = rf"(?i:{SPACE}(?:POLYGON{MEMBER}|MULTIPOLYGON{SPACE}\({MEMBER}(?:,{MEMBER})*\){SPACE}))"


def coordinate(word):
    """The millimetres of a number of metres: its digits, and three decimals."""
    whole, _, decimals = word.lstrip("+-").partition(".")
    digits = whole.lstrip("0") + decimals[:3].ljust(3, "0")
    need(not decimals[3:].strip("0") and len(digits) <= 11 and int(digits) <= LIMIT, word[:60], "is no coordinate")
    return -int(digits) if word[0] == "-" else int(digits)


def shoelace(edges):
    return sum(a[0] * b[1] - b[0] * a[1] for a, b in edges)


def polygon_of(text):
    """The polygon of a text. One point stands before the first comma, and one behind each."""
    need(text.count(",") < MOST_POINTS and re.fullmatch(POLYGON, text), "no polygon, or too many points:", text[:60])
    polygon = []
    for member in re.findall(MEMBER, text):
        for place, ring in enumerate(re.findall(RING, member)):
            points = [tuple(map(coordinate, point.split())) for point in ring.strip(" \t\r\n()").split(",")]
            need(points[0] == points[-1], "a ring does not end where it begins:", ring[:60])
            edges = list(zip(points, points[1:]))
            is_backwards = shoelace(edges) < 0 if place == 0 else shoelace(edges) > 0  # the first is the shell
            polygon += [(b, a) for a, b in reversed(edges)] if is_backwards else edges
    return polygon


# Tables, and the release.

COLUMNS = {"parcels": "parcel wkt", "covers": "piece parcel class wkt", "classes": "class", "lineage": "old new"}
OPTIONAL = {"classes": "percent eligible", "lineage": "exact"}


def read_table(folder, name):
    """The rows, each its fields by their columns. A blank line is no row."""
    csv.field_size_limit(MOST_BYTES)
    first, *rows = list(filter(None, csv.reader(opened(Path(folder, name + ".csv"), MARK)))) or [[]]
    header = [field.lower() for field in first]
    wanted = [header.count(column) for column in COLUMNS[name].split()]
    optional = [header.count(column) for column in OPTIONAL.get(name, "").split()]
    need(set(wanted) == {1} and max(optional, default=0) < 2, name, "lacks a column, or has one twice")
    need(any(optional) or name != "classes", name, "has no percentages")
    need(len(rows) <= MOST_ROWS, name, "has too many rows")
    need(all(len(row) == len(header) for row in rows), name, "has a row that is not as long as its header")
    return [dict(zip(header, row)) for row in rows]


def by_identifier(folder, name):
    """The rows of a table by their first columns."""
    rows, key = read_table(folder, name), COLUMNS[name].split()[0]
    found = {row[key]: row for row in rows}
    need(len(found) == len(rows), name, "has an identifier twice")
    need(all(re.fullmatch(IDENTIFIER, word) for word in found), name, "has a word that is no identifier")
    return found


def percent_of(row):
    word = row["percent"] if "percent" in row else {"0": "0", "1": "100"}.get(row["eligible"], "none")
    need(re.fullmatch("0|[1-9][0-9]?|100", word), "class", row["class"], "has no percentage")
    return int(word)


def read_parcels(folder):
    return {name: polygon_of(row["wkt"]) for name, row in by_identifier(folder, "parcels").items()}


def read_release(folder):
    """By their identifiers: the polygons of parcels; parcel, class and polygon of pieces; the percentage of classes."""
    parcels, covers, classes = read_parcels(folder), by_identifier(folder, "covers"), by_identifier(folder, "classes")
    pieces = {name: (row["parcel"], row["class"], polygon_of(row["wkt"])) for name, row in covers.items()}
    need(classes.keys() >= {row["class"] for row in covers.values()}, "a piece is of a class that is not there")
    need(parcels.keys() == {row["parcel"] for row in covers.values()}, "a piece has no parcel, or a parcel no piece")
    return parcels, pieces, {name: percent_of(row) for name, row in classes.items()}


COUNT, PLACE = "(0|[1-9][0-9]{0,9})", "(0|-?[1-9][0-9]{0,10})"
PIECE, PARCEL = f"piece ({IDENTIFIER}) {COUNT} {COUNT}", f"parcel ({IDENTIFIER}) {COUNT}"
EXACT_OR_PAIRS = f"exact (split|merge) ({IDENTIFIER}) {COUNT}|pairs {COUNT}"
SHAPE = {letter: letter + f" {PLACE}" * 6 for letter in "tf"}


class Certificate:
    """The lines of a certificate, which are read one after the other."""

    def __init__(self, path):
        self.lines, self.number, self.counts = opened(path), 0, {"t": 0, "f": 0}
        self.is_first_version = self.words("lpis-cert ([12])") == ["1"]

    def words(self, form):
        """The words of the next line, which has to be of a form."""
        self.number += 1
        found = re.fullmatch(f"(?:{form})\n", next(self.lines, ""))
        need(found, "60, or a fault of the text: cert line", self.number, "is not of the form", form)
        return [word for word in found.groups() if word is not None]

    def shapes(self, letter, count):
        """The next triangles (letter t) or flats (f), so many. In version 1 they are in centimetres."""
        self.counts[letter] += int(count)
        need(self.counts[letter] <= MOST_SHAPES, "cert line", self.number, "has too many triangles or flats")
        shapes = []
        for _ in range(int(count)):
            values = [int(word) * (10 if self.is_first_version else 1) for word in self.words(SHAPE[letter])]
            need(max(map(abs, values)) <= LIMIT, "cert line", self.number, "is out of range")
            shapes.append(tuple(zip(values[::2], values[1::2])))
        return shapes


# The ten conditions.


def orient(a, b, c):
    """Above 0 where c lies left of the line from a to b, 0 on it, below 0 right of it."""
    return (b[0] - a[0]) * (c[1] - a[1]) - (b[1] - a[1]) * (c[0] - a[0])


def around(shapes):
    """The edges of triangles or flats."""
    return [edge for a, b, c in shapes for edge in ((a, b), (b, c), (c, a))]


def test_corners(code, name, shapes, edges):
    """Whether all corners are points of these edges, which are those of rings."""
    points = {a for a, _ in edges}
    need(all(points.issuperset(shape) for shape in shapes), code, name, "has a corner that is no point of its rings")


def test_edges(codes, name, whole, parts, flats):
    """Whether the edges of the whole cancel against those of its parts and of the flats."""
    are_flat = all(len(set(flat)) == 3 and orient(*flat) == 0 for flat in flats)
    need(are_flat, codes[0], name, "has a flat that is not three different points of one line")
    net = Counter(whole)
    net.subtract(parts + around(flats))
    need(all(net[a, b] == net[b, a] for a, b in list(net)), codes[1], name, "has other edges than its parts and flats")


def near_pairs(boxes):
    """How many pairs of boxes are not apart. A line goes from left to right. Where it meets a box, it has left those
    that end there. Of the boxes on it all are near but those above and those below: as many as begin below its top,
    less those that end at its bottom or below. Each box has a height, so that these are among the first."""
    begins = [(left, True, low, high) for left, _, low, high in boxes]
    ends = [(right, False, low, high) for _, right, low, high in boxes]
    count, lows, highs = 0, [], []
    for _, is_met, low, high in sorted(begins + ends):
        if is_met:
            count += bisect_left(lows, high) - bisect_right(highs, low)
            insort(lows, low)
            insort(highs, high)
        else:
            del lows[bisect_left(lows, low)], highs[bisect_left(highs, high)]
    return count


def test_pairs(triangles, certificate, count):
    """Each line names two triangles that are near. So all near ones are named where there are not more of them."""
    boxes = [(min(xs), max(xs), min(ys), max(ys)) for xs, ys in (zip(*triangle) for triangle in triangles)]
    last = (-1, -1)
    for _ in range(count):
        i, j, k = map(int, certificate.words(f"s {COUNT} {COUNT} ([0-5])"))
        need(last < (i, j) and i < j < len(triangles), 60, "pair", i, j, "is none of triangles, or does not ascend")
        last, a, b = (i, j), boxes[i], boxes[j]
        need(a[0] < b[1] and b[0] < a[1] and a[2] < b[3] and b[2] < a[3], 68, "pair", i, j, "is apart")
        left, right = (triangles[i], triangles[j]) if k < 3 else (triangles[j], triangles[i])
        start, end = left[k % 3], left[(k + 1) % 3]
        need(all(orient(start, end, corner) <= 0 for corner in right), 69, "pair", i, j, "is not separated by edge", k)
    need(count == near_pairs(boxes), 67, "two triangles are near, and no line names them")


def test_certificate(parcels, pieces, path):
    """Tests all conditions, and gives the blocks of exact splits and merges, which lineage.py tests."""
    certificate, triangles, parts, blocks = Certificate(path), [], defaultdict(list), []
    for name, (parcel, _, polygon) in pieces.items():
        found, count, flat_count = certificate.words(PIECE)
        its_triangles, flats = certificate.shapes("t", count), certificate.shapes("f", flat_count)
        need(found == name, 60, "piece", name, "is wanted, and there is", found)
        need(its_triangles, 61, "piece", name, "has no triangle")
        need(all(orient(*triangle) > 0 for triangle in its_triangles), 62, "piece", name, "has a clockwise triangle")
        test_corners(64, f"piece {name}", its_triangles + flats, polygon)
        test_edges((63, 65), f"piece {name}", polygon, around(its_triangles), flats)
        triangles += its_triangles
        parts[parcel] += polygon
    for name, polygon in parcels.items():
        found, flat_count = certificate.words(PARCEL)
        flats = certificate.shapes("f", flat_count)
        need(found == name, 60, "parcel", name, "is wanted, and there is", found)
        test_corners(64, f"parcel {name}", flats, polygon + parts[name])
        test_edges((63, 66), f"parcel {name}", polygon, parts[name], flats)
    while len(words := certificate.words(EXACT_OR_PAIRS)) > 1:
        need(not certificate.is_first_version, "cert line", certificate.number, "is none of version 1")
        blocks.append((words[0], words[1], certificate.shapes("f", words[2])))
    test_pairs(triangles, certificate, int(words[0]))
    certificate.words("end")
    need(next(certificate.lines, None) is None, "cert: a line stands behind the end")
    return blocks


def row_of(name, area, part):
    """A line of areas: one doubled, in square millimetres, and in a hundredth of that the part that is eligible."""
    whole, digits, eligible, more_digits = *divmod(5 * area, 10**7), *divmod(5 * part, 10**9)
    return f"{name} area {whole}.{digits:07} eligible {eligible}.{more_digits:09}\n"


def main(folder, path):
    parcels, pieces, percents = read_release(folder)
    test_certificate(parcels, pieces, path)
    areas, eligible = {name: shoelace(polygon) for name, polygon in parcels.items()}, Counter()
    for parcel, kind, polygon in pieces.values():
        eligible[parcel] += percents[kind] * shoelace(polygon)
    rows = "".join(row_of(f"parcel {name}", areas[name], eligible[name]) for name in parcels)
    total = row_of("total", sum(areas.values()), sum(eligible.values()))
    return f"parcels {len(parcels)} pieces {len(pieces)}\n{rows}{total}yes\n"


def run(main, *words):
    """Prints what `main` answers to the words of the command line, and ends with its status."""
    parser = argparse.ArgumentParser(usage=sys.modules["__main__"].__doc__)
    for word in words:
        parser.add_argument(word)
    try:
        print(main(*vars(parser.parse_args()).values()), end="")
    except (No, csv.Error) as fault:
        print("no", fault)
        sys.exit(1)
    except Exception as fault:
        print("failed", fault, file=sys.stderr)
        sys.exit(3)


if __name__ == "__main__":
    run(main, "DIR", "CERT")
