"""Draws docs/parcel.svg and idea-*.svg, of worked releases and the certificates that `lpis` finds for them: imported by
dev/pictures.

What is flat or touches is drawn a little apart, and the page says so."""

import os
import subprocess

from drawings import TOP, Drawing, audit, crossings, rings_of
from example_pictures import draw_examples


def box_of(*polygons):
    points = {a for polygon in polygons for a, _ in polygon}
    return tuple(most(point[k] for point in points) for most in (min, max) for k in (0, 1))


def lpis(*words):
    subprocess.run(
        [os.environ.get("LPIS") or TOP / "lpis", *map(str, words)],
        check=True,
        stdout=subprocess.DEVNULL,
        stderr=subprocess.DEVNULL,
    )


def blocks_of(cert):
    """Triangles and flats by kind and identifier, and the pair lines."""
    blocks, pairs = {}, []
    for kind, *words in map(str.split, cert.read_text(encoding="ascii").splitlines()):
        if kind in ("piece", "parcel", "exact"):
            shapes = {"t": [], "f": []}
            name = words[0] if kind != "exact" else words[1]
            blocks[f"exact {words[0]}" if kind == "exact" else kind, name] = (shapes["t"], shapes["f"])
        elif kind in ("t", "f"):
            numbers = list(map(int, words))
            shapes[kind].append(tuple(zip(numbers[::2], numbers[1::2])))
        elif kind == "s":
            pairs.append(tuple(map(int, words)))
    return blocks, pairs


def draw_parcel(folder):
    """A parcel with its pieces and their classes, beside the triangles of its certificate."""
    parcels, pieces, percents = audit.read_release(TOP / "examples" / "pasture")
    mine = {name: (land_class, shape) for name, (parcel, land_class, shape) in pieces.items() if parcel == "upper"}
    triangles = {name: folder["pasture"][0]["piece", name][0] for name in mine}
    drawing, fills = Drawing(250), {"meadow": "one", "scattered-trees": "three", "rock": "two"}
    for part, title in enumerate(
        ("A parcel and its pieces, each of a class", f"The certificate: {sum(map(len, triangles.values()))} triangles")
    ):
        panel = drawing.panel(title, box_of(parcels["upper"]), part, 2)
        for name, (land_class, shape) in mine.items():
            panel.path(rings_of(shape), fills[land_class])
            if part:
                panel.path(triangles[name], "cut")
            panel.path(rings_of(shape), "shape")
    panel = drawing.panel("", box_of(parcels["upper"]), 0, 2)
    for land_class, place in (
        ("meadow", (7_000, 46_000)),
        ("scattered-trees", (37_200, 55_000)),
        ("rock", (48_000, 35_000)),
    ):
        panel.words(f"{land_class}, {percents[land_class]} %", panel.place(place))
    return drawing


def draw_walk(_):
    """A polygon as a closed walk, and what points count of it."""
    farm = audit.read_parcels(TOP / "examples" / "holes")["farm"]
    drawing, box = Drawing(360), box_of(farm)
    panel = drawing.panel(
        "Edges are walked with the land on their left. On a way to the right, up is +1, down is -1.",
        (box[0] - 14_000, box[1] - 6_000, box[2] + 14_000, box[3]),
    )
    panel.polygon(farm, "one", True)
    for point in ((20_000, 70_000), (30_000, 40_000), (80_000, 30_000), (-12_000, 10_000)):
        signs = crossings(farm, point)
        panel.arrow(point, (132_000, point[1]), "ray", 0)
        panel.dot(point, f"{' '.join(f'{sign:+}' for sign in signs)} = {sum(signs)}", (-4, -9))
    return drawing


def draw_cancel(folder):
    """The edges of two triangles beside the edges of their piece."""
    _, pieces, _ = audit.read_release(TOP / "examples" / "junctions")
    triangles, _ = folder["junctions"][0]["piece", "south-2"]
    shape, drawing = pieces["south-2"][2], Drawing(230)
    for part, title in enumerate(("Two triangles, each with its edges", "What is left where edges cancel: the piece")):
        panel = drawing.panel(title, box_of(shape), part, 2)
        panel.path(rings_of(shape), "one")
        panel.path(rings_of(shape) if part else triangles, "shape" if part else "cut")
        for a, b in shape if part else audit.around(triangles):
            panel.arrow(a, b)
    return drawing


def draw_pieces(folder):
    """A parcel of two pieces with the triangles, the flats and the separating edges of its certificate."""
    parcels, pieces, _ = audit.read_release(TOP / "examples" / "junctions")
    blocks, pairs = folder["junctions"]
    every = [triangle for (kind, _), (triangles, _) in blocks.items() if kind == "piece" for triangle in triangles]
    own = {triangle for name in ("east-1", "east-2") for triangle in blocks["piece", name][0]}
    box, drawing = box_of(parcels["east"]), Drawing(320)
    panel = drawing.panel(
        "A parcel of two pieces: triangles, a flat, and edges that separate triangles (dashed)",
        (box[0] - 30_000, box[1] - 4_000, box[2] + 30_000, box[3] + 4_000),
    )
    for name, kind in (("east-1", "one"), ("east-2", "two")):
        panel.path(rings_of(pieces[name][2]), kind)
    for triangle in own:
        panel.path([triangle], "cut")
    panel.polygon(parcels["east"])
    for i, j, k in pairs:
        if {every[i], every[j]} <= own:
            triangle = every[i if k < 3 else j]
            panel.line(triangle[k % 3], triangle[(k + 1) % 3], "line", 0.25)
    for flat in blocks["parcel", "east"][1]:
        panel.flat(flat, (60_000, 40_000))
    panel.words("piece east-1", panel.place((66_000, 40_000)))
    panel.words("piece east-2", panel.place((42_000, 60_000)))
    panel.words("a flat (drawn apart)", panel.place((70_000, 68_500)))
    return drawing


def draw_border(_):
    """Points on borders, and the parcels to which they belong."""
    parcels, drawing = audit.read_parcels(TOP / "examples" / "junctions"), Drawing(300)
    panel = drawing.panel(
        "A point of a border counts as lying a hair to the right and, by less, above", (10_000, 18_000, 80_000, 50_000)
    )
    for name, kind, place in (
        ("south", "three", (12_000, 21_000)),
        ("west", "one", (12_000, 45_000)),
        ("east", "two", (60_000, 40_000)),
    ):
        rings = [
            [(min(max(x, 10_000), 80_000), min(max(y, 18_000), 50_000)) for x, y in ring]
            for ring in rings_of(parcels[name])
        ]
        panel.path(rings, kind)
        panel.path(rings, "shape")
        panel.words(name, panel.place(place))
    for point, owner in (((40_000, 42_000), "east"), ((25_000, 30_000), "west"), ((40_000, 30_000), "east")):
        if owner not in [
            name for name, polygon in parcels.items() if sum(crossings(polygon, (point[0] + 1, point[1] + 0.5))) == 1
        ]:
            raise SystemExit(f"{point} is not in {owner}")
        panel.arrow(point, (point[0] + 3_000, point[1] + 1_400), "ray", 0)
        panel.dot(point, f"in {owner}", (30, 4 if point[1] > 40_000 else -16))
    return drawing


def draw_lineage(folder):
    """A marked split: the old shape, the new ones, and the flats of the block between them."""
    before, after = (audit.read_parcels(TOP / "examples" / "exact" / year) for year in ("2024", "2025"))
    _, flats = folder["exact"][0]["exact split", "meadow"]
    whole, parts, drawing = before["meadow"], [after["meadow-1"], after["meadow-2"]], Drawing(270)
    left = drawing.panel("2024: meadow", box_of(whole), 0, 2)
    left.polygon(whole, "one", True)
    right = drawing.panel("2025: its two parts, and two flats", box_of(whole), 1, 2)
    for part, kind in zip(parts, ("one", "two")):
        right.polygon(part, kind, True)
    for flat in flats:
        right.flat(flat, (30_000, 20_000))
    return drawing


def certificates(folder):
    """Triangles, flats and pair lines of the certificates of two examples, and of the one with which
    examples/exact/2025 is published."""
    examples = TOP / "examples"
    for name in ("junctions", "pasture"):
        lpis("cut", examples / name, folder / f"{name}.txt")
    for year in ("2024", "2025"):
        lpis("cut", examples / "exact" / year, folder / f"{year}.txt")
    lpis("publish", folder / "exact.db", 2024, examples / "exact" / "2024", folder / "2024.txt")
    lpis("exact", folder / "exact.db", examples / "exact" / "2025", folder / "2025.txt", folder / "exact.txt")
    return {name: blocks_of(folder / f"{name}.txt") for name in ("junctions", "pasture", "exact")}


DRAWINGS = {
    "parcel": draw_parcel,
    "idea-walk": draw_walk,
    "idea-cancel": draw_cancel,
    "idea-pieces": draw_pieces,
    "idea-border": draw_border,
    "idea-lineage": draw_lineage,
    "idea-examples": draw_examples,
}


def draw(folder, out):
    """Writes the drawings into a folder; another one is for certificates."""
    found = certificates(folder)
    for name, drawn in DRAWINGS.items():
        (out / f"{name}.svg").write_text(drawn(found).text(), encoding="utf-8")
