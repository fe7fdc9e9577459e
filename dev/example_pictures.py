"""Draws docs/idea-examples.svg, of the examples of docs/BELIEVE.md: imported by idea_pictures.py."""

from drawings import WIDTH, Drawing, Panel, crossings


def ring_of(left, low, right, high):
    """The edges of a rectangle, counter-clockwise."""
    corners = [(left, low), (right, low), (right, high), (left, high)]
    return list(zip(corners, corners[1:] + corners[:1]))


def below(panel, *texts):
    """Lines of words under a panel's box."""
    x, y = panel.place(panel.box[:2])
    for row, text in enumerate(texts):
        panel.words(text, (x, y + 38 + 17 * row))


def ticks(panel, *numbers):
    """Coordinates to the east, under a panel's box, and one to the north."""
    for number in numbers:
        x, y = panel.place((number, 0))
        panel.words(f"{number}", (x - 4, y + 16))
    x, y = panel.place((0, 4))
    panel.words("4", (x - 12, y + 5))


def draw_polygons(drawing):
    """What points of the examples' polygons meet to the east, and whether they are in."""
    square = ring_of(0, 0, 4, 4)
    parts = (
        ("square", square, ((2, 2), (4, 2)), (0, 4)),
        ("frame", [*square, *turned(ring_of(1, 1, 3, 3))], ((0.5, 2), (2, 2)), (0, 1, 3, 4)),
        ("triangle", [((0, 0), (4, 0)), ((4, 0), (0, 4)), ((0, 4), (0, 0))], ((1, 1), (2, 2), (3, 3)), (0, 4)),
        ("hole outside", [*square, *turned(ring_of(8, 0, 12, 4))], ((10, 2),), (0, 4, 8, 12)),
    )
    for part, (name, polygon, points, numbers) in enumerate(parts):
        east = max(4, *(a[0] for a, _ in polygon)) + 1
        panel, texts = Panel(drawing, name, (0, 0, east, 4), part * WIDTH / 4, WIDTH / 4, 0, 210), []
        panel.polygon(polygon, "one")
        ticks(panel, *numbers)
        for letter, point in zip("abc", points):
            met = len(crossings(polygon, point))
            panel.arrow(point, (east, point[1]), "ray", 0)
            panel.dot(point, letter, (5, -7))
            texts.append(f"{letter} {point}: meets {met}, {'in' if met % 2 else 'not in'}")
        below(panel, *texts)


def draw_maps(drawing):
    """Maps of the examples: a sound one, and others with a point where each is wrong. Pieces are filled."""
    meadow, wood, field, farm = (0, 0, 2, 4), (2, 0, 4, 4), (4, 0, 8, 4), (0, 0, 4, 4)
    parts = (
        ("two_parcels: sound", (farm, field), (meadow, wood, field), None, "meadow, wood and crop"),
        ("with_gap: unsound", (farm,), (meadow,), (3, 2), "in farm, in no piece"),
        ("reaching_out: unsound", (farm,), (meadow, (2, 0, 5, 4)), (4.5, 2), "in a piece, not in farm"),
        ("pieces_overlapping", (farm,), (wood, (0, 0, 3, 4)), (2, 2), "unsound: in two pieces"),
    )
    for part, (name, parcels, pieces, point, words) in enumerate(parts):
        panel = Panel(drawing, name, (0, 0, 8, 4), part * WIDTH / 4, WIDTH / 4, 230, 210)
        for kind, piece in zip(("one", "three", "two"), pieces):
            panel.polygon(ring_of(*piece), kind)
        for parcel in parcels:
            panel.polygon(ring_of(*parcel))
        ticks(panel, 0, 4, *((8,) if len(parcels) > 1 else ()))
        if point:
            panel.dot(point)
        names = "farm and field" if len(parcels) > 1 else f"farm, and {point}:"
        below(panel, names, words)


def turned(ring):
    """The edges of a ring, walked the other way."""
    return [(b, a) for a, b in reversed(ring)]


def draw_examples(_):
    """Polygons and maps of the examples of docs/BELIEVE.md."""
    drawing = Drawing(425)
    draw_polygons(drawing)
    draw_maps(drawing)
    return drawing
