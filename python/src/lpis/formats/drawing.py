"""Shapes and a place as GeoJSON for QGIS, and as a picture."""

import json
from fractions import Fraction

from . import polygons
from ..system import printing

FILLS = ["#4477aa", "#cc6677", "#228833", "#ccbb44", "#66ccee", "#aa3377"]
SIZE = 420  # of the picture's square, in its own units
MOST_STRETCHES = 2000


def geojson(shapes, place, line, epsg=None, stretches=()):
    """Shapes (kind, name, members), stretches of border that differ, and a place, in metres."""

    def feature(kind, name, form, coordinates):
        return {
            "type": "Feature",
            "properties": {"kind": kind, "name": name, "line": line},
            "geometry": {"type": form, "coordinates": coordinates},
        }

    features = [
        feature(
            kind,
            name,
            "MultiPolygon",
            [[[[x / 1000, y / 1000] for x, y in ring] for ring in member] for member in members],
        )
        for kind, name, members in shapes
    ]
    if stretches:
        features.append(
            feature(
                "differs", "", "MultiLineString", [[[x / 1000, y / 1000] for x, y in stretch] for stretch in stretches]
            )
        )
    if place:
        features.append(feature("place", "", "Point", [float(value / 1000) for value in place]))
    return collection(features, epsg)


def collection(features, epsg=None):
    whole = {"type": "FeatureCollection"}
    if epsg:
        whole["crs"] = {"type": "name", "properties": {"name": f"urn:ogc:def:crs:EPSG::{epsg}"}}
    whole["features"] = features
    return json.dumps(whole, indent=1) + "\n"


def cut_ring(ring, window):
    """A ring cut to a window (least x, least y, greatest x, greatest y), as floats about the window's corner."""
    x0, y0, x1, y1 = window
    way = [(float(x - x0), float(y - y0)) for x, y in ring]
    for axis, bound, keep_less in (
        (0, 0.0, False),
        (0, float(x1 - x0), True),
        (1, 0.0, False),
        (1, float(y1 - y0), True),
    ):
        kept = []
        for a, b in zip(way, way[1:] + way[:1]):
            a_in, b_in = ((p[axis] <= bound) if keep_less else (p[axis] >= bound) for p in (a, b))
            if a_in:
                kept.append(a)
            if a_in != b_in:
                part = (bound - a[axis]) / (b[axis] - a[axis])
                cut = [a[0] + part * (b[0] - a[0]), a[1] + part * (b[1] - a[1])]
                cut[axis] = bound
                kept.append(tuple(cut))
        way = kept
    return way


def clipped(a, b, window):
    """The part of a stretch in a window, as fractions; nothing where none of it is."""
    x0, y0, x1, y1 = window
    least, most = Fraction(0), Fraction(1)
    for start, step, low, high in ((a[0], b[0] - a[0], x0, x1), (a[1], b[1] - a[1], y0, y1)):
        if step == 0:
            if not low <= start <= high:
                return []
            continue
        ends = sorted((Fraction(low - start) / step, Fraction(high - start) / step))
        least, most = max(least, ends[0]), min(most, ends[1])
    return [tuple(a[k] + part * (b[k] - a[k]) for k in (0, 1)) for part in (least, most)] if least <= most else []


def panel(shapes, place, window, left, title, stretches=()):
    """One square of the picture: the window's part of each shape, the stretches that differ, and the place."""
    x0, y0, x1, y1 = window
    margin = (x1 - x0) / 2
    wide = (x0 - margin, y0 - margin, x1 + margin, y1 + margin)
    scale = SIZE / float(x1 - x0)
    out = [
        f'<svg x="{left}" y="30" width="{SIZE}" height="{SIZE}" viewBox="0 0 {SIZE} {SIZE}">',
        f'<rect width="{SIZE}" height="{SIZE}" fill="white" stroke="#888"/>',
    ]
    for number, (_, _, members) in enumerate(shapes):
        path = ""
        for ring in (ring for member in members for ring in member):
            way = cut_ring(ring, wide)
            if way:
                path += (
                    "M"
                    + "L".join(
                        f"{(x - float(margin)) * scale:.2f} {SIZE - (y - float(margin)) * scale:.2f}" for x, y in way
                    )
                    + "Z"
                )
        colour = FILLS[number % len(FILLS)]
        out.append(
            f'<path d="{path}" fill="{colour}" fill-opacity="0.3" fill-rule="evenodd" stroke="{colour}"'
            ' stroke-width="1.5"/>'
        )
    for a, b in stretches[:MOST_STRETCHES]:
        ends = [f"{float(x - x0) * scale:.2f} {SIZE - float(y - y0) * scale:.2f}" for x, y in clipped(a, b, wide)]
        if ends:
            out.append(f'<path d="M{ends[0]}L{ends[1]}" stroke="#d00000" stroke-width="2.5"/>')
    if place:
        x, y = float(place[0] - x0) * scale, SIZE - float(place[1] - y0) * scale
        out.append(
            f'<path d="M{x - 9:.2f} {y:.2f}h18M{x:.2f} {y - 9:.2f}v18" stroke="black" stroke-width="1.5"/><circle'
            f' cx="{x:.2f}" cy="{y:.2f}" r="6" fill="none" stroke="black"/>'
        )
    out.append(f'</svg><text x="{left}" y="22">{title}</text>')
    return out


def window_about(middle, half):
    """A window as fractions, so that differences of long coordinates keep their last digits."""
    x, y = map(Fraction, middle)
    return x - half, y - half, x + half, y + half


def reach(shapes, place):
    """How far the nearest border is from a place that is not on it: the fineness of a fault, in millimetres."""
    far = (distance(a, b, place) for _, _, members in shapes for a, b in polygons.edges(members))
    return min((d for d in far if d > 1e-9), default=0.0)


def distance(a, b, place):
    """From a place to a stretch, as a float."""
    ax, ay = float(a[0] - place[0]), float(a[1] - place[1])
    dx, dy = float(b[0] - a[0]), float(b[1] - a[1])
    part = max(0.0, min(1.0, -(ax * dx + ay * dy) / (dx * dx + dy * dy)))
    return ((ax + part * dx) ** 2 + (ay + part * dy) ** 2) ** 0.5


def length(millimetres):
    return f"{float(millimetres) / 1000:.4g} m" if millimetres >= 1000 else f"{float(millimetres):.3g} mm"


def svg(shapes, place, line, stretches=()):
    """A picture of the shapes with the place marked and the stretches that differ, and beside it an enlargement where
    the fault is finer than the picture."""
    found = polygons.box([members for _, _, members in shapes])
    if found is None:
        return None
    x0, y0, x1, y1 = found
    half = Fraction(11, 20) * max(x1 - x0, y1 - y0, 1)
    panels = panel(
        shapes,
        place,
        window_about((Fraction(x0 + x1, 2), Fraction(y0 + y1, 2)), half),
        10,
        f"the whole: {length(2 * half)} wide",
        stretches,
    )
    width = SIZE + 20
    if place:
        near = Fraction(max(4 * reach(shapes, place), 0.1))
        if near < half / 10:
            panels += panel(
                shapes,
                place,
                window_about(place, near),
                SIZE + 30,
                f"about the place: {length(2 * near)} wide",
                stretches,
            )
            width = 2 * SIZE + 40
    legend = []
    for number, (kind, name, _) in enumerate(shapes[:12]):
        legend.append(
            f'<text x="{10 + number % 4 * 210}" y="{SIZE + 55 + number // 4 * 18}"'
            f' fill="{FILLS[number % len(FILLS)]}">{kind} {escaped(name)}</text>'
        )
    height = SIZE + 70 + 18 * ((max(len(legend), 1) - 1) // 4) + 18
    title = f'<text x="10" y="{height - 8}">{escaped(line)}</text>'
    return "\n".join(
        [
            (
                f'<svg xmlns="http://www.w3.org/2000/svg" viewBox="0 0 {width} {height}" width="{width}"'
                f' height="{height}" font-family="sans-serif" font-size="13">'
            ),
            *panels,
            *legend,
            title,
            "</svg>",
            "",
        ]
    )


def escaped(text):
    return printing.escaped(text).replace("&", "&amp;").replace("<", "&lt;").replace(">", "&gt;")
