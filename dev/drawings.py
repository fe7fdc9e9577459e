"""Drawings as SVG, each on a ground of its own, for light and for dark pages: imported by idea_pictures.py and
example_pictures.py. Tables are read by audit/release.py."""

import math
import sys
from pathlib import Path

TOP = Path(__file__).resolve().parent.parent
sys.path.append(str(TOP / "audit"))
import release as audit  # noqa: E402

WIDTH, MARGIN, TITLE = 720, 28, 30
STYLE = """
.ground{fill:#ffffff}.words{fill:#222222;font:13px sans-serif}.head{fill:#222222;font:bold 13px sans-serif}
.shape{fill:none;stroke:#222222;stroke-width:1.6}.one{fill:#cfe2f3;stroke:none}.two{fill:#fbe5c0;stroke:none}.three{fill:#d9ead3;stroke:none}
.arrow{fill:none;stroke:#222222;stroke-width:1.3}.tip{fill:#222222}.cut{fill:none;stroke:#5b8db8;stroke-width:1.2}
.flat{fill:#f4c7d3;stroke:#b3003b;stroke-width:1.6}.line{fill:none;stroke:#1b7f5c;stroke-width:1.4;stroke-dasharray:6 4}
.ray{fill:none;stroke:#b3003b;stroke-width:1.4}.dot{fill:#b3003b}
@media (prefers-color-scheme:dark){.ground{fill:#14181d}.words,.head,.tip{fill:#e6e6e6}.shape,.arrow{stroke:#e6e6e6}
.one{fill:#1f4260}.two{fill:#5a4418}.three{fill:#274d2e}.cut{stroke:#7fb0d8}.flat{fill:#5c1a30;stroke:#ff7a9c}.line{stroke:#4fc79a}.ray{stroke:#ff7a9c}.dot{fill:#ff7a9c}}
"""  # noqa: E501


class Panel:
    """A part of a drawing, with a place for each point of a map's box (least x, least y, greatest x, greatest y in
    millimetres)."""

    def __init__(self, drawing, title, box, left, width, top=0, height=None):
        self.drawing, self.box, self.left, self.top = drawing, box, left, top
        self.scale = min(
            (width - 2 * MARGIN) / (box[2] - box[0]),
            ((height or drawing.height) - TITLE - 2 * MARGIN) / (box[3] - box[1]),
        )
        self.words(title, (left + MARGIN, top + 22), "head")

    def place(self, point):
        return (
            self.left + MARGIN + (point[0] - self.box[0]) * self.scale,
            self.top + TITLE + MARGIN + (self.box[3] - point[1]) * self.scale,
        )

    def put(self, element):
        self.drawing.elements.append(element)

    def path(self, rings, kind, places=None):
        """Rings of points, or of places on the drawing."""
        found = [[self.place(point) for point in ring] for ring in rings] if places is None else places
        text = "".join("M" + "L".join(f"{x:.1f},{y:.1f}" for x, y in ring) + "Z" for ring in found)
        self.put(f'<path class="{kind}" fill-rule="evenodd" d="{text}"/>')

    def polygon(self, polygon, kind="", has_arrows=False):
        """A polygon, filled as its kind is, with its border, and with its edges as arrows where that is asked for."""
        for each in (kind, "shape") if kind else ("shape",):
            self.path(rings_of(polygon), each)
        for a, b in polygon if has_arrows else ():
            self.arrow(a, b)

    def line(self, a, b, kind, beyond=0.0):
        """A line, drawn longer at both ends by so many times its length."""
        (ax, ay), (bx, by) = self.place(a), self.place(b)
        dx, dy = beyond * (bx - ax), beyond * (by - ay)
        self.put(f'<line class="{kind}" x1="{ax - dx:.1f}" y1="{ay - dy:.1f}" x2="{bx + dx:.1f}" y2="{by + dy:.1f}"/>')

    def arrow(self, a, b, kind="arrow", aside=5.0):
        """An edge as an arrow, moved to its left, and shortened at both ends."""
        (ax, ay), (bx, by) = self.place(a), self.place(b)
        length = math.hypot(bx - ax, by - ay) or 1
        ux, uy = (bx - ax) / length, (by - ay) / length
        short = min(9.0, length / 5) if aside else 0
        ax, ay, bx, by = (
            ax + uy * aside + ux * short,
            ay - ux * aside + uy * short,
            bx + uy * aside - ux * short,
            by - ux * aside - uy * short,
        )
        self.put(f'<line class="{kind}" x1="{ax:.1f}" y1="{ay:.1f}" x2="{bx:.1f}" y2="{by:.1f}"/>')
        tip = [
            (bx, by),
            (bx - 8 * ux - 3.2 * uy, by - 8 * uy + 3.2 * ux),
            (bx - 8 * ux + 3.2 * uy, by - 8 * uy - 3.2 * ux),
        ]
        self.path([], "tip" if kind == "arrow" else "dot", [tip])

    def dot(self, point, text="", shift=(7, -6)):
        x, y = self.place(point)
        self.put(f'<circle class="dot" cx="{x:.1f}" cy="{y:.1f}" r="3.5"/>')
        self.words(text, (x + shift[0], y + shift[1]))

    def words(self, text, place, kind="words"):
        if text:
            self.put(f'<text class="{kind}" x="{place[0]:.1f}" y="{place[1]:.1f}">{text}</text>')

    def flat(self, flat, inside):
        """A flat, with its middle point moved away from a point inside, so that it can be seen."""
        a, middle, b = sorted(flat)
        (ax, ay), (mx, my), (bx, by) = map(self.place, (a, middle, b))
        far = 10 / math.hypot(bx - ax, by - ay) * (1 if audit.orient(a, b, inside) > 0 else -1)
        self.path([], "flat", [[(ax, ay), (mx - far * (by - ay), my + far * (bx - ax)), (bx, by)]])


class Drawing:
    def __init__(self, height):
        self.height, self.elements = height, []

    def panel(self, title, box, part=0, parts=1):
        return Panel(self, title, box, part * WIDTH / parts, WIDTH / parts)

    def text(self):
        head = (
            f'<svg xmlns="http://www.w3.org/2000/svg" viewBox="0 0 {WIDTH} {self.height}" width="{WIDTH}"'
            f' height="{self.height}">'
        )
        lines = [
            head,
            f"<style>{STYLE}</style>",
            '<rect class="ground" width="100%" height="100%"/>',
            *self.elements,
            "</svg>",
        ]
        return "\n".join(lines) + "\n"


def rings_of(polygon):
    """The points of each ring: where an edge does not go on from the last one, another ring begins."""
    rings, last = [], None
    for a, b in polygon:
        if a != last:
            rings.append([])
        rings[-1].append(a)
        last = b
    return rings


def crossings(polygon, point):
    """What each edge that a way to the right meets adds to the count, from left to right: 1 where it goes up, -1
    where it goes down."""
    found = []
    for a, b in polygon:
        low, high, sign = (a, b, 1) if a[1] < b[1] else (b, a, -1)
        if low[1] <= point[1] < high[1] and audit.orient(low, high, point) > 0:
            found.append((low[0] + (high[0] - low[0]) * (point[1] - low[1]) / (high[1] - low[1]), sign))
    return [sign for _, sign in sorted(found)]
