"""The well-known text of shapes, exactly: a coordinate is written with the shortest decimals that give the same number.

Polygons of Shapely are read by their well-known binary, many at once. Whatever else has `__geo_interface__`, and what
is unusual about a polygon of Shapely (nothing in it, heights), goes through that. Both ways give the same texts.
"""

from __future__ import annotations

import functools
import importlib
import itertools
import struct
from decimal import Decimal
from typing import Any, Iterator, List, Mapping, Optional, Sequence

from . import coordinates

DEPTHS = {"POLYGON": 2, "MULTIPOLYGON": 3}
QUICK = ("Polygon", "MultiPolygon")  # types of Shapely that are read by their binary
HEAD, COUNT = struct.Struct("<BII"), struct.Struct("<I")
LITTLE_ENDIAN, POLYGON, MULTIPOLYGON = 1, 3, 6  # of well-known binary, in a plane
AT_ONCE = 2_000  # shapes
Members = List[List[bytes]]  # of a shape, each with its rings, each the bytes of its points


def texts_of(shapes: Sequence[Any]) -> list[str]:
    """The well-known text of each shape, as `text_of` gives it."""
    texts: list[str] = []
    for begin in range(0, len(shapes), AT_ONCE):
        some = shapes[begin : begin + AT_ONCE]
        blobs = iter(binaries_of([shape for shape in some if is_quick(shape)]))
        found = [members_of(next(blobs)) if is_quick(shape) else None for shape in some]
        rings = iter(
            coordinates.texts_of([ring for members in found if members for member in members for ring in member])
        )
        texts += [
            text_of(shape) if members is None else text_of_members(shape, members, rings)
            for shape, members in zip(some, found)
        ]
    return texts


def text_of(shape: Any) -> str:
    """The well-known text of a shape; of what is no polygon its kind, which is refused."""
    if shape is None or isinstance(shape, str):
        return shape or ""
    found = getattr(shape, "__geo_interface__", shape)
    kind = str(found.get("type", "")).upper() if isinstance(found, Mapping) else str(found)
    depth = DEPTHS.get(kind)
    return kind if depth is None else f"{kind} {nested(found['coordinates'], depth)}"


def nested(parts: Any, depth: int) -> str:
    """Brackets about points, members or rings."""
    if len(parts) == 0:
        return "EMPTY"
    if depth == 0:
        return " ".join(map(number, parts))
    return f"({','.join(nested(part, depth - 1) for part in parts)})"


def number(value: Any) -> str:
    """The shortest decimals that give the same number, without an exponent."""
    if not isinstance(value, (float, int)) and hasattr(value, "item"):
        value = value.item()
    if isinstance(value, float):
        return coordinates.text_of(value)
    word = str(value)
    return format(Decimal(word), "f") if isinstance(value, Decimal) and ("e" in word or "E" in word) else word


# Polygons of Shapely.


def is_of_shapely(shape: Any) -> bool:
    """Whether it is a shape of Shapely itself, and of no class that somebody made of one of its own."""
    kind: Any = type(shape)
    return bool(is_kind_of_shapely(kind))


def is_quick(shape: Any) -> bool:
    """Whether a shape is read by its binary."""
    return type(shape).__name__ in QUICK and is_of_shapely(shape)


@functools.lru_cache(maxsize=100)
def is_kind_of_shapely(kind: Any) -> bool:
    return str(kind.__module__).partition(".")[0] == "shapely" and hasattr(kind, "__geo_interface__")


def binaries_of(shapes: list[Any]) -> list[bytes]:
    """The well-known binary of shapes of Shapely, with their heights."""
    if not shapes:
        return []
    library = importlib.import_module("shapely")
    if hasattr(library, "to_wkb"):
        found: list[bytes] = library.to_wkb(shapes, byte_order=LITTLE_ENDIAN).tolist()
        return found
    geos = importlib.import_module("shapely.geos")  # of 1.8: its own `.wkb` makes a writer for each shape
    write = geos.WKBWriter(geos.lgeos, output_dimension=3, big_endian=False).write
    return [write(shape) for shape in shapes]


def members_of(blob: bytes) -> Optional[Members]:
    """The rings of each polygon, of plane points and none of them empty; None where it is another shape."""
    order, kind, count = HEAD.unpack_from(blob)
    if order != LITTLE_ENDIAN or kind not in (POLYGON, MULTIPOLYGON):
        return None
    if kind == POLYGON:
        rings, at = rings_of(blob, HEAD.size, count)
        return [rings] if rings else None
    at, members = HEAD.size, []
    for _ in range(count):
        order, kind, count = HEAD.unpack_from(blob, at)
        if (order, kind) != (LITTLE_ENDIAN, POLYGON):
            return None
        rings, at = rings_of(blob, at + HEAD.size, count)
        members.append(rings)
    return members if members and all(members) else None


def rings_of(blob: bytes, at: int, count: int) -> tuple[list[bytes], int]:
    """So many rings that begin at a byte, and the byte behind them; no rings where one of them is empty."""
    rings = []
    for _ in range(count):
        start = at + COUNT.size
        at = start + coordinates.POINT * int(COUNT.unpack_from(blob, at)[0])
        rings.append(blob[start:at])
    return rings if all(rings) else [], at


def text_of_members(shape: Any, members: Members, rings: Iterator[str]) -> str:
    """The text of a shape whose rings are the next of some texts."""
    parts = [f"(({'),('.join(itertools.islice(rings, len(member)))}))" for member in members]
    return f"POLYGON {parts[0]}" if type(shape).__name__ == "Polygon" else f"MULTIPOLYGON ({','.join(parts)})"
