"""Systems of coordinates: whether they are a plane in metres, and whether areas in that plane are those of the land, by
pyproj. Without it zones of UTM and Gauss-Krueger are known by their numbers, degrees by how their definition begins,
and any other system is refused with what to install."""

from __future__ import annotations

import contextlib
import importlib
import importlib.util
import itertools
import math
import re
import statistics
from dataclasses import dataclass
from typing import Any

WITHOUT_PREFIX = {4647: 25832, 5649: 25831, 5650: 25833}
ZONES = {
    **{number: number - 25800 for number in range(25828, 25839)},
    **{first + zone: zone for first in (32600, 32700) for zone in range(1, 61)},
}
TRUE = {*ZONES, *WITHOUT_PREFIX, *range(31466, 31470)}  # numbers of planes in metres with true areas
APART = 0.02  # of an area of land, by which it may be another in a plane with true areas
FIRST = 1000  # boxes, of which the middle one lies where the land does
DEGREES = re.compile(
    r"\s*(?:COMPD_CS\s*\[[^\[]*|COMPOUNDCRS\s*\[[^\[]*)?(?:GEOGCS|GEOGCRS|GEOGRAPHICCRS)\b", re.IGNORECASE
)
LACKING = "pyproj is needed to tell what it is, and is not there: install the package python3-pyproj (Debian, Ubuntu)"
UNKNOWN = "there is no definition of it that PROJ can use, so whether its areas are those of the land is not known"


@dataclass
class System:
    """A system of coordinates."""

    number: int | None = None  # of EPSG
    is_degrees: bool = False
    why: str = ""  # what it is in place of a plane in metres with true areas
    plane: Any = None  # pyproj's projection, whose areas are not true

    def __str__(self):
        return f"EPSG:{self.number}" if self.number else "degrees" if self.is_degrees else "a system without a number"

    @property
    def is_unknown(self):
        return "in no row" in self.why or UNKNOWN in self.why

    def suits(self):
        return not self.why

    def at(self, place):
        """Why it does not suit, with how much too large areas are at a place."""
        scale = scale_at(self.plane, *self.plane(*place, inverse=True)) if self.plane and place else math.nan
        return f"{self.why}: there about {scale:.2f} times as large" if math.isfinite(scale) else self.why


def library():
    """pyproj, which takes a third of a second to load, where it is there."""
    return importlib.import_module("pyproj") if importlib.util.find_spec("pyproj") else None


def of_definition(number, text, boxes=()):
    """The system that a definition names (well-known text of either version), or its number where the definition is
    none. `boxes` are those of the land's shapes, looked at where neither has an area of its own."""
    pyproj = library()
    if pyproj is None:
        is_degrees = bool(DEGREES.match(text))
        return System(number, is_degrees, "degrees" if is_degrees else "" if number in TRUE else LACKING)
    for read, source in ((pyproj.CRS.from_wkt, text), (pyproj.CRS.from_epsg, number)):
        with contextlib.suppress(pyproj.exceptions.ProjError):
            if source:
                return judged(number, read(source), boxes)
    return System(number, why=UNKNOWN)


def of_number(number):
    """The system of a number of EPSG."""
    return of_definition(number, "")


def judged(number, system, boxes):
    """A system of pyproj in words."""
    system = system.source_crs if system.is_bound else system
    system = system.sub_crs_list[0] if system.is_compound else system
    if system.is_geographic:
        return System(number, True, "degrees")
    if system.is_geocentric:
        return System(number, why="metres from the middle of the earth, no plane")
    unit = system.axis_info[0].unit_conversion_factor if system.axis_info else math.nan
    if not abs(unit - 1) <= 1e-9:
        return System(
            number,
            why=f"units of {unit:.15g} m" if math.isfinite(unit) and unit else "a system whose unit is not defined",
        )
    return System(number) if system.is_engineering else of_plane(number, system, boxes)


def zone_at(system, place):
    """The number of the zone of UTM in which a place of a system lies, in Europe by its own datum; None where that
    is not known."""
    pyproj = library()
    if pyproj is None or system.number is None or place is None:
        return None
    with contextlib.suppress(pyproj.exceptions.ProjError):
        east, north = pyproj.Transformer.from_crs(system.number, 4326, always_xy=True).transform(*place)
        if not (-180 <= east <= 180 and -80 <= north <= 84):
            return None
        zone = int((east + 180) // 6) % 60 + 1
        is_of_europe = 28 <= zone <= 38 and 34 <= north <= 72
        return (25800 if is_of_europe else 32600 if north >= 0 else 32700) + zone
    return None


def of_plane(number, system, boxes):
    plane = library().Proj(system)
    scales = [
        scale_at(plane, *at)
        for at in places_of(system) or [plane(*corner, inverse=True) for corner in corner_of(boxes)]
    ]
    if all(abs(scale - 1) <= APART for scale in scales):
        return System(number)
    method = system.coordinate_operation.method_name.lower() if system.coordinate_operation else "none is named"
    return System(
        number, False, f"its unit is the metre, but areas in its projection ({method}) are not those of the land", plane
    )


def places_of(system):
    """The middle and the corners of the area in which a system is used, in degrees; none where that is not known."""
    number = system.to_epsg(min_confidence=25)
    area = system.area_of_use or number and library().CRS.from_epsg(number).area_of_use
    if not area:
        return []
    west, south, east, north = area.bounds
    middle = (west + (east + 360 * (east < west))) / 2, (south + north) / 2
    return [middle, (west, south), (west, north), (east, south), (east, north)]


def corner_of(boxes):
    """About where the first of some boxes lie; nothing where there is none."""
    corners = [box[:2] for box in itertools.islice(boxes, FIRST)]
    return [tuple(statistics.median_low(side) for side in zip(*corners))] if corners else []


def scale_at(plane, east, north):
    """How many times as large as on the ellipsoid an area is at a place in degrees from Greenwich."""
    meridian = plane.crs.prime_meridian
    return plane.get_factors(
        east - math.degrees(meridian.longitude * meridian.unit_conversion_factor), north
    ).areal_scale
