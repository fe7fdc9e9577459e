"""The areas of many shapes at once, by numpy."""

from __future__ import annotations

import numpy

from .noding import Rings

PART = 1 << 16  # shapes at once
MOST = 1e16  # square metres: more than the range of the tables has


def areas_of(founds):
    """The square metres of many shapes by their points, each shell without its holes; 0 where there is none, and of
    coordinates that no map has."""
    areas = []
    for start in range(0, len(founds), PART):
        areas += areas_of_part(founds[start : start + PART])
    return areas


def areas_of_part(founds):
    rings = Rings(founds)
    if not len(rings.sizes):
        return [0.0] * len(founds)
    with numpy.errstate(over="ignore", invalid="ignore"):
        # about the first point of each ring, so that long coordinates keep their last digits
        x, y = (rings.points - numpy.repeat(rings.points[rings.starts], rings.sizes, axis=0)).T
        doubled = numpy.append(x[:-1] * y[1:] - x[1:] * y[:-1], 0.0)
        doubled[rings.starts[1:] - 1] = 0.0  # from the last point of a ring to the first of the next
        areas = numpy.bincount(
            rings.owners,
            numpy.where(rings.holes, -0.5, 0.5) * numpy.abs(numpy.add.reduceat(doubled, rings.starts)),
            len(founds),
        )
    return numpy.where(numpy.abs(areas) < MOST, areas, 0.0).tolist()
