"""Parcels that kept their identifier and not their place: two that exchanged their names, a number given again to
other land. Wants Shapely."""

from .proposals import shape_of

HALF = 0.5


def words_of(name, before, after):
    """What is odd about a kept parcel's old and new shapes, or None."""
    shared = before.intersection(after).area
    apart = before.centroid.distance(after.centroid)
    size = max(
        side
        for shape in (before, after)
        for side in (shape.bounds[2] - shape.bounds[0], shape.bounds[3] - shape.bounds[1])
    )
    if shared == 0:
        return f"{name}: its old and its new shape share nothing; {apart:.0f} m apart"
    least = shared / min(before.area, after.area)
    if least < HALF:
        return f"{name}: its old and its new shape share {100 * least:.0f} percent of the smaller one"
    return f"{name}: its old and its new shape are {apart:.0f} m apart, and {size:.0f} m long" if apart > size else None


def between(names, old, new):
    """A line for each of some kept identifiers whose land changed for the most part."""
    return [line for name in names if (line := line_of(name, old, new))]


def line_of(name, old, new):
    """What is odd about one, or None."""
    before, after = old[name], new[name]
    if before is None or before == after:
        return None
    before, after = shape_of(before), shape_of(after)
    return words_of(name, before, after) if before.area > 0 and after.area > 0 else None
