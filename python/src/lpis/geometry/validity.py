"""Whether shapes are valid, by GEOS, of their well-known binary: as `shapely.wkb.loads(blob).is_valid` says, but
Shapely 1.8 makes an object of each for it."""

from __future__ import annotations

import ctypes

import shapely
from shapely import wkb as shapely_wkb

VALID = 1  # the answer of GEOS; 0 is no, and 2 that it could not tell


def tester():
    """A function that tells whether well-known binary is of a valid shape."""
    if hasattr(shapely, "from_wkb"):
        return lambda blob: bool(shapely.is_valid(shapely.from_wkb(blob)))
    from shapely import geos

    library, reader = geos.lgeos, geos.WKBReader(geos.lgeos)

    def is_valid(blob):
        shape = library.GEOSWKBReader_read(reader._reader, ctypes.c_char_p(blob), ctypes.c_size_t(len(blob)))
        if not shape:
            return shapely_wkb.loads(blob).is_valid  # which says what is wrong
        try:
            return library.GEOSisValid(shape) == VALID
        finally:
            library.GEOSGeom_destroy(shape)

    return is_valid
