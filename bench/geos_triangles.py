#!/usr/bin/python3
"""Triangulates the pieces of a release by GEOS through Shapely: geos_triangles.py FOLDER.

Needs Shapely for /usr/bin/python3 (Debian: python3-shapely), with constrained Delaunay triangulation: Shapely 2.1 has a
function for it, Shapely 1.8 stands on a GEOS which has it from 3.10 on and is called through its C interface. Prints
the processor seconds of the triangulation alone.
"""

import csv
import os
import sys
import time

from common import TABLES


def of_shapely_1():
    """What reads texts and triangulates, through the C interface of GEOS 3.10 and later."""
    import ctypes

    from shapely import geos, wkt
    from shapely.geometry.base import geom_factory

    call = geos._lgeos.GEOSConstrainedDelaunayTriangulation_r
    call.argtypes, call.restype = [ctypes.c_void_p, ctypes.c_void_p], ctypes.c_void_p
    return wkt.loads, lambda polygon: geom_factory(call(geos.lgeos.geos_handle, polygon._geom))


def of_shapely_2():
    import shapely

    return shapely.from_wkt, shapely.constrained_delaunay_triangles


def peer():
    for found in (of_shapely_2, of_shapely_1):
        try:
            return found()
        except (ImportError, AttributeError):
            continue
    sys.exit("no Shapely with constrained triangulation was found")


def main():
    csv.field_size_limit(sys.maxsize)
    read, triangulate = peer()
    with open(os.path.join(sys.argv[1], TABLES[1]), newline="", encoding="ascii") as table:
        polygons = [read(row["wkt"]) for row in csv.DictReader(table)]
    start = time.process_time()
    for polygon in polygons:
        triangulate(polygon)
    print(time.process_time() - start)


main()
