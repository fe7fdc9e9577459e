"""Measures of shapes: boxes that meet, areas, widths, whether a shape is valid, and edges in arrays.

In come shapes as arrays of doubles or as GEOS has them. Out come numbers and yes or no; no shape is changed here.

The layer above asks `boxes.Boxes` which boxes meet, `ring_areas` for many areas at once, `widths` for the diameter
of the largest circle within a shape, `validity` what GEOS says of well-known binary, and `noding` for the edges of
shapes, the cells that they lie in and a network of edges between numbered corners. By numpy and Shapely: who starts
without them imports these modules where they are wanted.
"""
