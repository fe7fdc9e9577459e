"""One planar map in whole millimetres from a map in doubles.

In come pieces and parcels with valid shapes. Out come, for each, polygons whose borders meet at corners alone and
agree to the millimetre with those of all neighbours; which faces nobody has, and which two have.

`snap_rounding` makes the edges (Hobby; Guibas and Marimont), `left_edges` and `overlay` the faces between them and
who has each, `coverage` the map, `gaps` and `facing_borders` the land that nobody has. `border_distance` and
`rounded_polygons` say whether a border lies where it was. The layer above calls `coverage.Map`, and reads its
conflicts.
"""
