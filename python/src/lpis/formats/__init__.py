"""Tables, shapes and codes as bytes and texts: what docs/FORMATS.md says, and what goes out for people.

In come bytes: tables of any size, well-known texts and binaries, lines that `lpis` printed, registers. Out come
rows, polygons in whole millimetres or in doubles, the words of codes, and layers and pictures.

The layer above reads tables by `byte_tables` (small ones) or `table_streams` (any), shapes of tables by `polygons`,
those of sources by `wkb`; it writes for spreadsheets by `guarded_csv`, for QGIS by `geopackage` and `drawing`.
`refusal_line` takes a refusal apart, `codes` and `sentences` have its words. `tile_plan` is the tiling of a
country, `register_rows` what a register holds. Nothing here measures or decides.
"""
