"""A land as an agency has it: files in, rows with shapes out.

In comes a GeoPackage, whatever ogr2ogr reads, or a folder of spreadsheets. Out come layers of rows: identifiers as
they stand there, shapes in doubles as well-known binary, and notes on what was read in another way than it was
written.

The layer above calls `land.read` for the whole, or the readers of parts; `coordinate_systems` says whether a system
is a plane in metres, `percentages` what shares of classes mean, `file_digests` by what a source is known,
`output_names` what the folder of a source is called. Nothing is tested here that a later row could change.
"""
