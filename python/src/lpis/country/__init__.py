"""A nation's source, in parts and cells, and its regions.

In comes a source of any size, or tables. Out come the folders of regions that tiles cut, with the same texts and
findings as one release of them would have; and their certificates.

`source_parts` reads and tests rows in parts, `row_store` keeps them in SQLite, `country_passes` does there what
needs all rows, `cell_rounding` rounds a cell with those beside it, `cell_results` puts cells together, `jobs` runs
many at once, `tile_cuts` and `region_split` make the regions, `engines` their certificates by make or Snakemake.
Commands call `country_preparation.Run`, `region_split.split`, `engines.cut` and `engines.check`.
"""
