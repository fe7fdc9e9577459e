"""Two years of parcels: what became of each identifier, and what changed beyond the bounds.

In come the parcels of two years, as folders, countries or a register's shapes, and a table of lineage. Out come
proposed rows, faults of a table, parcels that moved, and rows of change.

`two_years` keeps both years in databases without a name, so that a country of any size takes little memory;
`successions` counts splits and merges; `proposals`, `lineage_faults` and `moved_parcels` are what `tools/lineage`
answers; `year_comparison` and `release_differences` are what `tools/year` and `tools/report` ask.
`parcel_questions` asks by many processes, and gives the same bytes as one.
"""
