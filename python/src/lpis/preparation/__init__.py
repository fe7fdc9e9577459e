"""From a source to tables, or to all that is wrong with it: tests, repairs, and the report of what changed.

In come the layers of a source, and what somebody accepts. Out come the tables of a release, or none of them; each
finding with its row, area, width and place (`prepared.csv`, `findings.gpkg`), what was settled (`report.csv`), and
the balance of land, by class.

`source_run` takes a source into a store: `source_tests` finds and mends rows before the rounding, `tested_source` what
is wrong with all of them, `identifier_passes` names them. `conflicts` compares the rounded map with the source,
`row_outcomes` says what became of each row, `loss_report` and `land_balance` tell it. `preparation_run.Run` is the
whole way, which a command calls: over the store, the parts and the cells of `country`. A country's run is the same but
for its end.
"""
