"""What `lpis` refuses: every fault in place of the first, and each refusal in words.

In comes a line `refused ..` with the folder that it is of, or a folder alone. Out come sentences, identifiers of
the source, polygons of the land in question, and the faults of all rows and parcels.

`fault_search.find` asks `lpis cut` about cells of a release (`trial_cuts`), after the rows by themselves
(`row_faults`), and `fault_places` gives each fault its land. `explanation.Explained` puts one refusal into words;
`country_explanation` and `group_explanation` have those of countries and of marked splits and merges.
"""
