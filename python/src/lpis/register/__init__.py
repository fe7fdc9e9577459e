"""A year into a register: what is looked at before, the log, and the second checker.

In come a register, a year, and the folder of a release or a country that has a yes. Out come the copy of the
register as it was, the publication by `lpis`, and a line of the log, whose digest covers the line before.

`publication_steps` has what a release and a country share, `country_publication` and `country_years` a country's
year, `year_source` the way from a source, `ledger` the log, `second_checker` what audit/ says of the same, `guests`
what others have put into a register's file. Only `lpis` writes the register.
"""
