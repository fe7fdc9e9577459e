"""From a source to a yes, or to a picture of what is wrong: what `tools/check` does.

In comes a source. Out come a folder with tables and areas where the answer is yes, and with a page and `findings.gpkg`
where it is not: everything takes its place at the end, all of it or nothing.

`release_checking.run` is the whole way of a release, by `preparation` and `lpis`; what has too many rows for one
goes by `country_checking`, which calls the commands of `tools/country`.
"""
