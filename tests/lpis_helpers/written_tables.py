"""The tables of a folder as `row_outcomes` wants them."""

from lpis.formats import polygons
from lpis_helpers.calls import records


def of_folder(folder):
    """A function that gives the rows of a table by its name: with their polygons, and their area to the last digit."""

    def rows_of(name):
        for record in records(folder, f"{name}.csv"):
            members = polygons.read(record["wkt"].encode())
            yield record, members, polygons.doubled(members) / 2_000_000

    return rows_of
