"""The two years of examples/country-years as countries of three regions, their rows of lineage dealt out, for
scripts that starve, stop or cut one."""

import pathlib

TOP = pathlib.Path(__file__).resolve().parents[2]
EXAMPLE = TOP / "examples" / "country-years"
PLAN = (EXAMPLE / "country.txt").read_text(encoding="ascii")
# Of each year the parcels of the regions, and the rows of their tables of lineage.
REGIONS = {
    "2024": {"west": "hill ford mill lane croft", "southeast": "ford mill weir", "northeast": "lane heath"},
    "2025": {"west": "hill ford-1 lane", "southeast": "ford-2 weir-1 weir-2 lane", "northeast": "lane moor"},
}
HEAD = "old,new,exact"
ROWS = {
    "2024": {},
    "2025": {
        "west": ["croft,,", "ford,ford-1,1"],
        "southeast": ["weir,weir-1,", "weir,weir-2,", "ford,ford-2,1"],
        "northeast": ["mill,lane,1", "heath,moor,"],
    },
}


def regions_of(folder):
    """The names of a country's regions, in their order."""
    return [
        line.split()[1]
        for line in pathlib.Path(folder, "country.txt").read_text(encoding="ascii").splitlines()
        if line.startswith("region ")
    ]


def begin(folder, lpis):
    """Both years in a folder, the first one published there, and the blocks of the second; `lpis` runs the program."""
    for year in REGIONS:
        write(folder / year, year, lambda region: lpis("cut", region, region / "cert.txt"))
    lpis("publish-country", folder / "years.db", 2024, folder / "2024")
    lpis("exact-country", folder / "years.db", folder / "2025", folder / "exact.txt")


def write(folder, year, cut):
    """Writes the country of a year into a folder that is not there; `cut` makes the certificate of a region's
    folder."""
    folder.mkdir()
    (folder / "country.txt").write_text(PLAN, encoding="ascii")
    classes = (EXAMPLE / year / "classes.csv").read_text(encoding="ascii")
    (folder / "classes.csv").write_text(classes, encoding="ascii")
    for region, names in REGIONS[year].items():
        (folder / region).mkdir()
        (folder / region / "classes.csv").write_text(classes, encoding="ascii")
        for table, column in (("parcels.csv", 0), ("covers.csv", 1)):
            head, *rows = (EXAMPLE / year / table).read_text(encoding="ascii").splitlines()
            mine = [row for row in rows if row.split(",")[column] in names.split()]
            (folder / region / table).write_text("\n".join([head, *mine, ""]), encoding="ascii")
        (folder / region / "lineage.csv").write_text(
            "\n".join([HEAD, *ROWS[year].get(region, []), ""]), encoding="ascii"
        )
        cut(folder / region)
    return folder
