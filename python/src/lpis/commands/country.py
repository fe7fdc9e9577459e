"""A whole country: splits a nation's source, or tables of any size, into regions; makes their certificates, many at
once, has the country checked, and publishes a year.

    tools/country prepare LAND DIR [--accept [KIND,..]] [--accept-from FILE].. [--classes FILE] [--epsg N] [--name
        WHAT=FOUND].. [--identifiers FILE] [--previous FOLDER] [--between METRES] [--keep COLUMN]..
                          [--tables FOLDER] [--workers N] [--snakemake] [--profile NAME] [--lineage FILE] [--parcels N]
                              [--covers N] [--points N] [--anew]
    tools/country split SOURCE DIR [--lineage FILE] [--parcels N] [--covers N] [--points N] [--anew]
    tools/country cut DIR [--jobs N] [--snakemake] [--profile NAME]
    tools/country check DIR [--parcels]
    tools/country status DIR
    tools/country publish DB YEAR DIR [--lineage FILE] [--source LAND] [--new] [--year-anyway] [--register-anyway]
        [--source-anyway] [--previous FOLDER] [--jump PERCENT[,PERCENT]] [--accept-from FILE]..

prepare: tests, mends and rounds a source as tools/prepare does, with the same options, findings and coordinates, and
splits the tables. Rows are read in parts and borders are rounded cell by cell, by one process for each processor, or by
Snakemake: a parcel's coordinates depend only on the rows next to it. DIR/.cells keeps what a run made: a run that was
stopped goes on there, after a correction of some rows only their cells and the tables of their regions are made again,
and where nothing changed the run says so. Land that nobody has between parcels is joined across cells, up to --between
METRES, or else a metre. prepared.csv, identifiers.csv, report.csv, report.geojson, between.geojson, balance.csv and
findings.gpkg, which has the polygons of what was found, are those of the whole country.

split: SOURCE has parcels.csv, covers.csv and classes.csv, as tools/prepare writes them. The land is cut into tiles
until no region has over 60,000 rows of parcels, 190,000 of covers or 1,900,000 points of covers. Each row is written to
the folder of each tile that its parcel's box meets. If DIR has a tiling already, it is used again, and files that would
not change keep their time: after a change in a district only its folders need new certificates. The rows of
lineage.csv, of SOURCE or by --lineage, are given to the regions in their order: the first 200,000 to the first region.
The tables of the others have only the header.

cut: writes DIR/Makefile and DIR/Snakefile, and by one of them runs `lpis cut` on each region whose tables are newer
than its certificate. A yes needs no certificates, but comes sooner with them, since many are made at once. The faults
of a region that is refused are reported with the identifiers of the source, and are in DIR/faults.geojson.

check: runs `lpis country DIR`, and then compares the counts that it reports with those of the source. Only its yes is
proved: it refuses a wrong tiling, a missing parcel and a wrong certificate.

publish: runs cut and check, copies the register (DB.before-YEAR), runs `lpis exact-country` where rows are marked and
then `lpis publish-country`, and adds a line to DB.log, as tools/year does of a release. With --lineage it first gives
the regions the rows of FILE. DIR gets exact.txt and published-YEAR.txt, and DIR/years/YEAR all that was published,
which is a country itself and stays when DIR gets the next year. It stops before anything is done if the counts are not
those of the source, if DIR has none to compare them with (split.txt), and where tools/year would: `tools/year --help`
has its options. --source LAND has the second checker test, before anything is done, that the tables of all regions say
the same as their source LAND at each point; options of audit/source.py follow LAND in the same quoted text.

prepare and split first mark DIR as unfinished, and at the end as finished. If the last run in DIR was refused or
stopped, the tables there are from an earlier run: cut, check, publish and all other tools refuse them, and say why.
status says what DIR is: the run that made it, its source with the sha256, which steps are done, what stops, what was
published, and what changed since. publish also stops if the source changed since the tables were made from it, and if
the tables are, byte for byte, those of the last year.

Only one run at a time works in DIR. A step of more than ten seconds shows how far it is and the time left, unless
--quiet is given.

Status: 0 done or yes; 1 there is something to look at; for check and publish that of lpis; 64 a wrong option, or a file
that cannot be used.
"""

import contextlib
import gc
import os
import sys

from ..country import engines, region_split, tile_cuts
from ..formats import table_streams
from ..preparation import acceptance, recipe, source_options
from ..register import country_publication, publication_steps, second_checker, standing_lines, table_standing
from ..source import source_settings
from ..system import command_line, files, program, progress, shapely_there


say = recipe.teller("country")


def add_limits(command):
    command.add_argument(
        "--lineage", metavar="FILE", help="the table of lineage; without it lineage.csv of SOURCE, where it is there"
    )
    command.add_argument(
        "--parcels", metavar="N", type=int, default=60_000, help="the most rows of parcels of a region"
    )
    command.add_argument("--covers", metavar="N", type=int, default=190_000, help="the most rows of covers of a region")
    command.add_argument(
        "--points",
        metavar="N",
        type=int,
        default=1_900_000,
        help="the most points of covers of a region, since a certificate has at most 2,000,000 triangles",
    )
    command.add_argument("--anew", action="store_true", help="make a new tiling, though DIR has one")


def add_prepare(commands):
    prepare = commands.add_parser("prepare", help="from a source to the regions")
    prepare.add_argument("land", metavar="LAND", help="the source: a GeoPackage, a folder, or what ogr2ogr reads")
    prepare.add_argument("out", metavar="DIR", help="the folder of the country")
    source_options.add_options(prepare)
    add_limits(prepare)
    prepare.add_argument(
        "--previous",
        metavar="FOLDER",
        help="last year's tables, or country: borders whose source did not change stay as they are there",
    )
    prepare.add_argument(
        "--tables",
        metavar="FOLDER",
        help="put the tables of the whole country there too, as tools/lineage and split take them",
    )
    prepare.add_argument(
        "--workers", metavar="N", type=int, help="how many processes round at once; without it one for each processor"
    )
    prepare.add_argument(
        "--snakemake", action="store_true", help="run the jobs by Snakemake in place of processes of its own"
    )
    prepare.add_argument("--profile", metavar="NAME", help="a profile of Snakemake, such as DIR/slurm")
    return prepare


def add_split(commands):
    split = commands.add_parser("split", help="write the regions of a source")
    split.add_argument("source", metavar="SOURCE", help="the folder of the tables")
    split.add_argument("out", metavar="DIR", help="the folder of the country")
    add_limits(split)
    return split


def add_certified(commands):
    """What is done of a country that is split."""
    cut = commands.add_parser("cut", help="make the certificates of the regions")
    cut.add_argument("folder", metavar="DIR")
    check = commands.add_parser("check", help="run lpis country")
    check.add_argument("folder", metavar="DIR")
    check.add_argument("--parcels", action="store_true", help="print a line for each parcel too")
    status = commands.add_parser("status", help="say what a folder is: its source, its steps, what stops")
    status.add_argument("folder", metavar="DIR")
    publish = commands.add_parser("publish", help="make the certificates, check the country, and publish it")
    publish.add_argument("register", metavar="DB")
    publish.add_argument("year", metavar="YEAR", type=int)
    publish.add_argument("folder", metavar="DIR")
    publish.add_argument(
        "--lineage", metavar="FILE", help="first give the rows of this table of lineage to the regions"
    )
    second_checker.add_source(publish)
    publication_steps.add_options(publish)
    for command in (cut, publish):
        command.add_argument(
            "--jobs", metavar="N", type=int, help="how many regions at once; without it one for each processor"
        )
        command.add_argument("--snakemake", action="store_true", help="run them by Snakemake in place of make")
        command.add_argument(
            "--profile", metavar="NAME", help="a profile of Snakemake, such as DIR/slurm, which is written there"
        )
    for command in (cut, check, publish):
        command.add_argument(
            "--lpis",
            metavar="COMMAND",
            default=os.environ.get("LPIS", ""),
            help="the command that runs lpis (or LPIS in the environment)",
        )


def arguments():
    parser = command_line.Parser("country", __doc__)
    commands = parser.add_subparsers(
        dest="command",
        required=True,
        parser_class=command_line.Line,
        metavar="{prepare,split,cut,check,publish,status}",
    )
    prepare, split = add_prepare(commands), add_split(commands)
    add_certified(commands)
    for command in set(commands.choices.values()):
        command.add_argument("--quiet", action="store_true", help="show no progress")
    said = acceptance.parsed(parser, sys.argv[1:]) if sys.argv[1:2] == ["prepare"] else parser.parse_args()
    if said.command in ("prepare", "split"):
        if min(said.parcels, said.covers, said.points) < 1:
            parser.error("limits are 1 or more")
        said.most = tile_cuts.Most(said.parcels, said.covers, said.points)
    if said.command in ("cut", "publish") and said.jobs is not None and said.jobs < 1:
        parser.error("--jobs is 1 or more")
    if said.command == "prepare":
        said.names = source_options.names_of(prepare, said)
        if said.workers is not None and said.workers < 1:
            prepare.error("--workers is 1 or more")
        taken = [os.path.realpath(path) for path in (said.land, said.out, said.previous) if path]
        if said.tables and (
            os.path.realpath(said.tables) in taken
            or os.path.realpath(said.tables).startswith(os.path.join(taken[1], ""))
        ):
            prepare.error("--tables names a folder of its own")
    if said.command == "split" and os.path.realpath(said.source) == os.path.realpath(said.out):
        split.error("DIR is SOURCE: name another folder for the country")
    return said


def split(said):
    """Splits a source. Refused, it leaves why in a folder that was there, and makes none."""
    table_standing.look(said.source)
    is_new = not os.path.lexists(said.out)
    making = table_standing.begin(said.out, said.source, {})
    try:
        making.read()
        told = region_split.split(
            table_streams.Folder(said.source), said.out, said.most, said.anew, say, said.lineage, making=making
        )
    except table_streams.Trouble as trouble:
        making.refuse(trouble.reasons[0])
        raise
    finally:
        if is_new:
            table_standing.leave(said.out)
    for line in told:
        print(line)
    return 0


def prepare(said):
    """The whole way of a source, in a Python that has Shapely."""
    gc.disable()  # rows and shapes make no circles
    table_standing.mark(said.out, said.land, said.names, said.classes, said.previous, said.tables)
    shapely_there.go_on("country")
    from ..country import country_preparation

    source_settings.complete(said, said.names, say)
    with contextlib.closing(country_preparation.Run(said, said.names, say)) as run:
        status = run.go()
    source_settings.keep(said, said.names, say)
    return status


def work(folder, *words):
    """A worker of prepare, which that starts: no command of people."""
    shapely_there.go_on("country")
    from ..country import jobs

    return jobs.work(folder, words)


def main():
    if sys.argv[1:2] == ["job"] and sys.argv[2:]:
        return work(*sys.argv[2:])
    said = arguments()
    progress.Quiet.is_quiet = said.quiet
    try:
        if said.command == "prepare":
            return prepare(said)
        if said.command == "split":
            return split(said)
        if said.command == "status":
            lines, status = standing_lines.told(said.folder)
            print("\n".join(lines))
            return status
        if said.command == "publish":
            shapely_there.go_on_if_there()
        command = program.command(said.lpis)
        if said.command != "check" and os.path.isdir(said.folder):
            files.alone(said.folder)
        table_standing.look(said.folder)
        if said.command == "cut":
            return engines.cut(command, said, say)
        return (
            engines.check(command, said, say)
            if said.command == "check"
            else country_publication.publish(command, said, say)
        )
    except table_streams.Trouble as trouble:
        for reason in trouble.reasons:
            print(reason)
        return 1


def start():
    command_line.run("country", main)


if __name__ == "__main__":
    start()
