"""From a source to the tables of a release, in one command. It tests everything first, and reports all of it at once,
by identifier.

    tools/prepare LAND OUT [--accept [KIND,..]] [--accept-from FILE].. [--classes FILE] [--epsg N] [--name WHAT=FOUND]..
        [--identifiers FILE]
                  [--previous FOLDER] [--between METRES] [--keep COLUMN].. [--quiet]

LAND is a GeoPackage, anything else that ogr2ogr reads, or a folder with parcels.csv and covers.csv as a spreadsheet
writes them (semicolons, UTF-16), each with a column wkt. It has the layers parcels (parcel) and covers (piece, parcel,
class), and may have a table classes (class, percent). Heights, arcs, zone numbers before eastings, other systems of
coordinates and names that are not valid identifiers are mended and reported. What would lose or change land (no shape,
a shape that crosses itself, degrees, an identifier twice, a piece without parcel, a parcel without pieces) is reported,
and no table is written; with --accept it is mended or left out, and reported. Then all borders are rounded together. An
overlap or a gap of two centimetres or more is settled only with --accept. Either all tables are written or none.

With --previous a border that did not change keeps the coordinates of last year's tables, to the millimetre: so a split
or a merge along corners that were there stays exact.

--accept accepts all findings, or the kinds that follow it; --accept-from accepts the rows of a copy of findings.csv
that have 1 in the column accepted, and the findings that they cause. --keep COLUMN adds a column of the source, such as
the district, to each row, so that each district gets its sheet and returns it. The run first marks OUT as unfinished:
if it ends without tables, the tables there are from an earlier run, and all tools refuse them.

OUT/findings.csv has a row for each finding that stops or is settled without asking, with a number that stays from run
to run and from year to year, and who accepted it. OUT/prepared.csv has all that the tests found, OUT/identifiers.csv
the names that were changed, OUT/report.csv and OUT/report.geojson what was settled or left out, OUT/between.geojson
land between parcels that nobody has, and OUT/balance.csv the balance of land, by class. OUT/findings.gpkg has a layer
for each kind of finding, with polygons of the land where the tables differ from the source; it is also written if the
run stops.

lpis.toml next to LAND keeps --name, --classes, --epsg, --between and --keep: the first run with --name writes it, and
later runs read it; options on the command line win over it. If no layer has the name, the only layer that has polygons
and these columns is used.

Status: 0 the tables are written; 1 there is something to look at; 64 a wrong option, a file that cannot be used, or no
layer or column of that name; 128 plus the number of the signal that stopped it.
"""

import contextlib
import gc
import sys

from ..preparation import acceptance, recipe, source_options
from ..register import table_standing
from ..source import source_settings
from ..system import command_line as of_line, memory, progress, shapely_there


def arguments():
    parser = of_line.Parser("prepare", __doc__)
    parser.add_argument("land", metavar="LAND", help="the source: a GeoPackage, a folder, or what ogr2ogr reads")
    parser.add_argument("out", metavar="OUT", help="the folder of the release")
    source_options.add_options(parser)
    parser.add_argument(
        "--previous", metavar="FOLDER", help="last year's tables: borders that did not change stay as they are there"
    )
    parser.add_argument("--quiet", action="store_true", help="show no progress")
    words = acceptance.parsed(parser, sys.argv[1:])
    progress.Quiet.is_quiet = words.quiet
    return words, source_options.names_of(parser, words)


def main():
    words, names = arguments()
    gc.disable()  # rows and shapes make no circles: looking for some took a tenth of the time
    memory.give_back()
    recipe.stop_at_once("prepare")
    table_standing.mark(words.out, words.land, names, words.classes, words.previous)
    shapely_there.go_on("prepare")
    say = recipe.teller("prepare")
    from ..preparation import preparation_run

    source_settings.complete(words, names, say)
    with contextlib.closing(preparation_run.Run(words, names, say)) as run:
        status = run.go()
    source_settings.keep(words, names, say)
    return status


def start():
    of_line.run("prepare", main)


if __name__ == "__main__":
    start()
