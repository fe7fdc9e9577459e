"""From a GeoPackage to a yes, or to a picture of what is wrong, in one command. It writes into a folder of its own, and
into no register.

    tools/check LAND [--out DIR] [--classes FILE] [--name WHAT=FOUND].. [--epsg N] [--accept [KIND,..]] [--accept-from
        FILE].. [--identifiers FILE]
                [--previous FOLDER] [--between METRES] [--keep COLUMN].. [--certificate] [--quiet]

LAND is what tools/prepare reads, with its options: a GeoPackage, shapefiles or anything else that ogr2ogr reads, or a
folder with parcels.csv and covers.csv, each with a column wkt. Its layers are parcels (parcel) and covers (piece,
parcel, class), and it may have a table classes (class, percent);
--name says what they are called if they have other names, --classes names a table of classes. The first run keeps both
in lpis.toml next to LAND, and later runs take them from there. If no layer has the name, the only layer that has
polygons and these columns is used.

It tests the source, rounds all borders together, and has lpis check the tables. DIR, else LAND-check, gets

    index.html      a page with the map of all findings, first those that stop, the largest on top: row, identifiers,
        area, width, words, what to do
    findings.gpkg   the same for QGIS, a layer for each kind

and, after a yes, the tables, report.txt with the areas, and what tools/prepare reports: DIR is then a release for
tools/year. With --certificate it also has cert.txt, to hand over. All files are put in place together at the end, or
none of them. --accept accepts what can be mended or settled; without it such findings stop the run.

Status: 0 and the last line yes; 1 and what stops; 2 the source cannot be read, and nothing is written; 64 a wrong
option, or a file that cannot be used; 70 the tool failed, or there is no lpis; 128 plus the number of the signal that
stopped it.
"""

import gc
import sys

from ..preparation import acceptance, recipe, source_options
from ..source import source_settings
from ..system import command_line as of_line, program, progress, shapely_there


def arguments():
    parser = of_line.Parser("check", __doc__)
    parser.add_argument("land", metavar="LAND", help="the source: a GeoPackage, a folder, or what ogr2ogr reads")
    parser.add_argument(
        "--out", metavar="DIR", help="the folder of the page and of the tables; without it LAND-check, where you are"
    )
    source_options.add_options(parser)
    parser.add_argument(
        "--previous", metavar="FOLDER", help="last year's tables: borders that did not change stay as they are there"
    )
    parser.add_argument(
        "--certificate", action="store_true", help="keep the certificate, in DIR/cert.txt: a yes needs none"
    )
    parser.add_argument("--quiet", action="store_true", help="show no progress")
    parser.add_lpis()
    words = acceptance.parsed(parser, sys.argv[1:])
    progress.Quiet.is_quiet = words.quiet
    return words, source_options.names_of(parser, words)


def main():
    words, names = arguments()
    gc.disable()  # rows and shapes make no circles
    shapely_there.go_on("check")
    say = recipe.teller("check")
    command = program.command(words.lpis)
    from ..checking import release_checking

    source_settings.complete(words, names, say)
    status = release_checking.run(command, words, names, say)
    if status in (release_checking.YES, release_checking.STOPPED):
        source_settings.keep(words, names, say)
    return status


def start():
    of_line.run("check", main)


if __name__ == "__main__":
    start()
