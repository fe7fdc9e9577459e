"""All faults of a release at once, where `lpis` reports only the first: a table by code, and polygons for QGIS.

    tools/faults DIR OUT.geojson [--html FILE]

It calls `lpis cut` on each parcel with its pieces, and on each pair of parcels whose boxes overlap, many in one call.
It reports the first fault of each row, the first fault of each parcel with its pieces, and each pair of parcels that
overlap. Each fault is the polygon of the overlap, of the gap or of what is outside of its parcel, with width and area,
or the whole shape that is wrong; it is a point if Shapely is not there or the fault has no area. This proves nothing: a
release without faults here still has to pass `lpis check`.

Status: 0 no faults; 1 faults; 64 a wrong option, or a file that cannot be used.
"""

from collections import Counter

from ..faults import fault_search
from ..formats import drawing
from ..register import table_standing
from ..source import source_settings
from ..system import files, program, shapely_there
from ..system.command_line import Parser, run


def main():
    parser = Parser("faults", __doc__)
    parser.add_argument("folder", metavar="DIR", help="the folder of the release")
    parser.add_argument("out", metavar="OUT.geojson", help="the faults, as a layer for QGIS")
    parser.add_argument("--html", metavar="FILE", help="write a page with the map of the faults, and a table of them")
    parser.add_argument(
        "--epsg",
        metavar="N",
        type=int,
        help=(
            "the coordinate system's number, written into the GeoJSON; without it that of lpis.toml or findings.gpkg"
            " in DIR"
        ),
    )
    parser.add_lpis()
    words = parser.parse_args()
    table_standing.look(words.folder)
    shapely_there.go_on_if_there()
    files.own(geojson=words.out, html=words.html)
    command = program.command(words.lpis)
    release, features = fault_search.find(command, words.folder)
    with files.anew(words.out) as file:
        file.write(drawing.collection(features, words.epsg or source_settings.system_of(words.folder)))
    if words.html:
        from ..report import release_page

        release_page.write_faults(words.html, words.folder, features)
    lines = {one["properties"]["line"]: (one["properties"]["code"], one["properties"]["meaning"]) for one in features}
    for (code, meaning), count in sorted(Counter(lines.values()).items()):
        print(f"{code:8} {count:7} {meaning}")
    if release.is_cut_off:
        print(f"faults {len(lines)} and more: mend the rows first, shapes were not looked at")
    else:
        print(f"faults {len(lines)} parcels {len(release.parcels)}")
    return 1 if features else 0


def start():
    run("faults", main)


if __name__ == "__main__":
    start()
