"""Explains in words what a refusal of `lpis` means. It prints what it reads, adds its words, and ends with the status
of lpis.

    lpis check DIR | tools/explain DIR --svg fault.svg --geojson fault.geojson
    lpis check DIR CERT | tools/explain DIR --cert CERT
    lpis area FILE | tools/explain --area FILE
    lpis locate DIR [CERT] POINTS | tools/explain DIR --points POINTS
    lpis locate-country DIR POINTS | tools/explain DIR --points POINTS
    lpis publish DB YEAR DIR [CERT] | tools/explain DIR [--cert CERT] --register DB --svg fault.svg
    lpis trace DB ID.. | tools/explain DIR
    lpis country DIR | tools/explain DIR --svg fault.svg
    lpis publish-country DB YEAR DIR --exact FILE | tools/explain DIR --cert FILE --register DB
    tools/explain 43                    what a code means, without a release
    tools/explain refused 41 ..         what a line means that lpis printed; with its shapes, if DIR stands before it
    tools/explain DIR --name NAME       the identifier that a parcel of the source has in the tables, by
        DIR/identifiers.csv
"""

import os
import re
import sys

from ..formats import codes
from ..register import guests
from ..source import source_settings
from ..system import files, installation
from ..faults.explanation import Explained
from ..formats.source_names import SourceNames
from ..system.command_line import TROUBLE, Parser, run


def arguments():
    parser = Parser("explain", __doc__)
    parser.add_argument(
        "words",
        nargs="*",
        metavar="DIR",
        help="the folder of the release or of the country that was refused; or one or more codes, to explain them",
    )
    parser.add_argument("--cert", metavar="CERT", help="the certificate, to show its lines and triangles")
    parser.add_argument(
        "--register", metavar="DB", help="the register, to show the old shapes of a split or merge, and what differs"
    )
    parser.add_argument("--area", metavar="FILE", help="the table of `lpis area`")
    parser.add_argument(
        "--points", metavar="POINTS", help="the table of points of `lpis locate` or `lpis locate-country`"
    )
    parser.add_argument("--geojson", metavar="FILE", help="write the shapes and the place as a layer for QGIS")
    parser.add_argument("--svg", metavar="FILE", help="write a picture of them, with an enlargement of the place")
    parser.add_argument(
        "--epsg",
        metavar="N",
        type=int,
        help=(
            "the coordinate system's number, written into the GeoJSON; without it that of lpis.toml or findings.gpkg"
            " in DIR"
        ),
    )
    parser.add_argument(
        "--status", metavar="N", type=int, help="the status of lpis; without it, it follows from the line"
    )
    parser.add_argument(
        "--name",
        metavar="NAME",
        help="print the identifier that a parcel called NAME in the source has in the tables, and end",
    )
    parser.add_argument("--codes", action="store_true", help="print the table of all codes and end")
    words = parser.parse_args()
    if words.codes:
        print(codes.table_of_codes(), end="")
        sys.exit(0)
    if words.words and all(is_code(word) for word in words.words):
        for word in words.words:
            print(installation.here("\n".join(codes.lines_of(word))))
        sys.exit(0)
    words.words, words.lines = lines_in(words.words)
    if len(words.words) > 1:
        parser.error(f"one folder, or codes: {', '.join(word for word in words.words if not is_code(word))} is no code")
    words.folder = words.words[0] if words.words else None
    if words.folder is not None and re.fullmatch("[0-9][0-9a-z]", words.folder) and not os.path.isdir(words.folder):
        parser.error(f"{words.folder} is no folder and no code ({', '.join(codes.CODES)})")
    if words.name is not None and words.folder is not None:
        if not os.path.isdir(words.folder):
            parser.error(f"{words.folder} is no folder")
        print("\n".join(SourceNames(words.folder).now(words.name)))
        sys.exit(0)
    if words.folder is None and words.area is None and not words.lines:
        parser.error("name the release's folder DIR, --area FILE, or a code")
    return words


def is_code(word):
    """A word is a code where no folder is called so."""
    return word in codes.CODES and not os.path.isdir(word)


def lines_in(words):
    """The words before the line of a refusal or a failure that stands among them, and the line, where there is one."""
    begun = next(
        (place for place in range(len(words)) if re.match("(refused|failed) ", " ".join(words[place:]))), len(words)
    )
    return words[:begun], [f"{' '.join(words[begun:])}\n".encode()] * (begun < len(words))


def main():
    words = arguments()
    files.own(geojson=words.geojson, svg=words.svg)
    status, is_empty, is_report, is_whole, is_trace = 0, True, False, False, False
    for raw in words.lines or sys.stdin and sys.stdin.buffer or ():
        sys.stdout.flush()
        sys.stdout.buffer.write(raw)
        sys.stdout.buffer.flush()
        line = raw.decode("utf-8", "replace")
        is_trace |= is_empty and line.startswith("trace ")
        is_report |= is_empty and line.startswith(("parcels ", "region ", "point "))
        is_whole |= line == "yes\n" or line.startswith("exact ")
        is_empty = False
        if status == 0 or is_trace:  # `trace` answers each of its words, whichever is refused
            status = max(status, codes.status_of(line))
            if line.startswith("refused "):
                explain(line.rstrip("\n"), words)
            elif line.startswith("failed "):
                kind = line.split()[1] if len(line.split()) > 1 else ""
                print(f"  {installation.here(codes.FAILURES.get(kind, 'see docs/FORMATS.md'))}")
                if kind == "store" and words.register and (found := guests.first_of(guests.hindrances, words.register)):
                    print(f"  {found}")
        if line == "parcels 0 pieces 0\n":
            print("  the tables have headers alone: was the export's WHERE empty?", file=sys.stderr)
    if words.status is not None:
        return words.status
    if is_empty or (is_report and not is_whole and status == 0):
        print(
            (
                "explain: lpis printed nothing, or not to the end: look at its standard error and status. Its lines are"
                " read from standard input: lpis .. | explain DIR"
            ),
            file=sys.stderr,
        )
        return TROUBLE
    return status


def explain_alone(line):
    """What a line means without its release: its code, and the one behind it."""
    code, *rest = line.split()[1:]
    behind = next((word for word in rest if word in codes.BEHIND.get(code, {})), code)
    for word in dict.fromkeys((code, behind)):
        if word in codes.CODES:
            print(installation.here("\n".join(f"  {text}" for text in codes.lines_of(word))))
    if rest:
        print("  the shapes and the place are explained where the release's folder stands before the line")


def explain(line, words):
    if words.lines and words.folder is None and words.area is None:
        explain_alone(line)
        return
    explained = Explained(line, words.folder or "", words.cert, words.area, words.register, words.points)
    for text in explained.words:
        print(f"  {installation.here(text)}")
    epsg = words.epsg or (source_settings.system_of(words.folder) if words.geojson and words.folder else None)
    for path, text in ((words.geojson, explained.geojson(epsg)), (words.svg, explained.svg())):
        if path and text:
            with files.anew(path) as file:
                file.write(text)
            print(f"  written: {path}")
        elif path:
            print("  no picture: no shape of this refusal can be read")


def start():
    run("explain", main)


if __name__ == "__main__":
    start()
