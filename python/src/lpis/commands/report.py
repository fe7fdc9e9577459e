"""A report about a release for the files of an auditor: it runs `lpis check`, and reports the answer, the program and
the bytes that were checked.

    tools/report DIR [CERT] [--json FILE] [--html FILE] [--diff OLD] [--register DB] [--year YEAR] [--audit] [--source
        LAND] [--quiet]
    tools/report COUNTRY [--json FILE] [--html FILE] [--diff OLD] [--register DB] [--source LAND] [--quiet]
    tools/report .. --diff OLD [--jump PERCENT[,PERCENT]] [--changes FILE] [--accept-from FILE]..

JSON has

- date, version, commit and kit of the program, sha256 of the program, the tables and the certificate, if CERT is named
- answer and status, parcels, pieces, area and eligible area in all and by class (the sums are compared with those of
lpis)
- what was left out, changed and accepted before the tables, by prepared.csv, report.csv and balance.csv next to them
- the extent in metres, and parcels that lie far from all others; for a refusal its words, identifiers and place
- with --diff the parcels that are new, gone, moved (for which it needs Shapely) or of another area than in the folder
OLD, with the rows of
  lineage.csv that explain them; with --register how many years a register has.

HTML is the same as one page with the map; it loads nothing from the network. For a refused release it has all faults of
tools/faults, as polygons; they are also printed if no certificate is named, or CERT is not there because `lpis cut`
refuses the release. For a country it has the answer of `lpis country`, what was accepted, left out and changed in each
region, and the map of the tiles. The report is no part of the proof: only the answer of lpis is a yes.

--audit asks the second checker too, a program that shares nothing with lpis, and says whether the two programs agree;
if not, the status is 64. --source LAND has it test that the tables say the same as their source LAND at each point; if
not, the status is 1. Options of audit/source.py follow LAND in the same quoted text. A step of more than ten seconds
shows how far it is and the time left, unless --quiet is given.

--diff also reports what changed beyond the bounds, as tools/year does (percentages, sums, parcels that jump or moved):
the FILE of --changes has these rows.

The status is that of lpis; 1 if such a row is not accepted; 64 for a wrong option or a file that cannot be used.
"""

import json
import os

from ..faults import fault_search
from ..formats import register_rows
from ..lineage import accepted_changes, release_differences, year_comparison
from ..preparation import origin
from ..register import second_checker, table_standing
from ..report import country_report, finding_views, release_page, release_report
from ..system import files, program, progress, shapely_there
from ..system.command_line import Parser, run


MOST_TOLD = 20  # faults of a kind
LEFT = 1  # the status where something changed by more than it may


def arguments():
    parser = Parser("report", __doc__)
    parser.add_argument("folder", metavar="DIR", help="the folder of a release, or of a country")
    parser.add_argument(
        "cert",
        metavar="CERT",
        nargs="?",
        help="the certificate of a release that was handed over; none is needed, and of a country none is named",
    )
    parser.add_argument("--json", metavar="FILE", help="write the report for programs")
    parser.add_argument("--html", metavar="FILE", help="write the report as a page with the map")
    parser.add_argument("--diff", metavar="OLD", help="the folder of an older release, to report what changed")
    parser.add_argument("--changes", metavar="FILE", help="write what changed since OLD beyond the bounds, as a table")
    parser.add_argument("--register", metavar="DB", help="a register, to report how many years it has")
    parser.add_argument(
        "--year",
        metavar="YEAR",
        type=int,
        help="the year as which the release is published: the title of the page; what jumped since OLD is looked for by"
        " tools/year",
    )
    parser.add_argument("--quiet", action="store_true", help="show no progress")
    year_comparison.add_options(parser)
    second_checker.add_option(parser)
    parser.add_lpis()
    words = parser.parse_args()
    if (words.changes or words.accept_from) and not words.diff:
        parser.error("--changes and --accept-from need --diff")
    words.is_country = words.cert is None and country_report.is_one(words.folder)
    if (
        words.diff
        and not os.path.isfile(os.path.join(words.diff, "parcels.csv"))
        and not (words.is_country and country_report.is_one(words.diff))
    ):
        parser.error(f"{words.diff} has no parcels.csv")
    if (
        words.cert is not None
        and country_report.is_one(words.folder)
        and not os.path.isfile(os.path.join(words.folder, "parcels.csv"))
    ):
        parser.error(f"{words.folder} is a country: name no certificate CERT")
    if words.is_country and words.audit:
        parser.error("--audit is for a release, not for a country")
    return words


def write_json(path, facts):
    with files.anew(path) as file:
        json.dump(facts, file, indent=1, ensure_ascii=False)
        file.write("\n")


def compared(facts, words, workers=1):
    """What changed since another year by more than it may; None where nothing is compared. The rows become facts."""
    if not words.diff or words.year or facts["status"]:
        return None
    with year_comparison.Comparison(words.folder, words.jump, workers) as found:
        found.compare(None, words.diff)
        facts["difference"]["against"] = [dict(zip(year_comparison.COLUMNS, row.fields())) for row in found.rows()]
        if words.changes:
            year_comparison.write(words.changes, found.rows())
        return accepted_changes.judged(found, accepted_changes.Marks(words.accept_from), words.diff)


def ended(facts, told, words):
    """Prints what changed, and answers the status."""
    if words.diff and not words.year and not told:
        print("changes beyond the bounds are not looked for, since lpis refuses this one")
    if told:
        print("\n".join(told.lines))
        if told.left:
            print(
                f"to look at: {told.left}; a copy of {words.changes or 'the table of --changes FILE'} with 1 in a"
                " column accepted, named by --accept-from, accepts rows"
            )
    return LEFT if told and told.left else facts["status"]


def of_country(command, words):
    country = country_report.make(command, words.folder, words.register, words.diff)
    told = compared(country.facts, words, len(os.sched_getaffinity(0)))
    with files.together():
        if words.json:
            write_json(words.json, country.facts)
        if words.html:
            country_report.write(words.html, country)
    print("\n".join(country_report.lines(country)))
    status = ended(country.facts, told, words)
    if words.source:
        print(second_checker.of_source(words.source, words.folder))
    return status


def of_release(command, words):
    made = release_report.make(command, words.folder, words.cert, words.diff, words.register)
    facts = made.facts
    is_told = "certificate" not in facts["files"]  # all faults of a release that is refused, by tools/faults
    if (
        (words.html or is_told)
        and facts["status"] in (1, 2)
        and facts["refusal"].get("code", "")[:1] in ("3", "4", "6")
    ):
        made.features = fault_search.find(command, words.folder)[1]
    facts["faults"] = [feature["properties"] for feature in made.features]
    told = compared(facts, words)
    with files.together():
        if words.json:
            write_json(words.json, facts)
        if words.html:
            name = os.path.basename(facts["folder"])
            release_page.write_release(words.html, made, f"Year {words.year}: {name}" if words.year else "")
    print(facts["answer"])
    for text in facts.get("refusal", {}).get("words", []):
        print(f"  {text}")
    if is_told and made.features:
        print(
            "\n".join(
                [
                    f"faults {fault_search.count_of(made.features)}",
                    *(
                        f"  {line}"
                        for line in finding_views.Picture(finding_views.of_features(made.features)).lines(MOST_TOLD)
                    ),
                ]
            )
        )
    print(f"parcels {facts['parcels']} pieces {facts['pieces']} area {facts['area']} eligible {facts['eligible']}")
    if facts["origin"]:
        print("\n".join(origin.lines(facts["origin"])))
    if facts["extent"]:
        print("extent x {least_x} to {greatest_x} y {least_y} to {greatest_y}".format(**facts["extent"]))
        if facts["extent"]["stray"]:
            print(f"far from all others: {' '.join(facts['extent']['stray'][:release_page.MOST_STRAYS])}")
    if words.audit:
        print(second_checker.agreement(command, words.folder, words.cert))
    if words.source:
        print(second_checker.of_source(words.source, words.folder))
    if words.register:
        print(f"register {words.register}: {register_rows.in_words(facts['register'])}")
    if words.diff:
        print(f"since {facts['difference']['old']}: {release_differences.in_words(facts['difference'])}")
        for row in facts["difference"]["moved"] or []:
            print(f"moved {row['parcel']}: {row['words']}")
    return ended(facts, told, words)


def main():
    words = arguments()
    progress.Quiet.is_quiet, progress.Quiet.tool = words.quiet, "report"
    table_standing.look(words.folder, words.diff)
    files.own(json=words.json, html=words.html, csv=words.changes)
    shapely_there.go_on_if_there()
    command = program.command(words.lpis)
    return of_country(command, words) if words.is_country else of_release(command, words)


def start():
    run("report", main, ValueError)


if __name__ == "__main__":
    start()
