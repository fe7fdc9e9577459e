"""Proposes the table of lineage between two years of parcels, and lists all faults of one that is there.

    tools/lineage OLD NEW OUT                proposes OUT, or OUT/lineage.csv where OUT is a folder
    tools/lineage --register DB NEW OUT      the same, from the shapes that a register keeps of its last release
    tools/lineage --check OLD NEW            all faults of NEW/lineage.csv at once, and kept parcels that moved
    tools/lineage --check --register DB NEW
    tools/lineage --check .. --rows FILE     the same for the table FILE
    .. [--workers N] [--quiet]               N processes; without it one for each processor

OLD and NEW are folders with parcels.csv, or countries of any size, whose parcels are read one by one. A dropped parcel
gets a row for each new parcel with which it shares a tenth or more of one of the two. If no new parcel has its land, it
gets the row of an ending. If that is not clear (they share a hundredth to a tenth, or new parcels have less than half
of its land), it gets no row and is listed: `publish` refuses the release (75) until somebody writes its row. Splits and
merges are marked exact where their borders agree to the millimetre. OUT-report.csv has what each dropped parcel shares
with each new one. A table that is there is never overwritten. Identifiers of earlier years (76) are found only with
--register. Nothing is written to a register.

Status: 0 all rows are proposed, or no fault; 1 something is left to do, or there are faults; 64 a wrong option, or a
file that cannot be used.
"""

import os
from collections import Counter

from ..lineage import lineage_faults, two_years
from ..register import table_standing
from ..system import progress, shapely_there
from ..system import command_line as words_of_tools

DONE, LEFT = 0, 1


def arguments():
    parser = words_of_tools.Parser("lineage", __doc__)
    parser.add_argument(
        "places", metavar="PLACE", nargs="+", help="OLD (without --register), NEW, and OUT (without --check)"
    )
    parser.add_argument("--register", metavar="DB", help="the register whose last release is the older year")
    parser.add_argument("--check", action="store_true", help="list all faults of NEW/lineage.csv")
    parser.add_argument(
        "--rows",
        metavar="FILE",
        help="with --check: the table in place of NEW/lineage.csv, or of those of a country's regions",
    )
    parser.add_argument(
        "--workers",
        metavar="N",
        type=int,
        help="how many processes at once; without it one for each processor",
    )
    parser.add_argument("--quiet", action="store_true", help="show no progress")
    words = parser.parse_args()
    if words.workers is not None and words.workers < 1:
        parser.error("--workers is 1 or more")
    if words.rows and not words.check:
        parser.error("--rows needs --check")
    wanted = 1 + (not words.register) + (not words.check)
    if len(words.places) != wanted:
        parser.error(
            f"{wanted} {'place is' if wanted == 1 else 'places are'} wanted:"
            f" {'' if words.register else 'OLD '}NEW{'' if words.check else ' OUT'}"
        )
    places = iter(words.places)
    words.old = None if words.register else next(places)
    words.new, words.out = next(places), next(places, None)
    return words


def both(words, ask):
    old = (
        ask.year(0, two_years.of_register, words.register)
        if words.register
        else ask.year(0, two_years.of_folder, words.old)
    )
    new = ask.year(1, two_years.of_folder, words.new)
    ask.take(old, new)
    return old, new


def propose(words, ask):
    from ..lineage import proposals

    path = os.path.join(words.out, "lineage.csv") if os.path.isdir(words.out) else words.out
    report = f"{path.removesuffix('.csv')}-report.csv"
    if not os.path.isdir(os.path.dirname(path) or "."):
        raise two_years.Trouble(f"{path} cannot be written: {os.path.dirname(path)} is no folder")
    for there in (path, report):
        if os.path.exists(there):
            raise two_years.Trouble(f"{there} is there: it stays as it is; name another file, or move it away")
    old, new = both(words, ask)
    found = proposals.fates(old, new, ask)
    rows, changes = proposals.marked(proposals.rows_of(found), old, new, ask)
    proposals.write(path, report, found, rows, changes)
    counts = Counter(changes.kind(fate.name) or "unclear" for fate in found)
    print(f"dropped {len(found)} {' '.join(f'{kind} {count}' for kind, count in sorted(counts.items()))}".rstrip())
    print(f"rows {len(rows)} exact {sum(row.is_marked for row in rows)} in {path}")
    for fate in found:
        if fate.doubt:
            print(f"unclear {fate.name}: {fate.doubt}")
    for name in sorted(name for name in new.shapes if name not in old.shapes and name in old.used):
        print(
            f"used before {name}: last in {old.used[name]}, so `publish` will refuse it as 76; give the parcel a new"
            " identifier"
        )
    return LEFT if counts["unclear"] else DONE


def check(words, ask):
    from ..lineage import proposals

    old, new = both(words, ask)
    rows = two_years.rows_of(words.rows) if words.rows else [*two_years.rows_of_folder(words.new)]
    found = lineage_faults.faults(rows, old, new, lambda groups: proposals.are_exact(groups, ask))
    for fault in found:
        print(fault.line())
    away = list(filter(None, ask.answers("moved", old.shapes.differing(new.shapes), "comparing parcels that changed")))
    for line in away:
        print(f"moved {line}")
    print(f"faults {len(found)} moved {len(away)}")
    return LEFT if found else DONE


def main():
    words = arguments()
    progress.Quiet.is_quiet, progress.Quiet.tool = words.quiet, "lineage"
    table_standing.look(words.old, words.new)
    shapely_there.go_on("lineage")
    from ..lineage import parcel_questions

    with parcel_questions.Asking(words.workers) as ask:
        return check(words, ask) if words.check else propose(words, ask)


def start():
    words_of_tools.run("lineage", main)


if __name__ == "__main__":
    start()
