"""The year of an agency in one command: backup, check, exact where rows are marked, publish, report, and a line in the
log next to the register.

    tools/year DB YEAR DIR|LAND [--new] [--year-anyway] [--register-anyway] [--source-anyway] [--audit] [--source LAND]
        [--previous FOLDER] [--jump PERCENT[,PERCENT]] [--accept-from FILE].. [--certificate]
    tools/year DB --undo YEAR
    tools/year --verify DB
    tools/year --status DIR

DIR has the tables of the release, with lineage.csv (in a first year it is made if it is not there). In place of DIR
you may name a source LAND, such as a GeoPackage: tools/check then makes a release from it first, in LAND-YEAR, and the
run stops if that gets no yes; options of tools/check follow LAND in the same quoted text:
"land.gpkg --classes classes.csv --out 2026". The run makes
DB.before-YEAR, a copy of the register as it was, with its sha256; in DIR published-YEAR.txt (what `publish` printed),
report-YEAR.json and report-YEAR.html (in later years this page shows what became of each parcel, if last year's tables
are there), and with --certificate cert.txt and, if rows are marked, exact.txt, to hand over: without that option no
certificate is kept. It ends with the last lines of the balance of land next to the tables, and with how many rows were
accepted before them. DB.log gets a line: time, user, program with commit and sha256, sha256
of the tables, of a certificate that is kept, of what was printed, of the register's content before and after, and of
the line before.

It stops before anything is done if DB is not there (a first year wants --new); if YEAR is not the last one plus one to
three, or is past next year (--year-anyway); if the last run that made tables in DIR was refused or stopped, or their
source changed since (--source-anyway); if the tables are, byte for byte, those of the last year (--year-anyway); or if
the register is not as the last line of the log says, or has no log (--register-anyway, which the line records).

A later year is compared with the register and with last year's tables, in the folder that the log names, or FOLDER. It
stops, and nothing is published, if a class has another percentage; if the area or the eligible area of all jumps by
more than a percent, or that of a class by more than a percent and 100 m2; if that of a parcel jumps by more than 20
percent and 100 m2; if an identifier has other land. DIR/against-LAST.csv has these rows. A copy of it with 1 in a
column accepted, named by --accept-from, accepts these rows with these figures.

--audit asks the second checker too, a program that shares nothing with lpis: about the release and its marks before it
is published, and about the register afterwards. It stops if the two programs do not agree. --source LAND has it test,
before anything is done, that the tables say the same as their source LAND at each point; options of audit/source.py
follow LAND in the same quoted text: --source "land.gpkg --previous".

--undo takes the last year back, if nothing changed since: the register gets the content of DB.before-YEAR, which stays;
what it held is kept in DB.undone-YEAR; the log gets a line that says so; and years/YEAR of a country, or
published-YEAR.txt of a release, gets a name with undone in it. If that run is killed, the same command finishes it.

--verify finds a register that was edited since, a line that was changed or taken out, and in the folder of each year an
accepted row whose table of marks is not there. If somebody wrote the whole log anew, only the digest
of its last line shows it: each run prints it at its end, so keep it elsewhere.

--status says what DIR is: the run that made its tables, their source with its sha256, which steps are done, what stops,
what was published, what changed since.

Status: that of lpis if it refuses; 0 published, or the log agrees; 1 stopped, or the log does not agree; 64 a wrong
option, or a file that cannot be used.
"""

import contextlib
import json
import os
import subprocess
import sys

from ..formats import byte_tables
from ..lineage import accepted_changes, two_years
from ..preparation import origin
from ..register import (
    ledger,
    publication_steps,
    retraction,
    second_checker,
    standing_lines,
    table_standing,
    year_source,
)
from ..system import files, placing, processes, program, progress, shapely_there
from ..system import command_line as words_of_tools
from ..system.printing import counted
from ..register.publication_steps import STOPPED, Stop, told
from ..system.trouble import Trouble

DONE = 0
TABLES = ("parcels.csv", "covers.csv", "classes.csv", "lineage.csv")
CERTIFICATES = ("cert.txt", "exact.txt")  # the latter has the blocks of marked rows too


def arguments():
    parser = words_of_tools.Parser("year", __doc__)
    parser.add_argument("register", metavar="DB", nargs="?", help="the register")
    parser.add_argument("year", metavar="YEAR", type=int, nargs="?", help="the year of the release")
    parser.add_argument("folder", metavar="DIR", nargs="?", help="the folder of the release, or its source")
    publication_steps.add_options(parser)
    second_checker.add_option(parser)
    parser.add_argument(
        "--certificate",
        action="store_true",
        help="keep the certificate: DIR gets cert.txt and, if rows are marked, exact.txt, as they are published with",
    )
    parser.add_argument("--verify", action="store_true", help="compare the register with its log")
    parser.add_argument(
        "--undo",
        metavar="YEAR",
        type=int,
        help="take this year back, where it is the last one and nothing changed since",
    )
    parser.add_argument("--status", metavar="DIR", help="say what a folder is: its source, its steps, what stops")
    parser.add_lpis()
    words = parser.parse_args()
    wanted = {
        (True, True, False, False, False): "a year",
        (True, False, True, False, False): "--verify",
        (True, False, False, True, False): "--undo",
        (False, False, False, False, True): "--status",
    }
    words.what = wanted.get(
        (bool(words.register), bool(words.folder), words.verify, words.undo is not None, bool(words.status))
    )
    if words.what is None or (words.year is not None) != (words.what == "a year"):
        parser.error("DB YEAR DIR, or DB --undo YEAR, or --verify DB, or --status DIR")
    return words


def verify(register):
    faults = ledger.faults_of(register)
    for fault in faults:
        print(fault)
    lines = ledger.lines_of(register)
    for fault in publication_steps.faults_of_decisions(lines):
        print(fault)
        faults.append(fault)
    print(
        f"{register}: {counted(len(lines), 'line')},"
        f" {counted(len(faults), 'fault') if faults else 'the log and the register agree'}"
    )
    return STOPPED if faults else DONE


def status(folder):
    lines, found = standing_lines.told(folder)
    print("\n".join(lines))
    return found


def has_marks(folder):
    table = byte_tables.Table(os.path.join(folder, "lineage.csv"), "lineage")
    return any(table.field(record, "exact") == b"1" for _, record in table.rows())


@contextlib.contextmanager
def place_of_certificates(words):
    """The folder of the release where certificates are kept, else one that goes."""
    left = [name for name in CERTIFICATES if os.path.lexists(os.path.join(words.folder, name))]
    if words.certificate:
        yield words.folder
        return
    if left:
        print(
            f"{' and '.join(left)} in {words.folder}: not used, since lpis makes a certificate and deletes it; with"
            " --certificate it is kept there"
        )
    spare = files.folder(words.folder, ".year-")
    try:
        yield spare
    finally:
        placing.clear(spare)


def certified(command, words, place):
    """The certificate to publish with: one is made in a folder where marked rows want blocks in it, where it is kept,
    and for the second checker; else None, and `publish` alone looks at the release."""
    is_marked = has_marks(words.folder)
    if not (is_marked or words.certificate or words.audit):
        return None
    cert, exact = (os.path.join(place, name) for name in CERTIFICATES)
    print(told(command, "cut", words.folder, cert).decode().strip())
    if is_marked:
        print(told(command, "exact", words.register, words.folder, cert, exact).decode().strip())
        cert = exact
    if words.audit:
        said = second_checker.agreement(command, words.folder, cert)
        print(said)
        if is_marked and said == second_checker.YES:
            print(second_checker.of_lineage(words.register, words.folder, cert))
    return cert


def compared(command, words, last, marks):
    """What publication_steps.compare answers. Where it stops, what lpis refuses goes first: nobody is to look at
    changes of tables that are none."""
    try:
        return publication_steps.compare(words, last, marks)
    except Trouble:
        told(command, "check", words.folder)
        raise


def published(command, words, cert):
    """What `publish` prints, by which lpis checks the release. A new register in which it put nothing goes."""
    try:
        text = told(command, "publish", words.register, str(words.year), words.folder, *([cert] if cert else []))
    except Stop:
        if words.new and os.path.isfile(words.register) and not two_years.last_year(words.register):
            for end in ("", "-wal", "-shm"):
                files.remove(words.register + end)
        raise
    print(*(line for line in text.decode(errors="replace").splitlines() if line.startswith("total ")), sep="\n")
    return text


def begin_lineage(path):
    """Of a first year nothing was dropped: where there is no table, it gets its header."""
    with contextlib.suppress(FileExistsError), open(path, "x", encoding="ascii") as file:
        file.write("old,new\n")


def look_for_tables(words):
    for name in TABLES:
        if not os.path.isfile(os.path.join(words.folder, name)):
            how = year_source.how_to_propose(words, words.folder) if name == "lineage.csv" else ""
            raise Stop(f"{os.path.join(words.folder, name)} is not there{how}", words_of_tools.TROUBLE)


def run(words):
    command = program.command(words.lpis)
    processes.tell("nothing was published")
    words.folder = year_source.folder_of(words)
    publication_steps.look_at_places(words, "what is printed and the report")
    last, marks = publication_steps.last_year(words), accepted_changes.Marks(words.accept_from)
    files.alone(words.folder)
    publication_steps.look_at_tables(words, last)
    if words.new:
        begin_lineage(os.path.join(words.folder, "lineage.csv"))
    look_for_tables(words)
    if words.source:
        print(second_checker.of_source(words.source, words.folder))
    with ledger.held(words.register) as log, place_of_certificates(words) as place:
        before = ledger.content_of(words.register) if last else {}
        if not words.new:
            publication_steps.back_up(words.register, words.year)
        cert = certified(command, words, place)
        kept = cert if words.certificate else None
        old = compared(command, words, last, marks)
        with publication_steps.publishing(words):
            text = published(command, words, cert)
            printed = publication_steps.write_printed(words, text)
            digest = ledger.add(
                log, words.register, publication_steps.entry_of(words, command, TABLES, kept, printed, before)
            )
            table_standing.published(words.folder, words.year, words.register)
    if words.audit:
        print(second_checker.of_register(words.register, words.folder))
    report = os.path.join(words.folder, f"report-{words.year}")
    options = [f"--json={report}.json", f"--html={report}.html", f"--year={words.year}", f"--lpis={words.lpis}"]
    if old and os.path.isfile(os.path.join(old, TABLES[0])) and not table_standing.why_not(old):
        options.append(f"--diff={old}")
    processes.run(
        [sys.executable, os.path.join(program.HERE, "report"), *options, "--", words.folder, *([kept] if kept else [])],
        stdout=subprocess.DEVNULL,
        check=True,
    )
    print(
        f"published {words.year}, in {printed}; report {report}.html\nlog {ledger.path_of(words.register)} line sha256"
        f" {digest}"
    )
    with open(f"{report}.json", encoding="utf-8") as file:
        found = json.load(file)["origin"]
    print("\n".join([*origin.balance_lines(found), *origin.lines(found)]))
    return DONE


def main():
    words = arguments()
    progress.Quiet.tool = "year"
    shapely_there.go_on_if_there()
    try:
        if words.what == "--undo":
            print("\n".join(retraction.undo(words.register, words.undo)))
            return DONE
        if words.what == "--status":
            return status(words.status)
        return verify(words.register) if words.what == "--verify" else run(words)
    except second_checker.Disagree as fault:
        raise Stop(str(fault)) from None


def start():
    words_of_tools.run("year", main)


if __name__ == "__main__":
    start()
