"""What tools/year and `tools/country publish` share: what is looked at before a year is published, the backup, a
command's answer, and the line of the log."""

import contextlib
import datetime
import getpass
import os
import sqlite3
import stat
import subprocess
import sys

from ..formats import register_rows
from ..lineage import accepted_changes, two_years, year_comparison
from ..preparation import decisions
from . import ledger, table_standing
from ..system import command_line, files, processes, program
from ..system.printing import counted
from ..system.trouble import Trouble

STOPPED = 1
MOST_STEP = 3  # years after the last one


class Stop(Trouble):
    """The year is not done: words, and the status."""

    def __init__(self, said, status=STOPPED):
        super().__init__(said)
        self.status = status


def add_options(parser):
    parser.add_argument("--new", action="store_true", help="make a new register: this is its first year")
    parser.add_argument(
        "--year-anyway",
        action="store_true",
        help="allow a year that is far from the last one, or past next year, or whose tables are those of the last one",
    )
    parser.add_argument(
        "--register-anyway",
        action="store_true",
        help="allow a register that changed since the last line of the log, or has no log",
    )
    parser.add_argument(
        "--source-anyway",
        action="store_true",
        help="publish tables whose source changed since they were made, which the log's line records",
    )
    parser.add_argument(
        "--previous",
        metavar="FOLDER",
        help=(
            "the folder of last year's tables, to compare classes and eligible areas with; without it the one that the"
            " log names"
        ),
    )
    year_comparison.add_options(parser)


def look_at_places(said, made):
    """Both folders can be written; `made` is what the release's gets."""
    for folder, put in (
        (os.path.dirname(said.register) or ".", "the register, its copy and its log"),
        (said.folder, made),
    ):
        if not (os.path.isdir(folder) and os.access(folder, os.W_OK)):
            raise Stop(
                (
                    f"{folder} is {'not a folder that can be written' if os.path.exists(folder) else 'not there'}:"
                    f" {put} are put into it"
                ),
                command_line.TROUBLE,
            )
    if os.path.exists(said.register) and not os.path.isfile(said.register):
        what = "a folder" if os.path.isdir(said.register) else "no file"
        raise Stop(f"{said.register} is {what}, and no register", command_line.TROUBLE)


def last_year(said):
    """The last year of the register, after all that is to be looked at before anything is done."""
    is_there = os.path.isfile(said.register)
    if is_there == said.new:
        raise Stop(
            f"{said.register} is {'there: without --new' if is_there else 'not there: a first year needs --new'}"
        )
    last = year_before(said.register, said.year) if is_there else 0
    most = datetime.date.today().year + 1
    is_odd = said.year > most or (last and said.year > last + MOST_STEP)
    if is_odd and not said.year_anyway:
        after = f"the last year of the register is {last}" if last else "the register is new"
        raise Stop(f"{said.year}: {after}, and next year is {most}; --year-anyway where that is meant")
    if last:
        faults = ledger.faults_of(said.register)
        if faults and not said.register_anyway:
            raise Stop("\n".join([*faults, "--register-anyway goes on, and the log's next line records it"]))
    return last


def look_at_tables(said, last):
    """Stops where the tables are not those of this year: of a run that made none, of another source by now, or those
    that were published last."""
    try:
        table_standing.look(said.folder)
        told = table_standing.look_at_sources(said.folder, said.source_anyway)
    except table_standing.Unfinished as fault:
        raise Stop(f"{fault}; nothing was published") from None
    if last and not said.year_anyway and is_published(said.folder, tables_of(said.register, last)[0]):
        raise Stop(
            f"the tables of {said.folder} are, byte for byte, those that were published in {last}: make those of"
            f" {said.year} first; --year-anyway where nothing changed; nothing was published"
        )
    print("\n".join(told), flush=True)


def year_before(register, year):
    """The last year of a register. Where that is not before the year nothing may be done: a copy that is called the
    one before it would have it already."""
    last = two_years.last_year(register)
    if last >= year:
        raise Stop(
            f"{year}: the last year of the register is {last}, and years ascend: it is published already, or mistyped"
        )
    return last


def back_up(register, year):
    """A copy of the register, whole also while it is used, and open to nobody else than the register is; its digest
    beside it."""
    year_before(register, year)  # once more, since another run may have published meanwhile
    path, mode = f"{register}.before-{year}", stat.S_IMODE(os.stat(register).st_mode)
    with files.beside(path, mode) as name:
        with sqlite3.connect(register, timeout=register_rows.SECONDS) as source, sqlite3.connect(name) as copy:
            source.backup(copy)
        copy.close()
        source.close()
    digest = files.digest(path)
    with files.anew(f"{path}.sha256") as file:
        file.write(f"{digest}  {os.path.basename(path)}\n")
    print(f"backup {path} sha256 {digest}")


def tables_of(register, year):
    """The digests of the tables of the last year by the last line of the log, and that line."""
    entry = ledger.last_of(register)
    return entry["tables"] if entry.get("year") == year and isinstance(entry.get("tables"), dict) else {}, entry


def tables_before(said, last, place):
    """The folder of last year's tables: that which is named, or `place`, where it has what was published by the log.
    Else None, and why."""
    published, entry = tables_of(said.register, last)
    if said.previous:
        if not os.path.isdir(said.previous):
            raise Stop(f"{said.previous} is no folder", command_line.TROUBLE)
        if reason := table_standing.why_not(said.previous):
            raise Stop(reason)
        if not is_published(said.previous, published):
            print(
                f"{said.previous} has other tables than were published in {last}, by the log: they are compared all the"
                " same"
            )
        return said.previous, ""
    place = place or str(entry.get("folder") or "")
    if place and is_published(place, published):
        return place, ""
    return (
        None,
        (
            f"{place} has no longer what was published in {last}"
            if place
            else f"the log does not say where the tables of {last} are"
        ),
    )


def is_published(folder, published):
    """Whether the tables of shapes and classes in a folder are those of a line of the log."""
    wanted = {
        name: digest
        for name, digest in published.items()
        if os.path.basename(name) != "lineage.csv" and name.endswith(".csv")
    }
    paths = {name: os.path.join(folder, name) for name in wanted}
    return (
        bool(wanted)
        and all(map(os.path.isfile, paths.values()))
        and ledger.digests_of(paths, "digests of last year's tables") == wanted
    )


def compare(said, last, marks, place="", workers=1):
    """Compares the year with the one before, and stops where something changed by more than it may and nobody
    accepted it. Nothing is done before. The folder of last year's tables, or None."""
    if not last:
        print("a first year: there is nothing to compare it with")
        return None
    path = os.path.join(said.folder, f"against-{last}.csv")
    before, why = tables_before(said, last, place)
    with year_comparison.Comparison(said.folder, said.jump, workers) as found:
        found.compare(said.register, before, why)
        year_comparison.write(path, found.rows())
        judged = accepted_changes.judged(found, marks, last)
        decisions.add_changes(said.folder, found.rows(), marks)
    print("\n".join(judged.lines), flush=True)
    if judged.left:
        raise Stop(
            f"{counted(judged.left, 'change')} since {last} to look at, in {path}; nothing was published: mend the"
            " source, or give a copy of that table, with 1 in a column accepted, by --accept-from"
        )
    return before


def told(command, *said):
    """What a command of lpis printed; a refusal is shown with its words, and stops."""
    ran = processes.run(program.call(command, *said), stdout=subprocess.PIPE, check=False)
    text = ran.stdout.decode("utf-8", "replace")
    if ran.returncode != 0:
        line = (text.splitlines(keepends=True) or [""])[-1]
        if line.startswith("refused"):
            folder = next(word for word in said if os.path.isdir(word))
            processes.run(
                [sys.executable, os.path.join(program.HERE, "explain"), "--", folder], input=line.encode(), check=False
            )
        raise Stop(f"`lpis {said[0]}` ended with status {ran.returncode}; nothing was published", ran.returncode)
    return ran.stdout


@contextlib.contextmanager
def publishing(said):
    """From the publication to its line of the log no signal comes between: it ends `lpis`, and is raised behind
    that, with what came of it."""
    with processes.held():
        try:
            yield
        finally:
            processes.tell(state_of(said))


def state_of(said):
    """Whether the year is in the register and in its log."""
    with contextlib.suppress(Trouble, OSError):
        if os.path.isfile(said.register) and two_years.last_year(said.register) == said.year:
            lines = ledger.lines_of(said.register)
            is_logged = bool(lines) and ledger.entry_of(lines[-1])[0].get("year") == said.year
            return (
                f"{said.year} is published in {said.register}, and"
                f" {'its line is in the log' if is_logged else 'the log has no line of it'}"
            )
    return "nothing was published"


def faults_of_decisions(lines):
    """Of each year whose folder is there the accepted rows whose table of marks is gone or changed; and the folders
    that are not there."""
    for entry in ledger.in_force(ledger.entry_of(line)[0] for line in lines):
        folder, digests = str(entry.get("folder") or ""), entry.get("decisions")
        if (
            isinstance(digests, dict)
            and digests
            and all(isinstance(text, str) for pair in digests.items() for text in pair)
        ):
            if os.path.isdir(folder):
                yield from decisions.faults_of(
                    folder, {os.path.basename(name): digest for name, digest in digests.items()}
                )
            else:
                yield f"{folder} is not there: who accepted what in {entry['year']} cannot be looked at"


def write_printed(said, text):
    """Writes what was printed, with the source of the tables before it; its path."""
    path = os.path.join(said.folder, f"published-{said.year}.txt")
    with files.anew(path, "wb") as file:
        file.write("".join(f"{line}\n" for line in source_lines(said.folder)).encode(errors="surrogateescape") + text)
    return path


def source_lines(folder):
    """The source of a folder's tables, where it is known."""
    found = table_standing.of(folder)
    return [found.source().line()] if found and found.sources else []


def source_facts(folder):
    """The same for the log: the name and the sha256 of the source and of the table of classes."""
    found = table_standing.of(folder)
    return (
        [{"what": source.what, "name": source.name, "sha256": source.digest} for source in found.sources]
        if found
        else []
    )


def entry_of(said, command, tables, cert, printed, before, folder=None):
    """A line of the log; `tables` are names in the folder, `cert` a path or None; `folder` is where they stay, where
    that is another one."""
    facts = program.facts(command)
    return {
        "time": datetime.datetime.now(datetime.timezone.utc).isoformat(timespec="seconds"),
        "user": getpass.getuser(),
        "year": said.year,
        "folder": os.path.abspath(folder or said.folder),
        "program": {
            "commit": program.commit_of(command),
            "sources": facts.get("sources", ""),
            "kit": facts.get("kit", ""),
            "sha256": files.digest(command[0]),
        },
        "tables": ledger.digests_of(
            {name: os.path.join(said.folder, name) for name in tables}, "digests of what was published"
        ),
        "certificate": files.digest(cert) if cert else "",
        "printed": files.digest(printed),
        "content_before": before,
        "content": ledger.content_of(said.register),
        "register_anyway": said.register_anyway,
        "year_anyway": said.year_anyway,
        "accepted": decisions.counts(said.folder),
        "decisions": ledger.digests_of(
            {name: os.path.join(said.folder, name) for name in decisions.names_in(said.folder)},
            "digests of what was accepted",
        ),
        "sources": source_facts(said.folder),
        "source_anyway": said.source_anyway,
    }
