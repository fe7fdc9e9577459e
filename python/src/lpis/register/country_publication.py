"""A country's year: its certificates, the counts compared with those of the source, the blocks of what is marked,
and the publication."""

import os
import subprocess
import sys
from collections import Counter

from ..country import engines, region_split
from ..formats import tile_plan
from ..lineage import accepted_changes
from ..preparation import origin
from . import ledger, publication_steps, second_checker, table_standing
from ..system import command_line, file_progress, processes, program, progress
from .country_years import Kept
from ..formats.byte_tables import Table
from .publication_steps import Stop

MOST_TOLD = 5
LINEAGE = "lineage "  # begins a line of what became of an identifier
# Bytes that a program moves beyond those of its tables, for each of parcels.csv: of a first year, of a later one, whose
# register has texts, and for marked rows.
FIRST, LATER, MARKED = 5, 9, 4
TOP_FILES = ("country.txt", "classes.csv")
REGION_FILES = ("parcels.csv", "covers.csv", "classes.csv", "lineage.csv", "cert.txt")


def look_at_tables(folder, regions):
    """Each region has a table of lineage; answers whether any row is marked."""
    is_marked = False
    for region in regions:
        path = os.path.join(folder, region, "lineage.csv")
        if not os.path.isfile(path):
            raise Stop(
                (
                    f"{path} is not there: `country split` deals out that of the source; a region without rows has the"
                    " header alone"
                ),
                command_line.TROUBLE,
            )
        table = Table(path, "lineage")
        is_marked = is_marked or any(table.field(record, "exact") == b"1" for _, record in table.rows())
    return is_marked


def by_kind(lines):
    """How many lines of a publication are of each kind of lineage, in words; nothing where there are none."""
    counts = Counter(" ".join(line.split()[2:]) for line in lines if line.startswith(LINEAGE))
    return ", ".join(f"{count} {kind}" for kind, count in sorted(counts.items()))


def answer(command, said, is_shown, shown, options=()):
    """The lines of a command over a country, shown as they come, but for those of lineage, or kept; a refusal is shown
    with its words, and stops. `shown`: its progress, by bytes."""
    lines = []
    with processes.start(
        program.call(command, *said, options=options), stdout=subprocess.PIPE, text=True
    ) as run, file_progress.Watched(run.pid, shown):
        for line in run.stdout:
            lines.append(line)
            if is_shown and not line.startswith(LINEAGE):
                print(line, end="", flush=True)
    if run.returncode != 0:
        last = lines[-1] if lines else ""
        if last.startswith("refused"):
            register = [f"--register={said[1]}"] if said[0] != "country" else []
            cert = [f"--cert={word.partition('=')[2]}" for word in options if word.startswith("--exact=")]
            folder = next(word for word in said[1:] if os.path.isdir(word))
            explained = processes.run(
                [sys.executable, os.path.join(program.HERE, "explain"), *register, *cert, "--", folder],
                input=last.encode(),
                stdout=subprocess.PIPE,
                check=False,
            ).stdout.decode("utf-8", "replace")
            print(explained.split("\n", 1)[-1] if is_shown else explained, end="", flush=True)
        raise Stop(f"`lpis {said[0]}` ended with status {run.returncode}; nothing was published", run.returncode)
    return lines


def size_of(folder, names):
    return sum(os.path.getsize(os.path.join(folder, name)) for name in names)


def compare(folder, lines):
    """The country's counts and area, which are to be those of the source. Where it has none, nothing can be
    compared, and that stops a publication too."""
    found = next((line.split()[3:] for line in lines if line.startswith("country regions ")), [])
    wanted = engines.counts_of(folder)
    if not wanted:
        raise Stop(
            f"{engines.uncompared(folder)} (`lpis publish-country` alone compares nothing); nothing was published"
        )
    if found[: len(wanted)] != wanted:
        raise Stop(
            f"the source had {' '.join(wanted)}, and the regions have {' '.join(found[: len(wanted)])}:"
            f" {engines.UNLIKE}; nothing was published"
        )
    return wanted


def publish(command, said, say):
    """Answers 0 where the country is published."""
    progress.Quiet.tool = "country"
    processes.tell("nothing was published")
    publication_steps.look_at_places(said, "the certificates, and what is printed,")
    kept = Kept(said.folder, said.year)
    marks = accepted_changes.Marks(said.accept_from)
    try:
        last = publication_steps.last_year(said)
    except Stop as stop:
        raise Stop(f"{stop}{kept.left()}", stop.status) from None
    regions = tile_plan.of_folder(said.folder).folders
    kept.look()
    publication_steps.look_at_tables(said, last)
    if said.source:
        say(f"asking whether the regions say what {said.source} says")
        print(second_checker.of_source(said.source, said.folder), flush=True)
    if said.lineage:
        region_split.deal(said.lineage, regions, said.folder, say)
    is_marked = look_at_tables(said.folder, regions)
    if engines.cut(command, said, say):
        return publication_steps.STOPPED
    say("checking the country")
    files = [*TOP_FILES, *(os.path.join(region, name) for region in regions for name in REGION_FILES)]
    size, size_of_parcels = size_of(said.folder, files), size_of(
        said.folder, [os.path.join(region, "parcels.csv") for region in regions]
    )
    wanted = compare(
        said.folder, answer(command, ["country", said.folder], False, progress.Bytes("country", "checking", size))
    )
    print(f"the counts and the area are those of the source: {' '.join(wanted)}", flush=True)
    publication_steps.compare(said, last, marks, kept.of(last), said.jobs or len(os.sched_getaffinity(0)))
    with ledger.held(said.register) as log:
        before = ledger.content_of(said.register) if last else {}
        if not said.new:
            publication_steps.back_up(said.register, said.year)
        options, cert = [], None
        if is_marked:
            cert = os.path.join(said.folder, "exact.txt")
            say("looking for the borders of marked splits and merges")
            print(
                answer(
                    command,
                    ["exact-country", said.register, said.folder, cert],
                    False,
                    progress.Bytes("country", "marked rows", size + MARKED * size_of_parcels),
                )[-1],
                end="",
                flush=True,
            )
            options = [f"--exact={cert}"]
        say(f"keeping a copy of the country for {kept.place}")
        with kept.copied([*files, *(["exact.txt"] if cert else [])]), publication_steps.publishing(said):
            say("publishing the country")
            print("".join(f"{line}\n" for line in publication_steps.source_lines(said.folder)), end="", flush=True)
            lines = answer(
                command,
                ["publish-country", said.register, str(said.year), said.folder],
                True,
                progress.Bytes("country", "publishing", size + (LATER if last else FIRST) * size_of_parcels),
                options,
            )
            printed = publication_steps.write_printed(said, "".join(lines).encode())
            say("the line of the log: digests of what was published, and of the register")
            entry = publication_steps.entry_of(said, command, files, cert, printed, before, kept.place)
            digest = ledger.add(log, said.register, entry)
            wrong = kept.settle(printed, said.register, entry)
            for folder in (said.folder, kept.place):
                table_standing.published(folder, said.year, said.register)
    if kinds := by_kind(lines):
        print(f"dropped identifiers, a line each in {printed}: {kinds}")
    print(
        f"what was printed is in {printed}\nlog {ledger.path_of(said.register)} line sha256 {digest}\nthe year is kept"
        f" in {kept.place}"
    )
    if wrong:
        say(
            progress.Note(
                f"{kept.place} is not what was published, since files changed meanwhile: {' '.join(wrong[:MOST_TOLD])}"
            )
        )
    for line in origin.balance_lines(origin.facts(said.folder, None)):
        print(line)
    return publication_steps.STOPPED if wrong else 0
