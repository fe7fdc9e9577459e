"""What a folder of tables is, in lines: what made it and of which source, which steps are done, what stops, what is
published of it, and what changed since. It reads alone."""

from __future__ import annotations

import os
from collections.abc import Iterator

from ..country import engines
from ..formats import tile_plan
from ..preparation import decisions, origin
from . import table_standing
from ..system import installation
from ..system.printing import counted

DONE, STOPS = 0, 1
MOST_TOLD = 5
TABLES = ("parcels.csv", "covers.csv", "classes.csv")


def told(folder: str) -> tuple[list[str], int]:
    """The lines of a folder, and 1 where something stops it from being published as it is."""
    found, stops = table_standing.of(folder), []
    if reason := table_standing.why_not(folder):
        stops.append(reason)
    lines = [f"{folder} is {kind_of(folder)}", *lines_of_run(folder, found, stops)]
    lines += [*lines_of_country(folder, stops)] if is_country(folder) else [*lines_of_release(folder, stops)]
    lines += [*lines_of_reports(folder, found), *lines_of_years(folder, found)]
    next_step = next_of(folder, stops, is_published(found))
    return [*lines, *(f"stops: {one}" for one in stops), f"next: {next_step}"], STOPS if stops else DONE


def is_country(folder: str) -> bool:
    return os.path.isfile(os.path.join(folder, tile_plan.FILE))


def kind_of(folder: str) -> str:
    if not os.path.isdir(folder):
        raise FileNotFoundError(f"{folder} is no folder")
    if is_country(folder):
        return "a country"
    return "a release" if os.path.isfile(os.path.join(folder, "parcels.csv")) else "a folder without tables"


def lines_of_run(folder: str, found: table_standing.Standing | None, stops: list[str]) -> Iterator[str]:
    """The last run, its sources, and the tables that are not as it made them."""
    if found is None:
        yield "made: nothing is known of the run that made it, nor of its source"
        return
    yield (
        f"made: {found.state}, by {found.run or 'an unknown run'}, begun"
        f" {found.began or 'at an unknown time'}" + (f", ended {found.ended}" if found.ended else "")
    )
    for source in found.sources:
        change = source.change()
        yield (
            f"{source.what}: {source.name}{f' sha256 {source.digest}' if source.digest else ''}:"
            f" {change or 'as it was'}"
        )
        if change and source.is_there() and found.state == table_standing.WHOLE:
            stops.append(f"{change}: run `{found.run}` again")
    if found.state == table_standing.WHOLE:
        changed = table_standing.changed_of(folder, found.tables)
        yield (
            f"tables: {counted(len(found.tables), 'file')},"
            f" {named(changed, 'changed since') if changed else 'as they were made'}"
        )


def named(names: list[str], what: str) -> str:
    return f"{len(names)} {what}: {' '.join(names[:MOST_TOLD])}{' ..' if len(names) > MOST_TOLD else ''}"


def lines_of_country(folder: str, stops: list[str]) -> Iterator[str]:
    regions = tile_plan.of_folder(folder).folders
    counts = engines.counts_of(folder)
    yield (
        f"split: {counted(len(regions), 'region')},"
        f" {' '.join(counts) if counts else 'and no counts of a source (split.txt)'}"
    )
    uncut = [region for region in regions if not engines.is_cut(folder, region)]
    yield f"cut: {len(regions) - len(uncut)} of {len(regions)} regions" + (f"; {named(uncut, 'wait')}" if uncut else "")
    without = [region for region in regions if not os.path.isfile(os.path.join(folder, region, "lineage.csv"))]
    if without:
        stops.append(f"{named(without, 'regions have no lineage.csv')}")
    left = [
        name for name in sorted(os.listdir(folder)) if table_standing.REGION.fullmatch(name) and name not in regions
    ]
    if left:
        yield f"left over: {named(left, 'folders of an earlier split')}"


def lines_of_release(folder: str, stops: list[str]) -> Iterator[str]:
    lacking = [name for name in TABLES if not os.path.isfile(os.path.join(folder, name))]
    if lacking:
        stops.append(f"{folder} has no {' and no '.join(lacking)}")
    elif os.path.isfile(os.path.join(folder, "cert.txt")):
        yield f"certificate: cert.txt is {'no older than' if engines.is_cut(folder, '') else 'older than'} the tables"
    if not lacking and not os.path.isfile(os.path.join(folder, "lineage.csv")):
        yield "lineage: there is no lineage.csv; a first year needs none"


def lines_of_reports(folder: str, standing: table_standing.Standing | None) -> Iterator[str]:
    """What the last run found; and of tables that are whole what was left out, changed and accepted before them."""
    if states := decisions.states(folder):
        told = ", ".join(f"{count} {state}" for state, count in states.items())
        yield f"findings: {told}: see {os.path.join(folder, decisions.FILE)}"
    if (standing is None or standing.state == table_standing.WHOLE) and (found := origin.facts(folder, None)):
        yield from (f"before the tables: {line}" for line in origin.lines(found))


def lines_of_years(folder: str, found: table_standing.Standing | None) -> Iterator[str]:
    """The years as which tables of the folder were published."""
    now = digest_now(found)
    for one in found.published if found else ():
        same = "these tables" if one.get("tables") == now else "other tables than these"
        yield f"published: {one.get('year')} in {one.get('register')} on {one.get('when')}, {same}"
    if not found or not found.published:
        yield "published: nothing"


def digest_now(found: table_standing.Standing | None) -> str:
    """That of the tables as their run made them; empty where that is not known."""
    return table_standing.digest_of_tables(found.tables) if found and found.state == table_standing.WHOLE else ""


def is_published(found: table_standing.Standing | None) -> bool:
    """Whether the tables are those that were published last."""
    return bool(found and found.published and found.published[-1].get("tables") == digest_now(found))


def next_of(folder: str, stops: list[str], is_done: bool) -> str:
    if stops:
        return "mend what stops"
    if is_done:
        return "nothing: these tables are published; next year's release gets a folder of its own"
    return installation.here(
        f"tools/country publish DB YEAR {folder}" if is_country(folder) else f"tools/year DB YEAR {folder}"
    )
