"""A report about a release that an auditor can keep: what `lpis check` answered, of which bytes by which program, sums
by class, the extent, what became of the parcels of an older release, which years a register has."""

from __future__ import annotations

import contextlib
import datetime
import os
from dataclasses import dataclass, field

from ..faults import explanation
from ..formats import codes, polygons, register_rows
from ..lineage import release_differences
from ..preparation import origin
from ..register import ledger
from ..system import processes, program
from ..formats.square_metres import AREA, ELIGIBLE, decimal
from ..system.files import digest
from ..formats.byte_tables import Table, path_of, shown
from ..system.trouble import Trouble

TABLES = ("parcels", "covers", "classes")
LACKING = "failed read cert"
MOST_DIGITS = 9  # of a percentage that is shown; more are refused as it is


def digests(paths):
    there = {name: path for name, path in paths.items() if os.path.isfile(path)}
    return {
        name: {"path": there[name], "bytes": os.path.getsize(there[name]), "sha256": found}
        for name, found in ledger.digests_of(there, "digests").items()
    }


@dataclass
class Land:
    """What can be read of a release's tables, fault or none."""

    parcels: dict = field(default_factory=dict)  # identifier to members
    pieces: list = field(default_factory=list)  # (piece, parcel, class, members)
    percents: dict = field(default_factory=dict)


def read(folder):
    land = Land()
    for table, record in records(folder, "parcels"):
        if members := polygons.read(table.field(record, "wkt")):
            land.parcels.setdefault(shown(table.field(record, "parcel")), members)
    for table, record in records(folder, "covers"):
        if members := polygons.read(table.field(record, "wkt")):
            land.pieces.append((*(shown(table.field(record, name)) for name in ("piece", "parcel", "class")), members))
    land.percents = percents(folder)
    return land


def percents(folder):
    """The percentage of each class of a folder; None where it is no number that can be shown."""
    found = {}
    for table, record in records(folder, "classes"):
        column, factor = ("percent", 1) if "percent" in table.names else ("eligible", 100)
        text = table.field(record, column)
        found[shown(table.field(record, "class"))] = (
            int(text) * factor if text.isdigit() and len(text) <= MOST_DIGITS else None
        )
    return found


def records(folder, name):
    """The records of a table, each with the table; none where it is not there, which lpis says."""
    with contextlib.suppress(FileNotFoundError):
        table = Table(path_of(folder, name), name)
        yield from ((table, record) for _, record in table.rows())


def by_class(land):
    """Pieces, area and eligible area of each class, and of all."""
    sums = {name: [0, 0] for name in land.percents}
    for _, _, name, members in land.pieces:
        count = sums.setdefault(name, [0, 0])
        count[0] += 1
        count[1] += polygons.doubled(members)
    rows = [
        {
            "class": name,
            "percent": land.percents.get(name),
            "pieces": count,
            "area": decimal(area, AREA),
            "eligible": decimal(area * (land.percents.get(name) or 0), ELIGIBLE),
        }
        for name, (count, area) in sorted(sums.items())
    ]
    area = sum(area for _, area in sums.values())
    eligible = sum(area * (land.percents.get(name) or 0) for name, (_, area) in sums.items())
    return rows, {"area": decimal(area, AREA), "eligible": decimal(eligible, ELIGIBLE)}


def extent(land):
    box = polygons.box(list(land.parcels.values()) + [piece[3] for piece in land.pieces])
    if box is None:
        return None
    left, low, right, high = box
    return {
        "least_x": polygons.metres(left),
        "greatest_x": polygons.metres(right),
        "least_y": polygons.metres(low),
        "greatest_y": polygons.metres(high),
        "width": polygons.metres(right - left),
        "height": polygons.metres(high - low),
        "stray": strays(land),
    }


def strays(land):
    """Parcels that lie far from all others: a stray system of coordinates. Far is beyond ten times the extent of the
    middle eight tenths."""
    if len(land.parcels) < 10:
        return []
    found = set()
    for axis in (0, 1):
        places = sorted((members[0][0][0][axis], name) for name, members in land.parcels.items())
        count = len(places)
        low, high = places[count // 10][0], places[count - 1 - count // 10][0]
        reach = 10 * max(high - low, 1_000_000)
        found |= {name for place, name in places if place < low - reach or place > high + reach}
    return sorted(found)


def report_lines(text):
    """The parcels of a report of `lpis check`, and its counts and sums."""
    parcels, counts, totals = {}, {}, {}
    for line in text.splitlines():
        words = line.split()
        if words[:1] == ["parcels"] and len(words) == 4:
            counts = {"parcels": int(words[1]), "pieces": int(words[3])}
        elif words[:1] == ["parcel"] and len(words) == 6:
            parcels[words[1]] = {"area": words[3], "eligible": words[5]}
        elif words[:2] == ["total", "area"] and len(words) == 5:
            totals = {"area": words[2], "eligible": words[4]}
    return parcels, counts, totals


@dataclass
class Report:
    """What is known of a release in a folder: `facts` is what the JSON has, `parcels` the areas that lpis printed,
    `features` the faults."""

    facts: dict
    land: Land
    parcels: dict
    before: Land | None = None
    features: list = field(default_factory=list)
    folder: str = ""
    text: str = ""  # what lpis printed


def of_program(command):
    """Which program answered: its version, its digest, and what it was built of."""
    version = processes.run([*command, "--version"], capture_output=True, text=True, check=False).stdout.splitlines()
    known = program.facts(command)
    path = os.path.realpath(program.shutil.which(command[0]) or command[0])
    return {
        "path": path,
        "version": version[0] if version else "",
        "sha256": digest(path) if os.path.isfile(path) else "",
        "commit": program.commit_of(command),
        "kit": known.get("kit", ""),
    }


def answer_of(run):
    """`yes`, or the line of lpis that says otherwise."""
    lines = run.stdout.splitlines()
    if run.returncode == 0 and lines[-1:] == ["yes"]:
        return "yes"
    return (lines[-1:] or run.stderr.splitlines()[-1:] or ["lpis printed nothing"])[0]


def files_of(folder, cert):
    paths = {**{f"{name}.csv": path_of(folder, name) for name in TABLES}, **({"certificate": cert} if cert else {})}
    if os.path.exists(path_of(folder, "lineage")):
        paths["lineage.csv"] = path_of(folder, "lineage")
    return digests({**paths, **origin.paths(folder)})


def checked(command, folder, *cert):
    """What `lpis check` says. Where a certificate is named that is not there, since the release gets none, what is
    said without it."""
    run = processes.run(program.call(command, "check", folder, *cert), capture_output=True, text=True, check=False)
    if cert and not os.path.lexists(*cert) and answer_of(run) == LACKING:
        without = checked(command, folder)
        return without if without.returncode in (1, 2) else run
    return run


def make(command, folder, cert=None, old=None, register=None):
    """Runs `lpis check`, by a certificate where one is named, and reports what is known of a release."""
    began = datetime.datetime.now(datetime.timezone.utc)
    files = files_of(folder, cert)
    run = checked(command, folder, *([cert] if cert else []))
    if files_of(folder, cert) != files:
        raise Trouble("a table or the certificate changed while it was read: make the report again")
    answer, land = answer_of(run), read(folder)
    parcels, counts, totals = report_lines(run.stdout if answer == "yes" else "")
    classes, sums = by_class(land)
    if answer == "yes" and (sums != totals or counts != {"parcels": len(land.parcels), "pieces": len(land.pieces)}):
        raise Trouble(
            f"lpis reports {totals} of {counts}, and the tables have {sums} by this tool: one of the two is wrong"
        )
    facts = {
        "date": began.strftime("%Y-%m-%dT%H:%M:%SZ"),
        "folder": os.path.abspath(folder),
        "program": of_program(command),
        "files": files,
        "answer": answer,
        "status": run.returncode,
        "parcels": len(land.parcels),
        "pieces": len(land.pieces),
        **sums,
        "classes": classes,
        "extent": extent(land),
        "origin": origin.facts(folder, classes),
    }
    if answer != "yes":
        facts["refusal"] = refusal_of(answer, folder, cert)
    if register is not None:
        facts["register"] = register_rows.facts(register)
    before = read(old) if old is not None else None
    if before is not None:
        facts["difference"] = {"old": os.path.abspath(old), **release_differences.difference(before, land, folder)}
    return Report(facts, land, parcels, before, folder=folder, text=run.stdout)


def refusal_of(line, folder, cert):
    explained = explanation.Explained(line, folder, cert)
    facts = {"line": line, "words": explained.words}
    if explained.refusal:
        facts.update(
            code=explained.refusal.code,
            meaning=codes.CODES.get(explained.refusal.code, ("",))[0],
            identifiers=explained.refusal.names,
        )
    if explained.place:
        facts["place"] = [f"{float(value / 1000):.6f}" for value in explained.place]
    return facts
