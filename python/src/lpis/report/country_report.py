"""A report about a country that an auditor can keep: what `lpis country` answered, of which bytes by which program, by
regions, and which years a register has; as JSON, and as a page with the map of its tiles."""

from __future__ import annotations

import datetime
import os
import subprocess
from dataclasses import dataclass, field

from ..formats import polygons, register_rows, table_streams, tile_plan
from ..lineage import release_differences
from ..preparation import origin
from . import country_changes, decision_tables, finding_views, html_page, release_page, release_report
from ..system import file_progress, processes, program, progress
from ..formats.square_metres import AREA, both, decimal, hectares
from ..faults.explanation import Explained
from ..system.printing import counted

CELLS = 60  # squares of the map's longer side, in which findings are counted
MOST_NEAR = 5_000  # parcels that are drawn beside the worst findings
FILES = ("parcels", "covers", "classes")
# of a region's row
KEYS = ("parcels", "pieces", "area", "eligible", "findings", "accepted", "new", "gone", "changed", "moved")


@dataclass
class Region:
    """A region's rows of parcels: those that no earlier tile meets, and the box of all of them."""

    count: int = 0
    near: list = field(default_factory=list)  # those beside the worst findings: name and polygons
    box: tuple | None = None
    doubled: int = 0  # area of those that no earlier tile meets, in square millimetres


@dataclass
class Country:
    """What is known of a country: `facts` is what the JSON has."""

    facts: dict
    tiling: tile_plan.Tiling
    regions: dict
    picture: finding_views.Picture
    place: tuple | None = None


def is_one(folder):
    return os.path.isfile(os.path.join(folder, "country.txt"))


def answered(command, folder, size):
    """What `lpis country` says of a folder with so many bytes."""
    said = program.call(command, "country", folder)
    with processes.start(said, stdout=subprocess.PIPE, stderr=subprocess.PIPE, text=True) as run, file_progress.Watched(
        run.pid, progress.Bytes("report", "checking the country", size)
    ):
        told = run.communicate()
    return subprocess.CompletedProcess(said, run.returncode, *told)


def is_near(box, windows):
    return any(
        box[0] < right and box[2] > left and box[1] < high and box[3] > low for left, low, right, high in windows
    )


def read_region(folder, name, number, tiling, shown, windows):
    """Reads the parcels of a region; those in the windows are kept with their polygons."""
    region = Region()
    table = table_streams.Stream(table_streams.Folder(os.path.join(folder, name)), "parcels", ("parcel", "wkt"))
    for _, (parcel, text), raw in table:
        shown.took(len(raw))
        found = table_streams.measured(text)
        if found is None:
            continue
        box, doubled = found
        region.box = (
            box
            if region.box is None
            else (
                min(region.box[0], box[0]),
                min(region.box[1], box[1]),
                max(region.box[2], box[2]),
                max(region.box[3], box[3]),
            )
        )
        if min(tiling.met(box), default=number) == number:
            region.count += 1
            region.doubled += doubled
            if len(region.near) < MOST_NEAR and is_near(box, windows):
                region.near.append((table_streams.shown(parcel), polygons.read(text.encode())))
    return region


def lines_of(text):
    """The regions of a report of `lpis country`, and the country's counts and sums."""
    regions, totals = {}, {}
    for line in text.splitlines():
        words = line.split()
        if words[:1] == ["region"] and len(words) == 10:
            regions[words[1]] = {
                "parcels": int(words[3]),
                "pieces": int(words[5]),
                "area": words[7],
                "eligible": words[9],
            }
        elif words[:2] == ["country", "regions"] and len(words) == 11:
            totals = {
                "regions": int(words[2]),
                "parcels": int(words[4]),
                "pieces": int(words[6]),
                "area": words[8],
                "eligible": words[10],
            }
    return regions, totals


def files_of(folder, tiling):
    names = [
        f"{region}/{name}"
        for region in tiling.folders
        for name in (*(f"{table}.csv" for table in FILES), "cert.txt", "lineage.csv")
    ]
    return release_report.digests(
        {name: os.path.join(folder, name) for name in ["country.txt", "classes.csv", *names, "exact.txt"]}
    )


def make(command, folder, register=None, old=None):
    """Runs `lpis country`, and reports what is known of the country, of a register, and of an older year."""
    began = datetime.datetime.now(datetime.timezone.utc)
    tiling = tile_plan.of_folder(folder)
    files = files_of(folder, tiling)
    run = answered(command, folder, sum(file["bytes"] for file in files.values()))
    if files_of(folder, tiling) != files:
        raise release_report.Trouble("a table or a certificate changed while it was read: make the report again")
    answer, (passed, totals) = release_report.answer_of(run), lines_of(run.stdout)
    picture = finding_views.Picture(
        finding_views.of_package(os.path.join(folder, finding_views.PACKAGE), is_settled=True)
    )
    windows = picture.windows()
    shown, regions = (
        progress.Bytes(
            "report",
            "reading the parcels",
            sum(file["bytes"] for name, file in files.items() if name.endswith("/parcels.csv")),
        ),
        {},
    )
    for number, name in enumerate(tiling.folders):
        if os.path.isfile(os.path.join(folder, name, "parcels.csv")):
            regions[name] = read_region(folder, name, number, tiling, shown, windows)
    shown.end()
    count, area = sum(region.count for region in regions.values()), decimal(
        sum(region.doubled for region in regions.values()), AREA
    )
    if answer == "yes" and (
        (totals.get("parcels"), totals.get("area")) != (count, area) or list(passed) != tiling.folders
    ):
        raise release_report.Trouble(
            f"lpis reports {totals} of {len(passed)} regions, and the tables have {count} parcels with {area} m2 of"
            f" {len(regions)} by this tool: one of the two is wrong"
        )
    facts = {
        "date": began.strftime("%Y-%m-%dT%H:%M:%SZ"),
        "folder": os.path.abspath(folder),
        "program": release_report.of_program(command),
        "files": files,
        "answer": answer,
        "status": run.returncode,
        "country": totals,
        "origin": origin.facts(folder, None),
    }
    by_tile, facts["nowhere"] = country_changes.reported(folder, tiling)
    if old is not None:
        found, changed = country_changes.difference(old, folder, tiling)
        facts["difference"], by_tile = {"old": os.path.abspath(old), **found}, {
            name: {**row, **changed[name]} for name, row in by_tile.items()
        }
    facts["regions"] = [{"region": name, **passed.get(name, {}), **by_tile[name]} for name in tiling.folders]
    if register is not None:
        facts["register"] = register_rows.facts(register)
    country = Country(facts, tiling, regions, picture)
    if answer != "yes":
        explained = Explained(answer, folder)
        facts["refusal"] = {"line": answer, "words": explained.words}
        country.place = explained.place
    return country


def lines(country):
    """What is printed."""
    facts = country.facts
    counted = [
        f"region {row['region']}"
        + (
            f" parcels {row['parcels']} pieces {row['pieces']} area {row['area']} ({hectares(row['area'])})"
            if "area" in row
            else " has no answer"
        )
        + country_changes.in_words(row)
        for row in facts["regions"]
    ]
    totals = facts["country"]
    return [
        facts["answer"],
        *(f"  {words}" for words in facts.get("refusal", {}).get("words", [])),
        *counted,
        *(
            [
                f"country regions {totals['regions']} parcels {totals['parcels']} area"
                f" {totals['area']} ({hectares(totals['area'])})"
            ]
            if totals
            else []
        ),
        *(origin.lines(facts["origin"]) if facts["origin"] else []),
        *country_changes.without_place(facts["nowhere"]),
        *(
            [f"since {facts['difference']['old']}: {release_differences.in_words(facts['difference'])}"]
            if "difference" in facts
            else []
        ),
        *([f"register {register_rows.in_words(facts['register'])}"] if "register" in facts else []),
    ]


def chart_of(country):
    """The map of what was settled and left out before the tables, with the regions: how many findings lie in each
    square, and each of them with its state; beside the worst the parcels."""
    picture = country.picture
    boxes = [region.box for region in country.regions.values() if region.box]
    whole = (
        (min(b[0] for b in boxes), min(b[1] for b in boxes), max(b[2] for b in boxes), max(b[3] for b in boxes))
        if boxes
        else (0, 0, 1, 1)
    )
    layer = html_page.Layer(words=[])
    for row, tile in zip(country.facts["regions"], country.tiling.boxes()):
        box = [max(tile[0], whole[0]), max(tile[1], whole[1]), min(tile[2], whole[2]), min(tile[3], whole[3])]
        if box[0] >= box[2] or box[1] >= box[3]:  # of a tile without land a mere point
            box[2], box[3] = box[0], box[1]
        left, low, right, high = box
        words = f"{counted(row['parcels'], 'parcel')}, {hectares(row['area'])}" if "area" in row else "has no answer"
        layer.add(row["region"], [[[(left, low), (right, low), (right, high), (left, high), (left, low)]]], words)
    parcels = html_page.Layer()
    for name, members in (one for region in country.regions.values() for one in region.near):
        parcels.add(name, members or [])
    marks = [
        *picture.marks,
        *([(*map(float, country.place), country.facts["answer"])] if country.place else []),
    ]
    return html_page.Map(
        parcels,
        tiles=layer,
        marks=marks,
        findings=picture.layer,
        of_mark=finding_views.PLACE if country.facts["answer"] == "yes" else "faults",
        cells=picture.cells(whole, CELLS),
        pictures=picture.pictures(),
        counted="finding",
        whole=whole,
    )


def write(path, country):
    """The page of a country."""
    facts, made, totals = country.facts, country.facts["program"], country.facts["country"]
    name = (
        " ".join(filter(None, [made["version"], made["commit"] and f"commit {made['commit']}", made["kit"]]))
        or made["path"]
    )
    head = [
        ("made", facts["date"]),
        ("country", facts["folder"]),
        ("answer of lpis country", f"{facts['answer']} (status {facts['status']})"),
        ("program", name),
        ("sha256 of the program", made["sha256"]),
    ]
    if totals:
        head += [
            ("regions", totals["regions"]),
            ("parcels", totals["parcels"]),
            ("pieces", totals["pieces"]),
            ("area", both(totals["area"])),
            ("eligible area", both(totals["eligible"])),
        ]
    head += [("register", register_rows.in_words(facts["register"]))] if "register" in facts else []
    head += [("", words) for words in facts.get("refusal", {}).get("words", [])]
    heads = (
        {3: f"in the country {hectares(totals['area'])}", 4: f"in the country {hectares(totals['eligible'])}"}
        if totals
        else {}
    )
    head += [
        ("before the tables", words)
        for words in (*origin.lines(facts["origin"]), *country_changes.without_place(facts["nowhere"]))
    ]
    rows = [[row["region"], *(row.get(key, "") for key in KEYS)] for row in facts["regions"]]
    regions = html_page.Table(
        "Regions (a parcel that meets several tiles counts in each of them, and once in the country)",
        ["region", "#parcels", "#pieces", "#area m\u00b2", "#eligible m\u00b2", *(f"#{key}" for key in KEYS[4:])],
        rows,
        [("tiles", number) for number in range(len(rows))],
        heads,
        is_mixed=True,
    )
    files = html_page.Table(
        "Files",
        ["file", "#bytes", "sha256"],
        [[name, file["bytes"], file["sha256"]] for name, file in facts["files"].items()],
    )
    title = f"Country {os.path.basename(facts['folder'])}"
    release_page.write(
        path,
        html_page.page(
            title,
            facts["answer"],
            facts["answer"] == "yes",
            head,
            chart_of(country),
            [
                *country.picture.tables(),
                *decision_tables.tables_of(facts["folder"], country.picture),
                regions,
                *release_page.origin_tables(facts["origin"]),
                *release_page.changes_tables(facts),
                files,
            ],
        ),
    )
