"""The pages about a release: its report, and its faults."""

from __future__ import annotations

import datetime
import os
from collections import Counter
from decimal import Decimal

from ..faults import fault_search
from ..formats import polygons, register_rows
from ..preparation import origin
from . import decision_tables, finding_views, html_page
from ..system import files
from . import release_report as reports
from ..formats.square_metres import AREA, both, decimal, hectares
from ..system.printing import counted

MOST_STRAYS = 20  # that are named


def chart_of(land, marks, picture, old=None, kinds=None, of_mark="faults"):
    """The map of a release. `old` has shapes of an older one, `kinds` what became of parcels, `picture` what is
    wrong."""
    kinds = kinds or {}
    parcels, pieces = html_page.Layer(), html_page.Layer(classes=[])
    for name, members in land.parcels.items():
        parcels.add(name, members, kind=kinds.get(name))
    for name, _, land_class, members in land.pieces:
        pieces.add(name, members)
        pieces.classes.append(land_class)
    return html_page.Map(
        parcels,
        pieces,
        old,
        marks=marks,
        strays=reports.strays(land),
        findings=picture.layer,
        of_mark=of_mark,
        pictures=picture.pictures(),
    )


def numbers_of(land):
    """What a click on a row shows, by a parcel's identifier."""
    return {name: ("parcels", number) for number, name in enumerate(land.parcels)}


def write_faults(path, folder, features):
    """The page of `tools/faults`."""
    land, picture = reports.read(folder), finding_views.Picture(finding_views.of_features(features))
    facts = [
        ("release", os.path.abspath(folder)),
        ("made", datetime.datetime.now(datetime.timezone.utc).strftime("%Y-%m-%d %H:%M UTC")),
        ("parcels", len(land.parcels)),
        ("pieces", len(land.pieces)),
        ("faults", fault_search.count_of(features)),
    ]
    title = f"Faults of {os.path.basename(os.path.abspath(folder))}"
    answer = counted(fault_search.count_of(features), "fault") if features else "no faults"
    write(
        path,
        html_page.page(title, answer, not features, facts, chart_of(land, picture.marks, picture), picture.tables()),
    )


def write_release(path, report, title="", lead=()):
    """The page of a report, with its findings: faults of the release, and what was found before its tables were
    made."""
    facts, land = report.facts, report.land
    findings = finding_views.of_package(os.path.join(report.folder, finding_views.PACKAGE), is_settled=True)
    picture = finding_views.Picture([*finding_views.of_features(report.features), *findings])
    marks = picture.marks
    if not report.features and "place" in facts.get("refusal", {}):
        marks = [*marks, (*(float(value) * 1000 for value in facts["refusal"]["place"]), facts["refusal"]["line"])]
    old, kinds = older(report)
    tables = [*picture.tables(), *decision_tables.tables_of(report.folder, picture), classes_table(facts["classes"])]
    tables += origin_tables(facts["origin"])
    tables += difference_tables(report, old)
    tables.append(parcels_table(report))
    chart = chart_of(land, marks, picture, old, kinds, finding_views.PLACE if facts["answer"] == "yes" else "faults")
    write(
        path,
        html_page.page(
            title or f"Release {os.path.basename(facts['folder'])}",
            facts["answer"],
            facts["answer"] == "yes",
            facts_of(facts),
            chart,
            tables,
            lead,
        ),
    )


def write(path, text):
    with files.anew(path) as file:
        file.write(text)


def facts_of(facts):
    """The head of the page."""
    made = facts["program"]
    name = (
        " ".join(filter(None, [made["version"], made["commit"] and f"commit {made['commit']}", made["kit"]]))
        or made["path"]
    )
    rows = [
        *(("before the tables", words) for words in origin.lines(facts["origin"])),
        ("made", facts["date"]),
        ("release", facts["folder"]),
        ("answer of lpis check", f"{facts['answer']} (status {facts['status']})"),
        ("program", name),
        ("sha256 of the program", made["sha256"]),
        *((f"sha256 of {name}", f"{file['sha256']} ({file['bytes']} bytes)") for name, file in facts["files"].items()),
        ("parcels", facts["parcels"]),
        ("pieces", facts["pieces"]),
        ("area", both(facts["area"])),
        ("eligible area", both(facts["eligible"])),
    ]
    if facts["extent"]:
        rows.append(
            (
                "extent in metres",
                "x {least_x} to {greatest_x}, y {least_y} to {greatest_y}: {width} wide, {height} high".format(
                    **facts["extent"]
                ),
            )
        )
        stray = facts["extent"]["stray"]
        if stray:
            more = f" and {len(stray) - MOST_STRAYS} more" if len(stray) > MOST_STRAYS else ""
            rows.append(("far from all others", " ".join(stray[:MOST_STRAYS]) + more))
    if "register" in facts:
        rows.append(("register", f"{facts['register']['path']}: {register_rows.in_words(facts['register'])}"))
    return rows + [("", words) for words in facts.get("refusal", {}).get("words", [])]


def origin_tables(found):
    """What was left out, mended and settled before the tables, and the balance of land."""
    if found is None:
        return []
    tables = (
        [html_page.Table("Before the tables", origin.COLUMNS, origin.rows(found), is_mixed=True)]
        if origin.rows(found)
        else []
    )
    return tables + (
        [html_page.Table("Balance of land", origin.BALANCE, origin.balance_rows(found), is_mixed=True)]
        if found["balance"]
        else []
    )


def classes_table(classes):
    return html_page.Table(
        "Classes",
        ["class", "#percent", "#pieces", "#area m\u00b2", "#eligible m\u00b2"],
        [["" if value is None else value for value in row.values()] for row in classes],
    )


def parcels_table(report):
    counts = Counter(piece[1] for piece in report.land.pieces)
    rows = [
        [
            name,
            counts[name],
            *(
                report.parcels[name].values()
                if name in report.parcels
                else (decimal(polygons.doubled(members), AREA), "")
            ),
        ]
        for name, members in report.land.parcels.items()
    ]
    return html_page.Table(
        "Parcels",
        ["parcel", "#pieces", "#area m\u00b2", "#eligible m\u00b2"],
        rows,
        list(numbers_of(report.land).values()),
    )


def older(report):
    """Shapes of the older release that the map shows, those of gone and of moved parcels; and what became of the
    parcels that are there."""
    if report.before is None:
        return None, {}
    found, old = report.facts["difference"], html_page.Layer(words=[])
    moved = [row["parcel"] for row in found["moved"] or []]
    for name in [row["parcel"] for row in found["gone"]]:
        old.add(name, report.before.parcels[name], "gone", "gone")
    for name in moved:
        old.add(name, report.before.parcels[name], "before it moved", "moved")
    kinds = {
        **{row["parcel"]: "changed" for row in found["changed"]},
        **{row["parcel"]: "new" for row in found["new"]},
        **dict.fromkeys(moved, "moved"),
    }
    return old, kinds


def difference_tables(report, old):
    if report.before is None:
        return []
    numbers = {**{name: ("old", number) for number, name in enumerate(old.names)}, **numbers_of(report.land)}
    return changes_tables(report.facts, numbers)


def changes_tables(facts, numbers=None):
    """What differs from an older year; `numbers` say which shape a row shows."""
    if "difference" not in facts:
        return []
    found = facts["difference"]
    rows = [["moved", row["parcel"], "", "", row["words"]] for row in found["moved"] or []]
    rows += [
        [
            "new",
            row["parcel"],
            "",
            row["area"],
            "from " + " ".join(row["from"]) if row["from"] else "in no row of lineage",
        ]
        for row in found["new"]
    ]
    rows += [["gone", row["parcel"], row["area"], "", became(row)] for row in found["gone"]]
    rows += [
        [
            "changed",
            row["parcel"],
            row["before"],
            row["after"],
            f"{row['difference']} m\u00b2" + (f", also from {' '.join(row['from'])}" if row["from"] else ""),
        ]
        for row in found["changed"]
    ]
    others, unlooked = (
        found["other_shape_same_area"],
        "" if found["moved"] is not None else "; whether kept ones moved was not looked for: Shapely is not there",
    )
    kept = (
        f"{counted(found['kept'], 'parcel')} {'is as it was' if found['kept'] == 1 else 'are as they were'}"
        + (f", {len(others)} {'has' if len(others) == 1 else 'have'} another shape of the same area" if others else "")
        + unlooked
    )
    keys = [numbers.get(row[1]) for row in rows] if numbers else []
    return [
        html_page.Table(
            f"Since {found['old']}: {'; '.join([*sums_of(found), kept])}",
            ["what", "parcel", "#area before m\u00b2", "#area after m\u00b2", "more"],
            rows,
            keys,
            is_mixed=True,
        )
    ]


def sums_of(found):
    """The area of each kind of what differs, which no other kind is added to."""
    for kind, columns in (("new", ("area",)), ("gone", ("area",)), ("changed", ("before", "after"))):
        if found[kind]:
            yield (
                f"{len(found[kind])} {kind},"
                f" {' before and '.join(hectares(sum(Decimal(row[column]) for row in found[kind])) for column in columns)}{' after' if len(columns) > 1 else ''}"  # noqa: E501
            )


def became(row):
    """What lineage has of a parcel that is gone."""
    if not row["explained"]:
        return "no row of lineage explains it"
    return " ".join(filter(None, ["to " + " ".join(row["to"]) if row["to"] else "", "ended" if row["ended"] else ""]))
