"""What `prepare` or a recipe reported on the way to the tables of a folder: prepared.csv, report.csv and balance.csv
beside them, summed by kind. A yes is about the tables; what was left out before them shows here alone."""

from __future__ import annotations

import csv
import os
import re
from collections import Counter

from ..formats import guarded_csv
from . import decisions, land_balance
from ..system.printing import counted, escaped

csv.field_size_limit(1 << 30)
FILES = ("prepared.csv", "report.csv", decisions.FILE, "balance.csv", "identifiers.csv")
NUMBER = re.compile(r"[+-]?[0-9]{1,18}(\.[0-9]{1,9})?", re.ASCII)
GONE = ("lost", "left out")
NEAR = 0.001  # square metres: the last digit of balance.csv
LAYERS = {"parcels": "parcel", "covers": "piece"}


def paths(folder):
    """The files that are there."""
    return {name: os.path.join(folder, name) for name in FILES if os.path.isfile(os.path.join(folder, name))}


def records(folder, name):
    path = os.path.join(folder, name)
    if not os.path.isfile(path):
        return []
    with open(path, newline="", encoding="utf-8", errors="replace") as file:
        try:
            for row in csv.DictReader(file):
                yield {name: guarded_csv.plain(value) for name, value in row.items() if isinstance(value, str)}
        except csv.Error as error:
            raise OSError(f"{path} cannot be read to its end: {error}") from None


def number(text):
    """A number as a run writes it; 0 in place of anything else."""
    return float(text) if text and NUMBER.fullmatch(text) else 0.0


def by_kind(rows, counted):
    """Rows and area of each kind and layer; `counted` says which rows count beside, whose area comes last."""
    sums = {}
    for row in rows:
        found = sums.setdefault((row.get("kind") or "", row.get("layer") or ""), [0, 0, 0.0, 0.0])
        found[0] += 1
        found[1] += counted(row)
        found[2] += number(row.get("area_m2"))
        found[3] += number(row.get("area_m2")) if counted(row) else 0.0
    return sums


def facts(folder, classes):
    """What stands beside the tables of a folder, or None. `classes` are the sums of the tables by class, where they
    are known."""
    if not paths(folder):
        return None
    prepared = by_kind(records(folder, "prepared.csv"), lambda row: bool(row.get("done")))
    report = by_kind(records(folder, "report.csv"), lambda row: row.get("stops") == "1")
    found = {
        "prepared": [
            {"kind": kind, "layer": layer, "rows": rows, "done": done}
            for (kind, layer), (rows, done, *_) in sorted(prepared.items())
        ],
        "report": [
            {
                "kind": kind,
                "layer": layer,
                "rows": rows,
                "stopping": stopping,
                "area": f"{area:.3f}",
                "area_of_stopping": f"{of_stopping:.3f}",
            }
            for (kind, layer), (rows, stopping, area, of_stopping) in sorted(report.items())
        ],
        "balance": list(records(folder, "balance.csv")),
    }
    found["gone"] = [
        {
            "layer": layer,
            "rows": sum(report[kind, layer][0] for kind in GONE if (kind, layer) in report),
            "area": f"{sum(report[kind, layer][2] for kind in GONE if (kind, layer) in report):.3f}",
        }
        for layer in LAYERS
        if any((kind, layer) in report for kind in GONE)
    ]
    found["accepted"] = dict(decisions.counts(folder))
    found["faults"] = faults(found["balance"], classes)
    return found


def faults(table, classes):
    """Why a balance does not add up, or is none of these tables."""
    wrong = [
        f"balance.csv does not add up: {row.get('class') or row.get('layer')} by {row.get('unaccounted_m2')} m2"
        for row in table
        if abs(number(row.get("unaccounted_m2"))) >= 0.5
    ]
    if not table or classes is None:
        return wrong
    of_balance = {
        row.get("class"): number(row.get("tables_m2"))
        for row in table
        if row.get("layer") == "covers" and row.get("class")
    }
    of_tables = {row["class"]: float(row["area"]) for row in classes if float(row["area"])}
    wrong += [
        f"balance.csv, report.csv and prepared.csv are of other tables: {name} has {of_balance.get(name, 0.0):.3f} m2"
        f" there, and {of_tables.get(name, 0.0):.3f} here"
        for name in sorted({*of_balance, *of_tables})
        if abs(of_balance.get(name, 0.0) - of_tables.get(name, 0.0)) > NEAR
    ]
    return wrong


def lines(found):
    """In words, for the page and for the terminal."""
    if found is None:
        return [
            "no file with the tables says what was left out or changed before them (prepared.csv, report.csv,"
            " balance.csv)"
        ]
    gone = [
        f"{counted(one['rows'], LAYERS[one['layer']])}, {land_balance.hectares(number(one['area']))} ha"
        for one in found["gone"]
    ]
    told = ["left out of the source: " + "; ".join(gone)] if gone else []
    changed = [
        f"{counted(row['stopping'], LAYERS[row['layer']])}, {land_balance.hectares(number(row['area_of_stopping']))} ha"
        for row in found["report"]
        if row["kind"] == "changed" and row["stopping"] and row["layer"] in LAYERS
    ]
    if changed:
        told.append(f"changed by more than rounding: {'; '.join(changed)}")
    accepted = sum(row["stopping"] for row in found["report"])
    if who := decisions.in_words(found["accepted"]):
        told.append(
            f"{who}; {counted(accepted, 'row')} of report.csv: {kinds_of(found['report'])}" if accepted else who
        )
    elif accepted:  # tables of an earlier version, which did not say by whom
        told.append(f"accepted: {counted(accepted, 'row')} of report.csv: {kinds_of(found['report'])}")
    return [*told, *found["faults"]] or ["nothing of the source was left out or changed by more than rounding"]


def kinds_of(report):
    """How many rows stop, of each kind."""
    counts = Counter()
    for row in report:
        counts[row["kind"]] += row["stopping"]
    return ", ".join(f"{count} {kind}" for kind, count in sorted(counts.items()) if count)


def brief(folder):
    """One line about what was left out, changed and accepted; nothing where nothing was."""
    found = facts(folder, None)
    return (
        ""
        if found is None or not (found["gone"] or found["faults"] or any(row["stopping"] for row in found["report"]))
        else escaped("; ".join(lines(found)))
    )


def balance_lines(found):
    """The last lines of the balance beside the tables, as its run printed them."""
    whole = land_balance.Balance({})
    for row in found["balance"] if found else ():
        layer, land_class = row.get("layer"), row.get("class") or ""
        if layer in LAYERS and (layer == "parcels") != bool(land_class):
            for column in land_balance.COLUMNS:
                whole.add((layer, land_class), column, number(row.get(f"{column.replace(' ', '_')}_m2")))
    words = whole.words() if whole.sums else []
    return [*words[:1], *words[-3:]]


def rows(found):
    """The rows of a table: file, kind, layer, rows, how many of them stop or were done, square metres."""
    told = [["prepared.csv", row["kind"], row["layer"], row["rows"], row["done"], ""] for row in found["prepared"]]
    return told + [
        ["report.csv", row["kind"], row["layer"], row["rows"], row["stopping"], row["area"]] for row in found["report"]
    ]


COLUMNS = ["file", "kind", "layer", "#rows", "#stopping or done", "#m\u00b2"]
BALANCE = ["layer", "class", "#source m\u00b2", "#mended", "#left out", "#settled", "#tables m\u00b2", "#unaccounted"]


def balance_rows(found):
    names = ("layer", "class", "source_m2", "mended_m2", "left_out_m2", "settled_m2", "tables_m2", "unaccounted_m2")
    return [
        [
            text if name in names[:2] or NUMBER.fullmatch(text) else ""
            for name in names
            for text in [row.get(name) or ""]
        ]
        for row in found["balance"]
    ]
