#!/usr/bin/env python3
"""Tests marked splits and merges a second time, beside `lpis publish`:   python3 audit/lineage.py OLD NEW CERT

OLD and NEW are folders of releases, one behind the other, and CERT is the certificate with which NEW is published.
Where it is good, the rows of NEW/lineage.csv fit, and no marked split or merge loses or gains a point, it prints how
many there are: status 0. Else `no` and a fault: status 1. Earlier years (76) and OLD's shapes: register.py.
"""

from collections import Counter, defaultdict

from release import need, read_parcels, read_release, read_table, run, test_certificate, test_corners, test_edges


def marked_groups(rows, marked, before):
    """Splits and then merges all of whose rows are marked: each its kind, its identifier, those on its other side, and
    its rows. The successor of a merge that was there before is a predecessor of its own, without a row."""
    news, olds, groups = defaultdict(list), defaultdict(list), []
    for old, new in filter(all, rows):
        news[old].append(new)
        olds[new].append(old)
    for old, found in sorted(news.items()):
        if len(found) > 1 and all(new not in before and len(olds[new]) == 1 for new in found):
            groups.append(("split", old, found, {(old, new) for new in found}))
    for new, found in sorted(olds.items()):
        if len(found) + (new in before) > 1 and all(len(news[old]) == 1 for old in found):
            groups.append(("merge", new, found + [new] * (new in before), {(old, new) for old in found}))
    return [group for group in groups if group[3] <= marked]


def row_faults(rows, marked, before, after):
    """What is wrong with the rows (old, new) of a release, by the identifiers before it and by its own."""
    dropped, ended = before - after, {old for old, new in rows if not new}
    followed, news = {old for old, new in rows if new}, {new for _, new in rows if new}
    grouped = {row for group in marked_groups(rows, marked, before) for row in group[3]}
    faults = {
        "70 or 71: it has a row, and is not dropped": (ended | followed) - dropped,
        "72: it is a successor, and not in the release": news - after,
        "73: the row is there twice": {row for row, count in Counter(rows).items() if count > 1},
        "74: it has an ending and a successor": ended & followed,
        "75: it is dropped, and has no row": dropped - ended - followed,
        "78: the row is marked, and is of no group that is": marked - grouped,
    }
    return [f"{words}: {found}" for words, all_found in faults.items() for found in sorted(all_found)]


def main(old, new, certificate):
    before, (after, pieces, _), table = read_parcels(old), read_release(new), read_table(new, "lineage")
    need(all(row.get("exact", "") in ("", "0", "1") for row in table), "lineage: a mark is neither 0 nor 1")
    rows = [(row["old"], row["new"]) for row in table]
    marked = {(row["old"], row["new"]) for row in table if row.get("exact") == "1"}
    faults = row_faults(rows, marked, before.keys(), after.keys())
    need(not faults, "\nno ".join(faults))
    groups, blocks = marked_groups(rows, marked, before), test_certificate(after, pieces, certificate)
    need([group[:2] for group in groups] == [block[:2] for block in blocks], "6a: other blocks than the marks want")
    for (kind, name, others, _), (_, _, flats) in zip(groups, blocks):
        whole, parts = (before, after) if kind == "split" else (after, before)
        edges = [edge for other in others for edge in parts[other]]
        test_corners("6c", name, flats, whole[name] + edges)
        test_edges(("6b", "6d"), name, whole[name], edges, flats)
    return f"exact {len(groups)}\n"


if __name__ == "__main__":
    run(main, "OLD", "NEW", "CERT")
