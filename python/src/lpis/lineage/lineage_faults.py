"""All faults of a table of lineage at once, where `lpis publish` reports the first: 70 to 78, and each marked split
or merge that would be 45."""

from dataclasses import dataclass

from .successions import Changes
from ..formats.codes import CODES


@dataclass(frozen=True)
class Fault:
    """A fault with its code, where it is, and more words where the code's own do not suffice."""

    code: str
    row: object = 0
    name: str = ""
    words: str = ""

    def line(self):
        place = f"row {self.row} {self.name}" if self.row else self.name
        return f"{self.code} {place}: {self.words or CODES[self.code][0]}"


def of_rows(rows, old, new):
    """70 to 74, row by row; a row that stood before makes 73, an ending beside a successor 74."""
    found, seen, ends = [], set(), {}
    for row in rows:
        if row.old not in old:
            found.append(Fault("70", row.number, row.old))
        if row.old in new:
            found.append(Fault("71", row.number, row.old))
        if row.new and row.new not in new:
            found.append(Fault("72", row.number, f"{row.old} {row.new}"))
        if (row.old, row.new) in seen:
            found.append(Fault("73", row.number, f"{row.old} {row.new}".rstrip()))
        if ends.get(row.old, bool(row.new)) != bool(row.new):
            found.append(Fault("74", row.number, row.old))
        seen.add((row.old, row.new))
        ends.setdefault(row.old, bool(row.new))
    return found


def of_identifiers(rows, old, new):
    """75 of dropped identifiers without a row, ascending; 76 of those that were used before, in the order of the new
    year."""
    named = {row.old for row in rows}
    found = [
        Fault("75", name=name)
        for name in sorted(name for name in old.shapes if name not in new.shapes and name not in named)
    ]
    return found + [
        Fault("76", name=f"{name} {old.used[name]}")
        for name in new.shapes
        if name not in old.shapes and name in old.used
    ]


def of_marks(rows, old, new, are_exact):
    """78 of marked rows outside of groups that are marked whole; 77 of old shapes that are not kept; 45 of groups
    that are not exact."""
    changes = Changes(rows, old.shapes, new.shapes)
    groups = {row: changes.group(row) for row in rows}
    plain = {group for row, group in groups.items() if not row.is_marked}
    found = [
        Fault("78", row.number, f"{row.old} {row.new}".rstrip())
        for row in rows
        if row.is_marked and (groups[row] is None or groups[row] in plain)
    ]
    whole = sorted(
        {group for group in groups.values() if group and group not in plain}, key=lambda it: (it.is_merge, it.name)
    )
    for group in whole:
        kept = group.parts if group.is_merge else (group.name,)
        found += [Fault("77", name=name) for name in kept if old.shapes.get(name, ()) is None]
    for group, is_exact in zip(whole, are_exact(whole) if are_exact else map(changes.is_exact, whole)):
        if is_exact is False:
            found.append(
                Fault(
                    "45",
                    name=f"{'merge' if group.is_merge else 'split'} {group.name}",
                    words="its shapes do not make up one another to the millimetre",
                )
            )
    return found


def faults(rows, old, new, are_exact=None):
    """All faults, in the order in which `publish` looks for them. `are_exact` says of splits and merges whether they
    are, where many processes ask that."""
    if old.is_first:
        return [Fault("70", row.number, row.old) for row in rows]
    return of_rows(rows, old.shapes, new.shapes) + of_identifiers(rows, old, new) + of_marks(rows, old, new, are_exact)
