"""What became of identifiers: splits, merges and the rest by counts of successors and predecessors, and whether a
marked one is exact."""

from collections import defaultdict
from dataclasses import dataclass

from ..formats import polygons


@dataclass(frozen=True)
class Group:
    """A split, whose whole is an old shape, or a merge, whose whole is a new one. A kept successor is one of its
    merge's parts."""

    is_merge: bool
    name: str
    parts: tuple


class Changes:
    """What rows of lineage say: an old identifier and its successors, a successor and its predecessors."""

    def __init__(self, rows, old, new):
        self.successors, self.predecessors = defaultdict(list), defaultdict(list)
        self.old, self.new = old, new
        for row in rows:
            self.successors[row.old].append(row.new)
            if row.new:
                self.predecessors[row.new].append(row.old)
        for name in [name for name in self.predecessors if name in old and name in new]:
            self.predecessors[name].append(name)

    def is_split(self, name):
        after = self.successors.get(name, [])
        return len(after) > 1 and all(new and len(self.predecessors[new]) == 1 for new in after)

    def is_merge(self, name):
        before = self.predecessors.get(name, [])
        return len(before) > 1 and all(old == name or len(self.successors[old]) == 1 for old in before)

    def kind(self, name):
        """What became of a dropped identifier: ended, replaced, merged, split or redrawn; None where no row says so."""
        after = self.successors.get(name, [])
        if not after:
            return None
        if after == [""]:
            return "ended"
        if len(after) > 1:
            return "split" if self.is_split(name) else "redrawn"
        return "merged" if len(self.predecessors[after[0]]) > 1 else "replaced"

    def group(self, row):
        """The split or merge that a row belongs to, or None."""
        if row.new and self.is_merge(row.new):
            return Group(True, row.new, tuple(sorted(self.predecessors[row.new])))
        return Group(False, row.old, tuple(sorted(self.successors[row.old]))) if self.is_split(row.old) else None

    def is_exact(self, group):
        """Whether the borders of the whole are those of its parts, to the millimetre. None where an old shape is not
        kept."""
        sides = (self.new, self.old) if group.is_merge else (self.old, self.new)
        whole, parts = sides[0].get(group.name), [sides[1].get(name) for name in group.parts]
        return None if whole is None or None in parts else not polygons.residue(whole, parts)
