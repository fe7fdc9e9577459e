"""Which gaps of a parcel come of rows with a finding of their own, pieces that are left out or were made valid: who
reviews tells them from gaps of the source."""

from __future__ import annotations

from ..formats import wkb
from .conflicts import polygons_by
from ..system.printing import readable

LEAST = 0.001  # square metres
MOST_NAMED = 3
LEFT_OUT, MENDED = "left out", "invalid"
MEETING = """SELECT number, name, kind, shape FROM box JOIN row USING (id) JOIN shape USING (id) JOIN why USING (number)
  WHERE box.left < ? AND box.right > ? AND box.low < ? AND box.high > ? AND is_cover AND NOT is_kept AND NOT is_joined"""  # noqa: E501


class Causes:
    """The pieces of a store of which gaps may come: `named` has those of a parcel that have no land where they should,
    `meeting` those that are left out and have land in a box. `key` is what the rows' numbers are."""

    def __init__(self, base, key):
        self.base, self.key = base, key
        base.execute("CREATE TEMP TABLE why (number PRIMARY KEY, kind TEXT)")
        base.execute(
            "INSERT OR IGNORE INTO why SELECT number, kind FROM finding WHERE layer = 'covers' AND number IS NOT NULL"
            f" AND NOT is_mended AND (done = '{LEFT_OUT}' OR kind = '{MENDED}') ORDER BY step, place, seq"
        )

    def words(self, gap):
        """What is said of a gap, behind its other words."""
        (parcel,), certain = gap.names, []
        for number, name, kind, members in self.meeting(gap.shape.bounds) if gap.shape is not None else ():
            if gap.shape.intersection(polygons_by(members)).area >= LEAST:
                certain.append((number, name, kind))
        found = sorted(set(certain)) or sorted(set(self.named(parcel)))
        if not found:
            return ""
        pieces = ", ".join(
            f"piece {readable(name)} ({self.key} {number}, {kind})" for number, name, kind in found[:MOST_NAMED]
        )
        return f"; it {'comes' if certain else 'may come'} from {pieces}" + (
            f", and {len(found) - MOST_NAMED} more" if len(found) > MOST_NAMED else ""
        )

    def named(self, parcel):
        return self.base.execute(
            (
                "SELECT number, name, kind FROM row JOIN why USING (number) WHERE parcel = ? AND is_cover = 1 AND"
                " (is_kept OR is_joined OR left IS NULL)"
            ),
            (parcel,),
        ).fetchall()

    def meeting(self, box):
        left, low, right, high = box
        for number, name, kind, blob in self.base.execute(MEETING, (right, left, high, low)):
            yield number, name, kind, wkb.unpacked(blob)
