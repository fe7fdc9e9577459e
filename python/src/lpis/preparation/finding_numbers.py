"""The numbers of findings: one that a table of an earlier run had keeps its number while its kind and its place hold,
although it grew or shrank, and although its row was renamed. A number is given once, and does not pass to another row:
where the source still has a row of the earlier name, what lies there now is another finding."""

from __future__ import annotations

import re
from collections import defaultdict
from typing import Any, Callable, Iterable, Iterator

from shapely.errors import ShapelyError
from shapely.geometry import Point

from ..formats import wkb
from ..geometry.boxes import Boxes
from . import outlines
from .acceptance import same_name, without_sizes
from .conflicts import polygons_by

NUMBER = re.compile(r"[1-9][0-9]{0,15}")
TINY = 0.000_001  # square metres: of doubles


class Known:
    """The rows of an earlier table, each of which one finding may take up."""

    def __init__(self, records: Iterable[dict]) -> None:
        self.records = [record for record in records if NUMBER.fullmatch(record.get("number") or "")]
        self.free = dict.fromkeys(range(len(self.records)))  # in their order
        self.has_row: Callable | None = None
        self.next = 1 + max((int(record["number"]) for record in self.records), default=0)

    def left(self) -> list[dict]:
        """The rows that no finding took up."""
        return [self.records[number] for number in self.free]

    def take(self, found: list, has_row: Callable | None = None) -> dict[int, dict]:
        """The earlier rows of findings, by their places in a list: those that are alike in most go first. `has_row`
        says whether the source has a row of a layer and a name; where nothing does, a row that was renamed is one that
        has its number still."""
        taken: dict[int, dict] = {}
        if not self.records:
            return taken
        self.has_row = has_row
        ours = [Facts(*one.key_words(), one.words, one.outline(), one.polygons(), one.at()) for one in found]
        theirs = [Facts.of_record(record) for record in self.records]
        for key in KEYS:
            self.pair(ours, theirs, key, taken)
        for is_named in (True, False):
            self.pair_places(ours, theirs, is_named, taken)
        return taken

    def give(self, taken: dict[int, dict], at: int, one: int) -> None:
        taken[at] = self.records[one]
        del self.free[one]

    def pair(self, ours: list, theirs: list, key: Callable, taken: dict) -> None:
        """Takes up the rows that have the same key, in their order."""
        waiting = defaultdict(list)
        for one in reversed(list(self.free)):
            if (known := key(theirs[one])) is not None:
                waiting[known].append(one)
        for at, our in enumerate(ours):
            some = waiting.get(key(our), []) if at not in taken else []
            if (one := next((one for one in reversed(some) if self.may_be(our, theirs[one])), None)) is not None:
                some.remove(one)
                self.give(taken, at, one)

    def pair_places(self, ours: list, theirs: list, is_named: bool, taken: dict) -> None:
        """Takes up the rows of the same kind with which findings have most land in common."""
        groups = defaultdict(list)
        for one in self.free:
            if theirs[one].has_land():
                groups[theirs[one].group(is_named)].append(one)
        boxes = {group: Boxes([theirs[one].box() for one in some]) for group, some in groups.items()}
        common = []
        for at, our in enumerate(ours):
            group = our.group(is_named)
            if at not in taken and our.has_land() and group in groups:
                near = [groups[group][number] for number in boxes[group].meeting(our.box())]
                near = [one for one in near if self.may_be(our, theirs[one])]
                common += [(area, -at, -one) for one in near if (area := our.common(theirs[one])) > TINY]
        for _, at, one in sorted(common, reverse=True):
            if -at not in taken and -one in self.free:
                self.give(taken, -at, -one)

    def may_be(self, our: Facts, their: Facts) -> bool:
        """Whether a finding may be one of before by its names: they are the same, or those of a row that was
        renamed."""
        if our.names == their.names:
            return True
        if self.has_row is None:
            return our.row == their.row
        kept, layers = set(our.names.split()), their.layers()
        return not any(
            name not in kept and self.has_row(layer, name) for name, layer in zip(their.told.split(), layers)
        )


class Facts:
    """What a finding is known by."""

    def __init__(
        self,
        kind: str,
        layer: str,
        row: Any,
        names: str,
        words: str,
        outline: str,
        blob: bytes | None,
        at: tuple | None,
    ) -> None:
        self.kind, self.layer, self.row, self.names = kind, layer, str(row), same_name(names)
        self.told = names  # in their order
        self.words = without_sizes(words)
        self.outline, self.blob, self.at, self.made = outline, blob, at, None

    @classmethod
    def of_record(cls, record: dict) -> Facts:
        text = record.get("place") or ""
        try:
            blob = wkb.written(outlines.members_of(text)) if text[:1] == outlines.WHOLE else None
            at = (float(record["x"]), float(record["y"])) if record.get("x") and record.get("y") else None
        except (outlines.Damaged, ValueError, StopIteration, RuntimeError):
            blob, at = None, None
        names = (record.get(name) or "" for name in ("kind", "layer", "row", "identifiers", "words"))
        return cls(*names, text, blob, at)

    def layers(self) -> list[str]:
        """The layer of each of its names: a piece outside of its parcel has that behind its own."""
        return ["covers", "parcels"] if self.kind == "outside" else [self.layer] * (1 + self.told.count(" "))

    def group(self, is_named: bool) -> tuple:
        return self.kind, self.layer, self.names if is_named else None

    def has_land(self) -> bool:
        """Whether its polygons are known, or of what was too long for a table at least a place in them."""
        return self.blob is not None or (self.outline[:1] == outlines.DIGEST and self.at is not None)

    def box(self) -> tuple:
        if self.blob is not None:
            return wkb.Found.of_blob(self.blob).box()
        (x, y) = self.at or (0.0, 0.0)
        return x - TINY, y - TINY, x + TINY, y + TINY

    def shape(self) -> Any:
        if self.made is None:
            self.made = polygons_by(wkb.unpacked(self.blob)) if self.blob is not None else Point(*self.at)
        return self.made

    def common(self, other: Facts) -> float:
        """The area that two have in common; where of one a place alone is known, whether that lies in the other."""
        try:
            if self.blob is None or other.blob is None:
                return 2 * TINY if self.shape().intersects(other.shape()) else 0.0
            return self.shape().intersection(other.shape()).area
        except (ShapelyError, ValueError):
            return 0.0


def keys() -> Iterator[Callable]:
    """What two findings have in common that are the same: the first of these goes first."""
    yield lambda one: (one.kind, one.layer, one.names, one.outline) if one.outline else None
    yield lambda one: (one.kind, one.layer, one.outline) if one.outline else None
    yield lambda one: None if one.outline else (one.kind, one.layer, one.names, one.row, one.words)
    yield lambda one: None if one.outline else (one.kind, one.layer, one.names, one.words)
    yield lambda one: None if one.outline or not one.names else (one.kind, one.layer, one.names)


KEYS = [*keys()]
