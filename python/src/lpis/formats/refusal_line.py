"""A line `refused ..` taken apart by the places of its words (an identifier may be any word, `row`, `at` and
`region` too)."""

from __future__ import annotations

from dataclasses import dataclass, field
from fractions import Fraction

from .sentences import SENTENCES
from .byte_tables import COLUMNS


MOST_DIGITS = 18
FAR = 100_000_000_000  # millimetres: beyond every place
WORDS = {"38": 7, "41": 7, "43": 6, "81": 4}  # how many stand behind these codes, before a region; else the first tells


@dataclass
class Refusal:
    code: str
    table: str = ""
    row: int | None = None
    text_code: str = ""
    offset: int | None = None
    column: str = ""  # of a coordinate of a point that is none
    number_code: str = ""
    kind: str = ""  # parcel, piece, parcels, pieces, pair or exact
    names: list = field(default_factory=list)
    place: tuple | None = None  # x and y in millimetres, as fractions
    cert_line: int | None = None
    lineage_code: str = ""
    exact_code: str = ""
    year: str = ""
    region: str = ""  # of a country


def read(line):
    """The refusal that a line reports, or None where it is no such line."""
    words = line.split()
    if len(words) < 2 or words[0] != "refused":
        return None
    refusal = Refusal(words[1])
    try:
        fill(refusal, without_region(refusal, words[2:]))
    except (IndexError, ValueError, ArithmeticError):
        return None
    return refusal if refusal.place is None or max(map(abs, refusal.place)) <= FAR else None


def without_region(refusal, rest):
    """The words before `region NAME`, which stands behind what a region's own check prints, behind the faults of
    `lpis country`, and behind a row of lineage of a country. Of the whole country (45, 80, 83, 85, 90) none stands."""
    plain = WORDS.get(refusal.code, 2 if rest[:1] in (["parcel"], ["piece"]) else 3)
    if (refusal.code[:1] in "34569" or refusal.code == "81") and len(rest) == plain + 2 and rest[-2] == "region":
        refusal.region = rest[-1]
        return rest[:-2]
    return rest


def natural(word):
    """A number of a row, a line or a triangle."""
    if not word.isascii() or not word.isdigit() or len(word) > MOST_DIGITS:
        raise ValueError
    return int(word)


def fill(refusal, rest):
    code = refusal.code
    if not rest:
        return
    if code == "80":
        refusal.year = rest[1]
    elif code == "81":
        refusal.table, refusal.lineage_code = "lineage", rest[1]
        if rest[1] in ("75", "76", "77"):
            refusal.names, refusal.year = [rest[2]], rest[3] if len(rest) > 3 else ""
        else:
            refusal.row = natural(rest[3])
    elif rest[0] == "exact" and code in ("45", "85"):
        refusal.kind, refusal.names = "exact", [rest[-1]]
        refusal.exact_code = rest[1] if code == "85" else ""
        if len(rest) != (3 if code == "85" else 2):
            raise ValueError
    elif rest[:2] in (["cert", "line"], ["country", "line"]):
        refusal.cert_line = natural(rest[2])
    elif rest[0] in COLUMNS and len(rest) > 2 and rest[1] == "row":
        refusal.table, refusal.row = rest[0], natural(rest[2])
        if code == "38":
            refusal.text_code, refusal.offset = rest[4], natural(rest[6])
        if code == "3d":
            refusal.column, refusal.number_code = rest[3], rest[4]
    else:
        count = 2 if rest[0] in ("parcels", "pieces", "pair") else 1
        refusal.kind, refusal.names = rest[0], rest[1 : 1 + count]
        if len(refusal.names) != count or rest[0] not in ("parcel", "parcels", "piece", "pieces", "pair"):
            raise ValueError
        if rest[0] == "pair":
            [natural(name) for name in refusal.names]
        if rest[1 + count : 2 + count] == ["at"]:
            x, y, d = map(int, rest[2 + count : 5 + count])
            refusal.place = Fraction(x, d), Fraction(y, d)


def metres_of(place):
    """A place in metres, for people: exact where four decimals hold it, else marked as about."""
    exact = all((value * 10).denominator == 1 for value in place)
    x, y = (float(value / 1000) for value in place)
    decimals = 4 if exact else 6
    return SENTENCES["exactly" if exact else "about"].format(x=f"{x:.{decimals}f}", y=f"{y:.{decimals}f}")
