"""The polygons of a row as a short text, which goes through a spreadsheet and back as it is, and whether other polygons
lie in them. It has letters, digits, - and _ alone and begins with a letter, so that no spreadsheet takes it for a
number, a date or a formula.

    text = outlines.text_of(blob)           of polygons as well-known binary
    outlines.has(text, blob)                whether polygons are those of a text, or within a millimetre of them
"""

from __future__ import annotations

import base64
import binascii
import hashlib
import zlib
from typing import Iterable, Iterator

from ..formats import wkb

UNIT = 100_000  # of a metre: coordinates are hundredths of a millimetre
ABOUT = 0.001_02  # metres: a millimetre, and what the rounding of a text takes
LONGEST = 30_000  # letters: a cell of a spreadsheet has no more than 32,767
WHOLE, DIGEST = "p", "d"  # how a text begins: all corners, or the digest of what is too long for a cell
SUM = 4  # bytes at the end


class Damaged(ValueError):
    """A text that is not as it was written."""


def text_of(blob: bytes) -> str:
    """The text of polygons; where it would be too long their digest."""
    data = packed(numbers_of(wkb.unpacked(blob)))
    text = WHOLE + letters_of(data)
    return text if len(text) <= LONGEST else DIGEST + letters_of(hashlib.sha256(data).digest())


def letters_of(data: bytes) -> str:
    return base64.urlsafe_b64encode(data + sum_of(data)).decode("ascii").rstrip("=")


def sum_of(data: bytes) -> bytes:
    return zlib.crc32(data).to_bytes(SUM, "big")


def numbers_of(members: list) -> Iterator[int]:
    """How many polygons, rings and corners there are, and where each corner lies from the one before."""
    x = y = 0
    yield len(members)
    for member in members:
        yield len(member)
        for ring in member:
            yield len(ring) - 1
            for corner in ring[:-1]:
                before, (x, y) = (x, y), map(hundredths, corner)
                yield from (x - before[0], y - before[1])


def hundredths(value: float) -> int:
    """A coordinate in hundredths of a millimetre, however large it is."""
    whole = int(value)
    return whole * UNIT + round((value - whole) * UNIT)


def packed(numbers: Iterable[int]) -> bytes:
    """Whole numbers, seven bits in a byte, the least first."""
    data = bytearray()
    for number in numbers:
        rest = number << 1 if number >= 0 else (-number << 1) - 1
        while rest > 0x7F:
            data.append(rest & 0x7F | 0x80)
            rest >>= 7
        data.append(rest)
    return bytes(data)


def unpacked(data: bytes) -> Iterator[int]:
    number = bits = 0
    for byte in data:
        number, bits = number | (byte & 0x7F) << bits, bits + 7
        if byte < 0x80:
            yield number >> 1 if number & 1 == 0 else -(number + 1 >> 1)
            number = bits = 0


def data_of(text: str) -> bytes:
    """The bytes of a text, where it is one that was written here."""
    try:
        data = base64.b64decode(text[1:] + "=" * (-(len(text) - 1) % 4), altchars=b"-_", validate=True)
    except (binascii.Error, ValueError):
        raise Damaged(text) from None
    if text[:1] not in (WHOLE, DIGEST) or sum_of(data[:-SUM]) != data[-SUM:]:
        raise Damaged(text)
    return data[:-SUM]


def members_of(text: str) -> list:
    """The polygons of a text, in metres."""
    numbers, members = unpacked(data_of(text)), []
    x = y = 0
    for _ in range(next(numbers)):
        members.append([])
        for _ in range(next(numbers)):
            ring = []
            for _ in range(next(numbers)):
                x, y = x + next(numbers), y + next(numbers)
                ring.append((x / UNIT, y / UNIT))
            members[-1].append([*ring, *ring[:1]])
    return members


def has(text: str, blob: bytes) -> bool:
    """Whether polygons are those of a text, or lie in them, with a millimetre about them."""
    if text_of(blob) == text:
        return True
    if text[:1] == DIGEST:
        return False
    from shapely.errors import ShapelyError
    from shapely.geometry import LineString
    from shapely.ops import unary_union

    from .conflicts import polygons_by

    try:
        members = members_of(text)
        rings = [LineString(ring) for member in members for ring in member]  # rounding leaves a line of a narrow part
        whole = unary_union([polygons_by(members), *rings]).buffer(ABOUT)
        return whole.covers(polygons_by(wkb.unpacked(blob)))
    except (ShapelyError, ValueError):
        return False
