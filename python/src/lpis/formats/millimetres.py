"""The texts of many points in whole millimetres, by numpy: as `polygons.metres` writes each coordinate."""

from __future__ import annotations

import functools

import numpy

from .polygons import metres

METRE, FOUR = 1000, 10_000  # millimetres; numbers of four digits
FAR = METRE * FOUR * FOUR  # millimetres: what is further out is written number by number
FORM = numpy.dtype(
    [("sign", "S1"), ("high", "S4"), ("low", "S4"), ("point", "S1"), ("decimals", "S3"), ("behind", "S1")]
)


def texts_of(points):
    """The text of each point of an array: its two coordinates in metres with three decimals, and a blank between
    them."""
    values = points.reshape(-1)
    sizes = numpy.abs(values)
    if not len(values) or sizes.max() >= FAR:
        return [f"{metres(x)} {metres(y)}" for x, y in points.tolist()]
    high, low, decimals = parts_of_numbers()
    whole = sizes // METRE
    above = whole // FOUR
    letters = numpy.empty(len(values), FORM)
    letters["sign"] = numpy.where(values < 0, b"-", b"")
    letters["high"], letters["low"] = high[above], low[whole - above * FOUR + FOUR * (above > 0)]
    letters["point"], letters["decimals"] = b".", decimals[sizes - whole * METRE]
    letters["behind"][0::2], letters["behind"][1::2] = b" ", b"\n"
    return letters.tobytes().translate(None, b"\0").decode("ascii").splitlines()


@functools.lru_cache(maxsize=None)
def parts_of_numbers():
    """The texts of numbers below ten thousand: none of 0; as they are, and behind these with zeros before them; and
    of thousandths."""
    words = [b"%d" % number for number in range(FOUR)]
    return tuple(
        numpy.array(texts)
        for texts in (
            [b"", *words[1:]],
            [*words, *(b"%04d" % number for number in range(FOUR))],
            [b"%03d" % number for number in range(METRE)],
        )
    )
