"""The texts of doubles: the shortest decimals that give the same number, without an exponent. Of many at once by
numpy, where it is there."""

from __future__ import annotations

import functools
import importlib
import struct
from decimal import Decimal
from typing import Any, Iterable

POINT = 16  # bytes of two doubles
MILLIMETRES = 1000  # in a metre
FOUR = 10_000  # numbers of four digits
FAR = FOUR * FOUR  # metres: what is further out, or no whole millimetre, is written number by number


def text_of(value: float) -> str:
    """The text of a number."""
    word = float.__repr__(value)
    return format(Decimal(word), "f") if "e" in word else word


def texts_of(rings: list[bytes]) -> list[str]:
    """The text of the points of each ring, which is given as the bytes of its doubles, x and y in turn. None is
    empty."""
    return by_numpy(rings) if rings and numpy() else [text_of_ring(ring) for ring in rings]


def text_of_ring(ring: bytes) -> str:
    """The text of the points of a ring."""
    values = struct.unpack(f"<{len(ring) // 8}d", ring)
    text = two_by_two(map(float.__repr__, values))
    return two_by_two(map(text_of, values)) if "e" in text else text


def two_by_two(words: Iterable[str]) -> str:
    """Points of numbers."""
    every = iter(words)
    return ",".join(f"{x} {y}" for x, y in zip(every, every))


@functools.lru_cache(maxsize=None)
def numpy() -> Any:
    """The module of that name, or None where it is not there."""
    try:
        return importlib.import_module("numpy")
    except ImportError:
        return None


def by_numpy(rings: list[bytes]) -> list[str]:
    """The texts of rings: those of whole millimetres all at once, the others number by number.

    No two decimals of 15 digits or fewer have the same double. So the shortest one of a double is that of its
    millimetres, where these give the double again, without the zeros behind it.
    """
    np = numpy()
    values = np.frombuffer(b"".join(rings), "<f8")
    sizes = np.abs(values)
    with np.errstate(invalid="ignore"):  # of what is no number
        is_near = sizes < FAR
    thousandths = np.rint(np.where(is_near, sizes, 0) * MILLIMETRES)
    is_whole = is_near & (thousandths / MILLIMETRES == sizes) & (thousandths < FAR * MILLIMETRES)
    stops = np.cumsum([len(ring) // 8 for ring in rings])
    are_whole = np.logical_and.reduceat(is_whole, np.concatenate(([0], stops[:-1]))).tolist()
    letters, ends = letters_of(np.where(is_whole, thousandths, 0).astype(np.int64), np.signbit(values))
    ends = ends[stops - 1].tolist()
    return [
        letters[start : end - 1] if whole else text_of_ring(ring)
        for ring, whole, start, end in zip(rings, are_whole, [0, *ends], ends)
    ]


def letters_of(thousandths: Any, is_negative: Any) -> tuple[str, Any]:
    """The texts of numbers one behind the other, a blank behind an x and a comma behind a y; and where each of them
    ends."""
    np, (form, highs, lows, decimals) = numpy(), parts_of_numbers()
    metres = thousandths // MILLIMETRES
    part, high = thousandths - metres * MILLIMETRES, metres // FOUR
    low = metres - high * FOUR + FOUR * (high > 0)
    letters = np.empty(len(thousandths), form)
    letters["sign"] = np.where(is_negative, b"-", b"")
    for name, (texts, _), places in (("high", highs, high), ("low", lows, low), ("decimals", decimals, part)):
        letters[name] = texts[places]
    letters["behind"][0::2], letters["behind"][1::2] = b" ", b","
    ends = np.cumsum(highs[1][high] + lows[1][low] + decimals[1][part] + is_negative + 1)
    return letters.tobytes().translate(None, b"\0").decode("ascii"), ends


@functools.lru_cache(maxsize=None)
def parts_of_numbers() -> tuple[Any, ...]:
    """The form of a number's text, each part with bytes of 0 for letters that it lacks. And the texts of parts, with
    their lengths: of the metres above and below ten thousand, the latter without and with zeros before them, and of
    the decimals."""
    np = numpy()
    form = np.dtype([("sign", "S1"), ("high", "S4"), ("low", "S4"), ("decimals", "S4"), ("behind", "S1")])
    words = [b"%d" % number for number in range(FOUR)]
    highs, lows = [b"", *words[1:]], [*words, *(b"%04d" % number for number in range(FOUR))]
    decimals = [b".0", *((b".%03d" % number).rstrip(b"0") for number in range(1, MILLIMETRES))]
    return form, *((np.array(texts), np.array(list(map(len, texts)))) for texts in (highs, lows, decimals))
