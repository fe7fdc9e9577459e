"""Percentages of classes as a source has them. A share of 1 is the whole, and a percentage of 1 the hundredth of it:
one is never taken for the other.

A value above 1, or one with a percent sign, is a percentage. Above 0 and up to 1 any other text than `1` reads as a
share, and `1` too where no value of the table is a percentage. Shares are taken only where all values are shares and
one of them is a fraction; what else there is stops."""

from __future__ import annotations

import re
from collections.abc import Iterable
from dataclasses import dataclass
from fractions import Fraction

NUMBER = re.compile(r"\+?(\d{1,40}([.,]\d{0,40})?|[.,]\d{1,40})([eE][+-]?\d{1,2})?", re.ASCII)
PLAIN = re.compile(r"0|[1-9][0-9]{0,2}", re.ASCII)  # as `lpis` reads it
PERCENT, ELIGIBLE = "percent", "eligible"
DIGITS = "0 to 100 in digits alone"
NO_PERCENT, EMPTY = f"no whole number from 0 to 100: write {DIGITS}", f"is empty: write {DIGITS}"


@dataclass(frozen=True)
class Value:
    """What a field says: its text, whether that ends with a percent sign, and its number, None where it is none."""

    text: str
    has_sign: bool
    number: Fraction | None

    def is_percentage(self) -> bool:
        return self.number is not None and (self.has_sign or self.number > 1)

    def is_fraction(self) -> bool:
        return self.number is not None and 0 < self.number < 1 and not self.has_sign

    def shown(self) -> str:
        return repr(self.text if len(self.text) <= 40 else f"{self.text[:40]}..")


@dataclass(frozen=True)
class Taken:
    """A percentage: the whole number; None where it stops, for the reason in `words`. What is taken in silence has
    none."""

    percent: int | None
    words: str = ""


def value_of(text: str | None) -> Value:
    text = text or ""
    bare, has_sign = text.strip(), False
    if bare.endswith("%"):
        bare, has_sign = bare[:-1].rstrip(), True
    return Value(text, has_sign, Fraction(bare.replace(",", ".")) if NUMBER.fullmatch(bare) else None)


def read(texts: Iterable[str | None], column: str) -> list[Taken]:
    """The percentages of all rows of a table, from its column `percent` or, of 0 and 1, `eligible`."""
    values = [value_of(text) for text in texts]
    if column == ELIGIBLE:
        return [of_eligible(value) for value in values]
    percentage = next((value for value in values if value.is_percentage()), None)
    if percentage is not None:
        return [among_percentages(value, percentage) for value in values]
    if any(value.is_fraction() for value in values):
        return [among_shares(value) for value in values]
    return [among_none(value) for value in values]


def whole(value: Value, factor: int = 1, how: str = "") -> Taken:
    """The value as a whole percentage, told where `lpis` would not read its text so."""
    percent = None if value.number is None else value.number * factor
    if percent is None or percent > 100 or percent.denominator != 1:
        return Taken(None, f"is {value.shown()}, {NO_PERCENT}" if value.text.strip() else EMPTY)
    told = factor != 1 or not PLAIN.fullmatch(value.text)
    return Taken(int(percent), f"taken as {int(percent)}{how}" if told else "")


def among_percentages(value: Value, percentage: Value) -> Taken:
    if value.number and value.number <= 1 and not value.has_sign and value.text != "1":
        other = f"{percentage.shown()} in the same table is a percentage"
        return Taken(None, f"is {value.shown()}, which looks like a share, and {other}: write all as {DIGITS}")
    return whole(value)


def among_shares(value: Value) -> Taken:
    taken = whole(value, 100, ", since all values of the table are shares from 0 to 1")
    if taken.percent is None and value.number is not None:
        return Taken(None, f"is {value.shown()}, a share that is not a whole percentage: write {DIGITS}")
    return taken


def among_none(value: Value) -> Taken:
    """Of a table whose values are 0 and 1 alone nobody knows what 1 is."""
    if value.number:
        both = "which may be a share, the whole, or one percent"
        return Taken(None, f"is {value.shown()}, {both}: no other value of the table shows which; write 100, or 1 %")
    return whole(value)


def of_eligible(value: Value) -> Taken:
    if value.number is None or value.number > 1 or value.has_sign:
        return Taken(None, f"is {value.shown()}, and not 0 or 1: write percentages in a column {PERCENT}")
    if PLAIN.fullmatch(value.text):
        return Taken(int(value.number) * 100)
    return among_shares(value)
