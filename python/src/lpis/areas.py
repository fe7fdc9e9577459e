"""Areas without rounding."""

from __future__ import annotations

from decimal import Decimal
from fractions import Fraction
from typing import Any, Iterable

DECIMALS = 9  # of an eligible area; an area itself has seven


class Area(Fraction):
    """Square metres, exactly: a fraction, whose text has the digits that lpis prints.

    >>> area = Area("100.0000000")
    >>> area.decimal, area == 100, area + Area("0.5")
    (Decimal('100.0000000'), True, Fraction(201, 2))
    """

    __slots__ = ("_text",)
    _text: str

    def __new__(cls, text: str) -> Area:
        whole, _, decimals = text.partition(".")
        made = super().__new__(cls, int(whole + decimals), 10 ** len(decimals))
        made._text = text
        return made

    @classmethod
    def sum(cls, areas: Iterable[Fraction], decimals: int = DECIMALS) -> Area:
        """The sum of areas or of parts of them, each with no more decimals than these."""
        value = sum(areas, Fraction(0)) * 10**decimals
        if value.denominator != 1:
            raise ValueError(f"an area with more than {decimals} decimals")
        digits = f"{abs(value.numerator):0{decimals + 1}}"
        return cls(f"{'-' * (value < 0)}{digits[:-decimals]}.{digits[-decimals:]}")

    @property
    def decimal(self) -> Decimal:
        """The same as a decimal with every digit, whatever the context's precision is."""
        return Decimal(self._text)

    def __str__(self) -> str:
        return self._text

    def __repr__(self) -> str:
        return f"Area('{self._text}')"

    def __copy__(self) -> Area:
        return self

    def __deepcopy__(self, memo: Any) -> Area:
        return self

    def __reduce__(self) -> tuple[type[Area], tuple[str]]:
        return Area, (self._text,)
