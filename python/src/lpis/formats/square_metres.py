"""Areas with every digit, from sums in whole square millimetres, and in hectares for people."""

from decimal import Decimal

AREA, ELIGIBLE = (5, 7), (5, 9)  # factor and decimals of a sum of doubled square millimetres, and of that times percent


def decimal(total, form):
    """A sum in square metres with every digit."""
    factor, decimals = form
    value = factor * abs(total)
    return f"{'-' if total < 0 else ''}{value // 10**decimals}.{value % 10**decimals:0{decimals}}"


def hectares(square_metres):
    """An area in square metres, as text or a decimal number, in hectares to the square metre."""
    return f"{Decimal(square_metres) / 10_000:,.4f} ha"


def both(square_metres):
    """An area as it is, and in hectares."""
    return f"{square_metres} m\u00b2 ({hectares(square_metres)})"
