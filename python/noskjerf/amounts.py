"""MW and dollars as people write them, and the engine's whole numbers of smaller units: exact both ways."""

from __future__ import annotations

import numbers
import operator
import re
from collections.abc import Callable
from dataclasses import dataclass
from decimal import Decimal
from typing import SupportsIndex, Union

from .units import decimal

LOW = -(1 << 63)
TOP = (1 << 63) - 1

# a whole number, a decimal one as text, Decimal or float
Amount = Union[SupportsIndex, float, Decimal, str]

_NUMBER = re.compile(r"[+-]?([0-9]+(\.[0-9]*)?|\.[0-9]+)([eE][+-]?[0-9]{1,3})?")
# more digits than any number of 64 bits needs
_DIGITS = 60


@dataclass(frozen=True)
class Unit:
    """What a number of the engine counts, and what people write in its place: with how many decimal places, and with how many at least."""

    engine: str
    person: str
    places: int
    least: int
    call: str = ""

    def of(self, amount: str) -> str:
        """An amount with its unit, as people write it."""
        return f"{amount} {self.person}".rstrip()


MW = Unit("hundredths of a MW", "MW", 2, 2, "mw")
DOLLARS = Unit("units of 0.0001 dollar", "dollars", 4, 2, "dollars")
MILLIONTHS = Unit("millionths", "", 6, 1)
FINE_MW = Unit("hundred-millionths of a MW", "MW", 8, 2)

# the units of the fields and columns that have one; ids, marks, months, days and heat rates are plain whole numbers
UNIT_OF: dict[str, Unit] = {
    **dict.fromkeys(("start", "end", "mw", "dispatch", "available", "floor"), MW),
    **dict.fromkeys(("price", "shadow", "lmp", "parameter", "gas", "allowance", "om", "msc", "soc", "fee"), DOLLARS),
    **dict.fromkeys(("rate", "factor"), MILLIONTHS),
    **dict.fromkeys(("demand", "left", "withheld"), FINE_MW),
}


def mw(quantity: Amount) -> int:
    """A quantity in MW as the engine takes it, in hundredths. Text and Decimal are taken exactly, a float by its shortest decimal form.

    >>> mw(300), mw("300.25"), mw(Decimal("0.01")), mw(64.29)
    (30000, 30025, 1, 6429)
    >>> mw("300.255")
    Traceback (most recent call last):
    ValueError: mw: 300.255 is no whole number of hundredths of a MW
    """
    return exact("mw", quantity, MW)


def dollars(price: Amount) -> int:
    """A price in dollars as the engine takes it, in units of 0.0001 dollar. Text and Decimal are taken exactly, a float by its shortest
    decimal form.

    >>> dollars("64.29"), dollars(64.29), dollars(-5), dollars("0.0001")
    (642900, 642900, -50000, 1)
    >>> dollars(0.00005)
    Traceback (most recent call last):
    ValueError: dollars: 0.00005 is no whole number of units of 0.0001 dollar
    """
    return exact("dollars", price, DOLLARS)


def exact(what: str, value: object, unit: Unit) -> int:
    """An amount as a whole number of a unit. What isn't one is an error that names it."""
    amount = _decimal(what, value)
    if not amount.is_finite():
        raise ValueError(f"{what}: {amount} is no number of {unit.person}")
    if amount.adjusted() > _DIGITS or len(amount.as_tuple().digits) > _DIGITS:
        raise OverflowError(f"{what}: the number has too many digits")
    number = _units(amount, unit.places)
    if number is None:
        raise ValueError(f"{what}: {amount} is no whole number of {unit.engine}")
    if not LOW <= number <= TOP:
        raise OverflowError(f"{what}: a number of 64 bits is due")
    return number


def _decimal(what: str, value: object) -> Decimal:
    if isinstance(value, Decimal):
        return value
    if isinstance(value, str):
        return _of_text(what, value)
    if isinstance(value, float):
        return Decimal(float.__repr__(value))
    if isinstance(value, numbers.Real) and not isinstance(value, numbers.Rational):
        # a float of numpy; its text is its shortest decimal form
        return Decimal(str(value))
    if type(value).__name__ in ("bool", "bool_"):
        raise TypeError(f"{what}: a number is due, not {value}")
    try:
        return Decimal(operator.index(value))  # type: ignore[arg-type]
    except TypeError:
        raise TypeError(f"{what}: a number, a Decimal or a text is due, not {'None' if value is None else type(value).__name__}") from None


def _of_text(what: str, text: str) -> Decimal:
    stripped = text.strip()
    if _NUMBER.fullmatch(stripped) is None:
        raise ValueError(f"{what}: {text[:40]!r} is no number; one is written as 300 or 300.25 is")
    return Decimal(stripped)


def _units(amount: Decimal, places: int) -> int | None:
    """An amount times 10 ** places, where that is whole."""
    if not amount:
        return 0
    if amount.adjusted() < -places:
        return None
    ratio = amount.as_integer_ratio()
    number, rest = divmod(ratio[0] * 10**places, ratio[1])
    return None if rest else number


def written(number: int, unit: Unit) -> str:
    """A number of the engine as people write it, without thousands' commas; `exact` takes it back.

    >>> written(-378402, DOLLARS), written(1_500_000, MW), written(-500_000, MILLIONTHS)
    ('-37.8402', '15000.00', '-0.5')
    """
    return decimal(number, unit.places, unit.least).replace(",", "")


def due(field: str) -> str:
    """What is due in a field.

    >>> due("end"), due("month")
    ('a whole number of hundredths of a MW is due', 'a whole number is due')
    """
    unit = UNIT_OF.get(field)
    return f"a whole number of {unit.engine} is due" if unit else "a whole number is due"


def as_whole(value: object, places: int = 0) -> int | None:
    """A decimal number times 10 ** places where it and that are whole, else None.

    >>> as_whole("300.00"), as_whole("300.25"), as_whole("300.25", 2)
    (300, None, 30025)
    """
    try:
        return exact("", value, Unit("", "", places, 0))
    except (TypeError, ValueError, OverflowError):
        return None


def advice(field: str, value: object, as_amount: Callable[[Unit, int], str]) -> str:
    """What to write for a decimal number in a field: as an amount, and as the engine's number if it may be that already."""
    number, unit = as_whole(value), UNIT_OF.get(field)
    if unit is None:
        return "" if number is None else f": write {number}"
    amount = as_whole(value, unit.places)
    if amount is None:
        return ""
    already = "" if number is None else f", or {number} if it is in these units already"
    return f": write {as_amount(unit, amount)}{already}"
