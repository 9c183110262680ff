"""A book of published gas prices, and default energy bids at its prices."""

from __future__ import annotations

import enum
import functools
from dataclasses import dataclass
from typing import TYPE_CHECKING, Any

from ._library import call
from ._numbers import TOP_U32, cells_u32, rows, whole
from ._types import Number, Table
from .judgement import costs, filled
from .records import Charges, Curve, Point
from .refusal import Refusal


class Market(enum.IntEnum):
    """The markets, each with a list of its own."""

    DAY_AHEAD = 0
    REAL_TIME = 1


@dataclass(frozen=True)
class Entry:
    """A published price, in 0.0001 dollar per MMBtu, and its day; both have 32 bits."""

    day: int
    price: int

    if TYPE_CHECKING:

        def __init__(self, day: Number, price: Number) -> None: ...

    def __post_init__(self) -> None:
        for name in ("day", "price"):
            object.__setattr__(self, name, whole(name, getattr(self, name), 0, TOP_U32))


@dataclass(frozen=True)
class Book:
    """Published gas prices: a list of entries for each market, the days strictly rising. An answer for one never depends on the other.

    Entries may be handed over as pairs or as a table with the columns day and price. Days and prices have 32 bits.

    >>> book = Book(day_ahead=[(3, 40000), (5, 41000), (9, 39000)], real_time=[(4, 50000), (4, 1)])
    >>> book.price(Market.DAY_AHEAD, 8)
    41000
    >>> book.price(Market.REAL_TIME, 8)
    Traceback (most recent call last):
    noskjerf.refusal.Refusal: book: the market's list of gas prices ends inside a pair, its days do not rise, or it has no entry up to the trading day (refusal 21)
    """

    day_ahead: tuple[Entry, ...] = ()
    real_time: tuple[Entry, ...] = ()

    if TYPE_CHECKING:

        def __init__(self, day_ahead: Table[Entry] = (), real_time: Table[Entry] = ()) -> None: ...

    def __post_init__(self) -> None:
        for name in ("day_ahead", "real_time"):
            entries = rows(name, ("day", "price"), getattr(self, name), 0, TOP_U32)
            object.__setattr__(self, name, tuple(Entry(*entry) for entry in entries))

    def __getstate__(self) -> dict[str, Any]:
        """What a copy or a pickle keeps: the lists, and not what is lent to the engine."""
        return {"day_ahead": self.day_ahead, "real_time": self.real_time}

    def run(self, market: Market, day: Number) -> tuple[Entry, ...]:
        """The run of entries up to a trading day, that day included: the front of the market's list. Raises Refusal 21.

        >>> Book(day_ahead=[(3, 40000), (5, 41000), (9, 39000)]).run(Market.DAY_AHEAD, 8)
        (Entry(day=3, price=40000), Entry(day=5, price=41000))
        """
        length = call("noskjerf_gas_run", *self._asked(market, day))
        if length == 0:
            raise Refusal(21, "book")
        entries = self.day_ahead if market == Market.DAY_AHEAD else self.real_time
        return entries[: length // 2]

    def price(self, market: Market, day: Number) -> int:
        """The price in use on a trading day, that of its run's last entry. Raises Refusal 21."""
        return self.run(market, day)[-1].price

    def default_curve(self, market: Market, day: Number, points: Table[Point], charges: Charges) -> Curve:
        """Works out a default energy bid at the price in use; the gas price in the charges isn't read. Raises Refusal 21, else 4 to 8.

        >>> book = Book(day_ahead=[(1, 40000)])
        >>> curve = book.default_curve(Market.DAY_AHEAD, 1, [(10000, 10000), (20000, 9000)], Charges(om=24000))
        >>> curve.steps[0].end
        16000
        """
        return filled("noskjerf_gas_default", self._asked(market, day), costs(points, charges), 11, "costs")

    def _asked(self, market: Market, day: Number) -> tuple[Any, ...]:
        """The lists, market and day as the engine takes them."""
        number = whole("market", market)
        if number not in (Market.DAY_AHEAD, Market.REAL_TIME):
            raise ValueError("market: Market.DAY_AHEAD or Market.REAL_TIME is due")
        return (*self._lent, number, whole("day", day, 0, TOP_U32))

    @functools.cached_property
    def _lent(self) -> tuple[Any, ...]:
        """Both lists, day and price in turn, each with its length; the engine only reads them."""
        lists = [[number for entry in entries for number in (entry.day, entry.price)] for entries in (self.day_ahead, self.real_time)]
        return tuple(part for numbers in lists for part in (cells_u32(numbers), len(numbers)))
