"""The hydro pack of noskjerf: default energy bids of hydroelectric resources (tariff 39.7.1.7), over a proved library of its own.

A `Hydro` is what such a bid is made from, and its `default_curve` a `noskjerf.Curve` of one step, which a `noskjerf.Resource` takes as its
pack. A cut on a hydro unit then has the same causes as on any other.

>>> from noskjerf import Curve, Hour, Interval, Opening, Resource, dollars, mw
>>> hub = Hub(peak=dollars(50), balance=dollars(40), months=[dollars(30), dollars(0), dollars(90)])
>>> hydro = Hydro(low=mw(100), high=mw(300), heat=10000, gas=dollars(4), horizon=1, hubs=[hub])
>>> hydro.default_curve()
Curve(start=10000, steps=(Step(end=30000, price=700000),))

Case T's bid and interval; the second step, 90 dollars, is cut to the default price:

>>> unit = Resource(portfolio=0, bid=Curve(10000, [(15000, 300000), (30000, 900000)]), default=hydro.default_curve())
>>> hour = Hour.open(Opening(month=25, sellers=[1], resources=[unit]))
>>> judged = hour.interval(Interval([500000], [600000], [20000], [30000], [0], [(0, 0, -500000)], parameter=100))
>>> [(step.end, step.price) for step in hour.curve(0).steps]
[(15000, 300000), (30000, 700000)]

Quantities are hundredths of a MW and prices 0.0001 dollar, as `mw` and `dollars` give them. Any number of threads may call at once.
"""

from __future__ import annotations

import ctypes
import itertools
from collections.abc import Iterable
from dataclasses import dataclass
from typing import TYPE_CHECKING

from noskjerf import Curve, LibraryError, Refusal
from noskjerf._numbers import cells, column, items, of_kind, whole
from noskjerf._types import Column, Number
from noskjerf.amounts import DOLLARS, MW, UNIT_OF

from ._library import call

__all__ = ["MAX_HORIZON", "MAX_HUBS", "Hub", "Hydro", "LibraryError", "Refusal"]
__version__ = "0.1.0"

MAX_HUBS = 4
MAX_HORIZON = 12

# the prices of a hub as the library takes them: peak, balance of month and twelve months
HUB_PRICES = 2 + MAX_HORIZON
# what stands for a month's price that isn't there; the library refuses it, by 22, where it would be read
MISSING = -1
# how many steps a default curve may have
STEPS = 11

# what to write for a number with a decimal point in a field of the pack
UNIT_OF.update({**dict.fromkeys(("low", "high"), MW), **dict.fromkeys(("peak", "balance", "months"), DOLLARS)})


@dataclass(frozen=True)
class Hub:
    """The prices of a hub, each 0 to 100,000,000: day-ahead peak, balance of month, and the monthly ones, next month's first.

    Months past the storage horizon aren't read; one that is read has to be there.

    >>> Hub(500000, 400000, [300000, 0])
    Hub(peak=500000, balance=400000, months=(300000, 0))
    >>> Hub(50.0, 400000, [300000])
    Traceback (most recent call last):
    TypeError: peak: a whole number of units of 0.0001 dollar is due, not the float 50.0: write dollars(50.0), or 50 if it is in these units already
    """

    peak: int
    balance: int
    months: tuple[int, ...]

    if TYPE_CHECKING:

        def __init__(self, peak: Number, balance: Number, months: Column) -> None: ...

    def __post_init__(self) -> None:
        for name in ("peak", "balance"):
            object.__setattr__(self, name, whole(name, getattr(self, name)))
        object.__setattr__(self, "months", column("months", self.months))

    def in_order(self) -> Iterable[int]:
        """The prices as the library takes them."""
        return itertools.islice(itertools.chain((self.peak, self.balance), self.months, itertools.repeat(MISSING)), HUB_PRICES)


@dataclass(frozen=True)
class Hydro:
    """What the default energy bid of a hydroelectric resource is made from: the lowest and the highest quantity, H in Btu/kWh, the gas price,
    the storage horizon in months, and 1 to 4 hubs, of which the first is the default one.

    >>> Hydro(low=0, high=1, heat=1, gas=0, horizon=1, hubs=[Hub(1, 0, [0])]).default_curve().steps[0].price
    2
    """

    low: int
    high: int
    heat: int
    gas: int
    horizon: int
    hubs: tuple[Hub, ...]

    if TYPE_CHECKING:

        def __init__(self, low: Number, high: Number, heat: Number, gas: Number, horizon: Number, hubs: Iterable[Hub]) -> None: ...

    def __post_init__(self) -> None:
        for name in ("low", "high", "heat", "gas", "horizon"):
            object.__setattr__(self, name, whole(name, getattr(self, name)))
        object.__setattr__(self, "hubs", tuple(items("hubs", self.hubs)))
        for i, hub in enumerate(self.hubs):
            of_kind(f"hubs[{i}]", hub, Hub)

    def default_curve(self) -> Curve:
        """One step from the lowest to the highest quantity, priced at the largest of three amounts, each up: 11 x H x gas / 10,000; 14/10 of
        the largest of peak, balance of month and next month at the default hub; 11/10 of the largest of peak, balance of month and the
        monthly prices up to the horizon, over the hubs.

        Raises Refusal 22 for a value outside its limits, whatever the quantities; else 2 for quantities that are no edges of a step.

        >>> Hydro(low=0, high=1, heat=0, gas=0, horizon=1, hubs=[Hub(1, 0, [0])]).default_curve()
        Traceback (most recent call last):
        noskjerf.refusal.Refusal: hydro: the heat rate H is outside 1 to 100,000, the gas price outside 0 to 1,000,000, the hub count outside 1 to 4, the storage horizon outside 1 to 12, or a price that is read outside 0 to 100,000,000 (refusal 22)
        """
        # the count says that there are too many hubs; their prices needn't be handed over
        numbers = [price for hub in self.hubs[:MAX_HUBS] for price in hub.in_order()]
        counts = (len(self.hubs), max(0, self.horizon))
        edges, prices = (ctypes.c_uint64 * (2 + STEPS))(), (ctypes.c_int64 * STEPS)()
        lent = (cells(numbers), len(numbers), edges, len(edges), prices, len(prices))
        answer = call(self.low, self.high, self.heat, self.gas, *counts, *lent)
        if answer < 0:
            raise AssertionError("the library wants larger buffers")
        if answer:
            raise Refusal(answer, "hydro")
        count, start, *ends = edges
        return Curve(start, tuple(zip(ends[:count], prices)))
