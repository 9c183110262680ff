"""Judgements on one bid or one table of costs, the two parts of a curve joined, and bids for a classroom, without a text."""

from __future__ import annotations

import ctypes
from typing import Any

from ._library import call
from ._numbers import TOP_U64, cells, of_kind, whole
from ._types import Number, Table
from .records import Charges, Curve, Point, Step, points_of, steps_of
from .refusal import Refusal

# how many classroom bids there are
CLASSROOM = 37


def bid(month: Number, start: Number, steps: Table[Step]) -> None:
    """Judges a bid submitted in a month since the rule took effect, which sets the highest price. Raises Refusal 1, 2 or 3.

    The month itself isn't judged: 0 counts as month 1.

    >>> bid(13, 10000, [(15000, 300000), (30000, 5000001)])
    >>> bid(12, 10000, [(15000, 300000), (30000, 5000001)])
    Traceback (most recent call last):
    noskjerf.refusal.Refusal: bid: a bid price is outside the range that the month allows (a default price outside its own), or the prices fall (refusal 3)
    """
    taken = steps_of(steps)
    numbers = _ends_and_prices(taken)
    answer = call("noskjerf_bid", whole("month", month, 0, TOP_U64), whole("start", start), len(taken), cells(numbers), len(numbers))
    if answer:
        raise Refusal(answer, "bid")


def default_curve(points: Table[Point], charges: Charges) -> Curve:
    """Works out the default energy bid of a resource from its costs. Raises the lowest Refusal of 4 to 8 that applies.

    Each price is at least the one that the same rules give with nothing rounded but the 80% mark, and above it by less than
    11/10 × (gas / 1000 + rate × allowance / 1,000,000,000 + 3) + 1.

    >>> curve = default_curve([(10000, 10000), (20000, 9000), (30000, 9500)], Charges(gas=40000, om=20000, msc=1000, soc=3000, fee=50))
    >>> curve.start, [(step.end, step.price) for step in curve.steps]
    (10000, [(20000, 378402), (24000, 444403), (30000, 488402)])
    """
    return filled("noskjerf_default", (), costs(points, charges), 11, "costs")


def join(proxy: Curve, above: Curve) -> Curve:
    """Joins the two parts of a reliability contract unit's default energy bid: proxy prices up to its contract capacity, which is where the
    first part ends, and default prices above it.

    The curve has the steps of both, each price raised to the largest before it: no price of either part is lowered, and neighbours of one
    price stay two steps. Raises the lowest Refusal that applies: 1 to 3 of either part, 23 where the second doesn't start at the first
    one's last end, 24 where they have more than 11 steps together.

    Proxy prices up to 100 MW below Case T's default energy bid, whose first price is raised:

    >>> points = [(10000, 10000), (20000, 9000), (30000, 9500)]
    >>> above = default_curve(points, Charges(gas=40000, om=20000, msc=1000, soc=3000, fee=50))
    >>> joined = join(Curve(0, [(10000, 400000)]), above)
    >>> [(step.end, step.price) for step in joined.steps]
    [(10000, 400000), (20000, 400000), (24000, 444403), (30000, 488402)]
    >>> join(Curve(0, [(9999, 400000)]), above)
    Traceback (most recent call last):
    noskjerf.refusal.Refusal: join: the second part does not start at the first one's last end (refusal 23)

    It serves as the default energy bid of a resource, here in Case T's hour:

    >>> from noskjerf import Hour, Interval, Opening, Resource
    >>> unit = Resource(portfolio=0, bid=Curve(10000, [(15000, 300000), (30000, 900000)]), default=joined)
    >>> hour = Hour.open(Opening(month=25, sellers=[1], resources=[unit]))
    >>> judged = hour.interval(Interval([500000], [600000], [20000], [30000], [0], [(0, 0, -500000)], parameter=100))
    >>> [(step.end, step.price) for step in hour.curve(0).steps]
    [(15000, 300000), (20000, 400000), (24000, 444403), (30000, 488402)]
    """
    return filled("noskjerf_join", _part("proxy", proxy), _part("above", above), 11, "join")


def classroom_bids() -> tuple[Curve, ...]:
    """The 37 bids for drills in a classroom: every bid with start 0, ends among 100, 200 and 300 and prices among 0, 10000 and 20000, which
    never fall.

    They come by their count of steps, then by the list of their ends, then by the list of their prices, smaller first, and each once. They
    are as submitted: neighbours of one price stay two steps. Each is accepted as a bid, in every month; an hour also wants a default energy
    bid round it, and one from 0 to 300 is round all.

    >>> bids = classroom_bids()
    >>> for each in bids:
    ...     bid(month=1, start=each.start, steps=each.steps)
    >>> len(bids), [(step.end, step.price) for step in bids[10].steps]
    (37, [(100, 0), (200, 10000)])
    """
    return tuple(filled("noskjerf_classroom", (), (k,), 11, "bid") for k in range(CLASSROOM))


def _part(what: str, curve: Curve) -> tuple[Any, ...]:
    """A part of a joined curve as the engine takes it: its start, how many steps, end and price in turn."""
    of_kind(what, curve, Curve)
    numbers = _ends_and_prices(curve.steps)
    return curve.start, len(curve.steps), cells(numbers), len(numbers)


def _ends_and_prices(steps: tuple[Step, ...]) -> list[int]:
    """End and price of each step in turn."""
    return [number for step in steps for number in (step.end, step.price)]


def costs(points: Table[Point], charges: Charges) -> tuple[Any, ...]:
    """Costs as the engine takes them: how many points, mw and heat in turn, the charges."""
    of_kind("charges", charges, Charges)
    taken = points_of(points)
    numbers = [number for point in taken for number in (point.mw, point.heat)]
    ordered = charges.in_order()
    return len(taken), cells(numbers), len(numbers), cells(ordered), len(ordered)


def filled(function: str, before: tuple[Any, ...], asked: tuple[Any, ...], most: int, part: str) -> Curve:
    """The curve that a function puts into the buffers it is lent; raises its refusal."""
    edges = (ctypes.c_uint64 * (2 + most))()
    prices = (ctypes.c_int64 * most)()
    answer = call(function, *before, *asked, edges, len(edges), prices, len(prices))
    if answer < 0:
        raise AssertionError(f"{function} wants larger buffers")
    if answer:
        raise Refusal(answer, part)
    count, start, *ends = edges
    return Curve(start, tuple(Step(end, price) for end, price in zip(ends[:count], prices)))
