"""An hour in numbers, driven interval by interval."""

from __future__ import annotations

import ctypes
from collections.abc import Sequence
from typing import Any

from ._kept import Kept
from ._library import call
from ._numbers import TOP_U64, cells, of_kind, whole
from ._types import Number
from .judgement import filled
from .records import OUTPUTS, Cause, Costs, Curve, Finding, Interval, Judged, Opening, Resource, Seller, Verdict
from .refusal import Refusal
from .together import Together
from .units import count

MAX_RESOURCES = 64
MAX_CONSTRAINTS = 32
MAX_PORTFOLIOS = 16

# A block of an opening: room for eleven steps and eleven points. Numbers of a verdict, of a cause, and of sellers together.
ROOM = 11
VERDICT = 4 + MAX_PORTFOLIOS
CAUSE = 4
FOUND = 3

# cells of the state that are read here: intervals accepted, passes accepted since the last, the portfolios' marks
ACCEPTED = 0
PASSES = 129
SELLERS = 323


class Hour(Kept):
    """A trading hour that was opened, and what it has taken so far.

    A cut made in one interval carries on to the next. A refused call raises its Refusal and leaves the hour as it was. Threads may share
    an hour: one call is made after the other. A copy (`hour.copy()`, `copy.copy`, `copy.deepcopy`) and what comes of a pickle are hours of
    their own; two hours are equal where all that they keep is.

    Case T, with a default energy bid from costs; a Curve in place of the Costs is a pack.

    >>> from noskjerf import Charges
    >>> costs = Costs([(10000, 10000), (20000, 9000), (30000, 9500)], Charges(gas=40000, om=20000, msc=1000, soc=3000, fee=50))
    >>> bid = Curve(10000, [(15000, 300000), (30000, 900000)])
    >>> hour = Hour.open(Opening(month=25, sellers=[1], resources=[Resource(portfolio=0, bid=bid, default=costs)]))
    >>> interval = Interval([500000], lmp=[600000], dispatch=[20000], available=[30000], floor=[0], factors=[(0, 0, -500000)], parameter=100)
    >>> hour.why(interval)
    (Cause(resource=0, capped=True, component=250000000000, competitive_price=350000, floor_price=350100),)
    >>> hour.interval(interval).verdicts[0].finding.name
    'NON_COMPETITIVE'
    >>> [(step.end, step.price) for step in hour.curve(0).steps]
    [(15000, 300000), (20000, 378402), (24000, 444403), (30000, 488402)]
    >>> hour
    <Hour of 1 resource: 1 interval accepted, 0 passes since>
    >>> hour.bid(0)
    Traceback (most recent call last):
    noskjerf.refusal.Refusal: hour: fewer than four intervals are accepted (refusal 20)
    """

    _what = "hour"

    def __init__(self, opening: Opening) -> None:
        """Opens an hour, as `Hour.open` does."""
        of_kind("opening", opening, Opening)
        super().__init__()
        self._resources = len(opening.resources)
        sellers, blocks = opening.sellers, [number for resource in opening.resources for number in _block(resource)]
        market = (len(sellers), cells(sellers), len(sellers), self._resources, cells(blocks), len(blocks))
        _accepted(call("noskjerf_open", opening.month, *market, *self._lent()), "opening")

    @classmethod
    def _blank(cls) -> ctypes.Array[Any]:
        return (ctypes.c_int64 * call("noskjerf_state_room"))()

    @classmethod
    def open(cls, opening: Opening) -> Hour:
        """Opens an hour. Raises Refusal 1 to 11."""
        return cls(opening)

    def interval(self, interval: Interval) -> Judged:
        """Takes an interval. Raises Refusal 12 to 16."""
        asked = _asked(interval)
        with self._lock:
            return self._judged("noskjerf_interval", asked, f"interval {self._state[ACCEPTED] + 1}")

    def pass_(self, interval: Interval) -> Judged:
        """Takes a five-minute pass, up to three after each interval. Raises Refusal 19, else 13 to 16."""
        asked = _asked(interval)
        with self._lock:
            return self._judged("noskjerf_pass", asked, "pass")

    def why(self, interval: Interval) -> tuple[Cause, ...]:
        """Whether an interval would cap the bid of each resource, and why; the hour stays as it is. Raises Refusal 13 to 16."""
        asked = _asked(interval)
        causes = (ctypes.c_int64 * (MAX_RESOURCES * CAUSE))()
        with self._lock:
            answer = call("noskjerf_why", *self._lent(), *asked, causes, len(causes))
        _accepted(answer, "interval")
        return tuple(_cause(r, causes[CAUSE * r : CAUSE * (r + 1)]) for r in range(self._resources))

    def together(self, interval: Interval, budget: Number | None = None) -> Together:
        """The fewest net sellers whose full withholding leaves every binding constraint of an interval short; the hour stays as it is.

        All net sellers together are the first best. Then their sets are tried, up to `budget` of them or all where that is None, in
        rising order of the number in which bit p stands for portfolio p; a set that works becomes the best where it has fewer members.
        Raises Refusal 13 to 16, then 26 where no constraint binds.

        Three net sellers with a unit each; the first two have a constraint each that is short without them:

        >>> pack, bid = Curve(0, [(30000, 378402)]), Curve(0, [(30000, 900000)])
        >>> hour = Hour.open(Opening(month=25, sellers=[1, 1, 1], resources=[Resource(p, bid, pack) for p in range(3)]))
        >>> units = {"lmp": [600000] * 3, "dispatch": [20000] * 3, "available": [30000] * 3, "floor": [0] * 3}
        >>> interval = Interval(shadow=[500000, 200000], **units, factors=[(0, 0, -500000), (1, 1, -500000)])
        >>> hour.together(interval)
        Together(best=(0, 1), tried=7, floor=1, sets=7)
        >>> print(hour.together(interval))
        2 sellers: 0, 1; no fewer can
        >>> print(hour.together(interval, budget=2))
        3 sellers: 0, 1, 2; at least 1, at most 3
        >>> hour.together(Interval(shadow=[0, 0], **units))
        Traceback (most recent call last):
        noskjerf.refusal.Refusal: interval: no constraint of the interval binds (refusal 26)
        """
        asked = _asked(interval)
        tries = TOP_U64 if budget is None else whole("budget", budget, 0, TOP_U64)
        found = (ctypes.c_uint64 * FOUND)()
        with self._lock:
            answer = call("noskjerf_pivotal", *self._lent(), *asked, tries, found, len(found))
            sellers = sum(self._state[SELLERS + p] == 1 for p in range(MAX_PORTFOLIOS))
        _accepted(answer, "interval")
        best, tried, floor = found
        members = tuple(p for p in range(MAX_PORTFOLIOS) if best >> p & 1)
        return Together(members or None, tried, floor, 2**sellers - 1)

    def curve(self, resource: Number) -> Curve:
        """The bid curve of a resource as it stands after the intervals so far."""
        return self._curve("noskjerf_curve", resource, 20)

    def five_minute(self, resource: Number) -> Curve:
        """The bid curve of a resource as it stands after the passes since the last interval."""
        return self._curve("noskjerf_five_minute", resource, 20)

    def bid(self, resource: Number) -> Curve:
        """One bid of a resource for the hour, at each quantity the lowest of the four intervals' curves. Raises Refusal 20."""
        return self._curve("noskjerf_hour_bid", resource, 20)

    def default(self, resource: Number) -> Curve:
        """The default energy bid of a resource, worked out from its costs, or its pack."""
        return self._curve("noskjerf_default_of", resource, 11)

    @property
    def resources(self) -> int:
        """How many resources the hour has."""
        return self._resources

    @property
    def accepted(self) -> int:
        """How many intervals were accepted, 0 to 4."""
        return int(self._state[ACCEPTED])

    @property
    def passes(self) -> int:
        """How many passes were accepted since the last accepted interval, 0 to 3."""
        return int(self._state[PASSES])

    def __repr__(self) -> str:
        kept = self._cells()
        passes = "1 pass" if kept[PASSES] == 1 else f"{kept[PASSES]} passes"
        return f"<{type(self).__name__} of {count(self._resources, 'resource')}: {count(kept[ACCEPTED], 'interval')} accepted, {passes} since>"

    def _judged(self, function: str, asked: tuple[Any, ...], part: str) -> Judged:
        verdicts = (ctypes.c_int64 * (MAX_CONSTRAINTS * VERDICT))()
        _accepted(call(function, *self._lent(), *asked, verdicts, len(verdicts)), part)
        rows = [verdicts[VERDICT * c : VERDICT * (c + 1)] for c in range(asked[0])]
        found = tuple(Verdict(c, Finding(row[0]), row[1], row[2]) for c, row in enumerate(rows))
        return Judged(found, tuple(seller for c, row in enumerate(rows) for seller in _sellers(c, row)))

    def _curve(self, function: str, resource: Number, most: int) -> Curve:
        number = whole("resource", resource)
        if not 0 <= number < self._resources:
            raise IndexError(f"resource: the hour has no resource {number}")
        with self._lock:
            return filled(function, self._lent(), (number,), most, "hour")


def _accepted(answer: int, part: str) -> None:
    if answer < 0:
        raise AssertionError("the engine wants larger buffers")
    if answer:
        raise Refusal(answer, part)


def _block(resource: Resource) -> list[int]:
    """The 80 numbers of a resource: portfolio, bid, source, points and charges, pack."""
    costs = resource.default if isinstance(resource.default, Costs) else Costs(())
    pack = resource.default if isinstance(resource.default, Curve) else Curve(0, ())
    points = [number for point in costs.points for number in (point.mw, point.heat)]
    source = 0 if isinstance(resource.default, Costs) else 1
    return [
        *(resource.portfolio, *_raw(resource.bid)),
        *(source, len(costs.points), *_filled_up(points), *costs.charges.in_order()),
        *_raw(pack),
    ]


def _raw(curve: Curve) -> list[int]:
    """Start, number of steps, and end and price of eleven steps in turn."""
    return [curve.start, len(curve.steps), *_filled_up([number for step in curve.steps for number in (step.end, step.price)])]


def _filled_up(numbers: Sequence[int]) -> list[int]:
    """Eleven pairs. Where there are more, the engine refuses their count and looks at none."""
    return [*numbers[: 2 * ROOM], *[0] * (2 * ROOM - len(numbers))]


def _asked(interval: Interval) -> tuple[Any, ...]:
    """An interval as the engine takes it."""
    of_kind("interval", interval, Interval)
    outputs = [number for row in zip(*(getattr(interval, name) for name in OUTPUTS)) for number in row]
    factors = [0] * (MAX_RESOURCES * MAX_CONSTRAINTS)
    for factor in interval.factors:
        # past these the engine refuses the counts and looks at no factor
        if factor.resource < MAX_RESOURCES and factor.constraint < MAX_CONSTRAINTS:
            factors[MAX_CONSTRAINTS * factor.resource + factor.constraint] = factor.factor
    shadow = (len(interval.shadow), cells(interval.shadow), len(interval.shadow))
    lent = (len(interval.lmp), cells(outputs), len(outputs), cells(factors), len(factors))
    return (*shadow, *lent, interval.parameter or 0)


def _sellers(constraint: int, row: Sequence[int]) -> list[Seller]:
    """The sellers that a verdict names, by weight: bit p of its fourth number stands for portfolio p."""
    named, withheld = row[3], row[4:]
    sellers = [Seller(constraint, p, amount) for p, amount in enumerate(withheld) if named >> p & 1]
    return sorted(sellers, key=lambda seller: (-seller.withheld, seller.portfolio))


def _cause(resource: int, row: Sequence[int]) -> Cause:
    capped, component, competitive_price, floor_price = row
    return Cause(resource, capped != 0, component, competitive_price, floor_price)
