"""What the engine takes and what it answers, as frozen dataclasses.

Quantities are hundredths of a MW, prices 0.0001 dollar per MWh, heat rates Btu/kWh, shift factors millionths; demand, left and withheld
are in hundred-millionths of a MW. `mw` and `dollars` give such numbers; one with a decimal point is an error.
"""

from __future__ import annotations

import enum
from collections.abc import Iterable
from dataclasses import astuple, dataclass
from typing import TYPE_CHECKING, Any

from ._numbers import column, items, of_kind, rows, same_length, whole
from ._types import Column, Number, Table
from .amounts import LOW, TOP
from .refusal import Refusal


def _set(record: Any, **values: object) -> None:
    """Sets fields of a frozen record while it is made."""
    for name, value in values.items():
        object.__setattr__(record, name, value)


def _numbers_only(record: Any) -> None:
    """Makes every field of a record a whole number of 64 bits."""
    for name in record.__dataclass_fields__:
        value = getattr(record, name)
        if type(value) is not int or not LOW <= value <= TOP:
            _set(record, **{name: whole(name, value)})


@dataclass(frozen=True)
class Step:
    """A step of a curve: from the end of the step before it, or from the curve's start, up to its own end."""

    end: int
    price: int

    if TYPE_CHECKING:

        def __init__(self, end: Number, price: Number) -> None: ...

    def __post_init__(self) -> None:
        _numbers_only(self)


@dataclass(frozen=True)
class Curve:
    """A curve: a bid, a default energy bid or a mitigated bid. Steps may be handed over as pairs or as a table of end and price.

    >>> Curve(10000, [(15000, 300000), (30000, 900000)])
    Curve(start=10000, steps=(Step(end=15000, price=300000), Step(end=30000, price=900000)))
    >>> from noskjerf import dollars, mw
    >>> Curve(mw(100), [(mw(150), dollars(30)), (mw(300), dollars(90))]) == Curve(10000, [(15000, 300000), (30000, 900000)])
    True
    """

    start: int
    steps: tuple[Step, ...]

    if TYPE_CHECKING:

        def __init__(self, start: Number, steps: Table[Step]) -> None: ...

    def __post_init__(self) -> None:
        _set(self, start=whole("start", self.start), steps=steps_of(self.steps))


def steps_of(table: Table[Step]) -> tuple[Step, ...]:
    """Steps from pairs, from Steps or from a table with the columns end and price."""
    return tuple(Step(*row) for row in rows("steps", ("end", "price"), table))


@dataclass(frozen=True)
class Point:
    """A point of a resource's costs: a quantity, and the average heat rate there."""

    mw: int
    heat: int

    if TYPE_CHECKING:

        def __init__(self, mw: Number, heat: Number) -> None: ...

    def __post_init__(self) -> None:
        _numbers_only(self)


def points_of(table: Table[Point]) -> tuple[Point, ...]:
    """Points from pairs, from Points or from a table with the columns mw and heat."""
    return tuple(Point(*row) for row in rows("points", ("mw", "heat"), table))


@dataclass(frozen=True)
class Charges:
    """The prices, rates and fees of a resource's costs; docs/FORMAT.md has their units and limits."""

    gas: int = 0
    rate: int = 0
    allowance: int = 0
    om: int = 0
    msc: int = 0
    soc: int = 0
    fee: int = 0

    if TYPE_CHECKING:

        def __init__(
            self,
            gas: Number = 0,
            rate: Number = 0,
            allowance: Number = 0,
            om: Number = 0,
            msc: Number = 0,
            soc: Number = 0,
            fee: Number = 0,
        ) -> None: ...

    def __post_init__(self) -> None:
        _numbers_only(self)

    def in_order(self) -> tuple[int, ...]:
        """The charges in the engine's order."""
        return astuple(self)


@dataclass(frozen=True)
class Costs:
    """What a default energy bid is worked out from."""

    points: tuple[Point, ...]
    charges: Charges = Charges()

    if TYPE_CHECKING:

        def __init__(self, points: Table[Point], charges: Charges = ...) -> None: ...

    def __post_init__(self) -> None:
        _set(self, points=points_of(self.points))
        of_kind("charges", self.charges, Charges)


@dataclass(frozen=True)
class Resource:
    """A resource as an hour is opened with it. Its default energy bid comes from costs, or is a pack: a curve that stands as it is."""

    portfolio: int
    bid: Curve
    default: Costs | Curve

    if TYPE_CHECKING:

        def __init__(self, portfolio: Number, bid: Curve, default: Costs | Curve) -> None: ...

    def __post_init__(self) -> None:
        _set(self, portfolio=whole("portfolio", self.portfolio))
        of_kind("bid", self.bid, Curve)
        of_kind("default", self.default, Costs, Curve)


@dataclass(frozen=True)
class Opening:
    """What an hour is opened with: the month, a mark for each portfolio (1 a net seller, 0 a net buyer) and the resources."""

    month: int
    sellers: tuple[int, ...]
    resources: tuple[Resource, ...]

    if TYPE_CHECKING:

        def __init__(self, month: Number, sellers: Column, resources: Iterable[Resource]) -> None: ...

    def __post_init__(self) -> None:
        _set(self, month=whole("month", self.month), sellers=column("sellers", self.sellers))
        _set(self, resources=tuple(items("resources", self.resources)))
        for r, resource in enumerate(self.resources):
            of_kind(f"resources[{r}]", resource, Resource)


@dataclass(frozen=True)
class Factor:
    """The shift factor of a resource on a constraint; one that is absent is 0."""

    resource: int
    constraint: int
    factor: int

    if TYPE_CHECKING:

        def __init__(self, resource: Number, constraint: Number, factor: Number) -> None: ...

    def __post_init__(self) -> None:
        _numbers_only(self)


@dataclass(frozen=True)
class Interval:
    """An interval: the shadow price of each constraint, four numbers of each resource, the shift factors and the parameter.

    Every list may be a tuple, a list, an array or a Series, and the factors rows or a table with the columns resource, constraint and
    factor. A parameter that is None is missing and means 0.

    >>> Interval(shadow=[500000], lmp=[600000], dispatch=[20000], available=[30000], floor=[0], factors=[(0, 0, -500000)]).factors
    (Factor(resource=0, constraint=0, factor=-500000),)
    """

    shadow: tuple[int, ...]
    lmp: tuple[int, ...]
    dispatch: tuple[int, ...]
    available: tuple[int, ...]
    floor: tuple[int, ...]
    factors: tuple[Factor, ...] = ()
    parameter: int | None = 0

    if TYPE_CHECKING:

        def __init__(
            self,
            shadow: Column,
            lmp: Column,
            dispatch: Column,
            available: Column,
            floor: Column,
            factors: Table[Factor] = (),
            parameter: Number | None = 0,
        ) -> None: ...

    def __post_init__(self) -> None:
        for name in ("shadow", *OUTPUTS):
            _set(self, **{name: column(name, getattr(self, name))})
        same_length("interval", {name: getattr(self, name) for name in OUTPUTS})
        table = rows("factors", ("resource", "constraint", "factor"), self.factors)
        _set(self, factors=tuple(Factor(*row) for row in table))
        self._check_pairs()
        if self.parameter is not None:
            _set(self, parameter=whole("parameter", self.parameter))

    def _check_pairs(self) -> None:
        """Each factor is of a resource and a constraint of the interval, and no pair comes twice."""
        seen = set()
        for i, factor in enumerate(self.factors):
            pair = (factor.resource, factor.constraint)
            for name, number, count in zip(("resource", "constraint"), pair, (len(self.lmp), len(self.shadow))):
                if not 0 <= number < count:
                    raise ValueError(f"factors[{i}].{name}: the interval has no {name} {number}")
            if pair in seen:
                raise ValueError(f"factors[{i}]: resource {pair[0]} has its factor on constraint {pair[1]} already")
            seen.add(pair)


OUTPUTS = ("lmp", "dispatch", "available", "floor")


class Finding(enum.IntEnum):
    """What a verdict finds of a constraint, as the text prints it."""

    COMPETITIVE = 0
    NON_COMPETITIVE = 1
    NOT_BINDING = 2


@dataclass(frozen=True)
class Verdict:
    """The verdict on a constraint's path. Demand for counterflow, and supply left without the sellers named; 0 where it doesn't bind."""

    constraint: int
    finding: Finding
    demand: int
    left: int


@dataclass(frozen=True)
class Seller:
    """A net seller named for a constraint, and all the counterflow supply that it can withhold."""

    constraint: int
    portfolio: int
    withheld: int


@dataclass(frozen=True)
class PageCurve:
    """The bid curve of a resource after an interval, as a text prints it. It starts where the bid starts; the start isn't printed."""

    resource: int
    steps: tuple[Step, ...]


@dataclass(frozen=True)
class Page:
    """What an accepted interval of a text prints. Within a constraint the seller with the larger withheld amount comes first, equal
    ones by lower portfolio number."""

    interval: int
    verdicts: tuple[Verdict, ...]
    sellers: tuple[Seller, ...]
    curves: tuple[PageCurve, ...]


@dataclass(frozen=True)
class Output:
    """What a text prints: a page for each accepted interval, and the refusal that stopped it, if any."""

    printed: bytes
    pages: tuple[Page, ...]
    refusal: Refusal | None

    def accepted(self) -> tuple[Page, ...]:
        """The pages of a text that had to be accepted whole; raises its Refusal.

        >>> from noskjerf import run
        >>> run("month\\n025\\n").accepted()
        Traceback (most recent call last):
        noskjerf.refusal.Refusal: opening, line 2, column 1: a leading zero in month, 025 (refusal 17)
          025
          ^
          due: <month>
          mend: write 25
        """
        if self.refusal is not None:
            raise self.refusal.again()
        return self.pages

    def to_frames(self) -> dict[str, Any]:
        """The tables as pandas DataFrames: verdicts, sellers, curves and refusals. It needs pandas."""
        from .frames import output_frames

        return output_frames(self)


@dataclass(frozen=True)
class Judged:
    """What an interval or a pass of an hour in numbers finds. Sellers rise by constraint; within one the larger withheld amount comes
    first, equal ones by lower portfolio number."""

    verdicts: tuple[Verdict, ...]
    sellers: tuple[Seller, ...]


@dataclass(frozen=True)
class Cause:
    """Whether an interval caps a resource's bid, and why: whether a cap applies, the component of its locational price that the
    non-competitive constraints make, the competitive price, and the floor price, which is 0 where no cap applies.

    A cap may lie above the price that it caps, which then stays: whether a bid is cut is seen by its curve before and after."""

    resource: int
    capped: bool
    component: int
    competitive_price: int
    floor_price: int
