"""Which value a text is refused for. The engine tells a number and a part; here it is asked about each value of that part by itself. What is
wrong with a line that isn't of the form (17) is told by form.py."""

from __future__ import annotations

import functools
from collections.abc import Callable, Iterator, Sequence
from dataclasses import dataclass, replace

from . import parts as tables
from .judgement import bid, default_curve
from .parts import Names, Parts, read, write
from .records import Charges, Costs, Curve, Factor, Interval, Opening, Point, Resource, Step
from .refusal import Refusal
from .text import as_bytes, run
from .units import count, factor, in_dollars, in_mw

GOOD_COSTS = Costs((Point(0, 1), Point(1_000_000, 1)))
GOOD = Resource(0, Curve(0, (Step(1, 0),)), GOOD_COSTS)
GOOD_OPENING = Opening(1, (0,), (GOOD,))
QUANTITIES = "outside 0 to 10,000 MW"

CHARGES = {
    "gas": ("gas price", "/MMBtu", "outside $0 to $100/MMBtu"),
    "rate": ("emission rate", "", "outside 0 to 0.2 tonne/MMBtu"),
    "allowance": ("allowance price", "/tonne", "outside $0 to $1,000/tonne"),
    "om": ("operation and maintenance", "/MWh", "outside $0 to $100/MWh"),
    "msc": ("market services charge", "/MWh", "outside $0 to $100/MWh"),
    "soc": ("system operations charge", "/MWh", "outside $0 to $100/MWh"),
    "fee": ("bid segment fee", " a segment", "outside $0 to $100 a segment"),
}


@dataclass(frozen=True)
class Fault:
    """A value that the engine refuses: what it is, the value as it stands and in words, why, and its line. Of a line that isn't of the form,
    what is wrong, what was due and the column."""

    what: str
    value: int | None
    shown: str
    why: str
    line: int | None
    column: int | None = None

    def __str__(self) -> str:
        column = "" if self.column is None else f", column {self.column}"
        where = "" if self.line is None else f"line {self.line}{column}: "
        stands = "" if self.value is None else f", {self.value}" if self.shown == str(self.value) else f", {self.value} ({self.shown})"
        return f"{where}{self.what}{stands}: {self.why}"


@dataclass(frozen=True)
class Diagnosis:
    """What the engine tells of a text, the resource at fault, if it is one, and the values that it refuses by themselves."""

    refusal: Refusal | None
    resource: int | None
    faults: tuple[Fault, ...]

    def details(self, most: int | None = None) -> tuple[str, ...]:
        """Lines for a person, below the refusal: what is wrong with the line that isn't of the form, or the values refused, at most so many."""
        slip = None if self.refusal is None else self.refusal.slip
        if slip is not None:
            return slip.details()
        rest = len(self.faults[most:]) if most is not None else 0
        return (*map(str, self.faults[:most]), *([f"and {rest:,} more"] if rest else []))


def diagnose(text: str | bytes) -> Diagnosis:
    """Finds the values that a text is refused for.

    >>> diagnose("month\\n0\\n" + write(GOOD_OPENING).split("\\n", 2)[2]).faults[0].what
    'month'
    """
    data = as_bytes(text)
    try:
        parts = read(data)
    except Refusal as unread:
        return Diagnosis(unread, None, tuple(_form(unread)))
    refusal, lines = parts.refusal, Lines(data)
    if refusal is None:
        return Diagnosis(None, None, ())
    resource = refused_resource(parts) if refusal.number in (*range(1, 9), 11) else None
    return Diagnosis(refusal, resource, tuple(_faults(parts, refusal, resource, lines)))


def faults_of(refusal: Refusal) -> tuple[Fault, ...]:
    """What is at fault in a refused text; nothing is known of a call, or of a text that is too long."""
    return () if refusal.text is None else diagnose(refusal.text).faults


def said(refusal: Refusal, most: int = 3) -> str:
    """A refusal, and below it, further in, what is wrong with its line, or the values at fault, at most so many, each with its line."""
    details = () if refusal.text is None else diagnose(refusal.text).details(most)
    return "\n  ".join((refusal.headline, *details))


def _faults(parts: Parts, refusal: Refusal, resource: int | None, lines: Lines) -> Iterator[Fault]:
    if resource is not None:
        return OF_RESOURCE[refusal.number](parts.opening, resource, lines)
    if refusal.number in (9, 10):
        return (_counts if refusal.number == 9 else _portfolios)(parts.opening, lines)
    if 13 <= refusal.number <= 16:
        number = len(parts.intervals)
        return OF_INTERVAL[refusal.number](parts, parts.intervals[-1], lines.interval(number))
    return _form(refusal)


class Lines:
    """Where the values of a part stand in a text."""

    def __init__(self, text: bytes, first: int = 0) -> None:
        self._lines = text.split(b"\n")
        self._first = first

    def interval(self, number: int) -> Lines:
        """The same from an interval on, counted from 1."""
        starts = [i for i, line in enumerate(self._lines) if line == b"constraint shadow"]
        return Lines(b"\n".join(self._lines), starts[number - 1])

    def of(self, names: Names, row: int = 0) -> int:
        """The line of a row of a table, both from 0; the line of names is row -1."""
        return self._lines.index(" ".join(names).encode(), self._first) + 2 + row

    def within(self, names: Names, resource: int, row: int) -> int:
        """The line of a row of a resource, in a table with several for each."""
        first = self.of(names)
        while not self._lines[first - 1].startswith(b"%d " % resource):
            first += 1
        return first + row


def refused(opening: Opening, intervals: Sequence[Interval] = ()) -> int:
    """The number that the engine refuses this text with, 0 for none."""
    refusal = run(write(opening, intervals)).refusal
    return 0 if refusal is None else refusal.number


def refused_resource(parts: Parts) -> int | None:
    """The first resource that the engine refuses by itself."""
    opening = parts.opening
    return next((r for r, resource in enumerate(opening.resources) if refused(alone(opening, resource))), None)


def alone(opening: Opening, resource: Resource) -> Opening:
    """An opening with this resource alone, in a portfolio of its own."""
    return replace(opening, sellers=(0,), resources=(replace(resource, portfolio=0),))


@functools.lru_cache(maxsize=4096)
def _bid(month: int, start: int, steps: tuple[tuple[int, int], ...]) -> int:
    """The number that the engine refuses a bid with, 0 for none."""
    return _number(lambda: bid(month, start, steps))


@functools.lru_cache(maxsize=4096)
def _costs(points: tuple[tuple[int, int], ...], charges: Charges = Charges()) -> int:
    """The number that the engine refuses costs with, 0 for none."""
    return _number(lambda: default_curve(points, charges))


def _number(asked: Callable[[], object]) -> int:
    try:
        asked()
    except Refusal as refusal:
        return refusal.number
    return 0


def _in_turn(values: Sequence[int], stands: Callable[[int], bool], follows: Callable[[int, int], bool]) -> Iterator[tuple[int, bool]]:
    """The values that don't stand by themselves (True), and those that do and yet don't follow the one before (False)."""
    for i, value in enumerate(values):
        if not stands(value):
            yield i, True
        elif i and stands(values[i - 1]) and not follows(values[i - 1], value):
            yield i, False


# ---- 1 to 3, and 11: a bid
def _step_count(opening: Opening, r: int, lines: Lines) -> Iterator[Fault]:
    steps = len(opening.resources[r].bid.steps)
    line = lines.within(tables.STEPS, r, 10) if steps else lines.of(tables.STARTS, r)
    yield Fault(f"steps of the bid of resource {r}", steps, str(steps), "outside 1 to 10", line)


def _edges(opening: Opening, r: int, lines: Lines) -> Iterator[Fault]:
    curve = opening.resources[r].bid
    edges = [curve.start, *(step.end for step in curve.steps)]
    for i, outside in _in_turn(edges, _edge_stands, lambda before, edge: _bid(1, before, ((edge, 0),)) == 0):
        what = f"end of step {i} of the bid of resource {r}" if i else f"start of the bid of resource {r}"
        line = lines.within(tables.STEPS, r, i - 1) if i else lines.of(tables.STARTS, r)
        yield Fault(what, edges[i], in_mw(edges[i]), QUANTITIES if outside else "not above the edge before it", line)


def _edge_stands(edge: int) -> bool:
    return _bid(1, edge, ((edge + 1, 0),)) == 0 or _bid(1, edge - 1, ((edge, 0),)) == 0


def _prices(opening: Opening, r: int, lines: Lines) -> Iterator[Fault]:
    month, prices = opening.month, [step.price for step in opening.resources[r].bid.steps]
    found = _in_turn(
        prices,
        lambda price: _bid(month, 0, ((1, price),)) == 0,
        lambda before, price: _bid(month, 0, ((1, before), (2, price))) == 0,
    )
    for i, outside in found:
        why = f"outside the range of bid prices in month {month}" if outside else "below the price of the step before it"
        yield Fault(f"price of step {i + 1} of the bid of resource {r}", prices[i], in_dollars(prices[i]), why, lines.within(tables.STEPS, r, i))


def _reach(opening: Opening, r: int, lines: Lines) -> Iterator[Fault]:
    """The bid's start with the default energy bid's end, and its end with the other's start."""
    resource = opening.resources[r]
    costs, curve = resource.default, resource.bid
    assert isinstance(costs, Costs)
    default = default_curve(costs.points, costs.charges)
    low, high, price, last = default.start, default.steps[-1].end, curve.steps[0].price, curve.steps[-1].end
    reaches = f"the default energy bid reaches from {in_mw(low)} to {in_mw(high)}"
    if _refused_reach(opening, resource, Curve(curve.start, (Step(high, price),))):
        yield Fault(f"start of the bid of resource {r}", curve.start, in_mw(curve.start), reaches, lines.of(tables.STARTS, r))
    if _refused_reach(opening, resource, Curve(low, (Step(last, price),))):
        line = lines.within(tables.STEPS, r, len(curve.steps) - 1)
        yield Fault(f"end of step {len(curve.steps)} of the bid of resource {r}", last, in_mw(last), reaches, line)


def _refused_reach(opening: Opening, resource: Resource, curve: Curve) -> bool:
    return refused(alone(opening, replace(resource, bid=curve))) == 11


# ---- 4 to 8: costs
def _costs_of(opening: Opening, r: int) -> Costs:
    costs = opening.resources[r].default
    assert isinstance(costs, Costs)
    return costs


def _point_count(opening: Opening, r: int, lines: Lines) -> Iterator[Fault]:
    points = len(_costs_of(opening, r).points)
    line = lines.within(tables.POINTS, r, min(points - 1, 11)) if points else lines.of(tables.CHARGES, r)
    yield Fault(f"cost points of resource {r}", points, str(points), "outside 2 to 11", line)


def _quantities(opening: Opening, r: int, lines: Lines) -> Iterator[Fault]:
    quantities = [point.mw for point in _costs_of(opening, r).points]
    for i, outside in _in_turn(quantities, _quantity_stands, lambda before, after: _costs(((before, 1), (after, 1))) == 0):
        why = QUANTITIES if outside else "not above the quantity before it"
        yield Fault(f"mw of cost point {i + 1} of resource {r}", quantities[i], in_mw(quantities[i]), why, lines.within(tables.POINTS, r, i))


def _quantity_stands(quantity: int) -> bool:
    return _costs(((quantity, 1), (quantity + 1, 1))) == 0 or _costs(((quantity - 1, 1), (quantity, 1))) == 0


def _heats(opening: Opening, r: int, lines: Lines) -> Iterator[Fault]:
    for i, point in enumerate(_costs_of(opening, r).points):
        if _costs(((0, point.heat), (1, point.heat))):
            what, shown = f"heat of cost point {i + 1} of resource {r}", f"{point.heat:,} Btu/kWh"
            yield Fault(what, point.heat, shown, "outside 1 to 100,000 Btu/kWh", lines.within(tables.POINTS, r, i))


def _charges(opening: Opening, r: int, lines: Lines) -> Iterator[Fault]:
    charges = _costs_of(opening, r).charges
    for name, (what, per, why) in CHARGES.items():
        value = getattr(charges, name)
        if _costs(((0, 1), (1, 1)), Charges(**{name: value})):
            shown = f"{factor(value)} tonne/MMBtu" if name == "rate" else in_dollars(value, per)
            yield Fault(f"{name} ({what}) of resource {r}", value, shown, why, lines.of(tables.CHARGES, r))


def _rates(opening: Opening, r: int, lines: Lines) -> Iterator[Fault]:
    """Each segment with the heat rates left and right of it made level, so that no other segment has a rate of its own."""
    points = _costs_of(opening, r).points
    for i in range(len(points) - 1):
        level = tuple((p.mw, points[i].heat if j <= i else points[i + 1].heat) for j, p in enumerate(points))
        if _costs(level) == 8:
            what = f"incremental heat rate between cost points {i + 1} and {i + 2} of resource {r}"
            ends = " and ".join(f"{in_mw(p.mw)} at {p.heat:,} Btu/kWh" for p in points[i : i + 2])
            yield Fault(what, None, "", f"outside -100,000 to 100,000 Btu/kWh, between {ends}", lines.within(tables.POINTS, r, i + 1))


# ---- 9 and 10: the opening
def _counts(opening: Opening, lines: Lines) -> Iterator[Fault]:
    portfolios, resources = len(opening.sellers), len(opening.resources)
    if refused(replace(GOOD_OPENING, month=opening.month)) == 9:
        yield Fault("month", opening.month, str(opening.month), "outside 1 to 1,200", lines.of(tables.MONTH))
    if refused(replace(GOOD_OPENING, sellers=(0,) * portfolios)) == 9:
        line = lines.of(tables.SELLERS, 16 if portfolios else -1)
        yield Fault("number of portfolios", portfolios, str(portfolios), "outside 1 to 16", line)
    if refused(replace(GOOD_OPENING, resources=(GOOD,) * resources)) == 9:
        line = lines.of(tables.STARTS, 64 if resources else -1)
        yield Fault("number of resources", resources, str(resources), "outside 1 to 64", line)


def _portfolios(opening: Opening, lines: Lines) -> Iterator[Fault]:
    declared = (0,) * len(opening.sellers)
    for p, mark in enumerate(opening.sellers):
        if refused(replace(GOOD_OPENING, sellers=(mark,))) == 10:
            yield Fault(f"seller of portfolio {p}", mark, str(mark), "neither 1 (net seller) nor 0 (net buyer)", lines.of(tables.SELLERS, p))
    for r, resource in enumerate(opening.resources):
        named = replace(GOOD, portfolio=resource.portfolio)
        if refused(replace(GOOD_OPENING, sellers=declared, resources=(named,))) == 10:
            number, why = resource.portfolio, f"the text declares portfolios 0 to {len(declared) - 1}"
            yield Fault(f"portfolio of resource {r}", number, str(number), why, lines.of(tables.STARTS, r))


# ---- 13 to 16: an interval
QUIET = Interval((0,), (0,), (0,), (0,), (0,))


@functools.lru_cache(maxsize=4096)
def _interval(interval: Interval) -> int:
    """The number that an hour with one resource refuses an interval with, 0 for none."""
    return refused(GOOD_OPENING, (interval,))


def _resource_lines(parts: Parts, interval: Interval, lines: Lines) -> Iterator[Fault]:
    rows, due = len(interval.lmp), len(parts.opening.resources)
    what, why = "resources of the interval", f"the hour has {count(due, 'resource')}"
    yield Fault(what, rows, str(rows), why, lines.of(tables.DISPATCH, due if rows > due else rows - 1))


def _constraint_count(parts: Parts, interval: Interval, lines: Lines) -> Iterator[Fault]:
    constraints = len(interval.shadow)
    yield Fault("constraints of the interval", constraints, str(constraints), "more than 32", lines.of(tables.SHADOW, 32))


def _limits(parts: Parts, interval: Interval, lines: Lines) -> Iterator[Fault]:
    for c, price in enumerate(interval.shadow):
        if _interval(replace(QUIET, shadow=(price,))):
            yield Fault(f"shadow price of constraint {c}", price, in_dollars(price), "outside $0 to $10,000/MWh", lines.of(tables.SHADOW, c))
    for r, price in enumerate(interval.lmp):
        if _interval(replace(QUIET, lmp=(price,))):
            yield Fault(f"lmp of resource {r}", price, in_dollars(price), "outside -$10,000 to $10,000/MWh", lines.of(tables.DISPATCH, r))
    yield from _factors(interval, lines)
    parameter = interval.parameter
    if parameter is not None and _interval(replace(QUIET, parameter=parameter)):
        yield Fault("parameter", parameter, in_dollars(parameter), "outside $0 to $0.01/MWh", lines.of(tables.PARAMETER))


def _factors(interval: Interval, lines: Lines) -> Iterator[Fault]:
    for row, each in enumerate(interval.factors):
        if _interval(replace(QUIET, factors=(Factor(0, 0, each.factor),))):
            what = f"shift factor of resource {each.resource} on constraint {each.constraint}"
            yield Fault(what, each.factor, factor(each.factor), "outside -1 to 1", lines.of(tables.FACTORS, row))


def _outputs(parts: Parts, interval: Interval, lines: Lines) -> Iterator[Fault]:
    for r, available in enumerate(interval.available):
        line, stands = lines.of(tables.DISPATCH, r), not _interval(replace(QUIET, available=(available,)))
        if not stands:
            yield Fault(f"available of resource {r}", available, in_mw(available), QUANTITIES, line)
        most = available if stands else 1_000_000
        for name in ("dispatch", "floor"):
            value = getattr(interval, name)[r]
            if _interval(replace(QUIET, **{"available": (most,), name: (value,)})):
                yield Fault(f"{name} of resource {r}", value, in_mw(value), f"outside 0 to {in_mw(most)}, what is available", line)


# ---- 12, 17 and 18: the text
def _form(refusal: Refusal) -> Iterator[Fault]:
    slip = refusal.slip
    if refusal.number == 18:
        yield Fault("length of the text", None, "", "more than 65,536 bytes", None)
    elif slip is not None:
        due = f"due: {' or '.join(slip.due)}" if slip.due else "not of the form that is due there"
        yield Fault(slip.cause or f"the text has {slip.picture()[0]!r}", None, "", due, slip.line, slip.column)


OF_RESOURCE: dict[int, Callable[[Opening, int, Lines], Iterator[Fault]]] = {
    1: _step_count,
    2: _edges,
    3: _prices,
    4: _point_count,
    5: _quantities,
    6: _heats,
    7: _charges,
    8: _rates,
    11: _reach,
}
OF_INTERVAL: dict[int, Callable[[Parts, Interval, Lines], Iterator[Fault]]] = {
    13: _resource_lines,
    14: _constraint_count,
    15: _limits,
    16: _outputs,
}
