"""Every figure of a text's hour, step by step.

Verdicts, demand, left, sellers, who leaves every binding constraint short together, default prices, components, competitive and floor prices
and curves are the engine's answers. The figures in between, which it doesn't hand out, are worked out here from the text's own numbers as the
paper has them; what they come to is compared with the engine's answer, and `differences` names each that isn't the same.
"""

from __future__ import annotations

from collections.abc import Iterable, Iterator, Sequence
from dataclasses import dataclass

from .diagnosis import Diagnosis, diagnose, refused_resource
from .hour import Hour
from .judgement import default_curve
from .parts import Parts, read
from .records import Cause, Charges, Costs, Curve, Finding, Interval, Opening, Page, Point, Seller, Step
from .refusal import Refusal
from .text import run
from .together import Together


@dataclass(frozen=True)
class Check:
    """A check of the order in which they are made: the numbers it may tell, and what came of it (None: not reached)."""

    what: str
    numbers: str
    refusal: int | None


@dataclass(frozen=True)
class Segment:
    """A step of a default energy bid: a segment between two cost points, or the part of one that the 80% mark splits."""

    start: int
    end: int
    point: int
    width: int
    rise: int
    unlimited: int
    limit: int | None
    rate: int
    largest_rate: int
    fuel: int
    greenhouse: int
    om: int
    msc: int
    soc: int
    fee_part: int
    cost: int
    with_adder: int
    raised: int
    price: int


@dataclass(frozen=True)
class Default:
    """The default energy bid of a resource: its 80% mark and its steps."""

    mark: int
    points: tuple[Point, ...]
    charges: Charges
    segments: tuple[Segment, ...]


@dataclass(frozen=True)
class ResourceWorking:
    """A resource as the hour is opened with it; no default energy bid where its costs are refused."""

    resource: int
    portfolio: int
    seller: int | None
    bid: Curve
    default: Default | None


@dataclass(frozen=True)
class Share:
    """What a resource has to do with a constraint: its effectiveness, and that times dispatch, available and available less floor."""

    resource: int
    portfolio: int
    effectiveness: int
    demand: int
    supply: int
    withholdable: int


@dataclass(frozen=True)
class ConstraintWorking:
    """The verdict on a constraint, with what it is made of."""

    constraint: int
    shadow: int
    finding: Finding
    demand: int
    supply: int
    left: int
    sellers: tuple[Seller, ...]
    shares: tuple[Share, ...]


@dataclass(frozen=True)
class Term:
    """What a non-competitive constraint adds to a component: minus factor times shadow price."""

    constraint: int
    factor: int
    shadow: int
    term: int


@dataclass(frozen=True)
class Piece:
    """A stretch of a bid: its price before the interval, its default price, its cap where one applies, and its price after."""

    start: int
    end: int
    before: int
    default: int
    cap: int | None
    after: int


@dataclass(frozen=True)
class Effect:
    """What an interval does to a resource, and why: whether a cap applies, and whether it cuts, which it does where it is below a price."""

    resource: int
    lmp: int
    dispatch: int
    terms: tuple[Term, ...]
    component: int
    competitive_price: int
    floor_price: int | None
    capped: bool
    cut: bool
    pieces: tuple[Piece, ...]


@dataclass(frozen=True)
class IntervalWorking:
    """An accepted interval; who leaves every binding constraint short together, where one binds."""

    interval: int
    parameter: int | None
    constraints: tuple[ConstraintWorking, ...]
    together: Together | None
    resources: tuple[Effect, ...]


@dataclass(frozen=True)
class Workings:
    """A text's hour; `differences` has a line for each figure that isn't the engine's."""

    diagnosis: Diagnosis
    checks: tuple[Check, ...]
    month: int | None
    resources: tuple[ResourceWorking, ...]
    intervals: tuple[IntervalWorking, ...]
    differences: tuple[str, ...]


def workings(text: str | bytes) -> Workings:
    """Works out every figure of a text's hour. What the engine refused, and all after it, has none."""
    diagnosis = diagnose(text)
    try:
        parts = read(text)
    except Refusal:
        return Workings(diagnosis, tuple(_checks(diagnosis.refusal, None)), None, (), (), ())
    differs = Differences()
    resources = tuple(_resource(parts.opening, r, differs) for r in range(len(parts.opening.resources)))
    intervals = tuple(_intervals(parts, run(text).pages, resources, differs))
    checks = tuple(_checks(diagnosis.refusal, parts))
    return Workings(diagnosis, checks, parts.opening.month, resources, intervals, tuple(differs.lines))


class Differences:
    """The lines of figures that differ from the engine's."""

    def __init__(self) -> None:
        self.lines: list[str] = []

    def compare(self, what: str, worked: object, engine: object) -> None:
        """Notes a figure that isn't the engine's."""
        if worked != engine:
            self.lines.append(f"{what}: {worked} from the text's numbers, and {engine} from the engine")


# ---- the order of the checks
def _checks(refusal: Refusal | None, parts: Parts | None) -> Iterator[Check]:
    """The checks in their order, up to the one that refuses."""
    at = _refused_at(refusal, parts)
    for i, (what, numbers) in enumerate(_order(parts)):
        if at is None or i < at:
            yield Check(what, numbers, 0)
        else:
            yield Check(what, numbers, refusal.number if refusal is not None and i == at else None)


def _order(parts: Parts | None) -> list[tuple[str, str]]:
    first = [("length of the text", "18"), ("form of the opening", "17")]
    if parts is None:
        return first
    order = [*first, ("month and counts", "9"), ("portfolios", "10")]
    for r in range(len(parts.opening.resources)):
        order += [(f"resource {r}: bid", "1 to 3"), (f"resource {r}: costs", "4 to 8"), (f"resource {r}: bid within its default energy bid", "11")]
    for i in range(1, _reached(parts) + 1):
        order += [(f"interval {i}: form", "17"), (f"interval {i}: values", "12 to 16")]
    return order


def _reached(parts: Parts) -> int:
    """How many intervals the engine took up, the refused one included."""
    return len(parts.intervals) + (parts.refusal is not None and parts.refusal.number == 17)


def _refused_at(refusal: Refusal | None, parts: Parts | None) -> int | None:
    """Which of the checks refuses."""
    if refusal is None:
        return None
    if parts is None:
        return 0 if refusal.number == 18 else 1
    if refusal.number in (9, 10):
        return refusal.number - 7
    if refusal.number < 12:
        of_resource = 0 if refusal.number < 4 else 1 if refusal.number < 9 else 2
        return 4 + 3 * (refused_resource(parts) or 0) + of_resource
    return len(_order(parts)) - (2 if refusal.number == 17 else 1)


# ---- default energy bids
def up(x: int, d: int) -> int:
    """x / d, rounded toward plus infinity."""
    return -(-x // d)


def _resource(opening: Opening, r: int, differs: Differences) -> ResourceWorking:
    resource = opening.resources[r]
    declared = 0 <= resource.portfolio < len(opening.sellers)
    seller = opening.sellers[resource.portfolio] if declared else None
    assert isinstance(resource.default, Costs)
    return ResourceWorking(r, resource.portfolio, seller, resource.bid, _default(r, resource.default, differs))


def _default(r: int, costs: Costs, differs: Differences) -> Default | None:
    try:
        engine = default_curve(costs.points, costs.charges)
    except Refusal:
        return None
    mark = 4 * costs.points[-1].mw // 5
    segments = tuple(_segments(costs, mark, engine))
    differs.compare(f"resource {r}: steps of the default energy bid", len(segments), len(engine.steps))
    for t, (segment, step) in enumerate(zip(segments, engine.steps), 1):
        differs.compare(f"resource {r}, step {t}: end", segment.end, step.end)
        differs.compare(f"resource {r}, step {t}: default price", segment.raised, step.price)
    return Default(mark, costs.points, costs.charges, segments)


def _stretches(points: Sequence[Point], mark: int) -> Iterator[tuple[int, int, int]]:
    """The start and end of each step, and the number of its segment, from 0: the mark splits the segment that it lies strictly inside."""
    for i, (left, right) in enumerate(zip(points, points[1:])):
        if left.mw < mark < right.mw:
            yield left.mw, mark, i
            yield mark, right.mw, i
        else:
            yield left.mw, right.mw, i


def _segments(costs: Costs, mark: int, engine: Curve) -> Iterator[Segment]:
    rates: list[int] = []
    prices: list[int] = []
    for t, (start, end, i) in enumerate(_stretches(costs.points, mark)):
        rate = _rate(costs.points, i, end)
        rates.append(rate[-1])
        parts = _cost(costs.charges, max(rates), rate[-1], end - start)
        prices.append(up(11 * parts[-1], 10))
        price = engine.steps[t].price if t < len(engine.steps) else 0
        yield Segment(start, end, i, *rate, max(rates), *parts, prices[-1], max(prices), price)


def _rate(points: Sequence[Point], i: int, end: int) -> tuple[int, int, int, int | None, int]:
    """Width, rise and quotient of the whole segment, the limit where there is one, and the incremental heat rate."""
    left, right = points[i], points[i + 1]
    width, rise = right.mw - left.mw, right.heat * right.mw - left.heat * left.mw
    unlimited = up(rise, width)
    limit = max(left.heat, right.heat) if 5 * end <= 4 * points[-1].mw else None
    return width, rise, unlimited, limit, unlimited if limit is None else min(unlimited, limit)


def _cost(charges: Charges, largest_rate: int, rate: int, width: int) -> tuple[int, int, int, int, int, int, int]:
    """Fuel, greenhouse, om, msc, soc, the fee part, and the cost that they add up to."""
    fuel = up(largest_rate * charges.gas, 1000)
    greenhouse = up(rate * charges.rate * charges.allowance, 1_000_000_000)
    fee_part = up(100 * charges.fee, width)
    others = (charges.om, charges.msc, charges.soc)
    return (fuel, greenhouse, *others, fee_part, fuel + greenhouse + sum(others) + fee_part)


# ---- intervals
def _intervals(parts: Parts, pages: Sequence[Page], resources: Sequence[ResourceWorking], differs: Differences) -> Iterator[IntervalWorking]:
    if not pages:
        return
    hour = Hour.open(parts.opening)
    curves = [resource.bid for resource in resources]
    for page, interval in zip(pages, parts.intervals):
        causes = hour.why(interval)
        constraints = tuple(_constraint(parts.opening, interval, page, c, differs) for c in range(len(interval.shadow)))
        after = [Curve(bid.start, page.curves[r].steps) for r, bid in enumerate(curves)]
        effects = tuple(
            _effect(page.interval, interval, constraints, cause, resources[r], (curves[r], after[r]), differs) for r, cause in enumerate(causes)
        )
        curves = after
        together = _together(page.interval, parts.opening.sellers, hour, interval, constraints, differs)
        yield IntervalWorking(page.interval, interval.parameter, constraints, together, effects)


def _factors(interval: Interval) -> dict[tuple[int, int], int]:
    return {(each.resource, each.constraint): each.factor for each in interval.factors}


def _constraint(opening: Opening, interval: Interval, page: Page, c: int, differs: Differences) -> ConstraintWorking:
    verdict = page.verdicts[c]
    sellers = tuple(seller for seller in page.sellers if seller.constraint == c)
    shares = tuple(_shares(opening, interval, c))
    supply = verdict.left + sum(seller.withheld for seller in sellers)
    if verdict.finding is not Finding.NOT_BINDING:
        where = f"interval {page.interval}, constraint {c}"
        differs.compare(f"{where}: demand", sum(share.demand for share in shares), verdict.demand)
        differs.compare(f"{where}: supply", sum(share.supply for share in shares), supply)
        for seller in sellers:
            worked = sum(share.withholdable for share in shares if share.portfolio == seller.portfolio)
            differs.compare(f"{where}: withheld by portfolio {seller.portfolio}", worked, seller.withheld)
    return ConstraintWorking(c, interval.shadow[c], verdict.finding, verdict.demand, supply, verdict.left, sellers, shares)


def _shares(opening: Opening, interval: Interval, c: int) -> Iterator[Share]:
    """The resources with a negative shift factor on a constraint."""
    factors = _factors(interval)
    for r, resource in enumerate(opening.resources):
        e = -factors.get((r, c), 0)
        if e > 0:
            available, floor = interval.available[r], interval.floor[r]
            yield Share(r, resource.portfolio, e, e * interval.dispatch[r], e * available, e * (available - floor))


def _together(
    number: int, sellers: Sequence[int], hour: Hour, interval: Interval, constraints: Sequence[ConstraintWorking], differs: Differences
) -> Together | None:
    binding = [each for each in constraints if each.finding is not Finding.NOT_BINDING]
    if not binding:
        return None
    found = hour.together(interval)
    amounts = [_withholdable(each, sellers) for each in binding]
    needs = [_need(each, list(by_portfolio.values())) for each, by_portfolio in zip(binding, amounts)]
    floor = 0 if None in needs else max(need or 0 for need in needs)
    differs.compare(f"interval {number}: sellers that one constraint alone needs", floor, found.floor)
    if found.best is not None:
        withheld = [sum(by_portfolio.get(p, 0) for p in found.best) for by_portfolio in amounts]
        short = all(each.supply - amount < each.demand for each, amount in zip(binding, withheld))
        differs.compare(f"interval {number}: sellers {found.best} leave every binding constraint short", short, True)
    return found


def _withholdable(constraint: ConstraintWorking, sellers: Sequence[int]) -> dict[int, int]:
    """What each net seller can withhold on a constraint."""
    shares = constraint.shares
    return {p: sum(share.withholdable for share in shares if share.portfolio == p) for p, mark in enumerate(sellers) if mark == 1}


def _need(constraint: ConstraintWorking, amounts: list[int]) -> int | None:
    """How many sellers a constraint alone needs to be short, those that can withhold most first; None where all aren't enough."""
    left = constraint.supply
    for need, amount in enumerate(sorted(amounts, reverse=True), start=1):
        left -= amount
        if left < constraint.demand:
            return need
    return None


def _effect(
    number: int,
    interval: Interval,
    constraints: Sequence[ConstraintWorking],
    cause: Cause,
    resource: ResourceWorking,
    curves: tuple[Curve, Curve],
    differs: Differences,
) -> Effect:
    r, floor_price = cause.resource, cause.floor_price if cause.capped else None
    terms = tuple(_terms(interval, constraints, r))
    where = f"interval {number}, resource {r}"
    _compare_cause(where, interval, cause, terms, differs)
    pieces = tuple(_pieces(where, resource, curves, floor_price, differs))
    cut = any(piece.after < piece.before for piece in pieces)
    prices = (cause.component, cause.competitive_price, floor_price)
    return Effect(r, interval.lmp[r], interval.dispatch[r], terms, *prices, cause.capped, cut, pieces)


def _terms(interval: Interval, constraints: Iterable[ConstraintWorking], r: int) -> Iterator[Term]:
    factors = _factors(interval)
    for each in constraints:
        factor = factors.get((r, each.constraint), 0)
        if each.finding is Finding.NON_COMPETITIVE and factor:
            yield Term(each.constraint, factor, each.shadow, -factor * each.shadow)


def _compare_cause(where: str, interval: Interval, cause: Cause, terms: Sequence[Term], differs: Differences) -> None:
    component = sum(term.term for term in terms)
    price = up(interval.lmp[cause.resource] * 1_000_000 - component, 1_000_000)
    capped = interval.dispatch[cause.resource] > 0 and component > 0
    differs.compare(f"{where}: component", component, cause.component)
    differs.compare(f"{where}: competitive price", price, cause.competitive_price)
    differs.compare(f"{where}: a cap applies", capped, cause.capped)
    if cause.capped:
        differs.compare(f"{where}: floor price", price + (interval.parameter or 0), cause.floor_price)


def _pieces(
    where: str, resource: ResourceWorking, curves: tuple[Curve, Curve], floor_price: int | None, differs: Differences
) -> Iterator[Piece]:
    """The bid in stretches of one price before, one default price and one price after."""
    before, after = curves
    assert resource.default is not None
    default = Curve(resource.default.points[0].mw, tuple(Step(segment.end, segment.price) for segment in resource.default.segments))
    last = before.steps[-1].end
    edges = {before.start, *(step.end for curve in (before, default, after) for step in curve.steps)}
    within = sorted(edge for edge in edges if before.start <= edge <= last)
    for start, end in zip(within, within[1:]):
        prices = _price(before, start), _price(default, start), _price(after, start)
        cap = None if floor_price is None else max(prices[1], floor_price)
        worked = prices[0] if cap is None else min(prices[0], cap)
        differs.compare(f"{where}, from {start}: price", worked, prices[2])
        yield Piece(start, end, *prices[:2], cap, prices[2])


def _price(curve: Curve, quantity: int) -> int:
    """The price of the step that a quantity lies on."""
    return next(step.price for step in curve.steps if quantity < step.end)
