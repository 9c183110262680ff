"""The figures of an hour one by one: the name of each, how it comes about, what it is, and the tariff's paragraphs on it."""

from __future__ import annotations

from collections.abc import Iterator
from dataclasses import dataclass

from .records import Finding
from .units import decimal, factor, fine_dollars, fine_mw, in_dollars, in_mw
from .workings import ConstraintWorking, Default, Effect, Piece, Segment

# the tariff's paragraphs, or where these are silent the requirements', as docs/RULES.md has them below each rule
HEAT, PATH = "39.7.1.1.1.1 (a)", "39.7.2.2 (B)"
TARIFF = {
    "80% mark": f"{HEAT}; paper 02, 2.6",
    "R = n / w, up": HEAT,
    "R, limited": HEAT,
    "M": HEAT,
    "fuel": HEAT,
    "greenhouse": "39.7.1.1.1.1 (b)",
    "om + msc + soc": "39.7.1.1, 39.7.1.1.1.1 (c), 39.7.1.1.2",
    "fee part": "39.7.1.1.1.1 (c); paper 02, 2.6",
    "cost": "39.7.1.1, 39.7.1.1.1.1 (c), 39.7.1.1.2",
    "with the adder": "39.7.1.1",
    "raised": "paper 01, Default curve from costs",
    "default price": "39.7.1.1",
    "binds": "39.7.2.1",
    "effectiveness": f"{PATH}(a)(i), (v)",
    "demand": f"{PATH}(a)(iii)",
    "supply": f"{PATH}(a)(ii)",
    "can withhold": f"{PATH}(b)(ii), (iii)",
    "withheld": f"{PATH}(a)(iv), (b)(iii)",
    "left": PATH,
    "verdict": PATH,
    "component's term": "31.2.3",
    "component": "31.2.3",
    "cap applies": "31.2.3",
    "competitive price": "31.2.3",
    "floor price": "34.1.5.5; paper 02, 2.5",
    "cap": "31.2.3",
    "carries on": "34.1.5.2",
}

FINDINGS = {Finding.COMPETITIVE: "competitive", Finding.NON_COMPETITIVE: "non-competitive", Finding.NOT_BINDING: "not binding"}


@dataclass(frozen=True)
class Figure:
    """A figure, how it comes about, and what it is."""

    name: str
    how: str
    value: str

    @property
    def tariff(self) -> str:
        """The paragraphs on it."""
        return TARIFF[self.name]


def stretch(start: int, end: int) -> str:
    """Quantities from one to another."""
    return f"{in_mw(start)} to {in_mw(end)}"


# ---- default energy bids
def mark_figure(default: Default) -> Figure:
    """The 80% mark of a default energy bid."""
    return Figure("80% mark", f"4/5 of {in_mw(default.points[-1].mw)}, down", in_mw(default.mark))


def step_name(number: int, s: Segment, default: Default) -> str:
    """A step, by its number and its quantities."""
    left, right = default.points[s.point], default.points[s.point + 1]
    whole = (s.start, s.end) == (left.mw, right.mw)
    part = "" if whole else f", the {'lower' if s.end == default.mark else 'upper'} part of {stretch(left.mw, right.mw)}"
    return f"step {number}: {stretch(s.start, s.end)}{part}"


def step_figures(s: Segment, default: Default) -> Iterator[Figure]:
    """How the default price of a step comes about."""
    left, right, c = default.points[s.point], default.points[s.point + 1], default.charges
    rise = f"({right.heat:,} x {decimal(right.mw, 2)} - {left.heat:,} x {decimal(left.mw, 2)}) / {decimal(s.width, 2)}"
    yield Figure("R = n / w, up", rise, f"{s.unlimited:,} Btu/kWh")
    yield Figure("R, limited", _limit(s), f"{s.rate:,} Btu/kWh")
    yield Figure("M", "the largest R so far", f"{s.largest_rate:,} Btu/kWh")
    yield Figure("fuel", f"M x gas: {s.largest_rate:,} x {in_dollars(c.gas, '/MMBtu')} / 1,000, up", in_dollars(s.fuel))
    greenhouse = f"R x rate x allowance: {s.rate:,} x {factor(c.rate)} t/MMBtu x {in_dollars(c.allowance, '/t')} / 1,000, up"
    yield Figure("greenhouse", greenhouse, in_dollars(s.greenhouse))
    yield Figure("om + msc + soc", f"{in_dollars(s.om, '')} + {in_dollars(s.msc, '')} + {in_dollars(s.soc, '')}", in_dollars(s.om + s.msc + s.soc))
    yield Figure("fee part", f"fee over the step's width: {in_dollars(c.fee, '')} / {in_mw(s.end - s.start)}, up", in_dollars(s.fee_part))
    yield Figure("cost", "the sum of these", in_dollars(s.cost))
    yield Figure("with the adder", "11/10 of it, up", in_dollars(s.with_adder))
    yield Figure("raised", "to the largest so far", in_dollars(s.raised))
    yield Figure("default price", "the engine's answer", in_dollars(s.price))


def _limit(s: Segment) -> str:
    if s.limit is None:
        return "it ends above the 80% mark: no limit"
    return f"it ends at or below the 80% mark: at most {s.limit:,}"


# ---- constraints
def constraint_figures(c: ConstraintWorking) -> Iterator[Figure]:
    """What the verdict on a constraint that binds is made of."""
    yield Figure("demand", "effectiveness x dispatch, over all resources", fine_mw(c.demand))
    yield Figure("supply", "effectiveness x available, over all resources", fine_mw(c.supply))
    for seller in c.sellers:
        yield Figure("withheld", f"seller named: portfolio {seller.portfolio}", fine_mw(seller.withheld))
    yield Figure("left", "supply less what the sellers named can withhold", fine_mw(c.left))


# ---- resources
def effect_figures(e: Effect, parameter: int) -> Iterator[Figure]:
    """The prices that a cap on a resource's bid is made of."""
    for t in e.terms:
        how = f"constraint {t.constraint}: -({factor(t.factor)}) x {in_dollars(t.shadow)}"
        yield Figure("component's term", how, fine_dollars(t.term))
    yield Figure("component", "the sum over the non-competitive constraints", fine_dollars(e.component))
    yield Figure("competitive price", "lmp less the component, up", in_dollars(e.competitive_price))
    if e.floor_price is not None:
        yield Figure("floor price", f"competitive price + parameter {in_dollars(parameter)}", in_dollars(e.floor_price))


def outcome(e: Effect) -> str:
    """Which of the three it is: no cap, a cap that changes nothing, a cut."""
    if not e.capped:
        return "no cap"
    return "cut" if e.cut else "a cap applies and changes nothing"


def why_uncapped(e: Effect) -> str:
    """Why no cap applies."""
    return "it is not dispatched" if e.dispatch <= 0 else "its component is not above 0"


def closest(e: Effect) -> Piece:
    """Of a resource with a cap, the stretch whose price is closest to its cap, or furthest above it."""
    return min(e.pieces, key=lambda piece: (piece.cap or 0) - piece.before)
