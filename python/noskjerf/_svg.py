"""Charts of a report as inline SVG: a resource's curves, and a constraint's demand and supply."""

from __future__ import annotations

from dataclasses import dataclass
from html import escape

from .records import Curve, Seller, Verdict
from .shown import Stretch, megawatts, money, near_mw
from .units import fine_mw

# the size of a chart of curves, and the box that its axes span
WIDTH, HEIGHT = 440, 290
LEFT, RIGHT, TOP, BOTTOM = 72, 408, 12, 242
# bars of a constraint
BAR_WIDTH, BAR_HEIGHT = 560, 24


@dataclass(frozen=True)
class Scale:
    """Places of quantities and prices in a chart."""

    low: int
    high: int
    bottom: int
    top: int

    def x(self, quantity: int) -> str:
        return _place(LEFT + (RIGHT - LEFT) * (quantity - self.low) / (self.high - self.low))

    def y(self, price: int) -> str:
        return _place(BOTTOM - (BOTTOM - TOP) * (price - self.bottom) / (self.top - self.bottom))


def _place(number: float) -> str:
    return f"{number:.1f}".rstrip("0").rstrip(".")


def scale_of(curves: tuple[Curve, ...]) -> Scale:
    """A scale that holds all these curves, and the price 0."""
    low, high = min(curve.start for curve in curves), max(curve.steps[-1].end for curve in curves)
    prices = [step.price for curve in curves for step in curve.steps]
    bottom, top = min(0, *prices), max(0, *prices)
    return Scale(low, high, bottom, max(top + (top - bottom) // 12, bottom + 10000))


def ticks(low: int, high: int, most: int) -> list[int]:
    """Round numbers from low to high, at most so many.

    >>> ticks(10000, 30000, 6)
    [10000, 15000, 20000, 25000, 30000]
    """
    step = next(k * 10**e for e in range(12) for k in (1, 2, 5) if (high - low) // (k * 10**e) < most)
    return list(range(-(-low // step) * step, high + 1, step))


@dataclass(frozen=True)
class Curves:
    """What a chart shows of a resource: its curves, after an interval the mitigated one too, and the floor price where it is cut."""

    bid: Curve
    default: Curve
    mitigated: Curve | None = None
    floor: int | None = None


def curve_chart(curves: Curves, cut: list[tuple[Stretch, int]], label: str) -> str:
    """The curves of a resource. What is cut off the bid, a stretch and the price it is cut to, is hatched."""
    scale = scale_of((curves.bid, curves.default))
    return "".join(
        (
            f'<svg class="chart" viewBox="0 0 {WIDTH} {HEIGHT}" role="img" aria-label="{escape(label)}">',
            *_axes(scale),
            *(_cut(row, price, scale) for row, price in cut),
            _floor(curves.floor, scale),
            _line("mitigated", curves.mitigated, scale) if curves.mitigated else "",
            _line("default", curves.default, scale),
            _line("bid", curves.bid, scale),
            "</svg>",
        )
    )


def _axes(scale: Scale) -> list[str]:
    across = [(scale.x(q), megawatts(q)) for q in ticks(scale.low, scale.high, 6)]
    up = [(scale.y(p), money(p).replace(".00", "")) for p in ticks(scale.bottom, scale.top, 7)]
    return [
        *(f'<path class="grid" d="M{LEFT} {y}H{RIGHT}"/><text class="up" x="{LEFT - 6}" y="{y}">{text}</text>' for y, text in up),
        *(f'<path class="grid" d="M{x} {TOP}V{BOTTOM}"/><text class="across" x="{x}" y="{BOTTOM + 16}">{text}</text>' for x, text in across),
        f'<path class="axis" d="M{LEFT} {TOP}V{BOTTOM}H{RIGHT}"/>',
        f'<text class="across" x="{(LEFT + RIGHT) // 2}" y="{BOTTOM + 38}">MW</text>',
        f'<text class="turned" transform="translate(12 {(TOP + BOTTOM) // 2}) rotate(-90)">$/MWh</text>',
    ]


def _line(kind: str, curve: Curve, scale: Scale) -> str:
    first, *rest = curve.steps
    path = f"M{scale.x(curve.start)} {scale.y(first.price)}H{scale.x(first.end)}"
    path += "".join(f"V{scale.y(step.price)}H{scale.x(step.end)}" for step in rest)
    return f'<path class="line {kind}" d="{path}"/>'


def _floor(price: int | None, scale: Scale) -> str:
    """The floor price, where the chart reaches it."""
    if price is None or not scale.bottom <= price <= scale.top:
        return ""
    return f'<path class="floor" d="M{LEFT} {scale.y(price)}H{RIGHT}"/>'


def _cut(row: Stretch, price: int, scale: Scale) -> str:
    left, right, high, low = scale.x(row.low), scale.x(row.high), scale.y(row.bid), scale.y(price)
    box = f"M{left} {high}H{right}V{low}H{left}Z"
    return f'<path class="cut" d="{box}"/><path class="hatched" d="{box}"/>'


def verdict_chart(verdict: Verdict, sellers: list[Seller], label: str) -> str:
    """A bar of the demand for counterflow, and one of the supply: what is left, then what each seller named can withhold."""
    pieces = [("left", verdict.left, "left"), *((f"seller{k}", s.withheld, f"portfolio {s.portfolio}") for k, s in enumerate(sellers))]
    whole = max(verdict.demand, sum(amount for _, amount, _ in pieces), 1)
    mark = _place(BAR_WIDTH * verdict.demand / whole)
    return "".join(
        (
            f'<svg class="bars" viewBox="0 0 {BAR_WIDTH} {5 * BAR_HEIGHT // 2}" role="img" aria-label="{escape(label)}">',
            _bar("demand", (0, verdict.demand), whole, 0, "demand"),
            *_supply(pieces, whole),
            f'<path class="mark" d="M{mark} 0V{5 * BAR_HEIGHT // 2}"/>',
            "</svg>",
        )
    )


def _supply(pieces: list[tuple[str, int, str]], whole: int) -> list[str]:
    bars, at = [], 0
    for kind, amount, name in pieces:
        bars.append(_bar(kind, (at, amount), whole, 5 * BAR_HEIGHT // 4, name))
        at += amount
    return bars


def _bar(kind: str, place: tuple[int, int], whole: int, top: int, name: str) -> str:
    """A piece of a bar from a place on, with its amount, rounded, inside where that has room; a pointer shows it exactly."""
    at, amount = place
    text = f"{name}: {near_mw(amount)}"
    left, width = BAR_WIDTH * at / whole, BAR_WIDTH * amount / whole
    box = f'<rect class="{kind}" x="{_place(left)}" y="{top}" width="{_place(width)}" height="{BAR_HEIGHT}"><title>{name}: {fine_mw(amount)}</title></rect>'
    if width < 6.6 * len(text) + 8:
        return box
    return box + f'<text class="on-{kind}" x="{_place(left + 6)}" y="{top + BAR_HEIGHT // 2}">{text}</text>'
