"""What pictures and reports show of a text: the engine's answers side by side, and numbers in MW and dollars.

Nothing here is worked out again: prices are looked up in the engine's curves, and a cut price is named after the engine's price that it equals.
"""

from __future__ import annotations

from collections.abc import Sequence
from dataclasses import dataclass

from ._library import LibraryError
from .hour import Hour
from .judgement import default_curve
from .parts import read
from .records import Cause, Costs, Curve, Interval, Opening, Page, Resource
from .refusal import Refusal
from .text import run
from .units import count, decimal, in_dollars


@dataclass(frozen=True)
class Taken:
    """An accepted interval: what was handed in, what the engine printed of it, and whether and why caps apply to each resource. There are
    no causes where the library was built without hours in numbers."""

    number: int
    interval: Interval
    page: Page
    causes: tuple[Cause, ...] | None


@dataclass(frozen=True)
class Account:
    """A text and the engine's answers. There is no opening where the engine refused it; then there are no intervals either."""

    opening: Opening | None
    defaults: tuple[Curve, ...]
    intervals: tuple[Taken, ...]
    refusal: Refusal | None

    @property
    def resources(self) -> tuple[Resource, ...]:
        return self.opening.resources if self.opening else ()

    def curve(self, taken: Taken, resource: int) -> Curve:
        """The bid curve of a resource after an interval."""
        return Curve(self.resources[resource].bid.start, taken.page.curves[resource].steps)


def account(text: str | bytes) -> Account:
    """The account of a text, refused or not."""
    output = run(text)
    refusal = output.refusal
    if refusal is not None and (refusal.part == "opening" or refusal.part == "text"):
        return Account(None, (), (), refusal)
    parts = read(text)
    intervals = parts.intervals[: len(output.pages)]
    taken = zip(intervals, output.pages, _causes(parts.opening, intervals))
    shown = tuple(Taken(page.interval, interval, page, causes) for interval, page, causes in taken)
    return Account(parts.opening, tuple(map(_default, parts.opening.resources)), shown, refusal)


def _default(resource: Resource) -> Curve:
    if isinstance(resource.default, Costs):
        return default_curve(resource.default.points, resource.default.charges)
    return resource.default


def _causes(opening: Opening, intervals: tuple[Interval, ...]) -> list[tuple[Cause, ...] | None]:
    try:
        hour = Hour.open(opening)
    except LibraryError:
        return [None] * len(intervals)
    return [hour.why(interval) for interval in intervals]


@dataclass(frozen=True)
class Stretch:
    """Quantities from `low` up to `high` over which bid, default energy bid and every mitigated curve have one price."""

    low: int
    high: int
    bid: int
    default: int
    mitigated: tuple[int, ...]


def price_at(curve: Curve, quantity: int) -> int:
    """The price of a quantity: that of the first step that ends above it."""
    return next(step.price for step in curve.steps if quantity < step.end)


def stretches(bid: Curve, default: Curve, mitigated: tuple[Curve, ...]) -> tuple[Stretch, ...]:
    """The stretches of a bid, split where any of the curves has an edge."""
    last = bid.steps[-1].end
    ends = {step.end for curve in (bid, default, *mitigated) for step in curve.steps}
    edges = [bid.start, *sorted(end for end in ends if bid.start < end <= last)]
    return tuple(
        Stretch(low, high, price_at(bid, low), price_at(default, low), tuple(price_at(curve, low) for curve in mitigated))
        for low, high in zip(edges, edges[1:])
    )


def resource_stretches(hour: Account, resource: int) -> tuple[Stretch, ...]:
    """The stretches of a resource over all accepted intervals."""
    curves = tuple(hour.curve(taken, resource) for taken in hour.intervals)
    return stretches(hour.resources[resource].bid, hour.defaults[resource], curves)


def is_cut(rows: tuple[Stretch, ...], interval: int) -> bool:
    """Whether the curve after an interval, counted from 0, is below the bid anywhere."""
    return any(row.mitigated[interval] < row.bid for row in rows)


def changes(rows: tuple[Stretch, ...], interval: int) -> bool:
    """Whether an interval, counted from 0, makes any price lower than it was before it."""
    return any(row.mitigated[interval] < (row.mitigated[interval - 1] if interval else row.bid) for row in rows)


def cut_resources(hour: Account, interval: int) -> list[int]:
    """The resources whose curve after an interval, counted from 0, is below the bid anywhere."""
    return [r for r in range(len(hour.resources)) if is_cut(resource_stretches(hour, r), interval)]


def answer(hour: Account) -> str:
    """How many bids are cut, in a line."""
    refusal = "" if hour.refusal is None else f"Refused at {hour.refusal.part}, line {hour.refusal.line}. "
    if hour.opening is None:
        return refusal.strip()
    if not hour.intervals:
        return f"{refusal}{'No interval is accepted' if refusal else 'The text has no interval'}, so no bid is cut."
    found: dict[int, list[str]] = {}
    for i, taken in enumerate(hour.intervals):
        found.setdefault(len(cut_resources(hour, i)), []).append(str(taken.number))
    return f"{refusal}{_cut_line(found, len(hour.resources))}."


def _cut_line(found: dict[int, list[str]], bids: int) -> str:
    """The line of how many bids are cut in which intervals."""
    several = [number for number in found if number]
    if not several:
        return f"No bid is cut in {_intervals(found[0])}"
    first, *rest = several
    said = [f"{first} of {count(bids, 'bid')} {'is' if first == 1 else 'are'} cut in {_intervals(found[first])}"]
    said += [f"{number} in {_intervals(found[number])}" for number in rest]
    said += [f"none in {_intervals(found[0])}"] if 0 in found else []
    return ", ".join(said)


def _intervals(numbers: list[str]) -> str:
    return f"interval{'s' if numbers[1:] else ''} {listed(numbers)}"


def listed(names: Sequence[str]) -> str:
    """Names in a row.

    >>> listed(["1"]), listed(["1", "2", "3"])
    ('1', '1, 2 and 3')
    """
    return names[0] if len(names) == 1 else f"{', '.join(names[:-1])} and {names[-1]}"


def reason(row: Stretch, interval: int, floors: tuple[int | None, ...]) -> str:
    """What the price of a stretch after an interval, counted from 0, is. `floors` are the floor prices of the intervals, where a cap applies."""
    price = row.mitigated[interval]
    if price == row.bid:
        return "as bid"
    since = row.mitigated.index(price)
    if price == row.default:
        what = "default price"
    elif price == floors[since]:
        what = "floor price"
    else:
        what = "cut"
    return what if since == interval else f"{what} since interval {since + 1}"


def floor_prices(hour: Account, resource: int) -> tuple[int | None, ...]:
    """The floor price of a resource in each interval; None where no cap applies, or where the engine wasn't asked."""
    return tuple(_floor(taken, resource) for taken in hour.intervals)


def _floor(taken: Taken, resource: int) -> int | None:
    if taken.causes is None or not taken.causes[resource].capped:
        return None
    return taken.causes[resource].floor_price


def money(price: int) -> str:
    """A price in dollars, for a table that has the unit at its head."""
    return in_dollars(price, "")


def megawatts(quantity: int) -> str:
    """A quantity in MW, for a table that has the unit at its head."""
    return decimal(quantity, 2)


def rounded(number: int, places: int, kept: int = 2) -> str:
    """A number of units of 10 ** -places for people, rounded half up to so many places. One that would read as 0 and isn't keeps its first digit.

    >>> rounded(171_273_401_879, 8), rounded(10_000_000_000, 8), rounded(-5_000, 4), rounded(420, 8)
    ('1,712.73', '100', '-0.5', '0.000004')
    """
    while kept < places and 0 < 2 * abs(number) < 10 ** (places - kept):
        kept += 1
    unit = 10 ** max(places - kept, 0)
    near = (2 * abs(number) + unit) // (2 * unit)
    return decimal(-near if number < 0 else near, min(kept, places))


def places_apart(one: int, other: int, places: int) -> int:
    """At how many places two numbers read differently when they are rounded, two at least.

    >>> places_apart(10_000_000_000, 10_000_000_001, 8), places_apart(1, 1, 8), places_apart(100, 10_000_000, 8)
    (8, 2, 2)
    """
    return next((kept for kept in range(2, places) if one == other or rounded(one, places, kept) != rounded(other, places, kept)), places)


def near_mw(amount: int, kept: int = 2) -> str:
    """Demand, supply and what is withheld, rounded for people; tables have the exact figures.

    >>> near_mw(171_273_401_879)
    '1,712.73 MW'
    """
    return f"{rounded(amount, 8, kept)} MW"


def near_dollars(price: int, places: int = 4) -> str:
    """A price rounded to the cent for people.

    >>> near_dollars(378_402), near_dollars(-378_451), near_dollars(250_000_000_000, 10)
    ('$37.84', '-$37.85', '$25.00')
    """
    cents = rounded(abs(price), places)
    whole, _, rest = cents.partition(".")
    return f"{'-' if price < 0 else ''}${whole}.{rest.ljust(2, '0')}"
