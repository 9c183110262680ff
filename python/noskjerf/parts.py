"""The parts of a text as records, and records as a text. The engine says which lines are a part; here their numbers are read."""

from __future__ import annotations

from collections.abc import Iterable, Mapping
from dataclasses import dataclass

from ._numbers import rows, whole
from ._types import Number
from ._types import Rows as Table
from .records import OUTPUTS, Charges, Costs, Curve, Interval, Opening, Resource
from .refusal import Refusal
from .text import as_bytes, run

# the ten tables, in a text's order
MONTH = ("month",)
SELLERS = ("portfolio", "seller")
STARTS = ("resource", "portfolio", "start")
STEPS = ("resource", "end", "price")
POINTS = ("resource", "mw", "heat")
CHARGES = ("resource", "gas", "rate", "allowance", "om", "msc", "soc", "fee")
SHADOW = ("constraint", "shadow")
DISPATCH = ("resource", *OUTPUTS)
FACTORS = ("resource", "constraint", "factor")
PARAMETER = ("parameter",)
OPENING_TABLES = (MONTH, SELLERS, STARTS, STEPS, POINTS, CHARGES)
INTERVAL_TABLES = (SHADOW, DISPATCH, FACTORS, PARAMETER)

Names = tuple[str, ...]
Rows = list[tuple[int, ...]]
Tables = dict[Names, Rows]


@dataclass(frozen=True)
class Parts:
    """The parts of a text: the opening, and the intervals of good form up to the refusal, if any. Where the refusal's number is 12 to
    16, the last interval is the refused one; where it is 1 to 11, the opening is, and there is no interval."""

    opening: Opening
    intervals: tuple[Interval, ...]
    refusal: Refusal | None


def read(text: str | bytes) -> Parts:
    """The parts of a text as records. Raises the Refusal of a text whose opening isn't of the form (17), or that is too long (18).

    >>> read("month\\n")
    Traceback (most recent call last):
    noskjerf.refusal.Refusal: opening, line 2, column 1: the text ends here (refusal 17)
      (the end of the text)
      ^
      due: <month>
    """
    output = run(text)
    refusal = output.refusal
    if refusal is not None and refusal.number in (17, 18) and refusal.part in ("opening", "text"):
        raise refusal.again()
    opening, *intervals = _pieces(_of_the_form(as_bytes(text), refusal))
    refused = 1 if refusal is not None and 12 <= refusal.number <= 16 else 0
    count = len(output.pages) + refused
    return Parts(_opening(opening), tuple(_interval(piece) for piece in intervals[:count]), refusal)


def _of_the_form(text: bytes, refusal: Refusal | None) -> list[str]:
    """The lines that the engine read: up to the last of a part that is refused, or before the one that isn't of the form."""
    lines = text.split(b"\n")[:-1]
    if refusal is not None and refusal.line is not None:
        lines = lines[: refusal.line - 1 if refusal.number == 17 else refusal.line]
    return [line.decode("ascii") for line in lines]


def _pieces(lines: list[str]) -> list[Tables]:
    """The tables of each part; a line `constraint shadow` begins an interval."""
    known = {" ".join(names): names for names in (*OPENING_TABLES, *INTERVAL_TABLES)}
    pieces: list[Tables] = [{}]
    table: Rows = []
    for line in lines:
        if line == "constraint shadow":
            pieces.append({})
        if line in known:
            table = pieces[-1].setdefault(known[line], [])
        else:
            table.append(() if line == "-" else tuple(map(int, line.split(" "))))
    return pieces


def _opening(tables: Tables) -> Opening:
    month = tables[MONTH][0][0]
    return opening_of(month, tables[SELLERS], tables[STARTS], tables[STEPS], tables[POINTS], tables[CHARGES])


def _interval(tables: Tables) -> Interval:
    parameter = tables[PARAMETER][0]
    return interval_of(tables[SHADOW], tables[DISPATCH], tables[FACTORS], parameter[0] if parameter else None)


def opening_of(
    month: Number,
    sellers: Table,
    resources: Table,
    steps: Table,
    points: Table = (),
    charges: Table = (),
    packs: Mapping[int, Curve] | None = None,
) -> Opening:
    """An opening from the tables of a text, each as rows or as a DataFrame with the columns that docs/FORMAT.md names.

    A resource of `packs` has that curve for its default energy bid; the others have points and charges.

    >>> opening = opening_of(
    ...     month=25,
    ...     sellers={"portfolio": [0], "seller": [1]},
    ...     resources={"resource": [0], "portfolio": [0], "start": [10000]},
    ...     steps={"resource": [0, 0], "end": [15000, 30000], "price": [300000, 900000]},
    ...     packs={0: Curve(10000, [(30000, 400000)])},
    ... )
    >>> opening.resources[0].bid.steps[1]
    Step(end=30000, price=900000)
    """
    starts = rows("resources", STARTS, resources)
    _count_up("resources", starts)
    bids = _grouped("steps", STEPS, steps, len(starts))
    defaults = _defaults(points, charges, packs or {}, len(starts))
    marks = rows("sellers", SELLERS, sellers)
    _count_up("sellers", marks)
    return Opening(
        month,
        tuple(mark for _, mark in marks),
        tuple(Resource(portfolio, Curve(start, bids[r]), defaults[r]) for r, portfolio, start in starts),
    )


def _defaults(points: Table, charges: Table, packs: Mapping[int, Curve], count: int) -> list[Costs | Curve]:
    """The pack of each resource, or its costs."""
    for r in packs:
        if not 0 <= whole("packs", r) < count:
            raise ValueError(f"packs: there is no resource {r}")
    taken = _grouped("points", POINTS, points, count)
    charged = _grouped("charges", CHARGES, charges, count)
    return [packs[r] if r in packs else _costs(r, taken[r], charged[r]) for r in range(count)]


def _costs(r: int, points: Rows, charges: Rows) -> Costs:
    if len(charges) != 1:
        raise ValueError(f"charges: resource {r} has {len(charges)} rows where one is due")
    return Costs(points, Charges(*charges[0]))


def interval_of(shadow: Table, dispatch: Table, factors: Table = (), parameter: Number | None = 0) -> Interval:
    """An interval from the tables of a text, each as rows or as a DataFrame with the columns that docs/FORMAT.md names.

    >>> interval_of([(0, 500000)], [(0, 600000, 20000, 30000, 0)], [(0, 0, -500000)], 100).dispatch
    (20000,)
    """
    prices = rows("shadow", SHADOW, shadow)
    outputs = rows("dispatch", DISPATCH, dispatch)
    _count_up("shadow", prices)
    _count_up("dispatch", outputs)
    columns = {name: tuple(row[1 + k] for row in outputs) for k, name in enumerate(OUTPUTS)}
    return Interval(shadow=[price for _, price in prices], factors=rows("factors", FACTORS, factors), parameter=parameter, **columns)


def _count_up(what: str, table: Rows) -> None:
    for i, row in enumerate(table):
        if row[0] != i:
            raise ValueError(f"{what}[{i}]: the rows count up from 0, and {row[0]} stands where {i} is due")


def _grouped(what: str, names: Names, table: Table, count: int) -> list[Rows]:
    """The rows of each resource, without its number."""
    groups: list[Rows] = [[] for _ in range(count)]
    for i, (r, *numbers) in enumerate(rows(what, names, table)):
        if not 0 <= r < count:
            raise ValueError(f"{what}[{i}]: there is no resource {r}")
        groups[r].append(tuple(numbers))
    return groups


def opening_tables(opening: Opening) -> Tables:
    """The six tables of an opening. A pack has no table: a resource with one has no points and no charges."""
    listed = list(enumerate(opening.resources))
    costs = [(r, resource.default) for r, resource in listed if isinstance(resource.default, Costs)]
    return {
        MONTH: [(opening.month,)],
        SELLERS: list(enumerate(opening.sellers)),
        STARTS: [(r, resource.portfolio, resource.bid.start) for r, resource in listed],
        STEPS: [(r, step.end, step.price) for r, resource in listed for step in resource.bid.steps],
        POINTS: [(r, point.mw, point.heat) for r, cost in costs for point in cost.points],
        CHARGES: [(r, *cost.charges.in_order()) for r, cost in costs],
    }


def interval_tables(interval: Interval) -> Tables:
    """The four tables of an interval. A missing parameter is an empty row."""
    outputs = zip(*(getattr(interval, name) for name in OUTPUTS))
    return {
        SHADOW: list(enumerate(interval.shadow)),
        DISPATCH: [(r, *row) for r, row in enumerate(outputs)],
        FACTORS: sorted((factor.resource, factor.constraint, factor.factor) for factor in interval.factors),
        PARAMETER: [() if interval.parameter is None else (interval.parameter,)],
    }


def write(opening: Opening, intervals: Iterable[Interval] = ()) -> str:
    """The text of an opening and its intervals. Raises ValueError for a pack: a text has costs alone."""
    for r, resource in enumerate(opening.resources):
        if isinstance(resource.default, Curve):
            raise ValueError(f"resources[{r}]: a text has no packs")
    tables = [opening_tables(opening), *(interval_tables(interval) for interval in intervals)]
    return "".join(_table_text(names, lines) for part in tables for names, lines in part.items())


def _table_text(names: Names, lines: Rows) -> str:
    values = [" ".join(map(str, line)) or "-" for line in lines]
    return "".join(f"{line}\n" for line in (" ".join(names), *values))
