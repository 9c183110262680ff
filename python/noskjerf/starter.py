"""A small valid text to start from, and the words that explain its tables; and texts for drills in a classroom."""

from __future__ import annotations

from collections.abc import Iterator

from .judgement import classroom_bids
from .parts import CHARGES, DISPATCH, FACTORS, MONTH, PARAMETER, POINTS, SELLERS, SHADOW, STARTS, STEPS, Names, write
from .records import Charges, Costs, Curve, Factor, Interval, Opening, Point, Resource, Step
from .units import count

# what the four intervals ask of a constraint, in 0.0001 dollar per MWh: it binds, doesn't bind, binds more, binds less
SHADOWS = (400_000, 0, 600_000, 150_000)
LMPS = (650_000, 450_000, 800_000, 500_000)

# an hour like Case T's, to the scale of classroom bids: costs from 0 to 300, whose default prices are 9,440 up to 200, 9,937 up to 240 and 10,926 above, and an
# interval whose floor price is 7,100
DRILL_COSTS = Costs((Point(0, 10_000), Point(200, 9_000), Point(300, 9_500)), Charges(gas=900, om=400, msc=20, soc=60, fee=1))
DRILL_INTERVAL = Interval([10_000], [12_000], [200], [300], [0], [Factor(0, 0, -500_000)], parameter=100)

EXPLAINED: dict[Names, str] = {
    MONTH: "The month since the rule took effect, 1 to 1,200. It sets the highest bid price: $500/MWh in months 1 to 12, $750/MWh in months 13 to 24, "
    "$1,000/MWh from month 25 on.",
    SELLERS: "A line for each portfolio, numbered from 0: 1 for a net seller, 0 for a net buyer. Only net sellers count as withholding.",
    STARTS: "A line for each resource, numbered from 0: its portfolio, and the quantity at which its bid starts, in hundredths of a MW (5000 is 50 MW).",
    STEPS: "The steps of each bid, 1 to 10 for a resource: up to which quantity, in hundredths of a MW, and at which price, in 0.0001 dollar per MWh (350000 "
    "is $35/MWh). Ends rise, prices don't fall.",
    POINTS: "The cost points of each resource, 2 to 11: a quantity in hundredths of a MW, and the average heat rate there in Btu/kWh. The default energy bid "
    "is worked out between them, and the bid has to lie within it.",
    CHARGES: "The other costs, a line for each resource: gas price (0.0001 dollar per MMBtu), emission rate (millionths of a tonne per MMBtu), allowance price "
    "(0.0001 dollar per tonne), operation and maintenance, market services charge and system operations charge (0.0001 dollar per MWh), and bid "
    "segment fee (0.0001 dollar per segment).",
    SHADOW: "A line for each constraint, numbered from 0: its shadow price in 0.0001 dollar per MWh. It binds where that is above 0.",
    DISPATCH: "A line for each resource: its locational price in 0.0001 dollar per MWh; and in hundredths of a MW its dispatch, what is available of it, and the "
    "floor, which is output that can't be withheld.",
    FACTORS: "The shift factors that aren't 0, in millionths, rising by resource and then by constraint. A positive one loads the constraint, a negative one "
    "supplies counterflow (-500000 is -0.5).",
    PARAMETER: "What is added to the competitive price to make the floor price, 0 to 100 in 0.0001 dollar per MWh; a line - says that it is missing, and means 0.",
}


def starter(resources: int, constraints: int, intervals: int) -> str:
    """A text with these counts, of which the first interval cuts a bid where it has a constraint."""
    portfolios = min(resources, 4)
    sellers = tuple(0 if p == 3 else 1 for p in range(portfolios))
    opening = Opening(25, sellers, tuple(_resource(r, r % portfolios) for r in range(resources)))
    return write(opening, [_interval(resources, constraints, i) for i in range(intervals)])


def _resource(r: int, portfolio: int) -> Resource:
    dearer, size = 5_000 * (r % 7), 1_000 * (r % 5)
    bid = Curve(5_000, (Step(15_000, 350_000 + dearer), Step(25_000 + size, 900_000 + dearer)))
    points = (Point(5_000, 10_500 + 10 * (r % 9)), Point(15_000, 9_200), Point(25_000 + size, 9_600))
    return Resource(portfolio, bid, Costs(points, Charges(gas=40_000, rate=53_073, allowance=300_000, om=20_000, msc=1_000, soc=3_000, fee=50)))


def _interval(resources: int, constraints: int, i: int) -> Interval:
    """Each resource is on one constraint, and every fourth loads it."""
    factors = tuple(Factor(r, r % constraints, 200_000 if r % 4 == 3 else -500_000) for r in range(resources if constraints else 0))
    return Interval(
        shadow=tuple(max(SHADOWS[i] - 10_000 * c, 0) for c in range(constraints)),
        lmp=tuple(LMPS[i] + 1_000 * (r % 6) for r in range(resources)),
        dispatch=(20_000,) * resources,
        available=(25_000,) * resources,
        floor=(5_000,) * resources,
        factors=factors,
        parameter=100,
    )


def drills() -> dict[str, str]:
    """A text for each classroom bid, in the list's order, by the name of its file."""
    openings = (Opening(25, (1,), (Resource(0, bid, DRILL_COSTS),)) for bid in classroom_bids())
    return {f"bid-{k:02}.txt": write(opening, [DRILL_INTERVAL]) for k, opening in enumerate(openings)}


def comments(name: str, text: str) -> str:
    """The comment file of a text: each table with its lines, once, and where the intervals stand."""
    return "".join(f"{line}\n" for line in _comments(name, text.splitlines()))


def _comments(name: str, lines: list[str]) -> Iterator[str]:
    starts = [i for i, line in enumerate(lines) if line == "constraint shadow"]
    yield f"# {name}, table by table"
    yield ""
    yield "A text is one trading hour: six tables open it, and four more stand for each interval, up to four of them. A table is a line of names and then lines"
    yield "of whole numbers, parted by one space; there are no comments in a text, so they stand here. docs/FORMAT.md has the whole form."
    yield ""
    yield f"`noskjerf run {name}` runs it, and `noskjerf explain {name}` shows every figure. {_where(starts)}"
    for names, words in EXPLAINED.items():
        yield from _table(lines, names, words)


def _where(starts: list[int]) -> str:
    if not starts:
        return "It has no interval yet."
    lines = " and ".join(f"line {i + 1}" for i in starts)
    return f"It has {count(len(starts), 'interval')}, from {lines} on; below are the numbers of the first."


def _table(lines: list[str], names: Names, words: str) -> Iterator[str]:
    heading = " ".join(names)
    if heading not in lines:
        return
    first = lines.index(heading)
    last = first + 1
    while last < len(lines) and not lines[last][0].isalpha():
        last += 1
    yield from ("", f"## {heading} (lines {first + 1} to {last})", "", words, "", "```", *lines[first:last], "```")
