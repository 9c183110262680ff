"""Reliability contract units: the worked cases of request 2.9, and Case T's hour with a joined curve."""

from __future__ import annotations

from dataclasses import replace

import pytest
from noskjerf import Curve, Hour, Opening, Refusal, Resource, default_curve, join
from noskjerf._library import has_hours

from .cases import CHARGES_OF_T, POINTS_OF_T
from .test_parts import INTERVAL_OF_T, OPENING_OF_T

hours = pytest.mark.skipif(not has_hours(), reason="the library has no hours in numbers: their archives weren't there when it was built")

PROXY = Curve(0, [(10, 5)])
ABOVE = Curve(10, [(20, 3), (30, 7)])
TOP = 1_000_000_000
LEAST, MOST = -(2**63), 2**63 - 1


def flat(start: int, count: int) -> Curve:
    """So many steps of price 7, each 10 wide."""
    return Curve(start, [(start + 10 * i, 7) for i in range(1, count + 1)])


def refused(proxy: Curve, above: Curve) -> int:
    """The number of the refusal that a join raises, 0 for none."""
    try:
        join(proxy, above)
    except Refusal as refusal:
        assert (refusal.part, refusal.line) == ("join", None)
        return refusal.number
    return 0


@pytest.mark.parametrize(
    ("proxy", "above", "joined"),
    [
        ([(10, 5)], [(20, 3), (30, 7)], [(10, 5), (20, 5), (30, 7)]),
        ([(10, 2)], [(20, 3), (30, 7)], [(10, 2), (20, 3), (30, 7)]),
        ([(10, 8)], [(20, 3), (30, 7)], [(10, 8), (20, 8), (30, 8)]),
        ([(4, 5), (10, 6)], [(20, 3), (30, 7)], [(4, 5), (10, 6), (20, 6), (30, 7)]),
        ([(10, -3)], [(20, -9)], [(10, -3), (20, -3)]),
        ([(10, 3)], [(20, 3)], [(10, 3), (20, 3)]),
        ([(10, -TOP)], [(1_000_000, TOP)], [(10, -TOP), (1_000_000, TOP)]),
    ],
)
def test_each_price_is_raised_to_the_largest_before_it(
    proxy: list[tuple[int, int]], above: list[tuple[int, int]], joined: list[tuple[int, int]]
) -> None:
    assert join(Curve(0, proxy), Curve(10, above)) == Curve(0, joined)


@pytest.mark.parametrize("first", range(1, 11))
def test_eleven_steps_of_one_price_stay_eleven(first: int) -> None:
    assert join(flat(5, first), flat(5 + 10 * first, 11 - first)) == flat(5, 11)


# parts of the first and of the second place with each number of a part, alone
REFUSED_PARTS = [
    (1, Curve(0, []), Curve(10, [])),
    (1, flat(0, 12), flat(10, 12)),
    (1, flat(0, 100_000), flat(10, 100_000)),
    (2, Curve(0, [(10, 5), (10, 5)]), Curve(10, [(30, 5), (20, 5)])),
    (2, Curve(-1, [(10, 5)]), Curve(10, [(1_000_001, 5)])),
    (2, Curve(LEAST, [(MOST, 5)]), Curve(MOST, [(LEAST, 5)])),
    (3, Curve(0, [(5, 9), (10, 8)]), Curve(10, [(20, 9), (30, 8)])),
    (3, Curve(0, [(10, TOP + 1)]), Curve(10, [(20, -TOP - 1)])),
    (3, Curve(0, [(10, MOST)]), Curve(10, [(20, LEAST)])),
]


@pytest.mark.parametrize(("number", "proxy", "above"), REFUSED_PARTS, ids=range(len(REFUSED_PARTS)))
def test_a_part_has_the_checks_of_a_default_curve(number: int, proxy: Curve, above: Curve) -> None:
    assert refused(proxy, ABOVE) == refused(PROXY, above) == number
    # also before 23 and 24
    assert refused(proxy, flat(500, 11)) == refused(flat(500, 11), above) == number


def test_the_lowest_number_over_both_parts_wins() -> None:
    for of_proxy, proxy, _ in REFUSED_PARTS:
        for of_above, _, above in REFUSED_PARTS:
            assert refused(proxy, above) == min(of_proxy, of_above)


@pytest.mark.parametrize("start", [0, 5, 9, 11, 1000])
def test_the_second_part_starts_where_the_first_one_ends(start: int) -> None:
    assert refused(Curve(0, [(5, 5), (10, 5)]), Curve(start, [(2000, 5)])) == 23


@pytest.mark.parametrize(("first", "second"), [(6, 6), (11, 1), (1, 11), (11, 11)])
def test_both_parts_have_11_steps_at_most(first: int, second: int) -> None:
    assert refused(flat(0, first), flat(10 * first, second)) == 24
    # where they don't meet, that comes first
    assert refused(flat(0, first), flat(10 * first + 1, second)) == 23


def test_a_refused_join_says_why() -> None:
    with pytest.raises(Refusal, match=r"^join: the second part does not start at the first one's last end \(refusal 23\)$"):
        join(PROXY, PROXY)
    with pytest.raises(Refusal, match=r"^join: the two parts have more than 11 steps together \(refusal 24\)$"):
        join(flat(0, 6), flat(60, 6))


def test_the_default_of_t_above_proxy_prices() -> None:
    joined = join(Curve(0, [(10000, 400000)]), default_curve(POINTS_OF_T, CHARGES_OF_T))
    assert joined == Curve(0, [(10000, 400000), (20000, 400000), (24000, 444403), (30000, 488402)])


def with_default(joined: Curve, bid: Curve) -> Opening:
    return replace(OPENING_OF_T, resources=(Resource(0, bid, joined),))


@hours
def test_a_joined_curve_opens_an_hour() -> None:
    """In Case T's hour the floor price is 350,100: 700,000 up to 200 MW, then 500,000, which is raised, and 800,000."""
    joined = join(Curve(10000, [(20000, 700000)]), Curve(20000, [(24000, 500000), (30000, 800000)]))
    hour = Hour.open(with_default(joined, OPENING_OF_T.resources[0].bid))
    assert hour.default(0) == joined == Curve(10000, [(20000, 700000), (24000, 700000), (30000, 800000)])
    hour.interval(INTERVAL_OF_T)
    assert hour.curve(0) == Curve(10000, [(15000, 300000), (24000, 700000), (30000, 800000)])


@hours
@pytest.mark.parametrize(("start", "end", "number"), [(100, 120, 0), (99, 120, 11), (100, 121, 11)])
def test_the_bid_lies_within_the_whole_joined_curve(start: int, end: int, number: int) -> None:
    opening = with_default(join(flat(100, 1), flat(110, 1)), Curve(start, [(end, 7)]))
    if number == 0:
        assert Hour.open(opening).resources == 1
        return
    with pytest.raises(Refusal) as raised:
        Hour.open(opening)
    assert raised.value == Refusal(number, "opening")
