"""One bid judged, one default energy bid worked out: the limits of paper 01 and its Case T."""

from __future__ import annotations

from typing import Any, Callable

import pytest
from noskjerf import Charges, Curve, Point, Refusal, Step, bid, default_curve

from .cases import CHARGES_OF_T, POINTS_OF_T

TOP = Charges(1_000_000, 200_000, 10_000_000, 1_000_000, 1_000_000, 1_000_000, 1_000_000)
LEAST, MOST = -(2**63), 2**63 - 1


def refused(call: Callable[[], object]) -> int:
    """The number of the refusal that a call raises, 0 for none."""
    try:
        call()
    except Refusal as refusal:
        assert refusal.line is None
        return refusal.number
    return 0


def rising(count: int) -> list[tuple[int, int]]:
    return [(100 * i, 1) for i in range(1, count + 1)]


@pytest.mark.parametrize(
    ("month", "start", "steps", "number"),
    [
        (25, 0, [], 1),
        (25, 0, rising(10), 0),
        (25, 0, rising(11), 1),
        (25, 0, rising(100_000), 1),
        (25, 0, [(1_000_000, 0)], 0),
        (25, -1, [(1_000_000, 0)], 2),
        (25, 0, [(1_000_001, 0)], 2),
        (25, 5, [(5, 0)], 2),
        (25, 5, [(7, 0), (7, 0)], 2),
        (25, LEAST, [(MOST, 0)], 2),
        (1, 0, [(1, 5_000_000)], 0),
        (0, 0, [(1, 5_000_001)], 3),
        (12, 0, [(1, 5_000_001)], 3),
        (13, 0, [(1, 7_500_000)], 0),
        (24, 0, [(1, 7_500_001)], 3),
        (25, 0, [(1, 10_000_000)], 0),
        (1_200, 0, [(1, 10_000_001)], 3),
        (25, 0, [(1, -1_500_000)], 0),
        (25, 0, [(1, -1_500_001)], 3),
        (25, 0, [(1, 7), (2, 7)], 0),
        (25, 0, [(1, 7), (2, 6)], 3),
        (25, 0, [(1, MOST), (1, 0)], 2),
    ],
)
def test_a_bid_is_judged(month: int, start: int, steps: Any, number: int) -> None:
    assert refused(lambda: bid(month, start, steps)) == number


def test_a_refused_bid_says_why() -> None:
    with pytest.raises(Refusal) as raised:
        bid(25, 0, [])
    assert str(raised.value) == "bid: a bid has no step, or more than 10 (a default curve 11) (refusal 1)"


def test_case_t_has_its_default_energy_bid() -> None:
    curve = Curve(10000, (Step(20000, 378402), Step(24000, 444403), Step(30000, 488402)))
    assert default_curve(POINTS_OF_T, CHARGES_OF_T) == curve
    assert default_curve([Point(*point) for point in POINTS_OF_T], CHARGES_OF_T) == curve


@pytest.mark.parametrize(
    ("points", "charges", "number"),
    [
        ([], TOP, 4),
        (rising(1), TOP, 4),
        (rising(2), TOP, 0),
        (rising(11), TOP, 0),
        (rising(12), TOP, 4),
        ([(-1, 1), (2, 1)], TOP, 5),
        ([(0, 1), (1_000_001, 1)], TOP, 5),
        ([(2, 1), (2, 1)], TOP, 5),
        ([(0, 0), (2, 1)], TOP, 6),
        ([(0, 1), (2, 100_001)], TOP, 6),
        (rising(2), Charges(gas=1_000_001), 7),
        (rising(2), Charges(rate=200_001), 7),
        (rising(2), Charges(allowance=10_000_001), 7),
        (rising(2), Charges(om=1_000_001), 7),
        (rising(2), Charges(msc=1_000_001), 7),
        (rising(2), Charges(soc=1_000_001), 7),
        (rising(2), Charges(fee=1_000_001), 7),
        (rising(2), Charges(fee=-1), 7),
        (rising(2), Charges(gas=LEAST), 7),
        ([(10000, 10000), (29999, 1), (30000, 9500)], TOP, 8),
        ([(0, 1), (999, 1), (1000, 100_000), (2000, 100_000)], TOP, 0),
    ],
)
def test_costs_are_judged(points: Any, charges: Charges, number: int) -> None:
    assert refused(lambda: default_curve(points, charges)) == number


def test_the_80_percent_mark_splits_a_segment() -> None:
    def ends(points: Any) -> list[int]:
        return [step.end for step in default_curve(points, TOP).steps]

    assert ends([(0, 1), (7, 1)]) == [5, 7]
    assert ends([(2, 1), (8, 1), (10, 1)]) == [8, 10]
    assert ends([(2, 1), (9, 1), (10, 1)]) == [8, 9, 10]
    assert len(ends(rising(11))) == 11


@pytest.mark.parametrize(
    ("charges", "price"),
    [
        (Charges(), 0),
        (Charges(gas=100), 220),
        (Charges(rate=200_000, allowance=1_000_000), 440_000),
        (Charges(om=10), 11),
        (Charges(msc=20), 22),
        (Charges(soc=30), 33),
        (Charges(fee=3), 165),
    ],
)
def test_each_charge_has_its_place(charges: Charges, price: int) -> None:
    """A first step of 2 hundredths at 2,000 Btu/kWh: 11/10 of the charge's own part, up."""
    assert default_curve([(0, 2000), (3, 2000)], charges).steps[0] == Step(2, price)
