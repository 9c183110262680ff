"""Hydro defaults: the cases of request 2.8 worked by hand, every refusal, wrong types, and a hydro unit in an hour."""

from __future__ import annotations

import copy
import pickle
from collections.abc import Iterator
from dataclasses import replace
from decimal import Decimal
from typing import Any

import pytest
from noskjerf import Charges, Costs, Curve, Hour, Interval, Opening, Refusal, Resource, Step, dollars, mw
from noskjerf_hydro import Hub, Hydro

LEAST, MOST = -(2**63), 2**63 - 1

# 440,000, 700,000 and 550,000
WORKED = Hydro(10000, 30000, 10000, 40000, 1, [Hub(500000, 400000, [300000, 0, 900000])])


def least(*hubs: Hub, **other: int) -> Hydro:
    """All within the limits, and every amount the least that it can be."""
    return replace(Hydro(0, 1, 1, 0, 1, hubs), **other)


def price(hydro: Hydro) -> int:
    """The price of the one step, or minus the number of the refusal."""
    try:
        curve = hydro.default_curve()
    except Refusal as refusal:
        assert (refusal.part, refusal.line) == ("hydro", None)
        return -refusal.number
    step, = curve.steps
    assert (curve.start, step.end) == (hydro.low, hydro.high)
    return step.price


def worked(**other: Any) -> Hydro:
    return replace(WORKED, **other)


SECOND = Hub(1000000, 0, [0])


@pytest.mark.parametrize(
    ("hydro", "due"),
    [
        (WORKED, 700000),
        (worked(horizon=2), 700000),
        (worked(horizon=3), 990000),
        (worked(hubs=[*WORKED.hubs, SECOND]), 1100000),
        (worked(hubs=[*WORKED.hubs, replace(SECOND, peak=600000)]), 700000),
        (worked(heat=100000, gas=1000000), 110000000),
        (least(Hub(1, 0, [0])), 2),
        (least(Hub(5, 0, [0])), 7),
        (least(Hub(0, 0, [10])), 14),
        (least(Hub(0, 0, [0, 10]), horizon=2), 11),
        (least(Hub(0, 0, [0]), gas=1), 1),
        (least(Hub(0, 0, [0])), 0),
        (Hydro(0, 1000000, 100000, 1000000, 12, [Hub(100000000, 100000000, [100000000] * 12)] * 4), 140000000),
    ],
)
def test_the_price_is_the_largest_of_three_amounts(hydro: Hydro, due: int) -> None:
    assert price(hydro) == due


@pytest.mark.parametrize("unread", [-1, 100000001, LEAST, MOST])
def test_months_past_the_horizon_are_not_read(unread: int) -> None:
    assert price(least(Hub(10, 0, [0, unread]))) == 14
    assert price(least(Hub(10, 0, [0, unread]), horizon=2)) == -22
    assert price(least(Hub(10, 0, [*[0] * 12, unread]), horizon=12)) == 14
    assert price(least(Hub(10, 0, [*[0] * 11, unread]), horizon=12)) == -22


def test_a_month_that_is_read_has_to_be_there() -> None:
    for count in range(13):
        for horizon in range(1, 13):
            due = 14 if horizon <= count else -22
            assert price(least(Hub(10, 0, [0] * count), horizon=horizon)) == due


def faults() -> Iterator[Hydro]:
    """The first worked case with one value outside its limits."""
    yield from (worked(heat=heat) for heat in (0, -1, 100001, LEAST, MOST))
    yield from (worked(gas=gas) for gas in (-1, 1000001, LEAST, MOST))
    yield from (worked(horizon=horizon) for horizon in (0, 13, -1, LEAST, MOST, 2**32 + 1))
    yield from (worked(hubs=hubs) for hubs in ([], [SECOND] * 5, [SECOND] * 1000))
    yield from (worked(hubs=[replace(WORKED.hubs[0], **{name: value})]) for name in ("peak", "balance") for value in (-1, 100000001, MOST))
    yield from (worked(hubs=[replace(WORKED.hubs[0], months=months)]) for months in ([], [-1], [100000001, 0, 0]))
    yield worked(hubs=[*WORKED.hubs, replace(SECOND, balance=-1)])


@pytest.mark.parametrize("hydro", faults())
def test_a_value_outside_its_limits_is_22(hydro: Hydro) -> None:
    assert price(hydro) == -22
    # 22 comes before 2
    assert price(replace(hydro, high=hydro.low)) == -22


@pytest.mark.parametrize(
    ("low", "high"),
    [(10000, 10000), (10001, 10000), (-1, 5), (0, 1000001), (LEAST, MOST), (MOST, LEAST), (0, 2**32 + 1)],
)
def test_quantities_that_are_no_edges_are_2(low: int, high: int) -> None:
    assert price(worked(low=low, high=high)) == -2


def test_a_refusal_says_why() -> None:
    with pytest.raises(Refusal) as raised:
        worked(low=30000).default_curve()
    assert str(raised.value) == str(Refusal(2, "hydro"))
    with pytest.raises(Refusal) as raised:
        worked(heat=0).default_curve()
    assert str(raised.value).startswith("hydro: the heat rate H is outside 1 to 100,000, ")
    assert str(pickle.loads(pickle.dumps(raised.value))) == str(raised.value)


# ---- what isn't taken at all
UNITS = "a whole number of units of 0.0001 dollar is due"
HUNDREDTHS = "a whole number of hundredths of a MW is due"


@pytest.mark.parametrize(
    ("make", "error", "said"),
    [
        (lambda: worked(low=100.0), TypeError, f"low: {HUNDREDTHS}, not the float 100.0: write mw(100.0), or 100 if it is in these units already"),
        (lambda: worked(high="300"), TypeError, f"high: {HUNDREDTHS}, not the str '300': write mw('300'), or 300 if it is in these units already"),
        (lambda: worked(heat=None), TypeError, "heat: a whole number is due, not None"),
        (lambda: worked(heat=True), TypeError, "heat: a whole number is due, not True"),
        (lambda: worked(heat=9.5), TypeError, "heat: a whole number is due, not the float 9.5"),
        (lambda: worked(gas=Decimal("4.2")), TypeError, f"gas: {UNITS}, not the Decimal 4.2: write dollars(4.2)"),
        (lambda: worked(gas=float("nan")), ValueError, "gas: nan is no whole number"),
        (lambda: worked(horizon=1.0), TypeError, "horizon: a whole number is due, not the float 1.0: write 1"),
        (lambda: worked(horizon=2**63), OverflowError, f"horizon: a number from {LEAST} to {MOST} is due"),
        (lambda: worked(hubs=None), TypeError, "hubs: a list is due, not None"),
        (lambda: worked(hubs=SECOND), TypeError, "hubs: a list is due, not Hub"),
        (lambda: worked(hubs="ab"), TypeError, "hubs: a list is due, not str"),
        (lambda: worked(hubs=[SECOND, (1, 2, [3])]), TypeError, "hubs[1]: Hub is due, not tuple"),
        (lambda: worked(hubs=[None]), TypeError, "hubs[0]: Hub is due, not None"),
        (lambda: replace(SECOND, peak=50.0), TypeError, f"peak: {UNITS}, not the float 50.0: write dollars(50.0), or 50 if it is in these units already"),
        (lambda: replace(SECOND, balance=None), TypeError, "balance: a whole number is due, not None"),
        (lambda: replace(SECOND, balance=False), TypeError, "balance: a whole number is due, not False"),
        (lambda: replace(SECOND, months=5), TypeError, "months: a list is due, not int"),
        (lambda: replace(SECOND, months=None), TypeError, "months: a list is due, not None"),
        (lambda: replace(SECOND, months=[0, None]), TypeError, "months[1]: a whole number is due, not None"),
        (lambda: replace(SECOND, months=[0, 30.5]), TypeError, f"months[1]: {UNITS}, not the float 30.5: write dollars(30.5)"),
        (lambda: replace(SECOND, months=[-(2**63) - 1]), OverflowError, f"months[0]: a number from {LEAST} to {MOST} is due"),
        (lambda: replace(SECOND, months={1: 2}), TypeError, "months: a list is due, not dict"),
    ],
)
def test_what_is_no_whole_number_is_an_error_in_words(make: Any, error: type[Exception], said: str) -> None:
    with pytest.raises(error) as raised:
        make()
    assert str(raised.value) == said


def test_a_field_that_is_left_out_is_an_error() -> None:
    with pytest.raises(TypeError):
        Hydro(0, 1, 1, 0, 1)  # type: ignore[call-arg]
    with pytest.raises(TypeError):
        Hub(1, 2)  # type: ignore[call-arg]


def test_numbers_of_numpy_and_columns_of_pandas_are_taken() -> None:
    pandas = pytest.importorskip("pandas")
    frame = pandas.DataFrame({"price": [50.0, 40.0, 30.0, 0.0, 90.0]})
    peak, balance, *months = frame.price.map(dollars)
    hydro = Hydro(mw(100), mw(300), heat=10000, gas=dollars("4"), horizon=3, hubs=iter([Hub(peak, balance, pandas.Series(months))]))
    assert hydro == worked(horizon=3)
    assert price(hydro) == 990000


def test_records_are_values() -> None:
    for other in (copy.copy(WORKED), copy.deepcopy(WORKED), pickle.loads(pickle.dumps(WORKED))):
        assert (other, hash(other), price(other)) == (WORKED, hash(WORKED), 700000)
    with pytest.raises(AttributeError):
        WORKED.heat = 0  # type: ignore[misc]


# ---- in an hour
BID = Curve(10000, [(15000, 300000), (30000, 900000)])
COSTS = Costs([(10000, 10000), (20000, 9000), (30000, 9500)], Charges(gas=40000, om=20000, msc=1000, soc=3000, fee=50))


def opened(default: Costs | Curve) -> Hour:
    return Hour(Opening(25, [1], [Resource(0, BID, default)]))


def interval(lmp: int) -> Interval:
    """Case T's, with this locational price: the floor price is 250,000 below it and 100."""
    return Interval([500000], [lmp], [20000], [30000], [0], [(0, 0, -500000)], 100)


def prices(curve: Curve) -> list[int]:
    return [step.price for step in curve.steps]


def test_a_hydro_unit_is_cut_to_its_price_or_the_floor_price() -> None:
    hour = opened(WORKED.default_curve())
    assert hour.default(0) == Curve(10000, (Step(30000, 700000),))
    # a floor price of 749,850 above the hydro price, then of 350,100 below it
    hour.interval(interval(999750))
    assert prices(hour.curve(0)) == [300000, 749850]
    hour.pass_(interval(600000))
    assert (prices(hour.curve(0)), prices(hour.five_minute(0))) == ([300000, 749850], [300000, 700000])
    hour.interval(interval(600000))
    assert prices(hour.curve(0)) == [300000, 700000]


@pytest.mark.parametrize("lmp", [600000, 999750, -5])
def test_a_cut_has_the_same_causes_as_on_any_other(lmp: int) -> None:
    causes = opened(WORKED.default_curve()).why(interval(lmp))
    assert causes == opened(COSTS).why(interval(lmp))
    assert causes[0].capped


@pytest.mark.parametrize(("low", "high"), [(10001, 30000), (10000, 29999)])
def test_a_bid_outside_the_quantities_is_11(low: int, high: int) -> None:
    with pytest.raises(Refusal) as raised:
        opened(worked(low=low, high=high).default_curve())
    assert raised.value.number == 11
