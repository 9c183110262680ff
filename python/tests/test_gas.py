"""Books of gas prices: the table of docs/REFUSALS.md, 21, and Case T's costs."""

from __future__ import annotations

import copy
import pickle
from typing import Any

import pytest
from noskjerf import Book, Charges, Curve, Entry, Market, Refusal, Step

from .cases import CHARGES_OF_T, POINTS_OF_T

DAYS: Any = [(3, 40000), (5, 41000), (9, 39000)]
TWICE: Any = [(4, 50000), (4, 1)]
LAST: Any = 2**32 - 1
BROKEN: list[Any] = [[], TWICE, [(5, 1), (4, 1)], [(1, 7), (9, 7), (9, 7)]]


@pytest.mark.parametrize(("day", "price"), [(3, 40000), (4, 40000), (5, 41000), (8, 41000), (9, 39000), (LAST, 39000)])
def test_an_unpublished_day_takes_the_latest_before_it(day: int, price: int) -> None:
    assert Book(DAYS, TWICE).price(Market.DAY_AHEAD, day) == price
    assert Book(TWICE, DAYS).price(Market.REAL_TIME, day) == price
    assert Book(TWICE, DAYS).run(Market.REAL_TIME, day) == tuple(Entry(*entry) for entry in DAYS if entry[0] <= day)


@pytest.mark.parametrize("day", [0, 1, 2])
def test_a_day_before_the_first_entry_is_refused(day: int) -> None:
    with pytest.raises(Refusal) as raised:
        Book(DAYS).price(Market.DAY_AHEAD, day)
    assert raised.value == Refusal(21, "book")


@pytest.mark.parametrize("broken", BROKEN, ids=str)
@pytest.mark.parametrize("day", [1, 3, 9, LAST])
def test_a_broken_list_is_refused_on_every_day(broken: Any, day: int) -> None:
    for book, market in ((Book(broken, DAYS), Market.DAY_AHEAD), (Book(DAYS, broken), Market.REAL_TIME)):
        for ask in (book.run, book.price):
            with pytest.raises(Refusal) as raised:
                ask(market, day)
            assert raised.value.number == 21


def test_the_costs_of_t_take_the_price_of_their_day() -> None:
    charges = Charges(gas=-1, om=20000, msc=1000, soc=3000, fee=50)
    curve = Book(((1, 40000),)).default_curve(Market.DAY_AHEAD, 1, POINTS_OF_T, charges)
    assert curve == Curve(10000, (Step(20000, 378402), Step(24000, 444403), Step(30000, 488402)))
    # 11/10, up, of 24,001 and of fuel: 8 times the price in use
    for day, price in ((4, 378402), (8, 387202), (10, 369602)):
        assert Book(DAYS).default_curve(Market.DAY_AHEAD, day, POINTS_OF_T, charges).steps[0].price == price


def test_the_book_is_tested_before_the_costs() -> None:
    book = Book(((1, 1_000_001),))
    asked: list[tuple[int, Any, int]] = [(0, [], 21), (1, [], 4), (1, POINTS_OF_T, 7)]
    for day, points, number in asked:
        with pytest.raises(Refusal) as raised:
            book.default_curve(Market.DAY_AHEAD, day, points, CHARGES_OF_T)
        assert raised.value.number == number


def test_a_long_list_is_tested_whole() -> None:
    entries: Any = [(10 * day, day) for day in range(100_000)]
    assert Book(entries).price(Market.DAY_AHEAD, 499_999) == 49_999
    entries[-1] = entries[-2]
    with pytest.raises(Refusal):
        Book(entries).price(Market.DAY_AHEAD, 5)


def test_a_market_is_taken_by_its_number() -> None:
    markets: list[Any] = [0, 1]
    assert [Book([(1, 7)], DAYS).price(market, 4) for market in markets] == [7, 40000]


def test_a_book_that_was_asked_is_copied_and_pickled() -> None:
    book = Book([(1, 7)], DAYS)
    assert book.price(Market.DAY_AHEAD, 4) == 7
    for other in (copy.copy(book), copy.deepcopy(book), pickle.loads(pickle.dumps(book))):
        assert other == book and other.price(Market.REAL_TIME, 4) == book.price(Market.REAL_TIME, 4)
