"""Net sellers that leave every binding constraint short together: cases worked by hand, budgets, refusals, words, explain and report."""

from __future__ import annotations

import json
import pickle
import random
import re
from collections.abc import Sequence
from dataclasses import FrozenInstanceError, replace
from decimal import Decimal
from pathlib import Path
from typing import Any

import pytest
from noskjerf import Cause, Curve, Hour, Interval, Opening, Refusal, Resource, Together, read, run
from noskjerf import report as reports
from noskjerf import workings as module
from noskjerf._library import has_hours
from noskjerf.workings import Workings, workings
from noskjerf.workings_text import workings_text

from .cases import CASES, DATA, ROOT, Case, T, name_of
from .hours import real_text
from .process import noskjerf
from .test_parts import INTERVAL_OF_T, OPENING_OF_T

hours = pytest.mark.skipif(not has_hours(), reason="the library has no hours in numbers: their archives weren't there when it was built")
THREE_SELLERS = ROOT / "examples" / "three-sellers.txt"


def opened(*sellers: int) -> Hour:
    """An hour in which each portfolio has a unit."""
    return Hour.open(Opening(25, sellers, [Resource(p, Curve(0, [(10, 2)]), Curve(0, [(10, 1)])) for p in range(len(sellers))]))


def interval(shadow: Sequence[int], dispatch: Sequence[int], available: Sequence[int], factors: Sequence[tuple[int, int, int]]) -> Interval:
    nothing = [0] * len(dispatch)
    return Interval(shadow, nothing, dispatch, available, nothing, factors)


def four(first: int, second: int = 0) -> Interval:
    """P5's: 5, 4, 3 and 2 of supply, and what the first two have dispatched."""
    return interval([1], [first, second, 0, 0], [5, 4, 3, 2], [(r, 0, -1) for r in range(4)])


def two_paths(first: int = 1, second: int = 1) -> Interval:
    """Two constraints, each relieved by a unit of its own, and a third unit."""
    return interval([first, second], [1, 1, 0], [1, 1, 1], [(0, 0, -1), (1, 1, -1)])


# ---- what is found
@hours
def test_four_sellers() -> None:
    """Demand 3 of 14: 12 have to go, which is 5, 4 and 3. Demand 2: all have to."""
    hour = opened(1, 1, 1, 1)
    assert hour.together(four(3)) == Together((0, 1, 2), 15, 3, 15)
    assert hour.together(four(2)) == Together((0, 1, 2, 3), 15, 4, 15)


@hours
@pytest.mark.parametrize(
    ("budget", "best", "tried"), [(0, 4, 0), (1, 4, 1), (6, 4, 6), (7, 3, 7), (14, 3, 14), (15, 3, 15), (16, 3, 15), (2**64 - 1, 3, 15), (None, 3, 15)]
)
def test_sets_are_tried_in_rising_order_up_to_the_budget(budget: int | None, best: int, tried: int) -> None:
    assert opened(1, 1, 1, 1).together(four(3), budget) == Together(tuple(range(best)), tried, 3, 15)


@hours
def test_net_buyers_are_in_no_set() -> None:
    """The others' 9 leave 5 of 14, which isn't below a demand of 5; it is below one of 6."""
    hour = opened(0, 1, 1, 1)
    assert hour.together(four(5)) == Together(None, 0, 0, 7)
    assert hour.together(four(5, 1)) == Together((1, 2, 3), 7, 3, 7)
    assert opened(0, 0, 0, 0).together(four(5, 1)) == Together(None, 0, 0, 0)


@hours
def test_a_seller_for_each_of_two_constraints() -> None:
    hour = opened(1, 1, 1)
    assert hour.together(two_paths()) == Together((0, 1), 7, 1, 7)
    assert hour.together(two_paths(), budget=2) == Together((0, 1, 2), 2, 1, 7)
    assert hour.together(two_paths(0, 1)) == Together((1,), 7, 1, 7)
    assert hour.together(two_paths(1, 0)) == Together((0,), 7, 1, 7)


@hours
def test_of_equal_sets_the_lower_stays_and_floor_output_is_not_withheld() -> None:
    """10 less 5 is below 6; with 3 of its 5 that can't be withheld the first leaves 8."""
    equal = Interval([1], [0, 0], [5, 1], [5, 5], [0, 0], [(0, 0, -1), (1, 0, -1)])
    hour = opened(1, 1)
    assert hour.together(equal) == Together((0,), 3, 1, 3)
    assert hour.together(replace(equal, floor=(3, 0))) == Together((1,), 3, 1, 3)


@hours
def test_sixteen_sellers() -> None:
    demand_of_2 = interval([1], [1, 1] + [0] * 14, [1] * 16, [(r, 0, -1) for r in range(16)])
    hour = opened(*[1] * 16)
    assert hour.together(demand_of_2) == Together(tuple(range(15)), 65535, 15, 65535)
    assert hour.together(demand_of_2, 32767).best == tuple(range(15))
    assert hour.together(demand_of_2, 32766) == Together(tuple(range(16)), 32766, 15, 65535)


@hours
def test_whose_turn_it_is_plays_no_part() -> None:
    hour = opened(1, 1, 1, 1)
    for _ in range(4):
        kept = hour.copy()
        assert hour.together(four(3)).best == (0, 1, 2)
        assert hour == kept
        hour.interval(four(3))
        hour.pass_(four(3))
    assert hour.together(four(3)).best == (0, 1, 2)
    assert pickle.loads(pickle.dumps(hour)).together(four(3)).sets == 15


# ---- refusals
@hours
@pytest.mark.parametrize(
    ("asked", "number"),
    [
        (two_paths(0, 0), 26),
        (interval([], [1, 0, 0], [1, 0, 0], []), 26),
        (interval([0] * 32, [1, 0, 0], [1, 0, 0], []), 26),
        (interval([], [2, 0, 0], [1, 0, 0], []), 16),
        (two_paths(0, -1), 15),
        (replace(two_paths(0, 0), parameter=101), 15),
        (interval([0] * 33, [2, 0, 0], [1, 0, 0], []), 14),
        (interval([], [2], [1], []), 13),
        (four(3), 13),
    ],
)
@pytest.mark.parametrize("budget", [0, 1, None])
def test_refused(asked: Interval, number: int, budget: int | None) -> None:
    hour = opened(1, 1, 1)
    kept = hour.copy()
    with pytest.raises(Refusal) as raised:
        hour.together(asked, budget)
    assert (raised.value.number, raised.value.part, raised.value.line) == (number, "interval", None)
    assert hour == kept


@hours
@pytest.mark.parametrize(
    ("budget", "error", "said"),
    [
        (-1, OverflowError, "budget: a number from 0 to 18446744073709551615 is due"),
        (2**64, OverflowError, "budget: a number from 0 to 18446744073709551615 is due"),
        (10**30, OverflowError, "budget: a number from 0 to"),
        (True, TypeError, "budget: a whole number is due, not True"),
        (False, TypeError, "budget: a whole number is due, not False"),
        (7.0, TypeError, "budget: a whole number is due, not the float 7.0: write 7"),
        (7.5, TypeError, "budget: a whole number is due, not the float 7.5"),
        (float("nan"), ValueError, "budget: nan is no whole number"),
        (float("inf"), ValueError, "budget: inf is no whole number"),
        (Decimal(7), TypeError, "budget: a whole number is due, not the Decimal 7"),
        ("7", TypeError, "budget: a whole number is due, not the str '7'"),
        ([7], TypeError, "budget: a whole number is due, not list"),
        (b"7", TypeError, "budget: a whole number is due, not bytes"),
    ],
)
def test_a_wrong_budget_is_named(budget: Any, error: type[Exception], said: str) -> None:
    with pytest.raises(error, match=f"^{re.escape(said)}"):
        opened(1, 1, 1).together(two_paths(), budget)


@hours
@pytest.mark.parametrize("wrong", [None, 7, "interval", {"shadow": [1]}, OPENING_OF_T])
def test_a_wrong_interval_is_named(wrong: Any) -> None:
    with pytest.raises(TypeError, match="^interval: Interval is due, not "):
        opened(1, 1, 1).together(wrong)


# ---- the record
def test_words() -> None:
    assert str(Together((0,), 1, 1, 1)) == "1 seller: 0; no fewer can"
    assert str(Together((0, 4, 7), 10, 3, 255)) == "3 sellers: 0, 4, 7; no fewer can"
    assert str(Together((0, 4, 7), 255, 2, 255)) == "3 sellers: 0, 4, 7; no fewer can"
    assert str(Together((0, 4, 7), 254, 2, 255)) == "3 sellers: 0, 4, 7; at least 2, at most 3"
    assert str(Together(None, 0, 0, 255)) == "none: not even all net sellers together can"


def test_a_result_is_a_value() -> None:
    found = Together((0, 1), 7, 1, 7)
    assert found == pickle.loads(pickle.dumps(found))
    assert {found: 1}[Together((0, 1), 7, 1, 7)] == 1
    with pytest.raises(FrozenInstanceError):
        found.tried = 0  # type: ignore[misc]


# ---- over the project's texts, by the request's words
def literal(opening: Opening, asked: Interval, budget: int) -> Together | None:
    """The result by trying every set, or None for 26."""
    sellers = [p for p, mark in enumerate(opening.sellers) if mark == 1]
    factors = {(f.resource, f.constraint): max(0, -f.factor) for f in asked.factors}
    paths = []
    for c in (c for c, price in enumerate(asked.shadow) if price > 0):
        e = [factors.get((r, c), 0) for r in range(len(asked.lmp))]
        lack = sum(x * (a - d) for x, a, d in zip(e, asked.available, asked.dispatch))
        units = list(zip(e, opening.resources, asked.available, asked.floor))
        paths.append((lack, [sum(x * (a - f) for x, unit, a, f in units if unit.portfolio == p) for p in range(len(opening.sellers))]))
    if not paths:
        return None

    def short(path: tuple[int, list[int]], members: Sequence[int]) -> bool:
        return sum(path[1][p] for p in members) > path[0]

    sets = [[p for p in sellers if number >> p & 1] for number in range(1, 2 ** len(opening.sellers)) if not number & ~sum(1 << p for p in sellers)]
    if not all(short(path, sellers) for path in paths):
        return Together(None, 0, 0, len(sets))
    best = sellers
    for members in sets[:budget]:
        if len(members) < len(best) and all(short(path, members) for path in paths):
            best = members
    floor = max(min(len(members) for members in sets if short(path, members)) for path in paths)
    return Together(tuple(best), min(budget, len(sets)), floor, len(sets))


@hours
@pytest.mark.parametrize("case", [case for case in CASES if b"interval" in case.printed], ids=name_of)
def test_every_text_has_what_every_set_says(case: Case) -> None:
    parts = read(case.text)
    hour = Hour.open(parts.opening)
    for asked in parts.intervals[: len(run(case.text).pages)]:
        for budget in (0, 2, 2**64 - 1):
            wanted = literal(parts.opening, asked, budget)
            if wanted is None:
                with pytest.raises(Refusal, match="refusal 26"):
                    hour.together(asked, budget)
            else:
                assert hour.together(asked, budget) == wanted


@hours
def test_intervals_by_chance_have_what_every_set_says() -> None:
    pick = random.Random(26)
    kinds = set()
    for _ in range(300):
        sellers = [pick.choice((0, 1, 1, 1)) for _ in range(pick.randrange(1, 7))]
        opening = Opening(25, sellers, [Resource(p, Curve(0, [(10, 2)]), Curve(0, [(10, 1)])) for p in range(len(sellers))])
        available = [pick.randrange(6) for _ in sellers]
        dispatch = [pick.choice((top, pick.randint(0, top))) for top in available]
        constraints = pick.randrange(1, 4)
        factors = [(r, c, -pick.randrange(3)) for r in range(len(sellers)) for c in range(constraints)]
        asked = interval([pick.choice((0, 1, 1)) for _ in range(constraints)], dispatch, available, factors)
        wanted = literal(opening, asked, 2**64 - 1)
        if wanted is not None:
            found = Hour.open(opening).together(asked)
            assert found == wanted
            kinds.add(None if found.best is None else len(found.best) - found.floor)
    assert {None, 0, 1} <= kinds


# ---- explain and report
@hours
def test_case_t_is_explained() -> None:
    said = noskjerf("explain", DATA / "T.txt").out.decode()
    assert "\nEvery binding constraint short together: 1 seller: 0; no fewer can\n" in said
    told = json.loads(noskjerf("explain", DATA / "T.txt", "--format", "json").out)
    assert told["intervals"][0]["together"] == {"best": [0], "tried": 1, "floor": 1, "sets": 1}


@hours
def test_the_line_stands_under_the_verdicts() -> None:
    """Constraint 0 is short without three sellers; on constraint 1 the net buyer's 200 MW alone are enough for a demand of 160 MW."""
    said = noskjerf("explain", THREE_SELLERS).out.decode()
    line = "Every binding constraint short together: none: not even all net sellers together can"
    assert said.rindex("\nConstraint ") < said.index(line) < said.index("\nResource 0: ")
    page = reports.page(THREE_SELLERS.read_bytes(), "hour")
    assert page.count(line) == 1
    assert page.index('<div class="cards">') < page.index(line) < page.index('id="resources"')


@hours
def test_nothing_is_said_where_nothing_binds() -> None:
    idle = T.replace(b"constraint shadow\n0 500000\n", b"constraint shadow\n0 0\n")
    found = workings(idle)
    assert [each.together for each in found.intervals] == [None]
    assert "short together" not in workings_text("hour", found)
    assert "short together" not in reports.page(idle, "hour")


@hours
def test_none_is_said() -> None:
    """Case T's seller a net buyer: no set leaves the constraint short."""
    found = workings(T.replace(b"portfolio seller\n0 1\n", b"portfolio seller\n0 0\n"))
    assert "Every binding constraint short together: none: not even all net sellers together can\n" in workings_text("hour", found)
    assert found.differences == ()


@hours
def test_a_large_hour_is_explained() -> None:
    found = workings(real_text(20, 8, 2))
    assert found.differences == ()
    assert all(each.together is not None for each in found.intervals)


class Otherwise:
    """An hour that finds other sellers of Case T."""

    def __init__(self, found: Together) -> None:
        self.found = found

    def open(self, opening: object) -> Otherwise:
        return self

    def why(self, asked: Interval) -> tuple[Cause, ...]:
        return (Cause(0, True, 250_000_000_000, 350_000, 350_100),)

    def together(self, asked: Interval) -> Together:
        return self.found


def of_t(found: Together, monkeypatch: pytest.MonkeyPatch) -> Workings:
    monkeypatch.setattr(module, "Hour", Otherwise(found))
    return workings(T)


def test_a_figure_that_differs_is_told(monkeypatch: pytest.MonkeyPatch) -> None:
    assert of_t(Together((0,), 1, 1, 1), monkeypatch).differences == ()
    needs = "interval 1: sellers that one constraint alone needs: 1 from the text's numbers, and {} from the engine"
    assert of_t(Together((0,), 1, 2, 1), monkeypatch).differences == (needs.format(2),)
    assert of_t(Together(None, 0, 0, 1), monkeypatch).differences == (needs.format(0),)
    short = "interval 1: sellers () leave every binding constraint short: False from the text's numbers, and True from the engine"
    assert of_t(Together((), 1, 1, 1), monkeypatch).differences == (short,)


@hours
def test_the_refusal_is_explained(tmp_path: Path) -> None:
    done = noskjerf("explain", "26", cwd=tmp_path)
    assert (done.status, done.lines) == (0, [])
    assert done.out.startswith(b"Refusal 26: ")
    assert b"(no constraint of the interval binds)" in done.out


@hours
def test_case_t_in_numbers() -> None:
    assert Hour.open(OPENING_OF_T).together(INTERVAL_OF_T) == Together((0,), 1, 1, 1)
