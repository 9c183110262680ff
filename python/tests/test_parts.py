"""The parts of a text as records, and back."""

from __future__ import annotations

from typing import Any

import pytest
from noskjerf import Costs, Curve, Factor, Interval, Opening, Parts, Refusal, Resource, interval_of, opening_of, read, run, write

from .cases import CASES, CHARGES_OF_T, POINTS_OF_T, Case, T, name_of

OPENING_OF_T = Opening(25, (1,), (Resource(0, Curve(10000, ((15000, 300000), (30000, 900000))), Costs(POINTS_OF_T, CHARGES_OF_T)),))
INTERVAL_OF_T = Interval((500000,), (600000,), (20000,), (30000,), (0,), (Factor(0, 0, -500000),), 100)


def test_case_t_is_read() -> None:
    assert read(T) == Parts(OPENING_OF_T, (INTERVAL_OF_T,), None)
    assert write(OPENING_OF_T, [INTERVAL_OF_T]).encode() == T


@pytest.mark.parametrize("case", CASES, ids=name_of)
def test_what_is_read_is_written_again(case: Case) -> None:
    """All lines that are parts of good form, the refused one included, and none after them."""
    try:
        parts = read(case.text)
    except Refusal as refusal:
        assert (refusal.number, refusal.line) == case.refusal
        assert refusal.number in (17, 18)
        assert run(case.text).pages == ()
        return
    written = write(parts.opening, parts.intervals).encode()
    assert case.text.startswith(written)
    assert parts.refusal == run(case.text).refusal
    if parts.refusal is None:
        assert written == case.text
    elif parts.refusal.number != 17:
        assert written.count(b"\n") == parts.refusal.line
    else:
        assert run(written).printed == case.printed[: case.printed.index(b"refusal line")]


def test_a_missing_parameter_stays_missing() -> None:
    text = T.replace(b"parameter\n100\n", b"parameter\n-\n")
    parts = read(text)
    assert parts.intervals[0].parameter is None
    assert write(parts.opening, parts.intervals).encode() == text


def test_factors_are_written_in_the_texts_order() -> None:
    dispatch = [(0, 1, 0, 0, 0), (1, 1, 0, 0, 0)]
    interval = interval_of([(0, 1), (1, 1)], dispatch, [(1, 1, 4), (0, 1, 2), (1, 0, 3), (0, 0, 1)])
    text = write(OPENING_OF_T, [interval])
    assert "factor\n0 0 1\n0 1 2\n1 0 3\n1 1 4\nparameter\n0\n" in text


def test_a_pack_has_no_text() -> None:
    resource = Resource(0, Curve(0, ()), Curve(0, ()))
    with pytest.raises(ValueError, match=r"resources\[0\]: a text has no packs"):
        write(Opening(1, (1,), (resource,)))


TABLES: dict[str, Any] = {
    "month": 25,
    "sellers": [(0, 1)],
    "resources": [(0, 0, 10000)],
    "steps": [(0, 15000, 300000), (0, 30000, 900000)],
    "points": [(0, *point) for point in POINTS_OF_T],
    "charges": [(0, *CHARGES_OF_T.in_order())],
}


def test_an_opening_from_tables() -> None:
    assert opening_of(**TABLES) == OPENING_OF_T


def test_a_resource_with_a_pack_needs_no_costs() -> None:
    pack = Curve(0, ((30000, 7),))
    bare: dict[str, Any] = {**TABLES, "points": (), "charges": ()}
    assert opening_of(**bare, packs={0: pack}).resources[0].default == pack
    with pytest.raises(ValueError, match="^charges: resource 0 has 0 rows where one is due"):
        opening_of(**bare)


@pytest.mark.parametrize(
    ("change", "said"),
    [
        ({"month": None}, "month: a whole number is due, not None"),
        ({"sellers": [(1, 1)]}, r"sellers\[0\]: the rows count up from 0, and 1 stands where 0 is due"),
        ({"sellers": [(0,)]}, r"sellers\[0\]: 2 numbers are due \(portfolio seller\), not 1"),
        ({"resources": [(0, 0, 0), (0, 0, 0)]}, r"resources\[1\]: the rows count up"),
        ({"steps": [(1, 2, 3)]}, r"steps\[0\]: there is no resource 1"),
        ({"steps": [(-1, 2, 3)]}, r"steps\[0\]: there is no resource -1"),
        ({"steps": {"resource": [0], "end": [1]}}, "steps: there is no column 'price'"),
        ({"steps": {"resource": [0], "end": [1], "price": []}}, r"steps: the columns have several lengths \(resource 1, end 1, price 0\)"),
        ({"steps": 5}, "steps: a list is due, not int"),
        ({"steps": "0 1 2"}, "steps: a list is due, not str"),
        ({"points": [(0, 1, float("nan"))]}, r"points\[0\].heat: nan is no whole number"),
        ({"charges": [(0, 1, 2)]}, r"charges\[0\]: 8 numbers are due"),
        ({"charges": TABLES["charges"] * 2}, "charges: resource 0 has 2 rows where one is due"),
        ({"packs": {1: Curve(0, ())}}, "packs: there is no resource 1"),
        ({"packs": {0: None}}, "default: Costs or Curve is due, not None"),
    ],
)
def test_wrong_tables_are_errors_that_name_them(change: dict[str, Any], said: str) -> None:
    with pytest.raises((TypeError, ValueError), match=said):
        opening_of(**{**TABLES, **change})


def test_an_interval_from_tables() -> None:
    assert interval_of([(0, 500000)], [(0, 600000, 20000, 30000, 0)], [(0, 0, -500000)], 100) == INTERVAL_OF_T


@pytest.mark.parametrize(
    ("factors", "said"),
    [
        ([(0, 1, 5)], r"factors\[0\].constraint: the interval has no constraint 1"),
        ([(1, 0, 5)], r"factors\[0\].resource: the interval has no resource 1"),
        ([(-1, 0, 5)], r"factors\[0\].resource: the interval has no resource -1"),
        ([(0, 0, 5), (0, 0, 6)], r"factors\[1\]: resource 0 has its factor on constraint 0 already"),
        ([(0, 0, 0.5)], r"factors\[0\].factor: a whole number of millionths is due, not the float 0.5: write 500000"),
        ([(0, 0, 2**63)], r"factors\[0\].factor: a number from"),
        ([0, 0, 5], r"factors\[0\]: a list is due, not int"),
        (None, "factors: a list is due, not None"),
    ],
)
def test_wrong_factors_are_errors_that_name_them(factors: Any, said: str) -> None:
    with pytest.raises((TypeError, ValueError, OverflowError), match=said):
        interval_of([(0, 1)], [(0, 1, 2, 3, 4)], factors)


def test_the_columns_of_an_interval_have_one_length() -> None:
    with pytest.raises(ValueError, match="interval: the columns have several lengths .*available 2"):
        Interval((), (1,), (1,), (1, 2), (1,))
