"""Numbers of every kind, in every field that takes one."""

from __future__ import annotations

from dataclasses import replace
from decimal import Decimal
from fractions import Fraction
from typing import Any, Callable

import pytest
from noskjerf import Book, Charges, Curve, Day, Entry, Factor, Interval, Market, Opening, Point, Resource, Step, Tally, bid, default_curve, designations, join
from noskjerf._numbers import column, whole

WRONG = [
    (None, TypeError),
    (True, TypeError),
    ("5", TypeError),
    (b"5", TypeError),
    ([5], TypeError),
    (5j, TypeError),
    (Decimal(5), TypeError),
    (Decimal("5.5"), TypeError),
    (Decimal("NaN"), ValueError),
    (object(), TypeError),
    (float("nan"), ValueError),
    (float("inf"), ValueError),
    (-0.5, TypeError),
    (3.0, TypeError),
    (Fraction(1, 3), TypeError),
    (Fraction(3), TypeError),
    (Fraction(10**400), TypeError),
    (1e300, TypeError),
    (2**64, OverflowError),
    (-(2**63) - 1, OverflowError),
    (10**5000, OverflowError),
]

POINTS = [(0, 1), (10, 1)]
PART = Curve(0, [(10, 1)])
INTERVAL = Interval((1,), (1,), (1,), (1,), (1,))
BOOK = Book([(1, 1)], [(1, 1)])

# a call with a number in one field, and the name of the field
FIELDS: list[tuple[str, Callable[[Any], object]]] = [
    ("end", lambda n: Step(n, 1)),
    ("price", lambda n: Step(1, n)),
    ("start", lambda n: Curve(n, ())),
    ("steps[0].end", lambda n: Curve(0, ((n, 1),))),
    ("mw", lambda n: Point(n, 1)),
    ("heat", lambda n: Point(1, n)),
    *[(name, lambda n, name=name: replace(Charges(), **{name: n})) for name in ("gas", "rate", "allowance", "om", "msc", "soc", "fee")],
    ("portfolio", lambda n: Resource(n, Curve(0, ()), Curve(0, ()))),
    ("month", lambda n: Opening(n, (), ())),
    ("sellers[1]", lambda n: Opening(1, (1, n), ())),
    ("factor", lambda n: Factor(0, 0, n)),
    *[(f"{name}[0]", lambda n, name=name: replace(INTERVAL, **{name: [n]})) for name in ("shadow", "lmp", "dispatch", "available", "floor")],
    ("month", lambda n: bid(n, 0, [(1, 1)])),
    ("start", lambda n: bid(1, n, [(1, 1)])),
    ("steps[0].end", lambda n: bid(1, 0, [(n, 1)])),
    ("steps[1].price", lambda n: bid(1, 0, [(1, 1), (2, n)])),
    ("points[0].mw", lambda n: default_curve([(n, 1), (10, 1)], Charges())),
    ("points[1].heat", lambda n: default_curve([(0, 1), (10, n)], Charges())),
    ("day_ahead[0].day", lambda n: Book([(n, 1)])),
    ("real_time[0].price", lambda n: Book((), [(1, n)])),
    ("market", lambda n: BOOK.run(n, 1)),
    ("day", lambda n: BOOK.price(Market.REAL_TIME, n)),
    ("day", lambda n: BOOK.default_curve(Market.DAY_AHEAD, n, POINTS, Charges())),
    ("day", lambda n: Entry(n, 1)),
    ("price", lambda n: Entry(1, n)),
    ("number", lambda n: Day(n)),
    ("bound", lambda n: Day(1, n)),
    ("noncompetitive", lambda n: Day(1, 1, n)),
    ("hour", lambda n: Day(1).mark(n, [])),
    ("findings[0]", lambda n: Day(1).mark(0, [n])),
    ("constraint", lambda n: Day.of(1, {}, n)),
    ("constraint", lambda n: designations({}, n)),
    ("cells[1]", lambda n: Tally.from_cells([0, n])),
]


@pytest.mark.parametrize(("field", "take"), FIELDS, ids=[f"{i}-{field}" for i, (field, _) in enumerate(FIELDS)])
def test_a_wrong_number_is_an_error_that_names_its_field(field: str, take: Callable[[Any], object]) -> None:
    for wrong, error in WRONG:
        with pytest.raises(error) as raised:
            take(wrong)
        assert str(raised.value).startswith(f"{field}: "), wrong
        assert len(str(raised.value)) < 180


def test_a_missing_parameter_is_none_and_no_other_wrong_number_is_taken() -> None:
    assert replace(INTERVAL, parameter=None).parameter is None
    for wrong, error in WRONG[1:]:
        with pytest.raises(error, match="^parameter: "):
            replace(INTERVAL, parameter=wrong)


def test_numbers_reach_the_ends_of_their_bits() -> None:
    for number in (-(2**63), 2**63 - 1):
        assert Step(number, number).end == number
    for number in (-(2**63) - 1, 2**63):
        with pytest.raises(OverflowError):
            Step(number, 0)
    bid(2**64 - 1, 0, [(1, 10_000_000)])
    with pytest.raises(OverflowError):
        bid(-1, 0, [(1, 1)])
    top = 2**32 - 1
    assert Book([(top, top)]).price(Market.DAY_AHEAD, top) == top
    with pytest.raises(OverflowError):
        Book([(top + 1, 0)])


def test_whole_numbers_of_other_kinds_are_taken() -> None:
    numpy = pytest.importorskip("numpy")
    kinds = [numpy.int8(3), numpy.uint8(3), numpy.uint64(3), numpy.int64(3), numpy.array(3), Whole(3), Market(1) + 2]
    for number in kinds:
        assert whole("price", number) == 3
        assert type(whole("price", number)) is int
    assert Curve(numpy.int64(100), [(numpy.uint32(200), numpy.int16(3))]) == Curve(100, [(200, 3)])
    for wrong in (numpy.bool_(True), numpy.datetime64(3, "s"), numpy.array([3]), numpy.complex128(3), numpy.array(3.0)):
        with pytest.raises(TypeError, match="^price: a whole number is due"):
            whole("price", wrong)
    for wrong in (numpy.float16(3), numpy.float32(3), numpy.float64(3), numpy.longdouble(3)):
        with pytest.raises(TypeError, match=r"^price: .* not the \w+ 3.0: write dollars\(3.0\), or 3 if it is in these units already"):
            whole("price", wrong)
    with pytest.raises(ValueError, match="^price: nan is no whole number"):
        whole("price", numpy.float32("nan"))
    with pytest.raises(OverflowError, match="^price: "):
        whole("price", numpy.uint64(2**64 - 1))


class Whole(int):
    """A number that says other things of itself than it is."""

    def __lt__(self, other: int) -> bool:
        return True

    __le__ = __gt__ = __ge__ = __lt__


def test_a_number_cannot_lie_about_its_size() -> None:
    with pytest.raises(OverflowError):
        whole("price", Whole(2**64))


@pytest.mark.parametrize("values", [None, 5, 5.0, "12", b"12", bytearray(b"12"), memoryview(b"12"), {1: 2}, {1, 2}, frozenset([1]), object()])
def test_what_is_no_list_is_a_type_error(values: Any) -> None:
    with pytest.raises(TypeError, match="^shadow: a list is due, not "):
        column("shadow", values)


def test_lists_of_every_kind_are_taken() -> None:
    numpy = pytest.importorskip("numpy")
    for values in ([1, 2], (1, 2), range(1, 3), iter([1, 2]), numpy.array([1, 2])):
        assert column("shadow", values) == (1, 2)
    with pytest.raises(TypeError, match=r"^shadow\[0\]: .*write dollars\(1.0\)"):
        column("shadow", numpy.array([1.0, 2.0]))
    with pytest.raises(TypeError, match=r"^shadow\[0\]: a whole number is due, not ndarray"):
        column("shadow", numpy.array([[1, 2]]))


@pytest.mark.parametrize(
    ("make", "said"),
    [
        (lambda: default_curve([(0, 1), (10, 1)], None), "charges: Charges is due, not None"),  # type: ignore[arg-type]
        (lambda: default_curve([(0, 1), (10, 1)], (1, 2, 3)), "charges: Charges is due, not tuple"),  # type: ignore[arg-type]
        (lambda: default_curve([(0, 1, 2)], Charges()), r"points\[0\]: 2 numbers are due \(mw heat\), not 3"),
        (lambda: default_curve([5], Charges()), r"points\[0\]: a list is due, not int"),  # type: ignore[list-item]
        (lambda: default_curve(None, Charges()), "points: a list is due, not None"),  # type: ignore[arg-type]
        (lambda: bid(1, 0, [(1,)]), r"steps\[0\]: 2 numbers are due \(end price\), not 1"),
        (lambda: bid(1, 0, ["12"]), r"steps\[0\]: a list is due, not str"),  # type: ignore[list-item]
        (lambda: join(None, PART), "proxy: Curve is due, not None"),  # type: ignore[arg-type]
        (lambda: join(PART, None), "above: Curve is due, not None"),  # type: ignore[arg-type]
        (lambda: join([(10, 1)], PART), "proxy: Curve is due, not list"),  # type: ignore[arg-type]
        (lambda: join(PART, (0, [(10, 1)])), "above: Curve is due, not tuple"),  # type: ignore[arg-type]
        (lambda: join(PART, Step(10, 1)), "above: Curve is due, not Step"),  # type: ignore[arg-type]
        (lambda: join(PART, "curve"), "above: Curve is due, not str"),  # type: ignore[arg-type]
        (lambda: join(0.5, PART), "proxy: Curve is due, not float"),  # type: ignore[arg-type]
        (lambda: Book([3, 40000]), r"day_ahead\[0\]: a list is due, not int"),  # type: ignore[list-item]
        (lambda: Book([(3, 40000, 5)]), r"day_ahead\[0\]: 2 numbers are due \(day price\), not 3"),
        (lambda: BOOK.run(2, 1), "market: Market.DAY_AHEAD or Market.REAL_TIME is due"),  # type: ignore[arg-type]
        (lambda: Opening(1, (1,), None), "resources: a list is due, not None"),  # type: ignore[arg-type]
        (lambda: Opening(1, (1,), (5,)), r"resources\[0\]: Resource is due, not int"),  # type: ignore[arg-type]
        (lambda: Resource(0, None, Curve(0, ())), "bid: Curve is due, not None"),  # type: ignore[arg-type]
    ],
)
def test_what_is_no_record_is_an_error_that_names_it(make: Callable[[], object], said: str) -> None:
    with pytest.raises((TypeError, ValueError), match=f"^{said}"):
        make()
