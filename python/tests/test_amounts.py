"""MW and dollars in, exactly; and which fields have which unit, as docs/FORMAT.md says."""

from __future__ import annotations

import re
from decimal import Decimal
from fractions import Fraction
from typing import Any

import pytest
from noskjerf import Charges, Curve, Factor, Interval, Step, dollars, mw
from noskjerf.amounts import DOLLARS, FINE_MW, MILLIONTHS, MW, UNIT_OF, Unit, exact, written

from .cases import ROOT

FORMAT = (ROOT / "docs" / "FORMAT.md").read_text()


def cents(number: int) -> str:
    return f"{number // 100}.{number % 100:02d}"


def test_every_cent_from_0_to_999_99() -> None:
    """In floating point 64.29 * 10000 isn't whole, and so one price in ten isn't."""
    assert 64.29 * 10000 != 642900
    for number in range(100_000):
        text = cents(number)
        assert dollars(text) == dollars(Decimal(text)) == dollars(float(text)) == 100 * number
        assert dollars(f"-{text}") == dollars(-float(text)) == -100 * number


def test_every_cent_as_numpy_has_it() -> None:
    numpy = pytest.importorskip("numpy")
    column = numpy.arange(100_000) / 100
    assert [dollars(price) for price in column] == list(range(0, 10_000_000, 100))
    assert [dollars(price) for price in column[::7].astype("float32")] == list(range(0, 10_000_000, 700))
    assert mw(numpy.int64(300)) == mw(numpy.uint8(3)) * 100 == 30000


def test_quantities_over_the_engines_range() -> None:
    for number in range(0, 1_000_001, 7):
        text = cents(number)
        assert mw(text) == mw(float(text)) == number


def test_ten_thousandths_of_a_dollar() -> None:
    for number in [*range(20_000), *range(-100_000_000, 100_000_001, 9_973)]:
        text = written(number, DOLLARS)
        assert Decimal(text) * 10_000 == number
        assert dollars(text) == dollars(float(text)) == number


@pytest.mark.parametrize("unit", [MW, DOLLARS, MILLIONTHS, FINE_MW], ids=["MW", "dollars", "millionths", "fine MW"])
def test_what_is_written_is_read_again(unit: Unit) -> None:
    ends = (-(2**63), 2**63 - 1, -(10**12) + 1, 10**12 - 1, 0, 1, -1, 10**unit.places, 10**unit.places - 1)
    for number in [*ends, *range(-10_007, 10_007, 13)]:
        text = written(number, unit)
        assert re.fullmatch(r"-?[0-9]+\.[0-9]+", text)
        assert exact("", text, unit) == number
        assert Decimal(text) == Decimal(number).scaleb(-unit.places)


@pytest.mark.parametrize(
    ("amount", "number"),
    [(300, 30000), ("300", 30000), ("300.25", 30025), (" 300.250 ", 30025), ("+.5", 50), ("5.", 500), ("-0.00", 0), ("3e2", 30000), ("1E-02", 1)]
    + [(Decimal("1.10"), 110), (Decimal("1E+2"), 10000), (0.1 + 0.7, None), (0.1, 10), (1e-2, 1), (-0.0, 0), (5e-324, None), ("92233720368547758.07", 2**63 - 1)],
)
def test_mw_of_every_form(amount: Any, number: int | None) -> None:
    if number is not None:
        assert mw(amount) == number
        assert type(mw(amount)) is int
        return
    with pytest.raises(ValueError, match="^mw: .* is no whole number of hundredths of a MW$"):
        mw(amount)


@pytest.mark.parametrize(
    ("amount", "error"),
    [("64.29001", ValueError), (Decimal("0.00001"), ValueError), ("", ValueError), ("$64.29", ValueError), ("64,29", ValueError), ("1,000.00", ValueError)]
    + [("64.29 dollars", ValueError), ("nan", ValueError), ("inf", ValueError), ("1_000", ValueError), ("\u0664", ValueError), ("0x10", ValueError)]
    + [(float("nan"), ValueError), (float("-inf"), ValueError), (Decimal("NaN"), ValueError), (Decimal("sNaN"), ValueError)]
    + [(Decimal("Infinity"), ValueError), (None, TypeError), (True, TypeError), (b"64.29", TypeError), ([64], TypeError), (Fraction(1, 2), TypeError)]
    + [(1j, TypeError), (10**30, OverflowError), ("1e999", OverflowError), (1e300, OverflowError), ("1." + "0" * 100, OverflowError)]
    + [(Decimal("1e999999"), OverflowError), ("922337203685477.5808", OverflowError)],
)
def test_what_is_no_exact_price_is_an_error(amount: Any, error: type[Exception]) -> None:
    with pytest.raises(error, match="^dollars: ") as raised:
        dollars(amount)
    assert len(str(raised.value)) < 120


def test_a_float_of_another_class_is_taken_by_its_value() -> None:
    class Odd(float):
        def __repr__(self) -> str:
            return "1"

        __str__ = __repr__

    assert dollars(Odd(64.29)) == 642900


# ---- units
def table(first: str) -> list[list[str]]:
    """The rows of a table of docs/FORMAT.md whose names line begins so."""
    found = re.search(rf"^\| {first} \|.*\n\|[-|]*\n((?:\|.*\n)*)", FORMAT, re.MULTILINE)
    assert found is not None
    return [[cell.strip() for cell in line.strip("|").split("|")] for line in found.group(1).splitlines()]


UNITS = {"hundredth of a MW": MW, "0.0001 dollar": DOLLARS, "millionth": MILLIONTHS, "Btu/kWh": None}


def unit_said(words: str) -> Unit | None:
    found = [unit for said, unit in UNITS.items() if words.startswith(said)]
    assert len(found) == 1, words
    return found[0]


def test_fields_have_the_units_that_the_format_says() -> None:
    said = {name: unit for name, _, unit, _ in table("name")}
    for names, unit, _ in table("what"):
        words = re.search(r"\((.*)\)", names)
        for name in words.group(1).split(", ") if words else [{"shift factor": "factor"}.get(names, names)]:
            said[name.replace("bid price", "price")] = unit
    columns = {name for line in re.findall(r"^```lines\n(.*)$", FORMAT, re.MULTILINE) for name in line.split()}
    assert set(said) == columns - {"month", "portfolio", "seller", "resource", "constraint"}
    for name in columns:
        assert UNIT_OF.get(name) == (unit_said(said[name]) if name in said else None), name


@pytest.mark.parametrize(
    ("make", "told"),
    [
        (lambda: Curve(100.0, [(150.0, 30.0)]), "start: a whole number of hundredths of a MW is due, not the float 100.0: write mw(100.0), or 100 if "),  # type: ignore[arg-type, list-item]
        (lambda: Curve(100, [(150.5, 30)]), "steps[0].end: a whole number of hundredths of a MW is due, not the float 150.5: write mw(150.5)"),  # type: ignore[list-item]
        (lambda: Step(1, Decimal("64.29")), "price: a whole number of units of 0.0001 dollar is due, not the Decimal 64.29: write dollars(64.29)"),  # type: ignore[arg-type]
        (lambda: Step(1, "64.29"), "price: a whole number of units of 0.0001 dollar is due, not the str '64.29': write dollars('64.29')"),  # type: ignore[arg-type]
        (lambda: Step(1, 0.00001), "price: a whole number of units of 0.0001 dollar is due, not the float 1e-05"),  # type: ignore[arg-type]
        (lambda: Charges(gas=4.5), "gas: a whole number of units of 0.0001 dollar is due, not the float 4.5: write dollars(4.5)"),  # type: ignore[arg-type]
        (lambda: Charges(rate=0.053073), "rate: a whole number of millionths is due, not the float 0.053073: write 53073"),  # type: ignore[arg-type]
        (lambda: Factor(0, 0, -0.5), "factor: a whole number of millionths is due, not the float -0.5: write -500000"),  # type: ignore[arg-type]
        (lambda: Factor(0.0, 0, 1), "resource: a whole number is due, not the float 0.0: write 0"),  # type: ignore[arg-type]
        (lambda: Interval([50.0], [1], [1], [1], [1]), "shadow[0]: a whole number of units of 0.0001 dollar is due, not the float 50.0: write dollars(50.0)"),  # type: ignore[list-item]
        (lambda: Interval([], [1], [1], [1], [0.25]), "floor[0]: a whole number of hundredths of a MW is due, not the float 0.25: write mw(0.25)"),  # type: ignore[list-item]
    ],
)
def test_a_decimal_number_in_a_record_says_what_to_write(make: Any, told: str) -> None:
    with pytest.raises(TypeError) as raised:
        make()
    assert str(raised.value).startswith(told)
    if "if it is" not in str(raised.value):
        assert str(raised.value) == told


def test_what_is_written_instead_is_what_was_meant() -> None:
    curve = Curve(mw(100.0), [(mw(150.0), dollars(30.0)), (mw("300.25"), dollars("64.29"))])
    assert curve == Curve(10000, [(15000, 300000), (30025, 642900)])
