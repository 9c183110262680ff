"""`noskjerf diagnose`: the values at fault, over the documents' examples, the project's texts and texts with one value made wrong."""

from __future__ import annotations

import json

import pytest
from noskjerf import MAX_TEXT
from noskjerf.diagnosis import diagnose

from .cases import CASES, DATA, NAMED, Case, T, name_of
from .examples import Example, examples, with_value
from .process import noskjerf
from .test_run_command import on_a_terminal

def name_of_example(example: Example) -> str:
    return example.name


EXAMPLES = examples()
# numbers of which a single value is at fault, or a pair of neighbours
VALUES = {2, 3, 5, 6, 7, 8, 10, 11, 15, 16}


@pytest.mark.parametrize("example", EXAMPLES, ids=name_of_example)
def test_an_example_is_refused_as_the_document_says(example: Example) -> None:
    refusal = diagnose(example.text).refusal
    assert refusal is not None
    assert (refusal.number, refusal.line) == (example.number, example.line)


@pytest.mark.parametrize("example", [each for each in EXAMPLES if each.number in VALUES and each.added], ids=name_of_example)
def test_the_line_that_the_document_changed_is_found(example: Example) -> None:
    lines = {fault.line for fault in diagnose(example.text).faults}
    # of an incremental heat rate the later of two points is told
    assert lines & {*example.added, *(line + 1 for line in example.added if example.number == 8)}


@pytest.mark.parametrize("case", CASES, ids=name_of)
def test_every_refused_text_has_its_number_and_a_fault(case: Case) -> None:
    found = diagnose(case.text)
    if case.refusal is None:
        assert (found.refusal, found.faults) == (None, ())
        return
    assert found.refusal is not None
    assert (found.refusal.number, found.refusal.line) == case.refusal
    assert bool(found.faults) == (case.refusal[0] != 12)


# ---- one value of Case T made wrong: its line, the place of the value on it, the wrong value, the number and the word for it
WRONG = [
    (2, 0, "0", 9, "month"),
    (2, 0, "1201", 9, "month"),
    (4, 1, "2", 10, "seller of portfolio 0"),
    (6, 1, "1", 10, "portfolio of resource 0"),
    (6, 2, "-1", 2, "start of the bid of resource 0"),
    (6, 2, "1000001", 2, "start of the bid of resource 0"),
    (6, 2, "9999", 11, "start of the bid of resource 0"),
    (8, 1, "10000", 2, "end of step 1 of the bid of resource 0"),
    (9, 1, "15000", 2, "end of step 2 of the bid of resource 0"),
    (9, 1, "1000001", 2, "end of step 2 of the bid of resource 0"),
    (9, 1, "30001", 11, "end of step 2 of the bid of resource 0"),
    (8, 2, "-1500001", 3, "price of step 1 of the bid of resource 0"),
    (9, 2, "299999", 3, "price of step 2 of the bid of resource 0"),
    (9, 2, "10000001", 3, "price of step 2 of the bid of resource 0"),
    (11, 1, "-1", 5, "mw of cost point 1 of resource 0"),
    (12, 1, "10000", 5, "mw of cost point 2 of resource 0"),
    (13, 1, "1000001", 5, "mw of cost point 3 of resource 0"),
    (11, 2, "0", 6, "heat of cost point 1 of resource 0"),
    (13, 2, "100001", 6, "heat of cost point 3 of resource 0"),
    (15, 1, "1000001", 7, "gas (gas price) of resource 0"),
    (15, 2, "200001", 7, "rate (emission rate) of resource 0"),
    (15, 3, "10000001", 7, "allowance (allowance price) of resource 0"),
    (15, 4, "-1", 7, "om (operation and maintenance) of resource 0"),
    (15, 5, "1000001", 7, "msc (market services charge) of resource 0"),
    (15, 6, "1000001", 7, "soc (system operations charge) of resource 0"),
    (15, 7, "1000001", 7, "fee (bid segment fee) of resource 0"),
    (13, 2, "100000", 8, "incremental heat rate between cost points 2 and 3 of resource 0"),
    (17, 1, "-1", 15, "shadow price of constraint 0"),
    (17, 1, "100000001", 15, "shadow price of constraint 0"),
    (19, 1, "100000001", 15, "lmp of resource 0"),
    (21, 2, "-1000001", 15, "shift factor of resource 0 on constraint 0"),
    (23, 0, "101", 15, "parameter"),
    (19, 2, "30001", 16, "dispatch of resource 0"),
    (19, 2, "-1", 16, "dispatch of resource 0"),
    (19, 3, "1000001", 16, "available of resource 0"),
    (19, 4, "30001", 16, "floor of resource 0"),
]


@pytest.mark.parametrize(("line", "place", "value", "number", "what"), WRONG)
def test_the_one_wrong_value_is_found(line: int, place: int, value: str, number: int, what: str) -> None:
    found = diagnose(with_value(T, line, place, value))
    assert found.refusal is not None
    assert found.refusal.number == number
    fault, = found.faults
    assert (fault.what, fault.line) == (what, line)
    if number != 8:
        assert fault.value == int(value)


def planted(case: Case) -> list[tuple[bytes, int, int]]:
    """The text with each of its values in turn far outside, the line of it and the value."""
    found = []
    for line, stands in enumerate(case.text.decode().splitlines(), 1):
        for place in range(len(stands.split(" ")) if stands[-1].isdigit() else 0):
            for value in (999_999_999_999, -999_999_999_999):
                found.append((with_value(case.text, line, place, str(value)), line, value))
    return found


@pytest.mark.parametrize("case", [case for case in CASES if case.refusal is None and len(case.text) < 1500], ids=name_of)
def test_a_value_far_outside_is_found_wherever_it_stands(case: Case) -> None:
    numbers = set()
    for text, line, value in planted(case):
        found = diagnose(text)
        assert found.refusal is not None
        # an id that isn't due is a matter of form
        if found.refusal.number != 17:
            assert [(fault.line, fault.value) for fault in found.faults] == [(line, value)]
            numbers.add(found.refusal.number)
    assert {2, 3, 5, 6, 7, 9, 10} <= numbers


# a text with two resources: what is wrong with the second alone
TWO = NAMED["C05_ties_lower_portfolio"].text


def wrong_in(text: bytes, table: str, row: int, place: int, value: str) -> tuple[bytes, int]:
    line = text.decode().splitlines().index(table) + 2 + row
    return with_value(text, line, place, value), line


@pytest.mark.parametrize(
    ("table", "place", "value", "number"),
    [("resource gas rate allowance om msc soc fee", 1, "1000001", 7), ("resource portfolio start", 1, "99", 10), ("portfolio seller", 1, "7", 10)],
)
def test_the_second_row_is_found(table: str, place: int, value: str, number: int) -> None:
    text, line = wrong_in(TWO, table, 1, place, value)
    found = diagnose(text)
    assert found.refusal is not None
    assert found.refusal.number == number
    assert [fault.line for fault in found.faults] == [line]
    assert found.resource == (1 if number == 7 else None)


def test_all_faults_of_a_number_are_told() -> None:
    text, first = wrong_in(TWO, "resource lmp dispatch available floor", 0, 1, "100000001")
    text, second = wrong_in(text, "resource lmp dispatch available floor", 1, 1, "-100000001")
    assert [fault.line for fault in diagnose(text).faults] == [first, second]


def test_the_largest_refused_interval_is_found_in_time() -> None:
    start = T.decode().split("constraint shadow")[0].splitlines()
    tables = {"resource portfolio start": "{} 0 10000", "resource gas rate allowance om msc soc fee": "{} 0 0 0 0 0 0 0"}
    lines = [*start[:4], "resource portfolio start", *(tables["resource portfolio start"].format(r) for r in range(64))]
    lines += ["resource end price", *(f"{r} 10001 0" for r in range(64)), "resource mw heat"]
    lines += [f"{r} {mw} 1" for r in range(64) for mw in (10000, 10001)]
    lines += ["resource gas rate allowance om msc soc fee", *(f"{r} 0 0 0 0 0 0 0" for r in range(64))]
    lines += ["constraint shadow", *(f"{c} 1" for c in range(32)), "resource lmp dispatch available floor", *(f"{r} 0 0 0 0" for r in range(64))]
    lines += ["resource constraint factor", *(f"{r} {c} {1000001 + 32 * r + c}" for r in range(64) for c in range(32)), "parameter", "-"]
    text = "".join(f"{line}\n" for line in lines)
    assert len(text) <= MAX_TEXT
    found = diagnose(text)
    assert found.refusal is not None
    assert found.refusal.number == 15
    assert len(found.faults) == 64 * 32


# ---- the command
def test_the_command_tells_number_line_and_value() -> None:
    done = noskjerf("diagnose", stdin=with_value(T, 23, 0, "101"))
    assert done.status == 1
    assert done.out.decode().splitlines() == [
        "refusal 15, interval 1, line 23: a shadow price, locational price, parameter or shift factor is outside its limits",
        "  line 23: parameter, 101 ($0.0101/MWh): outside $0 to $0.01/MWh",
    ]
    assert done.line.startswith("standard input: interval 1, line 23: ")


def test_the_command_on_an_accepted_text() -> None:
    done = noskjerf("diagnose", DATA / "T.txt")
    assert (done.status, done.out, done.lines) == (0, b"accepted\n", [])


@pytest.mark.parametrize("name", ["A07_empty", "A74_65537_bytes", "A77_nul_and_high_bytes", "A23_fifth_interval", "B17_bid_start_below_default"])
def test_the_command_in_json(name: str) -> None:
    done = noskjerf("diagnose", DATA / f"{name}.txt", "--format", "json")
    told = json.loads(done.out)
    assert done.status == 1
    assert (told["refusal"]["number"], told["refusal"]["line"]) == NAMED[name].refusal


def test_the_command_shows_a_line_that_is_not_of_the_form() -> None:
    done = noskjerf("diagnose", stdin=T.replace(b"\n", b"\r\n"))
    assert done.status == 1
    assert done.out.decode().splitlines() == [
        "refusal 17, opening, line 1, column 6: a carriage return at the end of the line",
        "  month\\r",
        "       ^",
        '  due: the names line "month"',
        "  mend: 23 of 23 lines have one, as in a file from Windows: write newlines alone",
    ]
    assert done.line == "standard input: opening, line 1, column 6: a carriage return at the end of the line (refusal 17)"


def test_the_command_has_the_form_in_json() -> None:
    told = json.loads(noskjerf("diagnose", "--format", "json", stdin=T.replace(b"0 500000\n", b"0 \xff5\n")).out)
    assert told["form"] == {
        "column": 3,
        "stands": "0 \\xff5",
        "due": ["0 <shadow>", 'the names line "resource lmp dispatch available floor"'],
        "kind": "outside ASCII",
        "cause": "a byte outside ASCII, \\xff",
        "mend": "a number has ASCII digits alone",
    }
    fault, = told["faults"]
    assert (fault["line"], fault["column"], fault["what"]) == (17, 3, "a byte outside ASCII, \\xff")
    assert json.loads(noskjerf("diagnose", DATA / "T.txt", "--format", "json").out)["form"] is None


def test_a_terminal_has_it_once() -> None:
    shown, _ = on_a_terminal(["diagnose", str(DATA / "A32_leading_zero.txt")], both=True)
    assert shown.count(b"a leading zero") == 1
