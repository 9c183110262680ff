"""Sixty-day designations: the worked cases of request 2.10, and days from hours that were run."""

from __future__ import annotations

import copy
import pickle
import threading
from collections.abc import Callable, Mapping
from dataclasses import replace
from typing import Any

import pytest
from noskjerf import Day, Designation, Finding, Hour, Judged, Output, Refusal, Tally, Verdict, designations, run
from noskjerf.designation import CELLS

from .cases import ROOT, T
from .test_parts import INTERVAL_OF_T, OPENING_OF_T

ALL_HOURS = (1 << 24) - 1
LAST_DAY = 2**32 - 1
COMPETITIVE, NON_COMPETITIVE, NOT_BINDING = Finding.COMPETITIVE, Finding.NON_COMPETITIVE, Finding.NOT_BINDING

# Case T's constraint is non-competitive; without dispatch there is no demand, so that it is competitive; without a shadow price it doesn't bind
IDLE = T.replace(b"0 600000 20000 30000 0", b"0 600000 0 30000 0")
OFF = T.replace(b"constraint shadow\n0 500000", b"constraint shadow\n0 0")


def after(*marks: tuple[int, int]) -> Tally:
    """A tally after days with these marks, numbered from 1 on, all of them taken."""
    tally = Tally()
    for number, (bound, noncompetitive) in enumerate(marks, start=1):
        tally.update(Day(number, bound, noncompetitive))
    return tally


def first_hours(count: int) -> int:
    return (1 << count) - 1


def test_the_texts_have_the_verdicts_that_they_stand_for() -> None:
    assert [run(text).accepted()[0].verdicts[0].finding for text in (IDLE, T, OFF)] == list(Finding)


# ---- the tally
def test_a_fresh_tally_is_non_competitive() -> None:
    tally = Tally()
    assert (tally.verdict(), tally.hours(), tally.days, tally.last) == (NON_COMPETITIVE, (0, 0), 0, None)
    assert tally.cells == (0,) * CELLS


@pytest.mark.parametrize(("days", "verdict"), [(9, NON_COMPETITIVE), (10, COMPETITIVE)])
def test_ten_bound_hours_are_enough(days: int, verdict: Finding) -> None:
    tally = after(*[(1, 0)] * days)
    assert (tally.hours(), tally.verdict()) == ((days, 0), verdict)


@pytest.mark.parametrize(("bound", "most"), [(10, 2), (11, 2), (12, 3), (13, 3), (16, 4), (24, 6)])
def test_three_quarters_of_the_bound_hours_are_competitive(bound: int, most: int) -> None:
    """4 x (bound - most) is 3 x bound or just above it: 32 and 30, 36 and 33, 36 and 36, 40 and 39, 48 and 48, 72 and 72."""
    assert after((first_hours(bound), first_hours(most))).verdict() == COMPETITIVE
    assert after((first_hours(bound), first_hours(most + 1))).verdict() == NON_COMPETITIVE


def test_the_latest_sixty_days_are_held() -> None:
    tally = after(*[(1, 0)] * 61)
    assert (tally.days, tally.last, tally.hours()) == (60, 61, (60, 0))
    for number in range(62, 121):
        tally.update(Day(number))
    assert tally.hours() == (1, 0)
    tally.update(Day(121))
    assert (tally.days, tally.hours(), tally.verdict()) == (60, (0, 0), NON_COMPETITIVE)


def test_the_oldest_day_goes() -> None:
    days = [(ALL_HOURS, ALL_HOURS), *[(0, 0)] * 59]
    assert after(*days).hours() == (24, 24)
    assert after(*days, (3, 1)).hours() == (2, 1)


def test_gaps_between_days_count_for_nothing() -> None:
    tally = Tally()
    for number in range(0, 60_000_000, 1_000_000):
        tally.update(Day(number, 1))
    assert tally.hours() == (60, 0)


REFUSED = [
    Day(5, 1),
    Day(4, 1),
    Day(0),
    Day(6, 1 << 24),
    Day(6, 1 << 31),
    Day(6, ALL_HOURS, 1 << 24),
    Day(6, 1 << 24, 1 << 24),
    Day(6, 1, 2),
    Day(6, 0, 1),
    Day(LAST_DAY, ALL_HOURS - 1, ALL_HOURS),
]


@pytest.mark.parametrize("day", REFUSED, ids=str)
def test_a_refused_day_leaves_the_tally_as_it_was(day: Day) -> None:
    tally = Tally()
    tally.update(Day(5, 3, 1))
    before = tally.cells
    with pytest.raises(Refusal) as raised:
        tally.update(day)
    assert raised.value == Refusal(25, f"day {day.number}")
    assert tally.cells == before
    tally.update(Day(6, 1 << 23, 1 << 23))
    assert (tally.last, tally.hours()) == (6, (3, 2))


def test_the_first_day_has_any_number() -> None:
    for number in (0, 1, LAST_DAY):
        tally = Tally()
        tally.update(Day(number, 1))
        assert (tally.days, tally.last) == (1, number)
        with pytest.raises(Refusal):
            tally.update(Day(number, 1))


def test_a_refused_day_says_why() -> None:
    with pytest.raises(Refusal) as raised:
        Tally().update(Day(20, 1, 2))
    reason = "the day's number is not above the last accepted one, a mark is past the 24 hours, or a non-competitive hour is not bound"
    assert str(raised.value) == f"day 20: {reason} (refusal 25)"


# ---- days
@pytest.mark.parametrize(
    ("findings", "bound", "noncompetitive"),
    [
        ((), 0, 0),
        ((2, 2), 0, 0),
        ((2, 0), 8, 0),
        ((0, 2, 2, 2), 8, 0),
        ((0, 1), 8, 8),
        ((1, 0, 0, 0), 8, 8),
        ((2, 2, 2, 1), 8, 8),
        ((1,), 8, 8),
    ],
)
def test_an_hour_is_marked_by_its_intervals(findings: Any, bound: int, noncompetitive: int) -> None:
    assert Day(7).mark(3, findings) == Day(7, bound, noncompetitive)
    assert Day(7).mark(3, iter([Finding(finding) for finding in findings])) == Day(7, bound, noncompetitive)


def test_a_mark_stays() -> None:
    day = Day(7).mark(3, [NON_COMPETITIVE]).mark(0, [COMPETITIVE])
    assert day == Day(7, 9, 8) and (day.bound_hours, day.noncompetitive_hours) == ((0, 3), (3,))
    assert day.mark(3, [COMPETITIVE]).mark(0, []).mark(3, [NOT_BINDING]) == day
    assert day.mark(0, [NON_COMPETITIVE]) == Day(7, 9, 9)


@pytest.mark.parametrize("hour", [24, 31, 32, 2**32 + 3, 2**64 - 1])
def test_an_hour_past_the_24_makes_the_day_refused(hour: int) -> None:
    for finding in (COMPETITIVE, NON_COMPETITIVE):
        day = Day(7).mark(hour, [finding])
        assert day.bound_hours == (24,)
        with pytest.raises(Refusal) as raised:
            Tally().update(day)
        assert raised.value == Refusal(25, "day 7")
    assert Day(7).mark(hour, [NOT_BINDING]) == Day(7)


def test_days_are_values() -> None:
    day = Day(7, 3, 1)
    assert len({day, Day(7, 3, 1), Day(7, 3), Day(8, 3, 1)}) == 3
    for other in (copy.copy(day), copy.deepcopy(day), pickle.loads(pickle.dumps(day))):
        assert other == day


def found(*findings: int) -> Judged:
    """An interval with a verdict on each constraint."""
    return Judged(tuple(Verdict(c, Finding(finding), 0, 0) for c, finding in enumerate(findings)), ())


def test_a_day_is_made_of_the_hours_that_were_run() -> None:
    hours: dict[int, Any] = {
        0: run(T),
        3: run(IDLE),
        4: run(OFF),
        5: (found(2, 0), found(2, 1)),
        6: found(1, 2),
        7: [],
        8: run(T).pages,
        23: iter([found(0), found(2, 2)]),
    }
    assert Day.of(7, hours, 0) == Day(7, 1 | 1 << 3 | 1 << 6 | 1 << 8 | 1 << 23, 1 | 1 << 6 | 1 << 8)
    hours[23] = []
    assert Day.of(7, hours, 1) == Day(7, 1 << 5, 1 << 5)
    assert Day.of(7, hours, 31) == Day.of(7, {}, 0) == Day(7)


def test_a_day_is_made_of_hours_in_numbers() -> None:
    """Case T's interval and one without dispatch; a pass that finds more is no interval."""
    idle = replace(INTERVAL_OF_T, dispatch=(0,))
    hour = Hour.open(OPENING_OF_T)
    judged = [hour.interval(idle)]
    assert hour.pass_(INTERVAL_OF_T).verdicts[0].finding == NON_COMPETITIVE
    assert Day.of(7, {17: judged}, 0) == Day(7, 1 << 17)
    judged.append(hour.interval(INTERVAL_OF_T))
    assert Day.of(7, {17: judged}, 0) == Day(7, 1 << 17, 1 << 17)


def test_the_pages_before_a_refusal_hold() -> None:
    output = run(IDLE + b"constraint shadow\n")
    assert (len(output.pages), output.refusal) == (1, Refusal(17, "interval 2", 25))
    assert Day.of(7, {0: output}, 0) == Day(7, 1)


# ---- a season
def test_a_season_of_texts() -> None:
    """Twelve bound hours by the second day, three of them non-competitive; then a fourth."""
    season = {20: dict.fromkeys(range(9), IDLE), 21: dict.fromkeys(range(3), T), 25: {23: T, 0: OFF}}
    due = [(20, NON_COMPETITIVE, 9, 0), (21, COMPETITIVE, 12, 3), (25, NON_COMPETITIVE, 13, 4)]
    assert designations(season, 0) == tuple(Designation(*each) for each in due)
    assert designations(list(season.items()), 0) == designations(iter(season.items()), 0) == designations(season, 0)
    assert [(each.bound, each.finding) for each in designations(season, 1)] == [(0, NON_COMPETITIVE)] * 3
    assert designations({}, 0) == designations([], 0) == ()


def test_texts_of_every_kind_and_what_was_found() -> None:
    hours: dict[int, Any] = {0: IDLE.decode(), 1: IDLE, 2: bytearray(IDLE), 3: memoryview(IDLE), 4: run(IDLE), 5: found(0), 6: [found(0), found(1)]}
    assert designations({1: hours}, 0) == (Designation(1, NON_COMPETITIVE, 7, 1),)


def test_a_refused_text_is_told() -> None:
    """The intervals before its refusal count."""
    refused = IDLE + b"constraint shadow\n"
    season: dict[int, dict[int, Any]] = {1: {3: refused, 4: "month\n025\n", 5: run("")}, 2: {3: IDLE}}
    first, second = designations(season, 0)
    assert (first.bound, first.noncompetitive, second.bound, second.refused) == (1, 0, 2, ())
    assert first.refused == ((3, Refusal(17, "interval 2", 25)), (4, Refusal(17, "opening", 2)), (5, Refusal(17, "opening", 1)))


def test_a_season_is_the_tally_day_by_day() -> None:
    marks = [(number * 2654435761 % (1 << 24), 3) for number in range(1, 131)]
    hours = [{hour: found(1 if n >> hour & b >> hour & 1 else 0 if b >> hour & 1 else 2) for hour in range(24)} for b, n in marks]
    tally = Tally()
    for after_day, (number, (bound, noncompetitive)) in zip(designations(enumerate(hours), 0), enumerate(marks)):
        tally.update(Day(number, bound, bound & noncompetitive))
        assert after_day == Designation(number, tally.verdict(), *tally.hours())
        days = marks[max(0, number - 59) : number + 1]
        assert tally.hours() == (sum(f"{b:b}".count("1") for b, _ in days), sum(f"{b & n:b}".count("1") for b, n in days))


@pytest.mark.parametrize(
    ("season", "number"),
    [({5: {}, 4: {}}, 4), ([(5, {}), (5, {0: T})], 5), ({5: {0: T}, 6: {24: T}}, 6), ({7: {2**40: IDLE}}, 7)],
    ids=str,
)
def test_a_day_of_a_season_that_is_not_taken(season: Any, number: int) -> None:
    with pytest.raises(Refusal) as raised:
        designations(season, 0)
    assert raised.value == Refusal(25, f"day {number}")


# ---- what is wrong
# what is handed over here has other types than are due
day_of: Any = Day.of
season_of: Any = designations
mark: Any = Day(7).mark
update: Any = Tally().update
from_cells: Any = Tally.from_cells
WRONG: list[tuple[Callable[[], object], type[Exception], str]] = [
    (lambda: day_of(7, [run(T)], 0), TypeError, "hours: Mapping is due, not list"),
    (lambda: day_of(7, None, 0), TypeError, "hours: Mapping is due, not None"),
    (lambda: day_of(7, {3: T}, 0), TypeError, r"hours\[3\]: what was found is due, not a text: run\(text\) gives it"),
    (lambda: day_of(7, {3: 5}, 0), TypeError, r"hours\[3\]: a list is due, not int"),
    (lambda: day_of(7, {3: Hour.open(OPENING_OF_T)}, 0), TypeError, r"hours\[3\]: a list is due, not Hour"),
    (lambda: day_of(7, {3: [found(1), 1]}, 0), TypeError, r"hours\[3\]\[1\]: Judged or Page is due, not int"),
    (lambda: day_of(7, {-1: found(1)}, 0), OverflowError, "hours, hour: a number from 0 to "),
    (lambda: day_of(7, {"3": found(1)}, 0), TypeError, "hours, hour: a whole number is due, not the str '3'"),
    (lambda: day_of(7, {}, 32), IndexError, "constraint: an interval has no constraint 32, they are numbered 0 to 31"),
    (lambda: day_of(7, {}, -1), IndexError, "constraint: an interval has no constraint -1"),
    (lambda: season_of({}, 32), IndexError, "constraint: an interval has no constraint 32"),
    (lambda: season_of({7: [T]}, 0), TypeError, r"days\[7\]: Mapping is due, not list"),
    (lambda: season_of({7: {3: 5}}, 0), TypeError, r"days\[7\]\[3\]: a list is due, not int"),
    (lambda: season_of({7: {0.5: T}}, 0), TypeError, r"days\[7\], hour: a whole number is due, not the float 0.5"),
    (lambda: season_of({0.5: {}}, 0), TypeError, "number: a whole number is due, not the float 0.5"),
    (lambda: season_of({-1: {}}, 0), OverflowError, "number: a number from 0 to 4294967295 is due"),
    (lambda: season_of([7], 0), TypeError, r"days\[0\]: a list is due, not int"),
    (lambda: season_of([(7, {}, 1)], 0), ValueError, r"days\[0\]: a day's number and its hours are due, not 3 values"),
    (lambda: season_of(None, 0), TypeError, "days: a list is due, not None"),
    (lambda: season_of("7", 0), TypeError, "days: a list is due, not str"),
    (lambda: mark(3, [3]), ValueError, r"findings\[0\]: a Finding is due, 0, 1 or 2, not 3"),
    (lambda: mark(3, [-1]), ValueError, r"findings\[0\]: a Finding is due, 0, 1 or 2, not -1"),
    (lambda: mark(3, [COMPETITIVE, True]), TypeError, r"findings\[1\]: a whole number is due, not True"),
    (lambda: mark(3, COMPETITIVE), TypeError, "findings: a list is due, not Finding"),
    (lambda: mark(3, "01"), TypeError, "findings: a list is due, not str"),
    (lambda: update(7), TypeError, "day: Day is due, not int"),
    (lambda: update(None), TypeError, "day: Day is due, not None"),
    (lambda: update((7, 1, 0)), TypeError, "day: Day is due, not tuple"),
    (lambda: from_cells([0] * 121), ValueError, "the tally has 121 cells, and this version of noskjerf keeps 122"),
    (lambda: from_cells([0] * 123), ValueError, "the tally has 123 cells, and this version of noskjerf keeps 122"),
    (lambda: from_cells([0] * 121 + [2**32]), OverflowError, r"cells\[121\]: a number from 0 to 4294967295 is due"),
    (lambda: from_cells([-1] + [0] * 121), OverflowError, r"cells\[0\]: a number from 0 to 4294967295 is due"),
    (lambda: from_cells(None), TypeError, "cells: a list is due, not None"),
    (lambda: from_cells(bytes(122)), TypeError, "cells: a list is due, not bytes"),
]


@pytest.mark.parametrize(("make", "error", "said"), WRONG, ids=[said for _, _, said in WRONG])
def test_what_is_wrong_is_an_error_that_names_it(make: Callable[[], object], error: type[Exception], said: str) -> None:
    with pytest.raises(error, match=f"^{said}"):
        make()


def test_whole_numbers_of_other_kinds_are_taken() -> None:
    numpy = pytest.importorskip("numpy")
    day = Day(numpy.uint32(7), numpy.int64(3), numpy.uint8(1))
    assert day == Day(7, 3, 1) and type(day.bound) is int
    assert Day(7).mark(numpy.int8(3), numpy.array([2, 1])) == Day(7, 8, 8)
    hours: Mapping[Any, Output] = {numpy.int64(3): run(T)}
    (designation,) = designations({numpy.uint16(7): hours}, numpy.int64(0))
    assert designation == Designation(7, NON_COMPETITIVE, 1, 1) and type(designation.day) is int
    assert Tally.from_cells(numpy.zeros(CELLS, dtype="uint32")) == Tally()


# ---- what is kept
def pickled(protocol: int) -> Callable[[Tally], Tally]:
    def copied(tally: Tally) -> Tally:
        other: Tally = pickle.loads(pickle.dumps(tally, protocol))
        return other

    return copied


def by_cells(tally: Tally) -> Tally:
    return Tally.from_cells(tally.cells)


PICKLED = [pickled(protocol) for protocol in range(pickle.HIGHEST_PROTOCOL + 1)]
COPIES: list[Callable[[Tally], Tally]] = [Tally.copy, copy.copy, copy.deepcopy, by_cells, *PICKLED]


@pytest.mark.parametrize("copied", COPIES, ids=["copy", "copy.copy", "copy.deepcopy", "cells", *(f"pickle {i}" for i in range(len(PICKLED)))])
def test_a_copy_is_a_tally_of_its_own(copied: Callable[[Tally], Tally]) -> None:
    tally = after((3, 1), (7, 0))
    other = copied(tally)
    assert type(other) is Tally and other == tally
    other.update(Day(3, 1))
    assert (tally.hours(), other.hours(), tally.last, other.last) == ((5, 1), (6, 1), 2, 3)
    assert tally != other
    tally.update(Day(3, 1))
    assert tally == other
    with tally._lock:
        asked = threading.Thread(target=other.verdict, daemon=True)
        asked.start()
        asked.join(timeout=10)
        assert not asked.is_alive()


class Named(Tally):
    """A tally with a note of its own."""

    note: list[Any]


def test_copies_of_a_class_made_of_tallies() -> None:
    tally = Named()
    tally.note = ["mine", tally]
    again = copy.deepcopy(tally)
    assert type(again) is Named and again.note[1] is again and again == tally == Tally()
    assert type(tally.copy()) is Named
    assert repr(again) == "<Named of 0 days: 0 hours bound, 0 non-competitive>"


def test_tallies_are_equal_where_they_stand_alike() -> None:
    assert Tally() == Tally() and after((1, 0)) == after((1, 0)) != after((1, 1))
    assert Tally() != "tally" and Tally() != None and Tally() != Hour.open(OPENING_OF_T)  # noqa: E711
    with pytest.raises(TypeError, match="unhashable"):
        hash(Tally())


def test_a_tally_says_where_it_stands() -> None:
    assert repr(after((1, 0))) == str(after((1, 0))) == "<Tally of 1 day: 1 hour bound, 0 non-competitive>"
    assert repr(after(*[(ALL_HOURS, 1)] * 60)) == "<Tally of 60 days: 1,440 hours bound, 60 non-competitive>"


def test_every_content_is_a_tally() -> None:
    full = Tally.from_cells([LAST_DAY] * CELLS)
    assert (full.hours(), full.verdict(), full.days, full.last) == ((1920, 1920), NON_COMPETITIVE, LAST_DAY, LAST_DAY)
    with pytest.raises(Refusal):
        full.update(Day(LAST_DAY))
    assert full.cells == (LAST_DAY,) * CELLS
    cells = [0] * CELLS
    cells[61], cells[62] = 0xFFF00000, 0x7
    assert (Tally.from_cells(cells).hours(), Tally.from_cells(cells).verdict()) == ((12, 3), COMPETITIVE)
    cells[62] = LAST_DAY
    assert (Tally.from_cells(cells).hours(), Tally.from_cells(cells).verdict()) == ((12, 32), NON_COMPETITIVE)


def test_the_cells_are_those_of_the_header() -> None:
    assert f"#define NOSKJERF_TALLY {CELLS}\n" in (ROOT / "c" / "noskjerf.h").read_text()
    kept = after((0x805, 4), (3, 0)).cells
    assert (kept[:5], kept[62:65]) == ((2, 2, 3, 0x805, 0), (0, 4, 0))


def test_threads_share_a_tally() -> None:
    """Of 8 threads with the days 1 to 50 each, every day is taken once."""
    tally = Tally()
    start, taken = threading.Barrier(8), []

    def add() -> None:
        start.wait()
        for number in range(1, 51):
            try:
                tally.update(Day(number, 1))
                taken.append(number)
            except Refusal as refusal:
                assert refusal.number == 25

    threads = [threading.Thread(target=add) for _ in range(8)]
    for thread in threads:
        thread.start()
    for thread in threads:
        thread.join()
    assert len(taken) == len(set(taken)) == tally.days == tally.hours()[0]
    assert tally.last == 50
