"""Sixty-day designations: the default verdict on a constraint, by its latest 60 trading days, where an assessment fails."""

from __future__ import annotations

import ctypes
from collections.abc import Iterable, Iterator, Mapping
from dataclasses import dataclass, replace
from typing import TYPE_CHECKING, Any, Union

from ._kept import Kept
from ._library import call
from ._numbers import TOP_U32, TOP_U64, cells, cells_u32, column, items, of_kind, whole
from ._types import Column, Number
from .hour import MAX_CONSTRAINTS
from .records import Finding, Judged, Output, Page
from .refusal import Refusal
from .text import run
from .units import count

# cells of a tally: how many days are held, the last one's number, and sixty masks of each kind
CELLS = 122
HELD = 0
LAST = 1

# what was found in an hour: the output of its text, or what each of its intervals found
Ran = Union[Output, Judged, Page, Iterable[Union[Judged, Page]]]
# the same, or the text of an hour
RanOrText = Union[Ran, str, bytes]
TEXTS = (str, bytes, bytearray, memoryview)


@dataclass(frozen=True)
class Day:
    """A trading day of one constraint: its number, and the hours in which the constraint was bound, and in which it was non-competitive.
    Bit h of either stands for hour h, from 0. All three have 32 bits.

    >>> day = Day(20).mark(3, [Finding.NOT_BINDING, Finding.COMPETITIVE]).mark(4, [Finding.COMPETITIVE, Finding.NON_COMPETITIVE])
    >>> day
    Day(number=20, bound=24, noncompetitive=16)
    >>> day.bound_hours, day.noncompetitive_hours
    ((3, 4), (4,))
    """

    number: int
    bound: int = 0
    noncompetitive: int = 0

    if TYPE_CHECKING:

        def __init__(self, number: Number, bound: Number = 0, noncompetitive: Number = 0) -> None: ...

    def __post_init__(self) -> None:
        for name in ("number", "bound", "noncompetitive"):
            object.__setattr__(self, name, whole(name, getattr(self, name), 0, TOP_U32))

    @classmethod
    def of(cls, number: Number, hours: Mapping[int, Ran], constraint: Number) -> Day:
        """A day from the verdicts of its hours that were run: the output of an hour's text, or what the intervals of an `Hour` found.

        An hour is marked by its accepted intervals; one that doesn't have the constraint marks nothing. Passes are no intervals of the hour.

        >>> from noskjerf import Verdict
        >>> first = Judged((Verdict(0, Finding.NOT_BINDING, 0, 0), Verdict(1, Finding.COMPETITIVE, 100, 200)), ())
        >>> second = Judged((Verdict(0, Finding.NOT_BINDING, 0, 0), Verdict(1, Finding.NON_COMPETITIVE, 300, 200)), ())
        >>> Day.of(20, {0: [first], 1: [first, second], 2: run("month\\n025\\n")}, constraint=1)
        Day(number=20, bound=3, noncompetitive=2)
        """
        return _marked(cls(number), "hours", _by_hour("hours", hours), _constraint(constraint))

    def mark(self, hour: Number, findings: Iterable[Finding]) -> Day:
        """The day with an hour marked by what its intervals found of the constraint: bound if any is competitive or non-competitive,
        non-competitive if any is that. A mark that is there stays. An hour past the 24 is marked past them, so that the day is refused."""
        taken = [_finding(f"findings[{i}]", finding) for i, finding in enumerate(items("findings", findings))]
        marks = cells_u32((self.bound, self.noncompetitive))
        if call("noskjerf_mark", marks, len(marks), whole("hour", hour, 0, TOP_U64), cells(taken), len(taken)) != 0:
            raise AssertionError("the engine wants larger marks")
        return replace(self, bound=marks[0], noncompetitive=marks[1])

    @property
    def bound_hours(self) -> tuple[int, ...]:
        """The hours in which the constraint was bound."""
        return _hours(self.bound)

    @property
    def noncompetitive_hours(self) -> tuple[int, ...]:
        """The hours in which it was non-competitive."""
        return _hours(self.noncompetitive)


class Tally(Kept):
    """The tally of one constraint over the latest 60 trading days.

    It holds the last 60 days that were accepted; gaps between their numbers count for nothing. A refused day raises its Refusal and leaves
    the tally as it was. Threads may share a tally: one call is made after the other. A copy (`tally.copy()`, `copy.copy`,
    `copy.deepcopy`) and what comes of a pickle are tallies of their own; two tallies are equal where all that they keep is.

    In each of twelve days the constraint is bound in one hour; in three of them it is non-competitive there.

    >>> tally = Tally()
    >>> tally.verdict().name
    'NON_COMPETITIVE'
    >>> for number in range(1, 13):
    ...     tally.update(Day(number).mark(17, [Finding.NON_COMPETITIVE if number % 4 == 0 else Finding.COMPETITIVE]))
    >>> tally
    <Tally of 12 days: 12 hours bound, 3 non-competitive>
    >>> tally.verdict().name
    'COMPETITIVE'
    >>> tally.update(Day(12))
    Traceback (most recent call last):
    noskjerf.refusal.Refusal: day 12: the day's number is not above the last accepted one, a mark is past the 24 hours, or a non-competitive hour is not bound (refusal 25)
    >>> tally.update(Day(13).mark(17, [Finding.NON_COMPETITIVE]))
    >>> tally.hours(), tally.verdict().name
    ((13, 4), 'NON_COMPETITIVE')
    """

    _what = "tally"

    @classmethod
    def _blank(cls) -> ctypes.Array[Any]:
        return (ctypes.c_uint32 * CELLS)()

    @classmethod
    def from_cells(cls, cells: Column) -> Tally:
        """The tally that these 122 numbers are; every content is one.

        >>> Tally.from_cells(Tally().cells) == Tally()
        True
        """
        tally = cls()
        tally.__setstate__({"_state": column("cells", cells, 0, TOP_U32)})
        return tally

    def update(self, day: Day) -> None:
        """Adds a day; of more than 60 the oldest goes. Raises Refusal 25."""
        of_kind("day", day, Day)
        with self._lock:
            answer = call("noskjerf_day", *self._lent(), day.number, day.bound, day.noncompetitive)
        if answer < 0:
            raise AssertionError("the engine wants a larger tally")
        if answer:
            raise Refusal(answer, f"day {day.number}")

    def verdict(self) -> Finding:
        """The default verdict: competitive where at least 10 hours are bound and 4 x the competitive ones among them are at least 3 x the
        bound ones, else non-competitive, as on a fresh tally."""
        return self._designated()[0]

    def hours(self) -> tuple[int, int]:
        """How many hours of the days held are bound, and how many non-competitive."""
        return self._designated()[1:]

    @property
    def days(self) -> int:
        """How many days are held, up to 60."""
        return int(self._state[HELD])

    @property
    def last(self) -> int | None:
        """The number of the last day accepted, None where there is none."""
        kept = self.cells
        return kept[LAST] if kept[HELD] else None

    @property
    def cells(self) -> tuple[int, ...]:
        """The 122 numbers that the tally is: days held, the last one's number, the bound hours of 60 days and the non-competitive ones, the
        newest first."""
        return self._cells()

    def __repr__(self) -> str:
        _, bound, noncompetitive = self._designated()
        return f"<{type(self).__name__} of {count(self.days, 'day')}: {count(bound, 'hour')} bound, {noncompetitive:,} non-competitive>"

    def _designated(self) -> tuple[Finding, int, int]:
        """The default verdict, and the hours that it is made of."""
        hours = cells_u32((0, 0))
        with self._lock:
            answer = call("noskjerf_designation", *self._lent(), hours, len(hours))
        if answer < 0:
            raise AssertionError("the engine wants a larger tally")
        return Finding(answer), hours[0], hours[1]


@dataclass(frozen=True)
class Designation:
    """The default verdict on a constraint after a trading day, and how many hours it is made of. `refused` has the hours of that day whose
    texts were refused, with their refusals."""

    day: int
    finding: Finding
    bound: int
    noncompetitive: int
    refused: tuple[tuple[int, Refusal], ...] = ()


def designations(
    days: Mapping[int, Mapping[int, RanOrText]] | Iterable[tuple[Number, Mapping[int, RanOrText]]], constraint: Number
) -> tuple[Designation, ...]:
    """The designations of a constraint over a season, one after each trading day, from a fresh tally.

    `days` has for each day's number what was found in its hours, as in `Day.of`, or the text of an hour, which is run. Days are added in
    their order. A day that isn't taken raises Refusal 25, with its number. A text that is refused doesn't: the intervals before the refusal
    count, and the designation tells of it.

    >>> text = '''month
    ... 25
    ... portfolio seller
    ... 0 1
    ... resource portfolio start
    ... 0 0 10000
    ... resource end price
    ... 0 15000 300000
    ... 0 30000 900000
    ... resource mw heat
    ... 0 10000 10000
    ... 0 20000 9000
    ... 0 30000 9500
    ... resource gas rate allowance om msc soc fee
    ... 0 40000 0 0 20000 1000 3000 50
    ... constraint shadow
    ... 0 500000
    ... resource lmp dispatch available floor
    ... 0 600000 0 30000 0
    ... resource constraint factor
    ... 0 0 -500000
    ... parameter
    ... 100
    ... '''
    >>> competitive = {hour: text for hour in range(12, 18)}
    >>> season = designations({20: competitive, 21: competitive, 22: {12: "month\\n025\\n"}}, constraint=0)
    >>> [(after.day, after.finding.name, after.bound, after.noncompetitive) for after in season]
    [(20, 'NON_COMPETITIVE', 6, 0), (21, 'COMPETITIVE', 12, 0), (22, 'COMPETITIVE', 12, 0)]
    >>> season[2].refused
    ((12, Refusal(17, 'opening', 2)),)
    """
    chosen = _constraint(constraint)
    tally = Tally()
    return tuple(_designation(tally, Day(number), hours, chosen) for number, hours in _pairs(days))


def _pairs(days: object) -> Iterator[tuple[Any, Any]]:
    """The days of a season: number and hours of each."""
    if isinstance(days, Mapping):
        yield from days.items()
        return
    for i, pair in enumerate(items("days", days)):
        taken = tuple(items(f"days[{i}]", pair))
        if len(taken) != 2:
            raise ValueError(f"days[{i}]: a day's number and its hours are due, not {count(len(taken), 'value')}")
        yield taken[0], taken[1]


def _designation(tally: Tally, day: Day, hours: object, constraint: int) -> Designation:
    """Runs the texts of a day and adds it to the tally."""
    what = f"days[{day.number}]"
    ran = {hour: run(found) if isinstance(found, TEXTS) else found for hour, found in _by_hour(what, hours).items()}
    tally.update(_marked(day, what, ran, constraint))
    refused = tuple((hour, found.refusal) for hour, found in ran.items() if isinstance(found, Output) and found.refusal is not None)
    return Designation(day.number, *tally._designated(), refused)


def _by_hour(what: str, hours: object) -> dict[int, Any]:
    """The hours of a day by their numbers."""
    of_kind(what, hours, Mapping)
    return {whole(f"{what}, hour", hour, 0, TOP_U64): found for hour, found in hours.items()}  # type: ignore[attr-defined]


def _marked(day: Day, what: str, hours: dict[int, Any], constraint: int) -> Day:
    """A day with its hours marked by what was found in them."""
    for hour, ran in hours.items():
        verdicts = (verdict for interval in _intervals(f"{what}[{hour}]", ran) for verdict in interval.verdicts)
        day = day.mark(hour, [verdict.finding for verdict in verdicts if verdict.constraint == constraint])
    return day


def _intervals(what: str, ran: object) -> Iterator[Judged | Page]:
    """What the intervals of an hour found."""
    if isinstance(ran, Output):
        yield from ran.pages
    elif isinstance(ran, (Judged, Page)):
        yield ran
    elif isinstance(ran, TEXTS):
        raise TypeError(f"{what}: what was found is due, not a text: run(text) gives it")
    else:
        for i, interval in enumerate(items(what, ran)):
            of_kind(f"{what}[{i}]", interval, Judged, Page)
            yield interval  # type: ignore[misc]


def _constraint(constraint: Number) -> int:
    number = whole("constraint", constraint)
    if not 0 <= number < MAX_CONSTRAINTS:
        raise IndexError(f"constraint: an interval has no constraint {number}, they are numbered 0 to {MAX_CONSTRAINTS - 1}")
    return number


def _finding(what: str, finding: object) -> int:
    number = whole(what, finding)
    if number not in tuple(Finding):
        raise ValueError(f"{what}: a Finding is due, 0, 1 or 2, not {number}")
    return number


def _hours(mask: int) -> tuple[int, ...]:
    """The hours that a mask has, those past the 24 too."""
    return tuple(hour for hour in range(mask.bit_length()) if mask >> hour & 1)
