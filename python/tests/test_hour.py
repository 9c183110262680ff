"""Hours in numbers: over the project's texts, and calls that texts don't have."""

from __future__ import annotations

import copy
import pickle
import threading
from collections.abc import Callable
from concurrent.futures import ThreadPoolExecutor
from dataclasses import replace
from typing import Any

import pytest
from noskjerf import Curve, Hour, Interval, Judged, Opening, Parts, Refusal, Resource, Step, read
from noskjerf._library import LibraryError, has_hours

from .cases import CASES, Case, name_of
from .test_parts import INTERVAL_OF_T, OPENING_OF_T

hours = pytest.mark.skipif(not has_hours(), reason="the library has no hours in numbers: their archives weren't there when it was built")


def parts_of(case: Case) -> Parts | None:
    """The parts of a text, or none where not even its opening is of the form."""
    try:
        return read(case.text)
    except Refusal:
        return None


READ = [(case, parts) for case in CASES for parts in [parts_of(case)] if parts is not None]


def curve_lines(hour: Hour, interval: int) -> list[str]:
    curves = [hour.curve(r) for r in range(hour.resources)]
    return [f"{interval} {r} {step.end} {step.price}" for r, curve in enumerate(curves) for step in curve.steps]


def hour_printed(parts: Parts) -> tuple[list[str], int]:
    """What an hour in numbers finds of the parts, as lines of the text without names, and the number of its refusal."""
    lines: list[str] = []
    try:
        hour = Hour.open(parts.opening)
        for i, interval in enumerate(parts.intervals, start=1):
            judged = hour.interval(interval)
            lines += [f"{i} {v.constraint} {int(v.finding)} {v.demand} {v.left}" for v in judged.verdicts]
            lines += [f"{i} {s.constraint} {s.portfolio} {s.withheld}" for s in judged.sellers]
            lines += curve_lines(hour, i)
            assert (hour.accepted, hour.passes) == (i, 0)
    except Refusal as refusal:
        return lines, refusal.number
    return lines, 0


@hours
@pytest.mark.parametrize(("case", "parts"), READ, ids=[name_of(case) for case, _ in READ])
def test_an_hour_finds_what_the_text_prints(case: Case, parts: Parts) -> None:
    """The same lines in the same order, sellers by weight (2.3), and the same refusal where it isn't one of form."""
    lines, number = hour_printed(parts)
    printed = case.printed.decode().split("refusal line\n")[0].splitlines()
    assert lines == [line for line in printed if line[0].isdigit()]
    refused = case.refusal[0] if case.refusal else 0
    assert number == (0 if refused == 17 else refused)


@hours
def test_the_bid_starts_where_it_was_submitted_and_the_default_is_that_of_t() -> None:
    hour = Hour.open(OPENING_OF_T)
    assert hour.curve(0) == OPENING_OF_T.resources[0].bid
    assert hour.default(0) == Curve(10000, [(20000, 378402), (24000, 444403), (30000, 488402)])
    hour.interval(INTERVAL_OF_T)
    assert hour.curve(0) == Curve(10000, [(15000, 300000), (20000, 378402), (24000, 444403), (30000, 488402)])


@hours
def test_why_t_is_capped() -> None:
    """Paper 01, Case T: component 500,000 x 500,000, competitive price 350,000, and with the parameter a floor price of 350,100."""
    hour = Hour.open(OPENING_OF_T)
    (cause,) = hour.why(INTERVAL_OF_T)
    assert (cause.resource, cause.capped, cause.component, cause.competitive_price, cause.floor_price) == (0, True, 500000 * 500000, 350000, 350100)
    assert hour.accepted == 0
    (spared,) = hour.why(replace(INTERVAL_OF_T, dispatch=(0,)))
    assert (spared.capped, spared.floor_price) == (False, 0)


@hours
def test_a_cap_that_changes_nothing() -> None:
    """P8 of paper 01: a bid of 300,000 below its cap, the default price. A cap applies, and nothing is cut."""
    bid = Curve(10000, [(30000, 300000)])
    hour = Hour.open(replace(OPENING_OF_T, resources=(replace(OPENING_OF_T.resources[0], bid=bid),)))
    (cause,) = hour.why(INTERVAL_OF_T)
    assert (cause.capped, cause.floor_price) == (True, 350100)
    hour.interval(INTERVAL_OF_T)
    assert hour.curve(0) == bid


def with_pack(pack: Curve) -> Opening:
    return Opening(25, (1,), (Resource(0, Curve(10000, [(30000, 900000)]), pack),))


@hours
def test_a_pack_stands_as_it_is() -> None:
    """The cap is the higher of the pack's price and the floor price, 350,100."""
    pack = Curve(0, [(20000, 100), (40000, 700000)])
    hour = Hour.open(with_pack(pack))
    assert hour.default(0) == pack
    hour.interval(INTERVAL_OF_T)
    assert hour.curve(0) == Curve(10000, [(20000, 350100), (30000, 700000)])


@hours
@pytest.mark.parametrize(
    ("pack", "number"),
    [
        (Curve(10000, [(30000, 1_000_000_000)]), 0),
        (Curve(10000, [(30000, 1_000_000_001)]), 3),
        (Curve(10000, []), 1),
        (Curve(10000, [(10000 + i, 0) for i in range(1, 13)]), 1),
        (Curve(10000, [(10000, 0)]), 2),
        (Curve(10001, [(30000, 0)]), 11),
        (Curve(10000, [(29999, 0)]), 11),
    ],
)
def test_a_pack_is_judged(pack: Curve, number: int) -> None:
    if number == 0:
        assert Hour.open(with_pack(pack)).default(0) == pack
        return
    with pytest.raises(Refusal) as raised:
        Hour.open(with_pack(pack))
    assert raised.value == Refusal(number, "opening")


# a lower locational price: competitive price 149,900, floor price 150,000
LOWER = replace(INTERVAL_OF_T, lmp=(399900,))


@hours
def test_passes_cut_the_five_minute_curve_alone() -> None:
    hour = Hour.open(with_pack(Curve(0, [(30000, 0)])))
    with pytest.raises(Refusal) as raised:
        hour.pass_(INTERVAL_OF_T)
    assert raised.value == Refusal(19, "pass")
    hour.interval(INTERVAL_OF_T)
    assert hour.five_minute(0) == hour.curve(0) == Curve(10000, [(30000, 350100)])
    for count in (1, 2, 3):
        hour.pass_(LOWER)
        assert (hour.accepted, hour.passes) == (1, count)
        assert hour.curve(0) == Curve(10000, [(30000, 350100)])
        assert hour.five_minute(0) == Curve(10000, [(30000, 150000)])
    with pytest.raises(Refusal) as raised:
        hour.pass_(LOWER)
    assert raised.value.number == 19
    hour.interval(INTERVAL_OF_T)
    assert (hour.accepted, hour.passes) == (2, 0)
    assert hour.five_minute(0) == Curve(10000, [(30000, 350100)])


@hours
def test_one_bid_for_the_hour_after_four_intervals() -> None:
    """The lowest of the four intervals' curves."""
    hour = Hour.open(with_pack(Curve(0, [(30000, 0)])))
    for accepted in range(4):
        with pytest.raises(Refusal) as raised:
            hour.bid(0)
        assert raised.value == Refusal(20, "hour")
        hour.interval(LOWER if accepted == 1 else INTERVAL_OF_T)
    assert hour.bid(0) == Curve(10000, [(30000, 150000)])
    with pytest.raises(Refusal) as raised:
        hour.interval(INTERVAL_OF_T)
    assert raised.value == Refusal(12, "interval 5")


@hours
@pytest.mark.parametrize(
    ("change", "number"),
    [
        ({"lmp": (1, 1), "dispatch": (0, 0), "available": (0, 0), "floor": (0, 0)}, 13),
        ({"lmp": (), "dispatch": (), "available": (), "floor": (), "factors": ()}, 13),
        ({"shadow": (0,) * 33}, 14),
        ({"shadow": (0,) * 40, "factors": [(0, 39, -(2**63))]}, 14),
        ({"shadow": (-1,)}, 15),
        ({"parameter": 101}, 15),
        ({"lmp": (2**63 - 1,)}, 15),
        ({"factors": [(0, 0, -1_000_001)]}, 15),
        ({"dispatch": (30001,)}, 16),
        ({"floor": (-(2**63),)}, 16),
    ],
)
def test_a_refused_interval_leaves_the_hour_as_it_was(change: dict[str, Any], number: int) -> None:
    hour = Hour.open(OPENING_OF_T)
    refused: Interval = replace(INTERVAL_OF_T, **change)
    for call, part in ((hour.interval, "interval 1"), (hour.why, "interval")):
        with pytest.raises(Refusal) as raised:
            call(refused)
        assert raised.value == Refusal(number, part)
    assert (hour.accepted, hour.curve(0)) == (0, OPENING_OF_T.resources[0].bid)
    hour.interval(INTERVAL_OF_T)
    assert hour.accepted == 1


@hours
def test_resources_65_and_on_are_refused_by_their_count() -> None:
    many = Opening(25, (1,), OPENING_OF_T.resources * 64)
    assert Hour.open(many).resources == 64
    for count in (0, 65, 1000):
        with pytest.raises(Refusal) as raised:
            Hour.open(Opening(25, (1,), OPENING_OF_T.resources * count))
        assert raised.value == Refusal(9, "opening")


@hours
@pytest.mark.parametrize("resource", [1, 64, -1, 2**62])
def test_a_resource_that_is_not_there_is_an_index_error(resource: int) -> None:
    hour = Hour.open(OPENING_OF_T)
    for call in (hour.curve, hour.five_minute, hour.bid, hour.default):
        with pytest.raises(IndexError, match=f"^resource: the hour has no resource {resource}$"):
            call(resource)


@hours
def test_a_wrong_resource_names_its_field() -> None:
    hour = Hour.open(OPENING_OF_T)
    wrong: list[tuple[Any, type[Exception]]] = [(None, TypeError), ("0", TypeError), (True, TypeError), (0.0, TypeError), (2**64, OverflowError)]
    for resource, error in wrong:
        with pytest.raises(error, match="^resource: "):
            hour.curve(resource)


@pytest.mark.parametrize("wrong", [None, 5, b"month", "month", {}, INTERVAL_OF_T])
def test_what_is_no_opening_is_a_type_error(wrong: Any) -> None:
    with pytest.raises(TypeError, match="^opening: Opening is due, not "):
        Hour.open(wrong)


@hours
@pytest.mark.parametrize("wrong", [None, 5, b"month", [], OPENING_OF_T])
def test_what_is_no_interval_is_a_type_error(wrong: Any) -> None:
    hour = Hour.open(OPENING_OF_T)
    for call in (hour.interval, hour.pass_, hour.why):
        with pytest.raises(TypeError, match="^interval: Interval is due, not "):
            call(wrong)


def pickled(protocol: int) -> Callable[[Hour], Hour]:
    def copied(hour: Hour) -> Hour:
        other: Hour = pickle.loads(pickle.dumps(hour, protocol))
        return other

    return copied


PICKLED = [pickled(protocol) for protocol in range(pickle.HIGHEST_PROTOCOL + 1)]
COPIES: list[Callable[[Hour], Hour]] = [Hour.copy, copy.copy, copy.deepcopy, *PICKLED]


@hours
@pytest.mark.parametrize("copied", COPIES, ids=["copy", "copy.copy", "copy.deepcopy", *(f"pickle {i}" for i in range(len(PICKLED)))])
def test_a_copy_is_an_hour_of_its_own(copied: Callable[[Hour], Hour]) -> None:
    """It stands where the other stood, and neither changes with the other."""
    hour = Hour.open(OPENING_OF_T)
    other = copied(hour)
    assert type(other) is Hour and other == hour
    other.interval(INTERVAL_OF_T)
    assert (hour.accepted, other.accepted) == (0, 1)
    assert hour.curve(0).steps[1] == Step(30000, 900000)
    assert other.curve(0).steps[1] == Step(20000, 378402)
    third = copied(other)
    for each in (other, third):
        each.pass_(LOWER)
    assert third == other != hour
    hour.interval(LOWER)
    assert (hour.passes, third.passes, hour.five_minute(0)) == (0, 1, hour.curve(0))


class Named(Hour):
    """An hour with a note of its own."""

    note: list[Any]


@hours
def test_copies_of_a_class_made_of_hours() -> None:
    hour = Named(OPENING_OF_T)
    hour.note = ["mine"]
    assert type(hour.copy()) is Named
    for copied in COPIES[2:]:
        other = copied(hour)
        assert isinstance(other, Named)
        other.note.append("other")
    assert hour.note == ["mine"]
    hour.note.append(hour)
    again = copy.deepcopy(hour)
    assert again.note[1] is again and again == hour


@hours
@pytest.mark.parametrize("copied", COPIES[:3])
def test_a_copy_does_not_wait_for_its_original(copied: Callable[[Hour], Hour]) -> None:
    hour = Hour.open(OPENING_OF_T)
    other = copied(hour)
    with hour._lock:
        asked = threading.Thread(target=other.curve, args=(0,), daemon=True)
        asked.start()
        asked.join(timeout=10)
        assert not asked.is_alive()


@hours
def test_a_pickle_of_another_engine_is_an_error() -> None:
    hour = Hour.open(OPENING_OF_T)
    kept = hour.__getstate__()
    with pytest.raises(ValueError, match="^the hour has 3410 cells, and this version of noskjerf keeps 3411$"):
        hour.__setstate__({**kept, "_state": kept["_state"][1:]})
    assert hour == Hour.open(OPENING_OF_T)


@hours
def test_hours_are_equal_where_they_stand_alike() -> None:
    hour, other = Hour.open(OPENING_OF_T), Hour.open(OPENING_OF_T)
    assert hour == other and hour is not other
    assert hour != Hour.open(replace(OPENING_OF_T, sellers=(0,)))
    with pytest.raises(Refusal):
        other.interval(replace(INTERVAL_OF_T, parameter=101))
    assert hour == other
    other.interval(INTERVAL_OF_T)
    assert hour != other
    hour.interval(INTERVAL_OF_T)
    assert hour == other
    assert hour != "hour" and hour != None  # noqa: E711
    with pytest.raises(TypeError, match="unhashable"):
        hash(hour)


@hours
def test_an_hour_says_where_it_stands() -> None:
    hour = Hour.open(Opening(25, (1,), OPENING_OF_T.resources * 2))
    assert repr(hour) == "<Hour of 2 resources: 0 intervals accepted, 0 passes since>"
    hour = Named(OPENING_OF_T)
    hour.interval(INTERVAL_OF_T)
    hour.pass_(INTERVAL_OF_T)
    assert repr(hour) == str(hour) == "<Named of 1 resource: 1 interval accepted, 1 pass since>"


@hours
def test_sellers_of_an_hour_come_by_weight() -> None:
    """Paper 02, 2.3: the larger withheld amount first, equal ones by lower portfolio number. Portfolio p can withhold what is available."""
    bid = Curve(0, [(10000, 0)])
    opening = Opening(25, (1, 1, 1), [Resource(p, bid, bid) for p in range(3)])
    for available, order in (((100, 300, 200), (1, 2, 0)), ((100, 300, 300), (1, 2, 0)), ((200, 100, 200), (0, 2, 1)), ((100, 100, 100), (0, 1, 2))):
        interval = Interval([1], (0,) * 3, available, available, (0,) * 3, [(p, 0, -1_000_000) for p in range(3)])
        for judged in (Hour.open(opening).interval(interval), passed(opening, interval)):
            assert [(s.portfolio, s.withheld) for s in judged.sellers] == [(p, available[p] * 1_000_000) for p in order]


def passed(opening: Opening, interval: Interval) -> Judged:
    hour = Hour.open(opening)
    hour.interval(interval)
    return hour.pass_(interval)


@hours
def test_threads_share_an_hour() -> None:
    """Of 8 threads with an interval each, four are taken, and the others refused."""
    hour = Hour.open(OPENING_OF_T)
    start, answers = threading.Barrier(8), []

    def take() -> None:
        start.wait()
        try:
            hour.interval(INTERVAL_OF_T)
            answers.append(0)
        except Refusal as refusal:
            answers.append(refusal.number)

    threads = [threading.Thread(target=take) for _ in range(8)]
    for thread in threads:
        thread.start()
    for thread in threads:
        thread.join()
    assert sorted(answers) == [0, 0, 0, 0, 12, 12, 12, 12]
    assert hour.accepted == 4


@hours
def test_hours_of_several_threads_do_not_meet() -> None:
    """Each of 4 threads drives the hours of all texts, from another one on."""
    start = threading.Barrier(4)

    def found(first: int) -> list[tuple[list[str], int]]:
        start.wait()
        turned = READ[first:] + READ[:first]
        answers = [hour_printed(parts) for _, parts in turned]
        return answers[len(READ) - first :] + answers[: len(READ) - first]

    alone = [hour_printed(parts) for _, parts in READ]
    with ThreadPoolExecutor(4) as pool:
        assert list(pool.map(found, (0, 20, 40, 60))) == [alone] * 4


@pytest.mark.skipif(has_hours(), reason="the library has hours in numbers")
def test_without_the_archive_an_hour_is_a_library_error() -> None:
    with pytest.raises(LibraryError, match="has no noskjerf_state_room.*python/build"):
        Hour.open(OPENING_OF_T)
