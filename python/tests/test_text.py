"""Texts: what they print, their refusals and the parts these are of."""

from __future__ import annotations

from typing import Any

import pytest
from noskjerf import MAX_TEXT, Refusal, read, run
from noskjerf.text import as_bytes

from .cases import CASES, NAMED, Case, T, name_of, printed_again


def test_there_are_151_cases() -> None:
    assert len(CASES) == 151


@pytest.mark.parametrize("case", CASES, ids=name_of)
def test_a_case_prints_its_bytes(case: Case) -> None:
    output = run(case.text)
    assert output.printed == case.printed
    assert printed_again(output) == case.printed


@pytest.mark.parametrize("case", CASES, ids=name_of)
def test_accepted_answers_the_pages_or_raises(case: Case) -> None:
    output = run(case.text)
    if case.refusal is None:
        assert output.accepted() == output.pages
    else:
        with pytest.raises(Refusal) as raised:
            output.accepted()
        assert (raised.value.number, raised.value.line) == case.refusal
        assert raised.value == output.refusal


@pytest.mark.parametrize(
    ("name", "part"),
    [
        ("A01_no_final_newline", "interval 1"),
        ("A02_unclosed_rest_midway", "opening"),
        ("A03_extra_newline_at_end", "interval 2"),
        ("A07_empty", "opening"),
        ("A09_extra_cost_line", "interval 1"),
        ("A10_extra_cost_line_and_bad_month", "opening"),
        ("A17_no_cost_line", "opening"),
        ("A20_bad_month_and_late_form_in_interval", "opening"),
        ("A22_form_in_second_interval", "interval 2"),
        ("A23_fifth_interval", "interval 5"),
        ("A24_fifth_interval_form", "interval 5"),
        ("A74_65537_bytes", "text"),
        ("A83_blank_line_between_parts", "interval 1"),
        ("A84_second_opening", "interval 1"),
        ("A89_unclosed_names_of_next_part", "interval 1"),
        ("B08_dispatch_above_available", "interval 1"),
        ("B17_bid_start_below_default", "opening"),
    ],
)
def test_a_refusal_has_its_part(name: str, part: str) -> None:
    refusal = run(NAMED[name].text).refusal
    assert refusal is not None
    assert refusal.part == part


SHORT_17 = [case for case in CASES if case.refusal and case.refusal[0] == 17 and len(case.text) < 3000]


@pytest.mark.parametrize("case", SHORT_17, ids=name_of)
def test_a_line_not_of_the_form_is_of_the_opening_until_that_is_whole(case: Case) -> None:
    """The opening is whole where the engine takes some of the lines before the faulty one."""
    assert case.refusal is not None
    lines = case.text.splitlines(keepends=True)[: case.refusal[1] - 1]
    whole = any(run(b"".join(lines[:count])).refusal is None for count in range(len(lines) + 1))
    refusal = run(case.text).refusal
    assert refusal is not None
    assert (refusal.part != "opening") == whole


def test_a_text_that_is_cut_off_is_refused_on_its_last_line() -> None:
    opening = T.index(b"constraint shadow")
    for length in range(len(T)):
        refusal = run(T[:length]).refusal
        line = T[:length].count(b"\n") + 1
        part = "opening" if length < opening else "interval 1"
        assert refusal == (None if length == opening else Refusal(17, part, line)), length


def test_str_bytes_bytearray_and_memoryview_are_texts() -> None:
    expected = run(T)
    assert expected.printed == NAMED["T"].printed
    texts: list[Any] = [T.decode(), bytearray(T), memoryview(T), memoryview(T[::-1])[::-1]]
    for text in texts:
        assert run(text) == expected


class Longer(bytes):
    """Bytes that say there are more of them than there are, or others."""

    def __len__(self) -> int:
        return 60_000

    def __bytes__(self) -> bytes:
        return self

    def __getitem__(self, at: Any) -> Any:
        return 0

    def split(self, *parted: Any) -> Any:
        return []


class LongerArray(bytearray):
    def __len__(self) -> int:
        return 60_000

    def __bytes__(self) -> bytes:
        return Longer(b"month")


class Encoded(str):
    def encode(self, *how: Any) -> bytes:
        return Longer(b"month")


def test_a_text_cannot_lie_about_its_length() -> None:
    """Else the engine would be lent bytes past the object's end."""
    texts: list[Any] = [Longer(T), LongerArray(T), Encoded(T.decode())]
    for text in texts:
        assert len(text.encode() if isinstance(text, str) else text) == 60_000
        assert type(as_bytes(text)) is bytes and as_bytes(text) == T
        assert run(text) == run(T)
        assert read(text) == read(T)
    assert run(Longer(b"")).refusal == Refusal(17, "opening", 1)


@pytest.mark.parametrize("text", [None, 0, 5, 10**30, 3.5, float("nan"), True, [], ["month"], [109, 10], {}, object(), str])
def test_what_is_no_text_is_a_type_error(text: Any) -> None:
    with pytest.raises(TypeError, match="text: str or bytes are due"):
        run(text)


def test_any_bytes_are_answered() -> None:
    texts: list[str | bytes] = [b"\0", b"\xff\xfe", b"month\n\x80\n", bytes(range(256)), "mønth\n", "\ufeffmonth\n"]
    for text in texts:
        refusal = run(text).refusal
        assert refusal is not None
        assert refusal.number == 17


def test_a_lone_surrogate_is_an_encoding_error() -> None:
    with pytest.raises(UnicodeEncodeError):
        run("month\n\ud800\n")


def test_a_text_may_have_65536_bytes() -> None:
    assert run(b"x" * MAX_TEXT).refusal == Refusal(17, "opening", 1)
    assert run(b"x" * (MAX_TEXT + 1)).refusal == Refusal(18, "text", 1)
    assert run(b"\n" * 50_000_000).refusal == Refusal(18, "text", 1)
