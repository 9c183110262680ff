"""Refusals: one wording in Python, in Rust and in docs/REFUSALS.md."""

from __future__ import annotations

import copy
import pickle
import re

import pytest
from noskjerf import MAX_TEXT, Refusal, explain, run
from noskjerf.refusal import SENTENCES

from .cases import ROOT, T

# 22 is no number of the engine's
NUMBERS = [*range(1, 22), 23, 24, 25, 26]


def test_the_sentences_are_those_of_the_rust_crate() -> None:
    source = (ROOT / "rust" / "src" / "refusal.rs").read_text()
    assert {int(number): sentence for number, sentence in re.findall(r'^ +(\d+) => "(.*)",$', source, re.MULTILINE)} == SENTENCES
    assert list(SENTENCES) == NUMBERS


@pytest.mark.parametrize("number", NUMBERS)
def test_the_entry_of_the_document_has_the_limits_of_the_sentence(number: int) -> None:
    """Every number of the sentence stands in the entry, by digits or as a word."""
    entry = explain(number)
    said = f"{entry.when} {entry.examples}"
    for limit in re.findall(r"-?\d[\d,]*\d|\d", SENTENCES[number]):
        assert limit in said or {"1": "no", "0": "below 0"}.get(limit, limit) in said, limit


@pytest.mark.parametrize("number", NUMBERS)
def test_an_entry_is_whole(number: int) -> None:
    entry = explain(number)
    document = (ROOT / "docs" / "REFUSALS.md").read_text()
    assert entry.number == number
    for piece in (f"## {number}: {entry.title}\n", f"**When**: {entry.when}", entry.examples, f"**Mend**: {entry.mend}"):
        assert piece in document
    assert min(len(entry.title), len(entry.when), len(entry.mend)) > 3
    assert "##" not in entry.mend


@pytest.mark.parametrize("number", [0, 22, 27, -1])
def test_there_is_no_other_entry(number: int) -> None:
    with pytest.raises(KeyError):
        explain(number)


def test_a_refusal_is_a_value() -> None:
    refusal = Refusal(12, "interval 5", 55)
    assert refusal == Refusal(12, "interval 5", 55)
    assert len({refusal, Refusal(12, "interval 5", 55), Refusal(12, "interval 5", 56), Refusal(12, "interval 4", 55)}) == 3
    assert refusal not in (Refusal(12, "interval 5", 56), Refusal(12, "interval 4", 55), Refusal(11, "interval 5", 55))
    assert refusal not in ((12, "interval 5", 55), ValueError(12, "interval 5", 55))
    copy = pickle.loads(pickle.dumps(refusal))
    assert (copy.number, copy.part, copy.line, str(copy)) == (12, "interval 5", 55, str(refusal))
    assert str(refusal) == "interval 5, line 55: the hour has taken four intervals already (refusal 12)"


def test_a_refusal_of_a_line_says_column_due_and_cause() -> None:
    refusal = run(T.replace(b"0 600000 20000", b"0 60.00 20000")).refusal
    assert refusal is not None and refusal.slip is not None
    assert (refusal.slip.column, refusal.slip.kind, refusal.sentence) == (5, "decimal point", "a decimal point in lmp, 60.00")
    assert refusal.headline == "interval 1, line 19, column 5: a decimal point in lmp, 60.00 (refusal 17)"
    assert str(refusal).splitlines() == [
        refusal.headline,
        "  0 60.00 20000 30000 0",
        "      ^",
        "  due: 0 <lmp> <dispatch> <available> <floor>",
        '   or: the names line "resource constraint factor"',
        "  mend: lmp is in units of 0.0001 dollar: 60.00 dollars is 600000",
    ]


def test_the_text_of_a_refusal_goes_with_it() -> None:
    refusal = run("month\n025\n").refusal
    assert refusal is not None
    for other in (pickle.loads(pickle.dumps(refusal)), copy.copy(refusal), copy.deepcopy(refusal), refusal.again()):
        assert (other, str(other)) == (refusal, str(refusal))
    # what it is of counts, not the text
    assert refusal == Refusal(17, "opening", 2)
    assert str(Refusal(17, "opening", 2)) == "opening, line 2: the line is not of the form that is due there (refusal 17)"


def test_a_text_that_is_too_long_is_not_kept() -> None:
    refusal = run(b"x" * (MAX_TEXT + 1)).refusal
    assert refusal is not None and refusal.text is None
