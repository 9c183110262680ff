"""What is said of a line that isn't of the form: thousands of slips, each held to the engine's line, and what was due tried on the engine."""

from __future__ import annotations

import random
import re

import pytest
from noskjerf import MAX_TEXT, Refusal, Slip, explain, form, run
from noskjerf.form import slip as slip_at
from noskjerf.text import told

from .cases import CASES, NAMED, ROOT, Case, T, name_of
from .examples import with_value
from .mutations import SLIPS, Slipped, good_text

ROUNDS = 150
SHARED = ROOT.parent / "shared" / "cases"


def good_texts() -> list[bytes]:
    """The project's accepted texts that aren't long, and generated ones."""
    files = [path.read_bytes() for folder in (ROOT / "examples", SHARED) for path in sorted(folder.glob("*.txt"))]
    texts = {case.text for case in CASES} | set(files)
    found = sorted(text for text in texts if text and len(text) < 4000 and run(text).refusal is None)
    return [*found, *(good_text(random.Random(seed)) for seed in range(60))]


GOOD = good_texts()
# the kinds that docs/REFUSALS.md names
DOCUMENTED = {kind for row in re.findall(r"^\|.*\|(.*)\|$", explain(17).examples, re.MULTILINE)[2:] for kind in row.strip().split(", ")}


def refused(text: bytes) -> tuple[int, int]:
    """The number and line that the engine refuses a text with, 0 and 0 for none."""
    refusal = run(text).refusal
    return (0, 0) if refusal is None else (refusal.number, refusal.line or 0)


def takes(text: bytes, line: int) -> bool:
    """Whether the engine takes a line: it accepts the text, or refuses a later line of its form, or its values."""
    number, at = refused(text)
    return number != 17 or at > line


def line_of(text: bytes, number: int) -> bytes:
    return [*text.split(b"\n"), b""][number - 1]


def before(text: bytes, number: int) -> bytes:
    return b"".join(line + b"\n" for line in text.split(b"\n")[: number - 1])


# ---- what was due, read as a person reads it
def lines_due(rng: random.Random, words: str) -> bytes | None:
    """A line that is what these words say; None for the end of the text."""
    if words == "the end of the text":
        return None
    named = re.fullmatch(r'the names line "(.*)"', words)
    if named is not None:
        return named[1].encode() + b"\n"
    columns, *limits = words.split(", ")
    ids = chosen_ids(rng, limits)
    said = re.sub(r"<(\w+)>", lambda name: str(ids.get(name[1], rng.randint(-999, 999_999_999_999))), columns)
    return said.encode() + b"\n"


def chosen_ids(rng: random.Random, limits: list[str]) -> dict[str, int]:
    """Ids within ranges such as "resource 0 to 3", and past a pair."""
    ranges = {name: range(int(low), int(high) + 1) for name, low, high in re.findall(r"(\w+) (\d+) to (\d+)", ", ".join(limits))}
    past = re.search(r"past (\d+) (\d+)", ", ".join(limits))
    if past is None:
        return {name: rng.choice(ids) for name, ids in ranges.items()}
    last = (int(past[1]), int(past[2]))
    pairs = [(r, c) for r in ranges.get("resource", [0]) for c in ranges.get("constraint", [0]) if (r, c) > last]
    return dict(zip(("resource", "constraint"), rng.choice(pairs)))


def check_due(rng: random.Random, text: bytes, slip: Slip) -> None:
    head = before(text, slip.line)
    for words in slip.due:
        line = lines_due(rng, words)
        if line is None:
            assert refused(head)[0] != 17, words
        else:
            assert takes(head + line, slip.line), (words, line)


def check_all_that_is_due(text: bytes, slip: Slip) -> None:
    """What isn't among the words isn't due: ids next to those named, names of other tables, the text's end."""
    head, said = before(text, slip.line), " or ".join(slip.due)
    assert ("the end of the text" in said) == (refused(head)[0] != 17)
    for names in ("month", "portfolio seller", "resource mw heat", "constraint shadow", "resource constraint factor", "parameter"):
        assert (f'"{names}"' in said) == takes(head + names.encode() + b"\n", slip.line)
    for low, high, columns in re.findall(r"resource (\d+) to (\d+)()", said) or re.findall(r"^(\d+)() ((?:<\w+> ?)+)", said):
        rest = b" 0" * (len(columns.split()) or 2)
        for other in (int(low) - 1, int(high or low) + 1):
            assert not takes(head + b"%d%s\n" % (other, rest), slip.line)


def check_shown(text: bytes, slip: Slip) -> None:
    """The caret stands below the column, and all of it is narrow and plain."""
    shown, caret = slip.picture()
    column = slip.column or 0
    assert caret.strip() == "^"
    assert all(32 <= ord(each) < 127 for line in slip.details() for each in line)
    assert max(map(len, (shown, caret))) <= 90
    if 0 < column <= len(slip.stands) and 32 <= slip.stands[column - 1] < 127:
        assert shown[len(caret) - 1] == chr(slip.stands[column - 1])


def check(rng: random.Random, made: Slipped) -> bool:
    """Whether a slip ends at 17; then all that is said of it is held to the engine."""
    number, line = refused(made.text)
    if number != 17:
        return False
    slip = run(made.text).refusal.slip  # type: ignore[union-attr]
    assert slip is not None
    assert (slip.line, slip.stands) == (line, line_of(made.text, line))
    assert slip.column is not None
    assert 1 <= slip.column <= len(slip.stands) + 1
    assert slip.due
    check_due(rng, made.text, slip)
    check_all_that_is_due(made.text, slip)
    check_shown(made.text, slip)
    check_mend(made.text, slip)
    assert slip.kind is None or (slip.kind in DOCUMENTED and slip.taken is not None)
    if made.kinds:
        assert slip.kind in made.kinds, (slip, made)
        assert slip.line == made.line
        assert made.column in (None, slip.column)
    return True


def check_mend(text: bytes, slip: Slip) -> None:
    """What stands in the line's place is taken, and so is the value that is to be written."""
    head, tail = before(text, slip.line), text[len(before(text, slip.line)) + len(slip.stands) + 1 :]
    if slip.taken is not None:
        lines = b"".join(line + b"\n" for line in slip.taken)
        assert takes(head + lines + tail, slip.line + max(0, len(slip.taken) - 1))
    advised = re.fullmatch(r"write (-?\d+)", slip.mend)
    if advised is not None and ";" not in (slip.cause or ""):
        at = slip.stands.rfind(b" ", 0, slip.column) + 1
        value = re.sub(rb"^[^ \r]+", advised[1].encode(), slip.stands[at:])
        assert takes(head + slip.stands[:at] + value + b"\n", slip.line)


@pytest.mark.parametrize("name", SLIPS)
def test_a_slip_is_told(name: str) -> None:
    rng = random.Random(name)
    told = 0
    for _ in range(ROUNDS):
        made = SLIPS[name](rng, rng.choice(GOOD).split(b"\n")[:-1])
        told += made is not None and check(rng, made)
    assert told > ROUNDS // 4


@pytest.mark.parametrize("case", [case for case in CASES if case.refusal and case.refusal[0] == 17], ids=name_of)
def test_the_projects_texts_are_told(case: Case) -> None:
    assert check(random.Random(1), Slipped(case.text))


# the name of each text of the project that shows one slip, and the kind that it is called
KINDS = {
    "A01_no_final_newline": "not closed",
    "A03_extra_newline_at_end": "empty line",
    "A05_crlf": "carriage return",
    "A07_empty": "empty text",
    "A09_extra_cost_line": "extra line",
    "A11_second_parameter_line": "extra line",
    "A17_no_cost_line": "missing line",
    "A18_no_month_line": "missing line",
    "A19_two_month_lines": "extra line",
    "A28_thirteen_digits_shadow": "digits",
    "A31_minus_zero": "minus zero",
    "A32_leading_zero": "leading zero",
    "A33_dash_in_lmp": "no number",
    "A41_step_resource_undeclared": "undeclared id",
    "A45_portfolio_starts_at_1": "skipped id",
    "A46_steps_group_returns": "order of ids",
    "A51_factor_constraint_undeclared": "undeclared id",
    "A52_factor_repeats": "repeated id",
    "A78_bom": "byte order mark",
    "A79_plus_sign": "plus sign",
    "A80_tab_separator": "tab",
    "A81_trailing_space": "space at the end",
    "A82_leading_space_names": "space at the start",
    "A84_second_opening": "wrong table",
    "A85_names_line_of_later_table": "wrong table",
}


@pytest.mark.parametrize("name", KINDS)
def test_a_text_named_after_its_slip_has_that_kind(name: str) -> None:
    slip = run(NAMED[name].text).refusal.slip  # type: ignore[union-attr]
    assert slip is not None
    assert slip.kind == KINDS[name]


def test_every_kind_that_the_document_names_is_told() -> None:
    told = set(KINDS.values())
    rng = random.Random(7)
    for make in [*SLIPS.values()] * 30:
        made = make(rng, rng.choice(GOOD).split(b"\n")[:-1])
        refusal = None if made is None else run(made.text).refusal
        told |= set() if refusal is None or refusal.slip is None else {str(refusal.slip.kind)}
    assert DOCUMENTED <= told


# a column, what somebody writes for it, and what docs/FORMAT.md's units make of that
WRITTEN = [
    (6, 2, "100.25", "start is in hundredths of a MW: 100.25 MW is 10025"),
    (8, 2, "30.0", "price is in units of 0.0001 dollar: 30.0 dollars is 300000"),
    (8, 2, "30.00005", "price is a whole number of units of 0.0001 dollar"),
    (15, 2, ".053", "rate is in millionths: .053 is 53000"),
    (21, 2, "-0.5", "factor is in millionths: -0.5 is -500000"),
    (13, 2, "9500.5", "heat is a whole number"),
    (19, 3, "999999999999.9", "available is a whole number of hundredths of a MW"),
    (17, 1, f"1.{'0' * 40}1", "shadow is a whole number of units of 0.0001 dollar"),
]


@pytest.mark.parametrize(("line", "place", "value", "mend"), WRITTEN)
def test_a_decimal_point_is_told_in_the_columns_unit(line: int, place: int, value: str, mend: str) -> None:
    slip = run(with_value(T, line, place, value)).refusal.slip  # type: ignore[union-attr]
    assert slip is not None
    assert (slip.line, slip.kind, slip.mend) == (line, "decimal point", mend)


# ---- where the reading here isn't the engine's, nothing is made up
def blank(slip: Slip) -> bool:
    return (slip.column, slip.due, slip.kind, slip.cause, slip.mend, slip.taken) == (None, (), None, None, "", None)


@pytest.mark.parametrize("line", range(1, T.count(b"\n") + 1))
def test_nothing_is_said_of_a_line_that_is_as_due(line: int) -> None:
    slip = slip_at(T, line)
    assert blank(slip)
    assert slip.details() == (line_of(T, line).decode(),)


@pytest.mark.parametrize("name", ["a leading zero", "another table", "a value too many", "no names line", "another id", "any line"])
def test_nothing_is_said_of_a_line_past_the_engines(name: str) -> None:
    rng = random.Random(name)
    for _ in range(ROUNDS):
        made = SLIPS[name](rng, rng.choice(GOOD).split(b"\n")[:-1])
        number, line = (0, 0) if made is None else refused(made.text)
        if made is not None and number == 17:
            assert all(blank(slip_at(made.text, other)) for other in range(line + 1, made.text.count(b"\n") + 2))


def test_a_cause_that_the_engine_does_not_bear_out_is_not_said(monkeypatch: pytest.MonkeyPatch) -> None:
    """An engine that takes no line of a table: neither a cause nor what was due is told."""
    text = T.replace(b"0 0 10000", b"0 0 010000")
    assert slip_at(text, 6).kind == "leading zero"
    monkeypatch.setattr(form, "told", lambda text: (b"", 17, 6))
    assert blank(slip_at(text, 6))


def test_a_mend_that_the_engine_does_not_take_is_no_cause(monkeypatch: pytest.MonkeyPatch) -> None:
    """An engine that takes a line of the table there, but not this one with its zero mended: what was due is told, and no cause."""
    text = T.replace(b"0 0 10000", b"0 0 010000")
    ask = told
    monkeypatch.setattr(form, "told", lambda text: (b"", 17, 6) if b"0 0 10000\n" in text else ask(text))
    slip = slip_at(text, 6)
    assert (slip.due, slip.kind, slip.cause, slip.mend, slip.taken) == (slip_at(T[:-1].replace(b"0 0 10000", b"0 0"), 6).due, None, None, "", None)
    assert len(slip.due) == 2


# ---- how it is shown
@pytest.mark.parametrize("length", [80, 5000, 60_000])
@pytest.mark.parametrize("filler", [b"7", b"\x00", b"\xe2", b"1 "])
def test_a_long_line_is_shown_around_its_column(length: int, filler: bytes) -> None:
    slip = run(before(T, 17) + (b"0 5 " + filler * length)[:length] + b"\n").refusal.slip  # type: ignore[union-attr]
    assert slip is not None
    check_shown(T, slip)
    assert slip.picture()[0].endswith(" ..")
    late = form.Slip(17, b"1 " * length, 2 * length - 50, (), "extra value", "", "", None)
    shown, caret = late.picture()
    assert shown.startswith(".. ") and len(shown) <= 90
    assert shown[len(caret) - 1] == "%c" % late.stands[(late.column or 0) - 1]


def test_bytes_that_cannot_be_seen_are_shown() -> None:
    text = T.replace(b"0 500000\n", b"0\t5\x00\x7f\xc2\xa0\r\n")
    slip = run(text).refusal.slip  # type: ignore[union-attr]
    assert slip is not None
    assert slip.picture() == ("0\\t5\\x00\\x7f\\xc2\\xa0\\r", " ^")


def test_a_text_at_its_limit_is_told_what_was_due() -> None:
    """One line more would be too long, and can't be tried."""
    lines = [*T.split(b"\n")[:3]]
    while len(b"\n".join(lines)) < MAX_TEXT - 12:
        lines.append(b"%d 1" % (len(lines) - 3))
    text = b"\n".join(lines) + b"\n"
    text = text[:-1] + b"1" * (MAX_TEXT - len(text)) + b"\n"
    refusal = run(text).refusal
    assert len(text) == MAX_TEXT and refusal == Refusal(17, "opening", len(lines) + 1)
    assert refusal.slip is not None
    assert refusal.slip.cause == "the text ends here"
    assert refusal.slip.due == (f"{len(lines) - 3} <seller>", 'the names line "resource portfolio start"')
