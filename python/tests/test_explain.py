"""`noskjerf explain`: refusals in words, and every figure of an hour against the engine's."""

from __future__ import annotations

import json
import re
from dataclasses import replace
from pathlib import Path

import pytest
from noskjerf import Cause, Interval, Together, default_curve
from noskjerf import workings as module
from noskjerf._library import has_hours
from noskjerf.command import main
from noskjerf.refusal import SENTENCES
from noskjerf.workings import Workings, workings

from .cases import CASES, DATA, ROOT, Case, T, name_of
from .process import noskjerf

hours = pytest.mark.skipif(not has_hours(), reason="the library has no hours in numbers: an older archive was there when it was built")
REFUSALS = (ROOT / "docs" / "REFUSALS.md").read_text()


# ---- a number
@pytest.mark.parametrize("number", SENTENCES)
def test_a_refusal_in_words(number: int) -> None:
    done = noskjerf("explain", str(number))
    assert (done.status, done.lines) == (0, [])
    told = done.out.decode()
    section = re.findall(rf"^## {number}: (.*?)(?=^## |\Z)", REFUSALS, re.MULTILINE | re.DOTALL)[0]
    assert told.startswith(f"Refusal {number}: {section.splitlines()[0]}\n({SENTENCES[number]})\n")
    assert all(f"\n{heading}" in told for heading in ("When", "What to mend"))
    for line in "".join(re.findall(r"^```diff\n(.*?)^```", section, re.MULTILINE | re.DOTALL)).splitlines():
        assert f"\n    {line}\n" in told


def test_a_refusal_in_json() -> None:
    told = json.loads(noskjerf("explain", "18", "--format", "json").out)
    assert (told["number"], told["title"]) == (18, "length")
    assert f"**Mend**: {told['mend']}" in REFUSALS


@pytest.mark.parametrize("number", ["0", "22", "27", "-1", "007000"])
def test_no_such_refusal(number: str) -> None:
    done = noskjerf("explain", number)
    assert (done.status, done.out) == (2, b"")
    assert f"there is no refusal {number}: they are numbered 1 to 26 without 22" in done.line


def test_a_file_called_as_a_number(tmp_path: Path) -> None:
    (tmp_path / "5").write_bytes(b"month\n025\n")
    done = noskjerf("explain", "./5", cwd=tmp_path)
    assert done.status == 1
    assert b"form of the opening (17)" in done.out


# ---- default energy bids and checks, which need no hour
def of_opening(text: bytes) -> Workings:
    """The workings of a text's opening alone."""
    return workings(text[: text.index(b"constraint shadow")])


def test_default_energy_bid_of_case_t_as_the_documents_have_it() -> None:
    resource, = of_opening(T).resources
    assert resource.default is not None
    assert resource.default.mark == 24000
    first, lower, upper = resource.default.segments
    assert [(s.start, s.end, s.price) for s in (first, lower, upper)] == [(10000, 20000, 378402), (20000, 24000, 444403), (24000, 30000, 488402)]
    assert (lower.unlimited, lower.limit, lower.rate) == (10500, 9500, 9500)
    assert (upper.unlimited, upper.limit, upper.rate) == (10500, None, 10500)


def test_greenhouse_from_the_step_and_fuel_from_the_largest_rate_as_the_documents_have_it() -> None:
    lines = T.decode().split("constraint shadow")[0].splitlines()
    lines[5:] = ["0 0 0", "resource end price", "0 11000 1000000", "resource mw heat", "0 0 10000", "0 10000 10000", "0 11000 9900"]
    lines += ["resource gas rate allowance om msc soc fee", "0 30000 53073 250000 0 0 0 1000000"]
    resource, = workings("".join(f"{line}\n" for line in lines)).resources
    assert resource.default is not None
    last = resource.default.segments[-1]
    assert (last.rate, last.largest_rate) == (8900, 10000)
    assert (last.fuel, last.greenhouse, last.fee_part, last.price) == (300000, 118088, 100000, 569897)


def refused_check(found: Workings) -> list[str]:
    return [check.what for check in found.checks if check.refusal]


@pytest.mark.parametrize("case", [case for case in CASES if case.refusal and b"interval" not in case.printed], ids=name_of)
def test_the_checks_end_with_the_one_that_refuses(case: Case) -> None:
    found = workings(case.text)
    assert case.refusal is not None
    told = [check.refusal for check in found.checks]
    at = told.index(case.refusal[0])
    assert told[:at] == [0] * at
    assert told[at + 1 :] == [None] * (len(told) - at - 1)
    first, _, last = found.checks[at].numbers.partition(" to ")
    assert int(first) <= case.refusal[0] <= int(last or first)
    assert found.differences == ()


def test_checks_of_the_first_resource_come_before_those_of_the_second() -> None:
    named = {case.name: case.text for case in CASES}
    assert refused_check(workings(named["B03_res0_11_before_res1_1"])) == ["resource 0: bid within its default energy bid"]
    assert refused_check(workings(named["B04_res0_costs_before_res1_bid"])) == ["resource 0: costs"]
    assert refused_check(workings(named["B05_9_before_10"])) == ["month and counts"]


@pytest.mark.parametrize("case", [case for case in CASES if b"interval" not in case.printed], ids=name_of)
@pytest.mark.parametrize("kind", ["text", "json"])
def test_a_text_without_a_page_is_explained(case: Case, kind: str, capfd: pytest.CaptureFixture[str]) -> None:
    status = main(["explain", str(DATA / f"{case.name}.txt"), "--format", kind])
    assert status == (1 if case.refusal else 0)
    assert len(capfd.readouterr().err.splitlines()) == status


def test_a_text_from_standard_input_is_explained() -> None:
    done = noskjerf("explain", stdin=b"month\n025\n")
    assert done.status == 1
    assert done.line == "standard input: opening, line 2, column 1: a leading zero in month, 025 (refusal 17)"
    said = "Refused: opening, line 2, column 1: a leading zero in month, 025 (refusal 17)\n  025\n  ^\n  due: <month>\n  mend: write 25\n"
    assert said in done.out.decode()


# ---- every figure
@hours
@pytest.mark.parametrize("case", CASES, ids=name_of)
def test_no_figure_differs_from_the_engines(case: Case) -> None:
    found = workings(case.text)
    assert found.differences == ()
    assert len(found.intervals) == case.printed.count(b"interval constraint verdict")


@hours
def test_case_t_in_words() -> None:
    done = noskjerf("explain", DATA / "T.txt")
    assert (done.status, done.lines) == (0, [])
    lines = [re.sub(r" +", " ", line.strip()) for line in done.out.decode().splitlines()]
    for due in (
        "Constraint 0: non-competitive (shadow price $50.00/MWh)",
        "demand effectiveness x dispatch, over all resources = 100 MW",
        "component the sum over the non-competitive constraints = $25.00/MWh",
        "competitive price lmp less the component, up = $35.00/MWh",
        "floor price competitive price + parameter $0.01/MWh = $35.01/MWh",
        "100 MW to 150 MW: $30.00/MWh, default price $37.8402/MWh, cap $37.8402/MWh: stays, $30.00/MWh",
        "240 MW to 300 MW: $90.00/MWh, default price $48.8402/MWh, cap $48.8402/MWh: cut, $48.8402/MWh",
    ):
        assert due in lines


@hours
def test_case_t_in_json() -> None:
    told = json.loads(noskjerf("explain", DATA / "T.txt", "--format", "json").out)
    constraint, effect = told["intervals"][0]["constraints"][0], told["intervals"][0]["resources"][0]
    assert (constraint["demand"], constraint["supply"], constraint["left"]) == (10000000000, 15000000000, 0)
    assert constraint["sellers"] == [{"constraint": 0, "portfolio": 0, "withheld": 15000000000}]
    assert effect["terms"] == [{"constraint": 0, "factor": -500000, "shadow": 500000, "term": 250000000000}]
    assert (effect["competitive_price"], effect["floor_price"], effect["capped"], effect["cut"]) == (350000, 350100, True, True)
    assert told["differences"] == []


@hours
def test_a_cap_that_changes_nothing_is_no_cut() -> None:
    """docs/GALLERY.md: of the six bids of the example two are cut; resource 5 is capped above what it asks, and the others aren't dispatched."""
    example = ROOT / "examples" / "three-sellers.txt"
    said = noskjerf("explain", example).out.decode()
    found = re.findall(r"^Resource \d: (.*) \(lmp", said, re.MULTILINE)
    assert found == ["no cap", "cut", "cut", "no cap", "no cap", "a cap applies and changes nothing"]
    effects = json.loads(noskjerf("explain", example, "--format", "json").out)["intervals"][0]["resources"]
    assert [(effect["capped"], effect["cut"]) for effect in effects[1:]] == [(True, True), (True, True), (False, False), (False, False), (True, False)]


@hours
@pytest.mark.parametrize("case", CASES, ids=name_of)
def test_every_text_is_explained_in_words(case: Case, capfd: pytest.CaptureFixture[str]) -> None:
    status = main(["explain", str(DATA / f"{case.name}.txt")])
    out, err = capfd.readouterr()
    assert status == (1 if case.refusal else 0)
    assert len(err.splitlines()) == status
    assert "come to the same" in out


# ---- an engine that answers otherwise
class Otherwise:
    """An hour whose answer to why is of another engine."""

    def __init__(self, **other: object) -> None:
        self.other = other

    def open(self, opening: object) -> Otherwise:
        return self

    def why(self, interval: Interval) -> tuple[Cause, ...]:
        cause = Cause(0, True, 250_000_000_000, 350_000, 350_100)
        return (replace(cause, **self.other),)

    def together(self, interval: Interval) -> Together:
        return Together((0,), tried=1, floor=1, sets=1)


def test_the_paper_s_figures_of_case_t_agree(monkeypatch: pytest.MonkeyPatch) -> None:
    monkeypatch.setattr(module, "Hour", Otherwise())
    assert workings(T).differences == ()


@pytest.mark.parametrize(
    ("other", "what"),
    [
        ({"component": 250_000_000_001}, "component"),
        ({"competitive_price": 350_001}, "competitive price"),
        ({"floor_price": 350_000}, "floor price"),
        ({"capped": False}, "a cap applies"),
    ],
)
def test_a_figure_that_differs_is_told_with_status_2(
    other: dict[str, object], what: str, monkeypatch: pytest.MonkeyPatch, capfd: pytest.CaptureFixture[str]
) -> None:
    monkeypatch.setattr(module, "Hour", Otherwise(**other))
    assert main(["explain", str(DATA / "T.txt")]) == 2
    out, err = capfd.readouterr()
    assert "These figures differ from the engine's:" in out
    assert f"{DATA / 'T.txt'}: interval 1, resource 0: {what}: " in err


def test_a_default_price_that_differs_is_told(monkeypatch: pytest.MonkeyPatch) -> None:
    engine = default_curve
    monkeypatch.setattr(module, "default_curve", lambda points, charges: engine(points, replace(charges, om=charges.om + 1)))
    # 11/10 of 344002 in place of 344001, up
    assert of_opening(T).differences[0].startswith("resource 0, step 1: default price: 378402 from the text's numbers, and 378403 ")
