"""docs/rules: it passes over docs/RULES.md, and tells the line of whatever isn't right."""

from __future__ import annotations

import os
import shlex
import subprocess
import sys
from pathlib import Path

import pytest
from noskjerf._library import has_hours

from .cases import ROOT

RULES = ROOT / "docs" / "RULES.md"
# explain needs the hours in numbers; NOSKJERF may name a command that has them
hours = pytest.mark.skipif(not has_hours() and "NOSKJERF" not in os.environ, reason="the library has no hours in numbers")

# what is changed, to what, and what is said of it
WRONG = [
    ("| fuel | 320,000 |", "| fuel | 320,001 |", "this isn't what `noskjerf explain` and the text give\n  it has:  | fuel | 320,001 |"),
    ("| 30,000 | 24,000 |\n\n", "| 30,000 | 24,001 |\n\n", "wanted:  | 30,000 | 24,000 |"),
    ("| left | 0 |\n", "", "wanted:  | left | 0 |"),
    ("| default price | 378,402 |", "| a | 1 |\n| default price | 378,402 |", "it has:  | a | 1 |"),
    ("\n0 40000 0 0 20000", "\n0 40000 0 0 20001", "wanted:  0 40000 0 0 20000"),
    ("\n1 0 24000 444403", "\n1 0 24000 444404", "wanted:  1 0 24000 444403"),
    ("<!-- pieces -->", "<!-- peaces -->", "there is no block peaces"),
    ("<!-- pieces -->", "", "the block pieces is missing"),
    ("`fee_part`", "`fee_parts`", "there is no definition fee_parts in Costs.antt"),
    ("> 39.7.1.1.1.1 (b) · `greenhouse` ([Costs])\n", "", "no line with tariff and definitions follows this rule"),
    ("> 39.7.1.1.1.1 (b) · ", "> ", "this names no paragraph, or no definition"),
    ("`greenhouse` ([Costs])", "`greenhouse` [Costs]", "this isn't definitions and their file"),
    ("rules_cost/specs/Costs.antt", "rules_cost/specs/Cost.antt", "there is no file ../crates/rules_cost/specs/Cost.antt"),
    ("> paper 01, Units · `ceil_div` ([Ceil])", "> paper 01, Units · `price_at` ([Curves])", "no rule names Ceil"),
    ("REFUSALS.md#4-point-count", "REFUSALS.md#4-points", "there is no heading for #4-points"),
    ("(FORMAT.md)", "(FORM.md)", "there is no file FORM.md"),
    ("`C11_P9_carry`", "`C11_P9_carried`", "there is no text C11_P9_carried"),
    ("`100 × 50 / 4,000 up 2`", "`100 × 50 / 4,000 up 1`", "100 × 50 / 4,000 isn't 1: it is 2"),
    ("`350,000 + 100 = 350,100`", "`350,000 + 100 = 350,101`", "350,000 + 100 isn't 350,101: it is 350100"),
    ("`350,000 + 100 = 350,100`", "`350,000 + = 350,100`", "this formula can't be read"),
    ("`100 × 50 / 4,000 up 2`", "`100 × 50\n/ 4,000 up 2`", "a code span doesn't end on its line"),
    ("R is 9,500.", "R is 9,501.", "9,501 is neither in a block nor in a rule"),
    ("at 90 $/MWh", "at 91 $/MWh", "91 $/MWh is neither in a block nor in a rule"),
]


@pytest.fixture(scope="module")
def told(tmp_path_factory: pytest.TempPathFactory) -> str:
    """A command that says again what `noskjerf explain` says of Case T."""
    command = shlex.split(os.environ.get("NOSKJERF", f"{shlex.quote(sys.executable)} -m noskjerf"))
    env = {**os.environ, "PYTHONPATH": str(ROOT / "python")}
    line = [*command, "explain", str(ROOT / "crates" / "mitigate" / "stdin"), "--format", "json"]
    path = tmp_path_factory.mktemp("rules") / "explained.json"
    path.write_bytes(subprocess.run(line, env=env, stdout=subprocess.PIPE, check=True).stdout)
    return shlex.join(["sh", "-c", f"cat {shlex.quote(str(path))}"])


def rules(*arguments: object, **variables: str) -> subprocess.CompletedProcess[str]:
    line = [sys.executable, str(ROOT / "docs" / "rules"), *map(str, arguments)]
    return subprocess.run(line, env={**os.environ, **variables}, capture_output=True, text=True, check=False)


@hours
def test_the_document_is_right() -> None:
    ran = rules()
    assert (ran.returncode, ran.stderr) == (0, "")


@hours
@pytest.mark.parametrize(("here", "changed", "said"), WRONG)
def test_what_is_wrong_is_told_with_its_line(tmp_path: Path, told: str, here: str, changed: str, said: str) -> None:
    text = RULES.read_text(encoding="utf-8")
    assert here in text
    copy = tmp_path / "RULES.md"
    copy.write_text(text.replace(here, changed, 1), encoding="utf-8")
    ran = rules(copy, NOSKJERF=told)
    assert (ran.returncode, ran.stdout) == (1, "")
    assert said in ran.stderr
    name, line, _ = ran.stderr.split(":", 2)
    assert name == str(copy)
    if "it has:" in said or "neither" in said:
        assert changed.strip().split("\n")[0] in copy.read_text(encoding="utf-8").splitlines()[int(line) - 1]


@hours
def test_blocks_are_made_again(tmp_path: Path, told: str) -> None:
    text = RULES.read_text(encoding="utf-8")
    copy = tmp_path / "RULES.md"
    copy.write_text(text.replace("| fuel | 320,000 |", "| fuel | 1 |").replace("\n1 0 24000 444403", ""), encoding="utf-8")
    assert rules("--write", copy, NOSKJERF=told).returncode == 0
    assert copy.read_text(encoding="utf-8") == text


def test_trouble() -> None:
    ran = rules(NOSKJERF="false")
    assert (ran.returncode, ran.stderr) == (2, "docs/rules: false explain crates/mitigate/stdin --format json ended with status 1\n")
    ran = rules(NOSKJERF="/no/such/command")
    assert (ran.returncode, ran.stderr) == (2, "docs/rules: /no/such/command: No such file or directory\n")
    assert rules("--what").returncode == 2
