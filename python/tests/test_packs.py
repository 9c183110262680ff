"""Packs beside the package: `explain` and a refusal's sentence find their entries, without importing them and without any name of theirs here."""

from __future__ import annotations

import json
import os
import subprocess
import sys
from pathlib import Path

import pytest

from .process import PACKAGE, environment, noskjerf

DOCUMENT = """# A pack

## Use

It is used.

## 97: a tide

the tide is outside 1 to 9

**When**: the tide is below 1 or above 9.

**Mend**: wait.

## 1: another

it says something else

**When**: never.

**Mend**: nothing.

## 12 more
"""
OTHERWISE = "raise SystemExit('this was imported')\n"


@pytest.fixture
def beside(tmp_path: Path) -> dict[str, str]:
    """The environment with a pack on the path, one without a document, and a script that is called like one."""
    for name in ("noskjerf_tides", "noskjerf_other"):
        (tmp_path / name).mkdir()
        (tmp_path / name / "__init__.py").write_text(OTHERWISE)
    (tmp_path / "noskjerf_tides" / "REFUSALS.md").write_text(DOCUMENT)
    (tmp_path / "noskjerf_script.py").write_text(OTHERWISE)
    return environment(PYTHONPATH=os.pathsep.join([str(PACKAGE), str(tmp_path)]))


def test_a_packs_refusal_in_words(beside: dict[str, str]) -> None:
    done = noskjerf("explain", "97", env=beside)
    assert (done.status, done.lines) == (0, [])
    assert done.out.decode() == (
        "Refusal 97: a tide\n(the tide is outside 1 to 9)\n\nWhen\n  the tide is below 1 or above 9.\n\nWhat to mend\n  wait.\n"
    )
    told = json.loads(noskjerf("explain", "97", "--format", "json", env=beside).out)
    assert told == {
        "number": 97,
        "sentence": "the tide is outside 1 to 9",
        "title": "a tide",
        "when": "the tide is below 1 or above 9.",
        "examples": "",
        "mend": "wait.",
    }


def test_the_engines_own_stay_and_others_are_unknown(beside: dict[str, str]) -> None:
    assert noskjerf("explain", "1", env=beside).out == noskjerf("explain", "1").out
    done = noskjerf("explain", "96", env=beside)
    assert (done.status, done.out) == (2, b"")
    assert "there is no refusal 96" in done.line
    assert noskjerf("explain", "97").status == 2


def test_a_refusal_says_the_packs_sentence(beside: dict[str, str]) -> None:
    code = "from noskjerf import Refusal\nprint(Refusal(97, 'tide'))\nprint(Refusal(96, 'tide'))\nprint(Refusal(1, 'bid'))"
    said = subprocess.run([sys.executable, "-c", code], env=beside, stdout=subprocess.PIPE, text=True, check=True).stdout
    assert said.splitlines() == [
        "tide: the tide is outside 1 to 9 (refusal 97)",
        "tide: no such refusal is known (refusal 96)",
        "bid: a bid has no step, or more than 10 (a default curve 11) (refusal 1)",
    ]
