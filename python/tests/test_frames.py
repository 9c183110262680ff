"""Tables of pandas, out and in."""

from __future__ import annotations

import os
import subprocess
import sys
from typing import Any

import pytest
from noskjerf import Book, Curve, Interval, Market, bid, default_curve, dollars, interval_of, mw, opening_of, run

from .cases import CASES, CHARGES_OF_T, NAMED, POINTS_OF_T, ROOT, Case, T, name_of
from .test_parts import INTERVAL_OF_T, OPENING_OF_T, TABLES

pandas = pytest.importorskip("pandas", reason="python3-pandas isn't installed")

NAMES = {
    "verdicts": "interval constraint verdict demand left",
    "sellers": "interval constraint portfolio withheld",
    "curves": "interval resource end price",
}


@pytest.mark.parametrize("case", CASES, ids=name_of)
def test_frames_have_the_printed_tables(case: Case) -> None:
    """Each table of every page, printed from the frames."""
    frames = run(case.text).to_frames()
    printed = case.printed.decode().splitlines()
    for name, names in NAMES.items():
        assert [" ".join(map(str, row)) for row in frames[name].itertuples(index=False)] == table(printed, names)
        assert " ".join(frames[name].columns) == names
        assert {str(kind) for kind in frames[name].dtypes} == {"int64"}
    refusals = [(int(row.refusal), int(row.line)) for row in frames["refusals"].itertuples()]
    assert refusals == ([case.refusal] if case.refusal else [])


def table(lines: list[str], names: str) -> list[str]:
    """The rows of all tables with this names line."""
    rows, inside = [], False
    for line in lines:
        if line[0].isalpha():
            inside = line == names
        elif inside:
            rows.append(line)
    return rows


def test_a_refusal_has_its_words_in_the_frame() -> None:
    frame = run(NAMED["B07_15_before_16"].text).to_frames()["refusals"]
    assert list(frame.columns) == ["refusal", "line", "part", "sentence"]
    assert frame.part[0] == "interval 1"
    assert frame.sentence[0].startswith("a shadow price")


def frame(names: str, rows: Any) -> Any:
    return pandas.DataFrame(rows, columns=names.split())


def test_an_opening_from_frames() -> None:
    tables: dict[str, Any] = {
        "sellers": frame("portfolio seller", TABLES["sellers"]),
        "resources": frame("resource portfolio start", TABLES["resources"]),
        "steps": frame("resource end price", TABLES["steps"]),
        "points": frame("resource mw heat", TABLES["points"])[["heat", "mw", "resource"]],
        "charges": frame("resource gas rate allowance om msc soc fee", TABLES["charges"]).astype("int32"),
    }
    assert opening_of(month=pandas.Series([25])[0], **tables) == OPENING_OF_T


def test_an_interval_from_frames() -> None:
    dispatch = frame("resource lmp dispatch available floor", [(0, 600000, 20000, 30000, 0)])
    factors = frame("resource constraint factor", [(0, 0, -500000)]).astype("Int64")
    shadow = pandas.Series([500000], index=["a line"])
    assert interval_of(frame("constraint shadow", [(0, 500000)]), dispatch, factors, 100) == INTERVAL_OF_T
    assert Interval(shadow, dispatch.lmp, dispatch.dispatch, dispatch.available, dispatch.floor, factors, 100) == INTERVAL_OF_T


def test_a_gap_in_a_frame_is_an_error_that_names_it() -> None:
    steps = frame("end price", [(15000, None), (30000, 300000)])
    with pytest.raises(ValueError, match=r"^steps.price\[0\]: nan is no whole number"):
        bid(25, 0, steps)
    with pytest.raises(TypeError, match=r"^steps.price\[0\]: a whole number is due, not NAType"):
        bid(25, 0, steps.astype("Int64"))
    with pytest.raises(ValueError, match="^steps: there is no column 'price'"):
        bid(25, 0, steps[["end"]])


def test_a_frame_in_mw_and_dollars() -> None:
    steps = frame("end price", [(150.0, 30.0), (300.0, 64.29)])
    with pytest.raises(TypeError, match=r"^steps.end\[0\]: a whole number of hundredths of a MW is due, not the float 150.0: write mw\(150.0\)"):
        Curve(mw(100), steps)
    exact = steps.assign(end=steps.end.map(mw), price=steps.price.map(dollars))
    assert Curve(mw(100), exact) == Curve(10000, [(15000, 300000), (30000, 642900)])


def test_points_and_books_from_frames() -> None:
    points = frame("mw heat", POINTS_OF_T)
    assert default_curve(points, CHARGES_OF_T) == default_curve(POINTS_OF_T, CHARGES_OF_T)
    assert default_curve(points.itertuples(), CHARGES_OF_T) == default_curve(POINTS_OF_T, CHARGES_OF_T)
    assert Book(frame("day price", [(3, 40000)])).price(Market.DAY_AHEAD, 7) == 40000


def test_without_pandas_all_but_frames_works() -> None:
    code = f"""
import sys
sys.modules["pandas"] = sys.modules["numpy"] = None
import noskjerf
output = noskjerf.run({T!r})
assert output.pages[0].curves[0].steps[1].price == 378402
try:
    output.to_frames()
except ImportError as error:
    assert "python3-pandas" in str(error)
else:
    raise AssertionError("frames without pandas")
"""
    environment = {**os.environ, "PYTHONPATH": str(ROOT / "python")}
    subprocess.run([sys.executable, "-c", code], env=environment, check=True)
