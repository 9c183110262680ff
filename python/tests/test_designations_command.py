"""`noskjerf designations`: a season of texts in folders by trading day."""

from __future__ import annotations

import csv
import json
from collections.abc import Mapping
from pathlib import Path

import pytest

from .cases import T
from .process import noskjerf
from .test_designation import IDLE, OFF

REFUSED = IDLE + b"constraint shadow\n"


def season(folder: Path, days: Mapping[str, Mapping[str, bytes]]) -> Path:
    """Writes texts by the names of days and hours."""
    for day, hours in days.items():
        (folder / day).mkdir(parents=True)
        for hour, text in hours.items():
            (folder / day / hour).write_bytes(text)
    return folder


# by the second day twelve hours are bound, three of them non-competitive; the third day adds one more
DAYS = {
    "9": {f"{hour:02}.txt": IDLE for hour in range(9)},
    "10": {"0.txt": T, "1.txt": T, "23.txt": T},
    "00012": {"7.txt": T, "8.txt": OFF},
}


def test_the_last_day_and_every_day(tmp_path: Path) -> None:
    """10 comes after 9, whatever the names say, and 00012 is 12."""
    season(tmp_path / "season", DAYS)
    done = noskjerf("designations", "season", cwd=tmp_path)
    assert (done.status, done.lines) == (0, [])
    assert done.out.decode() == "constraint 0, day 12: non-competitive; 13 hours bound, 4 of them non-competitive\n"
    daily = noskjerf("designations", "season", "--daily", "--format", "csv", cwd=tmp_path)
    assert list(csv.reader(daily.out.decode().splitlines())) == [
        ["constraint", "day", "verdict", "bound", "noncompetitive"],
        ["0", "9", "1", "9", "0"],
        ["0", "10", "0", "12", "3"],
        ["0", "12", "1", "13", "4"],
    ]


def test_constraints_are_chosen(tmp_path: Path) -> None:
    second = T.replace(b"shadow\n0 500000", b"shadow\n0 500000\n1 7")
    season(tmp_path, {"1": {"0.txt": second, "1.txt": T}, "2": {"5.txt": second}})
    told = json.loads(noskjerf("designations", tmp_path, "--format", "json").out)
    assert told == [
        {"constraint": 0, "day": 2, "verdict": 1, "bound": 3, "noncompetitive": 3},
        {"constraint": 1, "day": 2, "verdict": 1, "bound": 2, "noncompetitive": 0},
    ]
    chosen = noskjerf("designations", tmp_path, "--constraint", "31", "--constraint", "1", "--constraint", "31")
    assert chosen.out.decode().splitlines() == [
        "constraint 1, day 2: non-competitive; 2 hours bound, 0 of them non-competitive",
        "constraint 31, day 2: non-competitive; 0 hours bound, 0 of them non-competitive",
    ]


def test_a_refused_text_is_told_and_its_intervals_before_count(tmp_path: Path) -> None:
    season(tmp_path / "season", {"1": {"0.txt": REFUSED, "1.txt": b"month\n025\n", "2.txt": IDLE}})
    done = noskjerf("designations", "season", cwd=tmp_path)
    assert done.status == 1
    assert done.out.decode() == "constraint 0, day 1: non-competitive; 2 hours bound, 0 of them non-competitive\n"
    assert [line.split(":")[0] for line in done.headlines] == ["season/1/0.txt", "season/1/1.txt"]
    assert all(line.endswith("(refusal 17)") for line in done.headlines)


def test_an_hour_past_the_24_is_refused(tmp_path: Path) -> None:
    season(tmp_path, {"5": {"24.txt": T}})
    done = noskjerf("designations", tmp_path)
    assert (done.status, done.out) == (1, b"")
    assert done.line.startswith("noskjerf: day 5: ") and done.line.endswith("(refusal 25)")
    # not binding it has no mark
    (tmp_path / "5" / "24.txt").write_bytes(OFF)
    assert noskjerf("designations", tmp_path).status == 0


def test_other_files_are_passed_over(tmp_path: Path) -> None:
    season(tmp_path, {"5": {"1.txt": T, "1.txt.svg": b"", "notes.md": b"", ".2.txt": b""}, ".git": {}})
    (tmp_path / "notes").write_bytes(b"")
    done = noskjerf("designations", tmp_path)
    assert (done.status, done.lines) == (0, [])
    assert done.out.decode() == "constraint 0, day 5: non-competitive; 1 hour bound, 1 of them non-competitive\n"


def test_a_season_without_a_constraint(tmp_path: Path) -> None:
    season(tmp_path, {"5": {}, "6": {"3.txt": T[: T.index(b"constraint shadow")]}})
    assert noskjerf("designations", tmp_path, "--format", "json").out == b"[]\n"
    done = noskjerf("designations", tmp_path, "--constraint", "0", "--daily")
    assert done.out.decode().splitlines() == [
        f"constraint 0, day {day}: non-competitive; 0 hours bound, 0 of them non-competitive" for day in (5, 6)
    ]


WRONG: list[tuple[dict[str, dict[str, bytes]], str]] = [
    ({}, "there is no trading day in it"),
    ({"monday": {"1.txt": T}}, "a number is due for its name"),
    ({"-5": {"1.txt": T}}, "a number is due for its name"),
    ({"2026-11-17": {"1.txt": T}}, "a number is due for its name"),
    ({"4294967296": {"1.txt": T}}, "a number is due for its name"),
    ({"9" * 30: {"1.txt": T}}, "a number is due for its name"),
    ({"\u0665": {"1.txt": T}}, "a number is due for its name"),
    ({"5": {"one.txt": T}}, "a number is due for its name"),
    ({"5": {"1 .txt": T}}, "a number is due for its name"),
    ({"5": {".txt": T, "h1.txt": T}}, "a number is due for its name"),
    ({"5": {}, "05": {}}, "5 is there by another name already"),
    ({"5": {"1.txt": T, "01.txt": T}}, "1 is there by another name already"),
    ({"5": {}, ".": {}}, "a text stands in the folder of its trading day"),
]


@pytest.mark.parametrize(("days", "said"), WRONG, ids=[f"{i}" for i in range(len(WRONG))])
def test_names_of_another_form_are_trouble(days: dict[str, dict[str, bytes]], said: str, tmp_path: Path) -> None:
    here = tmp_path / "season"
    here.mkdir()
    season(here, {day: hours for day, hours in days.items() if day != "."})
    if "." in days:
        (here / "17.txt").write_bytes(T)
    done = noskjerf("designations", here)
    assert (done.status, done.out) == (2, b"")
    assert said in done.line


def test_a_folder_or_text_that_cannot_be_read_is_trouble(tmp_path: Path) -> None:
    assert "No such file or directory" in noskjerf("designations", tmp_path / "none").line
    (tmp_path / "5" / "1.txt").mkdir(parents=True)
    done = noskjerf("designations", tmp_path)
    assert (done.status, done.out) == (2, b"") and "Is a directory" in done.line
    file = tmp_path / "file"
    file.write_bytes(b"")
    assert "Not a directory" in noskjerf("designations", file).line


@pytest.mark.parametrize("arguments", [[], ["season", "--constraint", "32"], ["season", "--constraint", "-1"], ["season", "--format", "xml"], ["a", "b"]])
def test_wrong_arguments_are_trouble(arguments: list[str], tmp_path: Path) -> None:
    done = noskjerf("designations", *arguments, cwd=tmp_path)
    assert (done.status, done.out) == (2, b"") and "--help" in done.line
