"""`noskjerf designations`: the default verdicts on the constraints of a season of texts."""

from __future__ import annotations

import argparse
import csv
import io
import json
import os
import re
from collections.abc import Iterable
from dataclasses import dataclass
from typing import Any

from .._numbers import TOP_U32
from ..designation import Designation, designations
from ..diagnosis import said
from ..files import Trouble, named, say, show, shown, text_of
from ..records import Finding, Judged
from ..text import run
from ..units import count
from .new import between

DESCRIPTION = """\
The sixty-day designations of a season: the default verdict on each constraint after the last
trading day, by how often it was bound and non-competitive in the latest 60. DIR has a folder for
each trading day, called by its number, and in it the text of each hour, called by the hour from 0
to 23: DIR/20261117/17.txt."""
EPILOG = """\
examples:
  noskjerf designations season
  noskjerf designations season --constraint 3 --daily
  noskjerf designations season --format csv > designations.csv

Days come by their numbers, which may leave gaps. Another folder in DIR and another name that ends
in .txt is trouble; other files are passed over. A text that is refused has its line on standard
error, and the status is then 1; its intervals before the refusal count."""

NAMES = ("constraint", "day", "verdict", "bound", "noncompetitive")
WORDS = {Finding.COMPETITIVE: "competitive", Finding.NON_COMPETITIVE: "non-competitive"}

# what the intervals of each hour of each day found
Season = dict[int, dict[int, tuple[Judged, ...]]]


@dataclass(frozen=True)
class Row:
    """A constraint, and its designation after a day."""

    constraint: int
    after: Designation

    def numbers(self) -> tuple[int, ...]:
        """The numbers in the order of the names."""
        return self.constraint, self.after.day, int(self.after.finding), self.after.bound, self.after.noncompetitive


def add(subparsers: Any) -> None:
    """Adds the parser."""
    parser = subparsers.add_parser("designations", help="give the default verdicts of a season", description=DESCRIPTION, epilog=EPILOG)
    parser.add_argument("folder", metavar="DIR", help="the season: a folder for each trading day, with a text for each hour")
    chosen = "a constraint, 0 to 31, which may be given several times (default: every one that a text has)"
    parser.add_argument("--constraint", metavar="N", type=between(0, 31), action="append", help=chosen)
    parser.add_argument("--daily", action="store_true", help="after each trading day, not the last alone")
    parser.add_argument("--format", choices=("text", "csv", "json"), default="text", help="what is written (default: %(default)s)")
    parser.set_defaults(main=main)


def main(args: argparse.Namespace) -> int:
    """Runs the texts, and writes the designations."""
    season, refused = _run(_texts(args.folder))
    rows: list[Row] = []
    for constraint in _chosen(args.constraint, season):
        after = [Row(constraint, each) for each in designations(season, constraint)]
        rows += after if args.daily else after[-1:]
    show({"text": _as_text, "csv": _as_csv, "json": _as_json}[args.format](rows))
    return 1 if refused else 0


def _texts(folder: str) -> dict[int, dict[int, str]]:
    """The text of each hour of each day, days and hours rising."""
    days: dict[int, dict[int, str]] = {}
    for entry in _entries(folder):
        if entry.is_dir():
            _put(days, _number(entry.path, entry.name), entry.path, _hours(entry.path))
        elif entry.name.endswith(".txt"):
            raise Trouble(f"{shown(entry.path)}: a text stands in the folder of its trading day, as DIR/20261117/17.txt")
    if not days:
        raise Trouble(f"{shown(folder)}: there is no trading day in it, as DIR/20261117/17.txt")
    return dict(sorted(days.items()))


def _hours(folder: str) -> dict[int, str]:
    """The text of each hour of a day."""
    hours: dict[int, str] = {}
    for entry in _entries(folder):
        if entry.name.endswith(".txt"):
            _put(hours, _number(entry.path, entry.name[:-4]), entry.path, entry.path)
    return dict(sorted(hours.items()))


def _entries(folder: str) -> list[os.DirEntry[str]]:
    """What a folder has, but for hidden names."""
    with os.scandir(folder) as entries:
        return sorted((entry for entry in entries if not entry.name.startswith(".")), key=lambda entry: entry.name)


def _number(path: str, name: str) -> int:
    if not re.fullmatch("[0-9]{1,20}", name) or int(name) > TOP_U32:
        raise Trouble(f"{shown(path)}: a number is due for its name, as in DIR/20261117/17.txt: a trading day or an hour")
    return int(name)


def _put(found: dict[int, Any], number: int, path: str, value: object) -> None:
    if number in found:
        raise Trouble(f"{shown(path)}: {number} is there by another name already")
    found[number] = value


def _run(texts: dict[int, dict[int, str]]) -> tuple[Season, bool]:
    """What the intervals found, and whether a text is refused."""
    season: Season = {}
    refused = False
    for day, hours in texts.items():
        season[day] = {}
        for hour, path in hours.items():
            output = run(text_of(path))
            season[day][hour] = tuple(Judged(page.verdicts, ()) for page in output.pages)
            if output.refusal is not None:
                refused = True
                say(f"{named(path)}: {said(output.refusal)}")
    return season, refused


def _chosen(chosen: list[int] | None, season: Season) -> Iterable[int]:
    if chosen is not None:
        return sorted(set(chosen))
    intervals = (interval for hours in season.values() for judged in hours.values() for interval in judged)
    return sorted({verdict.constraint for interval in intervals for verdict in interval.verdicts})


def _as_text(rows: list[Row]) -> str:
    return "".join(
        f"constraint {row.constraint}, day {row.after.day}: {WORDS[row.after.finding]}; "
        f"{count(row.after.bound, 'hour')} bound, {row.after.noncompetitive:,} of them non-competitive\n"
        for row in rows
    )


def _as_csv(rows: list[Row]) -> str:
    written = io.StringIO()
    csv.writer(written, lineterminator="\n").writerows([NAMES, *(row.numbers() for row in rows)])
    return written.getvalue()


def _as_json(rows: list[Row]) -> str:
    return json.dumps([dict(zip(NAMES, row.numbers())) for row in rows], indent=2) + "\n"
