"""`noskjerf text`: a text from the CSV files of its tables."""

from __future__ import annotations

import argparse
from typing import Any

from ..csv_tables import from_folder
from ..diagnosis import said
from ..files import say, shown, write_whole
from ..parts import write
from ..text import run

DESCRIPTION = """\
Makes a text from a folder of CSV files, as `noskjerf tables` writes them. Columns may come in any
order, and rows in any that keeps the steps and points of a resource in theirs; the text has them
as docs/FORMAT.md wants them."""
EPILOG = """\
examples:
  noskjerf text hour -o hour.txt
  noskjerf text hour | noskjerf run
  noskjerf text hour --units -o hour.txt

Tables hold the engine's whole numbers, and a decimal point in one is an error that names the cell
and says what to write. With --units they are in MW and dollars, emission rates in tonnes per MMBtu
and shift factors in fractions of 1; what isn't a whole number of the engine's units is an error.

The text is written also where the engine refuses it; the status is then 1."""


def add(subparsers: Any) -> None:
    """Adds the parser."""
    parser = subparsers.add_parser("text", help="make a text from CSV files of its tables", description=DESCRIPTION, epilog=EPILOG)
    parser.add_argument("folder", metavar="DIR", help="the folder of the CSV files")
    parser.add_argument("-o", "--out", metavar="FILE", default="-", help="the text (default: standard output)")
    parser.add_argument("--units", action="store_true", help="the tables are in MW and dollars")
    parser.set_defaults(main=main)


def main(args: argparse.Namespace) -> int:
    """Writes the text."""
    text = write(*from_folder(args.folder, args.units))
    write_whole(args.out, text)
    refusal = run(text).refusal
    if refusal is None:
        return 0
    say(f"{shown(args.folder)}: {said(refusal)}")
    return 1
