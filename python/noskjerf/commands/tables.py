"""`noskjerf tables`: the tables of a text as CSV files."""

from __future__ import annotations

import argparse
from pathlib import Path
from typing import Any

from ..csv_tables import csv_files
from ..files import named, say, text_of, write_folder
from ..parts import read
from ..refusal import Refusal

DESCRIPTION = """\
Writes the ten tables of a text as CSV files into a new folder. A file is called as its table, and
those of an interval have its number at the end: month.csv, portfolio_seller.csv and so on, then
constraint_shadow_1.csv and so on. Numbers and columns are the text's (docs/FORMAT.md); a missing
parameter is -. `noskjerf text` makes a text of them again, to the byte."""
EPILOG = """\
examples:
  noskjerf tables hour.txt -o hour
  noskjerf text hour -o hour.txt
  noskjerf tables hour.txt --units -o hour
  noskjerf text hour --units -o hour.txt

With --units quantities are in MW and prices in dollars (300.00 and 37.8402 for 30000 and 378402),
emission rates in tonnes per MMBtu, and shift factors are fractions of 1. Both ways are exact.

Of a refused text the parts up to the refused one are written, where they are of the form, and the
status is 1."""


def add(subparsers: Any) -> None:
    """Adds the parser."""
    parser = subparsers.add_parser("tables", help="write a text's tables as CSV files", description=DESCRIPTION, epilog=EPILOG)
    parser.add_argument("file", metavar="FILE", nargs="?", default="-", help="a text; - is standard input (default)")
    parser.add_argument("-o", "--out", metavar="DIR", help="the folder, not there yet or empty (default: FILE without its ending, and .tables)")
    parser.add_argument("--units", action="store_true", help="write MW and dollars in place of the engine's whole numbers")
    parser.set_defaults(main=main)


def main(args: argparse.Namespace) -> int:
    """Writes the tables."""
    try:
        parts = read(text_of(args.file))
    except Refusal as refusal:
        say(f"{named(args.file)}: {refusal.headline}; no table is written")
        return 1
    write_folder(args.out or _folder(args.file), csv_files(parts, args.units))
    if parts.refusal is None:
        return 0
    say(f"{named(args.file)}: {parts.refusal.headline}; the tables end there")
    return 1


def _folder(path: str) -> str:
    return "stdin.tables" if path == "-" else str(Path(path).with_suffix(".tables"))
