"""`noskjerf report`: a page for a class: one HTML file with the hour's tables, verdicts and curves."""

from __future__ import annotations

import argparse
import importlib
from typing import Any

from ..diagnosis import said
from ..files import is_own, named, picture_name, say, say_written

DESCRIPTION = """\
A page for a class: one HTML file with the hour's tables, verdicts and curves, and why a price was
cut. It opens in any browser, without a network. hour.html#interval-3 opens it at interval 3."""
EPILOG = """\
examples:
  noskjerf report hour.txt
  noskjerf report hour.txt -o hour.html

Without -o the page is called FILE.html and written anew each time. Any other file that is there may
be another text's page, and isn't written over without --overwrite.

Of a refused text the page shows the line at fault and what to mend; the status is 1."""


def add(subparsers: Any) -> None:
    """Adds the parser."""
    parser = subparsers.add_parser("report", help="write a page for a class", description=DESCRIPTION, epilog=EPILOG)
    parser.add_argument("file", metavar="FILE", help="a text; - is standard input")
    parser.add_argument("-o", "--out", metavar="OUT", help="the page (default: FILE.html)")
    parser.add_argument("--overwrite", action="store_true", help="write over OUT where it is there")
    parser.set_defaults(main=main)


def main(args: argparse.Namespace) -> int:
    """Writes it; the module is imported when it is asked for, as it needs more than the rest does."""
    out = args.out or picture_name(args.file, ".html")
    refusal = importlib.import_module("noskjerf.report").report(args.file, out, args.overwrite or is_own(args.file, args.out))
    say_written([out])
    if refusal is not None:
        say(f"{named(args.file)}: {said(refusal)}")
        return 1
    return 0
