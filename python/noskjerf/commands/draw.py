"""`noskjerf draw`: a picture of the hour: each resource's curves by interval, or each constraint's demand and supply."""

from __future__ import annotations

import argparse
import importlib
from typing import Any

from ..diagnosis import said
from ..files import is_own, named, picture_name, say, say_written

DESCRIPTION = """\
A picture of the hour: each resource's submitted, default and mitigated curves by interval, with
what is cut off the bid shaded, its floor price, dispatch and locational price. Figures are rounded;
noskjerf report and noskjerf explain have the exact ones. It needs matplotlib."""
EPILOG = """\
examples:
  noskjerf draw hour.txt
  noskjerf draw hour.txt --cut -o cut.pdf               only resources whose bid is cut
  noskjerf draw hour.txt --resource 3 --resource 7 -o two.png
  noskjerf draw hour.txt --constraints -o verdicts.svg

A large hour has several pages: in one file as pdf, else a file each, hour-1.svg, hour-2.svg and so
on.

Without -o the picture is called FILE.svg, or FILE.constraints.svg, and drawn anew each time. Any
other file that is there may be another text's picture, and isn't written over without --overwrite.

A text that isn't accepted whole has no picture: nothing is written, and the status is 1."""


def add(subparsers: Any) -> None:
    """Adds the parser."""
    parser = subparsers.add_parser("draw", help="draw the hour's curves", description=DESCRIPTION, epilog=EPILOG)
    parser.add_argument("file", metavar="FILE", help="a text; - is standard input")
    parser.add_argument("-o", "--out", metavar="OUT", help="the picture; its ending says the kind: svg, png or pdf (default: FILE.svg)")
    parser.add_argument("--overwrite", action="store_true", help="write over OUT where it is there")
    parser.add_argument("--constraints", action="store_true", help="draw each constraint's demand, supply and sellers instead of the curves")
    only = "only this resource, or with --constraints only constraints on which it has a shift factor; may come several times"
    parser.add_argument("--resource", metavar="R", type=int, action="append", help=only)
    parser.add_argument("--cut", action="store_true", help="only resources whose bid is cut, or with --constraints only non-competitive ones")
    parser.add_argument("--title", metavar="TITLE", help="the title (default: the name of the text)")
    parser.set_defaults(main=main)


def main(args: argparse.Namespace) -> int:
    """Writes it; the module is imported when it is asked for, as it needs more than the rest does."""
    drawing = importlib.import_module("noskjerf.draw")
    out = args.out or picture_name(args.file, ".constraints.svg" if args.constraints else ".svg")
    resources = None if args.resource is None else tuple(args.resource)
    view = drawing.View(args.constraints, resources, args.cut, args.title)
    drawn = drawing.draw(args.file, out, view, args.overwrite or is_own(args.file, args.out))
    if drawn.refusal is not None:
        say(f"{named(args.file)}: {said(drawn.refusal)}")
        return 1
    say_written(drawn.files)
    return 0
