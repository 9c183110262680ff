"""`noskjerf new`: a small valid text to start from, or a text for each classroom bid."""

from __future__ import annotations

import argparse
import os
from collections.abc import Callable
from typing import Any

from ..files import Trouble, say, show, shown, write_into, write_new
from ..starter import comments, drills, starter
from ..text import run

DESCRIPTION = """\
Writes a small valid text to start from, and beside it FILE.md, which explains each of its tables.
With --classroom it writes texts for drills instead: an hour like Case T's for each of the 37
classroom bids, by their list, bid-00.txt to bid-36.txt."""
EPILOG = """\
examples:
  noskjerf new -o hour.txt
  noskjerf new --resources 6 --constraints 2 --intervals 4 -o hour.txt
  noskjerf new | noskjerf run
  noskjerf new --classroom drill && noskjerf run drill/*.txt --out results

A file that is there already isn't written over. Without -o, or where FILE is -, the text alone
goes to standard output. --classroom goes alone; the folder may be there, without such texts."""

# what is counted, from, to, and how many there are where nothing is said
COUNTS = (("resources", 1, 64, 3), ("constraints", 0, 32, 1), ("intervals", 0, 4, 2))


def add(subparsers: Any) -> None:
    """Adds the parser."""
    parser = subparsers.add_parser("new", help="write a small text to start from", description=DESCRIPTION, epilog=EPILOG)
    for name, low, high, default in COUNTS:
        what = f"how many {name}, {low} to {high} (default: {default})"
        parser.add_argument(f"--{name}", metavar="N", type=between(low, high), help=what)
    parser.add_argument("-o", "--out", metavar="FILE", help="the text (default: standard output)")
    parser.add_argument("--classroom", metavar="FOLDER", help="write a text for each classroom bid into this folder, which is made where it isn't there")
    parser.set_defaults(main=main)


def between(low: int, high: int) -> Callable[[str], int]:
    """What reads a number of a range from the command line."""

    def number(argument: str) -> int:
        if not (argument.isascii() and argument.isdigit()) or not low <= int(argument) <= high:
            raise argparse.ArgumentTypeError(f"{argument!r} is not a number from {low} to {high}")
        return int(argument)

    return number


def main(args: argparse.Namespace) -> int:
    """Writes the text or the texts, once the engine has accepted them."""
    if args.classroom is not None:
        return _classroom(args)
    counts = (default if getattr(args, name) is None else getattr(args, name) for name, _, _, default in COUNTS)
    text = starter(*counts)
    run(text).accepted()
    if args.out in (None, "-"):
        show(text)
        return 0
    beside = f"{args.out}.md"
    write_new({args.out: text, beside: comments(shown(os.path.basename(args.out)), text)})
    say(f"{shown(args.out)} and {shown(beside)} written")
    return 0


def _classroom(args: argparse.Namespace) -> int:
    """Writes a text for each classroom bid."""
    for name in (*(name for name, *_ in COUNTS), "out"):
        if getattr(args, name) is not None:
            raise Trouble(f"--{name} doesn't go with --classroom, which has texts of its own (noskjerf new --help tells more)")
    if args.classroom in ("", "-"):
        raise Trouble(f"--classroom: a folder is due, not {args.classroom!r} (noskjerf new --help tells more)")
    texts = drills()
    for text in texts.values():
        run(text).accepted()
    write_into(args.classroom, texts)
    names = list(texts)
    say(f"{shown(args.classroom)}: {len(names)} texts written, {names[0]} to {names[-1]}")
    return 0
