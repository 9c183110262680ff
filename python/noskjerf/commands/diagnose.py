"""`noskjerf diagnose`: which value a text is refused for, or what is wrong with a line of it."""

from __future__ import annotations

import argparse
import json
import sys
from dataclasses import asdict
from typing import Any

from ..diagnosis import Diagnosis, diagnose
from ..files import named, say, show, text_of
from ..refusal import Refusal

DESCRIPTION = """\
Which value a text is refused for. The engine tells a number and the last line of the part; each
value of that part is then put to the engine by itself, and those that it refuses are named, with
the line they stand on. Of a line that isn't of the form (17), which the engine names, the column
at fault, what was due there and the likely cause are shown."""
EPILOG = """\
examples:
  noskjerf diagnose hour.txt
  noskjerf diagnose --format json < hour.txt"""


def add(subparsers: Any) -> None:
    """Adds the parser."""
    parser = subparsers.add_parser("diagnose", help="find the value that a text is refused for", description=DESCRIPTION, epilog=EPILOG)
    parser.add_argument("file", metavar="FILE", nargs="?", default="-", help="a text; - is standard input (default)")
    parser.add_argument("--format", choices=("text", "json"), default="text", help="what is written (default: %(default)s)")
    parser.set_defaults(main=main)


def main(args: argparse.Namespace) -> int:
    """Tells what the engine tells, and the values found."""
    found = diagnose(text_of(args.file))
    show(_as_json(found) if args.format == "json" else as_text(found))
    if found.refusal is None:
        return 0
    if sys.stdout is None or not sys.stdout.isatty():
        say(f"{named(args.file)}: {found.refusal.headline}")
    return 1


def as_text(found: Diagnosis) -> str:
    """A diagnosis in lines."""
    if found.refusal is None:
        return "accepted\n"
    refusal, slip = found.refusal, found.refusal.slip
    column = "" if slip is None or slip.column is None else f", column {slip.column}"
    details = "".join(f"  {line}\n" for line in found.details())
    return f"refusal {refusal.number}, {refusal.part}, line {refusal.line}{column}: {refusal.sentence}\n{details}"


def _as_json(found: Diagnosis) -> str:
    refusal = found.refusal
    told = refusal and {"number": refusal.number, "line": refusal.line, "part": refusal.part, "sentence": refusal.sentence}
    faults = [asdict(fault) for fault in found.faults]
    return json.dumps({"refusal": told, "resource": found.resource, "faults": faults, "form": _form(refusal)}, indent=2) + "\n"


def _form(refusal: Refusal | None) -> dict[str, object] | None:
    """What is wrong with the line that isn't of the form; bytes outside ASCII are escaped."""
    slip = None if refusal is None else refusal.slip
    if slip is None:
        return None
    stands = slip.stands.decode("ascii", "backslashreplace")
    return {"column": slip.column, "stands": stands, "due": slip.due, "kind": slip.kind, "cause": slip.cause, "mend": slip.mend}
