"""`noskjerf explain`: a refusal in words, or every figure of an hour."""

from __future__ import annotations

import argparse
import json
import re
from collections.abc import Iterator
from dataclasses import asdict
from typing import Any

from ..files import Trouble, named, say, show, text_of
from ..refusal import SENTENCES, Explanation, Refusal, explain
from ..workings import Workings, workings
from ..workings_text import workings_text

DESCRIPTION = """\
With a number, a refusal in words: when it is told, an example and what to mend. With a text, every
figure of its hour: the checks in their order; the default energy bids step by step; each
constraint's demand, supply, sellers and verdict; who leaves all that bind short together; each
resource's component by constraint, competitive price, floor price, caps and cuts."""
EPILOG = """\
examples:
  noskjerf explain 15
  noskjerf explain hour.txt
  noskjerf explain --format json < hour.txt
  noskjerf explain ./15                     a text whose file is called 15

Figures that the engine doesn't hand out are worked out from the text's own numbers, and compared
with its answers; where one differs, the command says so and ends with status 2. Plain text is in
dollars and MW; json has the engine's whole numbers (docs/FORMAT.md)."""


def add(subparsers: Any) -> None:
    """Adds the parser."""
    parser = subparsers.add_parser("explain", help="explain a refusal, or every figure of an hour", description=DESCRIPTION, epilog=EPILOG)
    parser.add_argument("what", metavar="N|FILE", nargs="?", default="-", help="the number of a refusal, or a text; - is standard input (default)")
    parser.add_argument("--format", choices=("text", "json"), default="text", help="what is written (default: %(default)s)")
    parser.set_defaults(main=main)


def main(args: argparse.Namespace) -> int:
    """Explains a number or a text."""
    if re.fullmatch(r"-?[0-9]+", args.what):
        return _explain_number(args.what, args.format)
    return _explain_text(args.what, args.format)


def _explain_number(number: str, kind: str) -> int:
    try:
        entry = explain(int(number))
    except KeyError:
        known = f"they are numbered 1 to {max(SENTENCES)} without 22"
        raise Trouble(f"there is no refusal {number}: {known}; a file of that name is ./{number}") from None
    told = {"number": entry.number, "sentence": entry.sentence, "title": entry.title}
    told.update(when=entry.when, examples=entry.examples, mend=entry.mend)
    show(json.dumps(told, indent=2) + "\n" if kind == "json" else _entry_text(entry))
    return 0


def _entry_text(entry: Explanation) -> str:
    lines = [f"Refusal {entry.number}: {entry.title}", f"({entry.sentence})", ""]
    lines += ["When", *_plain(entry.when), ""]
    if entry.examples:
        lines += ["Example (- and + mark how it differs from Case T of docs/FORMAT.md)", *_plain(entry.examples), ""]
    lines += ["What to mend", *_plain(entry.mend)]
    return "".join(f"{line}".rstrip() + "\n" for line in lines)


def _plain(markdown: str) -> Iterator[str]:
    """Markdown as plain lines: fenced lines further in, links as their words."""
    fenced = False
    for line in markdown.splitlines():
        if line.startswith("```"):
            fenced = not fenced
            if line.startswith("```prints"):
                yield "  prints"
        elif fenced:
            yield f"    {line}"
        elif not re.fullmatch(r"[|\-: ]+", line):
            yield "  " + re.sub(r"\[([^]]*)\]\([^)]*\)", r"\1", line)


def _explain_text(path: str, kind: str) -> int:
    found = workings(text_of(path))
    show(_as_json(found) if kind == "json" else workings_text(named(path), found))
    for line in found.differences:
        say(f"{named(path)}: {line}")
    refusal = found.diagnosis.refusal
    if refusal is not None:
        say(f"{named(path)}: {refusal.headline}")
    return 2 if found.differences else 0 if refusal is None else 1


def _as_json(found: Workings) -> str:
    return json.dumps(asdict(found), indent=2, default=_refusal) + "\n"


def _refusal(value: object) -> object:
    """What json can't write by itself."""
    if isinstance(value, Refusal):
        return {"number": value.number, "line": value.line, "part": value.part, "sentence": value.sentence}
    raise TypeError(type(value).__name__)
