"""The command `noskjerf`: its parser, and its manners where something goes wrong."""

from __future__ import annotations

import argparse
import importlib
import os
import signal
from collections.abc import Sequence
from typing import IO, Any, NoReturn

from . import commands
from ._version import __version__
from .files import Trouble, reason, say, show
from .refusal import Refusal

ACCEPTED, REFUSED, TROUBLE, INTERRUPTED = 0, 1, 2, 130

DESCRIPTION = """\
Local market power mitigation from a proved engine: verdicts on constraints, default energy
bids and mitigated bid curves of a trading hour. A text holds one hour (docs/FORMAT.md)."""

EPILOG = """\
examples:
  noskjerf new -o hour.txt           a small text to start from, with hour.txt.md that explains it
  noskjerf new --classroom drill     a text for each of the 37 classroom bids
  noskjerf run hour.txt              what the hour comes to
  noskjerf run *.txt --out results   many hours, a result file each
  noskjerf explain hour.txt          every figure of the hour, step by step
  noskjerf explain 15                what refusal 15 means and what to mend
  noskjerf diagnose hour.txt         which value a text is refused for
  noskjerf designations season       default verdicts by the latest 60 trading days

FILE is a text, and - is standard input. The status is 0 where all is accepted, 1 where a text is
refused, 2 where there is trouble (a file that can't be read, a write that fails). Standard error
has a line for each."""


class Parser(argparse.ArgumentParser):
    """A parser that tells an error on one line, and a failing write of its help."""

    def __init__(self, *args: Any, **kwargs: Any) -> None:
        kwargs.setdefault("formatter_class", argparse.RawDescriptionHelpFormatter)
        kwargs.setdefault("allow_abbrev", False)
        super().__init__(*args, **kwargs)

    def error(self, message: str) -> NoReturn:
        raise Trouble(f"{' '.join(message.split())} ({self.prog} --help tells more)")

    def _print_message(self, message: str, file: IO[str] | None = None) -> None:
        if message:
            show(message)


def parser() -> Parser:
    """The command's parser, with those of its subcommands."""
    whole = Parser(prog="noskjerf", description=DESCRIPTION, epilog=EPILOG)
    whole.add_argument("--version", action="version", version=f"noskjerf {__version__}")
    subparsers = whole.add_subparsers(title="commands", metavar="COMMAND", required=True, parser_class=Parser)
    for name in commands.NAMES:
        importlib.import_module(f"noskjerf.commands.{name}").add(subparsers)
    return whole


def main(arguments: Sequence[str] | None = None) -> int:
    """Runs the command and answers its status."""
    try:
        args = parser().parse_args(arguments)
        status: int = args.main(args)
        return status
    except Refusal as refusal:
        say(f"noskjerf: {refusal}")
        return REFUSED
    except SystemExit as ending:
        return ending.code if isinstance(ending.code, int) else ACCEPTED
    except KeyboardInterrupt:
        return INTERRUPTED
    except Exception as error:
        say(f"noskjerf: {_told(error)}")
        return TROUBLE


def _told(error: Exception) -> str:
    if isinstance(error, (Trouble, ImportError)):
        return reason(error)
    if isinstance(error, OSError):
        where = f"{error.filename}: " if error.filename is not None else ""
        return f"{where}{reason(error)}"
    return f"{type(error).__name__}: {reason(error)}"


def entry() -> NoReturn:
    """The command as a process. All is written by now: a thread that still waits for its input isn't waited for."""
    signal.signal(signal.SIGINT, signal.default_int_handler)
    signal.signal(signal.SIGTERM, _ended)
    try:
        status = main()
    except KeyboardInterrupt:
        status = INTERRUPTED
    os._exit(status)


def _ended(number: int, frame: object) -> NoReturn:
    """Ends the command, so that no half of a result is left."""
    raise SystemExit(128 + number)
