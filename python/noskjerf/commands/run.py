"""`noskjerf run`: many texts through the engine."""

from __future__ import annotations

import argparse
import contextlib
import csv
import io
import json
import os
import sys
import tempfile
import threading
from collections import deque
from collections.abc import Callable, Generator, Iterable, Iterator, Mapping
from concurrent.futures import Future, ThreadPoolExecutor
from contextlib import AbstractContextManager
from dataclasses import asdict, dataclass
from typing import IO, Any, Optional, Union

from ..batch import MANIFEST, Entry, Manifest, apart, each_once, files_of, result_of, spared
from ..csv_tables import in_units
from ..diagnosis import faults_of, said
from ..files import Trouble, beside, bytes_of, named, say, show, shown, sweep, text_and_sum, write_whole
from ..records import Output
from ..refusal import Refusal
from ..text import run
from ..units import count

DESCRIPTION = "Runs texts through the engine. Without FILE, or where it is -, the text comes from standard input."
EPILOG = """\
examples:
  noskjerf run hour.txt
  noskjerf run < hour.txt
  noskjerf run hours/*.txt --out results               results/hours/NAME.out for each NAME.txt
  find . -name '*.txt' | noskjerf run --files-from - --out results
  noskjerf run hours/*.txt --out results --resume      those that aren't there yet
  noskjerf run hours/*.txt --out results --format csv  four tables over all the hours

formats:
  text  to the byte what mitigate prints (docs/FORMAT.md); where several texts go to standard
        output, each has its name before it
  json  an object for each text, on a line of its own; faults has what diagnose finds
  csv   the tables verdicts, sellers, curves and refusals over all texts: with --out a file each,
        else one after the other with an empty line between; at and fault of a refusal are the line
        and what stands there of the first value at fault

Numbers are the engine's: quantities in hundredths of a MW, prices in 0.0001 dollar per MWh;
demand, left and withheld in hundred-millionths of a MW. With --units the csv tables are in MW and
dollars.

results:
  A result keeps the path of its text: below the current folder, else its whole path without the
  root. It is written whole or not at all, and never over one that is there, unless --overwrite
  says so: where one is there, nothing is run. A text that is named twice is run once.
  --resume skips a text whose result is there, if the manifest has it with this version and the same
  sum; it counts in the summary and the status. Any other result that is there is compared with what
  its text comes to; it stays as it is, and where it differs that is trouble. A batch that is killed
  may leave a file .NAME.(8 letters).tmp; --resume and --overwrite remove those of their results.
  manifest.jsonl has a line for each text: file, sha256, status (accepted, refused or trouble),
  format, result, version, and the refusal's number and line or what the trouble is. Batches add to
  it; of two lines about a result the later holds."""

ENDINGS = {"text": ".out", "json": ".json"}
STACK = 4 << 20
AHEAD = 4

TABLES = {
    "verdicts": ("file", "interval", "constraint", "verdict", "demand", "left"),
    "sellers": ("file", "interval", "constraint", "portfolio", "withheld"),
    "curves": ("file", "interval", "resource", "end", "price"),
    "refusals": ("file", "refusal", "line", "part", "sentence", "at", "fault"),
}
Row = tuple[Union[int, str, None], ...]
Taking = Callable[[str, Output], None]
Telling = Callable[[Entry], None]


def add(subparsers: Any) -> None:
    """Adds the parser."""
    parser = subparsers.add_parser("run", help="run texts through the engine", description=DESCRIPTION, epilog=EPILOG)
    parser.add_argument("files", metavar="FILE", nargs="*", help="a text; - is standard input")
    parser.add_argument("--files-from", metavar="FILE", help="a list of texts, a line each or parted by zero bytes; - is standard input")
    parser.add_argument("--out", metavar="DIR", help="the folder for the results, made where it isn't there (default: standard output)")
    again = parser.add_mutually_exclusive_group()
    again.add_argument("--resume", action="store_true", help="skip texts whose results are there")
    again.add_argument("--overwrite", action="store_true", help="write over results that are there")
    parser.add_argument("--jobs", metavar="N", type=_jobs, default=_cpus(), help="how many texts at once (default: %(default)s)")
    parser.add_argument("--format", choices=("text", "json", "csv"), default="text", help="what is written (default: %(default)s)")
    parser.add_argument("--units", action="store_true", help="write csv tables in MW and dollars")
    parser.set_defaults(main=main)


def _jobs(argument: str) -> int:
    if not argument.isascii() or not argument.isdigit() or not 1 <= int(argument) <= 1024:
        raise argparse.ArgumentTypeError(f"{argument!r} is not a number from 1 to 1024")
    return int(argument)


def _cpus() -> int:
    return len(os.sched_getaffinity(0)) if hasattr(os, "sched_getaffinity") else os.cpu_count() or 1


@dataclass(frozen=True)
class Ran:
    """A text that was run, the sum of its file, and what it came to; or what the manifest has of it, where its result is there."""

    path: str
    sha256: str | None
    came: Output | Trouble | Entry


@dataclass
class Tally:
    """How many texts came to what; those whose results were there already are counted with the others."""

    accepted: int = 0
    refused: int = 0
    trouble: int = 0
    there: int = 0

    def status(self) -> int:
        """The status of the whole."""
        return 2 if self.trouble else 1 if self.refused else 0

    def summary(self) -> str:
        """The last line."""
        total = self.accepted + self.refused + self.trouble
        trouble = f", {self.trouble:,} with trouble" if self.trouble else ""
        there = f"; {self.there:,} of them there already" if self.there else ""
        return f"{count(total, 'text')}: {self.accepted:,} accepted, {self.refused:,} refused{trouble}{there}"


def main(args: argparse.Namespace) -> int:
    """Runs the texts."""
    _asked_well(args)
    args.files = _files(args)
    if args.out is not None:
        args.files = each_once(args.files)
        _free(args)
        _folder(args.out)
    told: list[Entry] = []
    with _taking(args) as take:
        tally = _run_all(args, take, _telling(args, told))
    if told:
        Manifest(args.out).add(told)
    if len(args.files) != 1 or args.out is not None:
        say(tally.summary())
    return tally.status()


def _asked_well(args: argparse.Namespace) -> None:
    """Refuses options that say nothing together."""
    if args.out is None and (args.resume or args.overwrite):
        raise Trouble("--resume and --overwrite are about the results in a folder, which --out names")
    if args.units and args.format != "csv":
        raise Trouble("--units is about the tables of --format csv")
    if args.resume and args.format == "csv":
        raise Trouble("--resume is about a result for each text, and --format csv has tables over all of them")


def _files(args: argparse.Namespace) -> list[str]:
    """The texts that are named, and those of the list."""
    if args.files_from is None:
        files: list[str] = args.files or ["-"]
    else:
        files = [*args.files, *files_of(args.files_from)]
    if [*files, args.files_from].count("-") > 1:
        raise Trouble("standard input is named twice")
    return files


def _free(args: argparse.Namespace) -> None:
    """Refuses names that collide or are taken, before anything is run."""
    if args.format != "csv":
        apart(args.files, ENDINGS[args.format])
    results = _results(args)
    spared(args.files, [*results, os.path.join(args.out, MANIFEST)])
    if args.resume or args.overwrite:
        sweep(results)
        return
    there = [result for result in results if os.path.exists(result)]
    if there:
        more = f", and {len(there) - 1:,} more" if len(there) > 1 else ""
        instead = "--files-from takes lists of any length" if args.format == "csv" else "--resume skips what is there"
        raise Trouble(f"{shown(there[0])} is there already{more}: {instead}, --overwrite writes it again")


def _results(args: argparse.Namespace) -> list[str]:
    """The files that results are written to."""
    if args.format == "csv":
        return [_table_file(args.out, name) for name in TABLES]
    return [os.path.join(args.out, result_of(path, ENDINGS[args.format])) for path in args.files]


def _table_file(out: str, name: str) -> str:
    return os.path.join(out, f"{name}.csv")


def _folder(path: str) -> None:
    try:
        os.makedirs(path, exist_ok=True)
    except OSError as error:
        raise Trouble(f"{shown(path)}: {error.strerror}") from error


def _telling(args: argparse.Namespace, told: list[Entry]) -> Telling:
    """What takes a text's line of the manifest. The tables of csv take their names at the end, and so do their lines."""
    if args.out is None:
        return lambda entry: None
    manifest = Manifest(args.out)
    return told.append if args.format == "csv" else lambda entry: manifest.add([entry])


def _run_all(args: argparse.Namespace, take: Taking, tell: Telling) -> Tally:
    tally = Tally()
    with _progress(args) as step, contextlib.closing(_each_ran(args.files, args.jobs, _done(args))) as results:
        for ran in results:
            step(_taken(args, ran, take, tell, tally))
    return tally


def _done(args: argparse.Namespace) -> dict[str, Entry]:
    """The texts whose results are there, with what the manifest has of them."""
    if not args.resume:
        return {}
    done = Manifest(args.out).done()
    results = {path: result_of(path, ENDINGS[args.format]) for path in args.files}
    return {path: done[result] for path, result in results.items() if result in done and os.path.exists(os.path.join(args.out, result))}


def _taken(args: argparse.Namespace, ran: Ran, take: Taking, tell: Telling, tally: Tally) -> str | None:
    """Hands a result on and counts it; answers what standard error has of it."""
    came = ran.came
    if isinstance(came, Entry):
        tally.there += 1
        _count(tally, came.status == "accepted")
        return None
    try:
        if isinstance(came, Trouble):
            raise came
        _hand_on(ran.path, came, take, args.out is not None)
        tell(_entry(args, ran, came))
    except Stopped:
        raise
    except Trouble as trouble:
        tally.trouble += 1
        _tell_trouble(args, ran, trouble, tell)
        return str(trouble)
    _count(tally, came.refusal is None)
    return None if came.refusal is None else f"{named(ran.path)}: {said(came.refusal)}"


def _count(tally: Tally, accepted: bool) -> None:
    if accepted:
        tally.accepted += 1
    else:
        tally.refused += 1


def _entry(args: argparse.Namespace, ran: Ran, came: Output) -> Entry:
    result = None if args.format == "csv" else result_of(ran.path, ENDINGS[args.format])
    if came.refusal is None:
        return Entry(ran.path, ran.sha256, "accepted", args.format, result)
    return Entry(ran.path, ran.sha256, "refused", args.format, result, came.refusal.number, came.refusal.line)


def _tell_trouble(args: argparse.Namespace, ran: Ran, trouble: Trouble, tell: Telling) -> None:
    """A line of the manifest for a text without a result. Where the manifest takes none, its own trouble was told."""
    with contextlib.suppress(Trouble):
        tell(Entry(ran.path, ran.sha256, "trouble", args.format, trouble=str(trouble)))


class Stopped(Trouble):
    """Standard output takes no more; the others needn't be tried."""


def _hand_on(path: str, came: Output, take: Taking, to_files: bool) -> None:
    try:
        take(path, came)
    except Trouble as trouble:
        if to_files:
            raise
        raise Stopped(str(trouble)) from trouble


def _each_ran(files: list[str], jobs: int, done: Mapping[str, Entry]) -> Generator[Ran, None, None]:
    """What each text comes to, in order; a few are run ahead."""
    threading.stack_size(STACK)
    pool = ThreadPoolExecutor(max_workers=jobs)
    waiting: deque[Future[Ran]] = deque()
    try:
        for path in files:
            waiting.append(pool.submit(_ran, path, done.get(path)))
            if len(waiting) >= AHEAD * jobs:
                yield waiting.popleft().result()
        while waiting:
            yield waiting.popleft().result()
    finally:
        pool.shutdown(wait=False, cancel_futures=True)


def _ran(path: str, done: Entry | None) -> Ran:
    try:
        text, sha256 = text_and_sum(path)
    except Trouble as trouble:
        return Ran(path, None, trouble)
    return Ran(path, sha256, done if done is not None and done.sha256 == sha256 else run(text))


@contextlib.contextmanager
def _progress(args: argparse.Namespace) -> Iterator[Callable[[Optional[str]], None]]:
    """What takes the line of each text: on a terminal there is a bar."""
    bar = _bar(len(args.files)) if _wants_bar(args) else None

    def step(line: str | None) -> None:
        if bar is None:
            if line is not None:
                say(line)
            return
        if line is not None:
            bar.write(line, file=sys.stderr)
        bar.update()

    try:
        yield step
    finally:
        if bar is not None:
            bar.close()


def _wants_bar(args: argparse.Namespace) -> bool:
    on_terminal = sys.stderr is not None and sys.stderr.isatty()
    apart = args.out is not None or sys.stdout is None or not sys.stdout.isatty()
    return on_terminal and apart and len(args.files) > 1


def _bar(total: int) -> Any:
    try:
        from tqdm import tqdm
    except ImportError:
        return None
    return tqdm(total=total, unit="text", file=sys.stderr, leave=False)


@contextlib.contextmanager
def _taking(args: argparse.Namespace) -> Iterator[Taking]:
    """What takes each text's result."""
    if args.format == "csv":
        with _tables(args.out, args.overwrite) as tables:
            yield lambda path, output: _add_rows(tables, path, output, args.units)
        return
    rendered = _as_text if args.format == "text" else _as_json
    many = len(args.files) > 1

    def take(path: str, output: Output) -> None:
        data = rendered(path, output)
        if args.out is not None:
            _write(args, os.path.join(args.out, result_of(path, ENDINGS[args.format])), data)
        else:
            heading = f"==> {named(path)} <==\n".encode() if many and args.format == "text" else b""
            show(heading + data)

    yield take


def _write(args: argparse.Namespace, result: str, data: bytes) -> None:
    """Writes a result. One that is there is compared where the batch is resumed: it stays, and another is trouble."""
    if not args.resume or not os.path.exists(result):
        _folder(os.path.dirname(result))
        write_whole(result, data, args.overwrite)
    elif bytes_of(result, "a result") != data:
        raise Trouble(f"{shown(result)}: it is there, and isn't what its text comes to; --overwrite writes it again")


def _as_text(path: str, output: Output) -> bytes:
    return output.printed


def _as_json(path: str, output: Output) -> bytes:
    refusal = output.refusal
    told = {
        "file": shown(path),
        "accepted": refusal is None,
        "pages": [asdict(page) for page in output.pages],
        "refusal": refusal and {"number": refusal.number, "line": refusal.line, "part": refusal.part, "sentence": refusal.sentence},
        "faults": [] if refusal is None else [asdict(fault) for fault in faults_of(refusal)],
    }
    return json.dumps(told).encode() + b"\n"


@contextlib.contextmanager
def _tables(out: str | None, over: bool) -> Iterator[dict[str, IO[bytes]]]:
    """The files of the four tables, with their names lines. They take their names, or go to standard output, when all are written."""
    with contextlib.ExitStack() as stack:
        files: dict[str, IO[bytes]] = {}
        for name, names in TABLES.items():
            files[name] = stack.enter_context(_scratch() if out is None else beside(_table_file(out, name), over))
            files[name].write(_lines([names]))
        yield files
        for file in files.values():
            file.flush()
        for i, name in enumerate(TABLES if out is None else ()):
            files[name].seek(0)
            show((b"\n" if i else b"") + files[name].read())


def _scratch() -> AbstractContextManager[IO[bytes]]:
    return tempfile.TemporaryFile()


def _add_rows(tables: dict[str, IO[bytes]], path: str, output: Output, units: bool) -> None:
    name, refusal = shown(path), output.refusal
    rows: dict[str, list[Row]] = {
        "verdicts": [(name, p.interval, v.constraint, int(v.finding), v.demand, v.left) for p in output.pages for v in p.verdicts],
        "sellers": [(name, p.interval, s.constraint, s.portfolio, s.withheld) for p in output.pages for s in p.sellers],
        "curves": [(name, p.interval, c.resource, s.end, s.price) for p in output.pages for c in p.curves for s in c.steps],
        "refusals": [] if refusal is None else [(name, refusal.number, refusal.line, refusal.part, refusal.sentence, *_first_fault(refusal))],
    }
    for table, lines in rows.items():
        tables[table].write(_lines(in_units(TABLES[table], line) if units else line for line in lines))


def _first_fault(refusal: Refusal) -> Row:
    """The line of the first value at fault, and what is wrong there."""
    return next(((fault.line, str(fault)) for fault in faults_of(refusal)), (None, None))


def _lines(rows: Iterable[Row]) -> bytes:
    written = io.StringIO()
    csv.writer(written, lineterminator="\n").writerows(rows)
    return written.getvalue().encode("utf-8", "surrogateescape")
