"""The ten tables of a text as CSV files, and back. A file is called as its table; those of an interval have its number at the end.

The numbers are the engine's, as in a text, or MW and dollars (with `units`): then a shift factor is a fraction of 1 and an emission rate is
in tonnes. Both ways are exact.
"""

from __future__ import annotations

import contextlib
import csv
import io
import re
from collections.abc import Callable, Iterator, Sequence
from pathlib import Path
from typing import Union

from .amounts import UNIT_OF, advice, due, exact, written
from .files import Trouble, reason, shown
from .parts import CHARGES, INTERVAL_TABLES, MONTH, OPENING_TABLES, PARAMETER, STARTS, Names, Parts, Rows, Tables
from .parts import interval_of, interval_tables, opening_of, opening_tables
from .records import Interval, Opening

MISSING = "-"

Cell = Union[int, str, None]


def file_name(names: Names, interval: int | None = None) -> str:
    """The file of a table.

    >>> file_name(("constraint", "shadow"), 2)
    'constraint_shadow_2.csv'
    """
    return "_".join(names) + ("" if interval is None else f"_{interval}") + ".csv"


def csv_files(parts: Parts, units: bool = False) -> dict[str, str]:
    """The CSV files of a text's parts."""
    files = {file_name(names): _csv(names, rows, units) for names, rows in opening_tables(parts.opening).items()}
    for i, interval in enumerate(parts.intervals, 1):
        files.update((file_name(names, i), _csv(names, rows, units)) for names, rows in interval_tables(interval).items())
    return files


def _csv(names: Names, rows: Rows, units: bool) -> str:
    made = io.StringIO()
    lines = [(in_units(names, row) if units else row) or (MISSING,) for row in rows]
    csv.writer(made, lineterminator="\n").writerows([names, *lines])
    return made.getvalue()


def in_units(names: Sequence[str], row: Sequence[Cell]) -> tuple[Cell, ...]:
    """A row with its numbers in MW and dollars, where a column has such a unit.

    >>> in_units(("resource", "end", "price"), (0, 30000, 378402))
    (0, '300.00', '37.8402')
    """
    return tuple(written(cell, UNIT_OF[name]) if name in UNIT_OF and isinstance(cell, int) else cell for name, cell in zip(names, row))


def from_folder(folder: str, units: bool = False) -> tuple[Opening, list[Interval]]:
    """The parts that a folder's tables make. Trouble names the file and line at fault."""
    count = _intervals(folder)
    opening = _opening(folder, _part(folder, OPENING_TABLES, None, units))
    intervals = [_interval(folder, i, _part(folder, INTERVAL_TABLES, i, units)) for i in range(1, count + 1)]
    return opening, intervals


def _intervals(folder: str) -> int:
    """How many intervals the folder has. A CSV file that is called otherwise would be left out unseen, and so is trouble."""
    opening = {file_name(names) for names in OPENING_TABLES}
    patterns = [re.compile(re.escape("_".join(names)) + r"_([1-9][0-9]{0,3})\.csv") for names in INTERVAL_TABLES]
    most = 0
    for name in _listed(folder):
        found = [match for match in (pattern.fullmatch(name) for pattern in patterns) if match]
        if found:
            most = max(most, int(found[0].group(1)))
        elif name.endswith(".csv") and name not in opening:
            raise Trouble(f"{shown(str(Path(folder, name)))}: no table is called so")
    return most


def _listed(folder: str) -> list[str]:
    try:
        return sorted(path.name for path in Path(folder).iterdir())
    except (OSError, ValueError) as error:
        raise Trouble(f"{shown(folder)}: {reason(error)}") from error


def _part(folder: str, order: Sequence[Names], interval: int | None, units: bool) -> Tables:
    return {names: _rows(Path(folder, file_name(names, interval)), names, units) for names in order}


def _rows(path: Path, names: Names, units: bool) -> Rows:
    """The rows of a file, those of one id together and the ids rising."""
    try:
        lines = list(csv.reader(io.StringIO(path.read_text("utf-8-sig"), newline=""), strict=True))
    except (OSError, ValueError, csv.Error) as error:
        raise Trouble(f"{shown(str(path))}: {reason(error)}") from error
    columns = _columns(path, names, lines[0] if lines else [])
    value = _amount if units else _number
    rows = []
    for number, line in enumerate(lines[1:], 2):
        if line:
            with _at(path, number):
                rows.append(_row(names, columns, line, value))
    return sorted(rows, key=lambda row: row[:1])


@contextlib.contextmanager
def _at(path: Path, number: int) -> Iterator[None]:
    """Names the file and the line of what is wrong."""
    try:
        yield
    except (ValueError, OverflowError) as error:
        raise Trouble(f"{shown(str(path))}, line {number}: {reason(error)}") from error


def _columns(path: Path, names: Names, header: list[str]) -> list[int]:
    found = [name.strip() for name in header]
    if sorted(found) != sorted(names):
        raise Trouble(f"{shown(str(path))}, line 1: the columns {','.join(names)} are due, not {shown(','.join(found)) or 'none'}")
    return [found.index(name) for name in names]


def _row(names: Names, columns: list[int], line: list[str], value: Callable[[str, str], int]) -> tuple[int, ...]:
    if len(line) != len(names):
        raise ValueError(f"{len(names)} values are due, not {len(line)}")
    values = [line[column].strip() for column in columns]
    if names == PARAMETER and values == [MISSING]:
        return ()
    return tuple(value(name, cell) for name, cell in zip(names, values))


def _number(name: str, cell: str) -> int:
    """A cell of a table in the engine's numbers. One with a decimal point is an error that says what to write."""
    if re.fullmatch(r"-?[0-9]{1,18}", cell) is None:
        write = advice(name, cell, lambda unit, amount: f"{amount} for {unit.of(cell)}")
        other = "; --units takes tables in MW and dollars" if write and name in UNIT_OF else ""
        raise ValueError(f"{name} is {cell[:40]!r}, and {due(name)}{write}{other}")
    return int(cell)


def _amount(name: str, cell: str) -> int:
    """A cell of a table in MW and dollars."""
    if name not in UNIT_OF:
        return _number(name, cell)
    unit = UNIT_OF[name]
    try:
        return exact(name, cell, unit)
    except (ValueError, OverflowError):
        of = f" of {unit.person}" if unit.person else ""
        raise ValueError(f"{name} is {cell[:40]!r}, and a number{of} with at most {unit.places} decimal places is due, such as 0.25") from None


def _opening(folder: str, tables: Tables) -> Opening:
    _one_row(folder, MONTH, None, tables)
    _, sellers, starts, steps, points, charges = (tables[names] for names in OPENING_TABLES)
    if [row[0] for row in charges] != [row[0] for row in starts]:
        raise Trouble(f"{shown(str(Path(folder, file_name(CHARGES))))}: a row for each resource of {file_name(STARTS)} is due")
    try:
        return opening_of(tables[MONTH][0][0], sellers, starts, steps, points, charges)
    except ValueError as error:
        raise Trouble(f"{shown(folder)}: {reason(error)}") from error


def _interval(folder: str, number: int, tables: Tables) -> Interval:
    _one_row(folder, PARAMETER, number, tables)
    shadow, dispatch, factors, ((*parameter,),) = (tables[names] for names in INTERVAL_TABLES)
    try:
        return interval_of(shadow, dispatch, factors, parameter[0] if parameter else None)
    except ValueError as error:
        raise Trouble(f"{shown(folder)}, interval {number}: {reason(error)}") from error


def _one_row(folder: str, names: Names, interval: int | None, tables: Tables) -> None:
    if len(tables[names]) != 1:
        raise Trouble(f"{shown(str(Path(folder, file_name(names, interval))))}: one row is due, not {len(tables[names])}")
