"""What is due on a line of a text: the names of a table, or its columns with the ids that come next. The lines before it were taken by the
engine; here only their ids and the names of their tables are looked at."""

from __future__ import annotations

import re
from collections.abc import Iterator, Sequence
from dataclasses import dataclass

from .parts import (
    CHARGES,
    DISPATCH,
    FACTORS,
    INTERVAL_TABLES,
    MONTH,
    OPENING_TABLES,
    PARAMETER,
    POINTS,
    SHADOW,
    STARTS,
    STEPS,
    Names,
)

TABLES = (*OPENING_TABLES, *INTERVAL_TABLES)
# after an interval comes the next one
FOLLOWS = dict(zip(TABLES, (*TABLES[1:], SHADOW)))
# tables whose count of lines is fixed: nothing else is due before the last of them
COUNTED = (MONTH, CHARGES, PARAMETER)
TAKEN = re.compile(rb"-|-?\d+(?: -?\d+)*")

Ids = tuple[int, ...]


def names_line(names: Names) -> bytes:
    """The line of names of a table."""
    return " ".join(names).encode()


@dataclass(frozen=True)
class Row:
    """A line of values that is due: its table, the range of each id that it begins with, and the pair that a shift factor comes after."""

    names: Names
    ids: tuple[range, ...] = ()
    after: Ids | None = None

    def suits(self, ids: Sequence[int | None]) -> bool:
        """Whether a line with these ids is due."""
        return all(i in due for i, due in zip(ids, self.ids)) and (self.after is None or tuple(i or 0 for i in ids) > self.after)

    def first(self) -> Ids:
        """The least ids that are due."""
        if self.after is None:
            return tuple(due[0] for due in self.ids)
        resource, constraint = self.after
        return (resource, constraint + 1) if constraint + 1 in self.ids[1] else (resource + 1, 0)

    def sample(self) -> bytes:
        """A line that is due, with zeros past its ids."""
        ids = self.first()
        return b" ".join(b"%d" % value for value in (*ids, *(0,) * (len(self.names) - len(ids))))

    def words(self) -> str:
        """The columns, with the ids that are due.

        >>> Row(STEPS, (range(1, 4),)).words(), Row(STARTS, (range(2, 3),)).words()
        ('<resource> <end> <price>, resource 1 to 3', '2 <portfolio> <start>')
        >>> Row(FACTORS, (range(3), range(4)), after=(1, 2)).words(), Row(FACTORS, (range(3), range(4)), after=(2, 2)).words()
        ('<resource> <constraint> <factor>, resource 1 to 2, constraint 0 to 3, past 1 2', '2 3 <factor>')
        """
        ids, after = self._left()
        due = dict(zip(self.names, ids))
        columns = " ".join(str(due[name][0]) if len(due.get(name, ())) == 1 else f"<{name}>" for name in self.names)
        ranges = [f"{name} {ids[0]} to {ids[-1]}" for name, ids in due.items() if len(ids) > 1]
        past = [] if after is None else [f"past {' '.join(map(str, after))}"]
        missing = ["or -"] if self.names == PARAMETER else []
        return ", ".join([columns, *ranges, *past, *missing])

    def _left(self) -> tuple[tuple[range, ...], Ids | None]:
        """The ranges of ids that are left, and the pair that they come after where the ranges don't say so."""
        if self.after is None:
            return self.ids, None
        (resource, constraint), (resources, constraints) = self.after, self.ids
        if constraint == constraints[-1]:
            return (resources[resource + 1 :], constraints), None
        if resource == resources[-1]:
            return (resources[resource:], constraints[constraint + 1 :]), None
        return (resources[resource:], constraints), self.after


@dataclass(frozen=True)
class Due:
    """What is due on a line: the table that it stands in, if any, how many lines of values this has before it, and the last of these; then
    the line of values, the line of names and the text's end, where they are due."""

    table: Names | None
    before: int
    last: Ids
    row: Row | None
    names: Names | None
    end: bool

    def choices(self) -> Iterator[tuple[str, bytes | None]]:
        """Each in words, with a line that is one; None stands for the text's end."""
        if self.row is not None:
            yield self.row.words(), self.row.sample()
        if self.names is not None:
            yield f'the names line "{" ".join(self.names)}"', names_line(self.names)
        if self.end:
            yield "the end of the text", None

    def sample(self) -> bytes:
        """A line that is due."""
        return next(line for _, line in self.choices() if line is not None)


def due_after(lines: Sequence[bytes]) -> Due | None:
    """What is due after lines of the form. None where these can't be followed.

    >>> due_after([b"month", b"25", b"portfolio seller", b"0 1"]).row.words()
    '1 <seller>'
    """
    walk = _Walk()
    try:
        for line in lines:
            walk.take(line)
        return walk.due()
    except ValueError:
        return None


class _Walk:
    """The table that was come to, the ids and values of its lines, and how many lines each table has."""

    def __init__(self) -> None:
        self.table: Names | None = None
        self.rows: list[Ids] = []
        self.counts: dict[Names, int] = {}

    def following(self) -> Names:
        return MONTH if self.table is None else FOLLOWS[self.table]

    def take(self, line: bytes) -> None:
        if line == names_line(self.following()):
            self.table, self.rows = self.following(), []
        else:
            self.rows.append(self._values(line))
        if self.table is not None:
            self.counts[self.table] = len(self.rows)

    def _values(self, line: bytes) -> Ids:
        values = tuple(line.split(b" "))
        if self.table is None or not TAKEN.fullmatch(line) or len(values) != len(self.table):
            raise ValueError(f"{line!r} is neither a line of {self.table} nor the names of the next table")
        return (0,) if line == b"-" else tuple(map(int, values))

    def due(self) -> Due:
        row = None if self.table is None else self._row(self.table)
        held = row is not None and self.table in COUNTED
        whole = row is None and self.table in (CHARGES, PARAMETER)
        last = self.rows[-1] if self.rows else ()
        return Due(self.table, len(self.rows), last, row, None if held else self.following(), whole)

    def _row(self, table: Names) -> Row | None:
        count = len(self.rows)
        if table in (MONTH, PARAMETER):
            return None if count else Row(table)
        if table == FACTORS:
            return self._factor()
        resources = self.counts.get(STARTS, 0)
        if table in (STEPS, POINTS):
            return self._of_a_group(table, resources)
        if table == CHARGES and count == resources:
            return None
        return Row(table, (range(count, count + 1),))

    def _of_a_group(self, table: Names, resources: int) -> Row | None:
        last = self.rows[-1][0] if self.rows else 0
        if self.rows and last not in range(resources):
            raise ValueError(f"resource {last} of {resources}")
        return Row(table, (range(last, resources),)) if resources else None

    def _factor(self) -> Row | None:
        resources, constraints = self.counts[DISPATCH], self.counts[SHADOW]
        after = self.rows[-1][:2] if self.rows else None
        if after is not None and not (after[0] in range(resources) and after[1] in range(constraints)):
            raise ValueError(f"resource and constraint {after} of {resources} and {constraints}")
        if not resources * constraints or after == (resources - 1, constraints - 1):
            return None
        return Row(FACTORS, (range(resources), range(constraints)), after)
