"""Numbers as the engine takes them: whole and within their bits. A wrong one is an error that names it."""

from __future__ import annotations

import ctypes
import math
import numbers
import operator
import re
from collections.abc import Iterable, Mapping, Sequence, Set
from decimal import Decimal
from typing import TYPE_CHECKING

from .amounts import LOW, TOP, advice, due

if TYPE_CHECKING:
    from typing_extensions import TypeGuard

TOP_U32 = (1 << 32) - 1
TOP_U64 = (1 << 64) - 1


def whole(what: str, value: object, low: int = LOW, top: int = TOP) -> int:
    """A whole number of Python or of numpy. A number with a decimal point is an error that says what to write: nobody can tell whether
    it is meant in MW and dollars or in the engine's units.

    >>> whole("price", 3)
    3
    >>> whole("price", 3.5)
    Traceback (most recent call last):
    TypeError: price: a whole number of units of 0.0001 dollar is due, not the float 3.5: write dollars(3.5)
    """
    number = value if type(value) is int else _integer(what, value)
    if not low <= number <= top:
        raise OverflowError(f"{what}: a number from {low} to {top} is due")
    return number


def _integer(what: str, value: object) -> int:
    if type(value).__name__ in ("bool", "bool_"):
        raise TypeError(f"{what}: a whole number is due, not {value}")
    if isinstance(value, (numbers.Real, Decimal, str)) and not isinstance(value, numbers.Integral):
        raise _with_a_point(what, value)
    try:
        return int.__index__(operator.index(value))  # type: ignore[arg-type]
    except TypeError:
        raise TypeError(f"{what}: a whole number is due, not {_kind(value)}") from None


def _with_a_point(what: str, value: numbers.Real | Decimal | str) -> TypeError | ValueError:
    """The error for a decimal number or a text: what to write in its place."""
    if not _finite(value):
        return ValueError(f"{what}: {value} is no whole number")
    field = re.sub(r"\[[0-9]+\]", "", what).rpartition(".")[2]
    said = f"{value!r}"[:40] if isinstance(value, str) else f"{value}"[:40]
    write = advice(field, value, lambda unit, amount: f"{unit.call}({said})" if unit.call else f"{amount}")
    return TypeError(f"{what}: {due(field)}, not the {_kind(value)} {said}{write}")


def _finite(value: numbers.Real | Decimal | str) -> bool:
    if isinstance(value, Decimal):
        return value.is_finite()
    return isinstance(value, (str, numbers.Rational)) or math.isfinite(value)


def column(what: str, values: object, low: int = LOW, top: int = TOP) -> tuple[int, ...]:
    """The numbers of a list, an array or a Series.

    >>> column("shadow", [500000, 0])
    (500000, 0)
    """
    return tuple(
        value if _is_whole(value, low, top) else whole(f"{what}[{i}]", value, low, top) for i, value in enumerate(items(what, values))
    )


def _is_whole(value: object, low: int, top: int) -> TypeGuard[int]:
    """The common case, so that a name is put together for other numbers only."""
    return type(value) is int and low <= value <= top


def rows(what: str, names: Sequence[str], table: object, low: int = LOW, top: int = TOP) -> list[tuple[int, ...]]:
    """The rows of a table: a DataFrame or a mapping with these columns, or rows with as many numbers.

    >>> rows("steps", ("end", "price"), [(15000, 300000), (30000, 900000)])
    [(15000, 300000), (30000, 900000)]
    >>> rows("steps", ("end", "price"), {"price": [7], "end": [15000]})
    [(15000, 7)]
    """
    if _has_columns(table):
        return _by_columns(what, names, table, low, top)
    return [_row(what, i, names, row, low, top) for i, row in enumerate(items(what, table))]


def _has_columns(table: object) -> bool:
    return isinstance(table, Mapping) or (hasattr(table, "columns") and hasattr(table, "itertuples"))


def _by_columns(what: str, names: Sequence[str], table: object, low: int, top: int) -> list[tuple[int, ...]]:
    columns = []
    for name in names:
        try:
            values = table[name]  # type: ignore[index]
        except KeyError:
            raise ValueError(f"{what}: there is no column {name!r}") from None
        columns.append(column(f"{what}.{name}", values, low, top))
    same_length(what, dict(zip(names, columns)))
    return list(zip(*columns))


def _row(what: str, i: int, names: Sequence[str], row: object, low: int, top: int) -> tuple[int, ...]:
    if type(row) is not tuple and all(hasattr(row, name) for name in names):
        values: tuple[object, ...] = tuple(getattr(row, name) for name in names)
    else:
        values = row if type(row) is tuple else tuple(items(f"{what}[{i}]", row))
    if len(values) != len(names):
        raise ValueError(f"{what}[{i}]: {len(names)} numbers are due ({' '.join(names)}), not {len(values)}")
    return tuple(
        value if _is_whole(value, low, top) else whole(f"{what}[{i}].{name}", value, low, top) for name, value in zip(names, values)
    )


def items(what: str, values: object) -> Iterable[object]:
    """What can be gone through in its order."""
    if isinstance(values, (str, bytes, bytearray, memoryview, Mapping, Set)):
        raise TypeError(f"{what}: a list is due, not {_kind(values)}")
    try:
        return iter(values)  # type: ignore[call-overload, no-any-return]
    except TypeError:
        raise TypeError(f"{what}: a list is due, not {_kind(values)}") from None


def same_length(what: str, columns: Mapping[str, Sequence[int]]) -> None:
    """Refuses columns of several lengths."""
    lengths = {name: len(values) for name, values in columns.items()}
    if len(set(lengths.values())) > 1:
        said = ", ".join(f"{name} {length}" for name, length in lengths.items())
        raise ValueError(f"{what}: the columns have several lengths ({said})")


def of_kind(what: str, value: object, *kinds: type) -> None:
    """Refuses a value of another kind."""
    if not isinstance(value, kinds):
        due = " or ".join(kind.__name__ for kind in kinds)
        raise TypeError(f"{what}: {due} is due, not {_kind(value)}")


def _kind(value: object) -> str:
    return "None" if value is None else type(value).__name__


def cells(values: Sequence[int]) -> ctypes.Array[ctypes.c_int64]:
    """Numbers of 64 bits, lent to the engine. There is always a cell, so that the pointer is never null."""
    return (ctypes.c_int64 * max(1, len(values)))(*values)


def cells_u32(values: Sequence[int]) -> ctypes.Array[ctypes.c_uint32]:
    """Numbers of 32 bits without a sign, lent to the engine."""
    return (ctypes.c_uint32 * max(1, len(values)))(*values)
