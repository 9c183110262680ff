"""What numbers, columns and tables may be handed over as."""

from __future__ import annotations

from collections.abc import Iterable, Mapping
from typing import Any, Protocol, SupportsIndex, TypeVar, Union


class Frame(Protocol):
    """A table of pandas: its columns are taken by their names."""

    @property
    def columns(self) -> Any: ...

    def itertuples(self) -> Iterable[Any]: ...


Record = TypeVar("Record")

# a whole number, also one of numpy
Number = SupportsIndex
Column = Iterable[Number]
# records, rows of numbers, a mapping of columns, or a DataFrame
Table = Union[Iterable[Union[Record, Column]], Mapping[str, Column], Frame]
Rows = Union[Iterable[Column], Mapping[str, Column], Frame]
