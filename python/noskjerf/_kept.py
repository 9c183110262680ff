"""Cells that a caller keeps and the engine is lent for change: copied, pickled and compared."""

from __future__ import annotations

import copy
import ctypes
import threading
from typing import Any, ClassVar, TypeVar

Self = TypeVar("Self", bound="Kept")


class Kept:
    """Cells that calls change, one call after the other. A copy and what comes of a pickle have cells of their own; two are equal where
    their cells are."""

    # how a person calls it
    _what: ClassVar[str]

    def __init__(self) -> None:
        self._lock = threading.Lock()
        self._state = self._blank()

    @classmethod
    def _blank(cls) -> ctypes.Array[Any]:
        """As many cells as the engine wants, all 0."""
        raise NotImplementedError

    def copy(self: Self) -> Self:
        """One of its own that stands where this one does."""
        return copy.copy(self)

    def __copy__(self: Self) -> Self:
        other = type(self).__new__(type(self))
        other.__setstate__(self.__getstate__())
        return other

    def __deepcopy__(self: Self, memo: dict[int, Any]) -> Self:
        other = memo[id(self)] = type(self).__new__(type(self))
        other.__setstate__(copy.deepcopy(self.__getstate__(), memo))
        return other

    def __getstate__(self) -> dict[str, Any]:
        """What a copy or a pickle keeps: the cells as numbers, and no lock."""
        kept = {name: value for name, value in self.__dict__.items() if name != "_lock"}
        return {**kept, "_state": self._cells()}

    def __setstate__(self, kept: dict[str, Any]) -> None:
        state = self._blank()
        if len(kept["_state"]) != len(state):
            raise ValueError(f"the {self._what} has {len(kept['_state'])} cells, and this version of noskjerf keeps {len(state)}")
        state[:] = kept["_state"]
        self.__dict__.update(kept)
        self._lock = threading.Lock()
        self._state = state

    def __eq__(self, other: object) -> bool:
        if not isinstance(other, Kept) or self._what != other._what:
            return NotImplemented
        return self._cells() == other._cells()

    # it changes, so that it is no key
    __hash__ = None  # type: ignore[assignment]

    def _cells(self) -> tuple[int, ...]:
        """All that is kept, as it stands between two calls."""
        with self._lock:
            return tuple(self._state)

    def _lent(self) -> tuple[Any, int]:
        return self._state, len(self._state)
