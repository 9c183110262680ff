"""The shared library: where it is found, and its functions with their types."""

from __future__ import annotations

import ctypes
import functools
import os
import threading
from ctypes import POINTER, c_char_p, c_int64, c_size_t, c_uint8, c_uint32, c_uint64, c_void_p
from pathlib import Path
from typing import Any

FILE = "libnoskjerf.so"
VARIABLE = "NOSKJERF_LIBRARY"
LINE = "gcc -shared -o python/noskjerf/libnoskjerf.so -Wl,--whole-archive target/lib/libnoskjerf.a -Wl,--no-whole-archive"

# A call takes at most 144 KB of stack.
STACK = 1 << 20

_I64 = POINTER(c_int64)
_U64 = POINTER(c_uint64)
_U32 = POINTER(c_uint32)
_U8 = POINTER(c_uint8)
_STATE = [_I64, c_size_t]
_BOOK = [_U32, c_size_t, _U32, c_size_t, c_uint32, c_uint32]
_COSTS = [c_size_t, _I64, c_size_t, _I64, c_size_t]
_PART = [c_int64, c_size_t, _I64, c_size_t]
_CURVE = [_U64, c_size_t, _I64, c_size_t]
_INTERVAL = [c_size_t, _I64, c_size_t, c_size_t, _I64, c_size_t, _I64, c_size_t, c_int64]

# what a function answers, and what it takes
_Signature = tuple[Any, list[Any]]

TEXT_FUNCTIONS: dict[str, _Signature] = {
    "noskjerf_room": (c_size_t, []),
    "noskjerf_told": (c_int64, [c_char_p, c_size_t, _U8, c_size_t, _U64, c_size_t]),
    "noskjerf_bid": (c_uint64, [c_uint64, c_int64, c_size_t, _I64, c_size_t]),
    "noskjerf_default": (c_int64, [*_COSTS, *_CURVE]),
    "noskjerf_join": (c_int64, [*_PART, *_PART, *_CURVE]),
    "noskjerf_gas_run": (c_size_t, _BOOK),
    "noskjerf_gas_default": (c_int64, [*_BOOK, *_COSTS, *_CURVE]),
    "noskjerf_classroom": (c_int64, [c_size_t, *_CURVE]),
}

HOUR_FUNCTIONS: dict[str, _Signature] = {
    "noskjerf_state_room": (c_size_t, []),
    "noskjerf_open": (c_int64, [c_int64, c_size_t, _I64, c_size_t, c_size_t, _I64, c_size_t, *_STATE]),
    "noskjerf_interval": (c_int64, [*_STATE, *_INTERVAL, _I64, c_size_t]),
    "noskjerf_pass": (c_int64, [*_STATE, *_INTERVAL, _I64, c_size_t]),
    "noskjerf_why": (c_int64, [*_STATE, *_INTERVAL, _I64, c_size_t]),
    "noskjerf_pivotal": (c_int64, [*_STATE, *_INTERVAL, c_uint64, _U64, c_size_t]),
    "noskjerf_curve": (c_int64, [*_STATE, c_size_t, *_CURVE]),
    "noskjerf_five_minute": (c_int64, [*_STATE, c_size_t, *_CURVE]),
    "noskjerf_hour_bid": (c_int64, [*_STATE, c_size_t, *_CURVE]),
    "noskjerf_default_of": (c_int64, [*_STATE, c_size_t, *_CURVE]),
}

DAY_FUNCTIONS: dict[str, _Signature] = {
    "noskjerf_day": (c_int64, [_U32, c_size_t, c_uint32, c_uint32, c_uint32]),
    "noskjerf_designation": (c_int64, [_U32, c_size_t, _U32, c_size_t]),
    "noskjerf_mark": (c_int64, [_U32, c_size_t, c_size_t, _I64, c_size_t]),
}


class LibraryError(OSError):
    """The shared library is missing, can't be loaded, or lacks a function."""


def path() -> Path:
    """Where the shared library is looked for: what NOSKJERF_LIBRARY names, else the file beside the package."""
    named = os.environ.get(VARIABLE)
    return Path(named) if named else Path(__file__).with_name(FILE)


def call(name: str, *arguments: Any) -> int:
    """Calls a function of the library and answers its number."""
    _has_stack()
    answer: int = _function(name)(*arguments)
    return answer


def has_hours() -> bool:
    """Whether the library has the functions of an hour in numbers."""
    return all(hasattr(_library(), name) for name in HOUR_FUNCTIONS)


@functools.lru_cache(maxsize=None)
def _library() -> ctypes.CDLL:
    file = path()
    if not file.is_file():
        raise LibraryError(f"there is no {file}; `python/build` makes it, by this line in the project's folder: {LINE}")
    try:
        return ctypes.CDLL(str(file.resolve()))
    except OSError as error:
        raise LibraryError(f"{file} can't be loaded ({error}); `python/build` makes it, by this line in the project's folder: {LINE}") from error


@functools.lru_cache(maxsize=None)
def _function(name: str) -> Any:
    try:
        function = getattr(_library(), name)
    except AttributeError:
        raise LibraryError(f"{path()} has no {name}; `python/build` makes it whole, by this line in the project's folder: {LINE}") from None
    function.restype, function.argtypes = {**TEXT_FUNCTIONS, **HOUR_FUNCTIONS, **DAY_FUNCTIONS}[name]
    return function


_thread = threading.local()


def _has_stack() -> None:
    """Refuses to call from a thread whose stack is too small: the call would end the process."""
    if not hasattr(_thread, "stack"):
        _thread.stack = _stack_size()
    if _thread.stack < STACK:
        raise RuntimeError(
            f"this thread has a stack of {_thread.stack >> 10} KiB and the engine wants {STACK >> 10}: "
            f"call threading.stack_size({STACK}) before the thread is started"
        )


def _stack_size() -> int:
    """The size of this thread's stack, or what is wanted where the system doesn't tell."""
    own = ctypes.CDLL(None)
    if not hasattr(own, "pthread_getattr_np"):
        return STACK
    own.pthread_self.restype = c_size_t
    attributes = (c_uint64 * 32)()
    if own.pthread_getattr_np(c_size_t(own.pthread_self()), attributes) != 0:
        return STACK
    start, size = c_void_p(), c_size_t()
    own.pthread_attr_getstack(attributes, ctypes.byref(start), ctypes.byref(size))
    own.pthread_attr_destroy(attributes)
    return size.value
