"""The pack's own shared library: where it is found, and its function."""

from __future__ import annotations

import ctypes
import functools
import os
from ctypes import POINTER, c_int64, c_size_t, c_uint64
from pathlib import Path
from typing import Any

from noskjerf import LibraryError

FILE = "libnoskjerf_hydro.so"
VARIABLE = "NOSKJERF_HYDRO_LIBRARY"
NAME = "noskjerf_hydro"

# what the function takes; it answers a number of 64 bits
PARAMETERS: list[Any] = [
    *[c_int64] * 4,
    *[c_size_t] * 2,
    *[POINTER(c_int64), c_size_t],
    *[POINTER(c_uint64), c_size_t],
    *[POINTER(c_int64), c_size_t],
]


def path() -> Path:
    """Where the shared library is looked for: what NOSKJERF_HYDRO_LIBRARY names, else the file beside the module."""
    named = os.environ.get(VARIABLE)
    return Path(named) if named else Path(__file__).with_name(FILE)


def call(*arguments: Any) -> int:
    """Calls the function and answers its number."""
    answer: int = _function()(*arguments)
    return answer


@functools.lru_cache(maxsize=None)
def _function() -> Any:
    file = path()
    if not file.is_file():
        raise LibraryError(f"there is no {file}; `hydro/python/build` makes it, in the project's folder")
    try:
        function = getattr(ctypes.CDLL(str(file.resolve())), NAME)
    except OSError as error:
        raise LibraryError(f"{file} can't be loaded ({error}); `hydro/python/build` makes it, in the project's folder") from error
    except AttributeError:
        raise LibraryError(f"{file} has no {NAME}; `hydro/python/build` makes it, in the project's folder") from None
    function.restype, function.argtypes = c_int64, PARAMETERS
    return function
