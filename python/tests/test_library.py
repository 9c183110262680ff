"""The shared library: its functions as the header has them, and what is said where it is missing."""

from __future__ import annotations

import ctypes
import os
import re
import subprocess
import sys
from pathlib import Path
from typing import Any

import noskjerf
import pytest
from noskjerf import _library

from .cases import ROOT

C_TYPES: dict[str, Any] = {
    "size_t": ctypes.c_size_t,
    "int64_t": ctypes.c_int64,
    "uint64_t": ctypes.c_uint64,
    "uint32_t": ctypes.c_uint32,
    "uint8_t": ctypes.c_uint8,
}
PROTOTYPE = re.compile(r"^(\w+) +(noskjerf_\w+)\(([^;{]*)\);", re.MULTILINE)


def c_type(declared: str) -> Any:
    """The type of a parameter such as `const int64_t *steps`."""
    kind = C_TYPES[declared.replace("const ", "").split()[0]]
    return ctypes.POINTER(kind) if "*" in declared else kind


def prototypes() -> dict[str, tuple[Any, list[Any]]]:
    """What the headers in c/ declare."""
    text = "\n".join(path.read_text() for path in sorted((ROOT / "c").glob("noskjerf*.h")))
    text = re.sub(r"/\*.*?\*/", "", text, flags=re.DOTALL)
    found = {}
    for answer, name, parameters in PROTOTYPE.findall(text):
        declared = [] if parameters == "void" else [parameter.strip() for parameter in parameters.split(",")]
        found[name] = (C_TYPES[answer], [c_type(parameter) for parameter in declared])
    return found


def as_declared(signature: tuple[Any, list[Any]]) -> tuple[Any, list[Any]]:
    """A signature with its text as the header has it: bytes are lent as `const uint8_t *`."""
    answer, parameters = signature
    return answer, [ctypes.POINTER(ctypes.c_uint8) if each is ctypes.c_char_p else each for each in parameters]


def test_the_functions_of_texts_are_those_of_the_header() -> None:
    declared = prototypes()
    assert {"noskjerf_told", "noskjerf_gas_default"} <= set(declared)
    for name, signature in _library.TEXT_FUNCTIONS.items():
        assert as_declared(signature) == declared[name], name


def test_the_functions_of_hours_are_those_of_the_header() -> None:
    declared = prototypes()
    if "noskjerf_open" not in declared:
        pytest.skip("no header in c/ has noskjerf_open yet")
    for name, signature in _library.HOUR_FUNCTIONS.items():
        assert signature == declared[name], name


def test_the_functions_of_tallies_are_those_of_the_header() -> None:
    declared = prototypes()
    assert set(_library.DAY_FUNCTIONS) == {"noskjerf_day", "noskjerf_designation", "noskjerf_mark"}
    for name, signature in _library.DAY_FUNCTIONS.items():
        assert signature == declared[name], name


def test_the_limits_are_those_of_the_header() -> None:
    header = (ROOT / "c" / "noskjerf.h").read_text()
    assert f"#define NOSKJERF_MAX_TEXT {noskjerf.MAX_TEXT}\n" in header
    assert "#define NOSKJERF_EDGES 13\n#define NOSKJERF_PRICES 11\n" in header
    assert f"#define NOSKJERF_CHARGES {len(noskjerf.Charges().in_order())}\n" in header


def said_with(library: str, code: str) -> str:
    """What Python says of code where NOSKJERF_LIBRARY names a file."""
    environment = {**os.environ, "NOSKJERF_LIBRARY": library, "PYTHONPATH": str(ROOT / "python")}
    ended = subprocess.run([sys.executable, "-c", code], env=environment, capture_output=True, text=True)
    assert ended.returncode == 1, ended
    return ended.stderr.splitlines()[-1]


RUN = "import noskjerf; print(noskjerf.__version__); noskjerf.run('')"


def test_a_missing_library_is_an_error_with_the_line_that_builds_it(tmp_path: Path) -> None:
    said = said_with(str(tmp_path / "none.so"), RUN)
    assert said.startswith("noskjerf._library.LibraryError: there is no ")
    assert "python/build" in said
    assert said.endswith(_library.LINE)


def test_a_file_that_is_no_library_is_an_error(tmp_path: Path) -> None:
    file = tmp_path / "text.so"
    file.write_text("no library")
    said = said_with(str(file), RUN)
    assert "can't be loaded" in said
    assert said.endswith(_library.LINE)
    assert "there is no " in said_with(str(tmp_path), RUN)


def test_a_library_without_a_function_is_an_error(tmp_path: Path) -> None:
    file = tmp_path / "empty.so"
    subprocess.run(["gcc", "-shared", "-o", str(file), "-x", "c", os.devnull], check=True)
    said = said_with(str(file), RUN)
    assert "has no noskjerf_room" in said
    assert said.endswith(_library.LINE)


def test_the_line_that_builds_it_is_the_one_of_the_script() -> None:
    line = _library.LINE.replace("python/noskjerf/libnoskjerf.so", '"$out"').replace("target/lib/libnoskjerf.a", '"$lib"')
    assert f"\n{line}\n" in (ROOT / "python" / "build").read_text()


def test_the_version_is_that_of_the_rust_crate() -> None:
    assert f'version = "{noskjerf.__version__}"' in (ROOT / "rust" / "Cargo.toml").read_text()


def test_the_page_on_the_package_has_the_line() -> None:
    assert f"\n    {_library.LINE}\n" in (ROOT / "python" / "README.md").read_text()
