"""The shared library: its function as the header has it, and what is said where it is missing; one wording of 22; the version."""

from __future__ import annotations

import ctypes
import os
import re
import subprocess
import sys
from pathlib import Path
from typing import Any

import noskjerf_hydro
from noskjerf import explain
from noskjerf_hydro import _library

HYDRO = Path(__file__).resolve().parents[2]
C_TYPES: dict[str, Any] = {"size_t": ctypes.c_size_t, "int64_t": ctypes.c_int64, "uint64_t": ctypes.c_uint64}


def test_the_function_is_that_of_the_header() -> None:
    found = re.search(r"^int64_t noskjerf_hydro\(([^;]*)\);", (HYDRO / "noskjerf_hydro.h").read_text(), re.MULTILINE)
    assert found is not None
    declared = [parameter.replace("const ", "").split() for parameter in found.group(1).split(",")]
    types = [ctypes.POINTER(C_TYPES[kind]) if name.startswith("*") else C_TYPES[kind] for kind, name in declared]
    assert types == _library.PARAMETERS


def test_the_limits_are_those_of_the_header() -> None:
    header = (HYDRO / "noskjerf_hydro.h").read_text()
    assert f"#define NOSKJERF_HYDRO_HUBS {noskjerf_hydro.MAX_HUBS}\n" in header
    assert f"#define NOSKJERF_HYDRO_MONTHS {noskjerf_hydro.MAX_HORIZON}\n" in header
    assert f"#define NOSKJERF_HYDRO_PRICES {noskjerf_hydro.HUB_PRICES}\n" in header


def test_the_sentence_is_that_of_the_rust_crate() -> None:
    source = (HYDRO / "rust" / "src" / "lib.rs").read_text()
    assert re.findall(r'^ +22 => "(.*)",$', source, re.MULTILINE) == [explain(22).sentence]


def test_the_entry_has_the_limits_of_the_sentence() -> None:
    entry = explain(22)
    assert (entry.number, entry.examples) == (22, "")
    for limits in re.findall(r"[\d,]+ to [\d,]*\d", entry.sentence):
        assert limits in entry.when
    assert "##" not in entry.mend


def test_the_version_is_that_of_the_rust_crate() -> None:
    assert f'version = "{noskjerf_hydro.__version__}"' in (HYDRO / "rust" / "Cargo.toml").read_text()


def test_the_oldest_rust_is_the_engines() -> None:
    declared = [re.findall(r"^rust-version = .*$", (path / "rust" / "Cargo.toml").read_text(), re.MULTILINE) for path in (HYDRO, HYDRO.parent)]
    assert declared[0] == declared[1] != []


def said_with(library: Path) -> str:
    """What Python says where NOSKJERF_HYDRO_LIBRARY names a file."""
    code = "from noskjerf_hydro import *; Hydro(0, 1, 1, 0, 1, [Hub(0, 0, [0])]).default_curve()"
    path = os.pathsep.join(map(str, (HYDRO / "python", HYDRO.parent / "python")))
    environment = {**os.environ, "NOSKJERF_HYDRO_LIBRARY": str(library), "PYTHONPATH": path}
    ended = subprocess.run([sys.executable, "-c", code], env=environment, capture_output=True, text=True)
    assert ended.returncode == 1, ended
    return ended.stderr.splitlines()[-1]


def test_a_library_that_is_missing_or_no_library_is_an_error(tmp_path: Path) -> None:
    text, empty = tmp_path / "text.so", tmp_path / "empty.so"
    text.write_text("no library")
    subprocess.run(["gcc", "-shared", "-o", str(empty), "-x", "c", os.devnull], check=True)
    for file, said in [
        (tmp_path / "none.so", f"there is no {tmp_path / 'none.so'}; "),
        (tmp_path, f"there is no {tmp_path}; "),
        (text, f"{text} can't be loaded ("),
        (empty, f"{empty} has no noskjerf_hydro; "),
    ]:
        line = said_with(file)
        assert line.startswith(f"noskjerf._library.LibraryError: {said}")
        assert line.endswith("`hydro/python/build` makes it, in the project's folder")
