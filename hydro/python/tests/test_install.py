"""hydro/python/install: the module beside the package, in an environment of its own, and taken away again."""

from __future__ import annotations

import os
import shutil
import subprocess
import sys
from pathlib import Path

ROOT = Path(__file__).resolve().parents[3]
INSTALL = ROOT / "hydro" / "python" / "install"


def run(*words: object, python: Path) -> subprocess.CompletedProcess[str]:
    """Runs a command in a folder that Python finds nothing in."""
    environment = {name: value for name, value in os.environ.items() if name not in ("PYTHONPATH", "NOSKJERF_LIB")}
    environment["PYTHON"] = str(python)
    return subprocess.run([*map(str, words)], env=environment, cwd=python.parent, capture_output=True, text=True)


def test_the_module_stands_beside_the_package(tmp_path: Path) -> None:
    subprocess.run([sys.executable, "-m", "venv", "--without-pip", str(tmp_path)], check=True)
    python = tmp_path / "bin" / "python"
    refused = run(INSTALL, python=python)
    assert (refused.returncode, refused.stdout) == (1, "")
    assert refused.stderr == f"hydro/python/install: {python} finds no package noskjerf; python/install installs it\n"

    packages, = tmp_path.glob("lib/python3*/site-packages")
    shutil.copytree(ROOT / "python" / "noskjerf", packages / "noskjerf")
    for _ in range(2):
        assert run(INSTALL, python=python).stdout.endswith(f"the module is {packages / 'noskjerf_hydro'}\n")
    said = run(python, "-m", "noskjerf", "explain", "22", python=python)
    assert said.stdout.startswith("Refusal 22: a value outside its limits\n(the heat rate H is outside ")

    removed = run(INSTALL, "--remove", python=python)
    assert removed.stdout == f"hydro/python/install: {packages / 'noskjerf_hydro'} is removed\n"
    assert not (packages / "noskjerf_hydro").exists()
    assert "there is no refusal 22" in run(python, "-m", "noskjerf", "explain", "22", python=python).stderr
    assert run(INSTALL, "--remove", python=python).returncode == 1
    assert run(INSTALL, "--all", python=python).stderr == "hydro/python/install: usage: hydro/python/install [--remove]\n"
