"""The command as a process."""

from __future__ import annotations

import os
import subprocess
import sys
from dataclasses import dataclass
from pathlib import Path
from typing import Any

PACKAGE = Path(__file__).resolve().parents[1]
COMMAND = [sys.executable, "-m", "noskjerf"]


# the package is compiled once for all processes, also where Python is told to keep nothing
COMPILED = {"PYTHONPYCACHEPREFIX": str(PACKAGE.parent / "target" / "compiled"), "PYTHONDONTWRITEBYTECODE": ""}


def environment(**more: str) -> dict[str, str]:
    return {**os.environ, **COMPILED, "PYTHONPATH": str(PACKAGE), **more}


@dataclass(frozen=True)
class Ended:
    status: int
    out: bytes
    lines: list[str]

    @property
    def line(self) -> str:
        """The one line on standard error."""
        assert len(self.lines) == 1, self.lines
        return self.lines[0]

    @property
    def headlines(self) -> list[str]:
        """The lines on standard error, without those further in, which say more about the line before."""
        return [line for line in self.lines if not line.startswith(" ")]


def noskjerf(*arguments: str | Path, stdin: bytes = b"", **more: Any) -> Ended:
    """Runs the command to its end. It never shows a traceback."""
    more.setdefault("stdout", subprocess.PIPE)
    more.setdefault("env", environment())
    done = subprocess.run([*COMMAND, *map(str, arguments)], input=stdin, stderr=subprocess.PIPE, timeout=60, **more)
    assert b"Traceback" not in done.stderr, done.stderr.decode()
    return Ended(done.returncode, done.stdout or b"", done.stderr.decode().splitlines())
