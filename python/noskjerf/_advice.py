"""Where the packages come from that some calls need."""

from __future__ import annotations

import shlex
import sys

# where Debian's own packages stand
DEBIAN = "/usr/lib/python3/dist-packages"


def served_by_debian() -> bool:
    """Whether this Python finds Debian's packages: a virtual environment or another Python on the same machine doesn't."""
    return DEBIAN in sys.path


def bringing(*names: str) -> str:
    """The command that brings packages to this Python."""
    if served_by_debian():
        return " ".join(["apt-get install", *(f"python3-{name}" for name in names)])
    return " ".join([shlex.quote(sys.executable), "-m pip install", *names])
