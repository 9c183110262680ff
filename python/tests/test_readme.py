"""The commands of python/README.md: what is said to be printed is."""

from __future__ import annotations

import re
import shlex
import subprocess
import sys
from pathlib import Path

from .cases import ROOT, T
from .process import environment

BLOCK = re.compile(r"^```sh desk\n(.*?)^```\n\n```prints\n(.*?)^```\n", re.MULTILINE | re.DOTALL)
BLOCKS = BLOCK.findall((ROOT / "python" / "README.md").read_text("utf-8"))


def test_the_commands_print_what_the_page_says(tmp_path: Path) -> None:
    """In one folder, in their order; hour.txt is Case T."""
    assert len(BLOCKS) == 6
    command, here = tmp_path / "bin" / "noskjerf", tmp_path / "here"
    command.parent.mkdir()
    here.mkdir()
    command.write_text(f'#!/bin/sh\nexec {shlex.quote(sys.executable)} -m noskjerf "$@"\n')
    command.chmod(0o755)
    (here / "hour.txt").write_bytes(T)
    path = environment(PATH=f"{command.parent}:{environment()['PATH']}", LC_ALL="C.UTF-8")
    for commands, due in BLOCKS:
        done = subprocess.run(["sh", "-c", commands], cwd=here, env=path, stdout=subprocess.PIPE, stderr=subprocess.STDOUT, text=True, timeout=60)
        assert done.stdout == due, commands
