"""hydro/README.md: its commands print what it says, and the lines of C and Rattle are those of the files. Its Rust is run by cargo, its Python as doctests."""

from __future__ import annotations

import os
import re
import subprocess
from pathlib import Path

import pytest

ROOT = Path(__file__).resolve().parents[3]
README = (ROOT / "hydro" / "README.md").read_text("utf-8")
COMMANDS = re.findall(r"^```sh\n(.*?)^```\n(?:\n```prints\n(.*?)^```\n)?", README, re.MULTILINE | re.DOTALL)
FILES = {"c": ROOT / "hydro" / "example.c", "rattle": ROOT / "crates" / "hydro_unit" / "src" / "main.rt"}


@pytest.mark.parametrize(("commands", "printed"), [each for each in COMMANDS if each[1]])
def test_a_command_prints_what_the_page_says(commands: str, printed: str) -> None:
    environment = {name: value for name, value in os.environ.items() if name not in ("PYTHONPATH", "NOSKJERF_LIB", "NOSKJERF_HYDRO_LIBRARY")}
    done = subprocess.run(["sh", "-ec", commands], cwd=ROOT, env=environment, stdout=subprocess.PIPE, text=True, check=True)
    assert done.stdout == printed


def test_the_other_commands_are_those_of_the_tests() -> None:
    """They print where they stand and how long it took; hydro/run has run them."""
    others = [commands for commands, printed in COMMANDS if not printed]
    assert (len(COMMANDS), others) == (4, ["hydro/archive\n", "hydro/python/build\n"])
    assert all(f"\n{commands}" in (ROOT / "hydro" / "run").read_text() for commands in others)


@pytest.mark.parametrize("language", FILES)
def test_lines_of_a_file_stand_in_it(language: str) -> None:
    blocks = re.findall(rf"^```{language}\n(.*?)^```\n", README, re.MULTILINE | re.DOTALL)
    assert len(blocks) == 1
    assert f"\n{blocks[0]}" in FILES[language].read_text("utf-8")


@pytest.mark.parametrize("link", re.findall(r"\]\(([^)#]+)\)", README))
def test_a_link_leads_to_a_file(link: str) -> None:
    assert (ROOT / "hydro" / link).is_file()
