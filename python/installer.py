"""Installs the package and the command noskjerf for the Python that runs this, and takes them away again. python/install runs it."""

from __future__ import annotations

import importlib.util
import json
import os
import shutil
import site
import subprocess
import sys
import sysconfig
from collections.abc import Iterator
from dataclasses import dataclass
from pathlib import Path
from typing import NoReturn

from noskjerf._advice import bringing, served_by_debian

ROOT = Path(__file__).resolve().parents[1]
PACKAGE = ROOT / "python" / "noskjerf"
USAGE = "python/install [--remove]"

# pictures, tables for pandas, the progress bar; the core needs none of them
WANTED = ("matplotlib", "pandas", "tqdm")

# sh reads the second line and hands the file to Python, whatever its path; Python takes it for a text
COMMAND = """\
#!/bin/sh
'''exec' "{python}" "$0" "$@"
' '''
import sys

if __name__ == "__main__":
    sys.path.insert(0, {packages!r})
    from noskjerf.command import entry

    entry()
"""


@dataclass(frozen=True)
class Place:
    """The folders of the package and of the command."""

    packages: Path
    commands: Path

    @property
    def package(self) -> Path:
        return self.packages / "noskjerf"

    @property
    def command(self) -> Path:
        return self.commands / "noskjerf"

    @property
    def note(self) -> Path:
        return self.package / "installed.json"

    def is_looked_in(self) -> bool:
        """Whether this Python looks there by itself."""
        folders = [*site.getsitepackages(), *([site.getusersitepackages()] if site.ENABLE_USER_SITE else [])]
        return str(self.packages) in folders


def say(line: str) -> None:
    print(f"python/install: {line}", flush=True)


def fail(line: str, status: int = 1) -> NoReturn:
    print(f"python/install: {line}", file=sys.stderr)
    raise SystemExit(status)


def schemes() -> Iterator[Place]:
    """The places of this Python's own ways to install."""
    for name in sysconfig.get_scheme_names():
        yield Place(Path(sysconfig.get_path("purelib", name)), Path(sysconfig.get_path("scripts", name)))


def place() -> Place:
    """Where to install: where this Python does by default, or below PREFIX, and there where this Python looks, if it looks there at all."""
    named = os.environ.get("PREFIX")
    if not named:
        return Place(Path(sysconfig.get_path("purelib")), Path(sysconfig.get_path("scripts")))
    prefix = os.path.abspath(named)
    for each in schemes():
        if str(each.commands) == os.path.join(prefix, "bin") and each.is_looked_in():
            return each
    below = {"base": prefix, "platbase": prefix}
    return Place(*(Path(sysconfig.get_path(which, "posix_prefix", below)) for which in ("purelib", "scripts")))


def is_closed(folder: Path) -> bool:
    """Whether nothing may be written to a folder, or to the one in which it would be made."""
    while not folder.exists():
        folder = folder.parent
    return not os.access(folder, os.W_OK | os.X_OK)


def check_rights(where: Place) -> None:
    for folder in (where.packages, where.commands):
        if is_closed(folder):
            advice = "" if "PREFIX" in os.environ else "; PREFIX=$HOME/.local python/install installs for you alone"
            fail(f"you have no right to write to {folder}{advice}")


def check_project() -> None:
    for folder in (PACKAGE, ROOT / "target"):
        if is_closed(folder):
            fail(f"you have no right to write to {folder}, in which it builds; a clone of your own can be written")


def check_pip(where: Place) -> None:
    if any(where.packages.glob("noskjerf-*.dist-info")):
        fail(f"pip has installed noskjerf in {where.packages}; {sys.executable} -m pip uninstall noskjerf takes it away")


def missing() -> list[str]:
    return [name for name in WANTED if importlib.util.find_spec(name) is None]


def bring_packages() -> list[str]:
    """Installs the packages of Debian that are missing, where that can be done, names those that are missing still, and answers those that it brought."""
    before = missing()
    if before and served_by_debian() and os.geteuid() == 0 and shutil.which("apt-get"):
        say(f"installs {' '.join(f'python3-{name}' for name in before)}, of Debian")
        line = f"apt-get update && {bringing(*before)} -y --no-install-recommends"
        subprocess.run(["sh", "-c", line], stdout=subprocess.DEVNULL, stderr=subprocess.DEVNULL, check=False)
        importlib.invalidate_caches()
    after = missing()
    if after:
        say(f"without {', '.join(after)} there are no pictures, no tables for pandas or no progress bar; this brings them: {bringing(*after)}")
    return [f"python3-{name}" for name in before if name not in after]


def build() -> None:
    """Makes the shared library, of the archive that NOSKJERF_LIB names, or of the project's own, which is made where it isn't there yet."""
    environment = {name: value for name, value in os.environ.items() if name != "NOSKJERF_LIBRARY"}
    if "NOSKJERF_LIB" not in environment and not (ROOT / "target" / "lib" / "libnoskjerf.a").is_file():
        say("proves the engine, which takes minutes; a line for each crate follows")
        subprocess.run([ROOT / "archive"], check=True)
    subprocess.run([ROOT / "python" / "build"], env=environment, check=True)


def make(folder: Path) -> list[str]:
    """Makes a folder and answers those that were not there."""
    new = [str(each) for each in (folder, *folder.parents) if not each.exists()]
    folder.mkdir(parents=True, exist_ok=True)
    return new


def noted(where: Place) -> dict[str, list[str]]:
    """What was noted as it was installed: the folders made and the packages brought."""
    if not where.note.is_file():
        return {"folders": [], "packages": []}
    note: dict[str, list[str]] = json.loads(where.note.read_text(encoding="utf-8"))
    return note


def put(where: Place, brought: list[str]) -> None:
    """Puts the package and the command in place, and a note of what that took."""
    before = noted(where)
    folders = [*make(where.packages), *make(where.commands), *before["folders"]]
    shutil.rmtree(where.package, ignore_errors=True)
    shutil.copytree(PACKAGE, where.package, ignore=shutil.ignore_patterns("__pycache__"))
    where.note.write_text(json.dumps({"folders": folders, "packages": [*before["packages"], *brought]}), encoding="utf-8")
    where.command.write_text(COMMAND.format(python=sys.executable, packages=str(where.packages)), encoding="utf-8")
    where.command.chmod(0o755)


def install(where: Place) -> None:
    check_rights(where)
    check_project()
    check_pip(where)
    say(f"for {sys.executable}, Python {'.'.join(map(str, sys.version_info[:3]))}")
    brought = bring_packages()
    build()
    put(where, brought)
    version = subprocess.run([where.command, "--version"], stdout=subprocess.PIPE, text=True, check=True).stdout.strip()
    say(f"the package is {where.package}")
    if not where.is_looked_in():
        say(f"this Python doesn't look there by itself; a program of yours needs PYTHONPATH={where.packages}")
    if str(where.commands) not in os.environ.get("PATH", "").split(os.pathsep):
        say(f"{where.commands} is not on your path")
    say(f"the command is {where.command}, {version}")


def remove(where: Place) -> None:
    check_pip(where)
    if not where.package.is_dir():
        fail(f"noskjerf isn't installed in {where.packages}; PYTHON and PREFIX have to be those that it was installed with")
    check_rights(where)
    note = noted(where)
    shutil.rmtree(where.package)
    where.command.unlink(missing_ok=True)
    for folder in sorted(note["folders"], key=len, reverse=True):
        if os.path.isdir(folder) and not os.listdir(folder):
            os.rmdir(folder)
    say(f"{where.package} and {where.command} are removed")
    if note["packages"]:
        say(f"Debian's packages that it brought stay; apt-get remove {' '.join(note['packages'])} takes them away")


def main(arguments: list[str]) -> None:
    try:
        if arguments == ["--remove"]:
            remove(place())
        elif not arguments:
            install(place())
        else:
            fail(f"usage: {USAGE}", 2)
    except subprocess.CalledProcessError as error:
        raise SystemExit(error.returncode) from None
    except OSError as error:
        fail(f"{error.filename}: {error.strerror}")


if __name__ == "__main__":
    main(sys.argv[1:])
