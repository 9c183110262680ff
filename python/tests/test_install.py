"""The set-up: the archive, the package and the command installed and removed, and the wheel."""

from __future__ import annotations

import os
import re
import shutil
import subprocess
import sys
import tempfile
import zipfile
from collections.abc import Iterator
from email.message import Message
from email.parser import Parser
from pathlib import Path

import pytest

import noskjerf

from .process import Ended

ROOT = Path(__file__).parents[2]
CASE_T = ROOT / "crates" / "mitigate" / "stdin"
PAGE_T = (ROOT / "crates" / "mitigate" / "stdout").read_bytes()
HAS_ARCHIVE = (ROOT / "target" / "lib" / "libnoskjerf.a").is_file()
needs_archive = pytest.mark.skipif(not HAS_ARCHIVE, reason="there is no target/lib/libnoskjerf.a, which ./archive writes")
X86_64 = 62


def run(*words: str | Path, **variables: str) -> Ended:
    """Runs a command of the project in no special folder, for the Python of the tests."""
    environment = {name: value for name, value in os.environ.items() if name not in ("NOSKJERF_LIBRARY", "PYTHONPATH", "PREFIX", "PYTHON")}
    environment.update({"PYTHON": sys.executable, **variables})
    done = subprocess.run(list(map(str, words)), cwd="/", env=environment, capture_output=True, timeout=120)
    return Ended(done.returncode, done.stdout, done.stderr.decode().splitlines())


def install(*words: str, **variables: str) -> Ended:
    return run(ROOT / "python" / "install", *words, **variables)


def said(ended: Ended) -> list[str]:
    """What is said of an installation that succeeds."""
    assert (ended.status, ended.lines) == (0, [])
    return [line[len("python/install: ") :] for line in ended.out.decode().splitlines() if line.startswith("python/install: ")]


def found(python: str | Path, **variables: str) -> Path:
    """The folder of the package that a Python finds by itself."""
    ended = run(python, "-c", "import noskjerf; print(noskjerf.__path__[0])", **variables)
    assert ended.status == 0, ended.lines
    return Path(ended.out.decode().strip())


def below(folder: Path) -> list[str]:
    return sorted(str(each.relative_to(folder)) for each in folder.rglob("*"))


def made_venv(folder: Path) -> Path:
    subprocess.run([sys.executable, "-m", "venv", "--without-pip", folder], check=True)
    return folder / "bin" / "python"


@needs_archive
def test_below_a_folder_of_its_own_and_removed(tmp_path: Path) -> None:
    prefix = tmp_path / "a folder" / "here"
    command = prefix / "bin" / "noskjerf"
    lines = said(install(PREFIX=str(prefix), NOSKJERF_LIBRARY=str(tmp_path / "another.so")))
    version = ".".join(map(str, sys.version_info[:3]))
    assert lines[0] == f"for {sys.executable}, Python {version}"
    assert f"{prefix / 'bin'} is not on your path" in lines
    assert lines[-1] == f"the command is {command}, noskjerf {noskjerf.__version__}"
    assert run(command, "run", CASE_T).out == PAGE_T
    assert b"no gas price in use" in run(command, "explain", "21").out
    packages = next(line.split("PYTHONPATH=")[1] for line in lines if "PYTHONPATH=" in line)
    assert found(sys.executable, PYTHONPATH=packages) == Path(packages) / "noskjerf"
    assert install("--remove", PREFIX=str(prefix)).status == 0
    assert below(tmp_path) == []


@needs_archive
def test_the_home_folder_is_where_python_looks(tmp_path: Path) -> None:
    home = {"HOME": str(tmp_path), "PREFIX": str(tmp_path / ".local")}
    lines = said(install(**home))
    assert found(sys.executable, HOME=str(tmp_path)).parents[3] == tmp_path / ".local"
    assert not any("PYTHONPATH" in line for line in lines)
    assert run(tmp_path / ".local" / "bin" / "noskjerf", "run", CASE_T, HOME=str(tmp_path)).out == PAGE_T
    assert install("--remove", **home).status == 0
    assert not (tmp_path / ".local").exists()


@needs_archive
def test_for_another_python_where_that_one_looks(tmp_path: Path) -> None:
    python = made_venv(tmp_path / "venv")
    before = below(tmp_path)
    lines = said(install(PYTHON=str(python)))
    assert lines[0].startswith(f"for {python}, Python ")
    assert any(line.endswith(f"this brings them: {python} -m pip install matplotlib pandas tqdm") for line in lines)
    assert found(python).parents[3] == tmp_path / "venv"
    assert run(tmp_path / "venv" / "bin" / "noskjerf", "run", CASE_T).out == PAGE_T
    assert install("--remove", PYTHON=str(python)).status == 0
    assert below(tmp_path) == before


@needs_archive
def test_what_was_there_before_stays(tmp_path: Path) -> None:
    (tmp_path / "bin").mkdir()
    (tmp_path / "lib" / "other").mkdir(parents=True)
    before = below(tmp_path)
    for _ in range(2):
        assert install(PREFIX=str(tmp_path)).status == 0
    assert run(tmp_path / "bin" / "noskjerf", "run", CASE_T, PYTHONDONTWRITEBYTECODE="").out == PAGE_T
    assert list(tmp_path.rglob("__pycache__")) != []
    assert install("--remove", PREFIX=str(tmp_path)).status == 0
    assert below(tmp_path) == before
    ended = install("--remove", PREFIX=str(tmp_path))
    assert ended.status == 1
    assert "noskjerf isn't installed in" in ended.line


@needs_archive
def test_a_folder_with_modules_named_like_pythons_own_is_no_trouble(tmp_path: Path) -> None:
    assert install(PREFIX=str(tmp_path / "here")).status == 0
    (tmp_path / "csv.py").write_text("raise SystemExit('this is not the module')")
    done = subprocess.run([tmp_path / "here" / "bin" / "noskjerf", "run", CASE_T], cwd=tmp_path, capture_output=True, check=True)
    assert done.stdout == PAGE_T


@pytest.fixture
def shared() -> Iterator[Path]:
    """A copy of the project's Python folder that everybody can read, and nobody but its owner can write."""
    with tempfile.TemporaryDirectory() as folder:
        os.chmod(folder, 0o755)
        shutil.copytree(ROOT / "python", Path(folder) / "python", ignore=shutil.ignore_patterns("tests", "__pycache__"))
        yield Path(folder)


def as_somebody_else() -> list[str]:
    """Root can write everywhere, so another user is asked."""
    return ["setpriv", "--reuid=65534", "--regid=65534", "--clear-groups"] if os.geteuid() == 0 else []


def test_without_rights_a_line_is_said(shared: Path) -> None:
    command = [*as_somebody_else(), str(shared / "python" / "install")]
    ended = run(*command, PYTHON="/usr/bin/python3")
    assert (ended.status, ended.out) == (1, b"")
    assert re.fullmatch(
        r"python/install: you have no right to write to /usr/local/\S+; PREFIX=\$HOME/.local python/install installs for you alone", ended.line
    )
    ended = run(*command, "--remove", PYTHON="/usr/bin/python3")
    assert (ended.status, ended.out) == (1, b"")
    assert ended.line.startswith("python/install: ")


@pytest.mark.skipif(os.geteuid() != 0, reason="a folder of somebody else's takes root")
def test_a_project_of_somebody_elses_is_told(shared: Path) -> None:
    (shared / "home").mkdir()
    os.chown(shared / "home", 65534, 65534)
    ended = run(*as_somebody_else(), shared / "python" / "install", PYTHON="/usr/bin/python3", PREFIX=str(shared / "home"))
    assert (ended.status, ended.out) == (1, b"")
    assert f"you have no right to write to {shared / 'python' / 'noskjerf'}" in ended.line


def test_where_pip_installed_it_pip_is_named(tmp_path: Path) -> None:
    python = made_venv(tmp_path / "venv")
    (next((tmp_path / "venv" / "lib").glob("python*")) / "site-packages" / "noskjerf-0.1.0.dist-info").mkdir(parents=True)
    for words in ("", "--remove"):
        ended = install(*words.split(), PYTHON=str(python))
        assert (ended.status, ended.out) == (1, b"")
        assert ended.line.endswith(f"{python} -m pip uninstall noskjerf takes it away")


def test_wrong_words_and_a_wrong_python_are_a_line() -> None:
    ended = install("--help")
    assert (ended.status, ended.line) == (2, "python/install: usage: python/install [--remove]")
    for python in ("/bin/false", "/nowhere/python3"):
        ended = install(PYTHON=python)
        assert (ended.status, ended.line) == (1, f"python/install: {python} is no Python of version 3.9 or later; PYTHON names another")


CRATES = ("", "_judgements", "_hour", "_curves", "_why", "_days", "_pivotal")
RT = """\
#!/bin/sh
# stands in for rt in a crate's folder: what is being proved after the first waits for the file seen, and then there is an archive
[ "$*" = lib ] || exit 9
name=$(basename "$PWD")
echo "fn number::larger: proved" >&2
until [ "$name" = noskjerf ] || [ -f ../../seen ]; do sleep 0.01; done
mkdir -p out
echo "int $name(void) { return 0; }" | gcc -x c -c -o "$name.o" -
ar rcs "out/lib$name.a" "$name.o"
"""


def empty_project(folder: Path, rt: str) -> dict[str, str]:
    """Puts ./archive alone into a folder, and answers an environment with a stand-in for rt."""
    shutil.copy(ROOT / "archive", folder)
    (folder / "bin").mkdir()
    for which in CRATES:
        (folder / "crates" / f"noskjerf{which}").mkdir(parents=True)
    (folder / "bin" / "rt").write_text(rt)
    (folder / "bin" / "rt").chmod(0o755)
    return {**os.environ, "PATH": f"{folder / 'bin'}:{os.environ['PATH']}"}


def test_the_archive_is_made_where_there_is_no_target_and_tells_of_each_crate_as_it_is_proved(tmp_path: Path) -> None:
    environment = empty_project(tmp_path, RT)
    with subprocess.Popen([tmp_path / "archive"], env=environment, stdout=subprocess.PIPE, text=True) as archive:
        assert archive.stdout is not None
        assert archive.stdout.readline() == "archive: noskjerf proved, for C\n"
        (tmp_path / "seen").touch()
        rest = archive.stdout.read().splitlines()
    assert archive.returncode == 0
    assert rest == [*(f"archive: noskjerf{which} proved, for C" for which in CRATES[1:]), "archive: target/lib/libnoskjerf.a"]
    made = subprocess.run(["ar", "t", tmp_path / "target" / "lib" / "libnoskjerf.a"], capture_output=True, text=True, check=True)
    assert sorted(made.stdout.split()) == sorted(f"noskjerf{which}.o" for which in CRATES)


def test_what_is_not_proved_is_shown_whole_and_makes_no_archive(tmp_path: Path) -> None:
    environment = empty_project(tmp_path, "#!/bin/sh\necho 'number/src/lib.rt:1:1: error'\necho 'rt: number NOT PROVED (exit 1, 3 s)' >&2\nexit 1\n")
    done = subprocess.run([tmp_path / "archive"], env=environment, capture_output=True, text=True)
    assert done.returncode == 1
    assert done.stdout == "number/src/lib.rt:1:1: error\nrt: number NOT PROVED (exit 1, 3 s)\n"
    assert not (tmp_path / "target" / "lib").exists()


@pytest.fixture(scope="module")
def wheel() -> Path:
    ended = run(ROOT / "python" / "wheel")
    assert (ended.status, ended.lines) == (0, [])
    return ROOT / ended.out.decode().split()[-1]


def metadata(wheel: Path) -> Message:
    with zipfile.ZipFile(wheel) as files:
        return Parser().parsestr(files.read(f"noskjerf-{noskjerf.__version__}.dist-info/METADATA").decode())


@needs_archive
def test_the_wheel_says_its_platform_and_that_is_the_librarys(wheel: Path) -> None:
    assert wheel.name == f"noskjerf-{noskjerf.__version__}-py3-none-manylinux_2_17_x86_64.whl"
    with zipfile.ZipFile(wheel) as files:
        library = files.read("noskjerf/libnoskjerf.so")
    assert library[:4] == b"\x7fELF"
    assert int.from_bytes(library[18:20], "little") == X86_64
    versions = [tuple(map(int, version.split(b"."))) for version in re.findall(rb"\0GLIBC_([0-9.]+)(?=\0)", library)]
    assert versions != []
    assert max(versions) <= (2, 17)


@needs_archive
def test_the_wheel_has_its_readme_and_extras(wheel: Path) -> None:
    told = metadata(wheel)
    readme = (ROOT / "python" / "README.md").read_text(encoding="utf-8")
    assert told.get_payload() == readme
    assert f"`{wheel.name}`" in readme
    assert told.get_all("Provides-Extra") == ["draw", "frames", "progress"]
    assert {re.sub("[\"' ]", "", line) for line in told.get_all("Requires-Dist", [])} == {
        "matplotlib;extra==draw",
        "pandas;extra==frames",
        "tqdm;extra==progress",
    }


@needs_archive
def test_the_wheel_is_installed_runs_and_names_pip(wheel: Path, tmp_path: Path) -> None:
    python = made_venv(tmp_path / "venv")
    options = ("--quiet", "--no-index", "--no-deps")
    assert run(sys.executable, "-m", "pip", "--python", python, "install", *options, wheel).status == 0
    command = tmp_path / "venv" / "bin" / "noskjerf"
    assert run(command, "run", CASE_T).out == PAGE_T
    ended = run(command, "draw", CASE_T, "-o", tmp_path / "hour.svg")
    assert (ended.status, ended.line) == (2, f"noskjerf: a picture needs matplotlib: {python} -m pip install matplotlib")
    ended = run(python, "-c", "import noskjerf; noskjerf.run('').to_frames()")
    assert ended.lines[-1] == f"ImportError: a table needs pandas: {python} -m pip install pandas"


def test_there_is_no_wheel_without_the_library(tmp_path: Path) -> None:
    shutil.copytree(ROOT / "python", tmp_path / "python", ignore=shutil.ignore_patterns("tests", "*.so", "*.egg-info", "__pycache__"))
    options = ("--no-deps", "--no-build-isolation", "--wheel-dir")
    ended = run(sys.executable, "-m", "pip", "wheel", *options, tmp_path / "wheel", tmp_path / "python")
    assert ended.status == 1
    assert any("there is no noskjerf/libnoskjerf.so; python/build makes it" in line for line in ended.lines)
    assert not list(tmp_path.rglob("*.whl"))
