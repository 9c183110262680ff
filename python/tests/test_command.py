"""The command's manners: help, version, statuses, standard input, outputs that fail, Ctrl-C."""

from __future__ import annotations

import fcntl
import os
import pty
import resource
import signal
import subprocess
import termios
import time
from array import array
from pathlib import Path
from typing import IO

import pytest
from noskjerf import MAX_TEXT, __version__
from noskjerf.commands import NAMES

from .cases import DATA, NAMED, T
from .process import COMMAND, environment, noskjerf

PRINTED = NAMED["T"].printed
REFUSED = DATA / "B17_bid_start_below_default.txt"
ACCEPTED = DATA / "T.txt"


def test_help_names_every_command_and_has_examples() -> None:
    done = noskjerf("--help")
    assert (done.status, done.lines) == (0, [])
    assert all(f"    {name}" in done.out.decode() for name in NAMES)
    assert b"examples:" in done.out


@pytest.mark.parametrize("name", NAMES)
def test_each_command_has_help_with_an_example(name: str) -> None:
    done = noskjerf(name, "--help")
    assert (done.status, done.lines) == (0, [])
    assert f"\n  noskjerf {name}" in done.out.decode()


def test_version() -> None:
    assert noskjerf("--version").out.decode() == f"noskjerf {__version__}\n"


@pytest.mark.parametrize(
    "arguments",
    [[], ["fly"], ["run", "--fly"], ["run", "--jobs", "0"], ["run", "--jobs", "x"], ["run", "--format", "xml"], ["new", "--resources", "65"], ["text"], ["--vers"]],
)
def test_wrong_arguments_are_trouble_on_one_line(arguments: list[str]) -> None:
    done = noskjerf(*arguments)
    assert done.status == 2
    assert done.out == b""
    assert done.line.startswith("noskjerf: ")
    assert "--help" in done.line


@pytest.mark.parametrize("arguments", [["run"], ["run", "-"]])
def test_a_text_comes_from_standard_input(arguments: list[str]) -> None:
    done = noskjerf(*arguments, stdin=T)
    assert (done.status, done.out, done.lines) == (0, PRINTED, [])


def test_on_a_terminal_it_says_that_it_waits() -> None:
    terminal, own = pty.openpty()
    running = subprocess.Popen([*COMMAND, "run"], stdin=own, stdout=subprocess.PIPE, stderr=subprocess.PIPE, env=environment())
    os.close(own)
    os.write(terminal, T + b"\x04")
    out, err = running.communicate(timeout=30)
    os.close(terminal)
    assert (running.returncode, out) == (0, PRINTED)
    assert err == b"a text is read from the terminal; Ctrl-D ends it\n"


def test_a_refused_text_is_status_1_and_a_line_and_the_value_at_fault() -> None:
    done = noskjerf("run", REFUSED)
    assert (done.status, done.out) == (1, REFUSED.with_suffix(".out").read_bytes())
    assert done.lines == [
        f"{REFUSED}: opening, line 15: a bid reaches outside its default energy bid (refusal 11)",
        "  line 6: start of the bid of resource 0, 9999 (99.99 MW): the default energy bid reaches from 100 MW to 300 MW",
    ]


# ---- trouble
COMMANDS = [["run"], ["explain"], ["diagnose"], ["tables"]]


@pytest.mark.parametrize("command", COMMANDS, ids=" ".join)
@pytest.mark.parametrize("path", ["nowhere.txt", ".", "nowhere\n.txt", "caf\udce9.txt"])
def test_a_file_that_cannot_be_read_is_trouble(command: list[str], path: str, tmp_path: Path) -> None:
    done = noskjerf(*command, path, cwd=tmp_path)
    assert done.status == 2
    assert done.out == b""
    assert "directory" in done.line
    assert list(tmp_path.iterdir()) == []


@pytest.mark.skipif(os.geteuid() == 0, reason="root reads every file")
def test_a_file_without_leave_is_trouble(tmp_path: Path) -> None:
    closed = tmp_path / "closed.txt"
    closed.write_bytes(T)
    closed.chmod(0)
    assert "Permission denied" in noskjerf("run", closed).line


@pytest.mark.parametrize("command", COMMANDS[:3], ids=" ".join)
def test_standard_input_that_cannot_be_read_is_trouble(command: list[str]) -> None:
    with open("/dev/null", "wb") as only_written:
        done = subprocess.run([*COMMAND, *command], stdin=only_written, capture_output=True, env=environment(), timeout=60)
    assert (done.returncode, done.stdout) == (2, b"")
    assert done.stderr.decode().splitlines()[0].endswith("standard input: Bad file descriptor")


WRITING = [
    ["--help"],
    ["--version"],
    ["run", "--help"],
    ["run", str(ACCEPTED)],
    ["run", str(ACCEPTED), str(REFUSED)],
    ["run", str(ACCEPTED), "--format", "json"],
    ["run", str(ACCEPTED), "--format", "csv"],
    ["explain", "3"],
    ["explain", str(REFUSED)],
    ["diagnose", str(REFUSED)],
    ["new"],
]


@pytest.mark.parametrize("arguments", WRITING, ids=" ".join)
def test_a_full_disk_is_trouble(arguments: list[str]) -> None:
    with open("/dev/full", "wb") as full:
        done = noskjerf(*arguments, stdout=full)
    assert done.status == 2
    assert done.line == "noskjerf: standard output: No space left on device"


@pytest.mark.parametrize("arguments", WRITING, ids=" ".join)
def test_a_broken_pipe_is_trouble(arguments: list[str]) -> None:
    reading, writing = os.pipe()
    os.close(reading)
    done = noskjerf(*arguments, stdout=writing)
    os.close(writing)
    assert done.status == 2
    assert done.line == "noskjerf: standard output: Broken pipe"


@pytest.mark.parametrize("arguments", WRITING, ids=" ".join)
def test_a_closed_output_is_trouble(arguments: list[str]) -> None:
    done = subprocess.run(["sh", "-c", 'exec "$@" >&-', "sh", *COMMAND, *arguments], stderr=subprocess.PIPE, env=environment(), timeout=60)
    assert done.returncode == 2
    assert done.stderr == b"noskjerf: standard output: it is closed\n"


def test_a_closed_input_is_trouble() -> None:
    done = subprocess.run(["sh", "-c", 'exec "$@" <&-', "sh", *COMMAND, "diagnose"], capture_output=True, env=environment(), timeout=60)
    assert (done.returncode, done.stdout) == (2, b"")
    assert done.stderr == b"noskjerf: standard input: it is closed\n"


@pytest.mark.parametrize("stderr", ["2>&-", "2>/dev/full"])
def test_standard_error_that_fails_changes_no_status(stderr: str) -> None:
    for arguments, status in ((["run", str(REFUSED)], 1), (["run", "nowhere"], 2)):
        done = subprocess.run(["sh", "-c", f'exec "$@" {stderr}', "sh", *COMMAND, *arguments], stdout=subprocess.PIPE, env=environment(), timeout=60)
        assert done.returncode == status


def small_files() -> None:
    resource.setrlimit(resource.RLIMIT_FSIZE, (50, 50))


@pytest.mark.parametrize("kind", ["text", "json", "csv"])
def test_a_result_that_cannot_be_written_whole_is_not_written_at_all(kind: str, tmp_path: Path) -> None:
    done = noskjerf("run", "T.txt", "--out", tmp_path / "out", "--format", kind, preexec_fn=small_files, cwd=DATA)
    assert done.status == 2
    assert "File too large" in done.lines[0]
    assert {path.name: path.read_bytes() for path in (tmp_path / "out").iterdir()} in ({}, {"manifest.jsonl": b""})


@pytest.mark.parametrize("arguments", [["tables", str(ACCEPTED), "-o", "out"], ["new", "-o", "out"]], ids=" ".join)
def test_other_files_are_written_whole_or_not_at_all(arguments: list[str], tmp_path: Path) -> None:
    done = noskjerf(*arguments, cwd=tmp_path, preexec_fn=small_files)
    assert done.status == 2
    assert done.line == "noskjerf: out: File too large"
    assert list(tmp_path.iterdir()) == []


def test_an_old_result_stays_where_the_new_one_fails(tmp_path: Path) -> None:
    old = tmp_path / "T.out"
    old.write_text("old\n")
    assert noskjerf("run", "T.txt", "--out", tmp_path, "--overwrite", preexec_fn=small_files, cwd=DATA).status == 2
    assert {path.name: path.read_bytes() for path in tmp_path.iterdir()} == {"T.out": b"old\n", "manifest.jsonl": b""}


def test_a_link_stays_a_link(tmp_path: Path) -> None:
    (tmp_path / "T.out").symlink_to(tmp_path / "elsewhere")
    assert noskjerf("run", "T.txt", "--out", tmp_path, cwd=DATA).status == 0
    assert (tmp_path / "T.out").is_symlink()
    assert (tmp_path / "elsewhere").read_bytes() == PRINTED


def test_a_device_is_written_to_as_it_stands(tmp_path: Path) -> None:
    (tmp_path / "T.out").symlink_to("/dev/full")
    done = noskjerf("run", "T.txt", "--out", tmp_path, "--overwrite", cwd=DATA)
    assert done.status == 2
    assert done.lines[0] == f"{tmp_path / 'T.out'}: No space left on device"


def test_a_missing_library_is_trouble_told_once() -> None:
    done = noskjerf("run", ACCEPTED, REFUSED, env=environment(NOSKJERF_LIBRARY="/nowhere/lib.so"))
    assert done.status == 2
    assert "/nowhere/lib.so" in done.line
    assert "python/build" in done.line


def test_an_endless_file_is_refused_by_18() -> None:
    done = noskjerf("run", "/dev/zero")
    assert (done.status, done.out) == (1, b"refusal line\n18 1\n")
    assert noskjerf("run", stdin=b"x" * (MAX_TEXT + 1)).out == done.out


# ---- Ctrl-C
def until_read(pipe: IO[bytes]) -> None:
    """Waits until all that was written to a pipe is read."""
    unread = array("i", [1])
    for _ in range(1200):
        fcntl.ioctl(pipe, termios.FIONREAD, unread)
        if not unread[0]:
            return
        time.sleep(0.05)


@pytest.mark.parametrize("arguments", [["run"], ["run", str(ACCEPTED), "-", "--format", "csv", "--out", "out"], ["explain"], ["diagnose"]], ids=" ".join)
@pytest.mark.parametrize(("number", "status"), [(signal.SIGINT, 130), (signal.SIGTERM, 143)])
def test_ctrl_c_ends_quietly_with_130(arguments: list[str], number: int, status: int, tmp_path: Path) -> None:
    running = subprocess.Popen(
        [*COMMAND, *arguments], stdin=subprocess.PIPE, stdout=subprocess.PIPE, stderr=subprocess.PIPE, env=environment(), cwd=tmp_path
    )
    assert running.stdin is not None
    running.stdin.write(b"month\n")
    running.stdin.flush()
    until_read(running.stdin)
    running.send_signal(number)
    out, err = running.communicate(timeout=20)
    assert (running.returncode, out, err) == (status, b"", b"")
    assert [path for path in tmp_path.rglob("*") if path.is_file()] == []
