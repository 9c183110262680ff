"""`noskjerf run --out` over many files: lists of them, names of results, nothing written over, the manifest and what is resumed."""

from __future__ import annotations

import fcntl
import hashlib
import json
import os
import signal
import subprocess
import threading
import time
from collections.abc import Callable
from pathlib import Path
from typing import Any

import pytest
from noskjerf import MAX_TEXT, __version__
from noskjerf.batch import Entry, Manifest, relative
from noskjerf.command import main
from noskjerf.files import Trouble, beside, write_whole

from .cases import DATA, NAMED, T
from .process import COMMAND, Ended, environment, noskjerf
from .test_run_command import NAMES, manifest, results

PRINTED = NAMED["T"].printed
OTHER = NAMED["S01_larger_first"]
REFUSED = NAMED["B17_bid_start_below_default"]


@pytest.fixture
def hours(tmp_path: Path) -> Path:
    """Two folders with a text of one name each, and a refused one."""
    for path, text in {"d1/h01.txt": T, "d2/h01.txt": OTHER.text, "d2/h02.txt": REFUSED.text}.items():
        (tmp_path / path).parent.mkdir(exist_ok=True)
        (tmp_path / path).write_bytes(text)
    return tmp_path


FILES = ["d1/h01.txt", "d2/h01.txt", "d2/h02.txt"]
RESULTS = {"d1/h01.out": PRINTED, "d2/h01.out": OTHER.printed, "d2/h02.out": REFUSED.printed}


def batch(hours: Path, *arguments: str, **more: Any) -> Ended:
    return noskjerf("run", "--out", "out", *arguments, cwd=hours, **more)


# ---- names of results
def test_results_keep_the_paths_of_their_texts(hours: Path) -> None:
    assert batch(hours, *FILES).lines[-1] == "3 texts: 2 accepted, 1 refused"
    assert results(hours / "out") == RESULTS


@pytest.mark.parametrize(
    "path", ["d1/h01.txt", "./d1/h01.txt", "d1//h01.txt", "d1/../d1/h01.txt", "d2/.././d1/h01.txt", "{here}/d1/h01.txt", "../{name}/d1/h01.txt"]
)
def test_a_text_has_one_result_however_it_is_spelled(path: str, hours: Path) -> None:
    batch(hours, path.format(here=hours, name=hours.name))
    assert results(hours / "out") == {"d1/h01.out": PRINTED}


@pytest.mark.parametrize("path", ["../h.txt", "../../../../../../../..{here}/../h.txt", "{here}/../h.txt", "link/../h.txt"])
def test_a_result_stays_in_its_folder(path: str, hours: Path) -> None:
    """A text that isn't below the current folder has its whole path there; .. after a link leads where the link leads."""
    inner = hours / "inner"
    inner.mkdir()
    (hours / "h.txt").write_bytes(T)
    (inner / "h.txt").write_bytes(OTHER.text)
    (inner / "link").symlink_to(hours / "d1")
    batch(inner, path.format(here=inner))
    assert results(inner / "out") == {f"{hours}/h.out".lstrip("/"): PRINTED}


def test_links_keep_their_own_names(hours: Path) -> None:
    (hours / "d3").symlink_to("d1")
    (hours / "again.txt").symlink_to("d1/h01.txt")
    batch(hours, "d1/h01.txt", "d3/h01.txt", "again.txt")
    assert results(hours / "out") == {name: PRINTED for name in ("d1/h01.out", "d3/h01.out", "again.out")}


@pytest.mark.parametrize("kind", ["text", "json", "csv"])
def test_a_text_that_is_named_twice_is_run_once(kind: str, hours: Path) -> None:
    done = batch(hours, "d1/h01.txt", "d1/h01.txt", "./d1/h01.txt", str(hours / "d1" / "h01.txt"), "--format", kind)
    assert (done.status, done.line) == (0, "1 text: 1 accepted, 0 refused")
    assert len(manifest(hours / "out")) == 1
    if kind == "csv":
        assert (hours / "out" / "verdicts.csv").read_text().count("\n") == 2


def test_names_that_collide_are_trouble_before_anything_is_run(hours: Path) -> None:
    (hours / "d1" / "h01.text").write_bytes(T)
    done = batch(hours, "d1/h01.txt", "d1/h01.text")
    assert (done.status, done.line) == (2, "noskjerf: d1/h01.txt and d1/h01.text would both be written to d1/h01.out")
    assert not (hours / "out").exists()


def test_names_that_are_no_utf_8(hours: Path) -> None:
    odd = os.fsdecode(b"caf\xe9\n.txt")
    (hours / odd).write_bytes(T)
    assert batch(hours, odd).status == 0
    assert results(hours / "out") == {os.fsdecode(b"caf\xe9\n.out"): PRINTED}
    assert [entry["file"] for entry in manifest(hours / "out")] == [odd]
    assert batch(hours, odd, "--resume").line == "1 text: 1 accepted, 0 refused; 1 of them there already"


def test_a_manifest_is_never_written_over_a_text(hours: Path) -> None:
    (hours / "manifest.jsonl").write_bytes(T)
    done = noskjerf("run", "manifest.jsonl", "--out", ".", cwd=hours)
    assert (done.status, done.line) == (2, "noskjerf: ./manifest.jsonl is a text, and a result would be written over it")
    assert (hours / "manifest.jsonl").read_bytes() == T


def test_names_do_not_depend_on_the_other_texts(tmp_path: Path, monkeypatch: pytest.MonkeyPatch) -> None:
    monkeypatch.chdir(tmp_path)
    assert [relative(path) for path in ("a.txt", "b/a.txt", "/b/a.txt", "/a.txt", ".hidden")] == ["a.txt", "b/a.txt", "b/a.txt", "a.txt", ".hidden"]


# ---- lists of files
@pytest.mark.parametrize("listed", [b"d1/h01.txt\nd2/h01.txt\n", b"d1/h01.txt\0d2/h01.txt\0", b"\xef\xbb\xbfd1/h01.txt\r\n\r\nd2/h01.txt"])
@pytest.mark.parametrize("name", ["list", "-"])
def test_texts_from_a_list(name: str, listed: bytes, hours: Path) -> None:
    (hours / "list").write_bytes(listed)
    done = batch(hours, "d2/h02.txt", "--files-from", name, stdin=listed)
    assert done.status == 1
    assert results(hours / "out") == RESULTS


def test_a_list_takes_any_length(hours: Path) -> None:
    """More names than a command line holds."""
    names = [f"{'d' * 200}/{'e' * 200}/{i:05d}.txt" for i in range(8000)]
    assert sum(len(name) for name in names) > os.sysconf("SC_ARG_MAX")
    first = hours / names[0]
    first.parent.mkdir(parents=True)
    first.write_bytes(T)
    done = batch(hours, "--files-from", "-", stdin="\n".join(names).encode())
    assert (done.status, done.lines[-1]) == (2, "8,000 texts: 1 accepted, 0 refused, 7,999 with trouble")
    assert results(hours / "out") == {names[0].replace(".txt", ".out"): PRINTED}


def test_a_list_without_names_and_one_that_is_not_there(hours: Path) -> None:
    done = batch(hours, "--files-from", "-")
    assert (done.status, done.line) == (0, "0 texts: 0 accepted, 0 refused")
    done = noskjerf("run", "--files-from", "nowhere")
    assert (done.status, done.line) == (2, "noskjerf: nowhere: No such file or directory")


@pytest.mark.parametrize("arguments", [["-", "--files-from", "-"], ["--files-from", "-"]])
def test_standard_input_is_a_list_or_a_text(arguments: list[str], hours: Path) -> None:
    assert batch(hours, *arguments, stdin=b"-\n").line == "noskjerf: standard input is named twice"


# ---- nothing is written over
@pytest.mark.parametrize("kind", ["text", "json", "csv"])
def test_a_later_batch_writes_over_nothing(kind: str, hours: Path) -> None:
    batch(hours, "d1/h01.txt", "--format", kind)
    before = results(hours / "out")
    (hours / "d1" / "h01.txt").write_bytes(OTHER.text)
    done = batch(hours, *FILES, "--format", kind)
    assert done.status == 2
    first = {"text": "out/d1/h01.out", "json": "out/d1/h01.json", "csv": "out/verdicts.csv"}[kind]
    assert done.line.startswith(f"noskjerf: {first} is there already") and "--overwrite writes it again" in done.line
    assert results(hours / "out") == before
    assert batch(hours, *FILES, "--format", kind, "--overwrite").status == 1
    assert results(hours / "out") != before


def test_a_batch_says_how_many_results_are_there(hours: Path) -> None:
    batch(hours, *FILES)
    said = "out/d1/h01.out is there already, and 2 more: --resume skips what is there, --overwrite writes it again"
    assert batch(hours, *FILES).line == f"noskjerf: {said}"


def test_a_result_that_comes_meanwhile_stays(tmp_path: Path) -> None:
    """The name is free when the batch begins, and taken while a text is read."""
    running = subprocess.Popen(
        [*COMMAND, "run", "--out", "out"], stdin=subprocess.PIPE, stderr=subprocess.PIPE, env=environment(), cwd=tmp_path, stdout=subprocess.DEVNULL
    )
    assert running.stdin is not None
    running.stdin.write(T[:10])
    running.stdin.flush()
    for _ in range(1200):
        if (tmp_path / "out").exists():
            break
        time.sleep(0.05)
    (tmp_path / "out" / "stdin.out").write_text("mine\n")
    _, err = running.communicate(T[10:], timeout=30)
    assert (running.returncode, err.decode().splitlines()[0]) == (2, "out/stdin.out: it is there already")
    assert {path.name for path in (tmp_path / "out").iterdir()} == {"stdin.out", "manifest.jsonl"}
    assert (tmp_path / "out" / "stdin.out").read_text() == "mine\n"


@pytest.mark.parametrize("links", [True, False])
def test_a_name_is_taken_only_where_it_is_free(links: bool, tmp_path: Path, monkeypatch: pytest.MonkeyPatch) -> None:
    """Also on a file system without links, and where another takes the name while the file is written."""
    if not links:
        monkeypatch.setattr(os, "link", no_link)
    path = tmp_path / "h.out"
    with pytest.raises(Trouble, match="h.out: it is there already$"), beside(str(path), over=False) as file:
        file.write(b"late")
        path.write_bytes(b"first")
    assert {each.name: each.read_bytes() for each in tmp_path.iterdir()} == {"h.out": b"first"}
    write_whole(str(tmp_path / "free.out"), b"free", over=False)
    assert {each.name: each.read_bytes() for each in tmp_path.iterdir()} == {"h.out": b"first", "free.out": b"free"}


def no_link(old: object, new: object) -> None:
    raise PermissionError(1, "Operation not permitted")


@pytest.mark.parametrize("at_once", ["1", "4"])
def test_batches_of_xargs_add_up(at_once: str, tmp_path: Path) -> None:
    """Every result of every batch, and a line of the manifest for each."""
    listed = b"".join(name.encode() + b"\0" for name in NAMES)
    asked = ["xargs", "-0", "-n", "20", "-P", at_once, *COMMAND, "run", "--out", str(tmp_path / "out")]
    done = subprocess.run(asked, input=listed, stderr=subprocess.PIPE, env=environment(), cwd=DATA, timeout=120)
    assert done.returncode == 123
    assert results(tmp_path / "out") == {f"{case.name}.out": case.printed for case in NAMED.values()}
    told = {entry["file"]: entry for entry in manifest(tmp_path / "out")}
    assert sorted(told) == NAMES and len(manifest(tmp_path / "out")) == len(NAMES)
    for name, case in NAMED.items():
        assert told[f"{name}.txt"]["status"] == ("refused" if case.refusal else "accepted")


@pytest.mark.parametrize("option", ["--resume", "--overwrite"])
def test_options_about_a_folder_want_one(option: str) -> None:
    assert noskjerf("run", option, stdin=T).line == "noskjerf: --resume and --overwrite are about the results in a folder, which --out names"


def test_resume_and_overwrite_exclude_each_other(hours: Path) -> None:
    assert batch(hours, "--resume", "--overwrite", *FILES).status == 2
    assert "--format csv has tables over all of them" in batch(hours, "--resume", "--format", "csv", *FILES).line


# ---- the manifest
def test_the_manifest_has_version_sums_and_status(hours: Path) -> None:
    batch(hours, *FILES, "nowhere.txt")
    sums = [hashlib.sha256((hours / path).read_bytes()).hexdigest() for path in FILES]
    same = {"version": __version__, "format": "text"}
    assert manifest(hours / "out") == [
        {"file": FILES[0], "sha256": sums[0], "status": "accepted", "result": "d1/h01.out", **same},
        {"file": FILES[1], "sha256": sums[1], "status": "accepted", "result": "d2/h01.out", **same},
        {"file": FILES[2], "sha256": sums[2], "status": "refused", "result": "d2/h02.out", "refusal": 11, "line": 15, **same},
        {"file": "nowhere.txt", "status": "trouble", "trouble": "nowhere.txt: No such file or directory", **same},
    ]


def test_the_sum_is_that_of_the_whole_file(hours: Path) -> None:
    """Also of a text that is too long, of which the engine is given the front; what has no end has no sum."""
    long = b"x" * (3 * MAX_TEXT)
    (hours / "long.txt").write_bytes(long)
    batch(hours, "long.txt", "/dev/zero", "-", stdin=T)
    told = [(entry["file"], entry["status"], entry.get("sha256")) for entry in manifest(hours / "out")]
    due = hashlib.sha256(long).hexdigest()
    assert told == [("long.txt", "refused", due), ("/dev/zero", "refused", None), ("-", "accepted", hashlib.sha256(T).hexdigest())]


def test_the_manifest_of_csv_has_a_line_for_each_text(hours: Path) -> None:
    batch(hours, *FILES, "--format", "csv")
    told = manifest(hours / "out")
    assert [(entry["file"], entry["status"], entry["format"]) for entry in told] == list(zip(FILES, ["accepted", "accepted", "refused"], ["csv"] * 3))
    assert not any("result" in entry for entry in told)


def test_lines_of_a_manifest_are_added_whole_or_not_at_all(tmp_path: Path) -> None:
    """After a line that a crash left unfinished they begin on one of their own."""
    lines = Manifest(str(tmp_path))
    (tmp_path / "manifest.jsonl").write_text('{"file": "a.txt", "sha')
    lines.add([Entry("b.txt", "5", "accepted", "text", "b.out"), Entry("c.txt", None, "trouble", "text", trouble="c.txt: gone")])
    assert set(lines.done()) == {"b.out"}
    assert (tmp_path / "manifest.jsonl").read_text().count("\n") == 3
    (tmp_path / "manifest.jsonl").unlink()
    (tmp_path / "manifest.jsonl").symlink_to("/dev/full")
    with pytest.raises(Trouble, match="No space left on device"):
        lines.add([Entry("b.txt", "5", "accepted", "text", "b.out")])


def test_a_batch_waits_for_another_that_adds_to_the_manifest(tmp_path: Path) -> None:
    lines = Manifest(str(tmp_path))
    adding = threading.Thread(target=lines.add, args=([Entry("b.txt", "5", "accepted", "text", "b.out")],), daemon=True)
    with open(tmp_path / "manifest.jsonl", "ab", buffering=0) as file:
        fcntl.flock(file, fcntl.LOCK_EX)
        file.write(b'{"file": ')
        adding.start()
        adding.join(timeout=1)
        assert adding.is_alive()
        file.write(b'"a.txt"}\n')
    adding.join(timeout=30)
    assert [json.loads(line)["file"] for line in (tmp_path / "manifest.jsonl").read_text().splitlines()] == ["a.txt", "b.txt"]


# ---- resuming
def test_what_is_there_is_skipped(hours: Path) -> None:
    batch(hours, *FILES[1:])
    kept = {path: (hours / "out" / path).stat() for path in ("d2/h01.out", "d2/h02.out")}
    done = batch(hours, *FILES, "--resume")
    assert (done.status, done.line) == (1, "3 texts: 2 accepted, 1 refused; 2 of them there already")
    assert results(hours / "out") == RESULTS
    assert [entry["file"] for entry in manifest(hours / "out")] == [*FILES[1:], FILES[0]]
    for path, before in kept.items():
        assert (hours / "out" / path).stat().st_mtime_ns == before.st_mtime_ns


@pytest.mark.parametrize("kind", ["text", "json"])
def test_a_text_that_has_changed_is_trouble_and_its_old_result_stays(kind: str, hours: Path) -> None:
    batch(hours, *FILES, "--format", kind)
    before = results(hours / "out")
    (hours / "d1" / "h01.txt").write_bytes(OTHER.text)
    done = batch(hours, *FILES, "--resume", "--format", kind)
    ending = {"text": "out", "json": "json"}[kind]
    told = f"out/d1/h01.{ending}: it is there, and isn't what its text comes to; --overwrite writes it again"
    assert (done.status, done.lines) == (2, [told, "3 texts: 1 accepted, 1 refused, 1 with trouble; 2 of them there already"])
    assert results(hours / "out") == before


@pytest.mark.parametrize("lost", ["", '{"file": "d1/h01.txt", "sha2', "[1]\nnull\n{}\n", "version"])
def test_a_result_that_the_manifest_does_not_have_is_compared(lost: str, hours: Path) -> None:
    """After a crash between a result and its line, with another version, or with no manifest; and then it is in the manifest."""
    batch(hours, *FILES)
    file = hours / "out" / "manifest.jsonl"
    file.write_text(file.read_text().replace(__version__, "0.0.0") if lost == "version" else lost)
    (hours / "out" / "d2" / "h01.out").write_text("cut")
    done = batch(hours, *FILES, "--resume")
    assert (done.status, len(done.headlines)) == (2, 3)
    assert done.lines[0].startswith("out/d2/h01.out: it is there, and isn't what its text comes to")
    assert (hours / "out" / "d2" / "h01.out").read_text() == "cut"
    assert set(Manifest(str(hours / "out")).done()) == {"d1/h01.out", "d2/h02.out"}
    (hours / "out" / "d2" / "h01.out").unlink()
    assert batch(hours, *FILES, "--resume").lines[-1] == "3 texts: 2 accepted, 1 refused; 2 of them there already"
    assert results(hours / "out") == RESULTS


def test_a_batch_that_was_ended_midway_is_resumed(tmp_path: Path) -> None:
    """Killed at any moment: what was done is there with its lines, whole, and what was left unfinished goes when the batch is resumed."""
    running = subprocess.Popen(
        [*COMMAND, "run", *NAMES[:40], "-", "--out", str(tmp_path / "out"), "--jobs", "1"],
        stdin=subprocess.PIPE, stdout=subprocess.DEVNULL, stderr=subprocess.DEVNULL, env=environment(), cwd=DATA,
    )  # fmt: skip
    file = tmp_path / "out" / "manifest.jsonl"
    for _ in range(1200):
        if file.exists() and file.read_bytes().count(b"\n") >= 30:
            break
        time.sleep(0.05)
    running.send_signal(signal.SIGKILL)
    running.communicate()
    done = {entry["result"] for entry in manifest(tmp_path / "out")}
    there = results(tmp_path / "out")
    assert len(done) >= 30 and done <= set(there)
    assert all(there[name] == NAMED[name.removesuffix(".out")].printed for name in there if not name.startswith("."))
    (tmp_path / "out" / f".{NAMES[50].removesuffix('.txt')}.out.0123abcd.tmp").write_bytes(b"half")
    again = noskjerf("run", *NAMES, "--out", tmp_path / "out", "--resume", cwd=DATA)
    assert f"; {len(done)} of them there already" in again.lines[-1]
    assert results(tmp_path / "out") == {f"{case.name}.out": case.printed for case in NAMED.values()}


@pytest.mark.parametrize("option", ["--resume", "--overwrite"])
def test_what_was_left_unfinished_of_its_results_alone_goes(option: str, hours: Path) -> None:
    left = [".h01.out.0123abcd.tmp", ".h01.out.tmp", ".h02.out.0123abcd.tmp", "h01.out.0123abcd.tmp", ".h01.out.0123ABCD.tmp"]
    (hours / "out" / "d1").mkdir(parents=True)
    for name in left:
        (hours / "out" / "d1" / name).write_bytes(b"half")
    batch(hours, *FILES, option)
    assert results(hours / "out") == RESULTS | {f"d1/{name}": b"half" for name in left[1:]}


def test_a_result_that_was_taken_away_is_made_again(hours: Path) -> None:
    batch(hours, *FILES)
    (hours / "out" / "d1" / "h01.out").unlink()
    assert batch(hours, *FILES, "--resume").lines[-1] == "3 texts: 2 accepted, 1 refused; 2 of them there already"
    assert results(hours / "out") == RESULTS


def test_formats_are_resumed_apart(hours: Path) -> None:
    batch(hours, *FILES)
    assert batch(hours, *FILES, "--format", "json", "--resume").lines[-1] == "3 texts: 2 accepted, 1 refused"
    told = json.loads((hours / "out" / "d1" / "h01.json").read_bytes())
    assert told["accepted"] is True and len(results(hours / "out")) == 6


# ---- pictures and pages
Making = Callable[..., tuple[int, str]]


@pytest.fixture
def make(hours: Path, monkeypatch: pytest.MonkeyPatch, capfd: pytest.CaptureFixture[str]) -> Making:
    """Runs draw or report where the texts are, and answers its status and what it says. The text stands for its picture: here it is about names."""
    monkeypatch.chdir(hours)
    monkeypatch.setattr("noskjerf.draw.pages", lambda text, form, view: [text])

    def made(*arguments: str) -> tuple[int, str]:
        return main(arguments), capfd.readouterr().err

    return made


@pytest.mark.parametrize(("command", "ending"), [("draw", ".svg"), ("report", ".html")])
def test_each_text_has_a_picture_of_its_own(command: str, ending: str, hours: Path, make: Making) -> None:
    for path in FILES[:2]:
        assert make(command, path) == (0, f"{path}{ending} written\n")
    first, second = ((hours / f"{path}{ending}").read_bytes() for path in FILES[:2])
    assert first != second
    (hours / FILES[0]).write_bytes(OTHER.text)
    assert make(command, FILES[0])[0] == 0
    assert (hours / f"{FILES[0]}{ending}").read_bytes() != first


@pytest.mark.parametrize(("command", "out"), [("draw", "hour.svg"), ("draw", "d1/h01.txt.svg"), ("report", "hour.html")])
def test_the_picture_of_another_text_stays(command: str, out: str, hours: Path, make: Making) -> None:
    assert make(command, FILES[0], "-o", out) == (0, f"{out} written\n")
    first = (hours / out).read_bytes()
    assert make(command, FILES[1], "-o", out) == (2, f"noskjerf: {out}: it is there already; --overwrite writes over it\n")
    assert (hours / out).read_bytes() == first
    assert make(command, FILES[1], "-o", out, "--overwrite") == (0, f"{out} written\n")
    assert (hours / out).read_bytes() != first


def test_two_kinds_of_picture_are_apart(make: Making) -> None:
    assert make("draw", FILES[0], "--constraints") == (0, "d1/h01.txt.constraints.svg written\n")


def test_pictures_of_standard_input(hours: Path) -> None:
    assert noskjerf("report", "-", cwd=hours, stdin=T).line == "stdin.html written"
    assert noskjerf("report", "-", cwd=hours, stdin=OTHER.text).status == 2
    done = noskjerf("report", "-", "-o", "-", cwd=hours, stdin=T)
    assert (done.status, done.out, done.lines) == (0, (hours / "stdin.html").read_bytes(), [])


@pytest.mark.parametrize("over", [[], ["--overwrite"]])
def test_a_page_is_never_written_over_its_text(over: list[str], hours: Path) -> None:
    done = noskjerf("report", FILES[0], "-o", FILES[0], *over, cwd=hours)
    assert (done.status, done.line) == (2, f"noskjerf: {FILES[0]} is the text, and would be written over")
    assert (hours / FILES[0]).read_bytes() == T


def test_the_page_of_a_refused_text_is_said_too(hours: Path) -> None:
    done = noskjerf("report", FILES[2], cwd=hours)
    assert (done.status, done.lines[0]) == (1, "d2/h02.txt.html written")
