"""`noskjerf run`: many files, formats, names, the summary and the bar."""

from __future__ import annotations

import csv
import io
import json
import os
import pty
import subprocess
from decimal import Decimal
from pathlib import Path
from typing import Any

import pytest

from .cases import CASES, DATA, NAMED, Case, T, name_of
from .process import COMMAND, environment, noskjerf

TEXTS = sorted(DATA.glob("*.txt"))
NAMES = [path.name for path in TEXTS]
REFUSED = [case for case in CASES if case.refusal]
ACCEPTED = DATA / "T.txt"


@pytest.mark.parametrize("jobs", ["1", "3", "40"])
def test_every_case_has_its_bytes(jobs: str, tmp_path: Path) -> None:
    done = noskjerf("run", *NAMES, "--out", tmp_path / "out", "--jobs", jobs, cwd=DATA)
    assert done.status == 1
    assert done.out == b""
    assert results(tmp_path / "out") == {f"{case.name}.out": case.printed for case in CASES}
    assert done.lines[-1] == f"{len(CASES)} texts: {len(CASES) - len(REFUSED)} accepted, {len(REFUSED)} refused"
    assert [line.split(":")[0] for line in done.headlines[:-1]] == [f"{case.name}.txt" for case in REFUSED]


def results(out: Path) -> dict[str, bytes]:
    """The files of a folder of results but its manifest."""
    files = {str(path.relative_to(out)): path.read_bytes() for path in out.rglob("*") if path.is_file()}
    assert files.pop("manifest.jsonl", None) is not None
    return files


def manifest(out: Path) -> list[dict[str, Any]]:
    return [json.loads(line) for line in (out / "manifest.jsonl").read_text().splitlines()]


def test_several_texts_have_their_names_before_them() -> None:
    other = DATA / "S01_larger_first.txt"
    done = noskjerf("run", ACCEPTED, other)
    parts = [f"==> {path} <==\n".encode() + path.with_suffix(".out").read_bytes() for path in (ACCEPTED, other)]
    assert (done.status, done.out) == (0, b"".join(parts))
    assert done.line == "2 texts: 2 accepted, 0 refused"


def test_trouble_with_one_file_stops_no_other(tmp_path: Path) -> None:
    done = noskjerf("run", "T.txt", "nowhere.txt", "-", "--out", tmp_path, stdin=T, cwd=DATA)
    assert done.status == 2
    assert done.lines == ["nowhere.txt: No such file or directory", "3 texts: 2 accepted, 0 refused, 1 with trouble"]
    assert results(tmp_path) == {"T.out": NAMED["T"].printed, "stdin.out": NAMED["T"].printed}


def json_printed(told: dict[str, object]) -> bytes:
    """What a json object says, printed as the text prints it."""
    lines: list[str] = []
    for page in told["pages"]:  # type: ignore[attr-defined]
        i = page["interval"]
        lines += ["interval constraint verdict demand left"]
        lines += [f"{i} {v['constraint']} {v['finding']} {v['demand']} {v['left']}" for v in page["verdicts"]]
        lines += ["interval constraint portfolio withheld"]
        lines += [f"{i} {s['constraint']} {s['portfolio']} {s['withheld']}" for s in page["sellers"]]
        lines += ["interval resource end price"]
        lines += [f"{i} {c['resource']} {s['end']} {s['price']}" for c in page["curves"] for s in c["steps"]]
    refusal = told["refusal"]
    if isinstance(refusal, dict):
        lines += ["refusal line", f"{refusal['number']} {refusal['line']}"]
    return "".join(f"{line}\n" for line in lines).encode()


def test_json_has_an_object_a_line() -> None:
    done = noskjerf("run", *TEXTS, "--format", "json")
    objects = [json.loads(line) for line in done.out.splitlines()]
    assert [each["file"] for each in objects] == [str(path) for path in TEXTS]
    assert [json_printed(each) for each in objects] == [case.printed for case in CASES]
    assert [each["accepted"] for each in objects] == [case.refusal is None for case in CASES]


def test_json_files(tmp_path: Path) -> None:
    noskjerf("run", "T.txt", "--format", "json", "--out", tmp_path, cwd=DATA)
    assert json_printed(json.loads((tmp_path / "T.json").read_bytes())) == NAMED["T"].printed


TABLES = {
    "interval constraint verdict demand left": "verdicts",
    "interval constraint portfolio withheld": "sellers",
    "interval resource end price": "curves",
    "refusal line": "refusals",
}


def printed_rows(case: Case) -> dict[str, list[list[str]]]:
    """The rows that a case prints, by table."""
    rows: dict[str, list[list[str]]] = {name: [] for name in TABLES.values()}
    at = ""
    for line in case.printed.decode().splitlines():
        if line in TABLES:
            at = TABLES[line]
        else:
            rows[at].append(line.split())
    return rows


def test_csv_has_four_tables_over_all_texts(tmp_path: Path) -> None:
    noskjerf("run", *TEXTS, "--format", "csv", "--out", tmp_path)
    assert sorted(path.name for path in tmp_path.iterdir()) == ["curves.csv", "manifest.jsonl", "refusals.csv", "sellers.csv", "verdicts.csv"]
    for names, table in TABLES.items():
        header, *rows = csv.reader(io.StringIO((tmp_path / f"{table}.csv").read_text()))
        width = 1 + len(names.split())
        assert header[:width] == ["file", *names.split()]
        due = [[str(DATA / f"{case.name}.txt"), *row] for case in CASES for row in printed_rows(case)[table]]
        assert [row[:width] for row in rows] == due


def test_a_table_of_refusals_has_the_line_at_fault_beside_the_parts_last() -> None:
    refused = [DATA / f"{name}.txt" for name in ("B17_bid_start_below_default", "A32_leading_zero", "A23_fifth_interval")]
    told = noskjerf("run", *refused, "--format", "csv").out.decode().split("\n\n")[-1]
    header, value, form, fifth = csv.reader(io.StringIO(told))
    assert header == ["file", "refusal", "line", "part", "sentence", "at", "fault"]
    assert (value[2], value[5], value[6].split(",")[0]) == ("15", "6", "line 6: start of the bid of resource 0")
    assert (form[2], form[5]) == (str(NAMED["A32_leading_zero"].refusal[1]),) * 2  # type: ignore[index]
    assert "a leading zero" in form[4] and "due: " in form[6]
    assert fifth[5:] == ["", ""]


def test_json_has_the_values_at_fault() -> None:
    told = json.loads(noskjerf("run", DATA / "B17_bid_start_below_default.txt", "--format", "json").out)
    assert [(fault["line"], fault["value"]) for fault in told["faults"]] == [(6, 9999)]
    assert json.loads(noskjerf("run", ACCEPTED, "--format", "json").out)["faults"] == []


def test_a_line_that_is_not_of_the_form_is_shown_with_a_caret() -> None:
    done = noskjerf("run", "-", stdin=T.replace(b"0 0 10000", b"0\t0 10000"))
    assert done.lines == [
        "standard input: opening, line 6, column 2: a tab (refusal 17)",
        "  0\\t0 10000",
        "   ^",
        "  due: 0 <portfolio> <start>",
        '   or: the names line "resource end price"',
        "  mend: one space parts two values",
    ]


def test_many_values_at_fault_are_not_a_wall() -> None:
    """Three are named, and how many more there are."""
    lines = T.decode().splitlines()
    factors = [f"{r} {c} 1000001" for r in range(1) for c in range(9)]
    text = "\n".join([*lines[:16], *(f"{c} 5" for c in range(9)), *lines[17:20], *factors, *lines[21:]]) + "\n"
    done = noskjerf("run", stdin=text.encode())
    assert [line.split(":")[0] for line in done.lines] == ["standard input", "  line 29", "  line 30", "  line 31", "  and 6 more"]


def test_csv_on_standard_output() -> None:
    tables = noskjerf("run", ACCEPTED, "--format", "csv").out.decode().split("\n\n")
    rows = [[line.split(",") for line in table.splitlines()] for table in tables]
    assert [len(table) for table in rows] == [2, 2, 5, 1]
    assert rows[2][2] == [str(ACCEPTED), "1", "0", "20000", "378402"]


def test_csv_in_mw_and_dollars(tmp_path: Path) -> None:
    """Every number is the engine's, with the point where docs/FORMAT.md's units put it."""
    noskjerf("run", *TEXTS, "--format", "csv", "--out", tmp_path / "engine")
    noskjerf("run", *TEXTS, "--format", "csv", "--out", tmp_path / "units", "--units")
    places = {"demand": 8, "left": 8, "withheld": 8, "end": 2, "price": 4}
    for table in TABLES.values():
        engine, shown = (list(csv.DictReader(io.StringIO((tmp_path / folder / f"{table}.csv").read_text()))) for folder in ("engine", "units"))
        assert engine
        assert [{name: moved(cell, places.get(name)) for name, cell in row.items()} for row in shown] == engine


def moved(cell: str, places: int | None) -> str:
    """A cell with its point moved to the right."""
    return cell if places is None else str(int(Decimal(cell).scaleb(places)))


def test_csv_of_t_in_mw_and_dollars() -> None:
    """Case T: 100 MW of demand, 150 MW withheld, and the default prices that docs/FORMAT.md has in dollars."""
    tables = noskjerf("run", "T.txt", "--format", "csv", "--units", cwd=DATA).out.decode().split("\n\n")
    assert "T.txt,1,0,1,100.00,0.00" in tables[0]
    assert "T.txt,1,0,0,150.00" in tables[1]
    assert tables[2].splitlines()[1:] == [f"T.txt,1,0,{step}" for step in ("150.00,30.00", "200.00,37.8402", "240.00,44.4403", "300.00,48.8402")]


@pytest.mark.parametrize("kind", ["text", "json"])
def test_units_are_of_csv_alone(kind: str) -> None:
    assert noskjerf("run", ACCEPTED, "--units", "--format", kind).line == "noskjerf: --units is about the tables of --format csv"


def test_one_name_with_two_endings_collides(tmp_path: Path) -> None:
    for name in ("hour.txt", "hour.text"):
        (tmp_path / name).write_bytes(T)
    assert "would both be written" in noskjerf("run", "hour.txt", "hour.text", "--out", ".", "--format", "json", cwd=tmp_path).line


@pytest.mark.parametrize(("name", "kind"), [("hour.out", "text"), ("hour.json", "json"), ("curves.csv", "csv")])
def test_a_result_is_never_written_over_a_text(name: str, kind: str, tmp_path: Path) -> None:
    (tmp_path / name).write_bytes(T)
    done = noskjerf("run", name, "--out", ".", "--format", kind, cwd=tmp_path)
    assert done.status == 2
    assert "is a text" in done.line
    assert (tmp_path / name).read_bytes() == T


def test_standard_input_is_read_once() -> None:
    assert noskjerf("run", "-", "-", stdin=T).line == "noskjerf: standard input is named twice"


def test_a_folder_that_cannot_be_made_is_trouble(tmp_path: Path) -> None:
    (tmp_path / "out").write_text("")
    done = noskjerf("run", ACCEPTED, "--out", tmp_path / "out")
    assert (done.status, done.line) == (2, f"noskjerf: {tmp_path / 'out'}: File exists")


# ---- the bar
def on_a_terminal(arguments: list[str], both: bool) -> tuple[bytes, bytes]:
    """What a terminal shows of standard error, or of both outputs, and standard output where it is apart."""
    terminal, own = pty.openpty()
    running = subprocess.Popen([*COMMAND, *arguments], stdin=subprocess.DEVNULL, stdout=own if both else subprocess.PIPE, stderr=own, env=environment())
    os.close(own)
    shown = b""
    while True:
        try:
            read = os.read(terminal, 65536)
        except OSError:
            break
        if not read:
            break
        shown += read
    os.close(terminal)
    return shown, running.communicate(timeout=30)[0] or b""


def test_a_terminal_shows_a_bar_and_the_summary(tmp_path: Path) -> None:
    pytest.importorskip("tqdm")
    shown, _ = on_a_terminal(["run", *map(str, TEXTS), "--out", str(tmp_path)], both=False)
    assert f" 0/{len(CASES)} [".encode() in shown
    assert shown.count(b"(refusal ") == len(REFUSED)
    assert f"{len(CASES)} texts: {len(CASES) - len(REFUSED)} accepted, {len(REFUSED)} refused".encode() in shown


@pytest.mark.parametrize("both", [True, False])
def test_no_bar_for_one_text(both: bool) -> None:
    shown, _ = on_a_terminal(["run", str(ACCEPTED)], both)
    assert b"text/s]" not in shown


def test_no_bar_among_results_on_the_terminal() -> None:
    shown, _ = on_a_terminal(["run", *map(str, TEXTS[:5])], both=True)
    assert b"text/s]" not in shown


def test_no_bar_in_a_pipe(tmp_path: Path) -> None:
    assert not any("text/s]" in line for line in noskjerf("run", *TEXTS, "--out", tmp_path).lines)


def test_a_result_is_where_its_text_is_not_below_the_current_folder(tmp_path: Path) -> None:
    noskjerf("run", *TEXTS, "--out", tmp_path / "out", cwd=tmp_path)
    below = str(DATA).lstrip("/")
    assert results(tmp_path / "out") == {f"{below}/{case.name}.out": case.printed for case in CASES}
