"""`noskjerf tables`, `noskjerf text` and `noskjerf new`."""

from __future__ import annotations

import re
from pathlib import Path

import pytest
from noskjerf import Parts, Refusal, read, run, write
from noskjerf.csv_tables import csv_files, from_folder
from noskjerf.files import Trouble
from noskjerf.starter import starter

from .cases import CASES, DATA, ROOT, Case, T, name_of
from .process import noskjerf

# the names lines that docs/FORMAT.md gives
NAMES = [line.split() for line in re.findall(r"^```lines\n(.*)$", (ROOT / "docs" / "FORMAT.md").read_text(), re.MULTILINE)]


def is_read(case: Case) -> bool:
    try:
        read(case.text)
    except Refusal:
        return False
    return True


READ = [case for case in CASES if is_read(case)]


def lines_read(case: Case) -> bytes:
    """The lines of a text up to the last of the part that is refused, or before the one at fault."""
    if case.refusal is None:
        return case.text
    number, line = case.refusal
    lines = case.text.split(b"\n")[:-1]
    if number != 17:
        return b"".join(each + b"\n" for each in lines[:line])
    whole = b"".join(each + b"\n" for each in lines[: line - 1])
    ends = [match.end() for match in re.finditer(rb"^parameter\n.*\n", whole, re.MULTILINE)]
    return whole[: ends[-1]] if ends else whole[: whole.index(b"constraint shadow")] if b"constraint shadow" in whole else whole


def test_most_texts_are_read() -> None:
    assert len(READ) > 80


@pytest.mark.parametrize("units", [False, True])
@pytest.mark.parametrize("case", READ, ids=name_of)
def test_tables_and_back(case: Case, units: bool, tmp_path: Path) -> None:
    """To the byte, also the tables of the text that comes of them."""
    files = csv_files(read(case.text), units)
    for name, data in files.items():
        (tmp_path / name).write_bytes(data.encode())
    parts = from_folder(str(tmp_path), units)
    assert write(*parts).encode() == lines_read(case)
    assert csv_files(Parts(parts[0], tuple(parts[1]), None), units) == files


def test_files_and_columns_are_called_as_the_tables(tmp_path: Path) -> None:
    assert len(NAMES) == 10
    noskjerf("tables", DATA / "T.txt", "-o", tmp_path / "t")
    due = {"_".join(names) + ("" if i < 6 else "_1") + ".csv": names for i, names in enumerate(NAMES)}
    assert {path.name: path.read_text().splitlines()[0].split(",") for path in (tmp_path / "t").iterdir()} == due


@pytest.mark.parametrize("units", [[], ["--units"]])
def test_the_commands_there_and_back(units: list[str], tmp_path: Path) -> None:
    for case in [case for case in READ if case.refusal is None][::9]:
        folder = tmp_path / case.name
        done = noskjerf("tables", DATA / f"{case.name}.txt", "-o", folder, *units)
        assert (done.status, done.out, done.lines) == (0, b"", [])
        done = noskjerf("text", folder, *units)
        assert (done.status, done.out, done.lines) == (0, case.text, [])


def test_a_text_refused_by_value_has_tables_and_status_1(tmp_path: Path) -> None:
    text = T.replace(b"\n100\n", b"\n101\n")
    done = noskjerf("tables", "-o", tmp_path / "t", stdin=text)
    assert done.status == 1
    assert done.line.endswith("(refusal 15); the tables end there")
    done = noskjerf("text", tmp_path / "t", "-o", tmp_path / "again.txt")
    assert (done.status, (tmp_path / "again.txt").read_bytes()) == (1, text)
    assert done.headlines[0].endswith("(refusal 15)") and done.lines[1:] == ["  line 23: parameter, 101 ($0.0101/MWh): outside $0 to $0.01/MWh"]


def test_a_text_that_is_not_read_has_none(tmp_path: Path) -> None:
    done = noskjerf("tables", "-o", tmp_path / "t", stdin=b"month\n025\n")
    assert done.status == 1
    assert done.line.endswith("(refusal 17); no table is written")
    assert not (tmp_path / "t").exists()


def test_the_folder_is_called_as_the_text(tmp_path: Path) -> None:
    (tmp_path / "hour.txt").write_bytes(T)
    assert noskjerf("tables", "hour.txt", cwd=tmp_path).status == 0
    assert (tmp_path / "hour.tables" / "month.csv").read_text() == "month\n25\n"


def test_a_folder_with_files_stays_as_it_is(tmp_path: Path) -> None:
    (tmp_path / "mine").write_text("mine")
    done = noskjerf("tables", DATA / "T.txt", "-o", tmp_path)
    assert (done.status, done.line) == (2, f"noskjerf: {tmp_path}: Directory not empty")
    assert [path.name for path in tmp_path.iterdir()] == ["mine"]


# ---- tables from other hands
@pytest.fixture
def folder(tmp_path: Path) -> Path:
    for name, data in csv_files(read(T)).items():
        (tmp_path / name).write_text(data)
    return tmp_path


def test_rows_columns_spaces_and_marks_of_a_spreadsheet(folder: Path) -> None:
    (folder / "resource_mw_heat.csv").write_bytes("\ufeffheat,resource,mw\r\n10000, 0 ,10000\r\n9000,0,20000\r\n9500,0,30000\r\n\r\n".encode())
    assert noskjerf("text", folder).out == T


def test_pandas_may_have_written_them(folder: Path) -> None:
    pandas = pytest.importorskip("pandas")
    for path in folder.glob("*.csv"):
        pandas.read_csv(path).to_csv(path, index=False)
    assert noskjerf("text", folder).out == T


# Case T as docs/FORMAT.md works it in dollars and MW: 100 MW to 150 MW at 30 dollars, up to 300 MW at 90 dollars
UNITS_OF_T = {
    "month.csv": "month\n25\n",
    "portfolio_seller.csv": "portfolio,seller\n0,1\n",
    "resource_portfolio_start.csv": "resource,portfolio,start\n0,0,100.00\n",
    "resource_end_price.csv": "resource,end,price\n0,150.00,30.00\n0,300.00,90.00\n",
    "resource_mw_heat.csv": "resource,mw,heat\n0,100.00,10000\n0,200.00,9000\n0,300.00,9500\n",
    "resource_gas_rate_allowance_om_msc_soc_fee.csv": "resource,gas,rate,allowance,om,msc,soc,fee\n0,4.00,0.0,0.00,2.00,0.10,0.30,0.005\n",
    "constraint_shadow_1.csv": "constraint,shadow\n0,50.00\n",
    "resource_lmp_dispatch_available_floor_1.csv": "resource,lmp,dispatch,available,floor\n0,60.00,200.00,300.00,0.00\n",
    "resource_constraint_factor_1.csv": "resource,constraint,factor\n0,0,-0.5\n",
    "parameter_1.csv": "parameter\n0.01\n",
}


def test_case_t_in_mw_and_dollars(tmp_path: Path) -> None:
    assert noskjerf("tables", DATA / "T.txt", "-o", tmp_path / "t", "--units").status == 0
    assert {path.name: path.read_text() for path in (tmp_path / "t").iterdir()} == UNITS_OF_T
    done = noskjerf("text", tmp_path / "t", "--units")
    assert (done.status, done.out) == (0, T)


def test_tables_in_mw_and_dollars_are_never_taken_for_the_engines(tmp_path: Path) -> None:
    """Whichever table is the only one in MW and dollars: all but the two without a unit."""
    for i, (name, data) in enumerate(UNITS_OF_T.items()):
        folder = tmp_path / str(i)
        folder.mkdir()
        for other, own in csv_files(read(T)).items():
            (folder / other).write_text(data if other == name else own)
        if name in ("month.csv", "portfolio_seller.csv"):
            assert write(*from_folder(str(folder))).encode() == T
        else:
            with pytest.raises(Trouble, match=f"{name}, line 2: .*: write "):
                from_folder(str(folder))


def test_other_ways_to_write_mw_and_dollars(tmp_path: Path) -> None:
    for name, data in UNITS_OF_T.items():
        other = re.sub(r"\.00\b", "", data).replace(",0.0,", ",0,").replace("-0.5", "-5E-1").replace(",0.30", ", .3000 ")
        (tmp_path / name).write_text(other)
    assert noskjerf("text", tmp_path, "--units").out == T


def test_pandas_may_have_written_mw_and_dollars(tmp_path: Path) -> None:
    """Also 1e-06, which is how pandas writes a millionth."""
    pandas = pytest.importorskip("pandas")
    for name, data in UNITS_OF_T.items():
        (tmp_path / name).write_text(data.replace("-0.5", "-0.000001"))
        pandas.read_csv(tmp_path / name).to_csv(tmp_path / name, index=False)
    assert "e-06" in (tmp_path / "resource_constraint_factor_1.csv").read_text()
    assert noskjerf("text", tmp_path, "--units").out == T.replace(b"0 0 -500000", b"0 0 -1")


def test_a_table_of_every_cent(tmp_path: Path) -> None:
    """All prices from $0.00 to $999.99, and quantities from 0.01 MW to 1,000 MW."""
    rows = [f"0,{(i + 1) // 100}.{(i + 1) % 100:02d},{i // 100}.{i % 100:02d}" for i in range(100_000)]
    for name, data in {**UNITS_OF_T, "resource_end_price.csv": "\n".join(["resource,end,price", *rows, ""])}.items():
        (tmp_path / name).write_text(data)
    opening, intervals = from_folder(str(tmp_path), units=True)
    assert [(step.end, step.price) for step in opening.resources[0].bid.steps] == [(i + 1, 100 * i) for i in range(100_000)]
    again = csv_files(Parts(opening, tuple(intervals), None), units=True)
    assert again["resource_end_price.csv"] == (tmp_path / "resource_end_price.csv").read_text()


STEPS = "resource,end,price\n0,15000,300000\n"
WHOLE = "; --units takes tables in MW and dollars"


@pytest.mark.parametrize(
    ("row", "told"),
    [
        ("0,300.00,40.00", "end is '300.00', and a whole number of hundredths of a MW is due: write 30000 for 300.00 MW, or 300 if it is in these units already" + WHOLE),
        ("0,30000,64.29", "price is '64.29', and a whole number of units of 0.0001 dollar is due: write 642900 for 64.29 dollars" + WHOLE),
        ("0,30000.,0", "end is '30000.', and a whole number of hundredths of a MW is due: write 3000000 for 30000. MW, or 30000 if it is in these units already" + WHOLE),
        ("0,300.255,0", "end is '300.255', and a whole number of hundredths of a MW is due"),
        ("0.0,30000,0", "resource is '0.0', and a whole number is due: write 0"),
        ("0,3e4,0", "end is '3e4', and a whole number of hundredths of a MW is due: write 3000000 for 3e4 MW, or 30000 if it is in these units already" + WHOLE),
        ("0,$300,0", "end is '$300', and a whole number of hundredths of a MW is due"),
    ],
)
def test_a_decimal_point_in_the_engines_tables_says_what_to_write(row: str, told: str, folder: Path) -> None:
    (folder / "resource_end_price.csv").write_text(STEPS + row + "\n")
    done = noskjerf("text", folder)
    assert (done.status, done.out) == (2, b"")
    assert done.line == f"noskjerf: {folder / 'resource_end_price.csv'}, line 3: {told}"


@pytest.mark.parametrize(
    ("name", "old", "new", "told"),
    [
        ("resource_end_price.csv", "150.00", "150.001", "line 2: end is '150.001', and a number of MW with at most 2 decimal places is due, such as 0.25"),
        ("resource_end_price.csv", "30.00", "30.00001", "line 2: price is '30.00001', and a number of dollars with at most 4 decimal places is due, such as 0.25"),
        ("resource_end_price.csv", "90.00", "$90.00", "line 3: price is '$90.00', and a number of dollars with at most 4 decimal places is due, such as 0.25"),
        ("resource_constraint_factor_1.csv", "-0.5", "-0.0000001", "line 2: factor is '-0.0000001', and a number with at most 6 decimal places is due, such as 0.25"),
        ("resource_mw_heat.csv", "9500", "9500.0", "line 4: heat is '9500.0', and a whole number is due: write 9500"),
        ("resource_end_price.csv", "90.00", "9" * 50, "line 3: price is '" + "9" * 40 + "', and a number of dollars with at most 4 decimal places is due, such as 0.25"),
        ("resource_end_price.csv", "90.00", "", "line 3: price is '', and a number of dollars with at most 4 decimal places is due, such as 0.25"),
    ],
)
def test_what_is_no_amount_names_the_cell(name: str, old: str, new: str, told: str, tmp_path: Path) -> None:
    for each, data in UNITS_OF_T.items():
        (tmp_path / each).write_text(data.replace(old, new) if each == name else data)
    done = noskjerf("text", tmp_path, "--units")
    assert (done.status, done.out) == (2, b"")
    assert done.line == f"noskjerf: {tmp_path / name}, {told}"


def test_a_missing_parameter_in_units(tmp_path: Path) -> None:
    for name, data in UNITS_OF_T.items():
        (tmp_path / name).write_text(data.replace("0.01", "-") if name == "parameter_1.csv" else data)
    text = noskjerf("text", tmp_path, "--units").out
    assert text == T.replace(b"\n100\n", b"\n-\n")
    noskjerf("tables", "-o", tmp_path / "again", "--units", stdin=text)
    assert (tmp_path / "again" / "parameter_1.csv").read_text() == "parameter\n-\n"


def test_a_missing_parameter(folder: Path) -> None:
    (folder / "parameter_1.csv").write_text("parameter\n-\n")
    assert noskjerf("text", folder).out == T.replace(b"\n100\n", b"\n-\n")


@pytest.mark.parametrize(
    ("name", "data", "told"),
    [
        ("month.csv", None, "month.csv: No such file or directory"),
        ("parameter_1.csv", None, "parameter_1.csv: No such file or directory"),
        ("month.csv", "month\n25\n26\n", "month.csv: one row is due, not 2"),
        ("month.csv", "", "month.csv, line 1: the columns month are due, not none"),
        ("month.csv", "months\n25\n", "month.csv, line 1: the columns month are due, not months"),
        ("month.csv", "month\nJune\n", "month.csv, line 2: month is 'June', and a whole number is due"),
        ("month.csv", "month\n25.5\n", "month.csv, line 2: month is '25.5', and a whole number is due"),
        ("month.csv", "month\n" + "9" * 40 + "\n", "month.csv, line 2: month is '" + "9" * 40 + "', and a whole number is due"),
        ("month.csv", "month\n-\n", "month.csv, line 2: month is '-', and a whole number is due"),
        ("portfolio_seller.csv", "portfolio,seller\n0\n", "portfolio_seller.csv, line 2: 2 values are due, not 1"),
        ("portfolio_seller.csv", "portfolio,seller\n1,1\n", "sellers[0]: the rows count up from 0, and 1 stands where 0 is due"),
        ("resource_end_price.csv", "resource,end,price\n1,15000,0\n", "steps[0]: there is no resource 1"),
        ("resource_gas_rate_allowance_om_msc_soc_fee.csv", "resource,gas,rate,allowance,om,msc,soc,fee\n", "a row for each resource"),
        ("resource_constraint_factor_1.csv", "resource,constraint,factor\n0,7,1\n", "interval 1: factors[0].constraint"),
        ("constraint_shadow_3.csv", "constraint,shadow\n", "constraint_shadow_2.csv: No such file or directory"),
        ("constraint_shadow_x.csv", "constraint,shadow\n", "constraint_shadow_x.csv: no table is called so"),
        ("month.csv", b"month\n\xff\n", "month.csv: "),
        ("month.csv", 'month\n"25\n', "month.csv: "),
    ],
)
def test_tables_that_make_no_text_are_trouble(folder: Path, name: str, data: str | bytes | None, told: str) -> None:
    if data is None:
        (folder / name).unlink()
    else:
        (folder / name).write_bytes(data if isinstance(data, bytes) else data.encode())
    done = noskjerf("text", folder, "-o", folder / "hour.txt")
    assert done.status == 2
    assert told in done.line
    assert not (folder / "hour.txt").exists()


def test_a_folder_that_is_not_there() -> None:
    assert noskjerf("text", "/nowhere").line == "noskjerf: /nowhere: No such file or directory"


# ---- new
@pytest.mark.parametrize("resources", [1, 2, 3, 4, 5, 17, 64])
@pytest.mark.parametrize("constraints", [0, 1, 2, 7, 32])
@pytest.mark.parametrize("intervals", [0, 1, 4])
def test_a_new_text_is_accepted_with_its_counts(resources: int, constraints: int, intervals: int) -> None:
    text = starter(resources, constraints, intervals)
    pages = run(text).accepted()
    opening = read(text).opening
    assert (len(opening.resources), len(pages)) == (resources, intervals)
    assert all(len(page.verdicts) == constraints for page in pages)
    if pages and constraints:
        assert any(page_curve.steps != resource.bid.steps for page_curve, resource in zip(pages[0].curves, opening.resources))


def test_new_writes_a_text_and_its_comments(tmp_path: Path) -> None:
    done = noskjerf("new", "--resources", "2", "--intervals", "3", "-o", "hour.txt", cwd=tmp_path)
    assert (done.status, done.out, done.line) == (0, b"", "hour.txt and hour.txt.md written")
    text, comments = (tmp_path / "hour.txt").read_text(), (tmp_path / "hour.txt.md").read_text()
    assert noskjerf("run", "hour.txt", cwd=tmp_path).status == 0
    for names in NAMES:
        first, last = map(int, re.findall(rf"^## {' '.join(names)} \(lines (\d+) to (\d+)\)$", comments, re.MULTILINE)[0])
        shown = "".join(f"{line}\n" for line in text.splitlines()[first - 1 : last])
        assert f"```\n{shown}```\n" in comments


def test_new_on_standard_output(tmp_path: Path) -> None:
    done = noskjerf("new", cwd=tmp_path)
    assert done.status == 0
    assert run(done.out).refusal is None
    assert list(tmp_path.iterdir()) == []


@pytest.mark.parametrize("there", ["hour.txt", "hour.txt.md"])
def test_new_writes_over_nothing(there: str, tmp_path: Path) -> None:
    (tmp_path / there).write_text("mine")
    done = noskjerf("new", "-o", "hour.txt", cwd=tmp_path)
    assert (done.status, done.line) == (2, f"noskjerf: {there}: it is there already")
    assert [path.name for path in tmp_path.iterdir()] == [there]
    assert (tmp_path / there).read_text() == "mine"
