"""Classroom bids: the list of request 2.12 by its own words, and the texts that `noskjerf new --classroom` writes for drills."""

from __future__ import annotations

import itertools
import os
from collections.abc import Iterator
from pathlib import Path

import pytest
from noskjerf import Curve, bid, classroom_bids, run
from noskjerf.starter import drills

from .cases import T, page_text
from .process import noskjerf
from .test_command import small_files

NAMES = [f"bid-{k:02}.txt" for k in range(37)]

# worked by hand
PLACES = {
    0: [(100, 0)],
    1: [(100, 10000)],
    2: [(100, 20000)],
    3: [(200, 0)],
    8: [(300, 20000)],
    9: [(100, 0), (200, 0)],
    10: [(100, 0), (200, 10000)],
    14: [(100, 20000), (200, 20000)],
    15: [(100, 0), (300, 0)],
    26: [(200, 20000), (300, 20000)],
    27: [(100, 0), (200, 0), (300, 0)],
    28: [(100, 0), (200, 0), (300, 10000)],
    36: [(100, 20000), (200, 20000), (300, 20000)],
}


def by_its_words() -> Iterator[list[tuple[int, int]]]:
    """ "by step count, then by the list of ends, then by the list of prices, smaller first" """
    for count in (1, 2, 3):
        for ends in itertools.combinations((100, 200, 300), count):
            for prices in itertools.combinations_with_replacement((0, 10000, 20000), count):
                yield list(zip(ends, prices))


def test_the_list() -> None:
    bids = classroom_bids()
    assert isinstance(bids, tuple)
    assert bids == tuple(Curve(0, steps) for steps in by_its_words())
    assert len(bids) == 37


@pytest.mark.parametrize("k", PLACES)
def test_a_place_worked_by_hand(k: int) -> None:
    assert classroom_bids()[k] == Curve(0, PLACES[k])


def test_each_is_accepted_in_every_month() -> None:
    for each in classroom_bids():
        for month in (0, 1, 12, 13, 24, 25, 1200, 1201, 2**64 - 1):
            bid(month, each.start, each.steps)


# ---- the texts
# Default prices of the texts, worked out by paper 01. Up to 200: R and M are (9000 × 200) / 200 = 9000, fuel 8100, fee part 100 / 200 up 1; 11 / 10 of 8100 + 480 + 1.
# The segment above is split at 4/5 of 300, R is (9500 × 300 - 9000 × 200) / 100 = 10500. Up to 240 it is limited to 9500: fuel 8550, fee part 100 / 40 up 3; 11 / 10 of
# 8550 + 480 + 3. Above: fuel 9450, fee part 100 / 60 up 2; 11 / 10 of 9450 + 480 + 2. The floor price is 12000 - 10000 / 2 + 100 = 7100, below all.
DEFAULTS = {200: 9440, 240: 9937, 300: 10926}


def price_at(steps: dict[int, int], quantity: int) -> int:
    """The price of the step with lower edge <= quantity < end."""
    return next(price for end, price in steps.items() if quantity < end)


def cut(bid: dict[int, int]) -> list[tuple[int, int]]:
    """The ends and prices of a bid after the interval: at each quantity the smaller of its price and the cap, neighbours of one price merged."""
    prices = [min(price_at(bid, quantity), price_at(DEFAULTS, quantity)) for quantity in range(max(bid))]
    merged: list[tuple[int, int]] = []
    for price, quantities in itertools.groupby(prices):
        merged.append(((merged[-1][0] if merged else 0) + len(list(quantities)), price))
    return merged


def page_of(bid: list[tuple[int, int]]) -> str:
    """What a text prints: the one seller is pivotal, with demand 200 and supply 300, each at effectiveness 500,000."""
    lines = ["interval constraint verdict demand left", "1 0 1 100000000 0", "interval constraint portfolio withheld", "1 0 0 150000000"]
    lines += ["interval resource end price", *(f"1 0 {end} {price}" for end, price in cut(dict(bid)))]
    return "".join(f"{line}\n" for line in lines)


def test_prices_of_a_page() -> None:
    """Bids of one step: 0 stays, 10000 is cut up to 240, 20000 everywhere."""
    assert cut({300: 0}) == [(300, 0)]
    assert cut({300: 10000}) == [(200, 9440), (240, 9937), (300, 10000)]
    assert cut({300: 20000}) == [(200, 9440), (240, 9937), (300, 10926)]


def test_each_text_is_accepted_and_prints_what_the_rules_say() -> None:
    texts = drills()
    assert list(texts) == NAMES
    for text, steps in zip(texts.values(), by_its_words()):
        pages = run(text).accepted()
        assert [page_text(page) for page in pages] == [page_of(steps)]


def test_the_texts_differ_in_their_bids_alone() -> None:
    for text, steps in zip(drills().values(), by_its_words()):
        lines = text.splitlines()
        first = lines.index("resource end price") + 1
        assert lines[first : first + len(steps)] == [f"0 {end} {price}" for end, price in steps]
        others = lines[:first] + lines[first + len(steps) :]
        assert others == OTHERS.splitlines()


# Case T, to the scale of the bids
OTHERS = """\
month
25
portfolio seller
0 1
resource portfolio start
0 0 0
resource end price
resource mw heat
0 0 10000
0 200 9000
0 300 9500
resource gas rate allowance om msc soc fee
0 900 0 0 400 20 60 1
constraint shadow
0 10000
resource lmp dispatch available floor
0 12000 200 300 0
resource constraint factor
0 0 -500000
parameter
100
"""


# ---- the command
def names(folder: Path) -> list[str]:
    return sorted(path.name for path in folder.iterdir())


@pytest.mark.parametrize("there", [False, True])
def test_the_command_writes_a_text_for_each(there: bool, tmp_path: Path) -> None:
    if there:
        (tmp_path / "drill").mkdir()
    done = noskjerf("new", "--classroom", "drill", cwd=tmp_path)
    assert (done.status, done.out, done.line) == (0, b"", "drill: 37 texts written, bid-00.txt to bid-36.txt")
    assert names(tmp_path / "drill") == NAMES
    assert {path.name: path.read_text() for path in (tmp_path / "drill").iterdir()} == drills()


def test_a_drill_is_a_loop_over_files(tmp_path: Path) -> None:
    noskjerf("new", "--classroom", "drill", cwd=tmp_path)
    texts = sorted((tmp_path / "drill").iterdir())
    done = noskjerf("run", *texts, "--out", "results", cwd=tmp_path)
    assert (done.status, done.line) == (0, "37 texts: 37 accepted, 0 refused")
    printed = [noskjerf("run", text).out.decode() for text in texts[:3]]
    assert printed == [page_of(PLACES[k]) for k in range(3)]


@pytest.mark.parametrize("folder", [".", "./", "a/../here/", "here\n"])
def test_a_folder_by_any_name(folder: str, tmp_path: Path) -> None:
    for name in ("a", "here"):
        (tmp_path / name).mkdir()
    done = noskjerf("new", "--classroom", folder, cwd=tmp_path)
    assert done.status == 0
    assert set(NAMES) <= set(names(tmp_path / folder))
    assert "\n" not in done.line


def test_other_files_of_the_folder_stay(tmp_path: Path) -> None:
    (tmp_path / "notes.md").write_text("mine")
    (tmp_path / "hour.txt").write_bytes(T)
    assert noskjerf("new", "--classroom", tmp_path).status == 0
    assert names(tmp_path) == sorted([*NAMES, "hour.txt", "notes.md"])
    assert ((tmp_path / "notes.md").read_text(), (tmp_path / "hour.txt").read_bytes()) == ("mine", T)


@pytest.mark.parametrize("name", [NAMES[0], NAMES[17], NAMES[36]])
def test_no_text_is_written_over(name: str, tmp_path: Path) -> None:
    (tmp_path / "drill").mkdir()
    (tmp_path / "drill" / name).write_text("mine")
    done = noskjerf("new", "--classroom", "drill", cwd=tmp_path)
    assert (done.status, done.out, done.line) == (2, b"", f"noskjerf: drill/{name}: it is there already")
    assert names(tmp_path / "drill") == [name]
    assert (tmp_path / "drill" / name).read_text() == "mine"


def test_a_second_time_nothing_is_written_over(tmp_path: Path) -> None:
    noskjerf("new", "--classroom", "drill", cwd=tmp_path)
    before = {path.name: path.stat().st_mtime_ns for path in (tmp_path / "drill").iterdir()}
    done = noskjerf("new", "--classroom", "drill", cwd=tmp_path)
    assert (done.status, done.line) == (2, "noskjerf: drill/bid-00.txt: it is there already")
    assert {path.name: path.stat().st_mtime_ns for path in (tmp_path / "drill").iterdir()} == before


def test_a_link_that_leads_nowhere_is_there(tmp_path: Path) -> None:
    (tmp_path / NAMES[5]).symlink_to(tmp_path / "elsewhere")
    assert noskjerf("new", "--classroom", tmp_path).line == f"noskjerf: {tmp_path / NAMES[5]}: it is there already"
    assert names(tmp_path) == [NAMES[5]]


@pytest.mark.parametrize("dangling", [False, True])
def test_a_file_in_the_folders_place(dangling: bool, tmp_path: Path) -> None:
    if dangling:
        (tmp_path / "drill").symlink_to(tmp_path / "elsewhere")
    else:
        (tmp_path / "drill").write_text("mine")
    done = noskjerf("new", "--classroom", "drill", cwd=tmp_path)
    assert (done.status, done.out, done.line) == (2, b"", "noskjerf: drill: it is there already, and is no folder")
    assert names(tmp_path) == ["drill"]


@pytest.mark.parametrize(
    ("folder", "told"),
    [
        ("no/drill", "no/drill: No such file or directory"),
        ("mine.txt/drill", "mine.txt/drill: Not a directory"),
        ("x" * 256, f"{'x' * 256}: File name too long"),
        ("", "--classroom: a folder is due, not '' (noskjerf new --help tells more)"),
        ("-", "--classroom: a folder is due, not '-' (noskjerf new --help tells more)"),
    ],
    ids=["nowhere", "below a file", "long", "empty", "standard output"],
)
def test_a_folder_that_cannot_be_made(folder: str, told: str, tmp_path: Path) -> None:
    (tmp_path / "mine.txt").write_text("mine")
    done = noskjerf("new", "--classroom", folder, cwd=tmp_path)
    assert (done.status, done.out, done.line) == (2, b"", f"noskjerf: {told}")
    assert names(tmp_path) == ["mine.txt"]


@pytest.mark.skipif(os.geteuid() == 0, reason="root writes to every folder")
@pytest.mark.parametrize("folder", ["closed", "closed/drill"])
def test_a_folder_without_leave(folder: str, tmp_path: Path) -> None:
    (tmp_path / "closed").mkdir(mode=0o500)
    done = noskjerf("new", "--classroom", folder, cwd=tmp_path)
    assert done.status == 2
    assert done.line.endswith("Permission denied")
    assert names(tmp_path / "closed") == []


def test_a_write_that_fails_leaves_nothing(tmp_path: Path) -> None:
    done = noskjerf("new", "--classroom", "drill", cwd=tmp_path, preexec_fn=small_files)
    assert (done.status, done.line) == (2, "noskjerf: drill/bid-00.txt: File too large")
    assert names(tmp_path) == []


def test_a_folder_that_was_there_stays(tmp_path: Path) -> None:
    (tmp_path / "drill").mkdir()
    assert noskjerf("new", "--classroom", "drill", cwd=tmp_path, preexec_fn=small_files).status == 2
    assert names(tmp_path / "drill") == []


@pytest.mark.parametrize("other", [["--resources", "2"], ["--constraints", "0"], ["--intervals", "2"], ["-o", "hour.txt"], ["--out", "-"]], ids=" ".join)
def test_it_goes_alone(other: list[str], tmp_path: Path) -> None:
    option = {"-o": "--out"}.get(other[0], other[0])
    told = f"noskjerf: {option} doesn't go with --classroom, which has texts of its own (noskjerf new --help tells more)"
    for arguments in ([*other, "--classroom", "drill"], ["--classroom", "drill", *other]):
        done = noskjerf("new", *arguments, cwd=tmp_path)
        assert (done.status, done.out, done.line) == (2, b"", told)
        assert names(tmp_path) == []


def test_a_folder_has_to_be_named() -> None:
    done = noskjerf("new", "--classroom")
    assert (done.status, done.out) == (2, b"")
    assert done.line == "noskjerf: argument --classroom: expected one argument (noskjerf new --help tells more)"
