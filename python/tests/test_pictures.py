"""Pictures and reports: that they show what the engine answers, and the manners of both."""

from __future__ import annotations

import functools
import re
import subprocess
import sys
import warnings
from dataclasses import replace
from html.parser import HTMLParser
from pathlib import Path
from typing import Any

import pytest
from noskjerf import Refusal, read, run
from noskjerf import _curve_pictures
from noskjerf import report as reports
from noskjerf._library import LibraryError, has_hours
from noskjerf.command import main
from noskjerf.figures import TARIFF, constraint_figures, effect_figures, step_figures
from noskjerf.shown import Account, account, answer, changes, floor_prices, money, near_mw, places_apart, reason, resource_stretches
from noskjerf.workings import workings

from .cases import CASES, ROOT, Case, T, name_of
from .hours import real_text

draw = pytest.importorskip("noskjerf.draw")
pytest.importorskip("matplotlib", reason="apt install python3-matplotlib")

hours = pytest.mark.skipif(not has_hours(), reason="the library has no hours in numbers: an older archive was there when it was built")
EXAMPLES = sorted((ROOT / "examples").glob("*.txt"))
ACCEPTED = [case for case in CASES if case.refusal is None]
REFUSED = [case for case in CASES if case.refusal is not None]


LARGE = real_text(64, 5, 4)
FIVE = real_text(5, 3, 4, share=0.8)
MANY = real_text(16, 32, 4)
THREE_SELLERS = (ROOT / "examples" / "three-sellers.txt").read_bytes()
CARRIES_ON = (ROOT / "examples" / "carries-on.txt").read_bytes()
HOURS: dict[str, str | bytes] = {case.name: case.text for case in CASES}
HOURS.update({"three sellers": THREE_SELLERS, "carries on": CARRIES_ON, "five": FIVE, "many": MANY, "large": LARGE})
NAMES = list(HOURS)


def hour_of(text: str | bytes) -> Account:
    hour = account(text)
    assert hour.refusal is None
    return hour


# What is shown


@pytest.mark.parametrize("case", CASES, ids=name_of)
def test_an_account_is_what_the_engine_printed(case: Case) -> None:
    hour, output = account(case.text), run(case.text)
    assert hour.refusal == output.refusal
    if hour.opening is not None:
        assert [taken.page for taken in hour.intervals] == list(output.pages)
        assert len(hour.defaults) == len(read(case.text).opening.resources)


@pytest.mark.parametrize("text", [*(case.text for case in ACCEPTED), LARGE], ids=[*map(name_of, ACCEPTED), "large"])
def test_stretches_hold_every_step(text: bytes) -> None:
    """Over each stretch every curve has one price: the engine's steps come back from them."""
    hour = hour_of(text)
    for r in range(len(hour.resources)):
        for i, taken in enumerate(hour.intervals):
            steps: list[tuple[int, int]] = []
            for row in resource_stretches(hour, r):
                if steps and steps[-1][1] == row.mitigated[i]:
                    steps.pop()
                steps.append((row.high, row.mitigated[i]))
            assert steps == [(step.end, step.price) for step in taken.page.curves[r].steps]


@hours
@pytest.mark.parametrize("name", ["five", "many", "large"])
def test_workings_of_large_hours_come_to_the_engines(name: str) -> None:
    assert workings(HOURS[name]).differences == ()


@hours
@pytest.mark.parametrize("text", [*(case.text for case in CASES), LARGE], ids=[*map(name_of, CASES), "large"])
def test_every_cut_price_is_one_of_the_engines(text: bytes) -> None:
    hour = account(text)
    for r in range(len(hour.resources)):
        floors = floor_prices(hour, r)
        for row in resource_stretches(hour, r):
            for i in range(len(hour.intervals)):
                assert reason(row, i, floors).split(" since ")[0] in ("as bid", "default price", "floor price")


@pytest.mark.parametrize(
    ("text", "due"),
    [
        (T, "1 of 1 bid is cut in interval 1."),
        (THREE_SELLERS, "2 of 6 bids are cut in interval 1."),
        (CARRIES_ON, "1 of 1 bid is cut in intervals 2, 3 and 4, none in interval 1."),
        (T[: T.index(b"constraint shadow")], "The text has no interval, so no bid is cut."),
        (T.replace(b"0 600000 20000", b"0 600000 0"), "No bid is cut in interval 1."),
        (T[: T.index(b"parameter")], "Refused at interval 1, line 22. No interval is accepted, so no bid is cut."),
        (b"month\n", "Refused at opening, line 2."),
    ],
)
def test_the_answer_in_a_line(text: bytes, due: str) -> None:
    assert answer(account(text)) == due


# Pictures


@functools.lru_cache(maxsize=None)
def figures(text: str | bytes, constraints: bool = False) -> list[Any]:
    """The pages of a text's picture, before they are saved; made once for all tests, which only look at them."""
    with draw._style():
        return list(draw._figures(hour_of(text), draw.View(constraints, title="hour.txt")))


@pytest.mark.parametrize("text", [T, FIVE, LARGE], ids=["T", "five", "large"])
def test_a_picture_has_the_engines_curves(text: bytes) -> None:
    hour = hour_of(text)
    drawn = [_steps(patch) for figure in figures(text) for axes in figure.axes for patch in axes.patches]
    for r in range(len(hour.resources)):
        for curve in (hour.resources[r].bid, hour.defaults[r], *(hour.curve(taken, r) for taken in hour.intervals)):
            due = ([step.price / 10000 for step in curve.steps], [curve.start / 100, *(step.end / 100 for step in curve.steps)])
            assert due in drawn


def _steps(patch: Any) -> tuple[list[float], list[float]]:
    values, edges, _ = patch.get_data()
    return list(values), list(edges)


def words(figure: Any) -> list[str]:
    """The words of a page, those along its axes left out."""
    in_panels = [text for axes in figure.axes for text in (axes._left_title, *axes.texts)]
    legends = [text for legend in figure.legends for text in legend.get_texts()]
    return [text.get_text() for text in (*figure.texts, *legends, *in_panels) if text.get_text()]


def boxes(figure: Any) -> list[tuple[Any, Any]]:
    """Where each word of a page stands, in pixels, and the panel that it belongs to."""
    renderer = _renderer(figure)
    figure.draw(renderer)
    texts = [(None, text) for text in (*figure.texts, *(text for legend in figure.legends for text in legend.get_texts()))]
    for axes in figure.axes:
        texts += [(axes, text) for text in (axes._left_title, *axes.texts, *(_along(axes.xaxis) + _along(axes.yaxis) if axes.axison else []))]
    return [(axes, text.get_window_extent(renderer)) for axes, text in texts if text.get_text()]


def overlaps(these: list[Any], those: list[Any]) -> set[tuple[int, int]]:
    """Which boxes of the one list overlap which of the other, also where they only touch."""
    import numpy

    one, other = numpy.array(these).reshape(-1, 1, 4), numpy.array(those).reshape(1, -1, 4)
    found = (one[..., :2] <= other[..., 2:]).all(-1) & (other[..., :2] <= one[..., 2:]).all(-1)
    return {(int(i), int(j)) for i, j in numpy.argwhere(found)}


def _along(axis: Any) -> list[Any]:
    low, high = sorted(axis.get_view_interval())
    return [axis.label, *(tick.label1 for tick in axis.get_major_ticks() if low <= tick.get_loc() <= high)]


@pytest.mark.parametrize("constraints", [False, True], ids=["curves", "constraints"])
@pytest.mark.parametrize("name", ["T", "three sellers", "carries on", "five", "many", "large", "C17_all_limits_at_once", "A06_no_interval", "C12_negative_first_R"])
def test_no_word_runs_off_or_into_another(name: str, constraints: bool) -> None:
    for figure in figures(HOURS[name], constraints):
        width, height = figure.bbox.width, figure.bbox.height
        found = [(of, box.extents) for of, box in boxes(figure)]
        panels = [(axes, axes.bbox.extents) for axes in figure.axes if axes.axison]
        assert all(box[0] >= 0 and box[1] >= 0 and box[2] <= width and box[3] <= height for _, box in found)
        assert overlaps([box for _, box in found], [box for _, box in found]) == {(i, i) for i in range(len(found))}
        assert all(found[i][0] is panels[j][0] for i, j in overlaps([box for _, box in found], [box for _, box in panels]))


@pytest.mark.parametrize(
    ("name", "constraints", "due"), [("large", False, 4), ("five", False, 2), ("many", True, 8), ("large", True, 2), ("three sellers", False, 1)]
)
def test_a_large_hour_has_pages_of_a_size_to_look_at(name: str, constraints: bool, due: int) -> None:
    made = figures(HOURS[name], constraints)
    assert len(made) == due
    assert all(side * 110 < 1920 for figure in made for side in figure.get_size_inches())
    if constraints:
        shown = [label.get_text() for figure in made for axes in figure.axes for label in axes.get_yticklabels() if axes.axison]
        binding = [v.constraint for taken in hour_of(HOURS[name]).intervals for v in taken.page.verdicts if v.finding != 2]
        assert [label.split(":")[0] for label in shown] == [f"constraint {c}" for c in binding]


@pytest.mark.parametrize("constraints", [False, True])
def test_figures_are_rounded_for_people(constraints: bool) -> None:
    said = "\n".join(word for figure in figures(FIVE, constraints) for word in words(figure))
    assert re.findall(r"\d\.\d+", said)
    assert not re.findall(r"\d\.\d{3,}", said)


def test_figures_that_differ_read_differently() -> None:
    """Demand and what is left decide the verdict, so rounding never makes them look equal."""
    demand, left = 171_273_401_879, 171_273_401_878
    kept = places_apart(demand, left, 8)
    assert (near_mw(demand, kept), near_mw(left, kept)) == ("1,712.73401879 MW", "1,712.73401878 MW")


def test_a_picture_has_title_floor_price_dispatch_and_locational_price() -> None:
    """Paper 01's Case T: dispatch 200 MW at a locational price of $60.00, and a floor price of $35.01."""
    (page,) = draw.pages(T, "svg", draw.View(title="one $5 and another $6"))
    said = re.findall(r"<text[^>]*>([^<]*)</text>", page.decode())
    assert "one $5 and another $6: bids" in said
    assert "dispatch 200 MW, locational price $60.00/MWh" in said
    assert "floor price $35.01/MWh" in said
    assert {"floor price", "dispatch", "locational price"} <= set(said)
    (axes,) = figures(T)[0].axes
    lines = {line.get_color(): (list(line.get_xdata()), list(line.get_ydata())) for line in axes.lines}
    assert lines[_curve_pictures.FLOOR["color"]][1] == [35.01, 35.01]
    assert lines[_curve_pictures.DISPATCH["color"]][0] == [200.0, 200.0]
    assert lines[_curve_pictures.LMP["color"]][1] == [60.0]


@pytest.mark.filterwarnings("ignore:Glyph")
@pytest.mark.parametrize("title", ["", " ", "W" * 300, "時段 " * 40, "a\nb\x00", "i" * 90], ids=["none", "blank", "wide", "no glyphs", "no letters", "narrow"])
def test_any_title_fits(title: str) -> None:
    for view in (draw.View(title=title), draw.View(True, title=title)):
        with warnings.catch_warnings():
            warnings.simplefilter("error")
            (page,) = draw.pages(T, "svg", view)
        assert b"\x00" not in page
        with draw._style():
            (figure,) = draw._figures(hour_of(T), view)
            assert figure.texts[0].get_window_extent(_renderer(figure)).x1 <= figure.bbox.width


def _renderer(figure: Any) -> Any:
    from matplotlib.backends.backend_agg import FigureCanvasAgg

    return FigureCanvasAgg(figure).get_renderer()


def test_a_picture_says_that_a_cap_changes_nothing() -> None:
    said = [word for word in words(figures(THREE_SELLERS)[0]) if "changes nothing" in word]
    assert said == ["dispatch 400 MW, locational price $50.00/MWh\nfloor price $30.01/MWh; the cap changes nothing"]


def test_intervals_that_share_a_panel_have_their_figures_above_it() -> None:
    """Each resource of a large hour, with the numbers of its text by interval."""
    hour = hour_of(LARGE)
    said = [word for figure in figures(LARGE) for axes in figure.axes for word in (text.get_text() for text in axes.texts) if word]
    assert len(said) == len(hour.resources)
    for r, lines in enumerate(said):
        dispatch, lmp, floor = lines.split("\n")
        assert dispatch == f"dispatch {', '.join(f'{taken.interval.dispatch[r] / 100:,}'.removesuffix('.0') for taken in hour.intervals)} MW"
        assert lmp.count("$") == 4
        assert floor.count("$") == sum(price is not None for price in floor_prices(hour, r))


@pytest.mark.parametrize(
    ("name", "due"),
    [
        ("A06_no_interval", "The text has no interval, so no constraint is judged."),
        ("A54_no_constraints", "Interval 1: it has no constraints"),
        ("carries on", "Interval 4: no constraint binds"),
    ],
)
def test_what_is_not_there_is_said(name: str, due: str) -> None:
    assert due in words(figures(HOURS[name], constraints=True)[0])
    if name == "A06_no_interval":
        assert "The text has no interval, so no bid is cut." in words(figures(HOURS[name])[0])


def titles(text: str | bytes, **view: Any) -> list[str]:
    with draw._style():
        made = list(draw._figures(hour_of(text), draw.View(**view)))
    return [axes.get_title("left") for figure in made for axes in figure.axes if axes.get_title("left")]


def test_some_resources_alone() -> None:
    assert titles(THREE_SELLERS, resources=(4, 1, 4)) == ["Resource 1, interval 1: cut", "Resource 4, interval 1: as bid"]
    assert titles(THREE_SELLERS, cut=True) == ["Resource 1, interval 1: cut", "Resource 2, interval 1: cut"]
    assert titles(THREE_SELLERS, resources=(0, 2), cut=True) == ["Resource 2, interval 1: cut"]
    with pytest.raises(IndexError, match="no resource 6: they are numbered 0 to 5"):
        draw.pages(THREE_SELLERS, "svg", draw.View(resources=(6,)))


def test_where_nothing_is_cut_the_picture_says_so() -> None:
    (page,) = draw.pages(T.replace(b"0 600000 20000", b"0 600000 0"), "svg", draw.View(cut=True))
    assert b">No bid is cut in interval 1.<" in page


def test_some_constraints_alone() -> None:
    """Resource 2 has a shift factor on constraint 0 alone, and that is the non-competitive one."""
    for view in (draw.View(True, (2,)), draw.View(True, None, True)):
        (page,) = draw.pages(THREE_SELLERS, "svg", view)
        assert b">constraint 0:<" in page and b">constraint 1:<" not in page
        assert b">Interval 1: 2 of 2 constraints bind, 1 shown<" in page


@pytest.mark.parametrize("form", draw.FORMS)
@pytest.mark.parametrize("constraints", [False, True])
def test_a_picture_is_the_same_each_time(form: str, constraints: bool) -> None:
    assert draw.pages(T, form, draw.View(constraints)) == draw.pages(T, form, draw.View(constraints))


def test_pages_are_one_pdf_or_a_file_each(tmp_path: Path, capfd: pytest.CaptureFixture[str]) -> None:
    text = tmp_path / "hour.txt"
    text.write_text(FIVE)
    assert main(["draw", str(text), "-o", str(tmp_path / "hour.pdf")]) == 0
    assert (tmp_path / "hour.pdf").read_bytes().count(b"/Type /Page ") == 2
    assert main(["draw", str(text), "-o", str(tmp_path / "hour.svg")]) == 0
    assert sorted(path.name for path in tmp_path.glob("*.svg")) == ["hour-1.svg", "hour-2.svg"]
    assert b">page 2 of 2<" in (tmp_path / "hour-2.svg").read_bytes()
    assert b">hour.txt: bids<" in (tmp_path / "hour-1.svg").read_bytes()
    assert capfd.readouterr().err.splitlines() == [f"{tmp_path / name} written" for name in ("hour.pdf", "hour-1.svg", "hour-2.svg")]


@pytest.fixture
def two_pages(tmp_path: Path, monkeypatch: pytest.MonkeyPatch) -> Path:
    """A folder with a text whose picture has two pages, and another's picture called as its second page would be."""
    monkeypatch.chdir(tmp_path)
    monkeypatch.setattr(draw, "pages", lambda text, form, view: [b"one", b"two"])
    (tmp_path / "hour.txt").write_bytes(T)
    (tmp_path / "hour-2.svg").write_bytes(b"another's")
    return tmp_path


def test_standard_output_takes_one_page(two_pages: Path, capfd: pytest.CaptureFixture[str]) -> None:
    assert main(["draw", "hour.txt", "-o", "-"]) == 2
    out, err = capfd.readouterr()
    assert out == "" and "the picture has 2 pages" in err


def test_no_page_is_written_over_another_texts(two_pages: Path, capfd: pytest.CaptureFixture[str]) -> None:
    assert main(["draw", "hour.txt", "-o", "hour.svg"]) == 2
    assert capfd.readouterr().err == "noskjerf: hour-2.svg: it is there already; --overwrite writes over it\n"
    assert {path.name: path.read_bytes() for path in two_pages.iterdir()} == {"hour.txt": T, "hour-2.svg": b"another's"}
    assert main(["draw", "hour.txt", "-o", "hour.svg", "--overwrite"]) == 0
    assert [(two_pages / f"hour-{number}.svg").read_bytes() for number in (1, 2)] == [b"one", b"two"]


def test_pages_by_the_texts_own_name_are_made_anew(two_pages: Path, capfd: pytest.CaptureFixture[str]) -> None:
    for _ in range(2):
        assert main(["draw", "hour.txt"]) == 0
        assert capfd.readouterr().err == "hour.txt-1.svg written\nhour.txt-2.svg written\n"


def test_no_page_is_written_over_its_text(two_pages: Path, capfd: pytest.CaptureFixture[str]) -> None:
    assert main(["draw", "hour-2.svg", "-o", "hour.svg", "--overwrite"]) == 2
    assert capfd.readouterr().err == "noskjerf: hour-2.svg is the text, and would be written over\n"
    assert (two_pages / "hour-2.svg").read_bytes() == b"another's" and not (two_pages / "hour-1.svg").exists()


@pytest.mark.parametrize("command", ["draw", "report"])
def test_the_line_of_a_value_at_fault_is_said(command: str, tmp_path: Path, capfd: pytest.CaptureFixture[str]) -> None:
    text = tmp_path / "hour.txt"
    text.write_bytes(T.replace(b"\n100\n", b"\n101\n"))
    assert main([command, str(text), "-o", str(tmp_path / "out.svg")]) == 1
    told = capfd.readouterr().err.splitlines()[-2:]
    assert told[0].endswith("(refusal 15)") and told[1] == "  line 23: parameter, 101 ($0.0101/MWh): outside $0 to $0.01/MWh"


def test_the_command_chooses(tmp_path: Path, capfd: pytest.CaptureFixture[str]) -> None:
    text, out = tmp_path / "hour.txt", tmp_path / "hour.svg"
    text.write_bytes(THREE_SELLERS)
    assert main(["draw", str(text), "-o", str(out), "--resource", "2", "--resource", "1", "--cut", "--title", "Two"]) == 0
    assert out.read_bytes() == draw.pages(THREE_SELLERS, "svg", draw.View(False, (1, 2), True, "Two"))[0]
    assert main(["draw", str(text), "-o", str(out), "--resource", "6"]) == 2
    assert "the hour has no resource 6" in capfd.readouterr().err


@pytest.mark.parametrize("name", ["A06_no_interval", "A54_no_constraints", "C18_binding_without_factors", "C12_negative_first_R", "C17_all_limits_at_once"])
@pytest.mark.parametrize("constraints", [False, True])
def test_unusual_hours_are_drawn(name: str, constraints: bool) -> None:
    with draw._style():
        assert all(page.startswith(b"<?xml") for page in draw._saved(figures(HOURS[name], constraints), "svg"))


@pytest.mark.parametrize("case", REFUSED, ids=name_of)
def test_a_refused_text_is_not_drawn(case: Case) -> None:
    with pytest.raises(Refusal) as refused:
        draw.pages(case.text)
    assert (refused.value.number, refused.value.line) == case.refusal


def test_the_command_draws(tmp_path: Path, capfd: pytest.CaptureFixture[str]) -> None:
    text, out = tmp_path / "hour.txt", tmp_path / "hour.svg"
    text.write_bytes(T)
    assert main(["draw", str(text), "-o", str(out)]) == 0
    assert [out.read_bytes()] == draw.pages(T, "svg", draw.View(title="hour.txt"))
    assert capfd.readouterr() == ("", f"{out} written\n")


@pytest.mark.parametrize(("out", "status"), [("hour.svg", 1), ("hour.gif", 2), ("hour", 2), ("none/hour.svg", 1)])
def test_the_command_draws_nothing_of_a_refused_text(out: str, status: int, tmp_path: Path, capfd: pytest.CaptureFixture[str]) -> None:
    text = tmp_path / "hour.txt"
    text.write_bytes(T[:-1])
    assert main(["draw", str(text), "-o", str(tmp_path / out)]) == status
    said, told = capfd.readouterr()
    assert said == "" and len(re.findall(r"^\S", told, re.MULTILINE)) == 1
    assert [path.name for path in tmp_path.iterdir()] == ["hour.txt"]


def test_a_folder_that_is_not_there_is_trouble(tmp_path: Path, capfd: pytest.CaptureFixture[str]) -> None:
    text = tmp_path / "hour.txt"
    text.write_bytes(T)
    assert main(["draw", str(text), "-o", str(tmp_path / "none" / "hour.svg")]) == 2
    assert main(["report", str(text), "-o", str(tmp_path / "none" / "hour.html")]) == 2
    assert capfd.readouterr().err.count("\n") == 2


def test_without_matplotlib_the_package_is_named(monkeypatch: pytest.MonkeyPatch, tmp_path: Path, capfd: pytest.CaptureFixture[str]) -> None:
    text = tmp_path / "hour.txt"
    text.write_bytes(T)
    modules: dict[str, Any] = sys.modules
    monkeypatch.setitem(modules, "matplotlib", None)
    assert main(["draw", str(text), "-o", str(tmp_path / "hour.svg")]) == 2
    assert "python3-matplotlib" in capfd.readouterr().err


# Reports

VOID = {"meta", "input", "path", "rect"}


class Page(HTMLParser):
    """What a page is made of: its tags are closed in order, no id comes twice, and it leads nowhere else."""

    def __init__(self, page: str) -> None:
        super().__init__()
        self.open: list[str] = []
        self.ids: list[str] = []
        self.links: list[str] = []
        self.kinds: list[str] = []
        self.words: list[str] = []
        self.feed(page)
        self.close()
        assert self.open == []
        assert len(self.ids) == len(set(self.ids))
        assert all(link.startswith("#") and link[1:] in self.ids for link in self.links)

    def handle_starttag(self, tag: str, attrs: list[tuple[str, str | None]]) -> None:
        named = dict(attrs)
        assert not {"src", "srcset", "action", "data", "poster", "xlink:href"} & set(named)
        assert tag not in ("link", "img", "iframe", "object", "embed")
        self.ids += [value for key, value in attrs if key == "id" and value]
        self.links += [value or "" for key, value in attrs if key == "href"]
        self.kinds += (named.get("class") or "").split()
        if tag not in VOID or (tag == "rect" and not (self.get_starttag_text() or "").endswith("/>")):
            self.open.append(tag)

    def handle_startendtag(self, tag: str, attrs: list[tuple[str, str | None]]) -> None:
        self.kinds += (dict(attrs).get("class") or "").split()

    def handle_endtag(self, tag: str) -> None:
        assert self.open.pop() == tag

    def handle_data(self, data: str) -> None:
        self.words.append(data)


@pytest.mark.parametrize("case", CASES, ids=name_of)
def test_a_report_stands_alone(case: Case) -> None:
    page = reports.page(case.text, case.name)
    shown = Page(page)
    hour = account(case.text)
    assert "http://" not in page and "https://" not in page and "@import" not in page
    assert shown.kinds.count("resource") == len(hour.resources)
    assert shown.kinds.count("chart") == len(hour.resources) * max(1, len(hour.intervals))
    assert ("refusal" in shown.kinds) == (case.refusal is not None)
    assert ("fault" in shown.kinds) == (case.refusal is not None)


@pytest.mark.parametrize("text", [T, LARGE], ids=["T", "large"])
def test_a_report_has_the_engines_prices(text: bytes) -> None:
    words = "\n".join(Page(reports.page(text, "hour")).words)
    for taken in hour_of(text).intervals:
        for curve in taken.page.curves:
            assert all(money(step.price) in words for step in curve.steps)


def said_of(text: str | bytes) -> dict[str, int]:
    """How often a report says each of the three of a resource in an interval."""
    page = reports.page(text, "hour")
    said = ("The interval cuts it", "A cap applies and changes nothing", "No cap applies")
    return {each: page.count(f"<strong>{each}</strong>") for each in said}


@hours
@pytest.mark.parametrize("name", NAMES)
def test_a_report_says_cut_where_a_price_is_lower_than_before(name: str) -> None:
    """A cut is seen by the engine's curves alone, and a cap by what the engine says of it."""
    hour = account(HOURS[name])
    each = [(r, taken) for r in range(len(hour.resources)) for taken in hour.intervals]
    cut = {(r, taken.number) for r, taken in each if changes(resource_stretches(hour, r), taken.number - 1)}
    capped = {(r, taken.number) for r, taken in each if taken.causes is not None and taken.causes[r].capped}
    assert cut <= capped
    due = (len(cut), len(capped - cut), len(each) - len(capped))
    assert tuple(said_of(HOURS[name]).values()) == due


@hours
def test_a_cap_that_changes_nothing_is_told_with_the_two_prices() -> None:
    """docs/GALLERY.md: of six bids two are cut; that of resource 5, which asks $45.00, is capped by its default price of $47.2444."""
    assert tuple(said_of(THREE_SELLERS).values()) == (2, 1, 3)
    page = reports.page(THREE_SELLERS, "hour")
    assert "Closest to it, from 250 MW to 400 MW, the price is $45.00/MWh and its cap $47.2444/MWh." in page


@hours
def test_a_report_has_the_figures_that_explain_has_folded_away() -> None:
    page, found = reports.page(THREE_SELLERS, "hour"), workings(THREE_SELLERS)
    inside = "".join(re.findall(r'<details class="working">.*?</details>', page, re.DOTALL))
    for resource in found.resources:
        assert resource.default is not None
        for segment in resource.default.segments:
            assert all(f"<td>{figure.value}</td>" in inside for figure in step_figures(segment, resource.default))
    (interval,) = found.intervals
    for constraint in interval.constraints:
        assert all(f"<td>{figure.value}</td>" in inside for figure in constraint_figures(constraint))
    for effect in interval.resources:
        assert all(f"<td>{figure.value}</td>" in page for figure in effect_figures(effect, 100))
    # resource 1 on constraint 0: effectiveness 0.5 of 250 MW dispatched, 300 MW available and 50 MW that can't be withheld
    assert "<tr><td>1</td><td>1</td><td>0.5</td><td>125</td><td>150</td><td>125</td></tr>" in inside


def test_exact_figures_stand_in_tables_and_rounded_ones_in_sentences() -> None:
    page = reports.page(FIVE, "hour")
    (taken, *_) = hour_of(FIVE).intervals
    demand = taken.page.verdicts[0].demand
    exact = f"{demand // 10**8:,}.{demand % 10**8:08d}".rstrip("0")
    assert f"<td>{exact} MW</td>" in page
    assert f"demand {near_mw(demand)}</li>" in page
    sentences = re.sub(r"<(table|title|pre).*?</\1>", "", page, flags=re.DOTALL)
    assert re.findall(r"\d\.\d\d MW", sentences)
    assert not re.findall(r"\d\.\d{3,} MW", sentences)


def test_a_library_without_hours_in_numbers_has_a_report_and_a_picture(monkeypatch: pytest.MonkeyPatch) -> None:
    def missing(*_: object) -> None:
        raise LibraryError("no hours")

    monkeypatch.setattr("noskjerf.shown.Hour", type("Hour", (), {"open": missing}))
    monkeypatch.setattr(reports, "workings", missing)
    page = reports.page(THREE_SELLERS, "hour")
    assert page.count("the engine's cause isn't shown") == 6
    assert "2 of 6 bids are cut in interval 1." in page and 'class="working"' not in page
    assert draw.pages(THREE_SELLERS)


def test_a_figure_that_differs_from_the_engines_is_told_at_the_top(monkeypatch: pytest.MonkeyPatch) -> None:
    monkeypatch.setattr(reports, "workings", lambda text: replace(workings(text), differences=("resource 0 <differs>",)))
    page = reports.page(T, "hour")
    assert page.index("These figures differ from the engine's:") < page.index("resource 0 &lt;differs&gt;") < page.index("The hour at a glance")


# the rule of docs/RULES.md that each figure's paragraphs stand below
RULED = {
    "80% mark": "Steps and the split",
    "R = n / w, up": "The segment's rate",
    "R, limited": "R, the incremental heat rate of a step",
    "M": "M",
    "fuel": "Fuel",
    "greenhouse": "Greenhouse",
    "om + msc + soc": "Cost",
    "fee part": "Fee part",
    "cost": "Cost",
    "with the adder": "Step price",
    "raised": "Raising",
    "default price": "Step price",
    "binds": "Binding",
    "effectiveness": "Counterflow",
    "demand": "Demand",
    "supply": "Supply",
    "can withhold": "What can be withheld",
    "withheld": "The three largest",
    "left": "Left",
    "verdict": "Verdict",
    "component's term": "The component",
    "component": "The component",
    "cap applies": "Where caps apply",
    "competitive price": "Competitive price",
    "floor price": "Floor price",
    "cap": "The cap",
}


def test_tariff_paragraphs_are_those_of_the_rules() -> None:
    rules = (ROOT / "docs" / "RULES.md").read_text("utf-8")
    below = re.findall(r"^\*\*([^*]+?)\.?\*\*.*?^> (.*?) · `", rules, re.MULTILINE | re.DOTALL)
    named = {heading: paragraphs for heading, paragraphs in reversed(below)}
    hour = re.findall(r"^## 10 The hour$.*?^> (.*?) · `", rules, re.MULTILINE | re.DOTALL)
    assert {**{name: named[heading] for name, heading in RULED.items()}, "carries on": hour[0]} == TARIFF


def test_a_report_says_the_engines_version_and_the_answer() -> None:
    page = reports.page(THREE_SELLERS, "hour")
    version = re.findall(r'__version__ = "(.*)"', (ROOT / "python" / "noskjerf" / "_version.py").read_text())[0]
    assert '<p class="answer">2 of 6 bids are cut in interval 1.</p>' in page
    assert f"Engine: noskjerf {version}." in page


def test_a_report_marks_the_line_at_fault() -> None:
    text = (ROOT / "examples" / "refused.txt").read_bytes()
    page = reports.page(text, "refused.txt")
    assert '<li class="fault" value="26"><mark>1 52.00 5000 20000 0</mark><span class="note">← a decimal point in lmp, 52.00</span>' in page


def test_a_report_has_a_caret_and_what_was_due() -> None:
    words = "".join(Page(reports.page((ROOT / "examples" / "refused.txt").read_bytes(), "refused.txt")).words)
    assert "Line 26 is the first that isn't of the form, at column 5;" in words
    assert "\n1 52.00 5000 20000 0\n    ^\n" in words
    assert 'Due: 1 <lmp> <dispatch> <available> <floor> or the names line "resource constraint factor"\n' in words
    assert "Mend: lmp is in units of 0.0001 dollar: 52.00 dollars is 520000\n" in words


def test_names_and_texts_are_no_markup() -> None:
    page = reports.page(b"<script>alert(1)</script>\n", '<b>"&.txt')
    assert "<b>" not in page and "<script>alert" not in page
    assert "&lt;b&gt;&quot;&amp;.txt" in page


@pytest.mark.parametrize(("text", "status"), [(T, 0), (T[:-1], 1)])
def test_the_command_reports(text: bytes, status: int, tmp_path: Path, capfd: pytest.CaptureFixture[str]) -> None:
    file, out = tmp_path / "hour.txt", tmp_path / "hour.html"
    file.write_bytes(text)
    assert main(["report", str(file), "-o", str(out)]) == status
    assert out.read_text("utf-8") == reports.page(text, "hour.txt")
    assert len(re.findall(r"^\S", capfd.readouterr().err, re.MULTILINE)) == 1 + status


# The gallery


@pytest.mark.parametrize("path", EXAMPLES, ids=[path.stem for path in EXAMPLES])
def test_examples_are_accepted_but_for_one(path: Path) -> None:
    assert (run(path.read_bytes()).refusal is not None) == (path.stem == "refused")


def test_the_gallery_has_not_drifted() -> None:
    done = subprocess.run([sys.executable, str(ROOT / "python" / "gallery")], capture_output=True, text=True, check=False)
    assert (done.returncode, done.stderr) == (0, "")
