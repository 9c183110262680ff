"""A report in a browser: the slider by keyboard, on a phone and on paper, what is shown without JavaScript, and nothing asked of a network.

It needs Debian's chromium, chromium-driver and python3-selenium.
"""

from __future__ import annotations

import contextlib
import shutil
from collections.abc import Iterator
from pathlib import Path
from typing import Any

import pytest
from noskjerf import report as reports

from .cases import ROOT
from .test_pictures import FIVE, LARGE, MANY

webdriver = pytest.importorskip("selenium.webdriver", reason="apt install python3-selenium")
pytestmark = pytest.mark.skipif(not (shutil.which("chromium") and shutil.which("chromedriver")), reason="apt install chromium chromium-driver")

ARGUMENTS = ("--headless=new", "--no-sandbox", "--disable-gpu", "--disable-dev-shm-usage", "--window-size=1200,900")
RIGHT, ENTER, SPACE = "\ue014", "\ue007", " "


def opened(script: bool) -> Any:
    from selenium.webdriver.chrome.service import Service

    options = webdriver.ChromeOptions()
    for argument in ARGUMENTS:
        options.add_argument(argument)
    options.set_capability("goog:loggingPrefs", {"browser": "ALL"})
    if not script:
        options.add_experimental_option("prefs", {"profile.managed_default_content_settings.javascript": 2})
    return webdriver.Chrome(service=Service(shutil.which("chromedriver") or "chromedriver"), options=options)


@pytest.fixture(scope="module")
def browser() -> Iterator[Any]:
    driver = opened(script=True)
    yield driver
    driver.quit()


@pytest.fixture(scope="module")
def scriptless() -> Iterator[Any]:
    driver = opened(script=False)
    yield driver
    driver.quit()


def page(folder: Path, text: str | bytes) -> str:
    file = folder / "hour.html"
    file.write_text(reports.page(text, "hour.txt"), "utf-8")
    return file.as_uri()


# asked once for all, since each question to a browser takes its time
SHOWN = """
const seen = e => e.checkVisibility({checkOpacity: true, checkVisibilityCSS: true}) && e.getClientRects().length > 0;
return [...document.querySelectorAll(arguments[0])].filter(seen)"""


def shown(driver: Any, kind: str) -> list[Any]:
    found: list[Any] = driver.execute_script(SHOWN, kind)
    return found


def intervals(driver: Any) -> set[str]:
    return set(driver.execute_script(f"{SHOWN}.map(e => e.dataset.interval)", ".interval"))


CARRIES_ON = (ROOT / "examples" / "carries-on.txt").read_bytes()


def test_the_slider_by_keyboard(browser: Any, tmp_path: Path) -> None:
    browser.get(page(tmp_path, CARRIES_ON))
    assert intervals(browser) == {"1"}
    browser.find_element("id", "interval").send_keys(RIGHT, ENTER)
    assert intervals(browser) == {"2"}
    assert browser.find_element("id", "told").text == "2 of 4"
    browser.find_element("id", "all").send_keys(SPACE)
    assert intervals(browser) == {"1", "2", "3", "4"}
    assert browser.get_log("browser") == []


def test_a_link_to_an_interval(browser: Any, tmp_path: Path) -> None:
    browser.get(page(tmp_path, CARRIES_ON) + "#interval-3")
    assert intervals(browser) == {"3"}


def test_only_resources_that_are_cut(browser: Any, tmp_path: Path) -> None:
    browser.get(page(tmp_path, LARGE))
    assert len(shown(browser, ".resource")) == 64
    browser.find_element("id", "all").send_keys(SPACE)
    browser.find_element("id", "only").send_keys(SPACE)
    cut = browser.find_elements("css selector", '.resource[data-cut]:not([data-cut=""])')
    assert 0 < len(cut) < 64
    assert shown(browser, ".resource") == cut
    assert browser.get_log("browser") == []


def test_a_small_window_scrolls_one_way(browser: Any, tmp_path: Path) -> None:
    browser.get(page(tmp_path, CARRIES_ON))
    browser.set_window_size(500, 900)
    assert browser.execute_script("return document.documentElement.scrollWidth <= window.innerWidth")
    browser.set_window_size(1200, 900)


# An A4 page within its margins, and a phone, in CSS pixels
PAPER, PHONE = (703, 1031), (390, 844)


@contextlib.contextmanager
def sized(driver: Any, size: tuple[int, int], media: str) -> Iterator[None]:
    """The window as a phone has it, or a page of paper."""
    metrics = {"width": size[0], "height": size[1], "deviceScaleFactor": 1, "mobile": media == "screen"}
    driver.execute_cdp_cmd("Emulation.setDeviceMetricsOverride", metrics)
    driver.execute_cdp_cmd("Emulation.setEmulatedMedia", {"media": media})
    yield
    driver.execute_cdp_cmd("Emulation.clearDeviceMetricsOverride", {})
    driver.execute_cdp_cmd("Emulation.setEmulatedMedia", {"media": ""})


CLIPPED = """
const wide = document.documentElement.clientWidth + 1;
return [...document.querySelectorAll("main *")].filter(e => {
  const box = e.getBoundingClientRect(), style = getComputedStyle(e);
  const scrolls = ["auto", "scroll"].includes(style.overflowX) || ["auto", "scroll"].includes(style.overflowY);
  return box.width > 0 && (box.right > wide || scrolls);
}).map(e => e.outerHTML.slice(0, 80));
"""


@pytest.mark.parametrize("text", [FIVE, MANY], ids=["five", "many"])
def test_on_paper_nothing_is_clipped_and_nothing_scrolls(browser: Any, tmp_path: Path, text: str) -> None:
    browser.get(page(tmp_path, text))
    browser.execute_script("document.querySelectorAll('details').forEach(each => { each.open = true; });")
    with sized(browser, PAPER, "print"):
        assert browser.execute_script(CLIPPED) == []
        assert intervals(browser) == {"1", "2", "3", "4"}
        assert shown(browser, ".slider") == []
        letters = browser.execute_script(LETTERS)
    assert min(height for height, _, _ in letters) >= 9
    assert all(left >= -1 and right >= -1 for _, left, right in letters)


LETTERS = """
return [...document.querySelectorAll(".chart text, .bars text")].filter(e => e.getBoundingClientRect().width > 0).map(e => {
  const box = e.getBoundingClientRect(), around = e.closest("svg").getBoundingClientRect();
  return [box.height, box.left - around.left, around.right - box.right];
});
"""


@pytest.mark.parametrize("text", [FIVE, LARGE], ids=["five", "large"])
def test_on_a_phone_labels_are_readable(browser: Any, tmp_path: Path, text: str) -> None:
    with sized(browser, PHONE, "screen"):
        browser.get(page(tmp_path, text))
        assert browser.execute_script("return document.documentElement.scrollWidth <= window.innerWidth")
        letters = browser.execute_script(LETTERS)
    assert len(letters) > 10
    assert min(height for height, _, _ in letters) >= 12
    assert all(left >= -1 and right >= -1 for _, left, right in letters)


@pytest.mark.parametrize("anchor", ["glance", "constraints", "resource-3", "tables"])
def test_on_a_phone_the_bar_hides_no_heading(browser: Any, tmp_path: Path, anchor: str) -> None:
    with sized(browser, PHONE, "screen"):
        browser.get(page(tmp_path, FIVE))
        browser.execute_script(f"location.hash = '{anchor}';")
        below = "return document.querySelector('#%s h2, #%s h3').getBoundingClientRect().top - document.querySelector('.slider').getBoundingClientRect().bottom"
        assert browser.execute_script(below % (anchor, anchor)) >= 0


def test_workings_are_unfolded_at_once(browser: Any, tmp_path: Path) -> None:
    browser.get(page(tmp_path, FIVE))
    unfolded = "return [...document.querySelectorAll('.working')].map(each => each.open)"
    assert set(browser.execute_script(unfolded)) == {False}
    browser.find_element("id", "unfold").send_keys(SPACE)
    assert set(browser.execute_script(unfolded)) == {True}
    assert browser.get_log("browser") == []


def test_all_intervals_without_script(scriptless: Any, tmp_path: Path) -> None:
    scriptless.get(page(tmp_path, CARRIES_ON))
    assert intervals(scriptless) == {"1", "2", "3", "4"}
    assert shown(scriptless, ".slider") == []


def test_the_line_at_fault_is_seen(browser: Any, tmp_path: Path) -> None:
    browser.get(page(tmp_path, (ROOT / "examples" / "refused.txt").read_bytes()))
    (fault,) = shown(browser, ".fault")
    assert fault.find_element("tag name", "mark").text == "1 52.00 5000 20000 0"
    assert browser.get_log("browser") == []
